#!/usr/bin/env python3
"""Respells the repository's own definitions and lemmas as today's Rattle spells names. It ran once, at the top, right after port.py.

A word is in snake case: `lowestFree` becomes `lowest_free`, `holdsH` becomes `holds_h`. A dash joins two names, and a plain word is added with
an underscore: `order-append` stays, a phrase as `wear-never-falls` becomes `wear_never_falls`. A constructor or a field of specs/ has no dash. Facts and types
(capital first), lines of the machine (W1 .. L18), names of src/ and whatever a function's own Proof.antt declares stay as they are. Where two names
would fall together, the one with the dash keeps it. Names are changed in code, and in comments and pages where they stand in backticks or
can't be prose.
"""
import glob
import os
import re
import sys

NAME = r"[^\s(){}\[\].,;:λ`⟨⟩«»\"]+"
DECLARED = re.compile(
    r"^(\s*)((?:(?:abbrev|unfoldable|pub|data|record|syntax) )*)(" + NAME + r")((?: " + NAME + r")*)\s*(?:\([^=]*\)|\{[^=]*\})*\s*:\s")
NO_NAME = {"use", "module", "let", "in", "where", "--", "old", "new", "file", "mod", "_"}
# Words of std that our lemmas' names join.
STD = {"append", "map", "length", "not", "zero", "suc", "cong", "reverse", "all", "any", "take", "drop", "sum", "set", "get_or", "replicate",
       "bool", "nat_le", "nat_lt", "ltb", "leb", "eqb"}


# Names that would fall together with another's, or that a rule gets wrong.
BY_HAND = {"held_by": "somebody_holds", "givesUp": "giving_up", "isMapped": "is_number_mapped", "onLine": "is_on_line",
           "LETTER-B": "LETTER_B", "LETTER-F": "LETTER_F", "LETTER-S": "LETTER_S",
           "From-begin": "FromBegin", "At-op": "AtOp", "Nobody-but": "NobodyBut"}

# Plain words in a lemma's name, though something has that name.
PLAIN = set("one is by on in or of to no a so as and for each first last other most real after before once now then up down own at read many even "
            "same few".split())


def antt():
    return sorted(f for part in ("specs", "proofs") for f in glob.glob(f"crates/*/{part}/**/*.antt", recursive=True))


def snake(word):
    word = re.sub(r"^getD$", "get_or", word)
    word = re.sub(r"(?<=[a-z])(\d+)(?=-|$)", r"\1", word)
    word = re.sub(r"(?<=[a-z0-9])([A-Z])", r"_\1", word)
    word = re.sub(r"(?<=[A-Z])([A-Z][a-z])", r"_\1", word)
    return word.lower()


def is_kept(name):
    return (not re.match(r"^[A-Za-z0-9_'?!-]+$", name) or bool(re.match(r"^[WRUL]\d+$", name))
            or bool(re.match(r"^[A-Z][A-Z_0-9-]*$", name)))


def declared():
    """Each name, and whether specs/ has it as a constructor, a field or a definition, and whether a function's proof declares it."""
    found = {}
    for f in antt():
        own = f.endswith("/Proof.antt")
        for line in open(f, encoding="utf-8"):
            m = DECLARED.match(line)
            names = [m.group(3)] + (m.group(4).split() if "data" not in m.group(2) and "record" not in m.group(2) else []) if m else []
            for n in names if names and names[0] not in NO_NAME else []:
                d = found.setdefault(n, {"specs": False, "own": False})
                d["specs"] |= "/specs/" in f
                d["own"] |= own
    # What an import calls by another name.
    for f in antt() + glob.glob("crates/*/src/*.rt"):
        for n in re.findall(r" as ([a-z][A-Za-z0-9_]*)", "\n".join(x for x in open(f, encoding="utf-8") if re.match(r"(ghost )?use ", x))):
            found.setdefault(n, {"specs": False, "own": False})
    return found


def spelling():
    found = declared()
    plain = ({snake(n) for n in found if "-" not in n} | STD) - PLAIN
    # Facts keep their capitals, also inside of a lemma's name.
    facts = {n for n in found if re.match(r"^[A-Z][a-z]", n) and "-" not in n}
    new = {}
    for n, d in found.items():
        if n in BY_HAND:
            new[n] = BY_HAND[n]
            continue
        if is_kept(n) or d["own"] or n in facts:
            continue
        parts = n.split("-")
        parts = [p if p in facts and i + 1 < len(parts) and not d["specs"] and len(p) > 2 else snake(p) for i, p in enumerate(parts)]
        if "" in parts:
            continue
        out, first = parts[0], parts[0]
        for p in parts[1:]:
            joins = len(parts) == 2 and not d["specs"] and (out in plain or out in facts) and p in plain
            out += ("-" if joins else "_") + p
        if out != n:
            new[n] = out
    # What falls together keeps its dash.
    taken = {}
    for n in found:
        taken.setdefault(new.get(n, n), []).append(n)
    for word, names in taken.items():
        if len(names) > 1:
            for n in names:
                if "-" in n:
                    dashed = "-".join(snake(p) for p in n.split("-"))
                    if dashed == n:
                        new.pop(n, None)
                    else:
                        new[n] = dashed
    back = {}
    for n in found:
        back.setdefault(new.get(n, n), []).append(n)
    clash = {w: ns for w, ns in back.items() if len(ns) > 1}
    if clash:
        sys.exit(f"fall together: {clash}")
    return new


def main():
    new = spelling()
    if "--list" in sys.argv:
        for n in sorted(new):
            print(n, new[n])
        return
    token = re.compile(r"(?<![A-Za-z0-9_'′?!-])[A-Za-z_][A-Za-z0-9_?!]*(?:-[A-Za-z0-9_?!]+)*(?![A-Za-z0-9_'′?!-])")
    token_prose = re.compile(r"`[^`]*`")

    def code(text):
        return token.sub(lambda m: new.get(m.group(0), m.group(0)), text)

    known = set(declared()) | set(new.values())

    def word(name):
        return new.get(name) or (snake(name) if re.search(r"^[a-z].*[A-Z]", name) and snake(name) in known else name)

    def prose(text):
        text = token_prose.sub(lambda m: token.sub(lambda w: word(w.group(0)), m.group(0)), text)
        return token.sub(lambda m: new.get(m.group(0), m.group(0)) if re.search(r"[a-z][A-Z]", m.group(0)) else m.group(0), text)

    def split(line, mark):
        i = line.find(mark)
        return (line, "") if i < 0 else (line[:i], line[i:])

    paths = antt() + sorted(glob.glob("crates/*/src/*.rt")) + sorted(glob.glob("crates/*/must-fail/*.edit"))
    paths += ["README.md"] + sorted(glob.glob("docs/**/*.md", recursive=True)) + sorted(glob.glob("tests/*.md"))
    for f in paths:
        old = open(f, encoding="utf-8").read()
        lines = []
        for line in old.split("\n"):
            if f.endswith(".md"):
                lines.append(prose(line))
            elif f.endswith(".edit"):
                lines.append(prose(line) if line.startswith("#") else line if line.startswith("file:") else
                             token.sub(lambda w: word(w.group(0)), line))
            else:
                body, note = split(line, "--" if f.endswith(".antt") else "//")
                lines.append(code(body) + prose(note))
        text = "\n".join(lines)
        if text != old:
            open(f, "w", encoding="utf-8").write(text)


if __name__ == "__main__":
    os.chdir(os.path.join(os.path.dirname(os.path.abspath(__file__)), ".."))
    main()
