/*
 * kernelsun_view.h: each of its functions on areas made by hand, whose words
 * are all different, at each place that kit.h knows; its names and labels; and
 * what it says of areas that the door has changed.
 *
 * Where words stand is counted here from document 01 and not taken from the
 * header.
 */
#include "expect.h"

#include <stdio.h>

#define COUNT(array) (sizeof(array) / sizeof((array)[0]))
#define MOST 0xffffffffu
#define NONE KERNELSUN_NONE

/* ---- An area of which each word is known by its value ---- */

enum { T = 2, N = 3, P = 5, D = 7 };

/* Its first words, and where its tables begin: 6 words, 2 records of 7, 3 and 3, 5 of 4. */
enum { LOCK_H = 4, HEADERS, RECORDS = 6, MAP = 20, LOCKS = 23, BLOCKS = 26, WORDS = 46 };

enum { RECORD_WORDS = 7, BLOCK_WORDS = 4 };

static uint32_t value_at(size_t word)
{
    static const uint32_t sizes[] = {T, N, P, D};
    return word < COUNT(sizes) ? sizes[word] : 0x01020300u + (uint32_t)word;
}

static void make_distinct(area *a)
{
    a->len = (size_t)WORDS * BYTES_IN_WORD;
    for (size_t word = 0; word < WORDS; word++) {
        put_word(a->bytes, word, value_at(word));
    }
}

/* Numbers that no table of that area has, some of them only if 32 bits wrap. */
static const uint32_t past_all[] = {5,           6,           255,      0x40000000u,
                                    0x40000001u, 0x80000000u, MOST - 1, MOST};

/* ---- Where the words stand ---- */

static void check_indices(void)
{
    const kernelsun_sizes s = {T, N, P, D};
    about("where the words stand");
    for (uint32_t word = 0; word < RECORD_WORDS; word++) {
        for (uint32_t t = 0; t < T; t++) {
            expect_equal("of a thread", (uint32_t)kernelsun_at_thread(t, word),
                         RECORDS + RECORD_WORDS * t + word);
        }
    }
    for (uint32_t n = 0; n < N; n++) {
        expect_equal("of the map", (uint32_t)kernelsun_at_map(&s, n), MAP + n);
        expect_equal("of the locks", (uint32_t)kernelsun_at_lock(&s, n), LOCKS + n);
    }
    for (uint32_t word = 0; word < BLOCK_WORDS; word++) {
        for (uint32_t p = 0; p < P; p++) {
            expect_equal("of a block", (uint32_t)kernelsun_at_block(&s, p, word),
                         BLOCKS + BLOCK_WORDS * p + word);
        }
    }
}

static void check_ends(void)
{
    static const kernelsun_sizes some[] = {{1, 1, 2, 1},    {2, 1, 2, 1},     {T, N, P, D},
                                           {16, 1, 512, 1}, {3, 255, 256, 1}, {16, 256, 512, 1}};
    about("the last block ends where the area does");
    for (size_t i = 0; i < COUNT(some); i++) {
        const kernelsun_sizes *s = &some[i];
        expect_equal("bytes", (uint32_t)(BYTES_IN_WORD * kernelsun_at_block(s, s->p, 0)),
                     (uint32_t)KERNELSUN_LENGTH(s->t, s->n, s->p));
    }
}

static void check_words(void)
{
    static area a;
    make_distinct(&a);
    about("any word, at any place");
    for (unsigned place = 0; place < PLACES; place++) {
        const uint8_t *at = placed(&a, place);
        for (size_t word = 0; word < WORDS; word++) {
            expect_equal("word", kernelsun_word(at, word), value_at(word));
        }
    }
}

/* ---- Words of the area as a whole ---- */

typedef uint32_t read_whole(const uint8_t *area);

static uint32_t size_t_of(const uint8_t *area)
{
    return kernelsun_sizes_of(area).t;
}

static uint32_t size_n_of(const uint8_t *area)
{
    return kernelsun_sizes_of(area).n;
}

static uint32_t size_p_of(const uint8_t *area)
{
    return kernelsun_sizes_of(area).p;
}

static uint32_t size_d_of(const uint8_t *area)
{
    return kernelsun_sizes_of(area).d;
}

/* How a word is read: as it is; 0 for nobody and else a number plus one; the writer above its low
   16 bits, a number plus one as well; the readers in these. */
typedef enum { PLAIN, NAMED, WRITER, READERS } reading;

typedef struct {
    const char *what;
    read_whole *read;
    size_t word;
    reading as;
} whole_row;

static const whole_row whole_rows[] = {
    {"kernelsun_t", kernelsun_t, 0, PLAIN},
    {"kernelsun_n", kernelsun_n, 1, PLAIN},
    {"kernelsun_p", kernelsun_p, 2, PLAIN},
    {"kernelsun_d", kernelsun_d, 3, PLAIN},
    {"kernelsun_sizes_of: t", size_t_of, 0, PLAIN},
    {"kernelsun_sizes_of: n", size_n_of, 1, PLAIN},
    {"kernelsun_sizes_of: p", size_p_of, 2, PLAIN},
    {"kernelsun_sizes_of: d", size_d_of, 3, PLAIN},
    {"kernelsun_lock_h", kernelsun_lock_h, LOCK_H, NAMED},
    {"kernelsun_headers_owner", kernelsun_headers_owner, HEADERS, NAMED},
};

/* What a word of that value must be read as. */
static uint32_t meaning(uint32_t word, reading as)
{
    switch (as) {
    case PLAIN: return word;
    case NAMED: return word == 0 ? NONE : word - 1;
    case WRITER: return meaning(word / 65536, NAMED);
    default: return word % 65536;
    }
}

static void check_whole_row(const whole_row *r, uint32_t value)
{
    static area a;
    make_distinct(&a);
    put_word(a.bytes, r->word, value);
    for (unsigned place = 0; place < PLACES; place++) {
        expect_equal(r->what, r->read(placed(&a, place)), meaning(value, r->as));
    }
}

static void check_whole(void)
{
    about("sizes, header lock and headers' owner");
    for (size_t i = 0; i < COUNT(whole_rows); i++) {
        check_whole_row(&whole_rows[i], value_at(whole_rows[i].word));
        check_whole_row(&whole_rows[i], 0);
        check_whole_row(&whole_rows[i], 1);
    }
}

static void check_bits(void)
{
    static const uint32_t no_thread[] = {16, 17, 31, 32, 33, 255, 0x80000000u, MOST - 1, NONE};
    about("a thread's bit, and its word as a writer");
    for (uint32_t thread = 0; thread < 16; thread++) {
        expect_equal("bit", kernelsun_bit(thread), 1u << thread);
        expect_equal("writing", kernelsun_writing(thread), 65536 * (thread + 1));
    }
    for (size_t i = 0; i < COUNT(no_thread); i++) {
        expect_equal("no bit", kernelsun_bit(no_thread[i]), 0);
    }
}

static void check_named(void)
{
    about("a word that is a number plus one");
    expect_equal("0", kernelsun_named(0), NONE);
    for (uint32_t number = 0; number < KERNELSUN_PHYSICAL_MOST; number++) {
        expect_equal("number", kernelsun_named(number + 1), number);
    }
}

/* ---- Words of a thread, of a logical block, of a physical block ---- */

typedef uint32_t read_one(const uint8_t *area, uint32_t index);

typedef struct {
    const char *what;
    read_one *read;
    size_t first, stride;
    uint32_t count;
    reading as;
} row;

static const row rows[] = {
    {"kernelsun_operation", kernelsun_operation, RECORDS, RECORD_WORDS, T, PLAIN},
    {"kernelsun_line", kernelsun_line, RECORDS + 1, RECORD_WORDS, T, PLAIN},
    {"kernelsun_register_n", kernelsun_register_n, RECORDS + 2, RECORD_WORDS, T, PLAIN},
    {"kernelsun_register_c", kernelsun_register_c, RECORDS + 3, RECORD_WORDS, T, PLAIN},
    {"kernelsun_register_p", kernelsun_register_p, RECORDS + 4, RECORD_WORDS, T, PLAIN},
    {"kernelsun_register_q", kernelsun_register_q, RECORDS + 5, RECORD_WORDS, T, PLAIN},
    {"kernelsun_register_h", kernelsun_register_h, RECORDS + 6, RECORD_WORDS, T, NAMED},
    {"kernelsun_map", kernelsun_map, MAP, 1, N, NAMED},
    {"kernelsun_of_map", kernelsun_of_map, MAP, 1, N, PLAIN},
    {"kernelsun_lock_writer", kernelsun_lock_writer, LOCKS, 1, N, WRITER},
    {"kernelsun_lock_readers", kernelsun_lock_readers, LOCKS, 1, N, READERS},
    {"kernelsun_of_lock", kernelsun_of_lock, LOCKS, 1, N, PLAIN},
    {"kernelsun_header", kernelsun_header, BLOCKS, BLOCK_WORDS, P, NAMED},
    {"kernelsun_content", kernelsun_content, BLOCKS + 1, BLOCK_WORDS, P, PLAIN},
    {"kernelsun_wear", kernelsun_wear, BLOCKS + 2, BLOCK_WORDS, P, PLAIN},
    {"kernelsun_block_writer", kernelsun_block_writer, BLOCKS + 3, BLOCK_WORDS, P, WRITER},
    {"kernelsun_block_readers", kernelsun_block_readers, BLOCKS + 3, BLOCK_WORDS, P, READERS},
};

static void expect_read(const row *r, const area *a, uint32_t index, uint32_t wanted)
{
    for (unsigned place = 0; place < PLACES; place++) {
        expect_equal(r->what, r->read(placed(a, place), index), wanted);
    }
}

static void check_row(const row *r)
{
    static const uint32_t values[] = {0, 1, 2, 32768, 65535, 65536, 65537, 131072, 1048576, MOST};
    static area a;
    make_distinct(&a);
    for (uint32_t i = 0; i < r->count; i++) {
        expect_read(r, &a, i, meaning(value_at(r->first + r->stride * i), r->as));
    }
    expect_read(r, &a, r->count, meaning(0, r->as));
    for (size_t i = 0; i < COUNT(past_all); i++) {
        expect_read(r, &a, past_all[i], meaning(0, r->as));
    }
    for (uint32_t i = 0; i < r->count; i++) {
        for (size_t k = 0; k < COUNT(values); k++) {
            put_word(a.bytes, r->first + r->stride * i, values[k]);
            expect_read(r, &a, i, meaning(values[k], r->as));
        }
    }
}

static void check_rows(void)
{
    about("a word of each table, of each index at and past its size");
    for (size_t i = 0; i < COUNT(rows); i++) {
        check_row(&rows[i]);
    }
}

/* ---- Words of a record by their index ---- */

typedef uint32_t read_record(const uint8_t *area, uint32_t index, size_t word);

static void check_record(const char *what, read_record *read, size_t first, uint32_t words,
                         uint32_t count)
{
    static area a;
    make_distinct(&a);
    for (unsigned place = 0; place < PLACES; place++) {
        const uint8_t *at = placed(&a, place);
        for (uint32_t word = 0; word < words; word++) {
            for (uint32_t i = 0; i < count; i++) {
                expect_equal(what, read(at, i, word), value_at(first + words * i + word));
            }
            for (size_t i = 0; i < COUNT(past_all); i++) {
                expect_equal(what, read(at, past_all[i], word), 0);
            }
            expect_equal(what, read(at, count, word), 0);
        }
        for (uint32_t i = 0; i < count; i++) {
            expect_equal(what, read(at, i, words), 0);
            expect_equal(what, read(at, i, (size_t)-1), 0);
        }
    }
}

static void check_records(void)
{
    about("each word of a record, and words that it doesn't have");
    check_record("kernelsun_of_thread", kernelsun_of_thread, RECORDS, RECORD_WORDS, T);
    check_record("kernelsun_of_block", kernelsun_of_block, BLOCKS, BLOCK_WORDS, P);
}

/* ---- Areas that may be looked at ---- */

/* All else in the area is 0, so the door refuses it as ill formed where it can't be looked at. */
static void expect_viewable(area *a, int good)
{
    for (unsigned place = 0; place < PLACES; place++) {
        expect_equal("viewable", (uint32_t)kernelsun_viewable(placed(a, place), a->len),
                     (uint32_t)good);
    }
    expect_refusal(a, call_step(MOST), good ? KERNELSUN_THREAD : KERNELSUN_SHAPE);
}

static void make_with_sizes(area *a, const kernelsun_sizes *s, size_t len)
{
    fill(a, len, 0);
    put_word(a->bytes, 0, s->t);
    put_word(a->bytes, 1, s->n);
    put_word(a->bytes, 2, s->p);
    put_word(a->bytes, 3, s->d);
}

static void check_sizes_viewable(void)
{
    static const kernelsun_sizes good[] = {
        {1, 1, 2, 1},   {16, 1, 2, 1},   {1, 256, 257, 1}, {1, 256, 512, 1},
        {1, 1, 512, 1}, {1, 1, 2, 1000}, {T, N, P, D},     {16, 256, 512, 1000},
    };
    static const kernelsun_sizes bad[] = {
        {0, 1, 2, 1},    {17, 1, 2, 1},    {1, 0, 2, 1},   {1, 0, 1, 1},     {1, 257, 258, 1},
        {1, 1, 1, 1},    {1, 256, 256, 1}, {1, 1, 513, 1}, {1, 256, 513, 1}, {1, 1, 2, 0},
        {1, 1, 2, 1001}, {1, 1, 2, MOST},  {0, 0, 0, 0},
    };
    static area a;
    about("viewable at and past each limit");
    for (size_t i = 0; i < COUNT(good); i++) {
        make_with_sizes(&a, &good[i], KERNELSUN_LENGTH(good[i].t, good[i].n, good[i].p));
        expect_viewable(&a, 1);
    }
    for (size_t i = 0; i < COUNT(bad); i++) {
        make_with_sizes(&a, &bad[i], KERNELSUN_LENGTH(bad[i].t, bad[i].n, bad[i].p));
        expect_viewable(&a, 0);
    }
}

/* The length by the sizes, in more room and in just enough; 0 in too little, and for bad sizes. */
static void check_length_in(void)
{
    static const kernelsun_sizes good = {T, N, P, D}, bad = {T, N, 513, D};
    size_t length = KERNELSUN_LENGTH(T, N, P);
    static area a;
    about("the length of an area inside a larger page");
    make_with_sizes(&a, &good, length + 40);
    for (unsigned place = 0; place < PLACES; place++) {
        const uint8_t *at = placed(&a, place);
        for (size_t room = 0; room <= a.len; room++) {
            expect_equal("length in", (uint32_t)kernelsun_length_in(at, room),
                         room < length ? 0 : (uint32_t)length);
        }
    }
    make_with_sizes(&a, &bad, KERNELSUN_LENGTH(T, N, 513));
    expect_equal("length in", (uint32_t)kernelsun_length_in(a.bytes, a.len), 0);
}

/* Sizes whose length is that of 2, 1, 2 if 32 bits wrap, and sizes of which one is beyond all. */
static void check_wrapped_sizes(void)
{
    static const kernelsun_sizes bad[] = {
        {0x40000002u, 1, 2, 1}, {2, 0x80000001u, 2, 1}, {2, 1, 0x40000002u, 1},
        {2, 1, 0x10000002u, 1}, {MOST, 1, 2, 1},        {2, MOST, 2, 1},
        {2, MOST, 0, 1},        {2, 1, MOST, 1},
    };
    static area a;
    about("sizes that have the area's length only if they wrap");
    for (size_t i = 0; i < COUNT(bad); i++) {
        make_with_sizes(&a, &bad[i], 120);
        expect_viewable(&a, 0);
    }
}

/* An area that is too short for its sizes must not even be asked for them. */
static void check_lengths_viewable(void)
{
    const kernelsun_sizes s = {2, 1, 2, 1};
    static area a;
    about("viewable at its own length alone");
    for (size_t len = 0; len < 400; len++) {
        make_with_sizes(&a, &s, len);
        expect_viewable(&a, len == 120);
    }
    make_with_sizes(&a, &s, KERNELSUN_LENGTH_MOST);
    expect_viewable(&a, 0);
}

/* ---- Names ---- */

static void check_names(void)
{
    static const char *const names[] = {
        [0] = "WENT",       [1] = "FINISHED", [2] = "BLOCKED", [10] = "SHAPE",
        [11] = "THREAD",    [12] = "BUSY",    [13] = "IDLE",   [14] = "LOGICAL",
        [15] = "OPERATION", [16] = "FAULT",   [17] = "LIMITS", [29] = "TALLY",
        [30] = "FULL",      [300] = NULL,
    };
    static const char *const operations[] = {"idle", "write", "read", "unmap", "level", "?", "?"};
    about("names of numbers and of operations");
    for (uint32_t i = 0; i < COUNT(names); i++) {
        expect_text("number", kernelsun_name(i), names[i] != NULL ? names[i] : "?");
    }
    expect_text("largest number", kernelsun_name(MOST), "?");
    for (uint32_t op = 0; op < COUNT(operations); op++) {
        expect_text("operation", kernelsun_operation_name(op), operations[op]);
    }
    expect_text("largest operation", kernelsun_operation_name(MOST), "?");
}

static void check_version(void)
{
    char text[40];
    about("the version is its two numbers");
    snprintf(text, sizeof text, "%d.%d", KERNELSUN_VERSION_MAJOR, KERNELSUN_VERSION_MINOR);
    expect_text("version", KERNELSUN_VERSION, text);
}

/* ---- Lines: their labels and their locks ---- */

/* A letter for each line: H takes the header lock, n the lock of register n to write, r to read, -
   takes none. */
typedef struct {
    char letter;
    const char *takes;
    uint32_t last;
} operation;

static const operation operations[] = {
    {'?', "", 0},
    {'W', "Hn--------------", 16},
    {'R', "r-----", 6},
    {'U', "Hn---------", 11},
    {'L', "H----n------------", 18},
};

/* In the area of the lines thread 1 is at one, with 2 as n; thread 0 is idle. */
enum { STEPPER = 1, NUMBER = 2, RECORD = RECORDS + RECORD_WORDS * STEPPER };

static void make_at_line(area *a, uint32_t op, uint32_t line)
{
    const kernelsun_sizes s = {T, N, P, D};
    make_with_sizes(a, &s, (size_t)WORDS * BYTES_IN_WORD);
    put_word(a->bytes, RECORD, op);
    put_word(a->bytes, RECORD + 1, line);
    put_word(a->bytes, RECORD + 2, NUMBER);
}

static uint32_t lock_of(char takes)
{
    switch (takes) {
    case 'H': return KERNELSUN_LOCK_H;
    case 'n':
    case 'r': return NUMBER;
    default: return NONE;
    }
}

/* Each word of a number's lock that two threads may leave, and a word of H. */
static const struct {
    uint32_t lock, h;
    /* For whom thread 1 waits, as sets: for H, at that lock to write, and there to read. */
    uint32_t for_h, to_write, to_read;
} held[] = {
    {1, 1, 1, 1, 0}, {2, 2, 2, 2, 2}, {3, 1, 1, 3, 2}, {65536, 1, 1, 1, 1}, {131072, 2, 2, 2, 2},
};

/* All three locks of numbers and H are held so, but for one word, or but for none. */
static void hold_all_but(area *a, size_t word, size_t how)
{
    for (size_t lock = LOCKS; lock < LOCKS + N; lock++) {
        put_word(a->bytes, lock, lock != word ? held[how].lock : 0);
    }
    put_word(a->bytes, LOCK_H, LOCK_H != word ? held[how].h : 0);
}

static void expect_blocked(area *a, uint32_t lock, uint32_t waits_for)
{
    call c = call_step(STEPPER);
    expect_equal("lock that is taken", kernelsun_next_lock(a->bytes, STEPPER), lock);
    expect_equal("who is waited for", kernelsun_waits_for(a->bytes, STEPPER), waits_for);
    uint32_t number = kernelsun_number(through_door(&c, a));
    expect_equal("the step is blocked", number == KERNELSUN_BLOCKED, waits_for != 0);
}

/* A line waits for the lock that the view names, and for no other one. */
static void check_lock_of_line(uint32_t op, uint32_t line, char takes)
{
    static area a;
    uint32_t lock = lock_of(takes);
    for (size_t how = 0; how < COUNT(held); how++) {
        make_at_line(&a, op, line);
        hold_all_but(&a, takes == 'H' ? LOCK_H : LOCKS + NUMBER, how);
        expect_blocked(&a, lock, 0);
        make_at_line(&a, op, line);
        hold_all_but(&a, 0, how);
        expect_blocked(&a, lock,
                       takes == 'H'   ? held[how].for_h
                       : takes == 'n' ? held[how].to_write
                       : takes == 'r' ? held[how].to_read
                                      : 0);
    }
}

static void check_label_of_line(uint32_t op, uint32_t line, char letter)
{
    static area a;
    char label[8];
    snprintf(label, sizeof label, "%c%u", letter, (unsigned)line);
    expect_text("label", kernelsun_label(op, line), label);
    make_at_line(&a, op, line);
    expect_text("label of the thread", kernelsun_thread_label(a.bytes, STEPPER), label);
    expect_text("label of an idle thread", kernelsun_thread_label(a.bytes, 0), "-");
    expect_text("label of no thread", kernelsun_thread_label(a.bytes, T), "-");
    expect_equal("lock of an idle thread", kernelsun_next_lock(a.bytes, 0), NONE);
    expect_equal("lock of no thread", kernelsun_next_lock(a.bytes, T), NONE);
    expect_equal("an idle thread waits", kernelsun_waits_for(a.bytes, 0), 0);
    expect_equal("no thread waits", kernelsun_waits_for(a.bytes, T), 0);
    expect_equal("nor one past all", kernelsun_waits_for(a.bytes, MOST), 0);
}

static void check_lines(void)
{
    uint32_t lines = 0;
    about("the 51 lines: labels, and the locks that they take");
    for (uint32_t op = 1; op < COUNT(operations); op++) {
        const operation *o = &operations[op];
        expect_equal("last line", kernelsun_last_line(op), o->last);
        for (uint32_t line = 1; line <= o->last; line++) {
            check_label_of_line(op, line, o->letter);
            check_lock_of_line(op, line, o->takes[line - 1]);
            lines++;
        }
    }
    expect_equal("lines", lines, 51);
}

static void check_no_lines(void)
{
    static const uint32_t no_operation[] = {0, 5, 6, 0x80000001u, MOST};
    about("no lines: - and 0");
    for (uint32_t op = 1; op < COUNT(operations); op++) {
        expect_text("line 0", kernelsun_label(op, 0), "-");
        expect_text("past the last", kernelsun_label(op, operations[op].last + 1), "-");
        expect_text("line 19", kernelsun_label(op, 19), "-");
        expect_text("largest line", kernelsun_label(op, MOST), "-");
    }
    for (size_t i = 0; i < COUNT(no_operation); i++) {
        expect_equal("last line", kernelsun_last_line(no_operation[i]), 0);
        for (uint32_t line = 0; line < 20; line++) {
            expect_text("no operation", kernelsun_label(no_operation[i], line), "-");
        }
    }
}

/* The door refuses such areas; the view reads nothing else for them. */
static void check_no_holders(void)
{
    static area a;
    about("locks whose holder is no thread");
    make_at_line(&a, KERNELSUN_WRITE, 1);
    put_word(a.bytes, LOCK_H, MOST);
    expect_equal("for H", kernelsun_waits_for(a.bytes, STEPPER), 0);
    make_at_line(&a, KERNELSUN_WRITE, 2);
    put_word(a.bytes, LOCKS + NUMBER, 0xffff0004u);
    expect_equal("for a number's to write", kernelsun_waits_for(a.bytes, STEPPER), 4);
    make_at_line(&a, KERNELSUN_READ, 1);
    put_word(a.bytes, LOCKS + NUMBER, 0xffff0004u);
    expect_equal("for a number's to read", kernelsun_waits_for(a.bytes, STEPPER), 0);
    put_word(a.bytes, RECORD + 2, N);
    expect_equal("for no number's", kernelsun_waits_for(a.bytes, STEPPER), 0);
}

/* ---- What the door did ---- */

/* What a thread has from the line that takes it until the line that gives it back. */
static void expect_held(const char *what, uint32_t found, uint32_t line, uint32_t from, uint32_t to)
{
    expect_equal(what, found, line >= from && line < to ? STEPPER : NONE);
}

/* A first write, line by line. `line` is the one that was done last. */
static void expect_writing(const uint8_t *area, uint32_t n, uint32_t line)
{
    uint32_t p = 0;
    expect_held("H", kernelsun_lock_h(area), line, 1, 12);
    expect_held("its lock", kernelsun_lock_writer(area, n), line, 2, 16);
    expect_held("headers", kernelsun_headers_owner(area), line, 4, 11);
    if (line < 12) {
        expect_held("the block, to open it", kernelsun_block_writer(area, p), line, 6, 9);
    } else {
        expect_held("the block, to fill it", kernelsun_block_writer(area, p), line, 13, 15);
    }
    expect_equal("readers of its lock", kernelsun_lock_readers(area, n), 0);
    expect_equal("readers of the block", kernelsun_block_readers(area, p), 0);
    expect_equal("header", kernelsun_header(area, p), line >= 7 ? n : NONE);
    expect_equal("map", kernelsun_map(area, n), line >= 10 ? p : NONE);
    expect_equal("content", kernelsun_content(area, p), line >= 14 ? 9 : 0);
}

static void check_write(void)
{
    static area a;
    const uint32_t n = 1;
    call next = call_step(STEPPER);
    about("a write of 9 to number 1, line by line");
    make_fresh(&a, T, N, P, D);
    expect_begins(&a, STEPPER, KERNELSUN_WRITE, n, 9);
    for (uint32_t line = 1; line <= 16; line++) {
        expect_equal("operation", kernelsun_operation(a.bytes, STEPPER), KERNELSUN_WRITE);
        expect_equal("line", kernelsun_line(a.bytes, STEPPER), line);
        expect_equal("n", kernelsun_register_n(a.bytes, STEPPER), n);
        expect_equal("c", kernelsun_register_c(a.bytes, STEPPER), 9);
        expect_equal("number", kernelsun_number(through_door(&next, &a)),
                     line < 16 ? KERNELSUN_WENT : KERNELSUN_FINISHED);
        expect_writing(a.bytes, n, line);
    }
    expect_equal("operation at the end", kernelsun_operation(a.bytes, STEPPER), 0);
    expect_text("label at the end", kernelsun_thread_label(a.bytes, STEPPER), "-");
    expect_equal("header of its block", kernelsun_header(a.bytes, kernelsun_map(a.bytes, n)), n);
    expect_equal("content of its block", kernelsun_content(a.bytes, kernelsun_map(a.bytes, n)), 9);
}

/* A read beside another one, which stands at R4. `line` is the one that was done last. */
static void expect_reading(const uint8_t *area, uint32_t n, uint32_t line)
{
    uint32_t p = 0, other = 1u << 0, itself = 1u << STEPPER;
    expect_equal("its lock", kernelsun_lock_readers(area, n), line < 6 ? other | itself : other);
    expect_equal("the block", kernelsun_block_readers(area, p),
                 line >= 3 && line < 5 ? other | itself : other);
    expect_equal("a writer of its lock", kernelsun_lock_writer(area, n), NONE);
    expect_equal("a writer of the block", kernelsun_block_writer(area, p), NONE);
}

static void check_read(void)
{
    static area a;
    const uint32_t n = 1;
    call next = call_step(STEPPER);
    about("a read of number 1, line by line, beside another");
    make_fresh(&a, T, N, P, D);
    whole(&a, 0, KERNELSUN_WRITE, n, 9);
    expect_begins(&a, 0, KERNELSUN_READ, n, 0);
    expect_steps(&a, 0, 3, KERNELSUN_WENT);
    expect_begins(&a, STEPPER, KERNELSUN_READ, n, 0);
    for (uint32_t line = 1; line <= 6; line++) {
        expect_equal("number", kernelsun_number(through_door(&next, &a)),
                     line < 6 ? KERNELSUN_WENT : KERNELSUN_FINISHED);
        expect_reading(a.bytes, n, line);
    }
}

static void check_unmap(void)
{
    static area a;
    about("an unmapped number, and the block that it left");
    make_fresh(&a, T, N, P, D);
    whole(&a, 0, KERNELSUN_WRITE, 0, 8);
    whole(&a, 0, KERNELSUN_WRITE, 1, 9);
    whole(&a, 1, KERNELSUN_UNMAP, 1, 0);
    expect_equal("map of 1", kernelsun_map(a.bytes, 1), NONE);
    expect_equal("header of 1", kernelsun_header(a.bytes, 1), NONE);
    expect_equal("wear of 1", kernelsun_wear(a.bytes, 1), 1);
    expect_equal("content of 1", kernelsun_content(a.bytes, 1), 9);
    expect_equal("map of 0", kernelsun_map(a.bytes, 0), 0);
    expect_equal("wear of 0", kernelsun_wear(a.bytes, 0), 0);
}

static void check_most_wear(void)
{
    static area a;
    about("wear at its most stays there");
    make_fresh(&a, T, N, P, D);
    put_word(a.bytes, BLOCKS + 2, KERNELSUN_WEAR_MOST - 1);
    for (int times = 0; times < 2; times++) {
        whole(&a, 0, KERNELSUN_WRITE, 0, 8);
        whole(&a, 0, KERNELSUN_UNMAP, 0, 0);
        expect_equal("wear", kernelsun_wear(a.bytes, 0), KERNELSUN_WEAR_MOST);
    }
}

/* Number 1 is on block 1, unworn; block 0 is free with wear 2. */
static void make_worn(area *a)
{
    make_fresh(a, T, N, P, 2);
    whole(a, 0, KERNELSUN_WRITE, 0, 7);
    whole(a, 0, KERNELSUN_WRITE, 1, 9);
    whole(a, 0, KERNELSUN_UNMAP, 0, 0);
    whole(a, 0, KERNELSUN_WRITE, 0, 8);
    whole(a, 0, KERNELSUN_UNMAP, 0, 0);
}

static void check_level(void)
{
    static area a;
    about("levelling from block 1 to block 0");
    make_worn(&a);
    expect_begins(&a, STEPPER, KERNELSUN_LEVEL, 0, 0);
    expect_equal("h before L4", kernelsun_register_h(a.bytes, STEPPER), NONE);
    expect_steps(&a, STEPPER, 8, KERNELSUN_WENT);
    expect_text("label", kernelsun_thread_label(a.bytes, STEPPER), "L9");
    expect_equal("n", kernelsun_register_n(a.bytes, STEPPER), 1);
    expect_equal("c", kernelsun_register_c(a.bytes, STEPPER), 9);
    expect_equal("p", kernelsun_register_p(a.bytes, STEPPER), 1);
    expect_equal("q", kernelsun_register_q(a.bytes, STEPPER), 0);
    expect_equal("h", kernelsun_register_h(a.bytes, STEPPER), 1);
    expect_steps(&a, STEPPER, 9, KERNELSUN_WENT);
    expect_equal("map of 1", kernelsun_map(a.bytes, 1), 0);
    expect_equal("header of 0", kernelsun_header(a.bytes, 0), 1);
    expect_equal("header of 1", kernelsun_header(a.bytes, 1), NONE);
    expect_equal("wear of 0", kernelsun_wear(a.bytes, 0), 2);
    expect_equal("wear of 1", kernelsun_wear(a.bytes, 1), 1);
}

/* The thread is blocked, for a lock and by a set of threads. */
static void expect_waits(area *a, uint32_t thread, uint32_t lock, uint32_t threads)
{
    expect_refusal(a, call_step(thread), KERNELSUN_BLOCKED);
    expect_equal("waits for", kernelsun_next_lock(a->bytes, thread), lock);
    expect_equal("held by", kernelsun_waits_for(a->bytes, thread), threads);
}

static void check_waiting(void)
{
    static area a;
    about("two readers of one number, a writer and a third reader");
    make_fresh(&a, 4, N, P, D);
    expect_begins(&a, 0, KERNELSUN_READ, 2, 0);
    expect_begins(&a, 2, KERNELSUN_READ, 2, 0);
    expect_begins(&a, 1, KERNELSUN_WRITE, 2, 7);
    expect_begins(&a, 3, KERNELSUN_READ, 2, 0);
    expect_steps(&a, 2, 1, KERNELSUN_WENT);
    expect_equal("a reader beside a reader waits", kernelsun_waits_for(a.bytes, 0), 0);
    expect_steps(&a, 0, 1, KERNELSUN_WENT);
    expect_steps(&a, 1, 1, KERNELSUN_WENT);
    expect_waits(&a, 1, 2, 1 | 4);
    expect_steps(&a, 0, 1, KERNELSUN_WENT);
    expect_steps(&a, 0, 1, KERNELSUN_FINISHED);
    expect_waits(&a, 1, 2, 4);
    expect_steps(&a, 2, 1, KERNELSUN_WENT);
    expect_steps(&a, 2, 1, KERNELSUN_FINISHED);
    expect_steps(&a, 1, 1, KERNELSUN_WENT);
    expect_waits(&a, 3, 2, 2);
    about("two writers");
    make_fresh(&a, T, N, P, D);
    expect_begins(&a, 0, KERNELSUN_WRITE, 1, 70);
    expect_begins(&a, 1, KERNELSUN_WRITE, 2, 90);
    expect_steps(&a, 0, 1, KERNELSUN_WENT);
    expect_waits(&a, 1, KERNELSUN_LOCK_H, 1);
    about("a leveller at L6 and a reader");
    make_worn(&a);
    expect_begins(&a, 0, KERNELSUN_READ, 1, 0);
    expect_begins(&a, 1, KERNELSUN_LEVEL, 0, 0);
    expect_steps(&a, 0, 1, KERNELSUN_WENT);
    expect_steps(&a, 1, 5, KERNELSUN_WENT);
    expect_waits(&a, 1, 1, 1);
}

static void check_reading(void)
{
    check_indices();
    check_ends();
    check_words();
    check_whole();
    check_named();
    check_bits();
    check_rows();
    check_records();
    check_sizes_viewable();
    check_length_in();
    check_wrapped_sizes();
    check_lengths_viewable();
}

int main(void)
{
    check_reading();
    check_names();
    check_version();
    check_lines();
    check_no_lines();
    check_no_holders();
    check_write();
    check_read();
    check_unmap();
    check_most_wear();
    check_level();
    check_waiting();
    return all_met("view");
}
