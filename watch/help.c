/* See help.h. */
#include "help.h"

#include "kernelsun.h"

static const char about[] =
    "\n"
    "Runs a script and prints, after each line, the answer and the state of the store.\n"
    "Without FILE, or where it is -, the script is read from standard input. With --answers\n"
    "the states are left out.\n";

static const char lines[] =
    "\n"
    "    f T N P D         format: a fresh store of these sizes\n"
    "    b t write n c     begin on thread t: logical block n gets content c\n"
    "    b t read n        begin a read of block n\n"
    "    b t unmap n       begin an unmap of block n\n"
    "    b t level         begin a levelling\n"
    "    s t               step thread t\n"
    "    r t               run thread t: step it until its operation finishes or can't go on\n"
    "    # text            a comment, also behind a line; where it stands alone, it is printed\n"
    "\n"
    "b only opens an operation, and each s does one line of it. Operations may be given by\n"
    "number: 1 write, 2 read, 3 unmap, 4 level.\n";

static const char state[] =
    "\n"
    "The state, of which an item that says nothing may be left out:\n"
    "\n"
    "    H t0              thread 0 holds the header lock, - for nobody\n"
    "    headers t0        thread 0 owns the headers, - for nobody\n"
    "    t0:W14 t1:idle    the line that each thread's next step does\n"
    "    waits t1:H t2:0   thread 1 waits for the header lock, thread 2 for that of block 0\n"
    "    locks 0:t0        thread 0 holds the lock of logical block 0 to write; where threads\n"
    "                      hold it to read, they are listed: 0:read by t1 t3\n"
    "    owners 2:t0       thread 0 owns physical block 2 to write; readers are listed alike\n"
    "    map 0>2           logical block 0 is mapped to physical block 2\n"
    "    header 2:0        the header of physical block 2 names 0, and the map doesn't say so\n"
    "    wear 2:5          physical block 2 has wear 5\n";

static const char ends[] =
    "\n"
    "Exit status: 0; 1 where a line is none of these; 2 where the arguments are wrong, a file\n"
    "can't be read or the output can't be written. docs/USING.md has more.\n";

void show_usage(FILE *out, const char *program)
{
    fprintf(out, "usage: %s [--answers] [FILE]\n", program);
}

static void show_size(const char *what, unsigned least, unsigned most, const char *end)
{
    printf("    %s, %u to %u%s\n", what, least, most, end);
}

static void show_sizes(void)
{
    printf("\n");
    show_size("T  threads", KERNELSUN_THREADS_LEAST, KERNELSUN_THREADS_MOST, "");
    show_size("N  logical blocks", KERNELSUN_LOGICAL_LEAST, KERNELSUN_LOGICAL_MOST, "");
    printf("    P  physical blocks, N + %u to %u\n", KERNELSUN_PHYSICAL_LEAST(0),
           KERNELSUN_PHYSICAL_MOST);
    show_size("D  levelling distance", KERNELSUN_DISTANCE_LEAST, KERNELSUN_DISTANCE_MOST,
              ": a content is moved if the most worn free block\n"
              "       has at least D more wear than the least worn block in use");
}

void show_help(const char *program)
{
    show_usage(stdout, program);
    fputs(about, stdout);
    fputs(lines, stdout);
    show_sizes();
    fputs(state, stdout);
    fputs(ends, stdout);
}
