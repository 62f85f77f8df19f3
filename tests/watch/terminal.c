/*
 * Runs a command with a terminal as its standard input and types at it:
 *
 *     terminal COMMAND [ARGUMENT...] <KEYS
 *
 * What stands in KEYS is typed, then the key that ends an input. The command's
 * output goes where this program's goes, and its exit status is passed on. KEYS
 * ends in a newline and has less than a terminal holds, some 4,000 bytes.
 */
#define _XOPEN_SOURCE 700

#include <fcntl.h>
#include <stdio.h>
#include <stdlib.h>
#include <sys/wait.h>
#include <termios.h>
#include <unistd.h>

enum { KEYS_MOST = 4000, STATUS_NO_TERMINAL = 120 };

static void fail(const char *what)
{
    perror(what);
    exit(STATUS_NO_TERMINAL);
}

/* Both ends of a terminal that doesn't echo, since nobody reads what it would. */
static void open_terminal(int *keyboard, int *terminal, unsigned char *end)
{
    struct termios settings;
    *keyboard = posix_openpt(O_RDWR | O_NOCTTY);
    if (*keyboard < 0 || grantpt(*keyboard) != 0 || unlockpt(*keyboard) != 0) {
        fail("posix_openpt");
    }
    *terminal = open(ptsname(*keyboard), O_RDWR | O_NOCTTY);
    if (*terminal < 0 || tcgetattr(*terminal, &settings) != 0) {
        fail("the terminal");
    }
    settings.c_lflag &= ~(tcflag_t)ECHO;
    *end = settings.c_cc[VEOF];
    if (tcsetattr(*terminal, TCSANOW, &settings) != 0) {
        fail("tcsetattr");
    }
}

static void type_keys(int keyboard, unsigned char end)
{
    unsigned char keys[KEYS_MOST + 1];
    size_t count = fread(keys, 1, KEYS_MOST, stdin);
    keys[count] = end;
    if (!feof(stdin) || write(keyboard, keys, count + 1) != (ssize_t)(count + 1)) {
        fail("typing");
    }
}

int main(int argc, char **argv)
{
    int keyboard, terminal, status;
    unsigned char end;
    pid_t child;
    if (argc < 2) {
        fprintf(stderr, "usage: %s COMMAND [ARGUMENT...] <KEYS\n", argv[0]);
        return STATUS_NO_TERMINAL;
    }
    open_terminal(&keyboard, &terminal, &end);
    child = fork();
    if (child < 0) {
        fail("fork");
    }
    if (child == 0) {
        if (dup2(terminal, STDIN_FILENO) < 0) {
            fail("dup2");
        }
        close(terminal);
        close(keyboard);
        execv(argv[1], argv + 1);
        fail(argv[1]);
    }
    type_keys(keyboard, end);
    if (waitpid(child, &status, 0) != child) {
        fail("waitpid");
    }
    return WIFEXITED(status) ? WEXITSTATUS(status) : STATUS_NO_TERMINAL;
}
