/*
 * Runs a program on an input again and again and prints the least time that one
 * run took, from its start to its end, in nanoseconds. Its output goes to a
 * file, where it can be looked at afterwards.
 *
 *     feed RUNS PROGRAM INPUT OUTPUT
 */
#define _POSIX_C_SOURCE 200112L
#include <fcntl.h>
#include <stdio.h>
#include <stdlib.h>
#include <sys/wait.h>
#include <time.h>
#include <unistd.h>

/* Read and written by all, as for a file that a shell makes. */
enum { FILE_MODE = 0666 };

static void stop(const char *what)
{
    perror(what);
    exit(2);
}

static long long now_in_ns(void)
{
    struct timespec t;
    clock_gettime(CLOCK_MONOTONIC, &t);
    return (long long)t.tv_sec * 1000000000 + t.tv_nsec;
}

/* In the child: `path` becomes its standard input or output. */
static void redirect(const char *path, int flags, int to)
{
    int file = open(path, flags, FILE_MODE);
    if (file < 0 || dup2(file, to) < 0) {
        stop(path);
    }
    close(file);
}

static void become(const char *program, const char *input, const char *output)
{
    redirect(input, O_RDONLY, STDIN_FILENO);
    redirect(output, O_WRONLY | O_CREAT | O_TRUNC, STDOUT_FILENO);
    execl(program, program, (char *)NULL);
    stop(program);
}

static long long one_run(const char *program, const char *input, const char *output)
{
    int status;
    long long start = now_in_ns();
    pid_t child = fork();
    if (child < 0) {
        stop("fork");
    }
    if (child == 0) {
        become(program, input, output);
    }
    if (waitpid(child, &status, 0) != child || status != 0) {
        fprintf(stderr, "%s didn't end well\n", program);
        exit(1);
    }
    return now_in_ns() - start;
}

int main(int argc, char **argv)
{
    if (argc != 5) {
        fprintf(stderr, "usage: %s RUNS PROGRAM INPUT OUTPUT\n", argv[0]);
        return 2;
    }
    long long least = one_run(argv[2], argv[3], argv[4]);
    for (int run = 1; run < atoi(argv[1]); run++) {
        long long ns = one_run(argv[2], argv[3], argv[4]);
        least = ns < least ? ns : least;
    }
    printf("%lld\n", least);
    return 0;
}
