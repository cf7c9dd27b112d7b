/*
 * Starts programs in turn with a page as their standard input, and prints of each the least and the median time of its runs, in milliseconds:
 * the time that passes, and that of the processor. A run of a page of 100 kB takes less than two of them, so this is no script.
 *
 * Usage: start RUNS PAGE PROGRAM [WORD...] [-- PROGRAM [WORD...]]...
 */
#define _GNU_SOURCE
#include <fcntl.h>
#include <spawn.h>
#include <stdio.h>
#include <stdlib.h>
#include <string.h>
#include <sys/resource.h>
#include <sys/wait.h>
#include <time.h>

extern char **environ;

enum { PROGRAMS = 8 };

struct times {
    double passed, used;
};

static void stop(const char *why)
{
    fprintf(stderr, "start: %s\n", why);
    exit(1);
}

static double now(void)
{
    struct timespec time;
    clock_gettime(CLOCK_MONOTONIC, &time);
    return time.tv_sec * 1e3 + time.tv_nsec / 1e6;
}

static double milliseconds(struct timeval time)
{
    return time.tv_sec * 1e3 + time.tv_usec / 1e3;
}

static struct times run(char **words, posix_spawn_file_actions_t *streams)
{
    pid_t child;
    int status;
    struct rusage usage;
    double begun = now();
    if (posix_spawn(&child, words[0], streams, NULL, words, environ) || wait4(child, &status, 0, &usage) < 0)
        stop("a program cannot be started");
    double passed = now() - begun;
    if (!WIFEXITED(status) || WEXITSTATUS(status) > 4) // (up to 4: the worst level of the messages under lint)
        stop("a program ended by a signal, or with a status above 4");
    return (struct times){passed, milliseconds(usage.ru_utime) + milliseconds(usage.ru_stime)};
}

static int compare(const void *left, const void *right)
{
    double a = *(const double *)left, b = *(const double *)right;
    return (a > b) - (a < b);
}

int main(int count, char **words)
{
    char **programs[PROGRAMS];
    double *passed[PROGRAMS], *used[PROGRAMS];
    int many = 0, runs = count > 3 ? atoi(words[1]) : 0;
    if (runs < 1)
        stop("usage: start RUNS PAGE PROGRAM [WORD...] [-- PROGRAM [WORD...]]...");
    programs[many++] = words + 3;
    for (int at = 3; at < count; at++) {
        if (strcmp(words[at], "--"))
            continue;
        words[at] = NULL;
        if (many == PROGRAMS || at + 1 == count)
            stop("too many programs, or one without a name");
        programs[many++] = words + at + 1;
    }
    posix_spawn_file_actions_t streams;
    posix_spawn_file_actions_init(&streams);
    posix_spawn_file_actions_addopen(&streams, 0, words[2], O_RDONLY, 0);
    posix_spawn_file_actions_addopen(&streams, 1, "/dev/null", O_WRONLY, 0);
    for (int program = 0; program < many; program++) {
        passed[program] = calloc(runs, sizeof(double));
        used[program] = calloc(runs, sizeof(double));
        if (!passed[program] || !used[program])
            stop("out of memory");
    }
    for (int at = 0; at < runs; at++)
        for (int program = 0; program < many; program++) {
            struct times times = run(programs[program], &streams);
            passed[program][at] = times.passed;
            used[program][at] = times.used;
        }
    for (int program = 0; program < many; program++) {
        qsort(passed[program], runs, sizeof(double), compare);
        qsort(used[program], runs, sizeof(double), compare);
        printf("%.4f %.4f %.4f %.4f\n", passed[program][0], passed[program][runs / 2], used[program][0], used[program][runs / 2]);
    }
}
