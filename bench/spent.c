/* spent ROUNDS INPUT PROGRAM WORDS..: the median CPU time that a program takes for an input, in nanoseconds. What it writes is thrown away. */
#define _DEFAULT_SOURCE
#include <fcntl.h>
#include <stdio.h>
#include <stdlib.h>
#include <sys/resource.h>
#include <sys/wait.h>
#include <unistd.h>

enum { MOST_ROUNDS = 1000 };

static void start(const char *input, char **words) {
    dup2(open(input, O_RDONLY), 0);
    dup2(open("/dev/null", O_WRONLY), 1);
    execv(words[0], words);
    _exit(127);
}

static double nanoseconds(struct timeval t) { return t.tv_sec * 1e9 + t.tv_usec * 1e3; }

static double spent(const char *input, char **words) {
    struct rusage usage;
    int status;
    pid_t child = fork();
    if (child == 0)
        start(input, words);
    if (wait4(child, &status, 0, &usage) < 0 || status != 0)
        exit(1);
    return nanoseconds(usage.ru_utime) + nanoseconds(usage.ru_stime);
}

static int by_size(const void *a, const void *b) {
    double x = *(const double *)a, y = *(const double *)b;
    return (x > y) - (x < y);
}

int main(int count, char **words) {
    static double times[MOST_ROUNDS];
    int rounds = count > 3 ? atoi(words[1]) : 0;
    if (rounds < 1 || rounds > MOST_ROUNDS)
        return 2;
    for (int r = 0; r < rounds; r++)
        times[r] = spent(words[2], words + 3);
    qsort(times, rounds, sizeof(double), by_size);
    printf("%.0f\n", times[rounds / 2]);
    return 0;
}
