/* CPU time of each job on each side: short batches of the sides in turn, so that a slow moment of the machine meets them all. */
#include "calls.h"
#include <stdio.h>
#include <stdlib.h>
#include <time.h>

enum { MOST_ROUNDS = 1000 };
static const double BATCH = 400000; /* nanoseconds */
static volatile uint64_t sink;

static double now(void) {
    struct timespec t;
    clock_gettime(CLOCK_PROCESS_CPUTIME_ID, &t);
    return t.tv_sec * 1e9 + t.tv_nsec;
}

/* Nanoseconds for one call, of so many with the inputs in turn, from the first or a later one on. */
static double timed(const struct side *side, const struct job *job, long calls, long from) {
    struct job one = *job;
    double start = now();
    for (long k = 0; k < calls; k++) {
        one.input = job->inputs[(from + k) % VARIANTS];
        sink += run(side, &one);
    }
    return (now() - start) / calls;
}

static int by_size(const void *a, const void *b) {
    double x = *(const double *)a, y = *(const double *)b;
    return (x > y) - (x < y);
}

/* Of each side the time in each round, and what that of the first side is over it. */
static double times[SIDES][MOST_ROUNDS], ratios[SIDES][MOST_ROUNDS];

/* A call that fills its batch alone takes the next input in each round. */
static void measure_round(const struct side *all, const struct job *job, const long calls[SIDES], int round) {
    for (int i = 0; i < SIDES; i++) {
        if (!calls[i])
            continue;
        times[i][round] = timed(&all[i], job, calls[i], calls[i] == 1 ? round : 0);
        ratios[i][round] = times[0][round] / times[i][round];
    }
}

/* Fills `times` and `ratios`, and then orders them. */
static void measure(const struct side *all, int count, const struct job *job, int rounds) {
    long calls[SIDES] = { 0 };
    for (int i = 0; i < count; i++)
        if (has(&all[i], job)) {
            timed(&all[i], job, VARIANTS, 0);
            calls[i] = BATCH / (timed(&all[i], job, VARIANTS, 0) + 1) + 1;
            if (job->is_uneven)
                calls[i] += VARIANTS - 1 - (calls[i] - 1) % VARIANTS;
        }
    for (int r = 0; r < rounds; r++)
        measure_round(all, job, calls, r);
    for (int i = 0; i < SIDES; i++) {
        qsort(times[i], rounds, sizeof(double), by_size);
        qsort(ratios[i], rounds, sizeof(double), by_size);
    }
}

/* The distance between the quarters of the ratios to a side, in hundredths of their median. */
static double spread(int side, int rounds) {
    return 100 * (ratios[side][3 * rounds / 4] - ratios[side][rounds / 4]) / ratios[side][rounds / 2];
}

static void print_cell(const struct job *job, int side, const char *form, double value) {
    if (has(&sides[side], job))
        printf(form, value);
    else
        printf(" %8s", "-");
}

static void print_row(const struct job *job, int rounds) {
    printf("%-28s", job->name);
    for (int i = 0; i < SIDES; i++)
        print_cell(job, i, times[i][rounds / 2] < 9.95 ? " %8.1f" : " %8.0f", times[i][rounds / 2]);
    for (int i = PLAIN; i < SIDES; i++)
        print_cell(job, i, " %8.2f", ratios[i][rounds / 2]);
    printf(" %6.0f%%\n", spread(PLAIN, rounds));
    fflush(stdout);
}

static void print_medians_of(const struct job *job, int rounds) {
    for (int i = 0; i < SIDES; i++)
        if (has(&sides[i], job))
            printf("%s|%s|%.2f|%.4f\n", job->name, sides[i].name, times[i][rounds / 2], ratios[i][rounds / 2]);
}

static int possible(int rounds) { return rounds < 1 || rounds > MOST_ROUNDS ? 25 : rounds; }

static void measure_asked(int rounds, const char *only, void print(const struct job *job, int rounds)) {
    rounds = possible(rounds);
    for (int k = 0; k < job_count; k++)
        if (is_asked(&jobs[k], only)) {
            measure(sides, SIDES, &jobs[k], rounds);
            print(&jobs[k], rounds);
        }
}

void print_medians(int rounds, const char *only) { measure_asked(rounds, only, print_medians_of); }

void print_times(int rounds, const char *only) {
    printf("%-28s", "CPU time, nanoseconds");
    for (int i = 0; i < SIDES; i++)
        printf(" %8s", sides[i].name);
    for (int i = PLAIN; i < SIDES; i++)
        printf("  /%-6s", sides[i].name);
    printf(" spread\n");
    measure_asked(rounds, only, print_row);
}

/* The plain checker takes milliseconds where the quick one takes some thousandths of one. */
static void print_checkers_row(const struct job *job, int rounds) {
    printf("%-28s", job->name);
    for (int i = 0; i < CHECKERS; i++) {
        double milliseconds = times[i][rounds / 2] / 1e6;
        printf(milliseconds < 0.995 ? " %8.5f" : " %8.2f", milliseconds);
    }
    printf(" %8.0f %6.0f%%\n", ratios[BY_QUICK][rounds / 2], spread(BY_QUICK, rounds));
    fflush(stdout);
}

void print_checkers(int rounds, const char *only) {
    rounds = possible(rounds);
    printf("%-28s", "CPU time, milliseconds");
    for (int i = 0; i < CHECKERS; i++)
        printf(" %8s", checkers[i].name);
    printf("  /%-6s spread\n", "quick");
    for (int k = 0; k < job_count; k++)
        if (jobs[k].is_for_both && is_asked(&jobs[k], only)) {
            measure(checkers, CHECKERS, &jobs[k], rounds);
            print_checkers_row(&jobs[k], rounds);
        }
}

void print_pair(const struct side pair[2], const struct job *job, int rounds) {
    rounds = possible(rounds);
    measure(pair, 2, job, rounds);
    printf("%-28s %-22s %10.0f %10.0f %9.4f %6.0f%%\n", job->name, pair[1].name, times[0][rounds / 2], times[1][rounds / 2],
           ratios[1][rounds / 2], spread(1, rounds));
    fflush(stdout);
}
