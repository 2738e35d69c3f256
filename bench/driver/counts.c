/* Marks the calls whose instructions are to be counted: an emulator with bench/marks.c counts between the marks. */
#include "calls.h"
#include <stdio.h>
#include <string.h>
#include <sys/syscall.h>
#include <unistd.h>

/* A mark is the closing of a file that is not open. */
enum { MARK = 0x7ead0000, BEGIN = 1, PLACES = 2, FIRST = 10 };
static volatile uint64_t sink;

static void mark(int id) { syscall(SYS_close, MARK + id); }

/* With the inputs in turn, where what a call takes depends on them. */
static void run_in_turn(const struct side *side, const struct job *job, int calls) {
    struct job one = *job;
    for (int k = 0; k < calls; k++) {
        one.input = job->inputs[k % VARIANTS];
        sink += run(side, &one);
    }
}

static void run_again(const struct side *side, const struct job *job, int calls) {
    for (int k = 0; k < calls; k++)
        sink += run(side, job);
}

static void marked(const struct side *side, const struct job *job, int calls, int id) {
    mark(BEGIN);
    if (job->is_uneven)
        run_in_turn(side, job, calls);
    else
        run_again(side, job, calls);
    mark(id);
}

/* Four calls and eight: the difference is four, without what surrounds them. Where the inputs take turns it is one call of each. */
void mark_counts(const char *only) {
    int id = FIRST;
    for (int k = 0; k < job_count; k++)
        for (int i = 0; i < SIDES; i++) {
            if (!is_asked(&jobs[k], only) || !has(&sides[i], &jobs[k]))
                continue;
            sink += run(&sides[i], &jobs[k]);
            int calls = jobs[k].is_uneven ? VARIANTS : 4;
            printf("job %d %d %s|%s\n", id, calls, jobs[k].name, sides[i].name);
            fflush(stdout);
            marked(&sides[i], &jobs[k], calls, id);
            marked(&sides[i], &jobs[k], 2 * calls, id + 1);
            id += 2;
        }
}

/* One call of the product, with the count of every place. */
void mark_places(const char *name) {
    for (int k = 0; k < job_count; k++)
        if (!strcmp(jobs[k].name, name)) {
            sink += run(&sides[PRODUCT], &jobs[k]);
            marked(&sides[PRODUCT], &jobs[k], 1, PLACES);
        }
}
