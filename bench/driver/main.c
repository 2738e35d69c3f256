/* Puts the same calls to the product and to the baselines: driver SHELVES same COUNT | time ROUNDS [JOB] | medians ROUNDS [JOB]
   | checkers ROUNDS [JOB] | count [JOB] | where JOB | stack [JOB] | deepest */
#include "calls.h"
#include <stdio.h>
#include <stdlib.h>
#include <string.h>

int main(int count, char **words) {
    if (count < 3)
        return 2;
    const char *command = words[2], *first = count > 3 ? words[3] : 0, *second = count > 4 ? words[4] : 0;
    make_jobs(words[1]);
    for (int k = 0; k < job_count; k++)
        if (!same(&jobs[k]))
            return 1;
    if (!strcmp(command, "same") && first) {
        compare_broken(atol(first));
        compare_shapes(atol(first) / 20);
        compare_control_words(atol(first) / 20);
        compare_checkers();
    } else if (!strcmp(command, "time") && first)
        print_times(atoi(first), second);
    else if (!strcmp(command, "medians") && first)
        print_medians(atoi(first), second);
    else if (!strcmp(command, "checkers") && first)
        print_checkers(atoi(first), second);
    else if (!strcmp(command, "count"))
        mark_counts(first);
    else if (!strcmp(command, "where") && first)
        mark_places(first);
    else if (!strcmp(command, "stack"))
        print_depths(first);
    else if (!strcmp(command, "deepest"))
        return print_deepest() ? 1 : 0;
    else
        return 2;
    return 0;
}
