/* Asserts that all sides answer and write the same, on the jobs and on broken copies of them, and that both checkers do. */
#include "calls.h"
#include <stdio.h>
#include <stdlib.h>
#include <string.h>

static u8 expected[OUTPUT];

static void say(const struct job *job, const struct side *side, uint64_t answer, uint64_t due) {
    static int said;
    if (said++ < 10)
        printf("DIFFERENT %s, %s: %llu for %llu, or other octets\n", job->name, side->name, (unsigned long long)answer,
               (unsigned long long)due);
}

/* Whether all answer as the first does. What stands behind the written octets is compared too. */
static int agree(const struct side *all, int count, const struct job *job) {
    memset(output, 7, sizeof output);
    uint64_t due = run(&all[0], job);
    memcpy(expected, output, sizeof output);
    for (int i = 1; i < count; i++) {
        if (!has(&all[i], job))
            continue;
        memset(output, 7, sizeof output);
        uint64_t answer = run(&all[i], job);
        if (answer != due || memcmp(expected, output, sizeof output)) {
            say(job, &all[i], answer, due);
            return 0;
        }
    }
    return 1;
}

int same(const struct job *job) { return agree(sides, SIDES, job); }

uint64_t answered(const struct job *job, long seen[NUMBERS], long *differ) {
    *differ += !same(job);
    uint64_t number = run(&sides[PRODUCT], job);
    seen[number]++;
    return number;
}

enum { LONGER = 8 };

/* A copy with room for a longer input. */
static u8 *copied(in octets, size_t length) {
    if (!octets)
        return 0;
    u8 *copy = calloc(length + LONGER, 1);
    memcpy(copy, octets, length);
    return copy;
}

/* Another type, or, less often, another x. */
static void spoil_type(u8 *record) {
    if (drawn() % 4)
        record[7] = drawn() % 4;
    else
        record[5] = drawn() % 42;
}

/* One octet of the head, or any, becomes anything or one that means something. */
static void spoil_record(u8 *record, size_t length) {
    if (!record || drawn() % 3)
        return;
    size_t place = drawn() % (drawn() % 2 ? 22 : length);
    if (drawn() % 4 == 0)
        spoil_type(record);
    else
        record[place] = drawn() % 2 ? drawn() : drawn() % 2 ? 255 : 0;
}

static void spoil_input(u8 *input, size_t length) {
    if (input && length && drawn() % 3 == 0)
        input[drawn() % length] ^= drawn() % 3 ? 1 : drawn() % 4;
}

static void spoil_shelf(u8 *shelf) {
    if (shelf && drawn() % 4 == 0)
        shelf[drawn() % (2 + 8 * shelf[1])] ^= 1 << drawn() % 8;
}

static void spoil_tenant(struct job *job) {
    if (drawn() % 8 == 0)
        job->tenant += drawn() % 70;
    if (drawn() % 20 == 0)
        job->tenant = 0;
}

static void spoil_length(struct job *job) {
    if (drawn() % 2)
        job->input_length += drawn() % (LONGER + 1);
    else
        job->input_length -= drawn() % (job->input_length < 9 ? job->input_length + 1 : 9);
}

/* One number or length becomes another; a G of few symbol places is likely. */
static void spoil_number(struct job *job) {
    switch (drawn() % 8) {
    case 0: job->z = drawn() % 100; break;
    case 1: spoil_length(job); break;
    case 2: job->nl = drawn() % 6; break;
    case 3: job->qm = drawn() % 8; break;
    case 4: job->g = drawn() % 2 ? drawn() % 66000 : drawn() % 200; break;
    case 5: job->a += drawn() % 3; break;
    case 6: job->room = drawn() % 66000; break;
    default: job->record_length -= drawn() % (job->record_length < 3 ? job->record_length + 1 : 3);
    }
    if (job->kind == CRC || job->kind == CRC_OF_BITS)
        job->z = 8 * (drawn() % 5);
}

/* The version, and of a matching the type. */
static void spoil_version(struct job *job) {
    if (drawn() % 6 == 0)
        job->rv = drawn() % 5;
    if (job->kind == MATCH && drawn() % 2)
        job->z = drawn() % 4;
}

/* Another edition, or none. */
static void spoil_edition(struct job *job) {
    if (drawn() % 4 == 0)
        job->edition = drawn() % 4;
}

static int answers_number(enum kind kind) { return kind > CRC_OF_BLOCK && kind != PLAN && kind != LOOKUP; }

/* Whether the sides agree on a broken copy; its number is counted. */
static int same_broken(const struct job *whole, long seen[NUMBERS]) {
    struct job job = *whole;
    u8 *record = copied(job.record, job.record_length), *input = copied(job.input, job.input_length);
    u8 *private = copied(job.private, job.private_length), *public = copied(job.public, job.public_length);
    spoil_record(record, job.record_length);
    spoil_input(input, job.input_length);
    spoil_shelf(private);
    spoil_shelf(public);
    spoil_tenant(&job);
    spoil_number(&job);
    spoil_version(&job);
    spoil_edition(&job);
    job.record = record, job.input = input, job.private = private, job.public = public;
    int is_same = same(&job);
    uint64_t answer = run(&sides[PRODUCT], &job);
    if (answers_number(job.kind) && answer < NUMBERS)
        seen[answer]++;
    free(record), free(input), free(private), free(public);
    return is_same;
}

void print_seen(const long seen[NUMBERS]) {
    for (int number = 0; number < NUMBERS; number++)
        if (seen[number])
            printf(" %d:%ld", number, seen[number]);
    printf("\n");
}

void compare_broken(long count) {
    long seen[NUMBERS] = { 0 }, differ = 0;
    for (long k = 0; k < count; k++)
        differ += !same_broken(&jobs[drawn() % job_count], seen);
    printf("%d calls and %ld broken ones: %ld answered differently. Answered numbers, and how often (99: a word does not check):\n",
           job_count, count, differ);
    print_seen(seen);
    if (differ)
        exit(1);
}

/* Whether the checkers agree on an input; the number is counted. */
static int same_checked(struct job job, u8 *input, long seen[NUMBERS]) {
    job.input = input;
    int is_same = agree(checkers, CHECKERS, &job);
    uint64_t answer = run(&checkers[BY_QUICK], &job);
    if (answer < NUMBERS)
        seen[answer]++;
    return is_same;
}

/* On every input, and on each with one bit changed. */
void compare_checkers(void) {
    long seen[NUMBERS] = { 0 }, asked = 0, differ = 0;
    for (int k = 0; k < job_count; k++)
        for (int v = 0; v < VARIANTS && jobs[k].is_for_both; v++) {
            u8 *broken = copied(jobs[k].inputs[v], jobs[k].input_length);
            broken[drawn() % jobs[k].input_length] ^= 1;
            differ += !same_checked(jobs[k], jobs[k].inputs[v], seen);
            differ += !same_checked(jobs[k], broken, seen);
            asked++;
            free(broken);
        }
    printf("%ld calls and as many with one bit changed, by either checker: %ld answered differently. Answered numbers, and how often (99: a word does not check):\n",
           asked, differ);
    print_seen(seen);
    if (differ)
        exit(1);
}
