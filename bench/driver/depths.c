/* The stack that each call uses, on one that was painted before. */
#include "calls.h"
#include <stdio.h>
#include <string.h>
#include <ucontext.h>

enum { STACK = 1 << 18, PAINT = 0xd7, MOST = 65536 };
static u8 stack[STACK] __attribute__((aligned(4096)));
static ucontext_t here, there;
static const struct side *side;
static const struct job *job;
static volatile uint64_t sink;

/* A call that no side is measured by, on the inputs of a job of another. */
typedef uint32_t other_call(const struct job *);
static other_call *other;

static void enter(void) { sink += other ? other(job) : side ? run(side, job) : 0; }

static long depth(void) {
    memset(stack, PAINT, sizeof stack);
    getcontext(&there);
    there.uc_stack.ss_sp = stack;
    there.uc_stack.ss_size = sizeof stack;
    there.uc_link = &here;
    makecontext(&there, enter, 0);
    swapcontext(&here, &there);
    size_t clean = 0;
    while (clean < sizeof stack && stack[clean] == PAINT)
        clean++;
    return sizeof stack - clean;
}

/* What is there before any call. */
static long depth_of_none(void) {
    side = 0;
    other = 0;
    return depth();
}

void print_depths(const char *only) {
    long none = depth_of_none();
    printf("%-28s", "octets of the stack");
    for (int i = 0; i < SIDES; i++)
        printf(" %8s", sides[i].name);
    printf("\n");
    for (int k = 0; k < job_count; k++) {
        job = &jobs[k];
        if (!is_asked(job, only))
            continue;
        printf("%-28s", job->name);
        for (int i = 0; i < SIDES; i++) {
            side = &sides[i];
            if (has(side, job))
                printf(" %8ld", depth() - none);
            else
                printf(" %8s", "-");
        }
        printf("\n");
    }
}

uint32_t product_sum_under(size_t width, uint64_t mask, in bits, size_t count);
uint32_t product_append(size_t width, uint64_t mask, in bits, size_t count, u8 *out, size_t room);
uint32_t product_test(size_t width, uint64_t mask, in word, size_t count);
code_call product_row_sums;
uint32_t product_least_bits(in record, size_t length, size_t octets, size_t nl, size_t qm, size_t rv, size_t edition);
uint32_t product_lookup_number(in private, size_t own, in public, size_t others, uint16_t tenant, uint16_t profile);
uint32_t product_hosted_check(in private, size_t own, in public, size_t others, uint16_t tenant, uint16_t profile, size_t z,
                              in word, size_t count);

static const uint64_t mask = 0x5a5a5a;

static uint32_t sum_under(const struct job *j) { return product_sum_under(j->z, mask, j->input, j->input_length); }

static uint32_t append(const struct job *j) {
    return product_append(j->z, mask, j->input, j->input_length, output, OUTPUT);
}

static uint32_t test(const struct job *j) { return product_test(j->z, mask, j->input, j->input_length); }

static uint32_t row_sums(const struct job *j) {
    return product_row_sums(j->record, j->record_length, j->z, j->input, j->input_length, output, OUTPUT);
}

static uint32_t least_bits(const struct job *j) {
    return product_least_bits(j->record, j->record_length, j->input_length, j->nl, j->qm, j->rv, j->edition);
}

static uint32_t lookup_number(const struct job *j) {
    return product_lookup_number(j->private, j->private_length, j->public, j->public_length, j->tenant, j->profile);
}

/* Zeros are a word of any matrix; those of 24 columns of z 81 are one of profile 34. */
static uint32_t hosted_check(const struct job *j) {
    static const u8 word[24 * 81];
    return product_hosted_check(j->private, j->private_length, j->public, j->public_length, j->tenant, j->profile, 81, word,
                                sizeof word);
}

/* A public call: the side that has it, or the call itself, and the jobs that it is given. */
struct call {
    const char *name;
    const struct side *side;
    enum kind kind;
    other_call *other;
};

static const struct call calls[] = {
    { "checksum of octets", &sides[PRODUCT], CRC, 0 },
    { "checksum of single bits", &sides[PRODUCT], CRC_OF_BITS, 0 },
    { "checksum of a code block", &sides[PRODUCT], CRC_OF_BLOCK, 0 },
    { "judge a record", &sides[PRODUCT], JUDGE, 0 },
    { "plan a block", &sides[PRODUCT], PLAN, 0 },
    { "match a coded block", &sides[PRODUCT], MATCH, 0 },
    { "code a block", &sides[PRODUCT], CODE, 0 },
    { "check a word", &checkers[BY_QUICK], CHECK, 0 },
    { "check a word, plain checker", &checkers[BY_PLAIN], CHECK, 0 },
    { "send", &sides[PRODUCT], SEND, 0 },
    { "receive", &checkers[BY_QUICK], RECEIVE, 0 },
    { "receive, plain checker", &checkers[BY_PLAIN], RECEIVE, 0 },
    { "look up", &sides[PRODUCT], LOOKUP, 0 },
    { "look up and send", &sides[PRODUCT], HOSTED_SEND, 0 },
    { "look up and receive", &sides[PRODUCT], HOSTED_RECEIVE, 0 },
    { "code a control word", &sides[PRODUCT], CODE_WORD, 0 },
    { "match its streams", &sides[PRODUCT], MATCH_STREAMS, 0 },
    { "send a control word", &sides[PRODUCT], SEND_WORD, 0 },
    { "take its streams back", &sides[PRODUCT], STREAMS_OF, 0 },
    { "find the nearest word", &sides[PRODUCT], NEAREST_WORD, 0 },
    { "look up and check", 0, HOSTED_RECEIVE, hosted_check },
    { "number of a lookup", 0, LOOKUP, lookup_number },
    { "least G", 0, SEND, least_bits },
    { "sums of a word's rows", 0, CHECK, row_sums },
    { "checksum under a mask", 0, CRC_OF_BITS, sum_under },
    { "append it", 0, CRC_OF_BITS, append },
    { "test it", 0, CRC_OF_BITS, test },
};
enum { CALLS = sizeof calls / sizeof calls[0] };

static int is_of(const struct job *j, const struct call *call) {
    int is_slow = call->side == &checkers[BY_PLAIN] || call->other == row_sums;
    return j->kind == call->kind && (!is_slow || j->is_for_both);
}

/* Prints a call's row, and answers its depth. */
static long print_call(const struct call *call, long none) {
    long deepest = 0;
    const struct job *where = 0;
    side = call->side;
    other = call->other;
    for (int k = 0; k < job_count; k++) {
        job = &jobs[k];
        if (!is_of(job, call))
            continue;
        long own = depth() - none;
        if (!where || own > deepest)
            deepest = own, where = job;
    }
    printf("%-28s %8ld  %s\n", call->name, deepest, where ? where->name : "no job");
    return deepest;
}

int print_deepest(void) {
    long none = depth_of_none();
    int over[CALLS], count = 0;
    printf("%-28s %8s  %s\n", "stack of a call, deepest", "octets", "in the job");
    for (int k = 0; k < CALLS; k++)
        if (print_call(&calls[k], none) > MOST)
            over[count++] = k;
    for (int k = 0; k < count; k++)
        printf("OVER %d octets: %s\n", MOST, calls[over[k]].name);
    if (!count)
        printf("each is at most %d octets\n", MOST);
    return count;
}
