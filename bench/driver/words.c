/* Asserts that all sides answer and write the same on control words of any length, sent as any count of bits and into any room, and that
   they find the same word in streams with any number of bits turned. */
#include "calls.h"
#include <stdio.h>
#include <stdlib.h>
#include <string.h>

/* Of any length that is drawn: a word, its streams, and what these are sent as. */
static u8 word[160], streams[480], bits[OUTPUT], heard[480];

/* A number, or, once in eight times, the one below or the one above. */
static size_t about(size_t number) { return drawn() % 8 ? number : drawn() % 2 ? number + 1 : number - (number > 0); }

/* Mostly a length of a control word, often about the bounds. */
static size_t any_length(void) {
    switch (drawn() % 8) {
    case 0: return about(6);
    case 1: return about(128);
    case 2: return drawn() % 160;
    default: return 6 + drawn() % 123;
    }
}

/* Bits that a word of D bits is sent as: fewer than its streams have, as many, some times as many, or about the bounds. */
static size_t any_count(size_t d) {
    switch (drawn() % 8) {
    case 0: return drawn() % (3 * d + 1);
    case 1: return drawn() % 2 ? about(1) : about(65536);
    case 2: return drawn() % 65600;
    case 3: return about(6 * d);
    case 4: return about(3 * d);
    default: return 3 * d + drawn() % (9 * d + 1);
    }
}

/* Bits, of which, once in eight times, one is none. */
static void draw_bits(u8 *out, size_t count) {
    for (size_t k = 0; k < count; k++)
        out[k] = drawn() % 2;
    if (count && drawn() % 8 == 0)
        out[drawn() % count] = drawn();
}

/* Bits that repeat the first of them, as what is sent does. */
static void draw_copies(u8 *out, size_t period, size_t count) {
    draw_bits(out, count);
    for (size_t k = period; period && k < count; k++)
        out[k] = out[k - period];
}

static struct job any_job(const char *name, enum kind kind, u8 *input, size_t length, size_t room) {
    struct job job = { .kind = kind, .input = input, .input_length = length, .room = room };
    snprintf(job.name, sizeof job.name, "%s", name);
    return job;
}

/* The streams of the word; others where it is refused. */
static uint64_t compare_coded(size_t d, long seen[NUMBERS], long *differ) {
    struct job job = any_job("code any word", CODE_WORD, word, d, about(3 * d));
    uint64_t number = answered(&job, seen, differ);
    if (number)
        draw_bits(streams, sizeof streams);
    else
        memcpy(streams, output, 3 * d);
    return number;
}

/* What the streams are sent as; what others might be where they are refused. */
static uint64_t compare_matched(size_t d, size_t e, long seen[NUMBERS], long *differ) {
    struct job job = any_job("match any streams", MATCH_STREAMS, streams, about(3 * d), about(e));
    job.z = d, job.g = e;
    uint64_t number = answered(&job, seen, differ);
    if (number)
        draw_copies(bits, 3 * d, e);
    else
        memcpy(bits, output, e);
    return number;
}

/* A word that is coded to the streams is sent as these are. */
static void compare_sent(size_t d, size_t e, int is_known, long seen[NUMBERS], long *differ) {
    struct job job = any_job("send any word", SEND_WORD, word, d, about(e));
    job.g = e;
    if (answered(&job, seen, differ) == 0 && is_known && memcmp(output, bits, e))
        ++*differ;
}

/* With one bit changed, of which there is a copy or none. */
static void compare_changed(struct job job, long seen[NUMBERS], long *differ) {
    size_t place = drawn() % job.input_length, all = 3 * job.z;
    int has_copy = place >= all || place + all < job.input_length;
    bits[place] ^= 1;
    if (answered(&job, seen, differ) != (has_copy ? 14 : 0))
        ++*differ;
}

/* The streams are taken back from what they are sent as. */
static void compare_back(size_t d, size_t e, int is_known, long seen[NUMBERS], long *differ) {
    struct job job = any_job("take any back", STREAMS_OF, bits, e, about(3 * d));
    job.z = d;
    if (answered(&job, seen, differ))
        return;
    if (is_known && memcmp(output, streams, 3 * d))
        ++*differ;
    compare_changed(job, seen, differ);
}

/* A word is the nearest to its own streams. */
static void compare_nearest(size_t d, int is_coded, long seen[NUMBERS], long *differ) {
    struct job job = any_job("find any word", NEAREST_WORD, streams, about(3 * d), about(d));
    job.z = d;
    if (answered(&job, seen, differ) == 0 && is_coded && memcmp(output, word, d))
        ++*differ;
}

/* In streams of which a few bits are turned, or half of all, so that often many words are as near; once in eight times one is no bit. */
static void compare_heard(size_t d, long seen[NUMBERS], long *differ) {
    struct job job = any_job("find any heard", NEAREST_WORD, heard, about(3 * d), about(d));
    size_t one_in = drawn() % 2 ? 2 : 2 + drawn() % 40;
    for (size_t k = 0; k < sizeof heard; k++)
        heard[k] = streams[k] ^ (drawn() % one_in == 0);
    if (d && drawn() % 8 == 0)
        heard[drawn() % (3 * d)] = drawn();
    job.z = d;
    answered(&job, seen, differ);
}

static void compare_word(long seen[NUMBERS], long *differ) {
    size_t d = any_length(), e = any_count(d);
    draw_bits(word, d);
    int is_coded = compare_coded(d, seen, differ) == 0, is_matched = compare_matched(d, e, seen, differ) == 0;
    compare_sent(d, e, is_coded && is_matched, seen, differ);
    compare_back(d, e, is_matched, seen, differ);
    compare_nearest(d, is_coded, seen, differ);
    compare_heard(d, seen, differ);
}

void compare_control_words(long count) {
    long seen[NUMBERS] = { 0 }, differ = 0;
    for (long k = 0; k < count; k++)
        compare_word(seen, &differ);
    printf("%ld control words of any length, coded, matched, sent and taken back, also with one bit changed, and found again, also with any bits turned: %ld answered differently. Answered numbers, and how often:\n",
           count, differ);
    print_seen(seen);
    if (differ)
        exit(1);
}
