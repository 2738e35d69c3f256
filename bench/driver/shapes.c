/* Asserts that all sides answer and write the same with records of any shape, in any edition, from any start and into any room. */
#include "records.h"
#include <stdio.h>
#include <stdlib.h>
#include <string.h>

static u8 block[2048], bits[OUTPUT], spoilt[OUTPUT];
static long sums_spoilt;

/* A block to be sent, mostly in one of the two editions, mostly into enough room, mostly from a start of the type. */
static struct job any_block(struct record record) {
    size_t octets = 1 + drawn() % (drawn() % 4 ? 100 : 2048), type = number_at(record.octets, 6);
    struct job job = { .name = "send any", .kind = SEND, .record = record.octets, .record_length = record.length, .input = block };
    job.nl = 1, job.qm = 2, job.room = sizeof output, job.a = 8 * octets, job.input_length = octets;
    job.rv = drawn() % 16 ? type == 1 ? 0 : drawn() % 4 : drawn() % 6;
    job.edition = drawn() % 16 ? 1 + drawn() % 2 : drawn() % 4;
    size_t least = least_g(record, job.edition, octets);
    job.g = drawn() % 8 ? least + 2 * (drawn() % least) : 2 * (drawn() % least);
    for (size_t k = 0; k < octets; k++)
        block[k] = drawn();
    return job;
}

/* What is sent of block r where all bits are 0 but one of its checksum's: added to a block that was sent, it leaves all parity bits right. */
static void one_sum_bit(const struct job *job, struct cut cut, size_t r, size_t e, u8 *out) {
    static u8 places[1620], word[4860];
    in record = job->record;
    size_t kb = number_at(record, 0), rows = number_at(record, 2) + number_at(record, 4), own = cut.own + (r < cut.longer);
    memset(places, 0, own + cut.sums);
    memset(places + own + cut.sums, 2, kb * cut.z - own - cut.sums);
    places[own + drawn() % cut.sums] = 1;
    sides[PRODUCT].code(record, job->record_length, cut.z, places, kb * cut.z, word, sizeof word);
    sides[PRODUCT].match(word, (kb + rows) * cut.z, number_at(record, 6), job->rv, e, out, OUTPUT);
}

/* Changes one bit of one block's checksum, and its parity bits with it, so that nothing is wrong but that checksum. */
static void spoil_sum(const struct job *job, struct cut cut) {
    static u8 change[OUTPUT];
    size_t places = job->g / 2, each = places / cut.blocks, more = places % cut.blocks, r = drawn() % cut.blocks;
    size_t at = 2 * (r * each + (r < more ? r : more)), e = 2 * (each + (r < more));
    one_sum_bit(job, cut, r, e, change);
    for (size_t k = 0; k < e; k++)
        spoilt[at + k] ^= change[k];
}

/* The number for bits that were spoilt is 14, where it was 0 before. */
static void compare_spoilt(struct job job, uint64_t before, long seen[NUMBERS], long *differ) {
    job.input = spoilt;
    if (answered(&job, seen, differ) != (before ? before : 14))
        ++*differ;
}

/* What was sent is received, and is looked at again with one bit changed, and with a block's checksum changed where it has one. */
static void compare_received(struct job job, struct cut cut, long seen[NUMBERS], long *differ) {
    memcpy(bits, output, job.g);
    snprintf(job.name, sizeof job.name, "receive any");
    job.kind = RECEIVE, job.input = bits, job.input_length = job.g;
    uint64_t number = answered(&job, seen, differ);
    if (number == 0 && memcmp(output, block, job.a / 8))
        ++*differ;
    memcpy(spoilt, bits, job.g);
    spoilt[drawn() % job.g] ^= 1;
    compare_spoilt(job, number, seen, differ);
    if (number || !cut.sums)
        return;
    memcpy(spoilt, bits, job.g);
    spoil_sum(&job, cut);
    sums_spoilt++;
    compare_spoilt(job, number, seen, differ);
}

static void compare_shape(long seen[NUMBERS], long *differ) {
    struct record record = any_record();
    struct job judge = { .name = "judge any", .kind = JUDGE, .record = record.octets, .record_length = record.length };
    if (answered(&judge, seen, differ))
        return;
    struct job send = any_block(record);
    if (answered(&send, seen, differ) == 0)
        compare_received(send, cut_of(record, send.edition, send.input_length), seen, differ);
}

void compare_shapes(long count) {
    long seen[NUMBERS] = { 0 }, differ = 0;
    for (long k = 0; k < count; k++)
        compare_shape(seen, &differ);
    printf("%ld records of any shape, sent with and received with, %ld times with one block's checksum alone wrong: %ld answered differently. Answered numbers, and how often:\n",
           count, sums_spoilt, differ);
    print_seen(seen);
    if (differ)
        exit(1);
}
