/* Puts the same bits to the product and to programs of others that do the same work: peers SHELVES same COUNT | time ROUNDS */
#include "../driver/calls.h"
#include "itpp.h"
#include <osmocom/core/crc16gen.h>
#include <osmocom/core/crc32gen.h>
#include <osmocom/core/crc8gen.h>
#include <stdio.h>
#include <stdlib.h>
#include <string.h>

/* libosmocore takes one bit to an octet, as the product's calls of bits do, and goes bit by bit for any generator. */
static uint32_t osmocore_crc(size_t width, in bits, size_t count) {
    static const struct osmo_crc32gen_code of_24 = { 24, 0x864cfb, 0, 0 };
    static const struct osmo_crc16gen_code of_16 = { 16, 0x1021, 0, 0 };
    static const struct osmo_crc8gen_code of_8 = { 8, 0x9b, 0, 0 };
    if (width == 24)
        return osmo_crc32gen_compute_bits(&of_24, bits, count);
    if (width == 16)
        return osmo_crc16gen_compute_bits(&of_16, bits, count);
    return osmo_crc8gen_compute_bits(&of_8, bits, count);
}

static uint32_t osmocore_crc_of_block(in bits, size_t count) {
    static const struct osmo_crc32gen_code code = { 24, 0x800063, 0, 0 };
    return osmo_crc32gen_compute_bits(&code, bits, count);
}

static const struct side block = { .name = "IT++, block", .code = itpp_code_block, .check = itpp_check };
static const struct side systematic = { .name = "IT++, systematic", .code = itpp_code_systematic };
static const struct side osmocore = { .name = "libosmocore", .crc_of_bits = osmocore_crc, .crc_of_block = osmocore_crc_of_block };

/* The checksums that the peer is asked for. */
static const size_t widths[] = { 24, 16, 8 };
enum { WIDTHS = sizeof widths / sizeof widths[0], MOST_BITS = 16384 };

static const struct job *job_of(const char *name) {
    for (int k = 0; k < job_count; k++)
        if (!strcmp(jobs[k].name, name))
            return &jobs[k];
    fprintf(stderr, "bench: there is no job '%s'\n", name);
    exit(2);
}

static void fail(const char *what) {
    printf("DIFFERENT %s\n", what);
    exit(1);
}

static void draw(u8 *bits, size_t count) {
    for (size_t i = 0; i < count; i++)
        bits[i] = drawn() & 1;
}

static u8 bits[OUTPUT], packed[OUTPUT], word[OUTPUT];

/* Of single bits, of a code block's, and of the same bits as whole octets. */
static void compare_sums(long count) {
    for (long k = 0; k < count; k++) {
        size_t octets = drawn() % (k % 16 ? 256 : MOST_BITS / 8 + 1), own = 8 * octets;
        draw(bits, own);
        memset(packed, 0, octets);
        for (size_t i = 0; i < own; i++)
            packed[i / 8] |= bits[i] << (7 - i % 8);
        size_t fewer = own - (own ? drawn() % 8 : 0);
        for (int w = 0; w < WIDTHS; w++) {
            if (sides[PRODUCT].crc_of_bits(widths[w], bits, fewer) != osmocore.crc_of_bits(widths[w], bits, fewer))
                fail("a checksum of bits");
            if (sides[PRODUCT].crc(widths[w], packed, octets) != osmocore.crc_of_bits(widths[w], bits, own))
                fail("a checksum of octets");
        }
        if (sides[PRODUCT].crc_of_block(bits, fewer) != osmocore.crc_of_block(bits, fewer))
            fail("a checksum of a code block");
    }
    printf("%ld rows of up to %d bits: the checksums of width 24, 16 and 8, of bits and of octets, and 24B are libosmocore's\n", count,
           MOST_BITS);
}

/* Whether IT++ says of a word what the product says; answered is that it checks. */
static int is_even(const struct job *check, in own) {
    itpp_take_bits(0, own, check->input_length);
    uint32_t said = sides[PRODUCT].check(check->record, check->record_length, check->z, own, check->input_length);
    if (said != itpp_check(check->record, check->record_length, check->z, own, check->input_length))
        fail(check->name);
    return said == 0;
}

static void same_word(const struct side *side, const struct job *code, size_t length) {
    side->code(code->record, code->record_length, code->z, bits, code->input_length, 0, 0);
    if (itpp_coded(word, sizeof word) != length || memcmp(word, output, length))
        fail(code->name);
}

/* What each codes, what each says of it, and of the same with up to three bits changed. */
static void compare_words(const struct job *code, const struct job *check, long count) {
    long broken = 0;
    itpp_take_matrix(code->record, code->z);
    for (long k = 0; k < count; k++) {
        draw(bits, code->input_length);
        itpp_take_bits(0, bits, code->input_length);
        if (sides[PRODUCT].code(code->record, code->record_length, code->z, bits, code->input_length, output, check->input_length))
            fail(code->name);
        same_word(&block, code, check->input_length);
        same_word(&systematic, code, check->input_length);
        if (!is_even(check, word))
            fail(check->name);
        for (int changes = 1 + drawn() % 3; changes > 0; changes--)
            word[drawn() % check->input_length] ^= 1;
        broken += !is_even(check, word);
    }
    printf("%s: %ld words are those of both generators of IT++, and its syndrome says that they check; of as many with one to\n"
           "    three bits changed it says so of %ld, and so does the product, word for word\n",
           code->name, count, count - broken);
}

static void measure_pair(const struct side *peer, const struct job *job, int rounds) {
    struct side pair[2] = { sides[PRODUCT], *peer };
    print_pair(pair, job, rounds);
}

static void measure_sums(int rounds) {
    for (int w = 0; w < WIDTHS; w++) {
        struct job job = *job_of("crc24 16384 bits");
        job.z = widths[w];
        snprintf(job.name, sizeof job.name, "crc%zu %d bits", widths[w], MOST_BITS);
        measure_pair(&osmocore, &job, rounds);
    }
    measure_pair(&osmocore, job_of("crc24b 1492 bits"), rounds);
}

static void take_inputs(const struct job *job) {
    for (int v = 0; v < VARIANTS; v++)
        itpp_take_bits(v, job->inputs[v], job->input_length);
}

static void measure_words(const struct job *code, const struct job *check, long rounds) {
    itpp_take_matrix(code->record, code->z);
    take_inputs(code);
    measure_pair(&block, code, rounds);
    measure_pair(&systematic, code, rounds);
    take_inputs(check);
    measure_pair(&block, check, rounds);
}

/* Acts for profile 56 at each of its sizes, on the job that codes and on the one that checks. */
static void each_size(void act(const struct job *, const struct job *, long), long number) {
    for (int z = 27; z <= 81; z += 27) {
        char code[48], check[48];
        snprintf(code, sizeof code, "code 56 z%d", z);
        snprintf(check, sizeof check, "check 56 z%d", z);
        act(job_of(code), job_of(check), number);
    }
}

int main(int count, char **words) {
    if (count != 4 || (strcmp(words[2], "same") && strcmp(words[2], "time")))
        return 2;
    long number = atol(words[3]);
    make_jobs(words[1]);
    if (!strcmp(words[2], "same")) {
        compare_sums(number);
        each_size(compare_words, number);
        return 0;
    }
    printf("%-28s %-22s %10s %10s %9s %7s\n", "CPU time, nanoseconds", "peer", "product", "peer", "/peer", "spread");
    measure_sums(number);
    each_size(measure_words, number);
    return 0;
}
