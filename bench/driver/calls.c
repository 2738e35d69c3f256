/* Calls a side for a job. */
#include "calls.h"
#include <string.h>

#define CALLS(P)                                                                                                       \
    crc_call P##_crc, P##_crc_of_bits;                                                                                 \
    block_crc_call P##_crc_of_block;                                                                                   \
    judge_call P##_judge;                                                                                              \
    plan_call P##_plan;                                                                                                \
    match_call P##_match;                                                                                              \
    code_call P##_code;                                                                                                \
    check_call P##_check;                                                                                              \
    send_call P##_send;                                                                                                \
    receive_call P##_receive;                                                                                          \
    lookup_call P##_lookup;                                                                                            \
    hosted_send_call P##_hosted_send;                                                                                  \
    hosted_receive_call P##_hosted_receive;                                                                            \
    code_word_call P##_code_word;                                                                                      \
    match_streams_call P##_match_streams;                                                                              \
    send_word_call P##_send_word;                                                                                      \
    streams_of_call P##_streams_of;                                                                                    \
    nearest_word_call P##_nearest_word;
#define SIDE(NAME, P)                                                                                                  \
    { NAME,              P##_crc,       P##_crc_of_bits, P##_crc_of_block,   P##_judge,                                \
      P##_plan,          P##_match,     P##_code,        P##_check,          P##_send,                                 \
      P##_receive,       P##_lookup,    P##_hosted_send, P##_hosted_receive, P##_code_word,                            \
      P##_match_streams, P##_send_word, P##_streams_of,  P##_nearest_word }

CALLS(product)
CALLS(plain)
CALLS(limit)
crc_call plain_crc_bitwise;
check_call product_check_by_plain;
receive_call product_receive_by_plain;

const struct side sides[SIDES] = {
    SIDE("product", product),
    SIDE("plain", plain),
    { .name = "plain*", .crc = plain_crc_bitwise },
    SIDE("limit", limit),
};

const struct side checkers[CHECKERS] = {
    { .name = "by plain", .check = product_check_by_plain, .receive = product_receive_by_plain },
    { .name = "by quick", .check = product_check, .receive = product_receive },
};

u8 output[OUTPUT];

/* The baselines never unwind, and their room for it is not linked. */
void rust_eh_personality(void) {}

uint64_t drawn(void) {
    static uint64_t state = 88172645463325252u;
    state ^= state << 13;
    state ^= state >> 7;
    state ^= state << 17;
    return state;
}

int is_asked(const struct job *job, const char *only) { return !only || strstr(job->name, only); }

int has(const struct side *side, const struct job *job) {
    switch (job->kind) {
    case CRC: return side->crc != 0;
    case CRC_OF_BITS: return side->crc_of_bits != 0;
    case CRC_OF_BLOCK: return side->crc_of_block != 0;
    case JUDGE: return side->judge != 0;
    case PLAN: return side->plan != 0;
    case MATCH: return side->match != 0;
    case CODE: return side->code != 0;
    case CHECK: return side->check != 0;
    case SEND: return side->send != 0;
    case RECEIVE: return side->receive != 0;
    case LOOKUP: return side->lookup != 0;
    case HOSTED_SEND: return side->hosted_send != 0;
    case HOSTED_RECEIVE: return side->hosted_receive != 0;
    case CODE_WORD: return side->code_word != 0;
    case MATCH_STREAMS: return side->match_streams != 0;
    case SEND_WORD: return side->send_word != 0;
    case STREAMS_OF: return side->streams_of != 0;
    default: return side->nearest_word != 0;
    }
}

static uint64_t run_hosted(const struct side *s, const struct job *j) {
    if (j->kind == LOOKUP)
        return s->lookup(j->private, j->private_length, j->public, j->public_length, j->tenant, j->profile);
    if (j->kind == HOSTED_SEND)
        return s->hosted_send(j->private, j->private_length, j->public, j->public_length, j->tenant, j->profile, j->input,
                              j->input_length, j->nl, j->qm, j->rv, j->edition, j->g, output, j->room);
    return s->hosted_receive(j->private, j->private_length, j->public, j->public_length, j->tenant, j->profile, j->a, j->nl,
                             j->qm, j->rv, j->edition, j->input, j->input_length, output, j->room);
}

/* All that is answered is put to the end of the output, behind any room for a word: what stands there is compared too. */
static uint64_t run_nearest(const struct side *s, const struct job *j) {
    uint64_t answer = s->nearest_word(j->z, j->input, j->input_length, output, j->room);
    memcpy(output + OUTPUT - sizeof answer, &answer, sizeof answer);
    return (uint32_t)answer;
}

uint64_t run(const struct side *s, const struct job *j) {
    switch (j->kind) {
    case CRC: return s->crc(j->z, j->input, j->input_length);
    case CRC_OF_BITS: return s->crc_of_bits(j->z, j->input, j->input_length);
    case CRC_OF_BLOCK: return s->crc_of_block(j->input, j->input_length);
    case PLAN: return s->plan(j->record, j->record_length, j->edition, j->z);
    case MATCH: return s->match(j->input, j->input_length, j->z, j->rv, j->g, output, j->room);
    case JUDGE: return s->judge(j->record, j->record_length);
    case CODE: return s->code(j->record, j->record_length, j->z, j->input, j->input_length, output, j->room);
    case CHECK: return s->check(j->record, j->record_length, j->z, j->input, j->input_length);
    case SEND:
        return s->send(j->record, j->record_length, j->input, j->input_length, j->nl, j->qm, j->rv, j->edition, j->g, output,
                       j->room);
    case RECEIVE:
        return s->receive(j->record, j->record_length, j->a, j->nl, j->qm, j->rv, j->edition, j->input, j->input_length, output,
                          j->room);
    case CODE_WORD: return s->code_word(j->input, j->input_length, output, j->room);
    case MATCH_STREAMS: return s->match_streams(j->z, j->input, j->input_length, j->g, output, j->room);
    case SEND_WORD: return s->send_word(j->input, j->input_length, j->g, output, j->room);
    case STREAMS_OF: return s->streams_of(j->z, j->input, j->input_length, output, j->room);
    case NEAREST_WORD: return run_nearest(s, j);
    default: return run_hosted(s, j);
    }
}
