/* What is measured: the calls of each side, and jobs, each of which is one call with all that it takes. */
#ifndef CALLS_H
#define CALLS_H
#include <stddef.h>
#include <stdint.h>

typedef uint8_t u8;
typedef const uint8_t *in;

/* A slice is its start and its length. */
typedef uint32_t crc_call(size_t width, in octets, size_t count);
typedef uint32_t block_crc_call(in bits, size_t count);
typedef uint32_t judge_call(in record, size_t length);
typedef size_t plan_call(in record, size_t length, size_t edition, size_t octets);
typedef uint32_t match_call(in coded, size_t count, size_t type, size_t rv, size_t e, u8 *out, size_t room);
typedef uint32_t code_call(in record, size_t length, size_t z, in places, size_t count, u8 *out, size_t room);
typedef uint32_t check_call(in record, size_t length, size_t z, in word, size_t count);
typedef uint32_t send_call(in record, size_t length, in block, size_t octets, size_t nl, size_t qm, size_t rv, size_t edition,
                           size_t g, u8 *out, size_t room);
typedef uint32_t receive_call(in record, size_t length, size_t a, size_t nl, size_t qm, size_t rv, size_t edition, in bits,
                              size_t g, u8 *out, size_t room);
typedef uint32_t code_word_call(in word, size_t count, u8 *out, size_t room);
typedef uint32_t match_streams_call(size_t d, in streams, size_t count, size_t e, u8 *out, size_t room);
typedef uint32_t send_word_call(in word, size_t count, size_t e, u8 *out, size_t room);
typedef uint32_t streams_of_call(size_t d, in bits, size_t count, u8 *out, size_t room);
/* What is answered has the number in its lowest 32 bits, above it the differences in 16, and above these the written octets. */
typedef uint64_t nearest_word_call(size_t d, in heard, size_t count, u8 *out, size_t room);
typedef size_t lookup_call(in private, size_t own, in public, size_t others, uint16_t tenant, uint16_t profile);
typedef uint32_t hosted_send_call(in private, size_t own, in public, size_t others, uint16_t tenant, uint16_t profile,
                                  in block, size_t octets, size_t nl, size_t qm, size_t rv, size_t edition, size_t g, u8 *out,
                                  size_t room);
typedef uint32_t hosted_receive_call(in private, size_t own, in public, size_t others, uint16_t tenant, uint16_t profile,
                                     size_t a, size_t nl, size_t qm, size_t rv, size_t edition, in bits, size_t g, u8 *out,
                                     size_t room);

/* The product or a baseline. A call that it has no shape of its own for is null. */
struct side {
    const char *name;
    crc_call *crc, *crc_of_bits;
    block_crc_call *crc_of_block;
    judge_call *judge;
    plan_call *plan;
    match_call *match;
    code_call *code;
    check_call *check;
    send_call *send;
    receive_call *receive;
    lookup_call *lookup;
    hosted_send_call *hosted_send;
    hosted_receive_call *hosted_receive;
    code_word_call *code_word;
    match_streams_call *match_streams;
    send_word_call *send_word;
    streams_of_call *streams_of;
    nearest_word_call *nearest_word;
};

/* In the order of the table's columns. */
enum { PRODUCT, PLAIN, PLAIN_STAR, LIMIT, SIDES };
extern const struct side sides[SIDES];

/* The product by each of its checkers: sides with the calls that check, and no others. */
enum { BY_PLAIN, BY_QUICK, CHECKERS };
extern const struct side checkers[CHECKERS];

enum kind { CRC, CRC_OF_BITS, CRC_OF_BLOCK, JUDGE, PLAN, MATCH, CODE, CHECK, SEND, RECEIVE, LOOKUP, HOSTED_SEND, HOSTED_RECEIVE,
            CODE_WORD, MATCH_STREAMS, SEND_WORD, STREAMS_OF, NEAREST_WORD };

/* Inputs of a job that take turns where it is timed: a branch predictor learns one block by heart, and no user sends one block only. */
enum { VARIANTS = 8 };

struct job {
    char name[48];
    enum kind kind;
    in record;
    size_t record_length;
    in private, public;
    size_t private_length, public_length;
    uint16_t tenant, profile;
    size_t z; /* of a checksum: its width; of a plan: the octets; of a matching: the type; of streams and of what was heard: D */
    size_t nl, qm, rv, edition, g, a; /* g of a control word or of streams: E */
    u8 *input; /* the first of the inputs */
    u8 *inputs[VARIANTS];
    size_t input_length;
    size_t room;
    int is_uneven; /* whether what a call takes depends on its input: then all of them are in each batch */
    int is_for_both; /* whether both checkers are asked; the plain one is too slow to be asked on every job */
};

enum { MOST_JOBS = 128, OUTPUT = 70000 };
extern struct job jobs[MOST_JOBS];
extern int job_count;
extern u8 output[OUTPUT];

/* Whether the side has a shape for the job, and what it answers: a number, a checksum or a length. */
int has(const struct side *side, const struct job *job);
uint64_t run(const struct side *side, const struct job *job);

/* The next of a fixed row of random numbers. */
uint64_t drawn(void);

/* Makes all jobs, with the records of the shelves in a folder. */
void make_jobs(const char *shelves);

/* Whether a job is asked for: each is where `only` is null. */
int is_asked(const struct job *job, const char *only);

/* The numbers that were answered, and how often. */
enum { NUMBERS = 100 };
void print_seen(const long seen[NUMBERS]);

int same(const struct job *job);
/* The product's answer on a job of any input, a number. It is counted, and so is a job on which the sides differ. */
uint64_t answered(const struct job *job, long seen[NUMBERS], long *differ);
void compare_broken(long count);
void compare_shapes(long count);
void compare_control_words(long count);
void compare_checkers(void);
void print_times(int rounds, const char *only);
/* For a program to read, a line for each side: job, side, nanoseconds, and what the product's time is over them. */
void print_medians(int rounds, const char *only);
void print_checkers(int rounds, const char *only);
/* A row: the time of each of two sides, and what the first's is over the second's. */
void print_pair(const struct side pair[2], const struct job *job, int rounds);
void mark_counts(const char *only);
void mark_places(const char *name);
void print_depths(const char *only);
/* The stack of each public call, at its deepest over the jobs; answered is how many calls are over what a call may use. */
int print_deepest(void);
#endif
