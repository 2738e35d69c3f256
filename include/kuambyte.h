/*
 * kuambyte.h: the proved coding library of Kuambyte, from C and C++.
 *
 * What a function answers is proved for every input (docs/PROMISES.md of the project has the promises). For all functions:
 *
 *   - Any octets, lengths and numbers may be given. A call ends, and has one answer: KUAMBYTE_DONE, or the number of a refusal (enum kuambyte_number).
 *     The numbers of a function are tested in the order in which its comment lists them, and the first that applies is answered.
 *   - Octets are lent as a pointer and a length. The memory has to be there for the whole length; with length 0 the pointer may be null.
 *   - `out` is the one thing that is written. It may not overlap anything that is lent to the same call for reading. What is read may overlap.
 *   - A call that is done writes as many octets as its count says, at the start of `out`; those behind stay as they were. A refusal writes nothing, and its
 *     count and other results are 0 or false. What `out` held before decides nothing.
 *   - Bits stand one to an octet, 0 or 1. Places are bits or 2, the mark of filler. A transport block, a record and a shelf are packed octets.
 *   - No number is cut: a tenant or a profile number over 65,535 is on no shelf, and is refused before anything else is tested. A negative one comes as such a
 *     number.
 *   - Nothing is kept between calls, allocated or asked of the system: any thread may call at any time. No call takes more than 64 kilobytes of stack.
 *
 * Link with -lkuambyte behind the files that call it (cc -o member member.c $(pkg-config --cflags --libs kuambyte)). The library is for x86-64 Linux.
 */
#ifndef KUAMBYTE_H
#define KUAMBYTE_H

#include <stdbool.h>
#include <stddef.h>
#include <stdint.h>

#if !defined(__x86_64__) || !defined(__linux__)
#error "libkuambyte is for x86-64 Linux: this compiler compiles for another target"
#endif

#define KUAMBYTE_VERSION "0.1.0"

#ifdef __cplusplus
extern "C" {
#endif

/* ---- the numbers that are answered */

enum kuambyte_number {
    KUAMBYTE_DONE = 0,                /* done */
    KUAMBYTE_TENANT_ZERO = 1,         /* the asking tenant is 0 */
    KUAMBYTE_PRIVATE_SHELF = 2,       /* the private shelf is not well formed */
    KUAMBYTE_PUBLIC_SHELF = 3,        /* the public shelf is not well formed */
    KUAMBYTE_NO_RECORD = 4,           /* neither shelf has the record */
    KUAMBYTE_PROFILE = 5,             /* the profile record is not well formed */
    KUAMBYTE_NO_STAIRCASE = 6,        /* a table of the profile is no staircase, or its extension is wrong */
    KUAMBYTE_BLOCK_LENGTH = 7,        /* the transport block is not 1 to 2048 octets */
    KUAMBYTE_PARAMETER = 8,           /* N_L, Q_m, G or E is not one that can be sent with, or a z, a width or a length is not one that the call takes */
    KUAMBYTE_TOO_MANY_BLOCKS = 9,     /* the block takes more than 64 code blocks, or in edition 2 a code block has no room beside its checksum */
    KUAMBYTE_TOO_FEW_PLACES = 10,     /* G has fewer symbol places than there are code blocks */
    KUAMBYTE_SHORT_OUTPUT = 11,       /* the output is shorter than the result */
    KUAMBYTE_NO_BIT = 12,             /* a received octet is over 1, or a place is over 2 */
    KUAMBYTE_NO_ROOM = 13,            /* there is no room for all coded bits */
    KUAMBYTE_UNSENT = 14,             /* nothing is sent as these bits */
    KUAMBYTE_REDUNDANCY_VERSION = 16, /* the redundancy version is over 3, or is not 0 and the profile is of Type 1 */
    KUAMBYTE_CONTROL_LENGTH = 17,     /* the control word is not 6 to 128 bits */
    KUAMBYTE_EDITION = 19,            /* the edition is not 1 or 2 */
    KUAMBYTE_FULL_SHELF = 26          /* the shelf has no room: it would have over 64 entries or 65535 octets */
};

/* What a number means, in the words that stand beside it above; for a number that no call answers "no number that is answered". */
static inline const char *kuambyte_meaning(uint32_t number) {
    switch (number) {
    case KUAMBYTE_DONE: return "done";
    case KUAMBYTE_TENANT_ZERO: return "the asking tenant is 0";
    case KUAMBYTE_PRIVATE_SHELF: return "the private shelf is not well formed";
    case KUAMBYTE_PUBLIC_SHELF: return "the public shelf is not well formed";
    case KUAMBYTE_NO_RECORD: return "neither shelf has the record";
    case KUAMBYTE_PROFILE: return "the profile record is not well formed";
    case KUAMBYTE_NO_STAIRCASE: return "a table of the profile is no staircase, or its extension is wrong";
    case KUAMBYTE_BLOCK_LENGTH: return "the transport block is not 1 to 2048 octets";
    case KUAMBYTE_PARAMETER: return "N_L, Q_m, G or E is not one that can be sent with, or a z, a width or a length is not one that the call takes";
    case KUAMBYTE_TOO_MANY_BLOCKS: return "the block takes more than 64 code blocks, or in edition 2 a code block has no room beside its checksum";
    case KUAMBYTE_TOO_FEW_PLACES: return "G has fewer symbol places than there are code blocks";
    case KUAMBYTE_SHORT_OUTPUT: return "the output is shorter than the result";
    case KUAMBYTE_NO_BIT: return "a received octet is over 1, or a place is over 2";
    case KUAMBYTE_NO_ROOM: return "there is no room for all coded bits";
    case KUAMBYTE_UNSENT: return "nothing is sent as these bits";
    case KUAMBYTE_REDUNDANCY_VERSION: return "the redundancy version is over 3, or is not 0 and the profile is of Type 1";
    case KUAMBYTE_CONTROL_LENGTH: return "the control word is not 6 to 128 bits";
    case KUAMBYTE_EDITION: return "the edition is not 1 or 2";
    case KUAMBYTE_FULL_SHELF: return "the shelf has no room: it would have over 64 entries or 65535 octets";
    default: return "no number that is answered";
    }
}

/* ---- what is answered, and what travels with a block */

/* A call that writes: its number, and how many octets of `out` it wrote. */
typedef struct kuambyte_written {
    uint32_t number;
    size_t count;
} kuambyte_written;

/* A checksum: its number, and its value, whose highest bit of as many as the width is sent first. */
typedef struct kuambyte_sum {
    uint32_t number;
    uint32_t value;
} kuambyte_sum;

/* A word tested for its checksum: its number, and whether it holds. */
typedef struct kuambyte_tested {
    uint32_t number;
    bool holds;
} kuambyte_tested;

/* A word held against a profile's matrix: its number, and whether every row is even. */
typedef struct kuambyte_verdict {
    uint32_t number;
    bool checks;
} kuambyte_verdict;

/* How a transport block is cut. */
typedef struct kuambyte_plan {
    uint32_t number;
    size_t bits;   /* B, the bits of the block and its checksum */
    size_t kmax;   /* the most that one code block holds */
    size_t blocks; /* C, the count of code blocks */
    size_t places; /* K, the systematic places of each */
    size_t z;      /* the size that they are coded with */
    size_t index;  /* which of the record's sizes that is, from 0 */
    size_t sums;   /* L, the bits of each block's own checksum: 24, or 0 where it has none */
} kuambyte_plan;

/* The least G with which every code block has room for all its coded bits. */
typedef struct kuambyte_least {
    uint32_t number;
    size_t g;      /* G, the bits to ask for */
    size_t blocks; /* C, the count of code blocks */
    size_t larger; /* how many of them, the first ones, have one symbol place more than the others */
    size_t first;  /* E of the first block */
    size_t last;   /* E of the last block */
} kuambyte_least;

/* The control word that is nearest: its number, how many octets of `out` it wrote, and in how many places its code differs from what was heard. */
typedef struct kuambyte_closest {
    uint32_t number;
    size_t count;
    size_t differences;
} kuambyte_closest;

/* The stretch of a shelf that is the record that a tenant is given: so many octets, from octet `start` on, counted from 0. */
typedef struct kuambyte_stretch {
    uint32_t number;
    uint32_t shelf; /* KUAMBYTE_PRIVATE or KUAMBYTE_PUBLIC */
    size_t start;
    size_t octets;
} kuambyte_stretch;

/* The rule that a shelf breaks first, and where; counted from 0. */
typedef struct kuambyte_broken {
    size_t rule;  /* enum kuambyte_shelf_rule, 0 for none */
    size_t entry; /* the entry, where the rule is about one, else 0 */
    size_t at;    /* the octet where; where the end is wrong, it may be the length of the shelf, at which there is none */
} kuambyte_broken;

/* The same of a record. */
typedef struct kuambyte_wrong {
    size_t rule;   /* enum kuambyte_record_rule, 0 for none */
    size_t table;  /* the table, where the rule is about one, else 0 */
    size_t row;    /* its row, likewise */
    size_t column; /* its column, likewise */
    size_t at;     /* as above */
} kuambyte_wrong;

/* What travels with every block that is sent or received; what was sent with some terms is received with the same. Nothing here has a default: an edition of 0
   is refused with KUAMBYTE_EDITION. */
typedef struct kuambyte_terms {
    size_t layers;  /* N_L, 1 to 4 */
    size_t order;   /* Q_m, the bits to a symbol: 2, 4 or 6 */
    size_t rv;      /* the redundancy version, 0 to 3; 0 with a profile of Type 1 */
    size_t edition; /* 1, or 2: code blocks of a block that is cut carry a checksum each */
} kuambyte_terms;

/* The shelves; where a call takes one, every number but KUAMBYTE_PUBLIC asks for a private shelf. */
enum kuambyte_shelf {
    KUAMBYTE_PUBLIC = 0,
    KUAMBYTE_PRIVATE = 1
};

/* The checkers; every number but KUAMBYTE_QUICK asks for the plain one, which goes through the matrix element by element. Both give the same answer. */
enum kuambyte_checker {
    KUAMBYTE_QUICK = 0,
    KUAMBYTE_PLAIN = 1
};

/* The rules of a shelf, in the order in which they are tested. kuambyte_shelf_rule_words has the words as a text. */
enum kuambyte_shelf_rule {
    KUAMBYTE_SHELF_RIGHT = 0,        /* none is broken: the shelf is well formed */
    KUAMBYTE_SHELF_NO_COUNT = 1,     /* it begins with a count n of two octets */
    KUAMBYTE_SHELF_COUNT = 2,        /* n is 0 to 64 */
    KUAMBYTE_SHELF_ENTRIES_CUT = 3,  /* then come n entries of tenant, profile number, offset and length, two octets each */
    KUAMBYTE_SHELF_PAIRS = 4,        /* pairs of tenant and profile number strictly rise */
    KUAMBYTE_SHELF_FIRST_OFFSET = 5, /* the first offset is 2 + 8n */
    KUAMBYTE_SHELF_NEXT_OFFSET = 6,  /* each next offset is the end of the record before */
    KUAMBYTE_SHELF_END = 7,          /* it ends with the last record, at 2 where n is 0 */
    KUAMBYTE_SHELF_SIZE = 8,         /* it has at most 65,535 octets */
    KUAMBYTE_SHELF_TENANT = 9        /* every tenant is 0 in a public shelf and 1 or more in a private one */
};

/* The rules of a record, in the order in which they are tested: 1 to 15 are those of KUAMBYTE_PROFILE, 16 to 24 those of KUAMBYTE_NO_STAIRCASE.
   kuambyte_record_rule_words has the words as a text. */
enum kuambyte_record_rule {
    KUAMBYTE_RECORD_RIGHT = 0,           /* none is broken */
    KUAMBYTE_RECORD_NO_HEADER = 1,       /* it begins with kb, m, x, type and t, two octets each */
    KUAMBYTE_RECORD_KB = 2,              /* kb is 1 to 20 */
    KUAMBYTE_RECORD_M = 3,               /* m is 3 to 12 */
    KUAMBYTE_RECORD_X = 4,               /* x is 0 to 37 */
    KUAMBYTE_RECORD_ROWS = 5,            /* m + x is at most 40 */
    KUAMBYTE_RECORD_TYPE = 6,            /* the type is 1 or 2 */
    KUAMBYTE_RECORD_TYPE_1_EXTENDED = 7, /* with Type 1 x is 0 */
    KUAMBYTE_RECORD_T = 8,               /* t is 1 to 3 */
    KUAMBYTE_RECORD_PAIRS_CUT = 9,       /* then come t pairs of z and offset, two octets each */
    KUAMBYTE_RECORD_Z = 10,              /* z is 1 to 81 */
    KUAMBYTE_RECORD_Z_RISING = 11,       /* sizes strictly rise */
    KUAMBYTE_RECORD_FIRST_OFFSET = 12,   /* the first offset is 10 + 4t */
    KUAMBYTE_RECORD_NEXT_OFFSET = 13,    /* each next offset is the end of the table before */
    KUAMBYTE_RECORD_END = 14,            /* it ends with the last table */
    KUAMBYTE_RECORD_ENTRY = 15,          /* an entry is 255 for empty, else a shift below its z */
    KUAMBYTE_RECORD_TOP_EMPTY = 16,      /* column kb is filled in row 0 */
    KUAMBYTE_RECORD_LAST_EMPTY = 17,     /* column kb is filled in row m-1 */
    KUAMBYTE_RECORD_BETWEEN = 18,        /* column kb is filled in exactly one row between */
    KUAMBYTE_RECORD_OUTER = 19,          /* the two outer shifts of column kb are equal */
    KUAMBYTE_RECORD_MIDDLE = 20,         /* the middle shift of column kb is 0 */
    KUAMBYTE_RECORD_COLUMN = 21,         /* column kb+j holds 0 in rows j-1 and j, and is empty elsewhere */
    KUAMBYTE_RECORD_ROW_EXTENDED = 22,   /* staircase rows are empty in all extension columns */
    KUAMBYTE_RECORD_OWN_COLUMN = 23,     /* extension row m+i holds 0 in column kb+m+i */
    KUAMBYTE_RECORD_LATER_COLUMN = 24    /* in extension row m+i later columns are empty */
};

/* What a rule of a shelf says, as it is said above; for any other number "no rule". */
static inline const char *kuambyte_shelf_rule_words(size_t rule) {
    switch (rule) {
    case KUAMBYTE_SHELF_RIGHT: return "none is broken: the shelf is well formed";
    case KUAMBYTE_SHELF_NO_COUNT: return "it begins with a count n of two octets";
    case KUAMBYTE_SHELF_COUNT: return "n is 0 to 64";
    case KUAMBYTE_SHELF_ENTRIES_CUT: return "then come n entries of tenant, profile number, offset and length, two octets each";
    case KUAMBYTE_SHELF_PAIRS: return "pairs of tenant and profile number strictly rise";
    case KUAMBYTE_SHELF_FIRST_OFFSET: return "the first offset is 2 + 8n";
    case KUAMBYTE_SHELF_NEXT_OFFSET: return "each next offset is the end of the record before";
    case KUAMBYTE_SHELF_END: return "it ends with the last record, at 2 where n is 0";
    case KUAMBYTE_SHELF_SIZE: return "it has at most 65,535 octets";
    case KUAMBYTE_SHELF_TENANT: return "every tenant is 0 in a public shelf and 1 or more in a private one";
    default: return "no rule";
    }
}

/* What a rule of a record says, as it is said above; for any other number "no rule". */
static inline const char *kuambyte_record_rule_words(size_t rule) {
    switch (rule) {
    case KUAMBYTE_RECORD_RIGHT: return "none is broken";
    case KUAMBYTE_RECORD_NO_HEADER: return "it begins with kb, m, x, type and t, two octets each";
    case KUAMBYTE_RECORD_KB: return "kb is 1 to 20";
    case KUAMBYTE_RECORD_M: return "m is 3 to 12";
    case KUAMBYTE_RECORD_X: return "x is 0 to 37";
    case KUAMBYTE_RECORD_ROWS: return "m + x is at most 40";
    case KUAMBYTE_RECORD_TYPE: return "the type is 1 or 2";
    case KUAMBYTE_RECORD_TYPE_1_EXTENDED: return "with Type 1 x is 0";
    case KUAMBYTE_RECORD_T: return "t is 1 to 3";
    case KUAMBYTE_RECORD_PAIRS_CUT: return "then come t pairs of z and offset, two octets each";
    case KUAMBYTE_RECORD_Z: return "z is 1 to 81";
    case KUAMBYTE_RECORD_Z_RISING: return "sizes strictly rise";
    case KUAMBYTE_RECORD_FIRST_OFFSET: return "the first offset is 10 + 4t";
    case KUAMBYTE_RECORD_NEXT_OFFSET: return "each next offset is the end of the table before";
    case KUAMBYTE_RECORD_END: return "it ends with the last table";
    case KUAMBYTE_RECORD_ENTRY: return "an entry is 255 for empty, else a shift below its z";
    case KUAMBYTE_RECORD_TOP_EMPTY: return "column kb is filled in row 0";
    case KUAMBYTE_RECORD_LAST_EMPTY: return "column kb is filled in row m-1";
    case KUAMBYTE_RECORD_BETWEEN: return "column kb is filled in exactly one row between";
    case KUAMBYTE_RECORD_OUTER: return "the two outer shifts of column kb are equal";
    case KUAMBYTE_RECORD_MIDDLE: return "the middle shift of column kb is 0";
    case KUAMBYTE_RECORD_COLUMN: return "column kb+j holds 0 in rows j-1 and j, and is empty elsewhere";
    case KUAMBYTE_RECORD_ROW_EXTENDED: return "staircase rows are empty in all extension columns";
    case KUAMBYTE_RECORD_OWN_COLUMN: return "extension row m+i holds 0 in column kb+m+i";
    case KUAMBYTE_RECORD_LATER_COLUMN: return "in extension row m+i later columns are empty";
    default: return "no rule";
    }
}

/* ---- shelves: numbers of two octets, the high one first; at most 64 entries and 65,535 octets; {0, 0} is a shelf with nothing on it */

/*
 * The record of a profile number that a tenant is given: its own from the private shelf, else the public one.
 * Reads both shelves. Writes nothing. Answers 4 for a number over 65,535, then 1, 2, 3, 4; with a refusal the stretch is the empty one at the start of the
 * public shelf.
 */
kuambyte_stretch kuambyte_lookup(const uint8_t *private_shelf, size_t private_octets, const uint8_t *public_shelf, size_t public_octets, size_t tenant,
                                 size_t profile);

/* The number of kuambyte_lookup alone. */
uint32_t kuambyte_lookup_number(const uint8_t *private_shelf, size_t private_octets, const uint8_t *public_shelf, size_t public_octets, size_t tenant,
                                size_t profile);

/*
 * The private shelf with a record put on it for a tenant and a profile number, in the place of the one that has them.
 * Reads the shelf and the record. Writes the new shelf; 65,535 octets are always enough. Answers 26 for a number over 65,535, then 1, 2, 5, 6, 26, 11.
 */
kuambyte_written kuambyte_put_record(const uint8_t *private_shelf, size_t private_octets, size_t tenant, size_t profile, const uint8_t *record,
                                     size_t record_octets, uint8_t *out, size_t out_octets);

/*
 * The private shelf without the record of a tenant and a profile number.
 * Reads the shelf. Writes the new shelf, which is shorter than the old one. Answers 4 for a number over 65,535, then 1, 2, 4, 11.
 */
kuambyte_written kuambyte_remove_record(const uint8_t *private_shelf, size_t private_octets, size_t tenant, size_t profile, uint8_t *out,
                                        size_t out_octets);

/* Which rule a shelf breaks first, and where: what to look at after 2 or 3. Reads it as KUAMBYTE_PRIVATE or KUAMBYTE_PUBLIC. Refuses nothing. */
kuambyte_broken kuambyte_rule_of_shelf(uint32_t which, const uint8_t *shelf, size_t shelf_octets);

/*
 * ---- records: kb, m, x, type and t, then t pairs of a size z and an offset, two octets each, the high one first; then t tables of (m+x)*(kb+m+x) octets
 */

/* Whether a record is a profile that can be coded with. Reads the record. Answers 5, 6. */
uint32_t kuambyte_judge(const uint8_t *record, size_t record_octets);

/* Which rule a record breaks first, and where: what to look at after 5 or 6. Reads the record. Refuses nothing. */
kuambyte_wrong kuambyte_rule_of_record(const uint8_t *record, size_t record_octets);

/* How a transport block of so many octets is cut, in edition 1 or 2. Reads the record. Answers 5, 6, 19, 7, 9. */
kuambyte_plan kuambyte_plan_block(const uint8_t *record, size_t record_octets, size_t edition, size_t block_octets);

/*
 * The least G with which a transport block of so many octets can be received: what to ask for before sending, and after 10 or 13.
 * Reads the record. Answers 5, 6, 19, 7, 16, 8 for layers or order, 9, and 13 where no G up to 65,536 has room.
 */
kuambyte_least kuambyte_least_bits(const uint8_t *record, size_t record_octets, size_t block_octets, kuambyte_terms terms);

/* ---- transport blocks: 1 to 2,048 octets, sent as G bits, a multiple of layers times order up to 65,536 */

/*
 * Sends a transport block with a record as g bits. With fewer than kuambyte_least_bits gives it is sent as well, but cannot be received: that answers 13.
 * Reads the record and the block. Writes g bits. Answers 5, 6, 19, 7, 16, 8, 9, 10, 11.
 */
kuambyte_written kuambyte_send(const uint8_t *record, size_t record_octets, const uint8_t *block, size_t block_octets, kuambyte_terms terms, size_t g,
                               uint8_t *out, size_t out_octets);

/*
 * Receives bits, whose count is G, as a transport block of block_bits bits: 8 times its octets, 7 for any other number.
 * Reads the record and the bits. Writes block_bits / 8 octets. Answers 5, 6, 19, 7, 16, 8, 9, 10, 11, 12, 13, 14.
 */
kuambyte_written kuambyte_receive(const uint8_t *record, size_t record_octets, size_t block_bits, kuambyte_terms terms, const uint8_t *bits, size_t bit_count,
                                  uint32_t checker, uint8_t *out, size_t out_octets);

/* Looks the record up and sends: reads both shelves and the block, and answers 4, 1, 2, 3, 4 as kuambyte_lookup, then what kuambyte_send answers and writes. */
kuambyte_written kuambyte_hosted_send(const uint8_t *private_shelf, size_t private_octets, const uint8_t *public_shelf, size_t public_octets, size_t tenant,
                                      size_t profile, const uint8_t *block, size_t block_octets, kuambyte_terms terms, size_t g, uint8_t *out,
                                      size_t out_octets);

/* Looks the record up and receives, the same way: then what kuambyte_receive answers and writes. */
kuambyte_written kuambyte_hosted_receive(const uint8_t *private_shelf, size_t private_octets, const uint8_t *public_shelf, size_t public_octets,
                                         size_t tenant, size_t profile, size_t block_bits, kuambyte_terms terms, const uint8_t *bits, size_t bit_count,
                                         uint32_t checker, uint8_t *out, size_t out_octets);

/* ---- one code block; kb, m, x and the type are the record's, z is one of its sizes */

/*
 * Codes kb*z places, 0, 1 and the filler mark 2, which is read as 0 and stays marked.
 * Reads the record and the places. Writes (kb+m+x)*z places. Answers 5, 6, 8 for a z or a count of places that the record does not give, 11, 12 for a place
 * over 2.
 */
kuambyte_written kuambyte_code_block(const uint8_t *record, size_t record_octets, size_t z, const uint8_t *places, size_t place_count, uint8_t *out,
                                     size_t out_octets);

/*
 * Whether every row of the record's matrix sums to an even number over a word of (kb+m+x)*z bits.
 * Reads the record and the word. Writes nothing. Answers 5, 6, 8 for a z or a length that the record does not give, 12.
 */
kuambyte_verdict kuambyte_check_word(const uint8_t *record, size_t record_octets, size_t z, const uint8_t *word, size_t bit_count, uint32_t checker);

/*
 * What every row of the matrix sums to over a word, modulo two: 0 for an even row and 1 for an odd one.
 * Reads the record and the word. Writes (m+x)*z bits. Answers 5, 6, 8 as kuambyte_check_word, 11, 12.
 */
kuambyte_written kuambyte_row_sums(const uint8_t *record, size_t record_octets, size_t z, const uint8_t *word, size_t bit_count, uint8_t *out,
                                   size_t out_octets);

/* Looks the record up and checks a word: 4, 1, 2, 3, 4 as kuambyte_lookup, then what kuambyte_check_word answers. */
kuambyte_verdict kuambyte_hosted_check(const uint8_t *private_shelf, size_t private_octets, const uint8_t *public_shelf, size_t public_octets,
                                       size_t tenant, size_t profile, size_t z, const uint8_t *word, size_t bit_count, uint32_t checker);

/*
 * The e bits that are sent of a coded block, from the start that the type of its profile and a redundancy version give; marks may stand anywhere.
 * Reads the places. Writes e bits. Answers 5 for a type other than 1 or 2, 16, 8 for an e over 65,536 or above 0 where nothing is unmarked, 11, 12 for a
 * place over 2.
 */
kuambyte_written kuambyte_rate_match(const uint8_t *places, size_t place_count, size_t type, size_t rv, size_t e, uint8_t *out, size_t out_octets);

/* ---- checksums; the width is 8, 16 or 24 */

/* The checksum of bits. Reads the bits. Writes nothing. Answers 8 for the width, 12. */
kuambyte_sum kuambyte_checksum_of_bits(size_t width, const uint8_t *bits, size_t bit_count);

/* The checksum of packed octets, the highest bit of each first. Reads the octets. Writes nothing. Answers 8 for the width. */
kuambyte_sum kuambyte_checksum_of_octets(size_t width, const uint8_t *octets, size_t count);

/* The checksum that a code block carries in edition 2, 24 bits of generator 24B. Reads the bits. Writes nothing. Answers 12. */
kuambyte_sum kuambyte_checksum_of_block_bits(const uint8_t *bits, size_t bit_count);

/* The checksum of bits under a mask, whose lowest bits, as many as the width, are added to it. Reads the bits. Writes nothing. Answers 8, 12. */
kuambyte_sum kuambyte_sum_under(size_t width, uint64_t mask, const uint8_t *bits, size_t bit_count);

/* Bits with their checksum under a mask behind them. Reads the bits. Writes bit_count + width bits. Answers 8, 11, 12. */
kuambyte_written kuambyte_append_under(size_t width, uint64_t mask, const uint8_t *bits, size_t bit_count, uint8_t *out, size_t out_octets);

/* Whether a word ends in the checksum under a mask of the bits before; no where it is shorter than that. Reads the word. Writes nothing. Answers 8, 12. */
kuambyte_tested kuambyte_test_under(size_t width, uint64_t mask, const uint8_t *word, size_t bit_count);

/* ---- control words of d bits, 6 to 128, coded to three streams of d bits that lie whole, one after the other, and sent as E bits, 1 to 65,536 */

/* The three streams that a word is coded to. Reads the word, whose length is d. Writes 3d bits. Answers 17, 11, 12. */
kuambyte_written kuambyte_code_word(const uint8_t *word, size_t bit_count, uint8_t *out, size_t out_octets);

/* The e bits that three streams are sent as. Reads the streams. Writes e bits. Answers 17, 8 for e or for other than 3d bits of streams, 11, 12. */
kuambyte_written kuambyte_match_streams(size_t d, const uint8_t *streams, size_t bit_count, size_t e, uint8_t *out, size_t out_octets);

/* The e bits that a word is sent as. Reads the word, whose length is d. Writes e bits. Answers 17, 8 for e, 11, 12. */
kuambyte_written kuambyte_send_word(const uint8_t *word, size_t bit_count, size_t e, uint8_t *out, size_t out_octets);

/*
 * The three streams that were sent as bits, whose count is E. Bits behind the first 3d are copies, and copies that differ are refused with 14: of bits that
 * noise has touched, lend the first 3d.
 * Reads the bits. Writes 3d bits. Answers 17, 8 for E, 11, 12, 13 for E below 3d, 14.
 */
kuambyte_written kuambyte_streams_of(size_t d, const uint8_t *bits, size_t bit_count, uint8_t *out, size_t out_octets);

/*
 * The word of d bits whose three streams differ from those that were heard in the fewest places, of several the smallest.
 * Reads the streams. Writes d bits. Answers 17, 8 for other than 3d bits of streams, 11, 12.
 */
kuambyte_closest kuambyte_nearest_word(size_t d, const uint8_t *streams, size_t bit_count, uint8_t *out, size_t out_octets);

#ifdef __cplusplus
}
#endif

#endif
