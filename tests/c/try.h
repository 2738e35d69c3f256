/* What the tests in C share: counting what is tried, the records of the worked numbers, and an output that shows what was written to it. */
#ifndef TESTS_TRY_H
#define TESTS_TRY_H
#include <kuambyte.h>
#include <stdio.h>

static int tried, failed;

#define EXPECT(fact) expect((fact), #fact, __LINE__)
static inline void expect(bool holds, const char *fact, int line) {
    tried++;
    if (holds) return;
    failed++;
    printf("line %d: not so: %s\n", line, fact);
}

static inline int ended(const char *name) {
    printf("%s: %d tried, %d failed\n", name, tried, failed);
    return failed != 0;
}

/* The toy record of document 02, CR 3, and one of Type 2 with kb 1, m 3, x 1 and z 3. */
static const uint8_t toy[26] = {0, 1, 0, 3, 0, 0, 0, 1, 0, 1, 0, 2, 0, 14, 0, 1, 0, 255, 1, 0, 0, 0, 255, 1, 255, 0};
static const uint8_t two[34] = {0, 1, 0, 3, 0, 1, 0, 2, 0, 1, 0, 3, 0, 14, 0, 1, 0, 255, 255, 2, 0, 0, 0, 255, 1, 1, 255, 0, 255, 255, 2, 255, 1, 0};
/* The toy as profile 7 of tenant 1, and a shelf with nothing on it. */
static const uint8_t own[36] = {0, 1, 0, 1, 0, 7, 0, 10, 0, 26, 0, 1, 0, 3, 0, 0, 0, 1, 0, 1, 0, 2, 0, 14, 0, 1, 0, 255, 1, 0, 0, 0, 255, 1, 255, 0};
static const uint8_t none[2] = {0, 0};

/* Terms by the names of their fields. */
static inline kuambyte_terms with(size_t layers, size_t order, size_t rv, size_t edition) {
    kuambyte_terms terms;
    terms.layers = layers;
    terms.order = order;
    terms.rv = rv;
    terms.edition = edition;
    return terms;
}
#define PLAIN_TERMS with(1, 2, 0, 1)

/* Room for whatever is written; every octet is A5 before a call. */
#define ROOM 512
static uint8_t out[ROOM];
static inline void clear(void) {
    for (size_t i = 0; i < ROOM; i++) out[i] = 0xa5;
}

/* Octets from n on are as they were. */
static inline bool kept_from(size_t n) {
    for (size_t i = n; i < ROOM; i++)
        if (out[i] != 0xa5) return false;
    return true;
}

/* The first n octets are these digits, and the others are as they were. */
static inline bool wrote_digits(const char *digits, size_t n) {
    for (size_t i = 0; i < n; i++)
        if (out[i] != digits[i] - '0') return false;
    return digits[n] == 0 && kept_from(n);
}

/* The first n octets are these bits, which are packed, and the others are as they were. */
static inline bool wrote_packed(const uint8_t *octets, size_t n) {
    for (size_t i = 0; i < n; i++)
        if (out[i] != (octets[i / 8] >> (7 - i % 8) & 1)) return false;
    return kept_from(n);
}

/* Bits of their digits. */
static inline size_t bits_of(const char *digits, uint8_t *bits) {
    size_t n = 0;
    for (; digits[n]; n++) bits[n] = (uint8_t)(digits[n] - '0');
    return n;
}

#endif
