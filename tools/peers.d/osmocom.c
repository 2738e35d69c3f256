/* Answers `tbenc BITS OUTLEN` by libosmocore: streams 133 and 171 by its own table for GSM's headers, 165 by one in the same form. */
#include <stdint.h>
#include <stdio.h>
#include <stdlib.h>
#include <string.h>

#include <osmocom/core/conv.h>
#include <osmocom/gsm/gsm0503.h>

enum { STATES = 64, MOST = 128 };

static uint8_t third_output[STATES][2];

/* What a generator gives where this bit comes into this state, whose lowest bit is the newest. */
static uint8_t sum(unsigned generator, unsigned state, unsigned bit) {
    uint8_t sum = bit & (generator >> 6);
    for (int age = 1; age <= 6; age++)
        sum ^= state >> (age - 1) & generator >> (6 - age) & 1;
    return sum;
}

/* GSM's third generator is 145, so the third of ours has a table of its own. */
static struct osmo_conv_code third(void) {
    struct osmo_conv_code code = gsm0503_mcs1_dl_hdr;
    for (unsigned state = 0; state < STATES; state++)
        for (unsigned bit = 0; bit < 2; bit++)
            third_output[state][bit] = sum(0165, state, bit);
    code.N = 1;
    code.next_output = third_output;
    return code;
}

static void encode(struct osmo_conv_code code, const ubit_t *word, int d, ubit_t *coded) {
    code.len = d;
    code.term = CONV_TERM_TAIL_BITING;
    code.puncture = NULL;
    if (osmo_conv_encode(&code, word, coded) != code.N * d) {
        fputs("osmocom: a word is not coded\n", stderr);
        exit(1);
    }
}

static void print(const ubit_t *bits, int count) {
    printf("0 %d ", count);
    for (int i = 0; i < count; i += 8) {
        unsigned octet = 0;
        for (int k = i; k < i + 8; k++)
            octet = 2 * octet + (k < count && bits[k]);
        printf("%02x", octet);
    }
    putchar('\n');
}

int main(void) {
    const struct osmo_conv_code gsm = gsm0503_mcs1_dl_hdr, own = third();
    char bits[MOST + 1];
    while (scanf(" tbenc %128[01] %*d", bits) == 1) {
        ubit_t word[MOST], theirs[3 * MOST], streams[3 * MOST];
        int d = strlen(bits);
        for (int k = 0; k < d; k++)
            word[k] = bits[k] == '1';
        encode(gsm, word, d, theirs);
        for (int k = 0; k < d; k++) {
            streams[k] = theirs[3 * k];
            streams[d + k] = theirs[3 * k + 1];
        }
        encode(own, word, d, streams + 2 * d);
        print(streams, 3 * d);
    }
    return 0;
}
