/* Every number from C, by a call that answers it: a refusal writes nothing, an output one octet short is refused, and nothing may be lent as a null pointer. */
#include "try.h"

static uint8_t bits[ROOM];

/* A refusal with this number, and nothing written. */
#define REFUSES(n, call)                                           \
    do {                                                           \
        clear();                                                   \
        kuambyte_written w = (call);                               \
        EXPECT(w.number == (n) && w.count == 0 && kept_from(0));   \
    } while (0)

/* The call takes `lent` octets and is refused where it is lent one less. */
#define TAKES(octets, call)                                        \
    do {                                                           \
        size_t lent = (octets);                                    \
        clear();                                                   \
        kuambyte_written w = (call);                               \
        EXPECT(w.number == KUAMBYTE_DONE && w.count == lent && kept_from(lent)); \
        lent--;                                                    \
        REFUSES(KUAMBYTE_SHORT_OUTPUT, call);                      \
    } while (0)

static const uint8_t one[1] = {0x01};

static kuambyte_written send(const uint8_t *record, size_t n, size_t octets, kuambyte_terms terms, size_t g) {
    static const uint8_t block[2049] = {0};
    return kuambyte_send(record, n, block, octets, terms, g, out, ROOM);
}

static void of_lookups(void) {
    EXPECT(kuambyte_lookup(own, sizeof own, none, sizeof none, 0, 7).number == KUAMBYTE_TENANT_ZERO);
    EXPECT(kuambyte_lookup(own, sizeof own - 1, none, sizeof none, 1, 7).number == KUAMBYTE_PRIVATE_SHELF);
    EXPECT(kuambyte_lookup(own, sizeof own, own, sizeof own, 1, 7).number == KUAMBYTE_PUBLIC_SHELF);
    kuambyte_stretch found = kuambyte_lookup(own, sizeof own, none, sizeof none, 2, 7);
    EXPECT(found.number == KUAMBYTE_NO_RECORD && found.shelf == KUAMBYTE_PUBLIC && found.start == 0 && found.octets == 0);
    EXPECT(kuambyte_lookup_number(own, sizeof own, none, sizeof none, 2, 7) == KUAMBYTE_NO_RECORD);
    REFUSES(KUAMBYTE_NO_RECORD, kuambyte_hosted_send(own, sizeof own, none, sizeof none, 2, 7, one, 1, PLAIN_TERMS, 128, out, ROOM));
    REFUSES(KUAMBYTE_NO_RECORD, kuambyte_hosted_receive(own, sizeof own, none, sizeof none, 2, 7, 8, PLAIN_TERMS, bits, 128, 0, out, ROOM));
    EXPECT(kuambyte_hosted_check(own, sizeof own, none, sizeof none, 2, 7, 2, bits, 8, 0).number == KUAMBYTE_NO_RECORD);
}

/* A larger number is not cut to two octets: 65,537 is not tenant 1, to whom the record belongs, and 65,543 is not profile 7. */
static void of_large_numbers(void) {
    uint8_t everybody[sizeof own];
    for (size_t i = 0; i < sizeof own; i++) everybody[i] = own[i];
    everybody[3] = 0;
    const struct { size_t tenant, profile; } asked[4] = {{65537, 7}, {1, 65543}, {(size_t)-1, 7}, {((size_t)1 << 32) + 1, 7}};
    for (int i = 0; i < 4; i++) {
        size_t tenant = asked[i].tenant, profile = asked[i].profile;
        kuambyte_stretch found = kuambyte_lookup(own, sizeof own, everybody, sizeof everybody, tenant, profile);
        EXPECT(found.number == KUAMBYTE_NO_RECORD && found.shelf == KUAMBYTE_PUBLIC && found.start == 0 && found.octets == 0);
        EXPECT(kuambyte_lookup_number(own, sizeof own, none, sizeof none, tenant, profile) == KUAMBYTE_NO_RECORD);
        REFUSES(KUAMBYTE_NO_RECORD, kuambyte_hosted_send(own, sizeof own, none, sizeof none, tenant, profile, one, 1, PLAIN_TERMS, 128, out, ROOM));
        REFUSES(KUAMBYTE_NO_RECORD, kuambyte_hosted_receive(own, sizeof own, none, sizeof none, tenant, profile, 8, PLAIN_TERMS, bits, 128, 0, out, ROOM));
        EXPECT(kuambyte_hosted_check(own, sizeof own, none, sizeof none, tenant, profile, 2, bits, 8, 0).number == KUAMBYTE_NO_RECORD);
        REFUSES(KUAMBYTE_FULL_SHELF, kuambyte_put_record(none, sizeof none, tenant, profile, toy, sizeof toy, out, ROOM));
        REFUSES(KUAMBYTE_NO_RECORD, kuambyte_remove_record(own, sizeof own, tenant, profile, out, ROOM));
    }
    EXPECT(kuambyte_lookup_number(own, sizeof own, none, sizeof none, 65535, 65535) == KUAMBYTE_NO_RECORD);
    clear();
    EXPECT(kuambyte_put_record(none, sizeof none, 65535, 65535, toy, sizeof toy, out, ROOM).number == KUAMBYTE_DONE);
    EXPECT(kuambyte_lookup_number(out, sizeof own, none, sizeof none, 65535, 65535) == KUAMBYTE_DONE);
}

static void of_sending(void) {
    uint8_t broken[sizeof toy];
    for (size_t i = 0; i < sizeof toy; i++) broken[i] = toy[i];
    /* Column kb is empty in row 0. */
    broken[15] = 255;
    REFUSES(KUAMBYTE_PROFILE, send(toy, sizeof toy - 1, 1, PLAIN_TERMS, 128));
    REFUSES(KUAMBYTE_NO_STAIRCASE, send(broken, sizeof broken, 1, PLAIN_TERMS, 128));
    EXPECT(kuambyte_rule_of_record(broken, sizeof broken).rule == KUAMBYTE_RECORD_TOP_EMPTY);
    REFUSES(KUAMBYTE_EDITION, send(toy, sizeof toy, 1, with(1, 2, 0, 3), 128));
    REFUSES(KUAMBYTE_BLOCK_LENGTH, send(toy, sizeof toy, 0, PLAIN_TERMS, 128));
    REFUSES(KUAMBYTE_BLOCK_LENGTH, send(toy, sizeof toy, 2049, PLAIN_TERMS, 128));
    REFUSES(KUAMBYTE_REDUNDANCY_VERSION, send(toy, sizeof toy, 1, with(1, 2, 1, 1), 128));
    REFUSES(KUAMBYTE_REDUNDANCY_VERSION, send(two, sizeof two, 1, with(1, 2, 4, 1), 176));
    REFUSES(KUAMBYTE_PARAMETER, send(toy, sizeof toy, 1, with(5, 2, 0, 1), 128));
    REFUSES(KUAMBYTE_PARAMETER, send(toy, sizeof toy, 1, with(1, 3, 0, 1), 129));
    /* "G 129: 8", "14 octets: C 68, answer 9", "G 30: both answer 10". */
    REFUSES(KUAMBYTE_PARAMETER, send(toy, sizeof toy, 1, PLAIN_TERMS, 129));
    REFUSES(KUAMBYTE_TOO_MANY_BLOCKS, send(toy, sizeof toy, 14, PLAIN_TERMS, 512));
    REFUSES(KUAMBYTE_TOO_FEW_PLACES, send(toy, sizeof toy, 1, PLAIN_TERMS, 30));
    TAKES(128, kuambyte_send(toy, sizeof toy, one, 1, PLAIN_TERMS, 128, out, lent));
    TAKES(128, kuambyte_hosted_send(own, sizeof own, none, sizeof none, 1, 7, one, 1, PLAIN_TERMS, 128, out, lent));
    EXPECT(kuambyte_plan_block(toy, sizeof toy, 1, 14).number == KUAMBYTE_TOO_MANY_BLOCKS);
    kuambyte_least least = kuambyte_least_bits(toy, sizeof toy, 14, PLAIN_TERMS);
    EXPECT(least.number == KUAMBYTE_TOO_MANY_BLOCKS && least.g == 0 && least.blocks == 0 && least.last == 0);
}

static kuambyte_written receive(size_t a, size_t g, size_t lent) {
    return kuambyte_receive(toy, sizeof toy, a, PLAIN_TERMS, bits, g, KUAMBYTE_QUICK, out, lent);
}

static void of_receiving(void) {
    kuambyte_send(toy, sizeof toy, one, 1, PLAIN_TERMS, 128, bits, ROOM);
    TAKES(1, receive(8, 128, lent));
    TAKES(1, kuambyte_hosted_receive(own, sizeof own, none, sizeof none, 1, 7, 8, PLAIN_TERMS, bits, 128, KUAMBYTE_PLAIN, out, lent));
    REFUSES(KUAMBYTE_BLOCK_LENGTH, receive(9, 128, ROOM));
    REFUSES(KUAMBYTE_BLOCK_LENGTH, receive(8 * 2049, 128, ROOM));
    /* "G 126: E 6, sending does it, receiving answers 13." */
    REFUSES(KUAMBYTE_NO_ROOM, receive(8, 126, ROOM));
    bits[127] ^= 1;
    REFUSES(KUAMBYTE_UNSENT, receive(8, 128, ROOM));
    bits[127] = 2;
    REFUSES(KUAMBYTE_NO_BIT, receive(8, 128, ROOM));
}

static void of_parts(void) {
    REFUSES(KUAMBYTE_PARAMETER, kuambyte_code_block(toy, sizeof toy, 3, bits, 2, out, ROOM));
    TAKES(8, kuambyte_code_block(toy, sizeof toy, 2, bits, bits_of("12", bits), out, lent));
    REFUSES(KUAMBYTE_NO_BIT, kuambyte_code_block(toy, sizeof toy, 2, bits, bits_of("13", bits), out, ROOM));
    TAKES(6, kuambyte_row_sums(toy, sizeof toy, 2, bits, bits_of("01101011", bits), out, lent));
    REFUSES(KUAMBYTE_PARAMETER, kuambyte_row_sums(toy, sizeof toy, 2, bits, 7, out, ROOM));
    EXPECT(kuambyte_check_word(toy, sizeof toy, 2, bits, 7, KUAMBYTE_QUICK).number == KUAMBYTE_PARAMETER);
    TAKES(9, kuambyte_rate_match(bits, bits_of("1200", bits), 1, 0, 9, out, lent));
    REFUSES(KUAMBYTE_PROFILE, kuambyte_rate_match(bits, 4, 3, 0, 9, out, ROOM));
    REFUSES(KUAMBYTE_PARAMETER, kuambyte_rate_match(bits, bits_of("22", bits), 1, 0, 1, out, ROOM));
    EXPECT(kuambyte_checksum_of_bits(7, bits, 1).number == KUAMBYTE_PARAMETER);
    EXPECT(kuambyte_checksum_of_octets(0, bits, 1).number == KUAMBYTE_PARAMETER);
    EXPECT(kuambyte_checksum_of_bits(8, bits, bits_of("12", bits)).number == KUAMBYTE_NO_BIT);
    EXPECT(kuambyte_checksum_of_block_bits(bits, 2).number == KUAMBYTE_NO_BIT);
    EXPECT(kuambyte_sum_under(16, 1, bits, 2).number == KUAMBYTE_NO_BIT);
    EXPECT(kuambyte_test_under((size_t)-1, 1, bits, 2).number == KUAMBYTE_PARAMETER);
    TAKES(17, kuambyte_append_under(16, 0xffff, bits, 1, out, lent));
    REFUSES(KUAMBYTE_PARAMETER, kuambyte_append_under((size_t)-1, 0xffff, bits, 1, out, ROOM));
}

static void of_shelves(void) {
    static uint8_t full[2 + 8 * 64];
    TAKES(36, kuambyte_put_record(none, sizeof none, 1, 7, toy, sizeof toy, out, lent));
    TAKES(2, kuambyte_remove_record(own, sizeof own, 1, 7, out, lent));
    REFUSES(KUAMBYTE_NO_RECORD, kuambyte_remove_record(own, sizeof own, 1, 8, out, ROOM));
    /* 64 empty records of tenant 1. */
    full[1] = 64;
    for (size_t k = 0; k < 64; k++) {
        full[2 + 8 * k + 1] = 1;
        full[2 + 8 * k + 3] = (uint8_t)k;
        full[2 + 8 * k + 4] = sizeof full / 256;
        full[2 + 8 * k + 5] = sizeof full % 256;
    }
    EXPECT(kuambyte_rule_of_shelf(KUAMBYTE_PRIVATE, full, sizeof full).rule == KUAMBYTE_SHELF_RIGHT);
    REFUSES(KUAMBYTE_FULL_SHELF, kuambyte_put_record(full, sizeof full, 2, 7, toy, sizeof toy, out, ROOM));
}

static void of_control_words(void) {
    REFUSES(KUAMBYTE_CONTROL_LENGTH, kuambyte_code_word(bits, 5, out, ROOM));
    TAKES(18, kuambyte_code_word(bits, bits_of("101100", bits), out, lent));
    TAKES(20, kuambyte_send_word(bits, 6, 20, out, lent));
    REFUSES(KUAMBYTE_PARAMETER, kuambyte_send_word(bits, 6, 0, out, ROOM));
    TAKES(18, kuambyte_match_streams(6, bits, bits_of("110111111000101111", bits), 18, out, lent));
    REFUSES(KUAMBYTE_PARAMETER, kuambyte_match_streams(6, bits, 17, 18, out, ROOM));
    TAKES(18, kuambyte_streams_of(6, bits, bits_of("111011010110101111", bits), out, lent));
    REFUSES(KUAMBYTE_NO_ROOM, kuambyte_streams_of(6, bits, 17, out, ROOM));
    REFUSES(KUAMBYTE_UNSENT, kuambyte_streams_of(6, bits, bits_of("11101101011010111110", bits), out, ROOM));
    clear();
    kuambyte_closest c = kuambyte_nearest_word(6, bits, bits_of("001011110010110110", bits), out, 5);
    EXPECT(c.number == KUAMBYTE_SHORT_OUTPUT && c.count == 0 && c.differences == 0 && kept_from(0));
    c = kuambyte_nearest_word(129, bits, 18, out, ROOM);
    EXPECT(c.number == KUAMBYTE_CONTROL_LENGTH && kept_from(0));
}

/* With length 0 a pointer may be null, whichever it is. */
static void of_nothing(void) {
    EXPECT(kuambyte_judge(NULL, 0) == KUAMBYTE_PROFILE);
    EXPECT(kuambyte_lookup(NULL, 0, NULL, 0, 1, 7).number == KUAMBYTE_PRIVATE_SHELF);
    EXPECT(kuambyte_checksum_of_bits(24, NULL, 0).value == 0 && kuambyte_checksum_of_octets(24, NULL, 0).number == KUAMBYTE_DONE);
    EXPECT(kuambyte_checksum_of_block_bits(NULL, 0).number == KUAMBYTE_DONE);
    EXPECT(kuambyte_rule_of_shelf(KUAMBYTE_PUBLIC, NULL, 0).rule == KUAMBYTE_SHELF_NO_COUNT);
    EXPECT(kuambyte_rule_of_record(NULL, 0).rule == KUAMBYTE_RECORD_NO_HEADER);
    EXPECT(kuambyte_send(toy, sizeof toy, NULL, 0, PLAIN_TERMS, 128, NULL, 0).number == KUAMBYTE_BLOCK_LENGTH);
    EXPECT(kuambyte_send(toy, sizeof toy, one, 1, PLAIN_TERMS, 128, NULL, 0).number == KUAMBYTE_SHORT_OUTPUT);
    EXPECT(kuambyte_receive(toy, sizeof toy, 8, PLAIN_TERMS, NULL, 0, KUAMBYTE_QUICK, NULL, 0).number == KUAMBYTE_TOO_FEW_PLACES);
    EXPECT(kuambyte_rate_match(NULL, 0, 1, 0, 0, NULL, 0).number == KUAMBYTE_DONE);
    EXPECT(kuambyte_append_under(16, 0, NULL, 0, NULL, 0).number == KUAMBYTE_SHORT_OUTPUT);
    EXPECT(!kuambyte_test_under(16, 0, NULL, 0).holds);
    EXPECT(kuambyte_code_word(NULL, 0, NULL, 0).number == KUAMBYTE_CONTROL_LENGTH);
    EXPECT(kuambyte_streams_of(6, NULL, 0, NULL, 0).number == KUAMBYTE_PARAMETER);
    EXPECT(kuambyte_nearest_word(6, NULL, 0, NULL, 0).number == KUAMBYTE_PARAMETER);
    EXPECT(kuambyte_put_record(NULL, 0, 1, 7, NULL, 0, NULL, 0).number == KUAMBYTE_PRIVATE_SHELF);
}

/* Each number has its words, and no other has. */
static void of_words(void) {
    const char *words = kuambyte_meaning(KUAMBYTE_DONE), *others = kuambyte_meaning(15);
    EXPECT(words[0] == 'd' && others[0] == 'n');
    EXPECT(kuambyte_shelf_rule_words(KUAMBYTE_SHELF_PAIRS)[0] == 'p' && kuambyte_shelf_rule_words(10)[0] == 'n');
    EXPECT(kuambyte_record_rule_words(KUAMBYTE_RECORD_KB)[0] == 'k' && kuambyte_record_rule_words(25)[0] == 'n');
    for (uint32_t n = 0; n <= 30; n++) {
        bool answered = n <= 14 || n == 16 || n == 17 || n == 19 || n == 26;
        EXPECT((kuambyte_meaning(n) != others) == answered);
    }
}

int main(void) {
    of_lookups();
    of_large_numbers();
    of_sending();
    of_receiving();
    of_parts();
    of_shelves();
    of_control_words();
    of_nothing();
    of_words();
    return ended("numbers");
}
