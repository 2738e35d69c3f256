/* The worked numbers of documents 01 and 02 from C, by every function of the header. */
#include "try.h"

static uint8_t bits[ROOM];

static void checksums(void) {
    const uint8_t one[1] = {0x01}, other[1] = {0x02}, zero[1] = {0}, bit[1] = {1};
    /* P1 to P5. */
    EXPECT(kuambyte_checksum_of_octets(24, one, 1).value == 0x864CFB);
    EXPECT(kuambyte_checksum_of_octets(24, other, 1).value == 0x8AD50D);
    EXPECT(kuambyte_checksum_of_octets(24, zero, 1).value == 0);
    EXPECT(kuambyte_checksum_of_bits(16, bit, 1).value == 0x1021);
    EXPECT(kuambyte_checksum_of_bits(8, bit, 1).value == 0x9B);
    /* CR 8 and CR 9. */
    EXPECT(kuambyte_checksum_of_block_bits(bit, 1).value == 0x800063);
    EXPECT(kuambyte_sum_under(16, 0xffff, bit, 1).value == 0xefde);
    clear();
    kuambyte_written w = kuambyte_append_under(16, 0xffff, bit, 1, out, 17);
    EXPECT(w.number == KUAMBYTE_DONE && w.count == 17 && wrote_digits("11110111111011110", 17));
    EXPECT(kuambyte_test_under(16, 0xffff, out, 17).holds);
    EXPECT(!kuambyte_test_under(16, 0, out, 17).holds);
}

/* P6 to P9: the places, and the toy's code word. */
static void code_words(void) {
    static const char *const words[4][2] = {{"00", "00000000"}, {"01", "01111011"}, {"10", "10110111"}, {"11", "11001100"}};
    for (int i = 0; i < 4; i++) {
        clear();
        kuambyte_written w = kuambyte_code_block(toy, sizeof toy, 2, bits, bits_of(words[i][0], bits), out, ROOM);
        EXPECT(w.number == KUAMBYTE_DONE && w.count == 8 && wrote_digits(words[i][1], 8));
        EXPECT(kuambyte_check_word(toy, sizeof toy, 2, out, 8, KUAMBYTE_QUICK).checks);
        EXPECT(kuambyte_check_word(toy, sizeof toy, 2, out, 8, KUAMBYTE_PLAIN).checks);
        EXPECT(kuambyte_hosted_check(own, sizeof own, none, sizeof none, 1, 7, 2, out, 8, KUAMBYTE_PLAIN).checks);
        out[3] ^= 1;
        EXPECT(!kuambyte_check_word(toy, sizeof toy, 2, out, 8, KUAMBYTE_QUICK).checks);
    }
    clear();
    kuambyte_written w = kuambyte_row_sums(toy, sizeof toy, 2, bits, bits_of("01101011", bits), out, ROOM);
    EXPECT(w.number == KUAMBYTE_DONE && w.count == 6 && wrote_digits("100110", 6));
    clear();
    w = kuambyte_rate_match(bits, bits_of("1200", bits), 1, 0, 9, out, ROOM);
    EXPECT(w.number == KUAMBYTE_DONE && w.count == 9 && wrote_digits("100100100", 9));
}

/* Sent with a record, received with it, and both with the shelves. */
static void exchanged(const uint8_t *record, size_t n, const uint8_t *block, kuambyte_terms terms, size_t g, const uint8_t *packed) {
    uint8_t back[2] = {0xa5, 0xa5};
    clear();
    kuambyte_written w = kuambyte_send(record, n, block, 1, terms, g, out, ROOM);
    EXPECT(w.number == KUAMBYTE_DONE && w.count == g && wrote_packed(packed, g));
    w = kuambyte_receive(record, n, 8, terms, out, g, KUAMBYTE_QUICK, back, 2);
    EXPECT(w.number == KUAMBYTE_DONE && w.count == 1 && back[0] == block[0] && back[1] == 0xa5);
}

static void blocks(void) {
    static const uint8_t one[1] = {0x01}, c0[1] = {0xC0}, a5[1] = {0xA5};
    static const uint8_t p10[16] = {0, 0, 0, 0x7B, 0xB7, 0, 0x7B, 0xB7, 0x7B, 0, 0xCC, 0, 0xCC, 0xCC, 0xB7, 0xCC};
    static const uint8_t c0_130[17] = {0xCC, 0xC0, 0, 0, 0, 0x2D, 0xED, 0xED, 0xF3, 0x2D, 0xDE, 0xC0, 0x1E, 0xF3, 0x1E, 0xED, 0xC0};
    static const uint8_t rv_1[22] = {0x15, 0xEA, 0xFA, 0xC3, 0xF5, 0x95, 0xF5, 0x95, 0x15, 0xEA, 0,
                                     0,    0xE0, 0x7F, 0xEF, 0x29, 0xF5, 0x95, 0x15, 0xEA, 0x1A, 0xBC};
    /* P10, CR 1 and CR 3. */
    exchanged(toy, sizeof toy, one, PLAIN_TERMS, 128, p10);
    exchanged(toy, sizeof toy, c0, PLAIN_TERMS, 130, c0_130);
    exchanged(two, sizeof two, a5, with(1, 2, 1, 1), 176, rv_1);
    uint8_t back[1] = {0};
    clear();
    kuambyte_written w = kuambyte_hosted_send(own, sizeof own, none, sizeof none, 1, 7, one, 1, PLAIN_TERMS, 128, out, ROOM);
    EXPECT(w.number == KUAMBYTE_DONE && w.count == 128 && wrote_packed(p10, 128));
    w = kuambyte_hosted_receive(own, sizeof own, none, sizeof none, 1, 7, 8, PLAIN_TERMS, out, 128, KUAMBYTE_PLAIN, back, 1);
    EXPECT(w.number == KUAMBYTE_DONE && w.count == 1 && back[0] == 0x01);
    /* "Toy, 13 octets: B 128, C 64, done with room enough." */
    kuambyte_plan plan = kuambyte_plan_block(toy, sizeof toy, 1, 13);
    EXPECT(plan.number == KUAMBYTE_DONE && plan.bits == 128 && plan.kmax == 2 && plan.blocks == 64 && plan.places == 2 && plan.z == 2);
    EXPECT(plan.index == 0 && plan.sums == 0);
    /* 16 blocks of 8 bits each: P10's G is the least with room. */
    kuambyte_least least = kuambyte_least_bits(toy, sizeof toy, 1, PLAIN_TERMS);
    EXPECT(least.number == KUAMBYTE_DONE && least.g == 128 && least.blocks == 16 && least.larger == 0 && least.first == 8 && least.last == 8);
}

/* kb 20, m 3 and the sizes 1 and 2, for a plan whose counts differ: 3 octets are cut into three blocks of 16 bits with 24 of checksum each, so z is 2. */
static void cut_in_edition_2(void) {
    static uint8_t record[18 + 2 * 69] = {0, 20, 0, 3, 0, 0, 0, 1, 0, 2, 0, 1, 0, 18, 0, 2, 0, 87};
    for (size_t table = 0; table < 2; table++) {
        uint8_t *at = record + 18 + 69 * table;
        /* Column 20 has the shift 0 or 1 above and below and 0 between; the staircase leaves two places empty. */
        at[20] = at[2 * 23 + 20] = (uint8_t)table;
        at[22] = at[2 * 23 + 21] = 255;
    }
    kuambyte_plan plan = kuambyte_plan_block(record, sizeof record, 2, 3);
    EXPECT(plan.number == KUAMBYTE_DONE && plan.bits == 48 && plan.kmax == 40 && plan.blocks == 3 && plan.places == 40);
    EXPECT(plan.z == 2 && plan.index == 1 && plan.sums == 24);
    /* N is 16 + 24 + 3 * 2 = 46 of each block. In symbol places of 4 bits that is 12, and of 3 blocks 36. */
    kuambyte_least least = kuambyte_least_bits(record, sizeof record, 3, with(2, 2, 0, 2));
    EXPECT(least.number == KUAMBYTE_DONE && least.g == 144 && least.blocks == 3 && least.larger == 0 && least.first == 48 && least.last == 48);
}

/* kb 2, m 3 and z 3: one octet is cut into six blocks, N is 15 in the first two and 14 in the others, so of symbol places of 2 bits they take 8 or 7. */
static void least_with_unequal_shares(void) {
    static const uint8_t record[29] = {0, 2, 0, 3, 0, 0, 0, 1, 0, 1, 0, 3, 0, 14, 1, 2, 1, 0, 255, 255, 0, 0, 0, 0, 2, 255, 1, 255, 0};
    kuambyte_least least = kuambyte_least_bits(record, sizeof record, 1, PLAIN_TERMS);
    EXPECT(least.number == KUAMBYTE_DONE && least.g == 2 * (2 * 8 + 4 * 7) && least.blocks == 6);
    EXPECT(least.larger == 2 && least.first == 16 && least.last == 14);
}

static void shelves(void) {
    kuambyte_stretch found = kuambyte_lookup(own, sizeof own, none, sizeof none, 1, 7);
    EXPECT(found.number == KUAMBYTE_DONE && found.shelf == KUAMBYTE_PRIVATE && found.start == 10 && found.octets == 26);
    EXPECT(kuambyte_lookup_number(own, sizeof own, none, sizeof none, 1, 7) == KUAMBYTE_DONE);
    /* The same shelf with tenant 0 is a public one. */
    uint8_t everybody[sizeof own];
    for (size_t i = 0; i < sizeof own; i++) everybody[i] = own[i];
    everybody[3] = 0;
    found = kuambyte_lookup(none, sizeof none, everybody, sizeof everybody, 1, 7);
    EXPECT(found.number == KUAMBYTE_DONE && found.shelf == KUAMBYTE_PUBLIC && found.start == 10 && found.octets == 26);
    clear();
    kuambyte_written w = kuambyte_put_record(none, sizeof none, 1, 7, toy, sizeof toy, out, ROOM);
    bool same = w.number == KUAMBYTE_DONE && w.count == sizeof own && kept_from(sizeof own);
    for (size_t i = 0; i < sizeof own; i++) same = same && out[i] == own[i];
    EXPECT(same);
    clear();
    w = kuambyte_remove_record(own, sizeof own, 1, 7, out, ROOM);
    EXPECT(w.number == KUAMBYTE_DONE && w.count == 2 && out[0] == 0 && out[1] == 0 && kept_from(2));
    EXPECT(kuambyte_rule_of_shelf(KUAMBYTE_PRIVATE, own, sizeof own).rule == KUAMBYTE_SHELF_RIGHT);
    kuambyte_broken broken = kuambyte_rule_of_shelf(KUAMBYTE_PUBLIC, own, sizeof own);
    EXPECT(broken.rule == KUAMBYTE_SHELF_TENANT && broken.entry == 0 && broken.at == 2);
    EXPECT(kuambyte_judge(toy, sizeof toy) == KUAMBYTE_DONE);
    EXPECT(kuambyte_rule_of_record(toy, sizeof toy).rule == KUAMBYTE_RECORD_RIGHT);
    kuambyte_wrong wrong = kuambyte_rule_of_record(toy, sizeof toy - 1);
    EXPECT(wrong.rule == KUAMBYTE_RECORD_END && wrong.at <= sizeof toy - 1);
    /* A shift of 9 in row 1, column 0, where z is 2. */
    uint8_t shifted[sizeof toy];
    for (size_t i = 0; i < sizeof toy; i++) shifted[i] = toy[i];
    shifted[18] = 9;
    wrong = kuambyte_rule_of_record(shifted, sizeof shifted);
    EXPECT(wrong.rule == KUAMBYTE_RECORD_ENTRY && wrong.table == 0 && wrong.row == 1 && wrong.column == 0 && wrong.at == 18);
}

/* CR 5 and CR 10. */
static void control_words(void) {
    clear();
    kuambyte_written w = kuambyte_code_word(bits, bits_of("100000", bits), out, ROOM);
    EXPECT(w.number == KUAMBYTE_DONE && w.count == 18 && wrote_digits("001101011100011010", 18));
    clear();
    w = kuambyte_send_word(bits, bits_of("101100", bits), 20, out, ROOM);
    EXPECT(w.number == KUAMBYTE_DONE && w.count == 20 && wrote_digits("11101101011010111111", 20));
    clear();
    w = kuambyte_match_streams(6, bits, bits_of("110111111000101111", bits), 18, out, ROOM);
    EXPECT(w.number == KUAMBYTE_DONE && w.count == 18 && wrote_digits("111011010110101111", 18));
    clear();
    w = kuambyte_streams_of(6, bits, bits_of("11101101011010111111", bits), out, ROOM);
    EXPECT(w.number == KUAMBYTE_DONE && w.count == 18 && wrote_digits("110111111000101111", 18));
    clear();
    kuambyte_closest c = kuambyte_nearest_word(6, bits, bits_of("001011110010110110", bits), out, ROOM);
    EXPECT(c.number == KUAMBYTE_DONE && c.count == 6 && c.differences == 4 && wrote_digits("011011", 6));
}

int main(void) {
    checksums();
    code_words();
    blocks();
    cut_in_edition_2();
    least_with_unequal_shares();
    shelves();
    control_words();
    return ended("worked");
}
