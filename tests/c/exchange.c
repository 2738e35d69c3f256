/* exchange PRIVATE PUBLIC: looks profile 34 of tenant 7 up on two shelves, sends a block with it and receives it again. */
#include <kuambyte.h>
#include <stdio.h>

/* One octet more than a shelf has, so that one that is too long is refused and not cut. */
enum { ROOM = 65536 };

static size_t read_file(const char *name, uint8_t octets[ROOM]) {
    FILE *file = fopen(name, "rb");
    if (!file) return perror(name), 0;
    size_t count = fread(octets, 1, ROOM, file);
    fclose(file);
    return count;
}

static int refused(uint32_t number) { return printf("refused %u: %s\n", number, kuambyte_meaning(number)), (int)number; }

int main(int words, char **word) {
    static uint8_t own[ROOM], all[ROOM], bits[65536], block[5];
    if (words != 3) return printf("usage: exchange PRIVATE PUBLIC\n"), 64;
    size_t m = read_file(word[1], own), n = read_file(word[2], all);

    kuambyte_stretch found = kuambyte_lookup(own, m, all, n, 7, 34);
    if (found.number != KUAMBYTE_DONE) return refused(found.number);
    const uint8_t *record = (found.shelf == KUAMBYTE_PRIVATE ? own : all) + found.start;

    kuambyte_terms terms = {.layers = 1, .order = 2, .rv = 0, .edition = 1};
    kuambyte_least least = kuambyte_least_bits(record, found.octets, sizeof block, terms);
    if (least.number != KUAMBYTE_DONE) return refused(least.number);

    kuambyte_written sent = kuambyte_send(record, found.octets, (const uint8_t *)"Hello", sizeof block, terms, least.g, bits, sizeof bits);
    if (sent.number != KUAMBYTE_DONE) return refused(sent.number);
    kuambyte_written got = kuambyte_receive(record, found.octets, 8 * sizeof block, terms, bits, sent.count, KUAMBYTE_QUICK, block, sizeof block);
    if (got.number != KUAMBYTE_DONE) return refused(got.number);
    printf("%.5s went out as %zu bits and came back\n", (const char *)block, sent.count);
    return 0;
}
