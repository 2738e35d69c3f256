/* Records and shelves that the jobs are made of. */
#include "records.h"
#include <stdio.h>
#include <stdlib.h>
#include <string.h>

enum { SHELF = 70000 };
static u8 public_shelf[SHELF], trial_shelf[SHELF];

size_t number_at(in octets, size_t at) { return octets[at] * 256 + octets[at + 1]; }

static void put_number(u8 *octets, size_t at, size_t number) {
    octets[at] = number >> 8;
    octets[at + 1] = number;
}

static void read_shelf(const char *shelves, const char *name, u8 *octets) {
    char path[4096];
    snprintf(path, sizeof path, "%s/%s.shelf", shelves, name);
    FILE *file = fopen(path, "rb");
    if (!file || !fread(octets, 1, SHELF, file)) {
        fprintf(stderr, "bench: %s cannot be read\n", path);
        exit(2);
    }
    fclose(file);
}

void read_shelves(const char *shelves) {
    read_shelf(shelves, "public", public_shelf);
    read_shelf(shelves, "trial", trial_shelf);
}

static struct record found(const u8 *shelf, size_t number) {
    for (size_t k = 0; k < number_at(shelf, 0); k++) {
        in entry = shelf + 2 + 8 * k;
        if (number_at(entry, 2) == number)
            return (struct record){ shelf + number_at(entry, 4), number_at(entry, 6) };
    }
    fprintf(stderr, "bench: a shelf has no record %zu\n", number);
    exit(2);
}

struct record record_of(size_t number) { return found(public_shelf, number); }

struct record trial(void) { return found(trial_shelf, 13); }

struct record as_type_2(struct record record) {
    u8 *octets = malloc(record.length);
    memcpy(octets, record.octets, record.length);
    put_number(octets, 6, 2);
    return (struct record){ octets, record.length };
}

struct record toy(void) {
    static const u8 octets[] = { 0, 1, 0, 3, 0, 0, 0, 1, 0, 1, 0, 2, 0, 14, 0, 1, 0, 255, 1, 0, 0, 0, 255, 1, 255, 0 };
    return (struct record){ octets, sizeof octets };
}

enum { SHIFT_NONE = 255, HEAD = 10 };

/* The numbers of a header, and z of each size. */
struct shape {
    int kb, m, x, type, t, z[4];
};

static u8 drawn_shift(int z) { return drawn() % (z ? z : 1); }

/* The middle row is as late as it may be, so that a search for it is long. */
static u8 stairs_entry(struct shape s, int row, int column, int z) {
    if (column < s.kb)
        return drawn_shift(z);
    if (column == s.kb)
        return row == 0 || row == s.m - 1 ? z > 1 : row == s.m - 2 ? 0 : SHIFT_NONE;
    return column < s.kb + s.m && (row == column - s.kb - 1 || row == column - s.kb) ? 0 : SHIFT_NONE;
}

static u8 extension_entry(struct shape s, int row, int column, int z) {
    if (column < s.kb + row)
        return drawn_shift(z);
    return column == s.kb + row ? 0 : SHIFT_NONE;
}

/* A record of a shape, every free entry a shift. */
static struct record shaped(struct shape s, u8 *octets) {
    int header[] = { s.kb, s.m, s.x, s.type, s.t };
    for (int k = 0; k < 5; k++)
        put_number(octets, 2 * k, header[k]);
    int wide = s.kb + s.m + s.x, table = (s.m + s.x) * wide, head = HEAD + 4 * s.t;
    for (int t = 0; t < s.t; t++) {
        int z = s.z[t], start = head + t * table;
        put_number(octets, HEAD + 4 * t, z);
        put_number(octets, HEAD + 2 + 4 * t, start);
        for (int place = 0; place < table; place++) {
            int row = place / wide, column = place % wide;
            octets[start + place] = row < s.m ? stairs_entry(s, row, column, z) : extension_entry(s, row, column, z);
        }
    }
    return (struct record){ octets, head + s.t * table };
}

struct record widest(void) {
    static u8 octets[2000];
    return shaped((struct shape){ .kb = 20, .m = 12, .type = 1, .t = 3, .z = { 27, 54, 81 } }, octets);
}

/* One of the numbers from `least` to `most`, or, once in 16 times, the one below or the one above. */
static int near(int least, int most) {
    if (drawn() % 16)
        return least + drawn() % (most - least + 1);
    return drawn() % 2 ? least - 1 : most + 1;
}

struct record any_record(void) {
    static u8 octets[20000];
    struct shape s;
    s.kb = near(1, 20);
    s.m = near(3, 12);
    s.type = near(1, 2);
    s.t = near(1, 3);
    s.x = s.type == 1 ? drawn() % 16 == 0 : abs(near(0, 40 - s.m));
    for (int t = 0, last = 0; t < s.t; t++)
        last = s.z[t] = near(last + 1, last + 27);
    struct record record = shaped(s, octets);
    if (drawn() % 4 == 0)
        octets[drawn() % record.length] = drawn() % 2 ? SHIFT_NONE : drawn() % 82;
    return record;
}

u8 *filled(int is_private, size_t entries, struct record record, size_t *length) {
    size_t head = 2 + 8 * entries;
    *length = head + entries * record.length;
    u8 *octets = malloc(*length);
    put_number(octets, 0, entries);
    for (size_t k = 0; k < entries; k++) {
        size_t start = head + k * record.length;
        put_number(octets, 2 + 8 * k, is_private ? 1 + k : 0);
        put_number(octets, 4 + 8 * k, is_private ? 7 : 1 + k);
        put_number(octets, 6 + 8 * k, start);
        put_number(octets, 8 + 8 * k, record.length);
        memcpy(octets + start, record.octets, record.length);
    }
    return octets;
}

struct cut cut_of(struct record record, size_t edition, size_t octets) {
    in sizes = record.octets + HEAD;
    size_t kb = number_at(record.octets, 0), most = kb * number_at(sizes, 4 * (number_at(record.octets, 8) - 1));
    size_t bits = 8 * octets + 24, index = 0;
    struct cut cut = { .sums = edition == 2 && bits > most && most > 24 ? 24 : 0 };
    cut.blocks = (bits + most - cut.sums - 1) / (most - cut.sums);
    cut.own = bits / cut.blocks;
    cut.longer = bits % cut.blocks;
    while (cut.own + (cut.longer > 0) + cut.sums > kb * number_at(sizes, 4 * index))
        index++;
    cut.z = number_at(sizes, 4 * index);
    return cut;
}

/* Of two bits each. */
static size_t symbol_places(size_t bits) { return (bits + 1) / 2; }

/* The blocks that carry a bit more than the others are the first, and so are those that are given a symbol place more. */
size_t least_g(struct record record, size_t edition, size_t octets) {
    struct cut cut = cut_of(record, edition, octets);
    size_t rows = number_at(record.octets, 2) + number_at(record.octets, 4), coded = cut.own + cut.sums + rows * cut.z;
    return 2 * (cut.longer * symbol_places(coded + 1) + (cut.blocks - cut.longer) * symbol_places(coded));
}
