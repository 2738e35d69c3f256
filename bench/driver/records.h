/* Records and shelves that the jobs are made of. */
#ifndef RECORDS_H
#define RECORDS_H
#include "calls.h"

struct record {
    in octets;
    size_t length;
};

/* Reads the shelves in a folder, and gives the record of a number on the public one, and that of the trial one: rate 1/3, Type 2. */
void read_shelves(const char *folder);
struct record record_of(size_t number);
struct record trial(void);

/* A record without extension as one of Type 2. */
struct record as_type_2(struct record record);

/* The small record of document 01's examples: one group, three rows, one size of 2. */
struct record toy(void);

/* The widest record of Type 1 there can be: 20 groups, 12 rows, three sizes, every systematic entry a shift. */
struct record widest(void);

/* A record of any shape of either type, whose lengths go with its header, so that what is refused is refused for a number or an entry. It
   lasts until the next. */
struct record any_record(void);

/* A shelf of so many entries that all hold one record: of tenants 1 and on for profile 7, or public for profiles 1 and on. */
u8 *filled(int is_private, size_t entries, struct record record, size_t *length);

size_t number_at(in octets, size_t at);

/* How a block of so many octets is cut: the first `longer` blocks have one own bit more. `sums` are the bits of each block's checksum. */
struct cut {
    size_t blocks, own, longer, sums, z;
};

/* Where a checksum would fill a block there is no cut, and the one without checksums is given. */
struct cut cut_of(struct record record, size_t edition, size_t octets);

/* The least G with N_L 1 and Q_m 2 that has room for a block of so many octets. */
size_t least_g(struct record record, size_t edition, size_t octets);
#endif
