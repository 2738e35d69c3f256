// What itpp.h says, by IT++'s BLDPC_Parity, BLDPC_Generator, LDPC_Generator_Systematic and LDPC_Code.
#include "itpp.h"
#include <cstdio>
#include <cstdlib>
#include <itpp/itcomm.h>
#include <memory>

namespace {
const int NO_SHIFT = 255, HEAD = 10;

int number_at(const uint8_t *octets, int at) { return octets[at] * 256 + octets[at + 1]; }

[[noreturn]] void end(const char *why) {
    std::fprintf(stderr, "bench: IT++: %s\n", why);
    std::exit(2);
}

int table_for(const uint8_t *record, int z) {
    for (int t = 0; t < number_at(record, 8); t++)
        if (number_at(record, HEAD + 4 * t) == z)
            return number_at(record, HEAD + 2 + 4 * t);
    end("the record has no table for this z");
}

// The shifts of a table with its columns moved round, so that column `first` is the first.
itpp::imat shifts(const uint8_t *record, int z, int first) {
    int rows = number_at(record, 2), columns = number_at(record, 0) + rows, table = table_for(record, z);
    itpp::imat base(rows, columns);
    for (int row = 0; row < rows; row++)
        for (int column = 0; column < columns; column++) {
            int shift = record[table + row * columns + (first + column) % columns];
            base(row, column) = shift == NO_SHIFT ? -1 : shift;
        }
    return base;
}

// The systematic generator makes parity bits of the first columns that it can and moves them to the end: with the parity
// columns in front its words are in the record's order.
struct matrix {
    itpp::BLDPC_Parity parity, turned;
    itpp::BLDPC_Generator block;
    itpp::LDPC_Generator_Systematic systematic;
    itpp::LDPC_Code by_block, by_systematic;

    matrix(const uint8_t *record, int z)
        : parity(shifts(record, z, 0), z), turned(shifts(record, z, number_at(record, 0)), z), block(&parity),
          systematic(&turned, true), by_block(&parity, &block), by_systematic(&turned, &systematic) {}
};

std::unique_ptr<matrix> taken;
const uint8_t *given[ITPP_SLOTS];
itpp::bvec vectors[ITPP_SLOTS], coded;

const itpp::bvec &vector_of(const uint8_t *bits) {
    for (int slot = 0; slot < ITPP_SLOTS; slot++)
        if (given[slot] == bits)
            return vectors[slot];
    end("no vector was made of these bits");
}
} // namespace

void itpp_take_matrix(const uint8_t *record, size_t z) {
    if (number_at(record, 4))
        end("the record has extension rows");
    taken.reset(new matrix(record, z));
}

void itpp_take_bits(int slot, const uint8_t *bits, size_t count) {
    given[slot] = bits;
    vectors[slot].set_size(count);
    for (size_t i = 0; i < count; i++)
        vectors[slot][i] = bits[i];
}

uint32_t itpp_code_block(const uint8_t *, size_t, size_t, const uint8_t *places, size_t, uint8_t *, size_t) {
    taken->by_block.encode(vector_of(places), coded);
    return 0;
}

uint32_t itpp_code_systematic(const uint8_t *, size_t, size_t, const uint8_t *places, size_t, uint8_t *, size_t) {
    taken->by_systematic.encode(vector_of(places), coded);
    return 0;
}

size_t itpp_coded(uint8_t *out, size_t room) {
    size_t count = coded.size();
    for (size_t i = 0; i < count && i < room; i++)
        out[i] = coded[i].value();
    return count;
}

uint32_t itpp_check(const uint8_t *, size_t, size_t, const uint8_t *word, size_t) {
    return taken->by_block.syndrome_check(vector_of(word)) ? 0 : 99;
}
