/* IT++'s LDPC codes for the bench, which is in C. IT++ works on bit vectors of its own: bits are put into them before a
   call is measured, and a call that is given the same bits takes the vector that was made of them. */
#ifndef ITPP_H
#define ITPP_H
#include <stddef.h>
#include <stdint.h>

#ifdef __cplusplus
extern "C" {
#endif
enum { ITPP_SLOTS = 8 };

/* Makes the matrix of a record of Type 1 for one z, and both generators. Later calls are for this matrix. */
void itpp_take_matrix(const uint8_t *record, size_t z);
void itpp_take_bits(int slot, const uint8_t *bits, size_t count);

/* Codes with the block generator, made for block LDPC codes, or with the systematic one, which multiplies by a dense
   matrix. The coded word stays in IT++'s vector. */
uint32_t itpp_code_block(const uint8_t *record, size_t length, size_t z, const uint8_t *places, size_t count, uint8_t *out,
                         size_t room);
uint32_t itpp_code_systematic(const uint8_t *record, size_t length, size_t z, const uint8_t *places, size_t count,
                              uint8_t *out, size_t room);

/* The word that was coded last, as octets; answered is how many. */
size_t itpp_coded(uint8_t *out, size_t room);

/* 0 for a word with an even syndrome, 99 for another. */
uint32_t itpp_check(const uint8_t *record, size_t length, size_t z, const uint8_t *word, size_t count);
#ifdef __cplusplus
}
#endif
#endif
