/* The books, on memory that the caller lends. docs/CALLING.md says what the caller owes.
 *
 * Each function returns one signed number: a count, or -(refusal * 2^32 + place).
 * Limits are items, orders, lots, parts and entries, in this order; a shorter list means 0 for the rest, a longer one is
 * out of range.
 */
#ifndef BUTQAMER_H
#define BUTQAMER_H

#include <stddef.h>
#include <stdint.h>

#ifdef __cplusplus
extern "C" {
#endif

/* How many 64-bit words, 32-bit words and answer bytes the limits ask for. Limits out of range: -(3 * 2^32 + 1). */
int64_t books_wide(const uint64_t *limits, size_t limits_len);
int64_t books_narrow(const uint64_t *limits, size_t limits_len);
int64_t books_answer(const uint64_t *limits, size_t limits_len);

/* Opens empty books in the lent memory: 0; or -(3 * 2^32 + 1), limits out of range; or -(3 * 2^32), memory smaller than
 * they ask for. A refusal leaves the memory as it was. */
int64_t books_open(uint64_t *wide, size_t wide_len, uint32_t *narrow, size_t narrow_len, const uint64_t *limits,
                   size_t limits_len);

/* Does one call and writes its answer: the length of the answer's bytes. A call that the books turn away is answered too,
 * by bytes that say so. -(3 * 2^32) where the memory or the answer bytes are too few for the limits that the memory was
 * opened with: nothing is done then. */
int64_t books_call(uint64_t *wide, size_t wide_len, uint32_t *narrow, size_t narrow_len, const uint8_t *call,
                   size_t call_len, uint8_t *answer, size_t answer_len);

#ifdef __cplusplus
}
#endif

#endif
