/* Records as C has them, and as they stand in a file. Of each type but flagged these are the same bytes. */
#ifndef CVEC_TYPES_H
#define CVEC_TYPES_H

#include "cvec/proved.h"

#pragma GCC visibility push(hidden)

/* The bytes of a flagged in a file, and of no type more. */
enum { FLAGGED_LEN = sizeof(uint64_t) + 1, MOST_WIDTH = 64 };

/* The bytes in a file of so many records; of more than memory has, of as many as are too many too. Each growth asks: no division. */
size_t cvec_bytes_of(cvec_type type, size_t count);

/* Writes the bytes of so many records of flagged to `out`. That of a flag goes as it is, also where it is neither 0 nor 1, which the
 * library refuses. */
void cvec_pack(const void *records, size_t count, uint8_t *out);

/* Makes records of flagged of the bytes of so many, which stand in front of the same memory. */
void cvec_unpack(void *records, size_t count);

#pragma GCC visibility pop

#endif
