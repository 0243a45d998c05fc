/* Records of each type, by numbers. */
#ifndef TYPED_H
#define TYPED_H

#include "cvec.h"

#include <string.h>

/* Any record, by its type. */
union record {
#define MEMBER(NAME, name, RECORD, WIDTH) RECORD name;
    CVEC_TYPES(MEMBER)
#undef MEMBER
    uint64_t words[8];
};

/* The bytes of a record in memory. */
static size_t record_size(cvec_type type) {
#define SIZE(NAME, name, RECORD, WIDTH) sizeof(RECORD),
    static const size_t sizes[] = {CVEC_TYPES(SIZE)};
#undef SIZE
    return sizes[type];
}

/* Record k of a type: no two are equal (of u8, of 256), and each has bits that a narrower one hasn't. */
static union record record_of(cvec_type type, uint64_t k) {
    union record record;
    memset(&record, 0, sizeof record);
    switch (type) {
    case CVEC_PAIR: record.pair = (cvec_pair){UINT64_MAX - k / 2, k % 2 == 0 ? INT64_MIN : (int64_t)k}; break;
    case CVEC_FLAGGED: record.flagged = (cvec_flagged){UINT64_MAX - k / 2, k % 2 == 0}; break;
    case CVEC_BYTES16:
    case CVEC_BYTES24:
    case CVEC_BYTES32:
    case CVEC_BYTES64:
        record.words[0] = k / 2;
        record.words[record_size(type) / 8 - 1] = UINT64_MAX - k;
        break;
    default: record.u64 = UINT64_MAX - k;
    }
    return record;
}

static int are_equal(cvec_type type, const void *there, const union record *wanted) {
    if (type == CVEC_FLAGGED) {
        const cvec_flagged *seen = there;
        return seen->key == wanted->flagged.key && seen->flag == wanted->flagged.flag;
    }
    return memcmp(there, wanted, record_size(type)) == 0;
}

static int is_record(cvec_type type, const void *there, uint64_t k) {
    const union record wanted = record_of(type, k);
    return are_equal(type, there, &wanted);
}

/* Records of these numbers, one behind the other. */
static void put_records(cvec_type type, const uint64_t *numbers, size_t count, uint8_t *out) {
    for (size_t k = 0; k < count; k++) {
        const union record record = record_of(type, numbers[k]);
        memcpy(out + k * record_size(type), &record, record_size(type));
    }
}

#endif
