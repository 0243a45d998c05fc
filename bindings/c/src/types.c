/* The tables of cvec.h: tested, not proved. */
#include "types.h"

#include <string.h>

/* The proved libraries have both as numbers of 32 bits. */
typedef char has_four_bytes[sizeof(cvec_status) == sizeof(uint32_t) && sizeof(cvec_type) == sizeof(uint32_t) ? 1 : -1];

const cvec_type_of *cvec_types(size_t *count) {
    static const cvec_type_of types[] = {
#define CVEC_LINE(NAME, name, RECORD, WIDTH) {#name, WIDTH, sizeof(RECORD)},
        CVEC_TYPES(CVEC_LINE)
#undef CVEC_LINE
    };
    *count = CVEC_TYPE_COUNT;
    return types;
}

#define CVEC_TEXT(NAME, NUMBER, SENTENCE) \
    case NUMBER: return SENTENCE;

const char *cvec_status_text(uint32_t status) {
    switch (status) {
        CVEC_STATUSES(CVEC_TEXT)
    default: return "an unknown status";
    }
}

const char *cvec_cause_text(uint32_t cause) {
    switch (cause) {
        CVEC_CAUSES(CVEC_TEXT)
    default: return "an unknown cause";
    }
}

#undef CVEC_TEXT

size_t cvec_bytes_of(cvec_type type, size_t count) {
    size_t types;
    const cvec_type_of *of = cvec_types(&types);
    if ((size_t)type >= types) return 0;
    const size_t most = PTRDIFF_MAX / MOST_WIDTH;
    return (count < most ? count : most) * of[type].width;
}

void cvec_pack_records(cvec_type type, const void *records, size_t count, uint8_t *out) {
    if (type == CVEC_FLAGGED)
        cvec_pack(records, count, out);
    else if (count > 0)
        memmove(out, records, cvec_bytes_of(type, count));
}

void cvec_unpack_records(cvec_type type, const uint8_t *bytes, size_t count, void *out) {
    if (count > 0) memmove(out, bytes, cvec_bytes_of(type, count));
    if (type == CVEC_FLAGGED) cvec_unpack(out, count);
}

enum { KEY_LEN = sizeof(uint64_t) };

void cvec_pack(const void *records, size_t count, uint8_t *out) {
    const uint8_t *at = records;
    for (; count > 0; count--, at += sizeof(cvec_flagged), out += FLAGGED_LEN) {
        memcpy(out, at + offsetof(cvec_flagged, key), KEY_LEN);
        out[KEY_LEN] = at[offsetof(cvec_flagged, flag)];
    }
}

/* From the last record on: it goes behind all of those before it. */
void cvec_unpack(void *records, size_t count) {
    cvec_flagged *to = records;
    while (count-- > 0) {
        const uint8_t *at = (const uint8_t *)records + count * FLAGGED_LEN;
        const bool flag = at[KEY_LEN] != 0;
        memmove(&to[count].key, at, KEY_LEN);
        to[count].flag = flag;
    }
}
