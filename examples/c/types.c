/* Makes a file of any record type, appends two records, and lists what it has then: ./types TYPE FILE */
#include "cvec.h"

#include <inttypes.h>
#include <stdio.h>
#include <string.h>

union record {
    uint8_t u8;
    uint16_t u16;
    uint32_t u32;
    uint64_t u64;
    int32_t i32;
    int64_t i64;
    float f32;
    double f64;
    cvec_pair pair;
    cvec_flagged flagged;
    cvec_bytes16 bytes16;
    cvec_bytes24 bytes24;
    cvec_bytes32 bytes32;
    cvec_bytes64 bytes64;
};

static const uint8_t two_u8[] = {1, UINT8_MAX};
static const uint16_t two_u16[] = {258, UINT16_MAX};
static const uint32_t two_u32[] = {1, UINT32_MAX};
static const uint64_t two_u64[] = {1, UINT64_MAX};
static const int32_t two_i32[] = {-2, INT32_MIN};
static const int64_t two_i64[] = {-1, INT64_MIN};
static const float two_f32[] = {1.5F, -0.0F};
static const double two_f64[] = {-2.5, 0x1p-1074}; /* the least above 0 */
static const cvec_pair two_pair[] = {{1, -1}, {UINT64_MAX, INT64_MAX}};
static const cvec_flagged two_flagged[] = {{1, true}, {UINT64_MAX, false}};
static const cvec_bytes16 two_bytes16[] = {{{1, 2}}, {{[14] = 254, 255}}};
static const cvec_bytes24 two_bytes24[] = {{{1, 2}}, {{[22] = 254, 255}}};
static const cvec_bytes32 two_bytes32[] = {{{1, 2}}, {{[30] = 254, 255}}};
static const cvec_bytes64 two_bytes64[] = {{{1, 2}}, {{[62] = 254, 255}}};

static const struct {
    const char *name;
    cvec_type type;
    const void *two;
} types[] = {
#define LINE(NAME, name, RECORD, WIDTH) {#name, CVEC_##NAME, two_##name},
    CVEC_TYPES(LINE)
};

static void list_bytes(const uint8_t *bytes, size_t len) {
    for (size_t at = 0; at < len; at++) printf("%02x", bytes[at]);
    putchar('\n');
}

static void list(cvec_type type, const void *records, uint64_t count) {
    for (uint64_t k = 0; k < count; k++) switch (type) {
        case CVEC_U8: printf("%" PRIu8 "\n", ((const uint8_t *)records)[k]); break;
        case CVEC_U16: printf("%" PRIu16 "\n", ((const uint16_t *)records)[k]); break;
        case CVEC_U32: printf("%" PRIu32 "\n", ((const uint32_t *)records)[k]); break;
        case CVEC_U64: printf("%" PRIu64 "\n", ((const uint64_t *)records)[k]); break;
        case CVEC_I32: printf("%" PRId32 "\n", ((const int32_t *)records)[k]); break;
        case CVEC_I64: printf("%" PRId64 "\n", ((const int64_t *)records)[k]); break;
        case CVEC_F32: printf("%.9g\n", (double)((const float *)records)[k]); break;
        case CVEC_F64: printf("%.17g\n", ((const double *)records)[k]); break;
        case CVEC_PAIR: printf("%" PRIu64 ":%" PRId64 "\n", ((const cvec_pair *)records)[k].key, ((const cvec_pair *)records)[k].value); break;
        case CVEC_FLAGGED: printf("%" PRIu64 ":%d\n", ((const cvec_flagged *)records)[k].key, ((const cvec_flagged *)records)[k].flag); break;
        case CVEC_BYTES16: list_bytes(((const cvec_bytes16 *)records)[k].bytes, 16); break;
        case CVEC_BYTES24: list_bytes(((const cvec_bytes24 *)records)[k].bytes, 24); break;
        case CVEC_BYTES32: list_bytes(((const cvec_bytes32 *)records)[k].bytes, 32); break;
        default: list_bytes(((const cvec_bytes64 *)records)[k].bytes, 64); break;
    }
}

static int run(cvec_type type, const void *two, const char *path) {
    union record seen[4];
    uint64_t count = 0;
    cvec_file *file;
    cvec_status status = cvec_file_create(&file, path, type, 1);
    if (status == CVEC_DONE) status = cvec_file_append(file, type, two, 2);
    if (status == CVEC_DONE) status = cvec_file_read(file, type, 0, seen, 4, &count, NULL);
    if (status == CVEC_DONE) list(type, seen, count);
    else fprintf(stderr, "%s\n", cvec_status_text(status));
    cvec_file_close(&file);
    return status == CVEC_DONE ? 0 : 1;
}

int main(int argc, char **argv) {
    for (size_t k = 0; argc == 3 && k < sizeof types / sizeof *types; k++)
        if (!strcmp(argv[1], types[k].name)) return run(types[k].type, types[k].two, argv[2]);
    return 2;
}
