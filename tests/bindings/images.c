/* A test of the proved functions of <cvec/proved.h>, and of packing: of each type of the table an image is made, appended to, checked,
 * read, looked at and found; and what is refused, by number, by them and by a file: images FILE, a name that nothing has. It writes what
 * is wrong, and how many checks there were. */
#include "cvec/proved.h"

#include <stdio.h>
#include <stdlib.h>
#include <string.h>
#include <unistd.h>

enum { ALL = 5, ROOM = 6, IMAGE = 512, CANARY = 0xa5 };

static unsigned checks, wrong;

static void check(int holds, const char *type, const char *what) {
    checks++;
    if (!holds) wrong++, printf("%s: %s\n", type, what);
}

/* The bytes that the records have in a file, by hand: each byte is another one, but a flag is 0 or 1. */
static void fill(uint8_t *bytes, size_t width) {
    for (size_t at = 0; at < ALL * width; at++) bytes[at] = (uint8_t)(at * 37 + 11);
    for (size_t k = 0; width == 9 && k < ALL; k++) bytes[k * 9 + 8] = k & 1;
}

static int is_empty_stat(const cvec_stat *stat, size_t width) {
    return stat->size == 0 && stat->frames == 0 && stat->changes == 0 && stat->folded == 0 && stat->gate == 11 && stat->width == width &&
           stat->version == 2;
}

static int has_all(const cvec_stat *stat, size_t width) {
    return stat->size == ALL && stat->frames == 1 && stat->changes == 0 && stat->gate == 25 + ALL * width && stat->width == width;
}

struct type {
    const char *name;
    uint32_t number;
    size_t width, size; /* bytes of a record in a file, and in memory */
};

#define OF_TYPE(NAME, name, RECORD, WIDTH) {#name, CVEC_##NAME, WIDTH, sizeof(RECORD)},
static const struct type types[] = {CVEC_TYPES(OF_TYPE)};

/* Packs records that have these bytes. In memory a record begins with its bytes in a file: a flagged has 7 of padding behind them. */
static void pack(const struct type *of, const uint8_t *bytes, uint8_t *packed) {
    uint8_t *in = malloc(ALL * of->size);
    memset(in, CANARY, ALL * of->size);
    memset(packed, CANARY, ROOM * 64);
    for (size_t k = 0; k < ALL; k++) memcpy(in + k * of->size, bytes + k * of->width, of->width);
    cvec_pack_records((cvec_type)of->number, in, ALL, packed);
    check(memcmp(packed, bytes, ALL * of->width) == 0 && packed[ALL * of->width] == CANARY, of->name, "packed");
    free(in);
}

/* Makes an image of these records, and answers where it ends. */
static size_t make_image(const struct type *of, const uint8_t *bytes, uint8_t *image) {
    const size_t room = (size_t)CVEC_APPEND_LEN(of->width, ALL), len = ALL * of->width;
    uint8_t packed[ROOM * 64];
    cvec_stat stat, next;
    pack(of, bytes, packed);
    check(cvec_image_empty(of->number, 2, image, CVEC_EMPTY_LEN, &stat) == CVEC_DONE && is_empty_stat(&stat, of->width), of->name, "empty");
    check(cvec_image_append(of->number, &stat, packed, len, image + 11, room - 1, &next) == CVEC_NO_ROOM, of->name, "a byte less");
    check(cvec_image_append(of->number, &stat, packed, len, image + 11, room, &next) == CVEC_DONE && has_all(&next, of->width), of->name,
          "append");
    check(memcmp(image + 25, bytes, len) == 0, of->name, "its bytes");
    image[11] = 1;
    return (size_t)next.gate + 1;
}

/* Whether these records of memory have these bytes, and what stands behind them is as it was. */
static int are_these(const struct type *of, const uint8_t *records, const uint8_t *bytes, size_t count) {
    int are = 1;
    for (size_t k = 0; k < count; k++) are = are && memcmp(records + k * of->size, bytes + k * of->width, of->width) == 0;
    for (size_t at = count * of->size; at < ROOM * of->size; at++) are = are && records[at] == CANARY;
    return are;
}

/* So many records of these bytes, as C has them: at another place, and where their bytes stand. */
static int unpacks(const struct type *of, const uint8_t *read, const uint8_t *bytes, size_t count) {
    uint8_t *out = malloc(ROOM * of->size);
    memset(out, CANARY, ROOM * of->size);
    cvec_unpack_records((cvec_type)of->number, read, count, out);
    int are = are_these(of, out, bytes, count);
    memset(out, CANARY, ROOM * of->size);
    memcpy(out, read, count * of->width);
    cvec_unpack_records((cvec_type)of->number, out, count, out);
    are = are && are_these(of, out, bytes, count);
    free(out);
    return are;
}

static void try_type(const struct type *of) {
    uint8_t image[IMAGE] = {0}, bytes[ALL * 64], *out = malloc(ROOM * of->width);
    uint64_t count = 99;
    cvec_stat stat;
    cvec_fault fault = {7, 7, 7};
    cvec_home homes[2];
    cvec_frame frame;
    const size_t width = of->width, room = ROOM * width;
    fill(bytes, width);
    const size_t len = make_image(of, bytes, image);
    check(cvec_image_check(of->number, image, len, &stat, &fault) == CVEC_DONE && has_all(&stat, width), of->name, "check");
    memset(out, CANARY, room);
    check(cvec_image_read(of->number, image, len, 1, out, room, &count, &stat, &fault) == CVEC_DONE && count == ALL - 1, of->name, "read");
    check(has_all(&stat, width) && out[count * width] == CANARY && unpacks(of, out, bytes + width, ALL - 1), of->name, "what is read");
    memset(out, CANARY, room);
    check(cvec_image_look(of->number, image, len, 0, out, 2 * width, &count, &stat, &fault) == CVEC_DONE && count == 2 && has_all(&stat, width),
          of->name, "look");
    check(out[count * width] == CANARY && unpacks(of, out, bytes, 2), of->name, "what is seen");
    check(cvec_image_homes(of->number, image, len, homes, 2, &count, &stat, &fault) == CVEC_DONE && count == 1, of->name, "homes");
    check(homes[0].position == 0 && homes[0].place == 25 && homes[0].count == ALL, of->name, "where they are");
    check(cvec_image_frame(image, len, 11, 2, (uint16_t)width, &frame) == CVEC_DONE && frame.records == ALL, of->name, "frame");
    check(fault.at == 7 && fault.cause == 7 && fault.found == 7, of->name, "a fault of none");
    for (size_t k = 0; k < sizeof types / sizeof *types; k++)
        if (types[k].width != width)
            check(cvec_image_check(types[k].number, image, len, &stat, &fault) == CVEC_WIDTH && fault.found == width, of->name,
                  "another width");
    free(out);
}

static const cvec_stat empty_of_nine = {0, 0, 0, 0, 11, 9, 1};

/* What is refused changes nothing. */
static void try_no_type(uint32_t type) {
    uint8_t image[IMAGE], out[IMAGE], kept[IMAGE];
    cvec_stat stat, next, before;
    cvec_fault fault = {7, 7, 7};
    cvec_home homes[1];
    uint64_t count = 99;
    memset(out, CANARY, sizeof out);
    memset(kept, CANARY, sizeof kept);
    memset(&next, CANARY, sizeof next);
    memset(&before, CANARY, sizeof before);
    cvec_image_empty(CVEC_U64, 1, image, sizeof image, &stat);
    check(cvec_image_read(type, image, CVEC_EMPTY_LEN, 0, out, sizeof out, &count, &next, &fault) == CVEC_NOT_SO, "no type", "read");
    check(cvec_image_look(type, image, CVEC_EMPTY_LEN, 0, out, sizeof out, &count, &next, &fault) == CVEC_NOT_SO, "no type", "look");
    check(cvec_image_homes(type, image, CVEC_EMPTY_LEN, homes, 1, &count, &next, &fault) == CVEC_NOT_SO, "no type", "homes");
    check(cvec_image_empty(type, 1, out, sizeof out, &next) == CVEC_NOT_SO, "no type", "empty");
    check(cvec_image_append(type, &stat, image, 8, out, sizeof out, &next) == CVEC_NOT_SO, "no type", "append");
    cvec_pack_records((cvec_type)type, image, 1, out);
    cvec_unpack_records((cvec_type)type, image, 1, out);
    check(memcmp(out, kept, sizeof out) == 0 && memcmp(&next, &before, sizeof next) == 0 && count == 99 && fault.at == 7, "no type", "stays");
}

static void try_bytes(void) {
    uint8_t bytes[] = {5, 0, 0, 0, 0, 0, 0, 0, 1, 7, 0, 0, 0, 0, 0, 0, 0, 0}, out[64], *odd = bytes + 9;
    cvec_stat next, kept;
    memset(&next, CANARY, sizeof next);
    kept = next;
    for (size_t part = 1; part < 9; part++) {
        check(cvec_image_append(CVEC_FLAGGED, &empty_of_nine, bytes, part, out, sizeof out, &next) == CVEC_EMPTY, "bytes", "no whole one");
        check(cvec_image_append(CVEC_FLAGGED, &empty_of_nine, bytes, 9 + part, out, sizeof out, &next) == CVEC_NO_RECORD, "bytes", "a part");
    }
    bytes[17] = 2;
    check(cvec_image_append(CVEC_FLAGGED, &empty_of_nine, bytes, 18, out, sizeof out, &next) == CVEC_NO_RECORD, "bytes", "a flag of 2");
    check(cvec_image_append(CVEC_FLAGGED, &empty_of_nine, bytes, 18, out, 32, &next) == CVEC_NO_ROOM, "bytes", "no room comes first");
    check(memcmp(&next, &kept, sizeof next) == 0, "bytes", "stays");
    bytes[17] = 0;
    check(cvec_image_append(CVEC_FLAGGED, &empty_of_nine, odd, 9, out, 24, &next) == CVEC_DONE && memcmp(out + 14, odd, 9) == 0, "bytes", "odd");
}

static cvec_file *file_of(const char *path, cvec_type type) {
    cvec_file *file;
    remove(path);
    check(cvec_file_create(&file, path, type, 1) == CVEC_DONE, "file", "create");
    return file;
}

/* Records that memory can't have are too many, and aren't read; a flag that is neither 0 nor 1 is none. */
static void try_records(const char *path) {
    const size_t many[] = {(size_t)1 << 33, SIZE_MAX / 9 + 2, SIZE_MAX / 8 + 2, SIZE_MAX / 2, SIZE_MAX};
    const size_t count = sizeof many / sizeof *many;
    cvec_flagged flagged[2];
    uint64_t number = 5;
    uint8_t two = 2;
    memset(flagged, 0, sizeof flagged);
    cvec_file *file = file_of(path, CVEC_U64);
    for (size_t k = 0; k < count; k++) check(cvec_file_append_u64(file, &number, many[k]) == CVEC_OUT_OF_RANGE, "u64", "too many");
    check(cvec_file_append_flagged(file, flagged, 1) == CVEC_WIDTH, "flagged", "another width");
    cvec_file_close(&file);
    file = file_of(path, CVEC_FLAGGED);
    for (size_t k = 0; k < count; k++) check(cvec_file_append_flagged(file, flagged, many[k]) == CVEC_OUT_OF_RANGE, "flagged", "too many");
    check(cvec_file_append_flagged(file, flagged, 1000000) == CVEC_TOO_LARGE, "flagged", "too large");
    check(cvec_file_append_flagged(file, NULL, 0) == CVEC_EMPTY, "flagged", "none");
    memcpy((uint8_t *)&flagged[1] + offsetof(cvec_flagged, flag), &two, 1);
    check(cvec_file_append_flagged(file, flagged, 2) == CVEC_NO_RECORD, "flagged", "a flag of 2");
    cvec_file_close(&file);
    remove(path);
}

static void try_file(const char *path) {
    cvec_file *file;
    check(cvec_file_create(&file, path, CVEC_TYPE_COUNT, 1) == CVEC_NOT_SO && access(path, F_OK) != 0, "no type", "a file");
    cvec_file_close(&file);
}

int main(int argc, char **argv) {
    if (argc != 2) return 2;
    for (size_t k = 0; k < sizeof types / sizeof *types; k++) try_type(&types[k]);
    try_no_type(CVEC_TYPE_COUNT);
    try_no_type(UINT32_MAX);
    try_bytes();
    try_file(argv[1]);
    try_records(argv[1]);
    printf("%u checks, %u wrong\n", checks, wrong);
    return wrong != 0;
}
