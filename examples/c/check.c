/* Tells what a file holds, or why it has no vector: ./check TYPE FILE */
#define _DEFAULT_SOURCE 1
#include "cvec/proved.h"

#include <inttypes.h>
#include <stdio.h>
#include <stdlib.h>
#include <string.h>

/* The number of the type of this name: of no type one that no call takes. */
static uint32_t number_of(const char *name) {
    size_t count = 0, k = 0;
    const cvec_type_of *types = cvec_types(&count);
    while (k < count && strcmp(types[k].name, name) != 0) k++;
    return (uint32_t)k;
}

/* All bytes of a file, and how many; NULL where it can't be read. */
static uint8_t *bytes_of(const char *path, size_t *len) {
    FILE *file = fopen(path, "rb");
    uint8_t *bytes = NULL;
    long end = -1;
    if (file == NULL) return NULL;
    if (fseek(file, 0, SEEK_END) == 0) end = ftell(file);
    if (end >= 0) bytes = malloc((size_t)end + 1);
    rewind(file);
    if (bytes != NULL && fread(bytes, 1, (size_t)end, file) != (size_t)end) {
        free(bytes);
        bytes = NULL;
    }
    fclose(file);
    *len = (size_t)end;
    return bytes;
}

static void tell_fault(cvec_status status, const cvec_fault *fault) {
    printf("refused: %s", cvec_status_text(status));
    if (status == CVEC_VERSION || status == CVEC_WIDTH) printf(": %" PRIu32, fault->found);
    if (status == CVEC_DAMAGED) printf(" at %" PRIu64 ": %s", fault->at, cvec_cause_text(fault->cause));
    if (status == CVEC_DAMAGED && fault->cause == CVEC_CAUSE_KIND) printf(": %" PRIu32, fault->found);
    putchar('\n');
}

int main(int argc, char **argv) {
    cvec_stat stat;
    cvec_fault fault;
    size_t len = 0;
    if (argc != 3) return 2;
    uint8_t *image = bytes_of(argv[2], &len);
    if (image == NULL) return 2;
    cvec_status status = cvec_image_check(number_of(argv[1]), image, len, &stat, &fault);
    if (status != CVEC_DONE) {
        tell_fault(status, &fault);
        free(image);
        return 1;
    }
    printf("version %u width %u size %" PRIu64 " frames %" PRIu64 " changes %" PRIu64 " folded %" PRIu64 " gate %" PRIu64 "\n",
           stat.version, stat.width, stat.size, stat.frames, stat.changes, stat.folded, stat.gate);
    free(image);
    return 0;
}
