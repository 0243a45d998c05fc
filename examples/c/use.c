/* Makes a file of u64, appends to it, opens it again and reads it: ./use FILE */
#include "cvec.h"

#include <inttypes.h>
#include <stdio.h>

static int refused(const char *what, cvec_status status, const cvec_fault *fault) {
    fprintf(stderr, "%s: %s", what, cvec_status_text(status));
    if (status == CVEC_DAMAGED) fprintf(stderr, " at %" PRIu64 ": %s", fault->at, cvec_cause_text(fault->cause));
    fputc('\n', stderr);
    return 1;
}

int main(int argc, char **argv) {
    const uint64_t first[] = {5, 7, 11}, second[] = {13};
    uint64_t records[64], count = 0;
    cvec_fault fault = {0, 0, 0};
    cvec_file *file;
    cvec_status status;
    if (argc != 2) return 2;

    if ((status = cvec_file_create(&file, argv[1], CVEC_U64, 1))) return refused("create", status, &fault);
    if ((status = cvec_file_append_u64(file, first, 3))) return refused("append", status, &fault);
    cvec_file_close(&file);

    if ((status = cvec_file_open(&file, argv[1], CVEC_U64, &fault))) return refused("open", status, &fault);
    if ((status = cvec_file_append_u64(file, second, 1))) return refused("append", status, &fault);
    if ((status = cvec_file_read_u64(file, 0, records, 64, &count, &fault))) return refused("read", status, &fault);
    for (uint64_t k = 0; k < count; k++) printf("%" PRIu64 "\n", records[k]);
    cvec_file_close(&file);
    return 0;
}
