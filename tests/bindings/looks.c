/* Reads a file of u64 beside its writer: looks FILE. At each line of its input it answers one line, the records that the file
 * has: by a file that is open all the while, or, where the line begins with `o`, by one that is opened anew. */
#include "cvec.h"

#include <inttypes.h>
#include <stdio.h>

enum { MOST = 1 << 16 };

static uint64_t records[MOST];

/* All records, of one moment. */
static int tell(cvec_file *file) {
    cvec_fault fault = {0, 0, 0};
    uint64_t count = 0;
    cvec_stat stat = {0, 0, 0, 0, 0, 0, 0};
    cvec_status status = cvec_file_read_u64(file, 0, records, MOST, &count, &fault);
    if (status != CVEC_DONE || cvec_file_stat(file, &stat) != CVEC_DONE || stat.size != count) {
        printf("refused %s at %" PRIu64 " cause %" PRIu32 "\n", cvec_status_text(status), fault.at, fault.cause);
        return 1;
    }
    for (uint64_t k = 0; k < count; k++) printf("%" PRIu64 " ", records[k]);
    putchar('\n');
    return 0;
}

int main(int argc, char **argv) {
    cvec_file *file, *other;
    cvec_fault fault;
    char line[16];
    if (argc != 2 || cvec_file_open_to_read(&file, argv[1], CVEC_U64, &fault) != CVEC_DONE) return 2;
    int failed = 0;
    while (!failed && fgets(line, sizeof line, stdin) != NULL) {
        if (line[0] != 'o') failed = tell(file);
        else {
            cvec_status status = cvec_file_open_to_read(&other, argv[1], CVEC_U64, &fault);
            if (status == CVEC_DONE) failed = tell(other);
            else failed = printf("refused %s at %" PRIu64 " cause %" PRIu32 "\n", cvec_status_text(status), fault.at, fault.cause) > 0;
            cvec_file_close(&other);
        }
        fflush(stdout);
    }
    cvec_file_close(&file);
    return failed;
}
