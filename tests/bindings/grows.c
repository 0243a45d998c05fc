/* Linked by --wrap=cvec_file_read: behind each read that is asked for, and before it is made, a writer of the file that GROWS names
 * appends how many were asked for by then. A hundredth ends the program. */
#include "cvec.h"

#include <stdio.h>
#include <stdlib.h>

cvec_status __real_cvec_file_read(cvec_file *file, cvec_type type, uint64_t from, void *out, size_t room, uint64_t *count, cvec_fault *fault);

static void append(uint64_t record) {
    static cvec_file *writer;
    cvec_status answer = record == 1 ? cvec_file_open(&writer, getenv("GROWS"), CVEC_U64, NULL) : CVEC_DONE;
    if (answer == CVEC_DONE) answer = cvec_file_append_u64(writer, &record, 1);
    if (answer == CVEC_DONE && record < 100) return;
    fprintf(stderr, "%d reads: %s\n", (int)record, cvec_status_text(answer));
    exit(3);
}

cvec_status __wrap_cvec_file_read(cvec_file *file, cvec_type type, uint64_t from, void *out, size_t room, uint64_t *count, cvec_fault *fault) {
    static uint64_t reads;
    if (getenv("GROWS") != NULL) append(++reads);
    return __real_cvec_file_read(file, type, from, out, room, count, fault);
}
