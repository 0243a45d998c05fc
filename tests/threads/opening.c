/* How much memory a vector takes while it is opened, and then: opening FILE, which has COUNT records of u64. Both in parts of the
 * file's length, in hundredths: the most so far, and what stays. */
#include "cvec.h"

#include <inttypes.h>
#include <malloc.h>
#include <stdio.h>
#include <stdlib.h>
#include <string.h>
#include <sys/stat.h>

/* The kilobytes of the line of that name in what the system says of the process. */
static uint64_t kilobytes(const char *name) {
    char line[256];
    uint64_t found = 0;
    FILE *status = fopen("/proc/self/status", "r");
    if (status == NULL) exit(2);
    while (fgets(line, sizeof line, status) != NULL)
        if (strncmp(line, name, strlen(name)) == 0) found = strtoull(line + strlen(name), NULL, 10);
    fclose(status);
    return found;
}

int main(int count, char **words) {
    struct stat file;
    cvec_vector *vector = NULL;
    cvec_seat *seat = NULL;
    uint64_t size = 0;
    if (count != 3 || stat(words[1], &file) != 0) return 2;
    const uint64_t len = (uint64_t)file.st_size / 1024, before = kilobytes("VmRSS:");
    if (cvec_vector_open(&vector, words[1], CVEC_U64, &(cvec_options){.seats = 1}) != CVEC_DONE) return 2;
    if (cvec_seat_take(vector, &seat) != CVEC_DONE || cvec_seat_size(seat, &size) != CVEC_DONE) return 2;
    if (size != strtoull(words[2], NULL, 10)) return 2;
    malloc_trim(0);
    const uint64_t most = kilobytes("VmHWM:") - before, stays = kilobytes("VmRSS:") - before;
    printf("%" PRIu64 " %" PRIu64 "\n", most * 100 / len, stays * 100 / len);
    if (cvec_seat_close(&seat) != CVEC_DONE) return 2;
    return cvec_vector_close(&vector) == CVEC_DONE ? 0 : 2;
}
