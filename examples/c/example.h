/* What samples.c, word_index.c and pool.c have in common. A call that is refused ends the program; what was awaited stands. */
#ifndef CVEC_EXAMPLE_H
#define CVEC_EXAMPLE_H

#include "cvec.h"

#include <errno.h>
#include <pthread.h>
#include <stdio.h>
#include <stdlib.h>
#include <string.h>

/* Ends the program with this sentence. Not by exit, which only one thread may call. */
static inline void fail(const char *why, const char *reason) {
    fprintf(stderr, "%s%s%s\n", why, *reason ? ": " : "", reason);
    _Exit(1);
}

static inline void require(uint32_t status) {
    const bool is_of_system = status >= CVEC_DISK_OPEN && status <= CVEC_DISK_SYNC;
    if (status != CVEC_DONE) fail(cvec_status_text(status), is_of_system ? strerror(errno) : "");
}

static inline cvec_vector *open_or_create(const char *path, cvec_type type, uint16_t seats) {
    const cvec_options options = {.seats = seats};
    cvec_vector *vector;
    require(cvec_vector_open_or_create(&vector, path, type, &options));
    return vector;
}

/* A copy of all records, each of so many bytes, which the caller frees. */
static inline void *read_all(cvec_vector *vector, cvec_type type, size_t width, uint64_t *count) {
    cvec_seat *seat;
    uint64_t size;
    require(cvec_seat_take(vector, &seat));
    require(cvec_seat_size(seat, &size));
    void *records = malloc((size_t)size * width + 1); /* of 0 it may be NULL */
    if (records == NULL) require(CVEC_MEMORY);
    require(cvec_seat_read(seat, type, 0, records, (size_t)size, count));
    require(cvec_seat_close(&seat));
    return records;
}

static inline void begin(pthread_t *thread, void *(*run)(void *), void *work) {
    const int refused = pthread_create(thread, NULL, run, work);
    if (refused != 0) fail("a thread isn't started", strerror(refused));
}

#endif
