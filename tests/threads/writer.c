/* Grows a vector by threads until it is killed, and prints of each growth that is settled its thread, its turn and its place:
 * writer FILE ROUND THREADS TURNS. The blocks are those of tests/bindings/vector_blocks.py. */
#define _POSIX_C_SOURCE 200809L
#include "cvec.h"

#include <inttypes.h>
#include <pthread.h>
#include <stdio.h>
#include <stdlib.h>
#include <string.h>
#include <unistd.h>

enum { MOST_THREADS = 64, MOST_LEN = 60, LINE = 64, TURNS_TOLD = 3 };

struct writer {
    cvec_seat *seat;
    uint64_t round, name, turns;
};

static size_t block(uint64_t *out, const struct writer *own, uint64_t turn) {
    const uint64_t len = 1 + (own->name * 7 + turn * 13 + own->round * 29) % MOST_LEN;
    out[0] = own->round << 48 | own->name << 40 | turn << 8 | len;
    for (uint64_t at = 1; at < len; at++) out[at] = out[0] * 31 + at;
    return (size_t)len;
}

static void require(uint32_t status) {
    if (status == CVEC_DONE) return;
    fprintf(stderr, "%s\n", cvec_status_text(status));
    exit(1);
}

/* Every third growth is waited for, and each that is durable then is told, by one call of the system. */
static void *run(void *work) {
    const struct writer *own = work;
    char lines[TURNS_TOLD * LINE] = "";
    uint64_t records[MOST_LEN];
    cvec_receipt receipt;
    for (uint64_t turn = 0; turn < own->turns; turn++) {
        require(cvec_seat_grow_u64(own->seat, records, block(records, own, turn), &receipt));
        size_t len = strlen(lines);
        snprintf(lines + len, sizeof lines - len, "%" PRIu64 " %" PRIu64 " %" PRIu64 "\n", own->name, turn, receipt.start);
        if (turn % TURNS_TOLD != TURNS_TOLD - 1 && turn + 1 != own->turns) continue;
        require(cvec_seat_settle(own->seat, receipt.number, CVEC_NO_LIMIT));
        len = strlen(lines);
        if (write(1, lines, len) != (ssize_t)len) exit(1);
        lines[0] = '\0';
    }
    return NULL;
}

static void *flush(void *vector) {
    require(cvec_vector_run_flusher(vector, 2));
    return NULL;
}

int main(int argc, char **argv) {
    static struct writer writers[MOST_THREADS];
    pthread_t threads[MOST_THREADS], flusher;
    cvec_vector *vector;
    if (argc != 5) return 2;
    const uint64_t round = strtoull(argv[2], NULL, 10), count = strtoull(argv[3], NULL, 10), turns = strtoull(argv[4], NULL, 10);
    if (count == 0 || count > MOST_THREADS) return 2;
    uint32_t status = cvec_vector_create(&vector, argv[1], CVEC_U64, &(cvec_options){.version = 1, .seats = (uint16_t)count});
    require(status == CVEC_EXISTS ? cvec_vector_open(&vector, argv[1], CVEC_U64, &(cvec_options){.seats = (uint16_t)count}) : status);
    if (pthread_create(&flusher, NULL, flush, vector) != 0) return 1;
    for (uint64_t k = 0; k < count; k++) {
        writers[k] = (struct writer){NULL, round, k, turns};
        require(cvec_seat_take(vector, &writers[k].seat));
        if (pthread_create(&threads[k], NULL, run, &writers[k]) != 0) return 1;
    }
    for (uint64_t k = 0; k < count; k++) {
        pthread_join(threads[k], NULL);
        require(cvec_seat_close(&writers[k].seat));
    }
    require(cvec_vector_stop_flusher(vector));
    pthread_join(flusher, NULL);
    require(cvec_vector_close(&vector));
    return 0;
}
