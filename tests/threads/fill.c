/* Threads that fill phases: ./fill FILE THREADS GROWTHS ROOM [told]
 *
 * They make a file of u32, and grow it by so many growths of one record each, in phases of ROOM. Each record has the name of its
 * thread and how many that one grew before. Beside them a thread reads, one asks for the whole vector, and a flusher commits. The
 * vector is closed, opened and read: the line that is printed says what is there. `told`: no flusher; each thread prints its name and
 * how many of its growths are settled, right behind the first ones, and as its last ones are. */
#define _POSIX_C_SOURCE 200809L
#include "cvec.h"

#include <pthread.h>
#include <stdio.h>
#include <stdlib.h>
#include <time.h>
#include <unistd.h>

enum { MOST_THREADS = 16, NAME_PLACE = 24, FIRST_TOLD = 1000, BETWEEN_WAITS = 10000 };

static cvec_vector *vector;
static uint64_t each;
static int is_told, ends;

static void require(int is_so, const char *what) {
    if (is_so) return;
    fprintf(stderr, "not so: %s\n", what);
    _exit(1);
}
#define REQUIRE(claim) require(claim, #claim)

/* One call of the system: it is out when it returns. */
static void tell(uint32_t name, uint64_t settled) {
    char line[64];
    const int len = snprintf(line, sizeof line, "%u %u\n", (unsigned)name, (unsigned)settled);
    REQUIRE(write(STDOUT_FILENO, line, (size_t)len) == len);
}

static void grow_one(cvec_seat *seat, uint32_t name, uint64_t turn) {
    const uint32_t record = name << NAME_PLACE | (uint32_t)turn;
    cvec_receipt receipt;
    REQUIRE(cvec_seat_grow(seat, CVEC_U32, &record, 1, &receipt) == CVEC_DONE);
    REQUIRE(receipt.number == receipt.start && receipt.len == 1 && receipt.serial == turn);
    const int waits = is_told ? turn == FIRST_TOLD || turn + 1 == each : turn % BETWEEN_WAITS == 0;
    if (!waits) return;
    REQUIRE(cvec_seat_settle(seat, receipt.number, CVEC_NO_LIMIT) == CVEC_DONE);
    if (is_told) tell(name, turn + 1);
}

static void *run_grower(void *work) {
    const uint32_t name = (uint32_t)(uintptr_t)work;
    cvec_seat *seat;
    REQUIRE(cvec_seat_take(vector, &seat) == CVEC_DONE);
    for (uint64_t turn = 0; turn < each; turn++) grow_one(seat, name, turn);
    REQUIRE(cvec_seat_close(&seat) == CVEC_DONE);
    return NULL;
}

static int has_ended(void) { return __atomic_load_n(&ends, __ATOMIC_SEQ_CST); }

/* What it reads never falls, nor does what is settled, and a deadline is kept about so. */
static void *run_reader(void *unused) {
    uint64_t size = 0, durable = 0, now = 0;
    uint32_t record;
    cvec_seat *seat;
    (void)unused;
    REQUIRE(cvec_seat_take(vector, &seat) == CVEC_DONE);
    while (!has_ended()) {
        REQUIRE(cvec_seat_size(seat, &now) == CVEC_DONE && now >= size);
        size = now;
        REQUIRE(size == 0 || cvec_seat_at(seat, CVEC_U32, size - 1, &record) == CVEC_DONE);
        REQUIRE(cvec_seat_settled(seat, &now) == CVEC_DONE && now >= durable);
        durable = now;
        const struct timespec time = {0, 100000};
        nanosleep(&time, NULL);
    }
    REQUIRE(cvec_seat_close(&seat) == CVEC_DONE);
    return NULL;
}

/* Each is refused while the vector is held. */
static void *run_whole(void *unused) {
    const uint32_t record = 0;
    (void)unused;
    while (!has_ended()) {
        REQUIRE(cvec_vector_hold(vector) == CVEC_DONE);
        REQUIRE(cvec_vector_change(vector, CVEC_U32, 0, &record, 1) == CVEC_BUSY);
        REQUIRE(cvec_vector_compact(vector) == CVEC_BUSY);
        REQUIRE(cvec_vector_release(vector) == CVEC_DONE);
        const struct timespec time = {0, 1000000};
        nanosleep(&time, NULL);
    }
    return NULL;
}

static void *run_flusher(void *unused) {
    (void)unused;
    REQUIRE(cvec_vector_run_flusher(vector, 2) == CVEC_DONE);
    return NULL;
}

static void fill(uint32_t threads) {
    pthread_t growers[MOST_THREADS], reader, whole, flusher;
    pthread_create(&reader, NULL, run_reader, NULL);
    const struct timespec time = {0, 20000000};
    nanosleep(&time, NULL); /* the reader has its seat */
    pthread_create(&whole, NULL, run_whole, NULL);
    if (!is_told) pthread_create(&flusher, NULL, run_flusher, NULL);
    for (uint32_t name = 0; name < threads; name++) pthread_create(&growers[name], NULL, run_grower, (void *)(uintptr_t)name);
    for (uint32_t name = 0; name < threads; name++) pthread_join(growers[name], NULL);
    __atomic_store_n(&ends, 1, __ATOMIC_SEQ_CST);
    pthread_join(whole, NULL);
    pthread_join(reader, NULL);
    REQUIRE(cvec_vector_close(&vector) == CVEC_DONE);
    if (!is_told) pthread_join(flusher, NULL);
}

/* The growths of each thread are there in order, and nothing else is. */
static void look(const char *path, uint32_t threads) {
    static uint32_t seen[1 << 16];
    uint64_t next[MOST_THREADS] = {0}, count = 0, from = 0;
    cvec_seat *seat;
    REQUIRE(cvec_vector_open(&vector, path, CVEC_U32, &(cvec_options){.seats = 1}) == CVEC_DONE);
    REQUIRE(cvec_seat_take(vector, &seat) == CVEC_DONE);
    do {
        REQUIRE(cvec_seat_read(seat, CVEC_U32, from, seen, 1 << 16, &count) == CVEC_DONE);
        for (uint64_t k = 0; k < count; k++)
            REQUIRE(seen[k] >> NAME_PLACE < threads && (seen[k] & ((1u << NAME_PLACE) - 1)) == next[seen[k] >> NAME_PLACE]++);
        from += count;
    } while (count > 0);
    for (uint32_t name = 0; name < threads; name++) REQUIRE(next[name] == each);
    printf("%u growths, each there once\n", (unsigned)from);
    REQUIRE(cvec_seat_close(&seat) == CVEC_DONE && cvec_vector_close(&vector) == CVEC_DONE);
}

int main(int argc, char **argv) {
    if (argc < 5) return 2;
    const uint32_t threads = (uint32_t)strtoul(argv[2], NULL, 10);
    if (threads == 0 || threads > MOST_THREADS) return 2;
    const cvec_options options = {2, (uint16_t)(threads + 1), 0, strtoull(argv[4], NULL, 10)};
    each = strtoull(argv[3], NULL, 10) / threads;
    is_told = argc > 5;
    REQUIRE(cvec_vector_create(&vector, argv[1], CVEC_U32, &options) == CVEC_DONE);
    fill(threads);
    look(argv[1], threads);
    return 0;
}
