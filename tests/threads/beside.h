/* For tests of calls of the whole vector beside seats, and of seats that are borrowed. */
#pragma GCC diagnostic ignored "-Wunused-function"
#include "held.h"

static uint64_t milliseconds_now(void) {
    struct timespec now;
    clock_gettime(CLOCK_MONOTONIC, &now);
    return (uint64_t)now.tv_sec * 1000 + (uint64_t)now.tv_nsec / 1000000;
}

static uint32_t seen(const uint32_t *answer) { return __atomic_load_n(answer, __ATOMIC_SEQ_CST); }

static void naps_for(int milliseconds) {
    for (int k = 0; k < milliseconds; k++) nap();
}

static void take(cvec_seat **taken) {
    HOLDS(cvec_seat_take(vector, taken) == CVEC_DONE && *taken != NULL);
    if (*taken == NULL) exit(1);
}

static void borrow(cvec_seat **taken) {
    HOLDS(cvec_seat_borrow(vector, 20000, taken) == CVEC_DONE && *taken != NULL);
    if (*taken == NULL) exit(1);
}

/* Threads go on until it is set. */
static uint32_t is_enough;

/* Takes and closes seats, and counts how often. */
static void *run_taker(void *count) {
    cvec_seat *own = NULL;
    for (; !seen(&is_enough) && !wrong; ++*(uint64_t *)count) {
        HOLDS(cvec_seat_take_within(vector, 30000, &own) == CVEC_DONE);
        if (own != NULL) HOLDS(cvec_seat_close(&own) == CVEC_DONE);
    }
    return NULL;
}

/* ---- threads that settle */

struct settling {
    pthread_t thread;
    cvec_seat *seat; /* or NULL: without one */
    uint64_t milliseconds, waited;
    uint64_t number; /* of the growth that it waits for, by a seat */
    uint32_t answer;
};

static void *run_settle(void *work) {
    struct settling *its = work;
    const uint64_t begun = milliseconds_now();
    const uint32_t answer =
        its->seat == NULL ? cvec_vector_settle(vector, its->milliseconds) : cvec_seat_settle(its->seat, its->number, its->milliseconds);
    its->waited = milliseconds_now() - begun;
    __atomic_store_n(&its->answer, answer, __ATOMIC_SEQ_CST);
    return NULL;
}

static void begin_settle_of(struct settling *its, cvec_seat *own, uint64_t number, uint64_t milliseconds) {
    its->seat = own;
    its->number = number;
    its->milliseconds = milliseconds;
    its->answer = CVEC_BUSY;
    pthread_create(&its->thread, NULL, run_settle, its);
}

/* Of the first growth. */
static void begin_settle(struct settling *its, cvec_seat *own, uint64_t milliseconds) { begin_settle_of(its, own, 0, milliseconds); }
