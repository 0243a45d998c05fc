/* Threads that grow one vector: each grows by blocks of its own, waits until they are durable, and reads them back.
 * ./use_vector FILE THREADS GROWTHS */
#include "cvec.h"

#include <inttypes.h>
#include <pthread.h>
#include <stdio.h>
#include <stdlib.h>

enum { BLOCK = 3, MOST_THREADS = 64 };

struct job {
    cvec_seat *seat;
    pthread_t thread;
    uint64_t name, growths;
    uint32_t status;
};

/* Grows by one block, and waits until it is durable. */
static uint32_t grow_once(struct job *job, uint64_t turn) {
    const uint64_t block[BLOCK] = {job->name, turn, job->name + turn};
    uint64_t back[BLOCK], count = 0;
    cvec_receipt receipt;
    uint32_t status = cvec_seat_grow_u64(job->seat, block, BLOCK, &receipt);
    if (status == CVEC_DONE) status = cvec_seat_settle(job->seat, receipt.number, CVEC_NO_LIMIT);
    if (status == CVEC_DONE) status = cvec_seat_read_u64(job->seat, receipt.start, back, BLOCK, &count);
    if (status != CVEC_DONE) return status;
    return count == BLOCK && back[0] == block[0] && back[1] == block[1] && back[2] == block[2] ? CVEC_DONE : CVEC_DAMAGED;
}

static void *run(void *work) {
    struct job *job = work;
    for (uint64_t turn = 0; turn < job->growths && job->status == CVEC_DONE; turn++) job->status = grow_once(job, turn);
    return NULL;
}

/* With a seat and a thread of its own. CVEC_MEMORY: the system makes no more threads. */
static uint32_t begin(struct job *job, cvec_vector *vector) {
    uint32_t status = cvec_seat_take(vector, &job->seat);
    if (status != CVEC_DONE || pthread_create(&job->thread, NULL, run, job) == 0) return status;
    cvec_seat_close(&job->seat);
    return CVEC_MEMORY;
}

static uint32_t end(struct job *job) {
    pthread_join(job->thread, NULL);
    uint32_t closed = cvec_seat_close(&job->seat);
    return job->status != CVEC_DONE ? job->status : closed;
}

/* Runs the threads to their ends, as many as have begun, and answers the first refusal. */
static uint32_t run_all(cvec_vector *vector, unsigned threads, uint64_t growths) {
    static struct job jobs[MOST_THREADS];
    uint32_t status = CVEC_DONE;
    unsigned begun = 0;
    for (unsigned k = 0; k < threads && status == CVEC_DONE; k++) {
        jobs[k].name = k;
        jobs[k].growths = growths;
        status = begin(&jobs[k], vector);
        if (status == CVEC_DONE) begun++;
    }
    for (unsigned k = 0; k < begun; k++) {
        uint32_t ended = end(&jobs[k]);
        if (status == CVEC_DONE) status = ended;
    }
    return status;
}

int main(int argc, char **argv) {
    cvec_vector *vector;
    if (argc != 4) return 2;
    unsigned threads = (unsigned)atoi(argv[2]);
    if (threads == 0 || threads > MOST_THREADS) return 2;
    uint32_t status = cvec_vector_create(&vector, argv[1], CVEC_U64, &(cvec_options){.version = 1, .seats = (uint16_t)threads}); /* cvec_vector_open: a file that is there */
    if (status == CVEC_EXISTS) status = cvec_vector_open(&vector, argv[1], CVEC_U64, &(cvec_options){.seats = (uint16_t)threads});
    if (status == CVEC_DONE) {
        status = run_all(vector, threads, strtoull(argv[3], NULL, 10));
        uint32_t closed = cvec_vector_close(&vector);
        if (status == CVEC_DONE) status = closed;
    }
    printf("%" PRIu32 "\n", status);
    return status == CVEC_DONE ? 0 : 1;
}
