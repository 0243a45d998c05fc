/* A pool of threads that finds how many steps each number takes to come to 1 (halved where it is even, else tripled and one more):
 * pool RESULTS COUNT. Each result is durable within a hundred of its thread's. Begun again, it does what isn't there. */
#include "example.h"

#include <inttypes.h>

enum { THREADS = 4 };

/* A result is a record of pair: a number, and its steps. */
struct pool {
    cvec_vector *results;
    bool *done; /* of each number to `last` */
    uint64_t last, next;
    pthread_mutex_t mutex; /* guards `next` */
};

static int64_t steps_of(uint64_t number) {
    int64_t steps = 0;
    for (; number != 1; steps++) number = number % 2 == 0 ? number / 2 : 3 * number + 1;
    return steps;
}

/* The next number that isn't done, or one past the last. */
static uint64_t take_number(struct pool *pool) {
    pthread_mutex_lock(&pool->mutex);
    while (pool->next <= pool->last && pool->done[pool->next]) pool->next++;
    const uint64_t number = pool->next++;
    pthread_mutex_unlock(&pool->mutex);
    return number;
}

static void *work(void *shared) {
    struct pool *pool = shared;
    uint64_t mine = 0, number;
    cvec_seat *seat;
    cvec_receipt receipt;
    require(cvec_seat_take(pool->results, &seat));
    while ((number = take_number(pool)) <= pool->last) {
        const cvec_pair result = {number, steps_of(number)};
        require(cvec_seat_grow_pair(seat, &result, 1, &receipt));
        if (++mine % 100 == 0) require(cvec_seat_settle(seat, receipt.number, CVEC_NO_LIMIT));
    }
    require(cvec_seat_close(&seat));
    return NULL;
}

/* Notes which numbers are done, and answers how many results there are. */
static uint64_t find_done(struct pool *pool) {
    uint64_t count;
    cvec_pair *found = read_all(pool->results, CVEC_PAIR, sizeof *found, &count);
    pool->done = calloc((size_t)pool->last + 1, sizeof *pool->done);
    if (pool->done == NULL) require(CVEC_MEMORY);
    for (uint64_t k = 0; k < count; k++)
        if (found[k].key <= pool->last) pool->done[found[k].key] = true;
    free(found);
    return count;
}

int main(int argc, char **argv) {
    pthread_t threads[THREADS];
    uint64_t count;
    int64_t sum = 0;
    if (argc != 3) return 2;
    cvec_vector *results = open_or_create(argv[1], CVEC_PAIR, THREADS + 1);
    struct pool pool = {results, NULL, strtoull(argv[2], NULL, 10), 1, PTHREAD_MUTEX_INITIALIZER};
    printf("found %" PRIu64 " results\n", find_done(&pool));
    fflush(stdout);
    for (int k = 0; k < THREADS; k++) begin(&threads[k], work, &pool);
    for (int k = 0; k < THREADS; k++) pthread_join(threads[k], NULL);
    cvec_pair *all = read_all(results, CVEC_PAIR, sizeof *all, &count);
    require(cvec_vector_close(&results)); /* commits what nobody has awaited */
    for (uint64_t k = 0; k < count; k++) sum += all[k].value;
    printf("%" PRIu64 " results, %" PRId64 " steps in all\n", count, sum);
    free(all);
    free(pool.done);
    return 0;
}
