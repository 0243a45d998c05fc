/* Seats that are borrowed, each behaviour by its name: ./borrowed NAME FILE. The status is 0 where the behaviour is as it is promised;
 * else a line says what isn't. */
#include "beside.h"

/* An idle one holds up nobody: it is closed for who takes a seat. One that is lent counts. */
static void beside_takes(const char *path) {
    const uint64_t over = 7;
    cvec_seat *first = NULL, *second = NULL, *none = NULL;
    uint64_t number = 9;
    make(path, 2);
    HOLDS(grow(0, &number) == CVEC_DONE);
    borrow(&first);
    HOLDS(cvec_seat_take(vector, &none) == CVEC_NOT_SO && none == NULL);
    HOLDS(cvec_seat_take_within(vector, 20, &none) == CVEC_LATE && cvec_seat_borrow(vector, 20, &none) == CVEC_LATE && none == NULL);
    HOLDS(cvec_seat_grow_u64(first, &over, 1, NULL) == CVEC_DONE && cvec_vector_change_u64(vector, 0, &over, 1) == CVEC_DONE);
    HOLDS(cvec_vector_close(&vector) == CVEC_BUSY && cvec_seat_return(&first) == CVEC_DONE && first == NULL);
    HOLDS(cvec_seat_return(&first) == CVEC_NOT_SO && cvec_seat_return(&seat) == CVEC_NOT_SO && seat != NULL);
    HOLDS(cvec_vector_fold(vector) == CVEC_DONE && cvec_seat_take_within(vector, 0, &second) == CVEC_DONE);
    HOLDS(cvec_seat_borrow(vector, 0, &first) == CVEC_LATE && first == NULL);
    HOLDS(cvec_seat_close(&second) == CVEC_DONE);
    for (int k = 0; k < 100; k++) {
        borrow(&first);
        second = first;
        HOLDS(cvec_seat_size(first, &number) == CVEC_DONE && number == 2 && cvec_seat_return(&first) == CVEC_DONE);
        borrow(&first);
        HOLDS(first == second && cvec_seat_return(&first) == CVEC_DONE); /* the one that this thread had */
    }
    HOLDS(cvec_vector_close(&vector) == CVEC_BUSY && cvec_seat_close(&seat) == CVEC_DONE);
    borrow(&first);
    HOLDS(cvec_vector_close(&vector) == CVEC_BUSY && cvec_seat_return(&first) == CVEC_DONE);
    /* An idle one is no reason not to close. */
    HOLDS(cvec_vector_close(&vector) == CVEC_DONE);
}

static void *run_take(void *taken) {
    HOLDS(cvec_seat_take_within(vector, 30000, taken) == CVEC_DONE);
    return NULL;
}

/* Of two that are idle one is for who comes, though another is in line, and was called. */
static void idle_beside_line(const char *path) {
    pthread_t thread;
    cvec_seat *one = NULL, *two = NULL, *waited = NULL;
    make(path, 2);
    HOLDS(cvec_seat_close(&seat) == CVEC_DONE);
    borrow(&one);
    borrow(&two);
    __atomic_store_n(&is_drowsy, 1, __ATOMIC_SEQ_CST);
    pthread_create(&thread, NULL, run_take, &waited);
    while (__atomic_load_n(&vector->queued, __ATOMIC_SEQ_CST) == 0) nap();
    pthread_mutex_lock(&vector->mutex); /* who is in line looks later */
    __atomic_store_n(&one->slot->state, IDLE, __ATOMIC_SEQ_CST);
    __atomic_store_n(&two->slot->state, IDLE, __ATOMIC_SEQ_CST);
    HOLDS(is_one_spare(vector) && find_own(vector, &seat) == CVEC_DONE && !is_one_spare(vector));
    pthread_mutex_unlock(&vector->mutex);
    pthread_join(thread, NULL);
    HOLDS(waited != NULL && cvec_seat_close(&waited) == CVEC_DONE && cvec_seat_close(&seat) == CVEC_DONE);
    HOLDS(cvec_vector_close(&vector) == CVEC_DONE);
}

/* Given back it keeps nothing: what was pushed is grown, and its block is no more. */
static void keeps_nothing(const char *path) {
    const uint64_t pushed[] = {0, 1, 2};
    cvec_seat *own = NULL;
    const void *waiting = NULL;
    void *block = NULL;
    size_t count = 9;
    make(path, 1);
    HOLDS(cvec_seat_close(&seat) == CVEC_DONE);
    borrow(&own);
    for (int k = 0; k < 3; k++) HOLDS(cvec_seat_push(own, vector->type, &pushed[k]) == CVEC_DONE);
    HOLDS(cvec_seat_block(own, 2, &block) == CVEC_DONE);
    own->busy = true; /* as another thread inside a call leaves it */
    HOLDS(cvec_seat_return(&own) == CVEC_BUSY && own != NULL);
    own->busy = false;
    HOLDS(cvec_seat_return(&own) == CVEC_DONE);
    borrow(&own);
    HOLDS(cvec_seat_waiting(own, &waiting, &count) == CVEC_DONE && count == 0);
    HOLDS(cvec_seat_publish(own, NULL) == CVEC_NOT_SO && cvec_seat_flush(own, NULL) == CVEC_EMPTY);
    HOLDS(cvec_seat_return(&own) == CVEC_DONE && cvec_vector_close(&vector) == CVEC_DONE && found(path) == 3);
}

/* More threads than seats, of which two are taken and closed all the while. No two have one seat. */
enum { BORROWERS = 24, TURNS_OF_ONE = 400 };

static void *run_borrower(void *name) {
    cvec_seat *own = NULL;
    for (uint64_t k = 0; k < TURNS_OF_ONE && !wrong; k++) {
        const uint64_t record = (uint64_t)(uintptr_t)name * TURNS_OF_ONE + k;
        borrow(&own);
        HOLDS(cvec_seat_grow_u64(own, &record, 1, NULL) == CVEC_DONE);
        if (k % 50 == 0) HOLDS(cvec_vector_settle(vector, CVEC_NO_LIMIT) == CVEC_DONE);
        HOLDS(cvec_seat_return(&own) == CVEC_DONE);
    }
    return NULL;
}

static void more_threads(const char *path) {
    static uint64_t there[BORROWERS * TURNS_OF_ONE + 1];
    static int times[BORROWERS * TURNS_OF_ONE];
    pthread_t threads[BORROWERS], takers[2];
    uint64_t takes[2] = {0, 0}, count = 0;
    make(path, 4);
    HOLDS(cvec_seat_close(&seat) == CVEC_DONE);
    for (uintptr_t k = 0; k < BORROWERS; k++) pthread_create(&threads[k], NULL, run_borrower, (void *)k);
    for (int k = 0; k < 2; k++) pthread_create(&takers[k], NULL, run_taker, &takes[k]);
    for (int k = 0; k < BORROWERS; k++) pthread_join(threads[k], NULL);
    __atomic_store_n(&is_enough, 1, __ATOMIC_SEQ_CST);
    for (int k = 0; k < 2; k++) pthread_join(takers[k], NULL);
    HOLDS(takes[0] > 0 && takes[1] > 0);
    HOLDS(cvec_vector_close(&vector) == CVEC_DONE && cvec_vector_open(&vector, path, CVEC_U64, &(cvec_options){.seats = 1}) == CVEC_DONE);
    take(&seat);
    HOLDS(cvec_seat_read_u64(seat, 0, there, sizeof there / sizeof *there, &count) == CVEC_DONE && count == BORROWERS * TURNS_OF_ONE);
    for (uint64_t k = 0; k < count; k++) HOLDS(there[k] < BORROWERS * TURNS_OF_ONE && times[there[k]]++ == 0);
    HOLDS(cvec_seat_close(&seat) == CVEC_DONE && cvec_vector_close(&vector) == CVEC_DONE);
}

/* Nobody has a seat that another has borrowed, though there is one seat fewer than threads, so that they meet. */
enum { MEETINGS = 30000 };
static uint32_t borrowers_of[MOST_SEATS];

static void *run_meeting(void *unused) {
    cvec_seat *own = NULL;
    for (int k = 0; k < MEETINGS && !wrong; k++) {
        borrow(&own);
        uint32_t *mine = &borrowers_of[own->slot - vector->slots];
        HOLDS(__atomic_add_fetch(mine, 1, __ATOMIC_SEQ_CST) == 1);
        __atomic_sub_fetch(mine, 1, __ATOMIC_SEQ_CST);
        HOLDS(cvec_seat_return(&own) == CVEC_DONE);
    }
    return unused;
}

static void one_each(const char *path) {
    pthread_t threads[4];
    make(path, 3);
    HOLDS(cvec_seat_close(&seat) == CVEC_DONE);
    for (int k = 0; k < 4; k++) pthread_create(&threads[k], NULL, run_meeting, NULL);
    for (int k = 0; k < 4; k++) pthread_join(threads[k], NULL);
    HOLDS(cvec_vector_close(&vector) == CVEC_DONE);
}

/* Who has waited long has the seat that is given back, though another borrows it again at once. */
static uint32_t turns_of_other, is_with_other;

static void *run_often(void *unused) {
    cvec_seat *own = NULL;
    for (; !seen(&is_enough) && !wrong; __atomic_add_fetch(&turns_of_other, 1, __ATOMIC_SEQ_CST)) {
        borrow(&own);
        __atomic_store_n(&is_with_other, 1, __ATOMIC_SEQ_CST);
        naps_for(3);
        __atomic_store_n(&is_with_other, 0, __ATOMIC_SEQ_CST);
        HOLDS(cvec_seat_return(&own) == CVEC_DONE);
    }
    return unused;
}

static void waits_in_line(const char *path) {
    pthread_t thread;
    cvec_seat *own = NULL;
    uint32_t passed = 0;
    make(path, 1);
    HOLDS(cvec_seat_close(&seat) == CVEC_DONE);
    __atomic_store_n(&is_drowsy, 1, __ATOMIC_SEQ_CST); /* so that the other would be there first */
    pthread_create(&thread, NULL, run_often, NULL);
    for (int k = 0; k < 20; k++) {
        while (!seen(&is_with_other)) nap();
        const uint32_t before = seen(&turns_of_other);
        HOLDS((k % 2 == 0 ? cvec_seat_borrow(vector, 20000, &own) : cvec_seat_take_within(vector, 20000, &own)) == CVEC_DONE && own != NULL);
        if (own == NULL) exit(1);
        passed += seen(&turns_of_other) - before;
        HOLDS((k % 2 == 0 ? cvec_seat_return(&own) : cvec_seat_close(&own)) == CVEC_DONE);
    }
    __atomic_store_n(&is_enough, 1, __ATOMIC_SEQ_CST);
    pthread_join(thread, NULL);
    HOLDS(passed < 50 && cvec_vector_close(&vector) == CVEC_DONE);
}

/* Memory that is refused for the first seat is a refusal; for a further one it has others wait for those that there are. */
static void borrow_memory(const char *path) {
    cvec_seat *first = NULL, *second = NULL;
    make(path, 3);
    HOLDS(cvec_seat_close(&seat) == CVEC_DONE && cvec_vector_compact(vector) == CVEC_DONE);
    requests = 0;
    HOLDS(cvec_seat_borrow(vector, 0, &first) == CVEC_MEMORY && first == NULL && requests == -1);
    borrow(&first);
    requests = 0;
    const uint32_t answer = cvec_seat_borrow(vector, 0, &second); /* it looks once more */
    HOLDS(requests == -1 && answer == (second == NULL ? CVEC_LATE : CVEC_DONE));
    if (second == NULL) borrow(&second);
    HOLDS(first != second && cvec_seat_return(&first) == CVEC_DONE && cvec_seat_return(&second) == CVEC_DONE);
    HOLDS(cvec_vector_close(&vector) == CVEC_DONE && found(path) == 0);
}

/* A block leaves its seat to others, and is published by any. */
static void detached(const char *path) {
    cvec_seat *own = NULL;
    cvec_block block = {NULL, NULL, 0}, second = {NULL, NULL, 0};
    void *records = NULL;
    uint64_t number = 9;
    make(path, 1);
    HOLDS(cvec_seat_close(&seat) == CVEC_DONE);
    borrow(&own);
    HOLDS(cvec_seat_detach(own, &block) == CVEC_NOT_SO && cvec_seat_attach(own, &block) == CVEC_NOT_SO);
    HOLDS(cvec_seat_block(own, 1, &records) == CVEC_DONE && cvec_seat_detach(own, &block) == CVEC_DONE && block.records == records);
    HOLDS(cvec_seat_block(own, 1, &records) == CVEC_DONE && cvec_seat_attach(own, &block) == CVEC_NOT_SO && block.at != NULL);
    HOLDS(cvec_seat_detach(own, &second) == CVEC_DONE && cvec_seat_return(&own) == CVEC_DONE);
    *(uint64_t *)block.records = 1;
    take(&seat);
    HOLDS(grow(0, &number) == CVEC_DONE && cvec_vector_compact(vector) == CVEC_DONE);
    HOLDS(cvec_seat_attach(seat, &block) == CVEC_DONE && block.at == NULL && cvec_seat_publish(seat, NULL) == CVEC_DONE);
    HOLDS(cvec_seat_close(&seat) == CVEC_DONE && cvec_vector_close(&vector) == CVEC_DONE);
    *(uint64_t *)second.records = 7;
    cvec_block_drop(&second);
    cvec_block_drop(&second);
    HOLDS(second.at == NULL && found(path) == 2);
}

/* ---- a wait by a seat that is borrowed */

/* Both seats are borrowed by calls that wait for the device: a third thread grows by one of them meanwhile, and each has its own again. */
static void settle_lends(const char *path) {
    struct settling first, second;
    cvec_seat *one = NULL, *two = NULL, *third = NULL;
    const uint64_t records[] = {0, 1, 2};
    uint64_t size = 9;
    make(path, 2);
    HOLDS(cvec_seat_close(&seat) == CVEC_DONE);
    borrow(&one);
    borrow(&two);
    HOLDS(cvec_seat_grow_u64(one, &records[0], 1, NULL) == CVEC_DONE && cvec_seat_grow_u64(two, &records[1], 1, NULL) == CVEC_DONE);
    shut_gate(1);
    begin_settle(&first, one, CVEC_NO_LIMIT);
    until_held();
    begin_settle(&second, two, CVEC_NO_LIMIT);
    for (int k = 0; k < 3; k++) {
        HOLDS(cvec_seat_borrow(vector, 10000, &third) == CVEC_DONE && (third == one || third == two));
        if (third == NULL) exit(1);
        if (k == 0) HOLDS(cvec_seat_grow_u64(third, &records[2], 1, NULL) == CVEC_DONE);
        if (k < 2) HOLDS(cvec_seat_return(&third) == CVEC_DONE);
    }
    HOLDS(holds() == 1 && seen(&first.answer) == CVEC_BUSY && seen(&second.answer) == CVEC_BUSY);
    shut_gate(0);
    naps_for(20);
    HOLDS(seen(third == one ? &first.answer : &second.answer) == CVEC_BUSY); /* until it is given back */
    HOLDS(cvec_seat_return(&third) == CVEC_DONE);
    pthread_join(first.thread, NULL);
    pthread_join(second.thread, NULL);
    HOLDS(first.answer == CVEC_DONE && second.answer == CVEC_DONE && cvec_seat_borrow(vector, 0, &third) == CVEC_LATE);
    HOLDS(cvec_seat_size(one, &size) == CVEC_DONE && size == 3 && cvec_seat_size(two, &size) == CVEC_DONE);
    HOLDS(cvec_seat_return(&one) == CVEC_DONE && cvec_seat_return(&two) == CVEC_DONE && cvec_vector_close(&vector) == CVEC_DONE);
    HOLDS(found(path) == 3);
}

/* Who has it meanwhile may wait too: who lent it first has it back then, before all who come. */
static void settle_lends_twice(const char *path) {
    struct settling first, second;
    cvec_seat *one = NULL, *third = NULL, *none = NULL;
    const uint64_t record = 5;
    uint64_t count = 9;
    make(path, 1);
    HOLDS(cvec_seat_close(&seat) == CVEC_DONE);
    borrow(&one);
    HOLDS(cvec_seat_grow_u64(one, &record, 1, NULL) == CVEC_DONE);
    shut_gate(1);
    begin_settle(&first, one, CVEC_NO_LIMIT);
    until_held();
    borrow(&third);
    HOLDS(third == one && cvec_seat_grow_u64(third, &record, 1, NULL) == CVEC_DONE);
    shut_gate(0);
    do HOLDS(cvec_vector_settled(vector, &count) == CVEC_DONE);
    while (count == 0);
    naps_for(5);
    HOLDS(seen(&first.answer) == CVEC_BUSY);
    shut_gate(1);
    begin_settle_of(&second, third, 1, CVEC_NO_LIMIT);
    pthread_join(first.thread, NULL); /* while the second one waits for the device */
    HOLDS(first.answer == CVEC_DONE && seen(&second.answer) == CVEC_BUSY && cvec_seat_borrow(vector, 20, &none) == CVEC_LATE);
    HOLDS(cvec_seat_return(&one) == CVEC_DONE);
    shut_gate(0);
    pthread_join(second.thread, NULL);
    HOLDS(second.answer == CVEC_DONE && cvec_seat_return(&third) == CVEC_DONE && cvec_vector_close(&vector) == CVEC_DONE);
}

/* One that keeps something isn't lent. */
static void settle_keeps(const char *path) {
    struct settling first;
    cvec_seat *one = NULL, *none = NULL;
    const uint64_t records[] = {0, 1};
    make(path, 1);
    HOLDS(cvec_seat_close(&seat) == CVEC_DONE);
    borrow(&one);
    HOLDS(cvec_seat_grow_u64(one, &records[0], 1, NULL) == CVEC_DONE && cvec_seat_push(one, vector->type, &records[1]) == CVEC_DONE);
    shut_gate(1);
    begin_settle(&first, one, CVEC_NO_LIMIT);
    until_held();
    HOLDS(cvec_seat_borrow(vector, 20, &none) == CVEC_LATE && none == NULL);
    shut_gate(0);
    pthread_join(first.thread, NULL);
    HOLDS(first.answer == CVEC_DONE && cvec_seat_return(&one) == CVEC_DONE && cvec_vector_close(&vector) == CVEC_DONE && found(path) == 2);
}

/* ---- an end beside calls */

static void *run_until_ended(void *count) {
    cvec_seat *own = NULL;
    uint32_t answer = CVEC_DONE;
    while (answer == CVEC_DONE) {
        const uint64_t record = 5;
        answer = cvec_seat_borrow(vector, CVEC_NO_LIMIT, &own);
        if (answer != CVEC_DONE) break;
        HOLDS(cvec_seat_grow_u64(own, &record, 1, NULL) == CVEC_DONE && cvec_seat_return(&own) == CVEC_DONE);
        ++*(uint64_t *)count;
        if (*(uint64_t *)count % 64 == 0) answer = cvec_vector_settle(vector, CVEC_NO_LIMIT);
    }
    HOLDS(answer == CVEC_NOT_SO && own == NULL);
    return NULL;
}

static void *run_end(void *answer) {
    __atomic_store_n((uint32_t *)answer, cvec_vector_end(vector), __ATOMIC_SEQ_CST);
    return NULL;
}

/* A close beside an end that waits for a seat is refused. */
static void closes_beside_end(const char *path) {
    pthread_t thread;
    cvec_seat *own = NULL, *none = NULL;
    uint32_t answer = CVEC_BUSY;
    make(path, 2);
    HOLDS(cvec_seat_close(&seat) == CVEC_DONE);
    borrow(&own);
    pthread_create(&thread, NULL, run_end, &answer);
    while (cvec_seat_borrow(vector, 0, &none) != CVEC_NOT_SO) HOLDS(cvec_seat_return(&none) == CVEC_DONE);
    HOLDS(cvec_vector_close(&vector) == CVEC_BUSY && vector != NULL && seen(&answer) == CVEC_BUSY);
    if (vector == NULL) exit(1);
    HOLDS(cvec_seat_return(&own) == CVEC_DONE);
    pthread_join(thread, NULL);
    HOLDS(answer == CVEC_DONE && cvec_vector_close(&vector) == CVEC_DONE);
}

/* It waits for seats that are borrowed, and all that was grown is durable. Later calls are refused; of the end, a seat of a caller's
 * own and a hold are. */
static void ends(const char *path) {
    enum { THREADS = 8 };
    pthread_t threads[THREADS];
    uint64_t counts[THREADS] = {0}, all = 0, size = 9;
    cvec_seat *none = NULL;
    make(path, 3);
    HOLDS(cvec_vector_end(vector) == CVEC_BUSY && cvec_seat_close(&seat) == CVEC_DONE);
    HOLDS(cvec_vector_hold(vector) == CVEC_DONE && cvec_vector_end(vector) == CVEC_BUSY && cvec_vector_release(vector) == CVEC_DONE);
    HOLDS(cvec_vector_start_flusher(vector, 1) == CVEC_DONE);
    for (int k = 0; k < THREADS; k++) pthread_create(&threads[k], NULL, run_until_ended, &counts[k]);
    naps_for(100);
    HOLDS(cvec_vector_end(vector) == CVEC_DONE && cvec_vector_end(vector) == CVEC_NOT_SO);
    for (int k = 0; k < THREADS; k++) pthread_join(threads[k], NULL);
    for (int k = 0; k < THREADS; k++) all += counts[k];
    HOLDS(cvec_seat_take(vector, &none) == CVEC_NOT_SO && cvec_seat_take_within(vector, 20, &none) == CVEC_NOT_SO && none == NULL);
    HOLDS(cvec_seat_borrow(vector, 20, &none) == CVEC_NOT_SO && cvec_vector_hold(vector) == CVEC_NOT_SO);
    HOLDS(cvec_vector_settle(vector, 0) == CVEC_NOT_SO && cvec_vector_settled(vector, &size) == CVEC_NOT_SO);
    HOLDS(cvec_vector_compact(vector) == CVEC_NOT_SO && cvec_vector_start_flusher(vector, 1) == CVEC_NOT_SO);
    HOLDS(cvec_vector_run_flusher(vector, 1) == CVEC_NOT_SO && cvec_vector_flush(vector) == CVEC_NOT_SO);
    HOLDS(cvec_vector_stop_flusher(vector) == CVEC_NOT_SO);
    HOLDS(cvec_vector_close(&vector) == CVEC_DONE && cvec_vector_open(&vector, path, CVEC_U64, &(cvec_options){.seats = 1}) == CVEC_DONE);
    take(&seat);
    HOLDS(all > 0 && cvec_seat_size(seat, &size) == CVEC_DONE && size == all);
    HOLDS(cvec_seat_close(&seat) == CVEC_DONE && cvec_vector_close(&vector) == CVEC_DONE);
}

int main(int argc, char **argv) {
    static const struct {
        const char *name;
        void (*run)(const char *);
    } behaviours[] = {{"beside_takes", beside_takes},
                      {"keeps_nothing", keeps_nothing},
                      {"more_threads", more_threads},
                      {"one_each", one_each},
                      {"waits_in_line", waits_in_line},
                      {"borrow_memory", borrow_memory},
                      {"detached", detached},
                      {"settle_lends", settle_lends},
                      {"settle_lends_twice", settle_lends_twice},
                      {"settle_keeps", settle_keeps},
                      {"idle_beside_line", idle_beside_line},
                      {"closes_beside_end", closes_beside_end},
                      {"ends", ends}};
    if (argc != 3) return 2;
    for (size_t k = 0; k < sizeof behaviours / sizeof *behaviours; k++)
        if (strcmp(argv[1], behaviours[k].name) == 0) {
            behaviours[k].run(argv[2]);
            return wrong;
        }
    return 2;
}
