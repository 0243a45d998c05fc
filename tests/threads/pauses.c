/* Calls of the whole vector beside seats, and what settles without one, each behaviour by its name: ./pauses NAME FILE. The status is
 * 0 where the behaviour is as it is promised; else a line says what isn't. */
#include "beside.h"

static cvec_seat *other;

/* A vector of the records 0, 1 and 2, one growth each, by two seats that are taken. */
static void make_two(const char *path) {
    uint64_t number = 9;
    remove(path);
    make(path, 2);
    take(&other);
    for (uint64_t k = 0; k < 3; k++) HOLDS(grow(k, &number) == CVEC_DONE && number == k);
}

/* The vector has just these, as this seat reads them. */
static void reads_by(cvec_seat *own, const uint64_t *records, uint64_t len) {
    uint64_t there[64], count = 99;
    HOLDS(cvec_seat_size(own, &count) == CVEC_DONE && count == len);
    HOLDS(cvec_seat_read_u64(own, 0, there, 64, &count) == CVEC_DONE && count == len);
    for (uint64_t k = 0; k < len && k < count; k++) HOLDS(there[k] == records[k]);
}

static void close_two(const char *path, const uint64_t *records, uint64_t len) {
    HOLDS(cvec_seat_close(&seat) == CVEC_DONE && cvec_seat_close(&other) == CVEC_DONE);
    HOLDS(cvec_vector_close(&vector) == CVEC_DONE && cvec_vector_open(&vector, path, CVEC_U64, &(cvec_options){.seats = 2}) == CVEC_DONE);
    if (wrong) exit(1);
    take(&seat);
    reads_by(seat, records, len);
    HOLDS(cvec_seat_close(&seat) == CVEC_DONE && cvec_vector_close(&vector) == CVEC_DONE);
}

/* ---- calls of the whole vector beside seats */

/* Both seats go on, and their growths are counted on; a number of before is waited for still. */
static void beside_seats(const char *path) {
    const uint64_t over[] = {7}, changed[] = {7, 1, 2, 3, 4}, last[] = {7, 1, 9};
    uint64_t number = 9, count = 9;
    cvec_receipt receipt = {9, 9, 9, 9, 9};
    make_two(path);
    HOLDS(cvec_vector_change_u64(vector, 0, over, 1) == CVEC_DONE);
    HOLDS(cvec_seat_settle(other, 2, 0) == CVEC_DONE && cvec_seat_settle(other, 3, CVEC_NO_LIMIT) == CVEC_OUT_OF_RANGE);
    HOLDS(grow(3, &number) == CVEC_DONE && number == 3);
    HOLDS(cvec_seat_grow_u64(other, &number, 1, &receipt) == CVEC_DONE && receipt.number == 4 && receipt.serial == 0 && receipt.start == 4);
    HOLDS(cvec_vector_change_u64(vector, 4, &receipt.number, 1) == CVEC_DONE);
    reads_by(seat, changed, 5);
    reads_by(other, changed, 5);
    HOLDS(cvec_seat_settle(seat, 4, CVEC_NO_LIMIT) == CVEC_DONE && cvec_seat_settled(other, &count) == CVEC_DONE && count == 5);
    HOLDS(cvec_vector_resize_u64(vector, 2, 0) == CVEC_UNFOLDED && cvec_vector_fold(vector) == CVEC_DONE);
    HOLDS(cvec_vector_resize_u64(vector, 2, 0) == CVEC_DONE && cvec_vector_compact(vector) == CVEC_DONE);
    HOLDS(grow(9, &number) == CVEC_DONE && number == 5);
    reads_by(other, last, 3);
    close_two(path, last, 3);
}

static void *run_change(void *answer) {
    const uint64_t over = 7;
    __atomic_store_n((uint32_t *)answer, cvec_vector_change_u64(vector, 0, &over, 1), __ATOMIC_SEQ_CST);
    return NULL;
}

static void *run_size(void *answer) {
    uint64_t size = 9;
    const uint32_t told_now = cvec_seat_size(other, &size);
    __atomic_store_n((uint32_t *)answer, told_now == CVEC_DONE && size == 3 ? CVEC_DONE : CVEC_LATE, __ATOMIC_SEQ_CST);
    return NULL;
}

/* It waits for a call by a seat that is under way, and a call that comes then waits for it; who awaits what is durable waits for neither. */
static void waits_for_calls(const char *path) {
    const uint64_t changed[] = {7, 1, 2};
    pthread_t changer, reader_thread;
    uint32_t answer = CVEC_BUSY, read = CVEC_BUSY;
    make_two(path);
    HOLDS(cvec_seat_settle(seat, 2, CVEC_NO_LIMIT) == CVEC_DONE);
    __atomic_store_n(&seat->busy, INSIDE, __ATOMIC_SEQ_CST); /* as a call leaves it that goes on */
    long each = FIRST_NAP;
    for (int k = 0; k < 12; k++) cvec_give_way(&each);
    HOLDS(each < 2 * LONGEST_NAP); /* so soon who waits sees that it has ended, however long it goes on */
    const int before = __atomic_load_n(&writes, __ATOMIC_SEQ_CST);
    pthread_create(&changer, NULL, run_change, &answer);
    while (!__atomic_load_n(&vector->shut, __ATOMIC_SEQ_CST)) nap();
    pthread_create(&reader_thread, NULL, run_size, &read);
    naps_for(50);
    HOLDS(seen(&answer) == CVEC_BUSY && seen(&read) == CVEC_BUSY && __atomic_load_n(&writes, __ATOMIC_SEQ_CST) == before);
    __atomic_store_n(&seat->busy, FREE, __ATOMIC_SEQ_CST);
    HOLDS(cvec_seat_settle(seat, 2, 0) == CVEC_DONE);
    pthread_join(changer, NULL);
    pthread_join(reader_thread, NULL);
    HOLDS(answer == CVEC_DONE && read == CVEC_DONE);
    close_two(path, changed, 3);
}

/* Eight threads grow, and one changes in a loop: each comes in between two changes. */
enum { GROWERS = 8, CHANGES = 400 };
static uint64_t grown_by[GROWERS], long_waits, changes;

static void *run_grower(void *name) {
    const uintptr_t mine = (uintptr_t)name;
    cvec_seat *own = NULL;
    HOLDS(cvec_seat_take_within(vector, 30000, &own) == CVEC_DONE);
    while (!seen(&is_enough) && !wrong) {
        const uint64_t begun = __atomic_load_n(&changes, __ATOMIC_SEQ_CST), record = mine;
        HOLDS(cvec_seat_grow_u64(own, &record, 1, NULL) == CVEC_DONE);
        const uint64_t passed = __atomic_load_n(&changes, __ATOMIC_SEQ_CST) - begun;
        if (passed > 3) __atomic_add_fetch(&long_waits, 1, __ATOMIC_SEQ_CST);
        if (++grown_by[mine] % 4 == 0) nap();
    }
    HOLDS(cvec_seat_close(&own) == CVEC_DONE);
    return NULL;
}

static void nobody_starves(const char *path) {
    pthread_t growers[GROWERS], takers[2];
    uint64_t number = 0, takes[2] = {0, 0};
    const uint64_t over = 5;
    make(path, GROWERS + 2);
    HOLDS(grow(0, &number) == CVEC_DONE);
    for (uintptr_t k = 0; k < GROWERS; k++) pthread_create(&growers[k], NULL, run_grower, (void *)k);
    for (int k = 0; k < 2; k++) pthread_create(&takers[k], NULL, run_taker, &takes[k]);
    for (int k = 0; k < CHANGES && !wrong; k++) {
        HOLDS(cvec_vector_change_u64(vector, 0, &over, 1) == CVEC_DONE);
        __atomic_add_fetch(&changes, 1, __ATOMIC_SEQ_CST);
    }
    __atomic_store_n(&is_enough, 1, __ATOMIC_SEQ_CST);
    for (int k = 0; k < GROWERS; k++) pthread_join(growers[k], NULL);
    for (int k = 0; k < 2; k++) pthread_join(takers[k], NULL);
    /* A growth that waits sees two changes; a few see more, of threads that the system lets wait. */
    for (int k = 0; k < GROWERS; k++) HOLDS(grown_by[k] > CHANGES / 4);
    HOLDS(long_waits < 8 && takes[0] + takes[1] > CHANGES / 8);
    HOLDS(cvec_seat_close(&seat) == CVEC_DONE && cvec_vector_close(&vector) == CVEC_DONE);
}

/* Through each call of the whole vector a seat keeps what was pushed and waits, and its block. */
static void keeps(const char *path) {
    const uint64_t pushed[] = {4, 5}, all[] = {4, 5, 6, 6};
    const void *waiting = NULL;
    void *block = NULL;
    size_t count = 9;
    make_two(path);
    for (int k = 0; k < 2; k++) HOLDS(cvec_seat_push(other, vector->type, &pushed[k]) == CVEC_DONE);
    HOLDS(cvec_seat_block(other, 2, &block) == CVEC_DONE);
    if (wrong) exit(1);
    ((uint64_t *)block)[0] = ((uint64_t *)block)[1] = 6;
    HOLDS(cvec_vector_change_u64(vector, 0, pushed, 1) == CVEC_DONE && cvec_vector_fold(vector) == CVEC_DONE);
    HOLDS(cvec_vector_compact(vector) == CVEC_DONE && cvec_vector_resize_u64(vector, 2, 0) == CVEC_DONE && cvec_vector_clear(vector) == CVEC_DONE);
    HOLDS(cvec_seat_waiting(other, &waiting, &count) == CVEC_DONE && count == 2 && memcmp(waiting, pushed, sizeof pushed) == 0);
    HOLDS(cvec_seat_flush(other, NULL) == CVEC_DONE && ((uint64_t *)block)[1] == 6);
    HOLDS(cvec_seat_publish(other, NULL) == CVEC_DONE);
    close_two(path, all, 4);
}

/* A hold refuses each beside taken seats, which go on; its release lets the next one go. */
static void holds_off(const char *path) {
    const uint64_t changed[] = {7, 1, 2, 3}, over = 7;
    uint64_t number = 9;
    make_two(path);
    HOLDS(cvec_vector_hold(vector) == CVEC_DONE);
    const int before = writes;
    HOLDS(cvec_vector_change_u64(vector, 0, &over, 1) == CVEC_BUSY && cvec_vector_resize_u64(vector, 1, 0) == CVEC_BUSY);
    HOLDS(cvec_vector_clear(vector) == CVEC_BUSY && cvec_vector_fold(vector) == CVEC_BUSY && cvec_vector_compact(vector) == CVEC_BUSY);
    HOLDS(writes == before && grow(3, &number) == CVEC_DONE && cvec_seat_settle(other, number, CVEC_NO_LIMIT) == CVEC_DONE);
    HOLDS(cvec_vector_release(vector) == CVEC_DONE && cvec_vector_change_u64(vector, 0, &over, 1) == CVEC_DONE);
    close_two(path, changed, 4);
}

/* Each request for memory in a change beside seats is refused: it is made again, or the file has all. Whether there was one. */
static int change_lacks(const char *path, int request) {
    const uint64_t changed[] = {7, 1, 2}, over = 7, pushed = 4;
    uint64_t count = 9;
    make_two(path);
    HOLDS(cvec_seat_settle(seat, 2, CVEC_NO_LIMIT) == CVEC_DONE && cvec_seat_push(other, vector->type, &pushed) == CVEC_DONE);
    requests = request;
    uint32_t answer = cvec_vector_change_u64(vector, 0, &over, 1);
    const int was_refused = requests < 0;
    requests = -1;
    HOLDS(answer == CVEC_MEMORY || answer == CVEC_BROKEN || answer == CVEC_DONE);
    if (answer != CVEC_BROKEN) HOLDS(cvec_seat_size(other, &count) == CVEC_DONE && count == 3);
    if (answer == CVEC_MEMORY) answer = cvec_vector_change_u64(vector, 0, &over, 1);
    if (answer == CVEC_DONE) {
        reads_by(seat, changed, 3);
        HOLDS(cvec_seat_flush(other, NULL) == CVEC_DONE);
    }
    cvec_seat_close(&seat);
    cvec_seat_close(&other);
    HOLDS(cvec_vector_close(&vector) == answer);
    HOLDS(cvec_vector_open(&vector, path, CVEC_U64, &(cvec_options){.seats = 2}) == CVEC_DONE);
    take(&seat);
    HOLDS(cvec_seat_size(seat, &count) == CVEC_DONE && count == (answer == CVEC_DONE ? 4 : 3));
    HOLDS(cvec_seat_close(&seat) == CVEC_DONE && cvec_vector_close(&vector) == CVEC_DONE);
    return was_refused;
}

static void change_memory(const char *path) {
    int request = 0;
    while (!wrong && change_lacks(path, request)) request++;
    HOLDS(request > 3);
}

/* ---- settling without a seat */

static void *run_compact(void *answer) {
    __atomic_store_n((uint32_t *)answer, cvec_vector_compact(vector), __ATOMIC_SEQ_CST);
    return NULL;
}

/* Also of seats that are closed. It commits where nobody does; for others' commits it has a deadline. */
static void settles(const char *path) {
    struct settling leader_of_all, late_one;
    uint64_t number = 9, count = 9;
    make(path, 2);
    HOLDS(cvec_vector_settle(vector, 0) == CVEC_DONE && cvec_vector_settled(vector, &count) == CVEC_DONE && count == 0);
    HOLDS(grow(0, &number) == CVEC_DONE && cvec_vector_settle(vector, 0) == CVEC_DONE);
    HOLDS(cvec_vector_settled(vector, &count) == CVEC_DONE && count == 1);
    HOLDS(grow(1, &number) == CVEC_DONE && cvec_seat_close(&seat) == CVEC_DONE);
    shut_gate(1);
    begin_settle(&leader_of_all, NULL, CVEC_NO_LIMIT);
    until_held();
    HOLDS(cvec_vector_settle(vector, 0) == CVEC_LATE && cvec_vector_close(&vector) == CVEC_BUSY);
    begin_settle(&late_one, NULL, 50);
    pthread_join(late_one.thread, NULL);
    HOLDS(late_one.answer == CVEC_LATE && late_one.waited >= 50 && late_one.waited < 5000);
    HOLDS(cvec_vector_settled(vector, &count) == CVEC_DONE && count == 1);
    begin_settle(&late_one, NULL, 60000);
    shut_gate(0);
    pthread_join(leader_of_all.thread, NULL);
    pthread_join(late_one.thread, NULL);
    HOLDS(leader_of_all.answer == CVEC_DONE && late_one.answer == CVEC_DONE && late_one.waited < 30000);
    HOLDS(cvec_vector_settled(vector, &count) == CVEC_DONE && count == 2);
    take(&seat);
    /* Also while another call has the whole vector. */
    pthread_t changer;
    uint32_t answer = CVEC_BUSY;
    const uint64_t zero = 0;
    HOLDS(cvec_vector_change_u64(vector, 0, &zero, 1) == CVEC_DONE && grow(2, &number) == CVEC_DONE);
    shut_gate(1);
    pthread_create(&changer, NULL, run_compact, &answer);
    until_held();
    HOLDS(cvec_vector_settle(vector, 20) == CVEC_LATE && seen(&answer) == CVEC_BUSY);
    shut_gate(0);
    pthread_join(changer, NULL);
    HOLDS(answer == CVEC_DONE && cvec_vector_settled(vector, &count) == CVEC_DONE && count == 3);
    left = 0;
    HOLDS(grow(3, &number) == CVEC_DONE && cvec_vector_settle(vector, CVEC_NO_LIMIT) == CVEC_DISK_WRITE);
    HOLDS(cvec_vector_settle(vector, CVEC_NO_LIMIT) == CVEC_BROKEN && cvec_vector_settle(vector, 0) == CVEC_BROKEN);
    HOLDS(cvec_seat_close(&seat) == CVEC_DONE && cvec_vector_close(&vector) == CVEC_BROKEN && found(path) == 3);
}

/* ---- a thread of the library's own */

static void until_settled(uint64_t count) {
    uint64_t now = 0;
    while (now < count && !wrong) {
        HOLDS(cvec_vector_settled(vector, &now) == CVEC_DONE);
        nap();
    }
}

/* The close ends it, whether it rests for long or not; a stop ends it, and those that begin later. */
static sig_atomic_t volatile has_come;

static void note_signal(int number) {
    (void)number;
    has_come = 1;
}

/* A signal for the process comes to a thread of the caller's, once that takes it, and not to the library's. */
static void leaves_signals(void) {
    sigset_t held_back, before;
    signal(SIGUSR1, note_signal);
    HOLDS(cvec_vector_start_flusher(vector, 1) == CVEC_DONE);
    sigemptyset(&held_back);
    sigaddset(&held_back, SIGUSR1);
    HOLDS(pthread_sigmask(SIG_BLOCK, &held_back, &before) == 0 && !sigismember(&before, SIGUSR1) && kill(getpid(), SIGUSR1) == 0);
    naps_for(20);
    HOLDS(!has_come);
    pthread_sigmask(SIG_SETMASK, &before, NULL);
    HOLDS(has_come);
}

static void own_flusher(const char *path) {
    uint64_t number = 9, count = 9;
    make(path, 1);
    leaves_signals();
    threads_are_refused = 1;
    HOLDS(cvec_vector_start_flusher(vector, 1) == CVEC_MEMORY);
    threads_are_refused = 0;
    HOLDS(cvec_vector_start_flusher(vector, 1) == CVEC_DONE && cvec_vector_start_flusher(vector, 86400000) == CVEC_DONE);
    for (uint64_t k = 0; k < 20; k++) {
        HOLDS(grow(k, &number) == CVEC_DONE);
        until_settled(k + 1);
    }
    HOLDS(cvec_vector_close(&vector) == CVEC_BUSY && grow(20, &number) == CVEC_DONE);
    until_settled(21);
    HOLDS(cvec_vector_stop_flusher(vector) == CVEC_DONE && cvec_vector_start_flusher(vector, 1) == CVEC_DONE);
    HOLDS(grow(21, &number) == CVEC_DONE);
    naps_for(30);
    HOLDS(cvec_vector_settled(vector, &count) == CVEC_DONE && count == 21);
    HOLDS(cvec_seat_close(&seat) == CVEC_DONE && cvec_vector_close(&vector) == CVEC_DONE && found(path) == 22);
    make((remove(path), path), 1);
    HOLDS(cvec_vector_start_flusher(vector, 1) == CVEC_DONE && grow(0, &number) == CVEC_DONE);
    until_settled(1);
    __atomic_store_n(&left, 0, __ATOMIC_SEQ_CST); /* a flusher looks at it */
    HOLDS(grow(1, &number) == CVEC_DONE);
    while (!is_broken(vector)) nap();
    HOLDS(cvec_vector_start_flusher(vector, 1) == CVEC_BROKEN && cvec_seat_close(&seat) == CVEC_DONE);
    HOLDS(cvec_vector_close(&vector) == CVEC_BROKEN && found(path) == 1);
}

/* ---- a fork, and how a vector begins */

static int is_refused_by(cvec_seat *own) {
    cvec_seat *none = NULL;
    cvec_block block = {NULL, NULL, 0};
    uint64_t count = 9;
    return cvec_seat_borrow(vector, 0, &none) == CVEC_FORKED && none == NULL && cvec_vector_settle(vector, 0) == CVEC_FORKED &&
           cvec_vector_settled(vector, &count) == CVEC_FORKED && cvec_vector_start_flusher(vector, 1) == CVEC_FORKED &&
           cvec_seat_detach(own, &block) == CVEC_FORKED && cvec_seat_attach(own, &block) == CVEC_FORKED &&
           cvec_vector_change_u64(vector, 0, &count, 1) == CVEC_FORKED && cvec_seat_return(&own) == CVEC_FORKED && own != NULL &&
           cvec_vector_end(vector) == CVEC_FORKED && cvec_vector_close(&vector) == CVEC_FORKED;
}

/* The child may only close, also where a slot is lent and a thread of the library's own has the mutex now and then. */
static void forks(const char *path) {
    cvec_seat *own = NULL;
    uint64_t number = 9;
    int status = 1;
    make(path, 2);
    HOLDS(cvec_vector_start_flusher(vector, 1) == CVEC_DONE && grow(0, &number) == CVEC_DONE);
    borrow(&own);
    const pid_t child = fork();
    if (child == 0) _exit(is_refused_by(own) ? 0 : 1);
    HOLDS(waitpid(child, &status, 0) == child && status == 0);
    HOLDS(cvec_seat_return(&own) == CVEC_DONE && grow(1, &number) == CVEC_DONE && cvec_seat_close(&seat) == CVEC_DONE);
    HOLDS(cvec_vector_close(&vector) == CVEC_DONE && found(path) == 2);
}

/* A file that isn't there is made, one that is there is opened, and so is one where another makes it between; a stopped creation is
 * gone over. */
static void opens_or_creates(const char *path) {
    const cvec_options two = {2, 3, 2, 0}, too_many = {1, 1, 131072, 0};
    char other_path[4096];
    uint64_t size = 9;
    remove(path);
    HOLDS(cvec_vector_open_or_create(&vector, path, CVEC_U64, &too_many) == CVEC_TOO_LARGE && vector == NULL);
    HOLDS(access(path, F_OK) != 0 && cvec_vector_open_or_create(&vector, path, CVEC_U64, &two) == CVEC_DONE);
    if (wrong) exit(1);
    take(&seat);
    for (uint64_t k = 0; k < 3; k++) HOLDS(cvec_seat_push(seat, vector->type, &k) == CVEC_DONE);
    HOLDS(cvec_seat_size(seat, &size) == CVEC_DONE && size == 2); /* by blocks of two */
    HOLDS(cvec_seat_close(&seat) == CVEC_DONE && cvec_vector_close(&vector) == CVEC_DONE);
    HOLDS(cvec_vector_open_or_create(&vector, path, CVEC_U64, NULL) == CVEC_DONE && cvec_vector_close(&vector) == CVEC_DONE);
    HOLDS(found(path) == 3 && cvec_vector_open_or_create(&vector, path, CVEC_U32, NULL) == CVEC_WIDTH && vector == NULL);
    close(open(path, O_CREAT | O_TRUNC | O_WRONLY, 0666)); /* a creation that was stopped at its start */
    HOLDS(cvec_vector_open_or_create(&vector, path, CVEC_U64, NULL) == CVEC_DONE && cvec_vector_close(&vector) == CVEC_DONE);
    HOLDS(found(path) == 0 && remove(path) == 0);
    snprintf(other_path, sizeof other_path, "%s.other", path);
    make(other_path, 1);
    for (uint64_t k = 0; k < 3; k++) HOLDS(grow(k, &size) == CVEC_DONE);
    HOLDS(cvec_seat_close(&seat) == CVEC_DONE && cvec_vector_close(&vector) == CVEC_DONE);
    between_from = other_path;
    HOLDS(cvec_vector_open_or_create(&vector, path, CVEC_U64, NULL) == CVEC_DONE && cvec_vector_close(&vector) == CVEC_DONE);
    HOLDS(between_from == NULL && found(path) == 3 && remove(path) == 0);
    folders_are_shut = 1;
    HOLDS(cvec_vector_open_or_create(&vector, path, CVEC_U64, NULL) == CVEC_DISK_OPEN && errno == EACCES && vector == NULL);
    folders_are_shut = 0;
}

int main(int argc, char **argv) {
    static const struct {
        const char *name;
        void (*run)(const char *);
    } behaviours[] = {{"beside_seats", beside_seats},
                      {"waits_for_calls", waits_for_calls},
                      {"nobody_starves", nobody_starves},
                      {"keeps", keeps},
                      {"holds_off", holds_off},
                      {"change_memory", change_memory},
                      {"settles", settles},
                      {"own_flusher", own_flusher},
                      {"forks", forks},
                      {"opens_or_creates", opens_or_creates}};
    if (argc != 3) return 2;
    for (size_t k = 0; k < sizeof behaviours / sizeof *behaviours; k++)
        if (strcmp(argv[1], behaviours[k].name) == 0) {
            behaviours[k].run(argv[2]);
            return wrong;
        }
    return 2;
}
