/* Behaviours of the C for threads, each by its name: ./behaviours NAME FILE. The status is 0 where the behaviour is as it is promised;
 * else a line says what isn't. */
#include "held.h"

static void locks(const char *path) {
    cvec_vector *second;
    make(path, 1);
    HOLDS(cvec_vector_open(&second, path, CVEC_U64, &(cvec_options){.seats = 1}) == CVEC_IN_USE);
    HOLDS(second == NULL);
    HOLDS(cvec_vector_create(&second, path, CVEC_U64, &(cvec_options){.version = 1, .seats = 1}) == CVEC_IN_USE);
    HOLDS(fcntl(vector->fd, F_GETFD) == FD_CLOEXEC);
    HOLDS(cvec_vector_close(&vector) == CVEC_BUSY);
    HOLDS(cvec_seat_close(&seat) == CVEC_DONE);
    HOLDS(cvec_vector_close(&vector) == CVEC_DONE);
    HOLDS(cvec_vector_create(&second, path, CVEC_U64, &(cvec_options){.version = 1, .seats = 1}) == CVEC_EXISTS);
    HOLDS(found(path) == 0);
}

static uint32_t opens_it(const char *path) { return cvec_vector_open(&vector, path, CVEC_U64, &(cvec_options){.seats = 1}); }
static uint32_t creates_it(const char *path) { return cvec_vector_create(&vector, path, CVEC_U64, &(cvec_options){.version = 1, .seats = 1}); }

/* What a reader's lock makes of a call; the reader gives it up behind so many naps. */
static uint32_t beside_reader(uint32_t (*call)(const char *), const char *path, int operation, int naps_of_it) {
    reader = open(path, O_RDONLY);
    HOLDS(flock(reader, operation) == 0);
    naps = 0;
    naps_of_reader = naps_of_it;
    const uint32_t answer = call(path);
    close(reader);
    reader = -1;
    return answer;
}

/* A lock that readers share is waited for, and one that somebody has alone isn't. */
static void readers(const char *path) {
    make(path, 1);
    HOLDS(cvec_seat_close(&seat) == CVEC_DONE && cvec_vector_close(&vector) == CVEC_DONE);
    HOLDS(beside_reader(opens_it, path, LOCK_SH, 3) == CVEC_DONE && naps == 3);
    if (wrong) exit(1);
    HOLDS(cvec_vector_close(&vector) == CVEC_DONE);
    HOLDS(beside_reader(opens_it, path, LOCK_SH, 0) == CVEC_IN_USE && naps == 500);
    HOLDS(beside_reader(opens_it, path, LOCK_EX, 0) == CVEC_IN_USE && naps == 0);
    /* Also where signals come, it is waited for 10 seconds. */
    naps_are_cut = 1;
    slept = 0;
    HOLDS(beside_reader(opens_it, path, LOCK_SH, 0) == CVEC_IN_USE && naps == 500 && slept == 10000);
    naps_are_cut = 0;
    HOLDS(found(path) == 0);
}

/* What the call answers where one file gets another's name while a reader's lock is waited for. */
static uint32_t beside_move(uint32_t (*call)(const char *), const char *path, const char *from, const char *to) {
    moved_from = from;
    moved_to = to;
    const uint32_t answer = beside_reader(call, path, LOCK_SH, 3);
    moved_from = NULL;
    return answer;
}

/* The second look is for the name of what is locked. Where there is none then the file is opened again; any other failure says
 * nothing of the name. */
static void looks_for_its_name(const char *path) {
    static const struct {
        int fault;
        uint32_t answer;
    } looks[] = {{ENOENT, CVEC_DONE}, {ENOTDIR, CVEC_DONE}, {EACCES, CVEC_DISK_OPEN}, {EIO, CVEC_DISK_OPEN}};
    remove(path);
    for (size_t k = 0; k < sizeof looks / sizeof *looks; k++) {
        stats = 1;
        stat_fault = looks[k].fault;
        HOLDS(cvec_vector_create(&vector, path, CVEC_U64, &(cvec_options){.version = 1, .seats = 1}) == looks[k].answer && stats == -1);
        HOLDS(looks[k].answer == CVEC_DONE || (vector == NULL && errno == looks[k].fault));
        HOLDS(vector == NULL || (cvec_vector_close(&vector) == CVEC_DONE && remove(path) == 0));
    }
}

/* The vector says that its file is the one that has this name. */
static void is_named(const char *path) {
    struct stat named;
    uint64_t device = 0, file = 0;
    HOLDS((stat)(path, &named) == 0 && cvec_vector_identity(vector, &device, &file) == CVEC_DONE);
    HOLDS(device == named.st_dev && file == named.st_ino);
}

/* The file is opened that has the name once its lock is had, whichever had it before. */
static void replaced(const char *path) {
    char other[4096];
    uint64_t number = 0;
    snprintf(other, sizeof other, "%s.other", path);
    make(path, 1);
    HOLDS(cvec_seat_close(&seat) == CVEC_DONE && cvec_vector_close(&vector) == CVEC_DONE);
    make(other, 1);
    HOLDS(grow(0, &number) == CVEC_DONE && grow(1, &number) == CVEC_DONE);
    HOLDS(cvec_seat_close(&seat) == CVEC_DONE && cvec_vector_close(&vector) == CVEC_DONE);
    HOLDS(beside_move(opens_it, path, other, path) == CVEC_DONE);
    if (wrong) exit(1);
    is_named(path);
    HOLDS(cvec_seat_take(vector, &seat) == CVEC_DONE && grow(2, &number) == CVEC_DONE);
    HOLDS(cvec_seat_close(&seat) == CVEC_DONE && cvec_vector_close(&vector) == CVEC_DONE);
    HOLDS(found(path) == 3);
    /* Or none has it: there is nothing to open, and a creation makes one. */
    HOLDS(beside_move(opens_it, path, path, other) == CVEC_DISK_OPEN && errno == ENOENT && vector == NULL);
    close(open(path, O_CREAT | O_WRONLY, 0666));
    HOLDS(beside_move(creates_it, path, path, other) == CVEC_DONE);
    if (wrong) exit(1);
    HOLDS(cvec_vector_close(&vector) == CVEC_DONE && found(path) == 0);
    /* Or another each time: it is tried as often as a lock is. */
    replaced_path = path;
    opens = naps = slept = 0;
    HOLDS(cvec_vector_open(&vector, path, CVEC_U64, &(cvec_options){.seats = 1}) == CVEC_IN_USE && vector == NULL && opens == 501);
    HOLDS(naps == 500 && slept == 10000);
    replaced_path = NULL;
    looks_for_its_name(path);
}

/* Each standard stream can't be read or written, and a program that is run hasn't got it. */
static void are_closed_streams(void) {
    char byte = 'x';
    for (int fd = 0; fd <= STDERR_FILENO; fd++) {
        const int flags = fcntl(fd, F_GETFD);
        HOLDS(flags == FD_CLOEXEC || (flags == -1 && is_null_gone));
        HOLDS((fd == STDIN_FILENO ? read(fd, &byte, 1) : write(fd, &byte, 1)) == -1 && errno == EBADF);
    }
}

/* The file has none of the numbers of the standard streams, where these are closed, and a program that is run hasn't it. */
static void is_beside_streams(const char *path) {
    uint64_t number = 0;
    const int out = fcntl(STDOUT_FILENO, F_DUPFD, STDERR_FILENO + 1);
    remove(path);
    for (int fd = 0; fd <= STDERR_FILENO; fd++) close(fd);
    least_number = INT_MAX;
    make(path, 1);
    are_closed_streams();
    HOLDS(grow(0, &number) == CVEC_DONE && cvec_seat_settle(seat, number, CVEC_NO_LIMIT) == CVEC_DONE);
    const int flags = fcntl(vector->fd, F_GETFD);
    HOLDS(dup2(out, STDOUT_FILENO) == STDOUT_FILENO && close(out) == 0);
    HOLDS(!wrong && flags == FD_CLOEXEC && vector->fd > STDERR_FILENO);
    HOLDS(cvec_seat_close(&seat) == CVEC_DONE && cvec_vector_close(&vector) == CVEC_DONE);
    HOLDS(found(path) == 1);
}

/* No file has one for a moment either, where there is a /dev/null: another thread may print then. */
static void streams(const char *path) {
    is_beside_streams(path);
    HOLDS(least_number > STDERR_FILENO);
    if (wrong) return;
    is_null_gone = 1;
    is_beside_streams(path);
    HOLDS(least_number <= STDERR_FILENO);
}

static void is_busy(const char *path) {
    uint64_t number = 0, count = 0;
    const void *records;
    void *block;
    size_t kept;
    cvec_piece piece;
    make(path, 1);
    seat->busy = true; /* as another thread inside a call leaves it */
    HOLDS(grow(0, &number) == CVEC_BUSY);
    HOLDS(cvec_seat_settle(seat, 0, CVEC_NO_LIMIT) == CVEC_BUSY);
    HOLDS(cvec_seat_settle(seat, 0, 1) == CVEC_BUSY);
    HOLDS(cvec_seat_size(seat, &count) == CVEC_BUSY);
    HOLDS(cvec_seat_settled(seat, &count) == CVEC_BUSY);
    HOLDS(cvec_seat_read_u64(seat, 0, &count, 1, &count) == CVEC_BUSY);
    HOLDS(cvec_seat_at(seat, vector->type, 0, &count) == CVEC_BUSY);
    HOLDS(cvec_seat_push(seat, vector->type, &number) == CVEC_BUSY);
    HOLDS(cvec_seat_push_block(seat, 5) == CVEC_BUSY);
    HOLDS(cvec_seat_flush(seat, NULL) == CVEC_BUSY);
    HOLDS(cvec_seat_waiting(seat, &records, &kept) == CVEC_BUSY);
    HOLDS(cvec_seat_block(seat, 1, &block) == CVEC_BUSY);
    HOLDS(cvec_seat_publish(seat, NULL) == CVEC_BUSY);
    HOLDS(cvec_seat_drop(seat) == CVEC_BUSY);
    HOLDS(cvec_seat_pieces(seat, 0, &piece, 1, &kept) == CVEC_BUSY);
    HOLDS(cvec_seat_count_u64(seat, 0, &count) == CVEC_BUSY);
    HOLDS(cvec_seat_find_u64(seat, 0, 0, &count) == CVEC_BUSY);
    HOLDS(cvec_seat_close(&seat) == CVEC_BUSY);
    seat->busy = false;
    /* Each call leaves the seat free. */
    HOLDS(grow(0, &number) == CVEC_DONE);
    HOLDS(cvec_seat_settle(seat, number, CVEC_NO_LIMIT) == CVEC_DONE);
    HOLDS(cvec_seat_size(seat, &count) == CVEC_DONE && count == 1);
    HOLDS(cvec_seat_settled(seat, &count) == CVEC_DONE && count == 1);
    HOLDS(cvec_seat_read_u64(seat, 0, &number, 1, &count) == CVEC_DONE && count == 1);
    HOLDS(cvec_seat_at(seat, vector->type, 0, &number) == CVEC_DONE);
    HOLDS(cvec_seat_push_block(seat, 5) == CVEC_DONE);
    HOLDS(cvec_seat_push(seat, vector->type, &number) == CVEC_DONE);
    HOLDS(cvec_seat_waiting(seat, &records, &kept) == CVEC_DONE && kept == 1);
    HOLDS(cvec_seat_flush(seat, NULL) == CVEC_DONE);
    HOLDS(cvec_seat_block(seat, 1, &block) == CVEC_DONE);
    HOLDS(cvec_seat_block(seat, 1, &block) == CVEC_NOT_SO);
    HOLDS(cvec_seat_publish(seat, NULL) == CVEC_DONE);
    HOLDS(cvec_seat_publish(seat, NULL) == CVEC_NOT_SO);
    HOLDS(cvec_seat_drop(seat) == CVEC_NOT_SO);
    HOLDS(cvec_seat_pieces(seat, 0, &piece, 1, &kept) == CVEC_DONE && kept == 1);
    HOLDS(cvec_seat_count_u64(seat, 0, &count) == CVEC_DONE && count == 3);
    HOLDS(cvec_seat_find_u64(seat, 1, 0, &count) == CVEC_DONE && count == 3);
    HOLDS(cvec_seat_close(&seat) == CVEC_DONE);
    HOLDS(cvec_vector_close(&vector) == CVEC_DONE);
}

static int is_refused_in_a_fork(void) {
    uint64_t number = 0;
    const void *records;
    void *block;
    size_t kept;
    cvec_piece piece;
    cvec_seat *other;
    return cvec_seat_block(seat, 1, &block) == CVEC_FORKED && cvec_seat_publish(seat, NULL) == CVEC_FORKED &&
           cvec_seat_drop(seat) == CVEC_FORKED && cvec_seat_pieces(seat, 0, &piece, 1, &kept) == CVEC_FORKED &&
           cvec_seat_count_u64(seat, 0, &number) == CVEC_FORKED && cvec_seat_find_u64(seat, 0, 0, &number) == CVEC_FORKED &&
           cvec_vector_hold(vector) == CVEC_FORKED && cvec_vector_release(vector) == CVEC_FORKED &&
           cvec_vector_compact(vector) == CVEC_FORKED && grow(7, &number) == CVEC_FORKED && cvec_seat_settle(seat, 0, CVEC_NO_LIMIT) == CVEC_FORKED &&
           cvec_seat_size(seat, &number) == CVEC_FORKED && cvec_seat_settled(seat, &number) == CVEC_FORKED &&
           cvec_seat_read_u64(seat, 0, &number, 1, &number) == CVEC_FORKED && cvec_seat_take(vector, &other) == CVEC_FORKED &&
           cvec_seat_settle(seat, 0, 1) == CVEC_FORKED && cvec_vector_run_flusher(vector, 1) == CVEC_FORKED &&
           cvec_seat_take_within(vector, 1, &other) == CVEC_FORKED && cvec_vector_stop_flusher(vector) == CVEC_FORKED &&
           cvec_vector_flush(vector) == CVEC_FORKED && cvec_seat_at(seat, vector->type, 0, &number) == CVEC_FORKED &&
           cvec_seat_push(seat, vector->type, &number) == CVEC_FORKED && cvec_seat_push_block(seat, 5) == CVEC_FORKED &&
           cvec_seat_flush(seat, NULL) == CVEC_FORKED && cvec_seat_waiting(seat, &records, &kept) == CVEC_FORKED &&
           cvec_seat_close(&seat) == CVEC_FORKED && cvec_vector_close(&vector) == CVEC_FORKED;
}

/* The child has vectors of its own, and what was its parent's stays refused beside them. */
static int has_its_own_in_a_fork(const char *path) {
    char own[4096];
    uint64_t number = 0;
    cvec_seat *parents = seat;
    snprintf(own, sizeof own, "%s.child", path);
    make(own, 1);
    return grow(9, &number) == CVEC_DONE && cvec_seat_settled(parents, &number) == CVEC_FORKED &&
           cvec_seat_settle(seat, 0, CVEC_NO_LIMIT) == CVEC_DONE && cvec_seat_close(&seat) == CVEC_DONE &&
           cvec_vector_close(&vector) == CVEC_DONE;
}

static void *run_this_process(void *number) {
    *(uint64_t *)number = cvec_process();
    return NULL;
}

/* Threads of the child that come first at once have one number, and it isn't that of its parent, nor is a grandchild's. */
static int has_one_number_in_a_fork(void) {
    enum { THREADS = 8 };
    uint64_t numbers[THREADS];
    pthread_t threads[THREADS];
    int status = 1, differ = 0;
    for (int k = 0; k < THREADS; k++) pthread_create(&threads[k], NULL, run_this_process, &numbers[k]);
    for (int k = 0; k < THREADS; k++) pthread_join(threads[k], NULL);
    for (int k = 0; k < THREADS; k++) differ |= numbers[k] != cvec_process();
    const pid_t child = fork();
    if (child == 0) _exit(cvec_process() != numbers[0] && cvec_process() != vector->process ? 0 : 1);
    return waitpid(child, &status, 0) == child && status == 0 && !differ && numbers[0] != vector->process;
}

/* Also where the system's number of the child is that of its parent, as in a namespace of its own. */
static void forks(const char *path) {
    const uint64_t pushed = 1;
    uint64_t number = 0;
    int status = 1;
    make(path, 2);
    if (noted_process != &no_process) number_of_all = getpid();
    HOLDS(cvec_seat_push(seat, vector->type, &pushed) == CVEC_DONE);
    pid_t child = fork();
    if (child == 0) _exit(is_refused_in_a_fork() ? 0 : 1);
    HOLDS(waitpid(child, &status, 0) == child && status == 0);
    child = fork();
    if (child == 0) _exit(has_its_own_in_a_fork(path) ? 0 : 1);
    HOLDS(waitpid(child, &status, 0) == child && status == 0);
    child = fork();
    if (child == 0) _exit(noted_process == &no_process || has_one_number_in_a_fork() ? 0 : 1);
    HOLDS(waitpid(child, &status, 0) == child && status == 0);
    HOLDS(grow(0, &number) == CVEC_DONE);
    HOLDS(cvec_seat_close(&seat) == CVEC_DONE);
    HOLDS(cvec_vector_close(&vector) == CVEC_DONE);
    HOLDS(found(path) == 2);
}

/* A forked process, as one that becomes a program, has a copy of the file's descriptor: that keeps no lock behind the close, and a
 * close of its own takes none from its parent. */
static void unlocks(const char *path) {
    cvec_vector *other;
    int status = 1;
    HOLDS(cvec_vector_create(&vector, path, CVEC_U64, &(cvec_options){.version = 1, .seats = 1}) == CVEC_DONE);
    if (wrong) return;
    pid_t child = fork();
    if (child == 0) _exit(cvec_vector_close(&vector) == CVEC_FORKED ? 0 : 1);
    HOLDS(waitpid(child, &status, 0) == child && status == 0);
    HOLDS(cvec_vector_open(&other, path, CVEC_U64, &(cvec_options){.seats = 1}) == CVEC_IN_USE && other == NULL);
    child = fork();
    if (child == 0)
        for (;;) pause();
    HOLDS(cvec_vector_close(&vector) == CVEC_DONE);
    HOLDS(cvec_vector_open(&vector, path, CVEC_U64, &(cvec_options){.seats = 1}) == CVEC_DONE);
    if (vector != NULL) HOLDS(cvec_vector_close(&vector) == CVEC_DONE);
    HOLDS(kill(child, SIGKILL) == 0 && waitpid(child, &status, 0) == child);
}

/* Until its last commit has ended a close has the lock: who opened the file before that would not see what it commits, and write over
 * it. A commit is two writes and two syncs. */
static void closes_locked(const char *path) {
    uint64_t number = 0;
    make(path, 1);
    HOLDS(grow(0, &number) == CVEC_DONE && cvec_seat_close(&seat) == CVEC_DONE);
    watched_path = path;
    HOLDS(cvec_vector_close(&vector) == CVEC_DONE);
    watched_path = NULL;
    HOLDS(locked_calls == 4 && unlocked_calls == 0);
    HOLDS(found(path) == 1);
}

extern char **environ;
static int is_over; /* no program is to be started any more */

static void *start_programs(void *unused) {
    char *const words[] = {(char *)"true", NULL};
    pid_t child;
    while (!__atomic_load_n(&is_over, __ATOMIC_SEQ_CST))
        if (posix_spawnp(&child, words[0], NULL, NULL, words, environ) == 0) waitpid(child, NULL, 0);
    return unused;
}

/* Another thread starts programs: until each of them runs it has such a copy. */
static void unlocks_beside_programs(const char *path) {
    enum { TIMES = 500 };
    pthread_t starter;
    HOLDS(cvec_vector_create(&vector, path, CVEC_U64, &(cvec_options){.version = 1, .seats = 1}) == CVEC_DONE && cvec_vector_close(&vector) == CVEC_DONE);
    pthread_create(&starter, NULL, start_programs, NULL);
    for (int k = 0; k < TIMES && !wrong; k++)
        HOLDS(cvec_vector_open(&vector, path, CVEC_U64, &(cvec_options){.seats = 1}) == CVEC_DONE && cvec_vector_close(&vector) == CVEC_DONE);
    __atomic_store_n(&is_over, 1, __ATOMIC_SEQ_CST);
    pthread_join(starter, NULL);
}

/* Each write makes 5 bytes at most, and every second call is interrupted. */
static void parts(const char *path) {
    uint64_t number = 0;
    part = 5;
    interrupts = 1;
    make(path, 1);
    for (uint64_t k = 0; k < 20; k++) HOLDS(grow(k, &number) == CVEC_DONE);
    HOLDS(cvec_seat_settle(seat, number, CVEC_NO_LIMIT) == CVEC_DONE);
    HOLDS(cvec_seat_close(&seat) == CVEC_DONE);
    HOLDS(cvec_vector_close(&vector) == CVEC_DONE);
    part = 0;
    interrupts = 0;
    HOLDS(found(path) == 20);
}

/* One of the four calls of the second commit fails: what was durable stands, and nothing goes on until it is opened again. */
static void fails_at(const char *path, int call) {
    uint64_t number = 0, count = 0;
    remove(path);
    make(path, 1);
    HOLDS(grow(0, &number) == CVEC_DONE);
    HOLDS(cvec_seat_settle(seat, number, CVEC_NO_LIMIT) == CVEC_DONE);
    HOLDS(grow(1, &number) == CVEC_DONE);
    left = call;
    uint32_t failed = cvec_seat_settle(seat, number, CVEC_NO_LIMIT);
    left = -1;
    HOLDS(failed == (call % 2 == 0 ? CVEC_DISK_WRITE : CVEC_DISK_SYNC));
    HOLDS(cvec_seat_settled(seat, &count) == CVEC_DONE && count == 1);
    HOLDS(cvec_seat_settle(seat, 0, CVEC_NO_LIMIT) == CVEC_DONE);
    HOLDS(cvec_seat_settle(seat, number, CVEC_NO_LIMIT) == CVEC_BROKEN);
    HOLDS(grow(2, &number) == CVEC_BROKEN);
    HOLDS(cvec_seat_size(seat, &count) == CVEC_DONE && count == 2);
    HOLDS(cvec_seat_close(&seat) == CVEC_DONE);
    int before = writes;
    HOLDS(cvec_vector_close(&vector) == CVEC_BROKEN);
    HOLDS(writes == before);
    count = found(path);
    HOLDS(count == (call < 2 ? 1 : count == 1 ? 1 : 2));
}

/* Each call of a creation fails: the syncs of its folder and of what is there; a sync, and the first byte, the others and the
 * first one again, each written and synced. It may be made again, but where that byte may say that it is done. */
static void creation_fails_at(const char *path, int call) {
    remove(path);
    left = call;
    HOLDS(cvec_vector_create(&vector, path, CVEC_U64, &(cvec_options){.version = 1, .seats = 1}) == (call == 3 || call == 5 || call == 7 ? CVEC_DISK_WRITE : CVEC_DISK_SYNC));
    HOLDS(vector == NULL && left == -1 && errno == EIO);
    left = -1;
    const uint32_t again = cvec_vector_create(&vector, path, CVEC_U64, &(cvec_options){.version = 1, .seats = 1});
    HOLDS(again == (call == 8 ? CVEC_EXISTS : CVEC_DONE));
    if (again == CVEC_DONE) HOLDS(cvec_vector_close(&vector) == CVEC_DONE);
    HOLDS(found(path) == 0);
}

static void faults(const char *path) {
    uint64_t number = 0;
    for (int call = 0; call < 4; call++) fails_at(path, call);
    for (int call = 0; call < 9; call++) creation_fails_at(path, call);
    /* A folder that may not be read can't be synced; no sync has failed. */
    remove(path);
    folders_are_shut = 1;
    HOLDS(cvec_vector_create(&vector, path, CVEC_U64, &(cvec_options){.version = 1, .seats = 1}) == CVEC_DISK_OPEN && errno == EACCES && vector == NULL);
    folders_are_shut = 0;
    HOLDS(cvec_vector_create(&vector, path, CVEC_U64, &(cvec_options){.version = 1, .seats = 1}) == CVEC_DONE && cvec_vector_close(&vector) == CVEC_DONE);
    /* So where it is opened, and at the close. */
    for (int call = 0; call < 2; call++) {
        left = call;
        HOLDS(cvec_vector_open(&vector, path, CVEC_U64, &(cvec_options){.seats = 1}) == CVEC_DISK_SYNC && vector == NULL);
    }
    remove(path);
    make(path, 1);
    HOLDS(grow(0, &number) == CVEC_DONE);
    HOLDS(cvec_seat_close(&seat) == CVEC_DONE);
    left = 0;
    HOLDS(cvec_vector_close(&vector) == CVEC_DISK_WRITE && errno == EIO);
    HOLDS(found(path) == 0);
}

static void too_large(const char *path) {
    static uint64_t records[1024];
    struct rlimit most = {4096, RLIM_INFINITY};
    cvec_receipt receipt;
    make(path, 1);
    for (uint64_t k = 0; k < 1024; k++) records[k] = k;
    setrlimit(RLIMIT_FSIZE, &most);
    HOLDS(cvec_seat_grow_u64(seat, records, 1024, &receipt) == CVEC_DONE);
    HOLDS(cvec_seat_settle(seat, receipt.number, CVEC_NO_LIMIT) == CVEC_DISK_WRITE);
    HOLDS(errno == EFBIG);
    sigset_t held_back;
    HOLDS(pthread_sigmask(SIG_BLOCK, NULL, &held_back) == 0 && sigismember(&held_back, SIGXFSZ) == 0);
    HOLDS(cvec_seat_settle(seat, receipt.number, CVEC_NO_LIMIT) == CVEC_BROKEN);
    most.rlim_cur = RLIM_INFINITY;
    setrlimit(RLIMIT_FSIZE, &most);
    HOLDS(cvec_seat_close(&seat) == CVEC_DONE);
    HOLDS(cvec_vector_close(&vector) == CVEC_BROKEN);
    HOLDS(found(path) == 0);
}

static void write_file(const char *path, const char *bytes, size_t len) {
    FILE *file = fopen(path, "wb");
    HOLDS(file != NULL && fwrite(bytes, 1, len, file) == len && fclose(file) == 0);
}

static void refusals(const char *path) {
    static uint64_t many[131072];
    uint64_t count = 9, number = 0;
    cvec_seat *second;
    cvec_receipt receipt = {9, 9, 9, 9, 9};
    HOLDS(cvec_vector_open(&vector, path, CVEC_U64, &(cvec_options){.seats = 1}) == CVEC_DISK_OPEN);
    HOLDS(cvec_vector_open(&vector, "/", CVEC_U64, &(cvec_options){.seats = 1}) == CVEC_NOT_FILE);
    HOLDS(cvec_vector_create(&vector, path, CVEC_U64, &(cvec_options){.version = 3, .seats = 1}) == CVEC_NOT_SO);
    HOLDS(cvec_vector_create(&vector, path, CVEC_U64, &(cvec_options){.version = 1, .seats = 65}) == CVEC_TOO_LARGE);
    HOLDS(vector == NULL && access(path, F_OK) != 0);
    make(path, 1);
    HOLDS(cvec_seat_take(vector, &second) == CVEC_NOT_SO && second == NULL);
    HOLDS(cvec_seat_close(&second) == CVEC_NOT_SO);
    HOLDS(cvec_seat_grow_u64(seat, many, 0, &receipt) == CVEC_EMPTY);
    HOLDS(cvec_seat_grow_u64(seat, many, 131072, &receipt) == CVEC_TOO_LARGE);
    HOLDS(receipt.number == 9 && receipt.start == 9 && receipt.len == 9);
    HOLDS(cvec_seat_grow_u64(seat, many, 131071, NULL) == CVEC_DONE);
    HOLDS(grow(5, &number) == CVEC_DONE && number == 1);
    HOLDS(cvec_seat_settle(seat, 2, CVEC_NO_LIMIT) == CVEC_OUT_OF_RANGE);
    HOLDS(cvec_seat_settle(seat, UINT64_MAX, CVEC_NO_LIMIT) == CVEC_OUT_OF_RANGE);
    HOLDS(cvec_seat_read_u64(seat, 131072, many, 1, &count) == CVEC_DONE && count == 0);
    HOLDS(cvec_seat_read_u64(seat, 131070, many, 9, &count) == CVEC_DONE && count == 2 && many[0] == 0 && many[1] == 5);
    HOLDS(cvec_seat_close(&seat) == CVEC_DONE);
    HOLDS(cvec_vector_close(&vector) == CVEC_DONE);
    const struct {
        const char *bytes;
        size_t len;
        uint32_t refusal;
    } others[] = {{"", 0, CVEC_UNBORN},
                  {"\11CVECSEG\1\10\0\0", 12, CVEC_UNBORN},
                  {"\1CVECSEK\1\10\0\0", 12, CVEC_NOT_SEGMENT},
                  {"\1CVECSEG\7\10\0\0", 12, CVEC_VERSION},
                  {"\1CVECSEG\1\4\0\0", 12, CVEC_WIDTH},
                  {"\1CVECSEG\1\10\0\1\11", 13, CVEC_DAMAGED}};
    for (size_t k = 0; k < sizeof others / sizeof *others; k++) {
        write_file(path, others[k].bytes, others[k].len);
        HOLDS(cvec_vector_open(&vector, path, CVEC_U64, &(cvec_options){.seats = 1}) == others[k].refusal);
        HOLDS(vector == NULL);
    }
}

static int has_bytes(const char *path, const char *bytes, size_t len) {
    char seen[64];
    FILE *file = fopen(path, "rb");
    size_t count = file == NULL ? sizeof seen : fread(seen, 1, sizeof seen, file);
    if (file != NULL) fclose(file);
    return count == len && memcmp(seen, bytes, len) == 0;
}

/* What is there stays, few bytes too, but for what a stopped creation leaves. */
static void foreign(const char *path) {
    static const struct {
        const char *bytes;
        size_t len;
    } others[] = {{"x", 1},
                  {"hello\n", 6},
                  {"secret=abc1\n", 12},
                  {"secret=abc12\n", 13},
                  {"\1C", 2},
                  {"\0CVECSEG\2\10\0\0", 12},
                  {"\0CVECSEG\1\4\0\0", 12},
                  {"\0CVECSEG\1\10\0\1", 12},
                  {"\0\0\0\0\0\0\0\0\0\0\0\0\0", 13}},
      left_there[] = {{"", 0}, {"\0", 1}, {"\1", 1}, {"\0CVEC", 5}, {"\0\0\0ECS\0\0\0\10\0\0", 12}, {"\0CVECSEG\1\10\0\0", 12}};
    for (size_t k = 0; k < sizeof others / sizeof *others; k++) {
        write_file(path, others[k].bytes, others[k].len);
        HOLDS(cvec_vector_create(&vector, path, CVEC_U64, &(cvec_options){.version = 1, .seats = 1}) == CVEC_EXISTS && vector == NULL);
        HOLDS(has_bytes(path, others[k].bytes, others[k].len));
    }
    for (size_t k = 0; k < sizeof left_there / sizeof *left_there; k++) {
        write_file(path, left_there[k].bytes, left_there[k].len);
        HOLDS(cvec_vector_create(&vector, path, CVEC_U64, &(cvec_options){.version = 1, .seats = 1}) == CVEC_DONE && cvec_vector_close(&vector) == CVEC_DONE);
        HOLDS(has_bytes(path, "\1CVECSEG\1\10\0\0", 12));
    }
    write_file(path, "\0CVECSEG\2\10\0\0", 12);
    HOLDS(cvec_vector_create(&vector, path, CVEC_U64, &(cvec_options){.version = 2, .seats = 1}) == CVEC_DONE && cvec_vector_close(&vector) == CVEC_DONE);
}

/* Where memory that is asked for ahead is refused, a growth is made all the same; and a file that can't be read isn't opened. */
static void memory(const char *path) {
    uint64_t number = 0;
    make(path, 1);
    mallocs = 0;
    HOLDS(grow(0, &number) == CVEC_DONE && mallocs == -1);
    HOLDS(cvec_seat_close(&seat) == CVEC_DONE);
    HOLDS(cvec_vector_close(&vector) == CVEC_DONE);
    HOLDS(found(path) == 1);
    mallocs = 0;
    HOLDS(cvec_vector_open(&vector, path, CVEC_U64, &(cvec_options){.seats = 1}) == CVEC_MEMORY);
    HOLDS(vector == NULL);
    HOLDS(found(path) == 1);
}

/* The records from position 0 on are their positions, so many in all. */
static void are_positions(cvec_seat *own, uint64_t len) {
    static uint64_t seen[1 << 16];
    uint64_t size = 0, count = 0;
    HOLDS(cvec_seat_size(own, &size) == CVEC_DONE && size == len);
    for (uint64_t from = 0; from < len && !wrong; from += count) {
        HOLDS(cvec_seat_read_u64(own, from, seen, 1 << 16, &count) == CVEC_DONE && count > 0);
        for (uint64_t k = 0; k < count && !wrong; k++) HOLDS(seen[k] == from + k);
    }
}

/* So also once it is closed and opened again. */
static void leaves_positions(const char *path, uint64_t len) {
    HOLDS(cvec_seat_close(&seat) == CVEC_DONE && cvec_vector_close(&vector) == CVEC_DONE);
    HOLDS(cvec_vector_open(&vector, path, CVEC_U64, &(cvec_options){.seats = 1}) == CVEC_DONE);
    if (wrong) exit(1);
    HOLDS(cvec_seat_take(vector, &seat) == CVEC_DONE);
    are_positions(seat, len);
    HOLDS(cvec_seat_close(&seat) == CVEC_DONE && cvec_vector_close(&vector) == CVEC_DONE);
}

/* Seats stay open where a phase is full, and numbers count on; those from before are durable. */
static void full(const char *path) {
    enum { MOST = 1000 };
    uint64_t number = 0, count = 9;
    cvec_seat *other;
    cvec_receipt receipt;
    make_narrow(path, 2, MOST);
    HOLDS(cvec_seat_take(vector, &other) == CVEC_DONE);
    for (uint64_t k = 0; k < 2 * MOST + 1; k++) {
        if (grow(k, &number) != CVEC_DONE || number != k) HOLDS(!"it was grown");
        if (k == MOST - 1) HOLDS(cvec_seat_settled(other, &count) == CVEC_DONE && count == 0);
        if (k == MOST) HOLDS(cvec_seat_settled(other, &count) == CVEC_DONE && count == MOST);
        if (wrong) return;
    }
    HOLDS(cvec_seat_at(other, vector->type, MOST, &count) == CVEC_DONE && count == MOST);
    HOLDS(cvec_seat_settle(other, 0, 0) == CVEC_DONE && cvec_seat_settle(other, 2 * MOST - 1, 0) == CVEC_DONE);
    HOLDS(cvec_seat_settled(other, &count) == CVEC_DONE && count == 2 * MOST);
    HOLDS(cvec_seat_settle(other, 2 * MOST + 1, CVEC_NO_LIMIT) == CVEC_OUT_OF_RANGE);
    HOLDS(cvec_seat_settled(seat, &count) == CVEC_DONE && count == 2 * MOST + 1);
    count = 2 * MOST + 1;
    HOLDS(cvec_seat_grow_u64(other, &count, 1, &receipt) == CVEC_DONE && receipt.number == 2 * MOST + 1 && receipt.serial == 0);
    HOLDS(receipt.seat == 1 && receipt.start == 2 * MOST + 1 && receipt.len == 1);
    are_positions(other, 2 * MOST + 2);
    HOLDS(cvec_seat_close(&other) == CVEC_DONE);
    leaves_positions(path, 2 * MOST + 2);
}

struct wait {
    pthread_t thread;
    cvec_seat *seat;
    uint64_t number, milliseconds;
    uint32_t status;
};

static void *run_wait(void *work) {
    struct wait *wait = work;
    wait->status = cvec_seat_settle(wait->seat, wait->number, wait->milliseconds);
    return NULL;
}

static void begin_wait(struct wait *wait, uint64_t number, uint64_t milliseconds) {
    wait->number = number;
    wait->milliseconds = milliseconds;
    pthread_create(&wait->thread, NULL, run_wait, wait);
}

static uint32_t end_of(struct wait *wait) {
    pthread_join(wait->thread, NULL);
    return wait->status;
}

static uint64_t settled(void) {
    uint64_t count = 0;
    HOLDS(cvec_seat_settled(seat, &count) == CVEC_DONE);
    return count;
}

/* A first wait is held in its sync, a second one has a deadline that never comes. */
static void hold(struct wait *first, struct wait *second, uint64_t number) {
    int before = __atomic_load_n(&timed_waits, __ATOMIC_SEQ_CST);
    shut_gate(1);
    begin_wait(first, number, 0);
    until_held();
    begin_wait(second, number + 1, CVEC_NO_LIMIT - 1);
    while (__atomic_load_n(&timed_waits, __ATOMIC_SEQ_CST) == before) nap();
}

static void late(const char *path) {
    struct wait first, second;
    uint64_t number = 0;
    make(path, 3);
    HOLDS(cvec_seat_take(vector, &first.seat) == CVEC_DONE);
    HOLDS(cvec_seat_take(vector, &second.seat) == CVEC_DONE);
    HOLDS(grow(0, &number) == CVEC_DONE);
    hold(&first, &second, 0);
    HOLDS(grow(1, &number) == CVEC_DONE && number == 1);
    for (uint64_t milliseconds = 0; milliseconds < 30; milliseconds += 7)
        for (number = 0; number < 2; number++) HOLDS(cvec_seat_settle(seat, number, milliseconds) == CVEC_LATE);
    HOLDS(settled() == 0);
    for (uint64_t milliseconds = 0; milliseconds < 1000; milliseconds++) HOLDS(cvec_moment_in(milliseconds).tv_nsec < 1000000000);
    /* A wait sleeps: it isn't woken again and again. */
    HOLDS(__atomic_load_n(&timed_waits, __ATOMIC_SEQ_CST) < 1000);
    shut_gate(0);
    /* Who commits ends its commit, though its time has passed. */
    HOLDS(end_of(&first) == CVEC_DONE && end_of(&second) == CVEC_DONE && settled() == 2);
    HOLDS(cvec_seat_settle(seat, 1, 0) == CVEC_DONE);
    HOLDS(grow(2, &number) == CVEC_DONE && cvec_seat_settle(seat, number, 0) == CVEC_DONE && settled() == 3);
    HOLDS(cvec_seat_settle(seat, 3, 0) == CVEC_OUT_OF_RANGE);
    HOLDS(cvec_seat_settle(seat, UINT64_MAX, 5) == CVEC_OUT_OF_RANGE);
    HOLDS(grow(3, &number) == CVEC_DONE);
    hold(&first, &second, 3);
    HOLDS(cvec_seat_settle(seat, 2, 0) == CVEC_DONE);
    left = 0;
    shut_gate(0);
    HOLDS(end_of(&first) == CVEC_DISK_SYNC && end_of(&second) == CVEC_BROKEN);
    HOLDS(cvec_seat_settle(seat, 3, 0) == CVEC_BROKEN);
    HOLDS(cvec_seat_close(&first.seat) == CVEC_DONE && cvec_seat_close(&second.seat) == CVEC_DONE);
    HOLDS(cvec_seat_close(&seat) == CVEC_DONE && cvec_vector_close(&vector) == CVEC_BROKEN);
    HOLDS(found(path) == 3);
}

/* While one thread's sync lasts, the others grow and wait: the next commit, of two syncs, is for all of them. */
static void leads(const char *path) {
    struct wait all[8];
    uint64_t number = 0;
    make(path, 8);
    all[0].seat = seat;
    for (int k = 1; k < 8; k++) HOLDS(cvec_seat_take(vector, &all[k].seat) == CVEC_DONE);
    const int before = syncs, waited = timed_waits;
    shut_gate(1);
    for (uint64_t k = 0; k < 8; k++) {
        seat = all[k].seat;
        HOLDS(grow(k, &number) == CVEC_DONE && number == k);
        begin_wait(&all[k], number, CVEC_NO_LIMIT - 1);
        if (k == 0) until_held();
    }
    while (__atomic_load_n(&timed_waits, __ATOMIC_SEQ_CST) < waited + 7) nap();
    shut_gate(0);
    for (int k = 0; k < 8; k++) HOLDS(end_of(&all[k]) == CVEC_DONE);
    HOLDS(settled() == 8 && syncs == before + 4);
    for (int k = 0; k < 8; k++) HOLDS(cvec_seat_close(&all[k].seat) == CVEC_DONE);
    HOLDS(cvec_vector_close(&vector) == CVEC_DONE && syncs == before + 4);
    HOLDS(found(path) == 8);
}

/* Four threads that wait for each of their growths, each by a seat of its own. */
static cvec_seat *four[4];

static void make_four(const char *path) {
    make(path, 4);
    four[0] = seat;
    for (int k = 1; k < 4; k++) HOLDS(cvec_seat_take(vector, &four[k]) == CVEC_DONE);
}

/* A sync takes a while, so that the others come before it ends. */
static void run_four(void *(*work)(void *)) {
    pthread_t threads[4];
    is_slow = 1;
    for (int k = 0; k < 4; k++) pthread_create(&threads[k], NULL, work, four[k]);
    for (int k = 0; k < 4; k++) pthread_join(threads[k], NULL);
    is_slow = 0;
}

static void close_four(void) {
    for (int k = 0; k < 4; k++) HOLDS(cvec_seat_close(&four[k]) == CVEC_DONE);
    HOLDS(cvec_vector_close(&vector) == CVEC_DONE);
}

static void grow_and_wait(cvec_seat *own, const uint64_t *records, size_t count, int turns) {
    cvec_receipt receipt;
    for (int k = 0; k < turns; k++) {
        HOLDS(cvec_seat_grow_u64(own, records, count, &receipt) == CVEC_DONE);
        HOLDS(cvec_seat_settle(own, receipt.number, CVEC_NO_LIMIT) == CVEC_DONE);
    }
}

/* Who commits waits for those that the last commit woke: each commit has a growth of each thread. */
enum { GATHERED = 40 };

static void *grow_little(void *own) {
    const uint64_t record = 7;
    grow_and_wait(own, &record, 1, GATHERED);
    return NULL;
}

static void gathers(const char *path) {
    make_four(path);
    const int before = syncs;
    run_four(grow_little);
    HOLDS(settled() == 4 * GATHERED);
    /* Two syncs each; those at the begin and at the end may have fewer. */
    HOLDS((syncs - before) / 2 < GATHERED * 4 / 3);
    close_four();
}

/* But it waits for nobody where the last commit wrote 256 KiB or more: here each writes 320,000 bytes at least. */
static void *grow_much(void *own) {
    static const uint64_t records[40000];
    grow_and_wait(own, records, 40000, 10);
    return NULL;
}

static void gathers_no_large(const char *path) {
    make_four(path);
    const int before = timed_waits;
    run_four(grow_much);
    HOLDS(settled() == 40 && timed_waits == before);
    close_four();
}

/* In version 1 the second growth takes a commit of its own, which isn't begun where the time has passed. */
static void late_between(const char *path) {
    static uint64_t many[131071];
    make(path, 1);
    for (int k = 0; k < 2; k++) HOLDS(cvec_seat_grow_u64(seat, many, 131071, NULL) == CVEC_DONE);
    HOLDS(cvec_seat_settle(seat, 1, 0) == CVEC_LATE && settled() == 1);
    HOLDS(cvec_seat_settle(seat, 1, 0) == CVEC_DONE && settled() == 2);
    HOLDS(cvec_seat_close(&seat) == CVEC_DONE && cvec_vector_close(&vector) == CVEC_DONE);
}

/* ---- flusher: growths become durable though nobody waits for them */

static const uint64_t at_once = 0, soon = 1, never = UINT64_MAX;

static void *run_flusher(void *every) { return (void *)(uintptr_t)cvec_vector_run_flusher(vector, *(const uint64_t *)every); }

static void begin_flusher(pthread_t *flusher, const uint64_t *every) {
    pthread_create(flusher, NULL, run_flusher, (void *)(uintptr_t)every);
}

static uint32_t end_of_flusher(pthread_t flusher) {
    void *status = NULL;
    pthread_join(flusher, &status);
    return (uint32_t)(uintptr_t)status;
}

/* Of this vector, whose loops run. */
static uint32_t flushers(void) {
    pthread_mutex_lock(&vector->mutex);
    uint32_t count = vector->flushers;
    pthread_mutex_unlock(&vector->mutex);
    return count;
}

static void until_settled(uint64_t count) {
    while (settled() < count && !wrong) nap();
}

static void flushes(const char *path) {
    pthread_t flusher, second, resting;
    cvec_seat *other;
    uint64_t number = 0;
    make(path, 2);
    begin_flusher(&flusher, &soon);
    begin_flusher(&second, &at_once);
    begin_flusher(&resting, &never);
    while (flushers() < 3) nap();
    for (uint64_t k = 0; k < 50; k++) {
        HOLDS(grow(k, &number) == CVEC_DONE);
        until_settled(k + 1);
    }
    /* A close that is refused ends no loop. */
    HOLDS(cvec_vector_close(&vector) == CVEC_BUSY);
    HOLDS(grow(50, &number) == CVEC_DONE);
    until_settled(51);
    /* So are the growths of each seat, also of one that is closed. */
    shut_gate(1);
    HOLDS(grow(51, &number) == CVEC_DONE);
    until_held();
    other = seat;
    HOLDS(cvec_seat_take(vector, &seat) == CVEC_DONE && grow(52, &number) == CVEC_DONE);
    HOLDS(cvec_seat_close(&other) == CVEC_DONE);
    shut_gate(0);
    until_settled(53);
    HOLDS(cvec_vector_stop_flusher(vector) == CVEC_DONE);
    HOLDS(end_of_flusher(flusher) == CVEC_DONE && end_of_flusher(second) == CVEC_DONE && end_of_flusher(resting) == CVEC_DONE);
    HOLDS(grow(53, &number) == CVEC_DONE);
    HOLDS(cvec_vector_run_flusher(vector, 1) == CVEC_DONE && settled() == 53);
    HOLDS(cvec_seat_close(&seat) == CVEC_DONE && cvec_vector_close(&vector) == CVEC_DONE);
    HOLDS(found(path) == 54);
}

/* The first turn takes all that it finds, also where another commits then, and more than one frame holds. */
static void flushes_all(const char *path) {
    static uint64_t many[131071];
    pthread_t flusher;
    struct wait first;
    uint64_t number = 0, size = 0;
    make(path, 2);
    HOLDS(cvec_seat_take(vector, &first.seat) == CVEC_DONE);
    HOLDS(grow(0, &number) == CVEC_DONE);
    shut_gate(1);
    begin_wait(&first, 0, 0);
    until_held();
    for (int k = 0; k < 3; k++) HOLDS(cvec_seat_grow_u64(seat, many, 131071, NULL) == CVEC_DONE);
    begin_flusher(&flusher, &never);
    while (flushers() == 0) nap();
    shut_gate(0);
    HOLDS(end_of(&first) == CVEC_DONE);
    until_settled(4);
    /* It rests, until the close ends it, which commits what is left, and so does a call of the whole vector. */
    for (int k = 0; k < 2; k++) HOLDS(cvec_seat_grow_u64(seat, many, 131071, NULL) == CVEC_DONE);
    HOLDS(grow(1, &number) == CVEC_DONE && settled() == 4);
    HOLDS(cvec_seat_close(&first.seat) == CVEC_DONE && cvec_seat_close(&seat) == CVEC_DONE);
    HOLDS(cvec_vector_close(&vector) == CVEC_DONE);
    HOLDS(end_of_flusher(flusher) == CVEC_DONE);
    HOLDS(cvec_vector_open(&vector, path, CVEC_U64, &(cvec_options){.seats = 1}) == CVEC_DONE && cvec_seat_take(vector, &seat) == CVEC_DONE);
    HOLDS(cvec_seat_size(seat, &size) == CVEC_DONE && size == 5 * 131071 + 2);
    for (int k = 0; k < 2; k++) HOLDS(cvec_seat_grow_u64(seat, many, 131071, NULL) == CVEC_DONE);
    HOLDS(cvec_seat_close(&seat) == CVEC_DONE);
    HOLDS(cvec_vector_compact(vector) == CVEC_DONE && cvec_seat_take(vector, &seat) == CVEC_DONE && settled() == 2);
    HOLDS(cvec_seat_size(seat, &size) == CVEC_DONE && size == 7 * 131071 + 2);
    HOLDS(cvec_seat_close(&seat) == CVEC_DONE);
    HOLDS(cvec_vector_close(&vector) == CVEC_DONE);
}

/* A turn of its own takes all that there is, of each seat, and takes none itself; behind a stop it takes nothing. */
static void flushes_once(const char *path) {
    static uint64_t many[131071];
    cvec_seat *other = NULL;
    uint64_t number = 0;
    make(path, 2);
    HOLDS(cvec_vector_flush(vector) == CVEC_DONE && settled() == 0);
    HOLDS(cvec_seat_take(vector, &other) == CVEC_DONE && grow(0, &number) == CVEC_DONE);
    for (uint64_t k = 0; k < 2 * 131071; k++) {
        many[k % 131071] = k + 1;
        if (k % 131071 == 131070) HOLDS(cvec_seat_grow_u64(other, many, 131071, NULL) == CVEC_DONE);
    }
    HOLDS(settled() == 0 && cvec_vector_flush(vector) == CVEC_DONE && settled() == 3 && flushers() == 0);
    HOLDS(grow(2 * 131071 + 1, &number) == CVEC_DONE && cvec_vector_stop_flusher(vector) == CVEC_DONE);
    HOLDS(cvec_vector_flush(vector) == CVEC_DONE && settled() == 3);
    HOLDS(cvec_seat_close(&other) == CVEC_DONE && cvec_seat_close(&seat) == CVEC_DONE && cvec_vector_close(&vector) == CVEC_DONE);
    HOLDS(found(path) == 2 * 131071 + 2);
}

/* A block that was published is among what it takes. */
static void flushes_blocks(const char *path) {
    pthread_t flusher;
    void *block = NULL;
    make(path, 1);
    begin_flusher(&flusher, &soon);
    for (uint64_t k = 0; k < 20; k++) {
        HOLDS(cvec_seat_block(seat, 1, &block) == CVEC_DONE);
        if (wrong) exit(1);
        *(uint64_t *)block = k;
        HOLDS(cvec_seat_publish(seat, NULL) == CVEC_DONE);
        until_settled(k + 1);
    }
    HOLDS(cvec_seat_close(&seat) == CVEC_DONE && cvec_vector_close(&vector) == CVEC_DONE);
    HOLDS(end_of_flusher(flusher) == CVEC_DONE && found(path) == 20);
}

/* A commit that is refused ends the loop. */
static void flusher_fails(const char *path) {
    pthread_t flusher;
    uint64_t number = 0;
    make(path, 1);
    HOLDS(grow(0, &number) == CVEC_DONE);
    begin_flusher(&flusher, &soon);
    until_settled(1);
    left = 0;
    HOLDS(grow(1, &number) == CVEC_DONE);
    HOLDS(end_of_flusher(flusher) == CVEC_DISK_WRITE);
    HOLDS(grow(2, &number) == CVEC_BROKEN && cvec_vector_run_flusher(vector, 1) == CVEC_BROKEN && cvec_vector_flush(vector) == CVEC_BROKEN);
    HOLDS(cvec_seat_close(&seat) == CVEC_DONE && cvec_vector_close(&vector) == CVEC_BROKEN);
    HOLDS(found(path) == 1);
}

/* ---- alone: the whole vector, while no seat is taken */

/* The vector has just these records, as a seat reads them. */
static void reads(const uint64_t *records, uint64_t len) {
    uint64_t seen[64], size = 0, count = 0;
    HOLDS(cvec_seat_take(vector, &seat) == CVEC_DONE);
    HOLDS(cvec_seat_size(seat, &size) == CVEC_DONE && size == len);
    HOLDS(cvec_seat_read_u64(seat, 0, seen, 64, &count) == CVEC_DONE && count == len);
    for (uint64_t k = 0; k < len && k < count; k++) HOLDS(seen[k] == records[k]);
    HOLDS(cvec_seat_close(&seat) == CVEC_DONE);
}

/* So also once it is closed and opened again. */
static void has(const char *path, const uint64_t *records, uint64_t len) {
    reads(records, len);
    HOLDS(cvec_vector_close(&vector) == CVEC_DONE);
    HOLDS(cvec_vector_open(&vector, path, CVEC_U64, &(cvec_options){.seats = 2}) == CVEC_DONE);
    if (wrong) exit(1);
    reads(records, len);
}

/* What each call of the whole vector answers. */
static void all_answer(uint32_t answer) {
    uint64_t record = 1;
    HOLDS(cvec_vector_change_u64(vector, 0, &record, 1) == answer);
    HOLDS(cvec_vector_resize_u64(vector, 1, 0) == answer);
    HOLDS(cvec_vector_clear(vector) == answer);
    HOLDS(cvec_vector_fold(vector) == answer);
    HOLDS(cvec_vector_compact(vector) == answer);
}

/* While somebody holds the vector each is refused, also while a seat is taken. */
static void all_are_held_off(void) {
    HOLDS(cvec_vector_hold(vector) == CVEC_DONE);
    all_answer(CVEC_BUSY);
    HOLDS(cvec_vector_release(vector) == CVEC_DONE);
}

/* How many records equal this one, and the first position from there on that has it, as a new seat finds them. */
static uint64_t counted(uint64_t record) {
    uint64_t count = 9;
    HOLDS(cvec_seat_take(vector, &seat) == CVEC_DONE && cvec_seat_count_u64(seat, record, &count) == CVEC_DONE);
    HOLDS(cvec_seat_close(&seat) == CVEC_DONE);
    return count;
}

static uint64_t first_of(uint64_t record, uint64_t from) {
    uint64_t place = 9;
    HOLDS(cvec_seat_take(vector, &seat) == CVEC_DONE && cvec_seat_find_u64(seat, record, from, &place) == CVEC_DONE);
    HOLDS(cvec_seat_close(&seat) == CVEC_DONE);
    return place;
}

/* Two seats that grew 0, 1, .. 5, and are closed; the growths of the second weren't awaited. */
static void grown(const char *path) {
    cvec_seat *first;
    uint64_t number = 0;
    make(path, 2);
    for (uint64_t k = 0; k < 3; k++) HOLDS(grow(k, &number) == CVEC_DONE);
    HOLDS(cvec_seat_settle(seat, number, CVEC_NO_LIMIT) == CVEC_DONE);
    first = seat;
    all_are_held_off();
    HOLDS(cvec_seat_take(vector, &seat) == CVEC_DONE);
    if (wrong) exit(1);
    for (uint64_t k = 3; k < 6; k++) HOLDS(grow(k, &number) == CVEC_DONE && number == k);
    HOLDS(cvec_seat_close(&first) == CVEC_DONE);
    all_are_held_off();
    HOLDS(cvec_seat_close(&seat) == CVEC_DONE);
}

static void alone(const char *path) {
    const uint64_t over[] = {12, 13, 12}, changed[] = {0, 1, 12, 13, 12, 5}, longer[] = {0, 1, 12, 13, 12, 5, 8, 8};
    uint64_t place = 9, number = 9;
    cvec_seat *second;
    grown(path);
    HOLDS(cvec_vector_change_u64(vector, 2, over, 3) == CVEC_DONE);
    HOLDS(counted(12) == 2 && counted(2) == 0);
    HOLDS(first_of(12, 0) == 2 && first_of(12, 3) == 4 && first_of(12, 5) == 6 && first_of(0, 0) == 0);
    has(path, changed, 6);
    /* Outside it, and shorter while the change isn't folded: nothing is written. */
    int before = writes;
    HOLDS(cvec_vector_change_u64(vector, 4, over, 3) == CVEC_OUT_OF_RANGE);
    HOLDS(cvec_vector_resize_u64(vector, 5, 0) == CVEC_UNFOLDED);
    HOLDS(cvec_vector_clear(vector) == CVEC_UNFOLDED);
    HOLDS(cvec_vector_change_u64(vector, 6, over, 0) == CVEC_DONE);
    HOLDS(cvec_vector_resize_u64(vector, 6, 7) == CVEC_DONE);
    HOLDS(writes == before);
    HOLDS(cvec_vector_resize_u64(vector, 8, 8) == CVEC_DONE);
    HOLDS(writes == before + 2);
    has(path, longer, 8);
    /* What was changed before it was opened is folded, and what was changed since, twice or grown since. */
    HOLDS(cvec_vector_change_u64(vector, 1, over, 3) == CVEC_DONE);
    HOLDS(cvec_vector_change_u64(vector, 1, longer + 1, 7) == CVEC_DONE);
    HOLDS(cvec_vector_fold(vector) == CVEC_DONE);
    before = writes;
    HOLDS(cvec_vector_fold(vector) == CVEC_DONE);
    HOLDS(writes == before);
    has(path, longer, 8);
    HOLDS(cvec_vector_resize_u64(vector, 6, 0) == CVEC_DONE);
    has(path, changed, 6);
    HOLDS(cvec_vector_clear(vector) == CVEC_DONE);
    HOLDS(first_of(0, 0) == 0);
    /* Each seat is given again, and their growths are counted on from when it was opened. */
    HOLDS(cvec_seat_take(vector, &seat) == CVEC_DONE);
    HOLDS(cvec_seat_take(vector, &second) == CVEC_DONE);
    HOLDS(grow(0, &number) == CVEC_DONE && number == 0);
    HOLDS(cvec_seat_settled(seat, &place) == CVEC_DONE && place == 0);
    HOLDS(cvec_seat_settle(second, number, CVEC_NO_LIMIT) == CVEC_DONE);
    HOLDS(cvec_seat_settled(second, &place) == CVEC_DONE && place == 1);
    HOLDS(cvec_seat_close(&seat) == CVEC_DONE);
    HOLDS(cvec_seat_close(&second) == CVEC_DONE);
    HOLDS(cvec_vector_close(&vector) == CVEC_DONE);
    HOLDS(found(path) == 1);
}

/* One of the four calls of a change fails: the file has what it had, or the change, and nothing goes on until it is opened. */
static void alone_fails_at(const char *path, int call) {
    const uint64_t over[] = {9}, was[] = {0, 1, 2, 3, 4, 5}, is[] = {9, 1, 2, 3, 4, 5};
    uint64_t count = 9;
    remove(path);
    grown(path);
    HOLDS(cvec_vector_compact(vector) == CVEC_DONE);
    left = call;
    HOLDS(cvec_vector_change_u64(vector, 0, over, 1) == (call % 2 == 0 ? CVEC_DISK_WRITE : CVEC_DISK_SYNC));
    left = -1;
    int before = writes;
    all_answer(CVEC_BROKEN);
    HOLDS(cvec_seat_take(vector, &seat) == CVEC_BROKEN && seat == NULL);
    HOLDS(cvec_vector_close(&vector) == CVEC_BROKEN);
    HOLDS(writes == before);
    HOLDS(cvec_vector_open(&vector, path, CVEC_U64, &(cvec_options){.seats = 2}) == CVEC_DONE);
    count = counted(9);
    HOLDS(count <= (call < 2 ? 0 : 1));
    has(path, count == 0 ? was : is, 6);
    HOLDS(cvec_vector_close(&vector) == CVEC_DONE);
}

static void alone_faults(const char *path) {
    for (int call = 0; call < 4; call++) alone_fails_at(path, call);
    /* Growths that nobody awaited are committed first: so it fails there. */
    remove(path);
    grown(path);
    left = 0;
    HOLDS(cvec_vector_clear(vector) == CVEC_DISK_WRITE);
    left = -1;
    all_answer(CVEC_BROKEN);
    HOLDS(cvec_vector_close(&vector) == CVEC_BROKEN);
    HOLDS(found(path) == 3);
}

static void alone_forks(const char *path) {
    int status = 1;
    grown(path);
    pid_t child = fork();
    if (child == 0) {
        all_answer(CVEC_FORKED);
        _exit(wrong);
    }
    HOLDS(waitpid(child, &status, 0) == child && status == 0);
    HOLDS(cvec_vector_clear(vector) == CVEC_DONE);
    HOLDS(cvec_vector_close(&vector) == CVEC_DONE);
    HOLDS(found(path) == 0);
}

static void *run_clear(void *answer) {
    *(uint32_t *)answer = cvec_vector_clear(vector);
    return NULL;
}

/* What this call answers, of a vector that has no seat to give: it waits for a flusher that commits, and makes no call itself.
 * Meanwhile a close is refused, which ends no loop. */
static uint32_t waits_for_flusher(void *(*call)(void *)) {
    pthread_t flusher, caller;
    uint32_t answer = CVEC_BUSY;
    shut_gate(1);
    begin_flusher(&flusher, &never);
    until_held();
    int before = __atomic_load_n(&waits, __ATOMIC_SEQ_CST);
    pthread_create(&caller, NULL, call, &answer);
    while (__atomic_load_n(&waits, __ATOMIC_SEQ_CST) == before && holds() < 2) nap();
    HOLDS(holds() == 1);
    __atomic_store_n(&wait_opens_gate, 1, __ATOMIC_SEQ_CST);
    HOLDS(cvec_vector_close(&vector) == CVEC_BUSY);
    if (wrong) exit(1);
    __atomic_store_n(&wait_opens_gate, 0, __ATOMIC_SEQ_CST);
    HOLDS(holds() == 1 && flushers() == 1);
    shut_gate(0);
    pthread_join(caller, NULL);
    HOLDS(cvec_vector_stop_flusher(vector) == CVEC_DONE && end_of_flusher(flusher) == CVEC_DONE);
    return answer;
}

/* A call of the whole vector waits for a flusher that commits, but for nobody where the vector is held. */
static void alone_waits(const char *path) {
    struct wait first;
    uint64_t number = 0;
    make(path, 2);
    HOLDS(grow(0, &number) == CVEC_DONE);
    first.seat = seat;
    shut_gate(1);
    begin_wait(&first, number, 0);
    until_held();
    all_are_held_off();
    HOLDS(cvec_seat_take(vector, &seat) == CVEC_DONE);
    shut_gate(0);
    HOLDS(end_of(&first) == CVEC_DONE && cvec_seat_close(&first.seat) == CVEC_DONE);
    HOLDS(grow(1, &number) == CVEC_DONE);
    HOLDS(cvec_seat_close(&seat) == CVEC_DONE);
    HOLDS(waits_for_flusher(run_clear) == CVEC_DONE);
    HOLDS(cvec_vector_close(&vector) == CVEC_DONE);
    HOLDS(found(path) == 0);
}

/* A seat that was closed is had again beside a flusher that commits, and behind a whole vector's call, without a wait. */
static void seat_is_had_again(const char *path) {
    pthread_t flusher;
    uint64_t number = 9;
    cvec_receipt receipt;
    make(path, 1);
    HOLDS(grow(0, &number) == CVEC_DONE);
    HOLDS(cvec_seat_close(&seat) == CVEC_DONE);
    shut_gate(1);
    begin_flusher(&flusher, &never);
    until_held();
    for (uint64_t k = 1; k < 200; k++) { /* each counts its own growths */
        HOLDS(cvec_seat_take(vector, &seat) == CVEC_DONE);
        HOLDS(cvec_seat_grow_u64(seat, &k, 1, &receipt) == CVEC_DONE && receipt.number == k && receipt.serial == 0);
        HOLDS(cvec_seat_close(&seat) == CVEC_DONE);
    }
    HOLDS(holds() == 1);
    shut_gate(0);
    HOLDS(cvec_vector_fold(vector) == CVEC_DONE && cvec_seat_take(vector, &seat) == CVEC_DONE);
    HOLDS(settled() == 200 && grow(200, &number) == CVEC_DONE && number == 200);
    HOLDS(cvec_vector_stop_flusher(vector) == CVEC_DONE && end_of_flusher(flusher) == CVEC_DONE);
    HOLDS(cvec_seat_close(&seat) == CVEC_DONE && cvec_vector_close(&vector) == CVEC_DONE);
    HOLDS(found(path) == 201);
}

/* A flusher waited for another's commit. When it goes on, one has the vector alone. */
static void alone_beside_a_late_flusher(const char *path) {
    pthread_t flusher;
    struct wait first;
    uint64_t number = 0;
    make(path, 1);
    for (uint64_t k = 0; k < 3; k++) HOLDS(grow(k, &number) == CVEC_DONE);
    first.seat = seat;
    shut_gate(1);
    begin_wait(&first, 0, 0);
    until_held();
    int before = __atomic_load_n(&waits, __ATOMIC_SEQ_CST);
    begin_flusher(&flusher, &never);
    while (__atomic_load_n(&waits, __ATOMIC_SEQ_CST) == before) nap();
    __atomic_store_n(&dozing, 1, __ATOMIC_SEQ_CST);
    shut_gate(0);
    HOLDS(end_of(&first) == CVEC_DONE && cvec_seat_close(&seat) == CVEC_DONE);
    HOLDS(cvec_seat_take(vector, &seat) == CVEC_DONE && grow(3, &number) == CVEC_DONE && number == 3);
    HOLDS(cvec_seat_close(&seat) == CVEC_DONE && cvec_vector_compact(vector) == CVEC_DONE);
    before = __atomic_load_n(&timed_waits, __ATOMIC_SEQ_CST);
    __atomic_store_n(&dozing, 0, __ATOMIC_SEQ_CST);
    while (__atomic_load_n(&timed_waits, __ATOMIC_SEQ_CST) == before && flushers() > 0) nap();
    HOLDS(cvec_vector_compact(vector) == CVEC_DONE && cvec_vector_close(&vector) == CVEC_DONE);
    HOLDS(end_of_flusher(flusher) == CVEC_DONE);
    HOLDS(found(path) == 4);
}

/* Beside the loops of flushers, which commit meanwhile. */
static void alone_flushes(const char *path) {
    const uint64_t over[] = {7};
    pthread_t flusher;
    uint64_t number = 0, place = 9;
    make(path, 1);
    begin_flusher(&flusher, &soon);
    for (uint64_t k = 0; k < 50; k++) {
        HOLDS(grow(k, &number) == CVEC_DONE && number == k);
        HOLDS(cvec_seat_close(&seat) == CVEC_DONE);
        HOLDS(cvec_vector_change_u64(vector, k, over, 1) == CVEC_DONE);
        HOLDS(cvec_seat_take(vector, &seat) == CVEC_DONE);
        HOLDS(cvec_seat_count_u64(seat, 7, &place) == CVEC_DONE && place == k + 1);
    }
    HOLDS(grow(8, &number) == CVEC_DONE && number == 50);
    until_settled(51);
    HOLDS(cvec_seat_close(&seat) == CVEC_DONE && cvec_vector_close(&vector) == CVEC_DONE);
    HOLDS(end_of_flusher(flusher) == CVEC_DONE);
    HOLDS(cvec_vector_open(&vector, path, CVEC_U64, &(cvec_options){.seats = 1}) == CVEC_DONE);
    HOLDS(first_of(8, 0) == 50);
    HOLDS(cvec_vector_close(&vector) == CVEC_DONE);
}

/* ---- records of each type */

static uint32_t grow_typed(cvec_type type, const uint64_t *numbers, size_t count, cvec_receipt *receipt) {
    union record records[16];
    put_records(type, numbers, count, (uint8_t *)records);
    return cvec_seat_grow(seat, vector->type, records, count, receipt);
}

/* The vector has just the records of these numbers, as a seat reads them; and what follows them in memory stays. */
static void reads_typed(cvec_type type, const uint64_t *numbers, uint64_t len) {
    uint8_t seen[17 * sizeof(union record)];
    uint64_t size = 0, count = 0;
    memset(seen, 0xa5, sizeof seen);
    HOLDS(cvec_seat_take(vector, &seat) == CVEC_DONE);
    HOLDS(cvec_seat_size(seat, &size) == CVEC_DONE && size == len);
    HOLDS(cvec_seat_read(seat, vector->type, 0, seen, 16, &count) == CVEC_DONE && count == len);
    for (uint64_t k = 0; k < len && k < count; k++) HOLDS(is_record(type, seen + k * size_of(type), numbers[k]));
    HOLDS(seen[len * size_of(type)] == 0xa5);
    HOLDS(len < 2 || (cvec_seat_read(seat, vector->type, len - 1, seen, 2, &count) == CVEC_DONE && count == 1 && is_record(type, seen, numbers[len - 1])));
    HOLDS(cvec_seat_close(&seat) == CVEC_DONE);
}

/* So also once it is closed and opened again; and no file of records of another width is opened so. */
static void has_typed(const char *path, cvec_type type, const uint64_t *numbers, uint64_t len) {
    reads_typed(type, numbers, len);
    HOLDS(cvec_vector_close(&vector) == CVEC_DONE);
    for (int k = 0; k < CVEC_TYPE_COUNT; k++) {
        const cvec_type other = (cvec_type)k;
        if (width_of(other) != width_of(type)) HOLDS(cvec_vector_open(&vector, path, other, &(cvec_options){.seats = 2}) == CVEC_WIDTH && vector == NULL);
    }
    HOLDS(cvec_vector_open(&vector, path, type, &(cvec_options){.seats = 2}) == CVEC_DONE);
    if (wrong) exit(1);
    reads_typed(type, numbers, len);
}

/* As many bytes of records as one growth may have, and a record more. */
static void grows_most(cvec_type type) {
    const size_t most = ((1u << 20) - 8) / width_of(type);
    uint8_t *records = calloc(most + 1, size_of(type));
    cvec_receipt receipt = {9, 9, 9, 9, 9};
    HOLDS(cvec_seat_take(vector, &seat) == CVEC_DONE);
    HOLDS(cvec_seat_grow(seat, vector->type, records, most + 1, &receipt) == CVEC_TOO_LARGE && receipt.len == 9);
    HOLDS(cvec_seat_grow(seat, vector->type, records, most, &receipt) == CVEC_DONE && receipt.len == most);
    HOLDS(cvec_seat_close(&seat) == CVEC_DONE);
    free(records);
}

static void searches(cvec_type type, uint64_t number, uint64_t from, uint64_t count, uint64_t place) {
    const union record sought = record_of(type, number);
    uint64_t found_count = 9, found_place = 9;
    HOLDS(cvec_seat_take(vector, &seat) == CVEC_DONE);
    HOLDS(cvec_seat_count(seat, vector->type, &sought, &found_count) == CVEC_DONE && found_count == count);
    HOLDS(cvec_seat_find(seat, vector->type, &sought, from, &found_place) == CVEC_DONE && found_place == place);
    HOLDS(cvec_seat_close(&seat) == CVEC_DONE);
}

/* What names one record of u64 is for these alone. */
static void is_for_words(cvec_type type) {
    const uint32_t answer = width_of(type) == 8 ? CVEC_DONE : CVEC_WIDTH;
    uint64_t out = 9, record = 9;
    HOLDS(cvec_vector_resize_u64(vector, 6, 0) == answer);
    HOLDS(cvec_vector_change_u64(vector, 6, &out, 0) == answer);
    HOLDS(cvec_seat_take(vector, &seat) == CVEC_DONE);
    HOLDS(cvec_seat_count_u64(seat, UINT64_MAX - 100, &out) == answer && out == (answer == CVEC_DONE ? 0 : 9));
    HOLDS(cvec_seat_find_u64(seat, UINT64_MAX - 100, 0, &out) == answer && out == (answer == CVEC_DONE ? 6 : 9));
    HOLDS(cvec_seat_grow_u64(seat, &out, 0, NULL) == (answer == CVEC_DONE ? CVEC_EMPTY : CVEC_WIDTH));
    HOLDS(cvec_seat_read_u64(seat, 6, &record, 1, &out) == answer);
    HOLDS(cvec_seat_close(&seat) == CVEC_DONE);
}

static void typed_of(const char *path, cvec_type type, uint8_t version) {
    const uint64_t first[] = {0, 1, 2, 3}, more[] = {4, 1}, over[] = {7, 8}, all[] = {0, 1, 2, 3, 4, 1},
                   changed[] = {0, 7, 8, 3, 4, 1}, longer[] = {0, 7, 8, 3, 4, 1, 9, 9, 9};
    const union record filler = record_of(type, 9);
    union record written[2];
    cvec_receipt receipt;
    remove(path);
    HOLDS(cvec_vector_create(&vector, path, type, &(cvec_options){.version = version, .seats = 2}) == CVEC_DONE);
    if (wrong) exit(1);
    HOLDS(cvec_seat_take(vector, &seat) == CVEC_DONE);
    HOLDS(grow_typed(type, first, 0, &receipt) == CVEC_EMPTY);
    HOLDS(grow_typed(type, first, 4, &receipt) == CVEC_DONE && receipt.start == 0 && receipt.len == 4);
    HOLDS(grow_typed(type, more, 2, &receipt) == CVEC_DONE && receipt.start == 4 && receipt.len == 2);
    HOLDS(cvec_seat_settle(seat, receipt.number, CVEC_NO_LIMIT) == CVEC_DONE);
    HOLDS(cvec_seat_close(&seat) == CVEC_DONE);
    has_typed(path, type, all, 6);
    searches(type, 1, 2, 2, 5);
    searches(type, 7, 0, 0, 6);
    put_records(type, over, 2, (uint8_t *)written);
    HOLDS(cvec_vector_change(vector, vector->type, 1, written, 2) == CVEC_DONE);
    searches(type, 7, 0, 1, 1);
    is_for_words(type);
    has_typed(path, type, changed, 6);
    HOLDS(cvec_vector_resize(vector, vector->type, 9, &filler) == CVEC_DONE);
    has_typed(path, type, longer, 9);
    HOLDS(cvec_vector_fold(vector) == CVEC_DONE);
    HOLDS(cvec_vector_resize(vector, vector->type, 6, &filler) == CVEC_DONE);
    has_typed(path, type, changed, 6);
    grows_most(type);
    HOLDS(cvec_vector_fold(vector) == CVEC_DONE && cvec_vector_clear(vector) == CVEC_DONE);
    has_typed(path, type, all, 0);
    HOLDS(cvec_vector_close(&vector) == CVEC_DONE);
}

/* No vector is made or opened by a number of no type. */
static void refuses_type(const char *path) {
    const cvec_type type = CVEC_TYPE_COUNT;
    remove(path);
    HOLDS(cvec_vector_create(&vector, path, type, &(cvec_options){.version = 1, .seats = 1}) == CVEC_NOT_SO && vector == NULL && access(path, F_OK) != 0);
    HOLDS(cvec_vector_create(&vector, path, CVEC_PAIR, &(cvec_options){.version = 1, .seats = 1}) == CVEC_DONE && cvec_vector_close(&vector) == CVEC_DONE);
    HOLDS(cvec_vector_open(&vector, path, type, &(cvec_options){.seats = 1}) == CVEC_NOT_SO && vector == NULL);
}

static void typed(const char *path) {
    for (int k = 0; k < CVEC_TYPE_COUNT; k++)
        for (uint8_t version = 1; version <= 2; version++) typed_of(path, (cvec_type)k, version);
    refuses_type(path);
}

/* A flag is 0 or 1: no call takes another byte for one, and nothing is grown or changed then. */
static void flags(const char *path) {
    const uint64_t first[] = {0, 1};
    cvec_flagged records[2] = {{5, true}, {6, true}};
    uint64_t out = 9;
    cvec_receipt receipt = {9, 9, 9, 9, 9};
    HOLDS(cvec_vector_create(&vector, path, CVEC_FLAGGED, &(cvec_options){.version = 1, .seats = 1}) == CVEC_DONE);
    if (wrong) exit(1);
    HOLDS(cvec_seat_take(vector, &seat) == CVEC_DONE);
    HOLDS(grow_typed(CVEC_FLAGGED, first, 2, NULL) == CVEC_DONE);
    ((uint8_t *)&records[1])[8] = 2;
    HOLDS(cvec_seat_grow(seat, vector->type, records, 2, &receipt) == CVEC_NO_RECORD && receipt.number == 9);
    HOLDS(cvec_seat_push(seat, vector->type, &records[1]) == CVEC_NO_RECORD);
    HOLDS(cvec_seat_flush(seat, &receipt) == CVEC_EMPTY && receipt.number == 9);
    HOLDS(cvec_seat_count(seat, vector->type, &records[1], &out) == CVEC_NO_RECORD);
    HOLDS(cvec_seat_find(seat, vector->type, &records[1], 0, &out) == CVEC_NO_RECORD && out == 9);
    HOLDS(cvec_seat_close(&seat) == CVEC_DONE);
    HOLDS(cvec_vector_change(vector, vector->type, 0, records, 2) == CVEC_NO_RECORD);
    HOLDS(cvec_vector_resize(vector, vector->type, 3, &records[1]) == CVEC_NO_RECORD);
    has_typed(path, CVEC_FLAGGED, first, 2);
    HOLDS(cvec_vector_close(&vector) == CVEC_DONE);
}

/* A block is of its grower's width: one of another vector of that width publishes it, and none else. */
static void blocks_have_one_width(void) {
    cvec_handle file = {0}, phase = {0}, grower = {0}, block = {0};
    cvec_receipt receipt = {9, 9, 9, 9, 9};
    uint64_t size = 9;
    void *records = &receipt;
    HOLDS(cvec_phase_file(0, 4, &file) == CVEC_DONE && cvec_phase_begin(&file, 1, 8, 1, &phase) == CVEC_DONE);
    HOLDS(cvec_phase_seat(&phase, &grower) == CVEC_DONE);
    HOLDS(cvec_phase_publish(&grower, &block, &receipt) == CVEC_NOT_SO);
    HOLDS(cvec_phase_block(&phase, 1, &block, &records) == CVEC_NOT_SO && !block.full && records == &receipt);
    HOLDS(cvec_phase_block(&seat->grower, 2, &block, &records) == CVEC_DONE && block.full && records != &receipt);
    ((uint64_t *)records)[1] = 7;
    HOLDS(cvec_phase_publish(&grower, &block, &receipt) == CVEC_WIDTH && block.full && receipt.number == 9);
    HOLDS(cvec_phase_publish(&vector->phase, &block, &receipt) == CVEC_NOT_SO && block.full && receipt.number == 9);
    HOLDS(cvec_phase_publish(&seat->grower, &seat->grower, &receipt) == CVEC_NOT_SO && seat->grower.full);
    HOLDS(((uint64_t *)records)[1] == 7 && cvec_phase_close(&block) == CVEC_DONE && !block.full);
    HOLDS(cvec_phase_size(&seat->grower, &size) == CVEC_DONE && size == 1);
    HOLDS(cvec_phase_close(&grower) == CVEC_DONE && cvec_phase_close(&phase) == CVEC_DONE && cvec_phase_close(&file) == CVEC_DONE);
}

/* Bytes that are no records of a handle are refused, and change nothing; so are those of another end. */
static void widths(const char *path) {
    const uint64_t two[] = {5, 6};
    uint64_t out = 9, count = 9;
    cvec_receipt receipt = {9, 9, 9, 9, 9};
    cvec_call call;
    make(path, 1);
    HOLDS(cvec_phase_grow(&seat->grower, two, 12, &receipt) == CVEC_NO_RECORD && receipt.number == 9);
    HOLDS(cvec_phase_grow(&seat->grower, two, 7, &receipt) == CVEC_EMPTY && receipt.number == 9);
    HOLDS(cvec_phase_grow(&vector->committer, two, 12, &receipt) == CVEC_NOT_SO && receipt.number == 9);
    HOLDS(cvec_phase_count(&seat->grower, two, 4, &count) == CVEC_NO_RECORD && count == 9);
    HOLDS(cvec_phase_count(&seat->grower, two, 16, &count) == CVEC_NO_RECORD && count == 9);
    HOLDS(cvec_phase_find(&seat->grower, two, 9, 0, &count) == CVEC_NO_RECORD && count == 9);
    HOLDS(cvec_phase_count(&vector->committer, two, 8, &count) == CVEC_NOT_SO && count == 9);
    HOLDS(cvec_phase_read(&vector->committer, 0, &out, 8, &count) == CVEC_NOT_SO && count == 9 && out == 9);
    /* So many records have more bytes than a number has: as many as one record by what is left of it. */
    HOLDS(cvec_seat_grow(seat, vector->type, two, SIZE_MAX / 8 + 2, &receipt) == CVEC_TOO_LARGE && receipt.number == 9);
    HOLDS(grow(5, &out) == CVEC_DONE && out == 0);
    out = 9;
    HOLDS(cvec_phase_read(&seat->grower, 0, &out, 7, &count) == CVEC_DONE && count == 0 && out == 9);
    HOLDS(cvec_phase_read(&seat->grower, 1, &out, 8, &count) == CVEC_DONE && count == 0 && out == 9);
    HOLDS(cvec_phase_read(&seat->grower, 0, &out, 8, &count) == CVEC_DONE && count == 1 && out == 5);
    blocks_have_one_width();
    HOLDS(cvec_phase_file(0, 5, &seat->grower) == CVEC_WIDTH);
    HOLDS(cvec_phase_feed(&seat->grower, (const uint8_t *)"x", 1) == CVEC_NOT_SO);
    HOLDS(cvec_phase_begin(&seat->grower, 0, 5, 1, &vector->phase) == CVEC_NOT_SO);
    HOLDS(cvec_phase_call(&vector->committer, 0, &call) == CVEC_OUT_OF_RANGE && cvec_phase_call(&vector->phase, 0, &call) == CVEC_NOT_SO);
    HOLDS(cvec_seat_close(&seat) == CVEC_DONE);
    HOLDS(cvec_vector_clear(vector) == CVEC_DONE);
    HOLDS(cvec_vault_change(&vector->committer, 0, two, 9) == CVEC_NO_RECORD);
    HOLDS(cvec_vault_resize(&vector->committer, 3, two, 4) == CVEC_NO_RECORD);
    HOLDS(cvec_vault_size(&vector->committer, &count) == CVEC_DONE && count == 0);
    HOLDS(cvec_vector_close(&vector) == CVEC_DONE);
}

/* The library takes a flag as the byte 0 or 1 and no other, and its records at any address. */
static void flags_by_bytes(const char *path) {
    const uint8_t bytes[] = {0xff, 5, 0, 0, 0, 0, 0, 0, 0, 1, 6, 0, 0, 0, 0, 0, 0, 0, 2};
    cvec_flagged out[2] = {{9, false}, {9, false}};
    uint8_t again[10] = {9, 9, 9, 9, 9, 9, 9, 9, 9, 9};
    cvec_receipt receipt = {9, 9, 9, 9, 9};
    uint64_t count = 9;
    HOLDS(cvec_vector_create(&vector, path, CVEC_FLAGGED, &(cvec_options){.version = 1, .seats = 1}) == CVEC_DONE && cvec_seat_take(vector, &seat) == CVEC_DONE);
    HOLDS(cvec_phase_grow(&seat->grower, bytes + 1, 18, &receipt) == CVEC_NO_RECORD && receipt.number == 9);
    HOLDS(cvec_phase_count(&seat->grower, bytes + 10, 9, &count) == CVEC_NO_RECORD && count == 9);
    HOLDS(cvec_phase_grow(&seat->grower, bytes + 1, 9, &receipt) == CVEC_DONE && receipt.number == 0 && receipt.len == 1);
    HOLDS(cvec_seat_read(seat, vector->type, 0, out, 2, &count) == CVEC_DONE && count == 1 && out[0].key == 5 && out[0].flag);
    HOLDS(out[1].key == 9 && !out[1].flag);
    HOLDS(cvec_phase_read(&seat->grower, 0, again, sizeof again, &count) == CVEC_DONE && count == 1 && again[9] == 9);
    HOLDS(memcmp(again, bytes + 1, 9) == 0);
    HOLDS(cvec_phase_count(&seat->grower, bytes + 1, 9, &count) == CVEC_DONE && count == 1);
    HOLDS(cvec_phase_find(&seat->grower, bytes + 1, 9, 0, &count) == CVEC_DONE && count == 0);
    HOLDS(cvec_seat_close(&seat) == CVEC_DONE && cvec_vector_close(&vector) == CVEC_DONE);
}

/* Goes on with a file that is there, by records 0 and 1 of its type. */
static void goes_on(const char *path, cvec_type type) {
    const uint64_t numbers[] = {0, 1};
    cvec_receipt receipt;
    HOLDS(cvec_vector_open(&vector, path, type, &(cvec_options){.seats = 1}) == CVEC_DONE);
    if (wrong) exit(1);
    HOLDS(cvec_seat_take(vector, &seat) == CVEC_DONE);
    HOLDS(grow_typed(type, numbers, 2, &receipt) == CVEC_DONE);
    HOLDS(cvec_seat_settle(seat, receipt.number, CVEC_NO_LIMIT) == CVEC_DONE);
    HOLDS(cvec_seat_close(&seat) == CVEC_DONE);
    HOLDS(cvec_vector_close(&vector) == CVEC_DONE);
}

static void goes_on_u32(const char *path) { goes_on(path, CVEC_U32); }
static void goes_on_u64(const char *path) { goes_on(path, CVEC_U64); }
static void goes_on_i64(const char *path) { goes_on(path, CVEC_I64); }
static void goes_on_pair(const char *path) { goes_on(path, CVEC_PAIR); }
static void goes_on_flagged(const char *path) { goes_on(path, CVEC_FLAGGED); }

/* ---- records that are pushed, and one that is read */

static uint32_t push(uint64_t record) { return cvec_seat_push(seat, vector->type, &record); }

/* The numbers from this one to before that one. */
static void push_all(uint64_t from, uint64_t to) {
    for (; from < to; from++) HOLDS(push(from) == CVEC_DONE);
}

/* So many records wait, which are the numbers from this one on. */
static void keeps(uint64_t from, size_t wanted) {
    const void *records = NULL;
    size_t count = SIZE_MAX;
    HOLDS(cvec_seat_waiting(seat, &records, &count) == CVEC_DONE && records != NULL && count == wanted);
    for (size_t k = 0; k < count && count == wanted; k++) HOLDS(((const uint64_t *)records)[k] == from + k);
}

static uint64_t size_by(cvec_seat *own) {
    uint64_t size = UINT64_MAX;
    HOLDS(cvec_seat_size(own, &size) == CVEC_DONE);
    return size;
}

/* The last growth by what was pushed stands there, and has so many records; where none wait it is asked for again. */
static void is_last(uint64_t number, uint64_t start, uint64_t len) {
    cvec_receipt receipt = {9, 9, 9, 9, 9};
    for (int k = 0; k < 2; k++) {
        HOLDS(cvec_seat_flush(seat, &receipt) == CVEC_DONE);
        HOLDS(receipt.number == number && receipt.start == start && receipt.len == len);
        keeps(0, 0);
    }
    HOLDS(cvec_seat_flush(seat, NULL) == CVEC_DONE);
}

/* What is pushed waits: no seat reads it, and nothing makes it durable, until it is a block or is asked for. Then it is one
 * growth, behind all that was grown meanwhile. */
static void pushes(const char *path) {
    cvec_seat *other;
    cvec_receipt receipt = {9, 9, 9, 9, 9};
    uint64_t number = 0;
    make(path, 2);
    HOLDS(cvec_seat_take(vector, &other) == CVEC_DONE);
    HOLDS(cvec_seat_flush(seat, &receipt) == CVEC_EMPTY && receipt.number == 9);
    HOLDS(cvec_seat_flush(seat, NULL) == CVEC_EMPTY);
    keeps(0, 0);
    const int before = writes;
    push_all(0, 1023);
    keeps(0, 1023);
    HOLDS(size_by(seat) == 0 && size_by(other) == 0);
    HOLDS(cvec_seat_at(seat, vector->type, 0, &number) == CVEC_OUT_OF_RANGE);
    HOLDS(cvec_seat_settle(seat, 0, CVEC_NO_LIMIT) == CVEC_OUT_OF_RANGE && cvec_seat_settle(other, 0, CVEC_NO_LIMIT) == CVEC_OUT_OF_RANGE);
    HOLDS(writes == before);
    push_all(1023, 1024);
    HOLDS(size_by(seat) == 1024 && size_by(other) == 1024 && settled() == 0);
    is_last(0, 0, 1024);
    push_all(1025, 1027);
    HOLDS(grow(1024, &number) == CVEC_DONE && number == 1);
    keeps(1025, 2);
    HOLDS(cvec_seat_settle(seat, 1, CVEC_NO_LIMIT) == CVEC_DONE && settled() == 2 && size_by(other) == 1025);
    keeps(1025, 2);
    is_last(2, 1025, 2);
    HOLDS(size_by(other) == 1027 && cvec_seat_settle(other, 2, CVEC_NO_LIMIT) == CVEC_DONE && settled() == 3);
    HOLDS(cvec_seat_close(&other) == CVEC_DONE && cvec_seat_close(&seat) == CVEC_DONE);
    HOLDS(cvec_vector_close(&vector) == CVEC_DONE && found(path) == 1027);
}

/* Four threads push so many each: one record, a block, and parts of one behind several. */
static const uint64_t pushed_by[] = {1, 1024, 2500, 4097};
enum { PUSHED_BY_ALL = 1 + 1024 + 2500 + 4097, BLOCKS_OF_ALL = 1 + 1 + 3 + 5 };

static void *push_own(void *own) {
    uint64_t name = 0;
    while (four[name] != own) name++;
    for (uint64_t k = 0; k < pushed_by[name]; k++) {
        const uint64_t record = name << 32 | k;
        HOLDS(cvec_seat_push(own, vector->type, &record) == CVEC_DONE);
    }
    return NULL;
}

/* Those of each thread are there in order, and each block of them is in a row. */
static void are_in_order(const uint64_t *records, uint64_t count) {
    uint64_t next[4] = {0};
    for (uint64_t at = 0; at < count; at++) {
        const uint64_t name = records[at] >> 32, k = records[at] & UINT32_MAX;
        HOLDS(name < 4 && k == next[name]);
        if (wrong) return;
        HOLDS(k % 1024 == 0 || records[at - 1] == records[at] - 1);
        next[name]++;
    }
    for (int name = 0; name < 4; name++) HOLDS(next[name] == pushed_by[name]);
}

static void push_threads(const char *path) {
    static uint64_t seen[PUSHED_BY_ALL + 2];
    uint64_t number = 0, count = 0;
    make(path, 5);
    for (int k = 0; k < 4; k++) HOLDS(cvec_seat_take(vector, &four[k]) == CVEC_DONE);
    run_four(push_own);
    HOLDS(size_by(seat) == 1024 + 2048 + 4096);
    for (int k = 0; k < 4; k++) HOLDS(cvec_seat_close(&four[k]) == CVEC_DONE);
    HOLDS(grow(7, &number) == CVEC_DONE && number == BLOCKS_OF_ALL);
    HOLDS(cvec_seat_close(&seat) == CVEC_DONE && cvec_vector_close(&vector) == CVEC_DONE);
    HOLDS(cvec_vector_open(&vector, path, CVEC_U64, &(cvec_options){.seats = 1}) == CVEC_DONE && cvec_seat_take(vector, &seat) == CVEC_DONE);
    HOLDS(cvec_seat_read_u64(seat, 0, seen, PUSHED_BY_ALL + 2, &count) == CVEC_DONE && count == PUSHED_BY_ALL + 1);
    HOLDS(seen[PUSHED_BY_ALL] == 7);
    are_in_order(seen, PUSHED_BY_ALL);
    HOLDS(cvec_seat_close(&seat) == CVEC_DONE && cvec_vector_close(&vector) == CVEC_DONE);
}

/* Who closes a seat grows by what waits, and by nothing where nothing does. */
static void push_closes(const char *path) {
    uint64_t number = 0;
    make(path, 4);
    push_all(0, 3);
    HOLDS(cvec_seat_close(&seat) == CVEC_DONE);
    HOLDS(cvec_seat_take(vector, &seat) == CVEC_DONE && size_by(seat) == 3);
    push_all(3, 3 + 1024);
    HOLDS(cvec_seat_close(&seat) == CVEC_DONE);
    HOLDS(cvec_seat_take(vector, &seat) == CVEC_DONE);
    HOLDS(grow(1027, &number) == CVEC_DONE && number == 2);
    push_all(1028, 1030);
    HOLDS(cvec_seat_close(&seat) == CVEC_DONE);
    HOLDS(cvec_vector_close(&vector) == CVEC_DONE && found(path) == 1030);
}

/* So many records are a block where that is asked for; what waited before is grown by then. */
static void push_blocks(const char *path) {
    make(path, 1);
    HOLDS(cvec_seat_push_block(seat, 0) == CVEC_EMPTY);
    HOLDS(cvec_seat_push_block(seat, SIZE_MAX) == CVEC_TOO_LARGE);
    HOLDS(cvec_seat_push_block(seat, 3) == CVEC_DONE && size_by(seat) == 0);
    push_all(0, 8);
    HOLDS(size_by(seat) == 6);
    keeps(6, 2);
    HOLDS(cvec_seat_push_block(seat, 131072) == CVEC_TOO_LARGE);
    HOLDS(cvec_seat_push_block(seat, 0) == CVEC_EMPTY);
    keeps(6, 2);
    HOLDS(cvec_seat_push_block(seat, 1) == CVEC_DONE && size_by(seat) == 8);
    is_last(2, 6, 2);
    push_all(8, 10);
    HOLDS(size_by(seat) == 10);
    is_last(4, 9, 1);
    HOLDS(cvec_seat_close(&seat) == CVEC_DONE);
    HOLDS(cvec_vector_close(&vector) == CVEC_DONE && found(path) == 10);
}

/* While the system gives no more memory the push of this number is refused, and what asks for a growth. */
static void lack_memory(uint64_t record) {
    struct rlimit most, none;
    getrlimit(RLIMIT_AS, &most);
    none = most;
    none.rlim_cur = 1;
    setrlimit(RLIMIT_AS, &none);
    const uint32_t answers[] = {push(record), cvec_seat_flush(seat, NULL), cvec_seat_push_block(seat, 1)};
    setrlimit(RLIMIT_AS, &most);
    for (int k = 0; k < 3; k++) HOLDS(answers[k] == CVEC_MEMORY);
}

/* Where memory is refused, nothing was done: the same push may be made again. But for growths there is one request for it. */
static void push_memory(const char *path) {
    enum { BLOCK = 131071 };
    make(path, 1);
    mallocs = 0;
    HOLDS(push(0) == CVEC_MEMORY && mallocs == -1);
    keeps(0, 0);
    HOLDS(cvec_seat_flush(seat, NULL) == CVEC_EMPTY);
    push_all(0, 1);
    mallocs = 0;
    push_all(1, 1023);
    HOLDS(mallocs == 0);
    mallocs = -1;
    push_all(1023, 1024);
    mallocs = 0;
    push_all(1024, 2047);
    HOLDS(mallocs == 0);
    mallocs = -1;
    keeps(1024, 1023);
    HOLDS(cvec_seat_push_block(seat, BLOCK) == CVEC_DONE && size_by(seat) == 2047);
    push_all(2047, 2047 + BLOCK - 1);
    lack_memory(2047 + BLOCK - 1);
    keeps(2047, BLOCK - 1);
    HOLDS(size_by(seat) == 2047);
    push_all(2047 + BLOCK - 1, 2047 + BLOCK + 1);
    HOLDS(size_by(seat) == 2047 + BLOCK);
    keeps(2047 + BLOCK, 1);
    HOLDS(cvec_seat_close(&seat) == CVEC_DONE);
    HOLDS(cvec_vector_close(&vector) == CVEC_DONE && found(path) == 2047 + BLOCK + 1);
}

/* What is pushed beside a full phase waits as it did before: a block is grown in the next one, and so is what a close grows. */
static void push_full(const char *path) {
    enum { MOST = 1000 };
    uint64_t number = 0;
    cvec_seat *other;
    make_narrow(path, 2, MOST);
    HOLDS(cvec_seat_take(vector, &other) == CVEC_DONE);
    HOLDS(cvec_seat_push_block(seat, 2) == CVEC_DONE);
    for (uint64_t k = 0; k < MOST - 1; k++)
        if (grow(k, &number) != CVEC_DONE) HOLDS(!"it was grown");
    push_all(MOST - 1, MOST + 2);
    keeps(MOST + 1, 1);
    HOLDS(settled() == 0);
    number = MOST + 3;
    HOLDS(cvec_seat_push(other, vector->type, &number) == CVEC_DONE);
    push_all(MOST + 2, MOST + 3);
    HOLDS(settled() == MOST);
    is_last(MOST, MOST + 1, 2);
    HOLDS(cvec_seat_close(&other) == CVEC_DONE);
    push_all(MOST + 4, MOST + 5);
    leaves_positions(path, MOST + 5);
}

/* Behind a write that failed no block is grown. What waits does so until the close of the seat, which says that it is lost;
 * and the seat is gone, so that the vector can be closed. */
static void push_broken(const char *path) {
    make(path, 1);
    HOLDS(cvec_seat_push_block(seat, 2) == CVEC_DONE);
    push_all(0, 2);
    left = 0;
    HOLDS(cvec_seat_settle(seat, 0, CVEC_NO_LIMIT) == CVEC_DISK_WRITE);
    push_all(2, 3);
    for (int k = 0; k < 2; k++) {
        HOLDS(push(3) == CVEC_BROKEN && cvec_seat_flush(seat, NULL) == CVEC_BROKEN);
        HOLDS(cvec_seat_push_block(seat, 5) == CVEC_BROKEN);
        keeps(2, 1);
    }
    HOLDS(size_by(seat) == 2);
    HOLDS(cvec_seat_close(&seat) == CVEC_BROKEN);
    HOLDS(cvec_vector_close(&vector) == CVEC_BROKEN);
    HOLDS(found(path) == 0);
}

/* Pushes records of these numbers one by one. */
static void push_typed(cvec_type type, const uint64_t *numbers, size_t count) {
    for (size_t k = 0; k < count; k++) {
        const union record record = record_of(type, numbers[k]);
        HOLDS(cvec_seat_push(seat, vector->type, &record) == CVEC_DONE);
    }
}

/* As many records as one growth may have are a block, and one more isn't. */
static void push_most(cvec_type type) {
    const size_t most = ((1u << 20) - 8) / width_of(type);
    const uint64_t number = 5;
    cvec_receipt receipt = {9, 9, 9, 9, 9};
    HOLDS(cvec_seat_push_block(seat, most + 1) == CVEC_TOO_LARGE);
    HOLDS(cvec_seat_push_block(seat, most) == CVEC_DONE);
    for (size_t k = 1; k < most; k++) push_typed(type, &number, 1);
    HOLDS(size_by(seat) == 7);
    push_typed(type, &number, 1);
    HOLDS(size_by(seat) == 7 + most);
    HOLDS(cvec_seat_flush(seat, &receipt) == CVEC_DONE && receipt.start == 7 && receipt.len == most);
}

static void pushes_of(const char *path, cvec_type type, uint8_t version) {
    const uint64_t numbers[] = {0, 1, 2, 3, 4, 1, 0};
    remove(path);
    HOLDS(cvec_vector_create(&vector, path, type, &(cvec_options){.version = version, .seats = 3}) == CVEC_DONE);
    if (wrong) exit(1);
    HOLDS(cvec_seat_take(vector, &seat) == CVEC_DONE && cvec_seat_push_block(seat, 3) == CVEC_DONE);
    push_typed(type, numbers, 7);
    HOLDS(size_by(seat) == 6);
    HOLDS(cvec_seat_close(&seat) == CVEC_DONE);
    has_typed(path, type, numbers, 7);
    HOLDS(cvec_seat_take(vector, &seat) == CVEC_DONE);
    push_most(type);
    HOLDS(cvec_seat_close(&seat) == CVEC_DONE && cvec_vector_close(&vector) == CVEC_DONE);
}

static void pushes_typed(const char *path) {
    for (int k = 0; k < CVEC_TYPE_COUNT; k++)
        for (uint8_t version = 1; version <= 2; version++) pushes_of(path, (cvec_type)k, version);
}

/* The record of this number stands at that position, and what follows it in memory stays. */
static void has_at(cvec_seat *own, cvec_type type, uint64_t position, uint64_t number) {
    union record seen[2];
    memset(seen, 0xa5, sizeof seen);
    HOLDS(cvec_seat_at(own, vector->type, position, seen) == CVEC_DONE && is_record(type, seen, number));
    HOLDS(((const uint8_t *)seen)[size_of(type)] == 0xa5);
}

/* None does, and nothing is written. */
static void has_none_at(cvec_seat *own, uint64_t position) {
    union record seen, same;
    memset(&seen, 0xa5, sizeof seen);
    memset(&same, 0xa5, sizeof same);
    HOLDS(cvec_seat_at(own, vector->type, position, &seen) == CVEC_OUT_OF_RANGE && memcmp(&seen, &same, sizeof seen) == 0);
}

static void at_of(const char *path, cvec_type type) {
    const uint64_t first[] = {0, 1, 2}, more[] = {3, 4};
    cvec_seat *other = NULL;
    remove(path);
    HOLDS(cvec_vector_create(&vector, path, type, &(cvec_options){.version = 1, .seats = 2}) == CVEC_DONE);
    if (wrong) exit(1);
    HOLDS(cvec_seat_take(vector, &seat) == CVEC_DONE && cvec_seat_take(vector, &other) == CVEC_DONE);
    has_none_at(seat, 0);
    has_none_at(other, UINT64_MAX);
    HOLDS(grow_typed(type, first, 3, NULL) == CVEC_DONE);
    has_at(other, type, 2, 2);
    HOLDS(grow_typed(type, more, 2, NULL) == CVEC_DONE);
    for (uint64_t k = 0; k < 5; k++) has_at(other, type, k, k);
    has_none_at(other, 5);
    for (uint64_t k = 0; k < 5; k++) has_at(seat, type, k, k);
    has_none_at(seat, 5);
    has_none_at(seat, UINT64_MAX);
    HOLDS(cvec_seat_close(&other) == CVEC_DONE && cvec_seat_close(&seat) == CVEC_DONE);
    HOLDS(cvec_vector_close(&vector) == CVEC_DONE);
    HOLDS(cvec_vector_open(&vector, path, type, &(cvec_options){.seats = 1}) == CVEC_DONE && cvec_seat_take(vector, &seat) == CVEC_DONE);
    if (wrong) exit(1);
    has_at(seat, type, 4, 4);
    has_at(seat, type, 0, 0);
    has_none_at(seat, 5);
    HOLDS(cvec_seat_close(&seat) == CVEC_DONE && cvec_vector_close(&vector) == CVEC_DONE);
}

static void at(const char *path) {
    for (int k = 0; k < CVEC_TYPE_COUNT; k++) at_of(path, (cvec_type)k);
}

/* ---- renewals: a phase that is full ends beside seats, and the next one begins */

/* Two seats, of which the first grew so many, and phases of five growths. */
static cvec_seat *beside;

static void make_renewing(const char *path, uint64_t grown_before) {
    uint64_t number = 0;
    remove(path);
    make_narrow(path, 2, 5);
    HOLDS(cvec_seat_take(vector, &beside) == CVEC_DONE);
    for (uint64_t k = 0; k < grown_before; k++) HOLDS(grow(k, &number) == CVEC_DONE && number == k);
}

/* What says that something is durable, or makes it so, is refused. */
static void nothing_is_durable(void) {
    uint64_t count = 9, other = 9;
    HOLDS(cvec_seat_settle(seat, 0, CVEC_NO_LIMIT) == CVEC_NOT_SO && cvec_seat_settle(seat, UINT64_MAX, 0) == CVEC_NOT_SO);
    HOLDS(cvec_vector_settle(vector, CVEC_NO_LIMIT) == CVEC_NOT_SO && cvec_vector_flush(vector) == CVEC_NOT_SO);
    HOLDS(cvec_vector_run_flusher(vector, 1) == CVEC_NOT_SO && cvec_vector_start_flusher(vector, 1) == CVEC_NOT_SO);
    HOLDS(cvec_vector_stop_flusher(vector) == CVEC_NOT_SO);
    HOLDS(cvec_vector_settled(vector, &count) == CVEC_DONE && count == 0 && cvec_seat_settled(seat, &other) == CVEC_DONE && other == 0);
}

/* Without a path a vector is in memory alone, through phases and calls of the whole vector: it opens and writes no file. */
static void in_memory(const char *path) {
    const uint64_t changed = 9;
    const struct rlimit none = {0, 0};
    uint64_t number = 0, record = 0;
    (void)path;
    HOLDS(setrlimit(RLIMIT_NOFILE, &none) == 0);
    make_narrow(NULL, 1, 3);
    HOLDS(cvec_vector_identity(vector, &number, &record) == CVEC_NOT_SO);
    for (uint64_t k = 0; k < 10; k++) HOLDS(grow(k, &number) == CVEC_DONE && number == k);
    are_positions(seat, 10);
    nothing_is_durable();
    HOLDS(cvec_vector_change_u64(vector, 3, &changed, 1) == CVEC_DONE && cvec_seat_at_u64(seat, 3, &record) == CVEC_DONE && record == 9);
    HOLDS(cvec_vector_fold(vector) == CVEC_DONE && cvec_vector_resize_u64(vector, 5, 0) == CVEC_DONE);
    nothing_is_durable();
    HOLDS(grow(7, &number) == CVEC_DONE && number == 10 && cvec_seat_at_u64(seat, 5, &record) == CVEC_DONE && record == 7);
    HOLDS(cvec_seat_close(&seat) == CVEC_DONE && cvec_vector_close(&vector) == CVEC_DONE && writes == 0 && syncs == 0);
    HOLDS(cvec_vector_open(&vector, NULL, CVEC_U64, NULL) == CVEC_NOT_SO && vector == NULL);
    HOLDS(cvec_vector_open_or_create(&vector, NULL, CVEC_U64, NULL) == CVEC_NOT_SO && vector == NULL);
}

/* Each call of the file that the renewal makes fails: the growth says so, and what stands is read. */
static void renewal_fails_at(const char *path, int call) {
    uint64_t number = 9, count = 9;
    make_renewing(path, 4);
    HOLDS(cvec_seat_settle(seat, 1, CVEC_NO_LIMIT) == CVEC_DONE && grow(4, &number) == CVEC_DONE);
    left = call;
    HOLDS(grow(5, &number) == (call % 2 == 0 ? CVEC_DISK_WRITE : CVEC_DISK_SYNC) && number == 4);
    left = -1;
    HOLDS(grow(5, &number) == CVEC_BROKEN && settled() == 4);
    are_positions(seat, 5);
    are_positions(beside, 5);
    HOLDS(cvec_seat_at(beside, vector->type, 4, &count) == CVEC_DONE && count == 4);
    HOLDS(cvec_seat_close(&beside) == CVEC_DONE && cvec_seat_close(&seat) == CVEC_DONE);
    HOLDS(cvec_vector_close(&vector) == CVEC_BROKEN);
    count = found(path);
    HOLDS(count == (call < 2 ? 4 : count == 4 ? 4 : 5));
}

static void renewal_fails(const char *path) {
    for (int call = 0; call < 4; call++) renewal_fails_at(path, call);
}

static int halfway; /* how many renewals had closed the growers when they were refused */

/* The seat has a block of one record. */
static uint64_t *lend_one(uint64_t record) {
    void *block = NULL;
    HOLDS(cvec_seat_block(seat, 1, &block) == CVEC_DONE && block != NULL);
    if (block == NULL) exit(1);
    *(uint64_t *)block = record;
    return block;
}

/* Publishes it. Where that is refused it is as it was. */
static uint32_t publish_one(uint64_t record, uint64_t *number) {
    cvec_receipt receipt;
    const uint64_t *block = seat->blank;
    const uint32_t answer = cvec_seat_publish(seat, &receipt);
    HOLDS(*block == record && seat->block.full == (answer != CVEC_DONE));
    if (answer == CVEC_DONE) *number = receipt.number;
    return answer;
}

/* Each request for memory in a renewal is refused, once and then once more: the growth, by copies or by a block, says so, calls by the
 * other seat are made or refused so too, and later all goes on. Where the vault itself is lost the file has all; where a commit is,
 * what was awaited. Whether there are so many requests. */
static int renewal_lacks(const char *path, int request, int times, int is_awaited, int is_block) {
    uint32_t (*const next)(uint64_t, uint64_t *) = is_block ? publish_one : grow;
    uint64_t number = 9, count = 9;
    uint32_t answer = CVEC_MEMORY;
    make_renewing(path, 5);
    if (is_block) lend_one(5);
    if (is_awaited) HOLDS(cvec_seat_settle(beside, 4, CVEC_NO_LIMIT) == CVEC_DONE);
    push_all(6, 7);
    for (int k = 0; k < times && answer == CVEC_MEMORY; k++) {
        requests = request;
        answer = next(5, &number);
    }
    const int is_one = requests < 0;
    requests = -1;
    if (answer == CVEC_MEMORY) {
        halfway += vector->unseated;
        HOLDS(number == 9 && cvec_seat_settle(beside, 4, 0) == CVEC_DONE);
        const int was_broken = is_broken(vector);
        if (vector->unseated) HOLDS(cvec_seat_settle(beside, 5, CVEC_NO_LIMIT) == (was_broken ? CVEC_BROKEN : CVEC_OUT_OF_RANGE));
        HOLDS(is_broken(vector) == was_broken);
        answer = cvec_seat_size(beside, &count);
        HOLDS(answer == CVEC_BROKEN || (answer == CVEC_DONE && count == 5));
        if (answer == CVEC_DONE) answer = next(5, &number);
    }
    HOLDS(answer == CVEC_BROKEN || (answer == CVEC_DONE && number == 5));
    keeps(6, 1);
    if (answer == CVEC_DONE) HOLDS(settled() == 5);
    HOLDS(cvec_seat_close(&beside) == CVEC_DONE);
    HOLDS(cvec_seat_close(&seat) == answer && cvec_vector_close(&vector) == answer);
    count = found(path);
    HOLDS(answer == CVEC_DONE ? count == 7 : count == 5 || (count == 0 && !is_awaited));
    return is_one;
}

static void renewal_memory(const char *path) {
    for (int way = 0; way < 4; way++) {
        int request = 0;
        while (!wrong && renewal_lacks(path, request, 1, way % 2, way / 2)) renewal_lacks(path, request++, 2, way % 2, way / 2);
        HOLDS(request > 5);
    }
    HOLDS(halfway > 10);
}

/* Killed in place of each call of a renewal, what was settled stands. */
static void renewal_is_killed(const char *path) {
    uint64_t number = 0, size = 0;
    int status = 0, calls = 0;
    for (int is_done = 0; !is_done && !wrong; calls++) {
        const pid_t child = fork();
        if (child == 0) {
            make_renewing(path, 4);
            HOLDS(cvec_seat_settle(seat, 2, CVEC_NO_LIMIT) == CVEC_DONE && grow(4, &number) == CVEC_DONE);
            calls_of_life = calls;
            HOLDS(grow(5, &number) == CVEC_DONE);
            _exit(wrong || calls_of_life < 0);
        }
        HOLDS(waitpid(child, &status, 0) == child);
        is_done = WIFEXITED(status);
        HOLDS(is_done ? status == 0 : WTERMSIG(status) == SIGKILL);
        size = found(path);
        HOLDS(size >= 4 && size <= 5 && (!is_done || size == 5));
    }
    HOLDS(calls == 5); /* two writes and two syncs, and then none */
}

static void *run_grow(void *answer) {
    uint64_t number = 0;
    *(uint32_t *)answer = grow(5, &number);
    return NULL;
}

static void *run_size(void *size) {
    HOLDS(cvec_seat_size(beside, size) == CVEC_DONE);
    return NULL;
}

static void *run_compact(void *answer) {
    __atomic_store_n((uint32_t *)answer, cvec_vector_compact(vector), __ATOMIC_SEQ_CST);
    return NULL;
}

/* Beside a renewal that is held in its sync: who awaits and has a deadline isn't held longer, nor is who waits for a seat; a call that
 * would use its grower waits, and so does one of the whole vector; a flusher waits too. */
static void renewal_waits(const char *path) {
    pthread_t grower, reader_thread, flusher, whole;
    uint32_t answer = CVEC_BUSY, compacted = CVEC_BUSY;
    uint64_t size = 9;
    cvec_seat *third = NULL;
    struct wait first;
    make_renewing(path, 5);
    first.seat = beside;
    shut_gate(1);
    pthread_create(&grower, NULL, run_grow, &answer);
    until_held();
    begin_wait(&first, 4, 30);
    HOLDS(end_of(&first) == CVEC_LATE);
    HOLDS(cvec_seat_take_within(vector, 20, &third) == CVEC_LATE && third == NULL);
    pthread_create(&whole, NULL, run_compact, &compacted);
    begin_flusher(&flusher, &soon);
    while (flushers() == 0) nap();
    pthread_create(&reader_thread, NULL, run_size, &size);
    while (__atomic_load_n(&beside->busy, __ATOMIC_SEQ_CST) != ASIDE) nap();
    HOLDS(holds() == 1 && size == 9 && __atomic_load_n(&compacted, __ATOMIC_SEQ_CST) == CVEC_BUSY);
    shut_gate(0);
    pthread_join(grower, NULL);
    pthread_join(reader_thread, NULL);
    pthread_join(whole, NULL);
    HOLDS(answer == CVEC_DONE && compacted == CVEC_DONE && (size == 5 || size == 6));
    HOLDS(cvec_vector_stop_flusher(vector) == CVEC_DONE && end_of_flusher(flusher) == CVEC_DONE);
    HOLDS(cvec_seat_close(&beside) == CVEC_DONE);
    leaves_positions(path, 6);
}

/* A renewal waits for a commit that is under way, and who waits for the same growth is told. */
static void renewal_after_commit(const char *path) {
    pthread_t grower;
    uint32_t answer = CVEC_BUSY;
    struct wait first;
    make_renewing(path, 5);
    first.seat = beside;
    shut_gate(1);
    begin_wait(&first, 4, 0);
    until_held();
    int before = __atomic_load_n(&waits, __ATOMIC_SEQ_CST);
    pthread_create(&grower, NULL, run_grow, &answer);
    while (__atomic_load_n(&waits, __ATOMIC_SEQ_CST) == before) nap();
    HOLDS(holds() == 1);
    shut_gate(0);
    pthread_join(grower, NULL);
    HOLDS(end_of(&first) == CVEC_DONE && answer == CVEC_DONE && settled() == 5);
    HOLDS(cvec_seat_close(&beside) == CVEC_DONE);
    leaves_positions(path, 6);
}

static int is_held(void) {
    pthread_mutex_lock(&vector->mutex);
    const int held_now = vector->claimed;
    pthread_mutex_unlock(&vector->mutex);
    return held_now;
}

/* And for a call that is inside by another seat: it commits nothing before that has ended. */
static void renewal_after_call(const char *path) {
    pthread_t grower;
    uint32_t answer = CVEC_BUSY;
    make_renewing(path, 5);
    __atomic_store_n(&beside->busy, INSIDE, __ATOMIC_SEQ_CST); /* as a call leaves it that goes on */
    const int before = __atomic_load_n(&writes, __ATOMIC_SEQ_CST);
    pthread_create(&grower, NULL, run_grow, &answer);
    while (!is_held()) nap();
    for (int k = 0; k < 50; k++) nap();
    HOLDS(is_held() && __atomic_load_n(&writes, __ATOMIC_SEQ_CST) == before);
    __atomic_store_n(&beside->busy, FREE, __ATOMIC_SEQ_CST);
    pthread_join(grower, NULL);
    HOLDS(answer == CVEC_DONE && settled() == 5 && cvec_seat_close(&beside) == CVEC_DONE);
    leaves_positions(path, 6);
}

static void *run_stopped_size(void *size) {
    is_to_stop = 1;
    return run_size(size);
}

/* A renewal begins as a call is on its way in, which nobody had shut out: it has no seat yet, so that the renewal doesn't wait for it.
 * So it waits for the renewal. */
static void renewal_before_call(const char *path) {
    pthread_t grower, reader_thread;
    uint32_t answer = CVEC_BUSY;
    uint64_t size = 9;
    make_renewing(path, 5);
    pthread_create(&reader_thread, NULL, run_stopped_size, &size);
    while (!__atomic_load_n(&has_stopped, __ATOMIC_SEQ_CST)) nap();
    shut_gate(1);
    pthread_create(&grower, NULL, run_grow, &answer);
    until_held();
    __atomic_store_n(&may_go_on, 1, __ATOMIC_SEQ_CST);
    uint32_t busy = FREE;
    while (busy != ASIDE && __atomic_load_n(&size, __ATOMIC_SEQ_CST) == 9) {
        nap();
        busy = __atomic_load_n(&beside->busy, __ATOMIC_SEQ_CST);
    }
    HOLDS(busy == ASIDE && __atomic_load_n(&size, __ATOMIC_SEQ_CST) == 9 && holds() == 1);
    shut_gate(0);
    pthread_join(grower, NULL);
    pthread_join(reader_thread, NULL);
    HOLDS(answer == CVEC_DONE && (size == 5 || size == 6) && cvec_seat_close(&beside) == CVEC_DONE);
    leaves_positions(path, 6);
}

/* Threads that grow, push, await and read, take and close seats, and ask for the whole vector, where each phase has 50 growths. */
enum { RENEWERS = 12, TURNS = 3000 };
static uint64_t name_of_next;

static void is_mine(cvec_seat *own, uint64_t start, uint64_t record) {
    uint64_t there = ~record;
    HOLDS(cvec_seat_at(own, vector->type, start, &there) == CVEC_DONE && there == record);
}

/* One growth of one record, whose receipt is that of the only ones there are. Sizes and what is settled never fall. */
static void grow_one(cvec_seat *own, uint64_t record, uint64_t *size, uint64_t *durable) {
    cvec_receipt receipt;
    uint64_t now = 0;
    HOLDS(cvec_seat_grow_u64(own, &record, 1, &receipt) == CVEC_DONE && receipt.number == receipt.start && receipt.len == 1);
    HOLDS(receipt.start >= *size && cvec_seat_size(own, &now) == CVEC_DONE && now > receipt.start);
    *size = now;
    is_mine(own, receipt.start, record);
    if (record % 7 == 0) HOLDS(cvec_seat_settle(own, receipt.number, CVEC_NO_LIMIT) == CVEC_DONE);
    HOLDS(cvec_seat_settled(own, &now) == CVEC_DONE && now >= *durable);
    HOLDS(record % 7 != 0 || now > receipt.number);
    *durable = now;
}

static void *run_renewer(void *unused) {
    const uint64_t name = __atomic_fetch_add(&name_of_next, 1, __ATOMIC_SEQ_CST);
    cvec_seat *own = NULL;
    uint64_t size = 0, durable = 0, k = 0;
    (void)unused;
    while (k < TURNS && !wrong) {
        HOLDS(cvec_seat_take_within(vector, 30000, &own) == CVEC_DONE && cvec_seat_push_block(own, 1) == CVEC_DONE);
        for (uint64_t turn = 0; turn < 100 && !wrong; turn++) grow_one(own, name << 32 | k++, &size, &durable);
        const uint64_t last = name << 32 | k++;
        HOLDS(cvec_seat_push(own, vector->type, &last) == CVEC_DONE);
        HOLDS(cvec_seat_close(&own) == CVEC_DONE);
    }
    return NULL;
}

static void *run_whole(void *ends) {
    const uint64_t none = 0;
    while (!__atomic_load_n((int *)ends, __ATOMIC_SEQ_CST)) {
        HOLDS(cvec_vector_change_u64(vector, 0, &none, 0) == CVEC_DONE);
        nap();
    }
    return NULL;
}

static void renewals(const char *path) {
    static uint64_t seen[RENEWERS * (TURNS + 200)], next[RENEWERS];
    const cvec_options narrow = {0, 8, 0, 50};
    pthread_t threads[RENEWERS], flusher, whole;
    uint64_t count = 0;
    int ends = 0;
    make_renewing(path, 0);
    HOLDS(cvec_seat_close(&beside) == CVEC_DONE && cvec_seat_close(&seat) == CVEC_DONE);
    HOLDS(cvec_vector_close(&vector) == CVEC_DONE && cvec_vector_open(&vector, path, CVEC_U64, &narrow) == CVEC_DONE);
    begin_flusher(&flusher, &soon);
    pthread_create(&whole, NULL, run_whole, &ends);
    for (int k = 0; k < RENEWERS; k++) pthread_create(&threads[k], NULL, run_renewer, NULL);
    for (int k = 0; k < RENEWERS; k++) pthread_join(threads[k], NULL);
    __atomic_store_n(&ends, 1, __ATOMIC_SEQ_CST);
    pthread_join(whole, NULL);
    HOLDS(cvec_vector_close(&vector) == CVEC_DONE && end_of_flusher(flusher) == CVEC_DONE);
    HOLDS(cvec_vector_open(&vector, path, CVEC_U64, &(cvec_options){.seats = 1}) == CVEC_DONE && cvec_seat_take(vector, &seat) == CVEC_DONE);
    HOLDS(cvec_seat_read_u64(seat, 0, seen, sizeof seen / sizeof *seen, &count) == CVEC_DONE);
    for (uint64_t k = 0; k < count && !wrong; k++) HOLDS(seen[k] >> 32 < RENEWERS && (uint32_t)seen[k] == next[seen[k] >> 32]++);
    for (int k = 0; k < RENEWERS; k++) HOLDS(next[k] >= TURNS && next[k] < TURNS + 101);
    HOLDS(cvec_seat_close(&seat) == CVEC_DONE && cvec_vector_close(&vector) == CVEC_DONE);
}

/* ---- holds: while there is one, nobody has the whole vector, nor closes it */

/* A vector of 0, 1 and 2, which are durable and lent, and whose seat is closed. */
static const uint64_t *make_lent(const char *path) {
    const uint64_t block[] = {0, 1, 2};
    cvec_receipt receipt = {9, 9, 9, 9, 9};
    cvec_piece lent = {9, NULL, 9};
    size_t count = 0;
    make_narrow(path, 2, 5);
    HOLDS(cvec_seat_grow_u64(seat, block, 3, &receipt) == CVEC_DONE && cvec_seat_settle(seat, receipt.number, CVEC_NO_LIMIT) == CVEC_DONE);
    HOLDS(cvec_seat_pieces(seat, 0, &lent, 1, &count) == CVEC_DONE && count == 1 && lent.len == 3);
    HOLDS(cvec_seat_close(&seat) == CVEC_DONE);
    if (wrong) exit(1);
    return lent.records;
}

static int are_lent(const uint64_t *lent) { return lent[0] == 0 && lent[1] == 1 && lent[2] == 2; }

/* Each call of the whole vector is refused, and does nothing. */
static void is_held_back(const uint64_t *lent) {
    const int before = writes;
    all_answer(CVEC_BUSY);
    HOLDS(cvec_vector_close(&vector) == CVEC_BUSY);
    if (wrong) exit(1);
    HOLDS(writes == before && are_lent(lent));
}

/* Seats are taken, growths made and committed, by others and by a flusher. */
static void goes_on_held(uint64_t record) {
    pthread_t flusher;
    uint64_t number = 9;
    HOLDS(cvec_seat_take(vector, &seat) == CVEC_DONE && grow(record, &number) == CVEC_DONE);
    HOLDS(cvec_seat_settle(seat, number, CVEC_NO_LIMIT) == CVEC_DONE && grow(record + 1, &number) == CVEC_DONE);
    begin_flusher(&flusher, &soon);
    until_settled(number + 1);
    HOLDS(cvec_vector_stop_flusher(vector) == CVEC_DONE && end_of_flusher(flusher) == CVEC_DONE);
    vector->stopped = false; /* for the next one */
    HOLDS(cvec_seat_close(&seat) == CVEC_DONE);
}

/* Until each of two holders has released. */
static void hold_refuses(const char *path) {
    const uint64_t *const lent = make_lent(path);
    HOLDS(cvec_vector_release(vector) == CVEC_NOT_SO);
    HOLDS(cvec_vector_hold(vector) == CVEC_DONE);
    is_held_back(lent);
    HOLDS(cvec_vector_hold(vector) == CVEC_DONE);
    goes_on_held(3);
    is_held_back(lent);
    HOLDS(cvec_vector_release(vector) == CVEC_DONE);
    is_held_back(lent);
    goes_on_held(5);
    HOLDS(cvec_vector_release(vector) == CVEC_DONE && cvec_vector_release(vector) == CVEC_NOT_SO);
    HOLDS(are_lent(lent) && cvec_vector_compact(vector) == CVEC_DONE && cvec_vector_clear(vector) == CVEC_DONE);
    /* So again, though nothing is lent. */
    HOLDS(cvec_vector_hold(vector) == CVEC_DONE);
    all_answer(CVEC_BUSY);
    HOLDS(cvec_vector_release(vector) == CVEC_DONE && cvec_vector_close(&vector) == CVEC_DONE);
}

static void *run_hold(void *answer) {
    __atomic_store_n((uint32_t *)answer, cvec_vector_hold(vector), __ATOMIC_SEQ_CST);
    return NULL;
}

/* It waits for a call that has the whole vector, which is held in its sync. */
static void hold_waits(const char *path) {
    pthread_t caller, holder;
    uint32_t answer = CVEC_BUSY, cleared = CVEC_BUSY;
    make_lent(path);
    shut_gate(1);
    pthread_create(&caller, NULL, run_clear, &cleared);
    until_held();
    const int before = __atomic_load_n(&waits, __ATOMIC_SEQ_CST);
    pthread_create(&holder, NULL, run_hold, &answer);
    while (__atomic_load_n(&waits, __ATOMIC_SEQ_CST) == before && __atomic_load_n(&answer, __ATOMIC_SEQ_CST) == CVEC_BUSY) nap();
    for (int k = 0; k < 20; k++) nap();
    HOLDS(__atomic_load_n(&answer, __ATOMIC_SEQ_CST) == CVEC_BUSY && holds() == 1 && cvec_vector_close(&vector) == CVEC_BUSY);
    /* No close comes between that call's end and the hold. */
    __atomic_store_n(&dozing, 1, __ATOMIC_SEQ_CST);
    shut_gate(0);
    pthread_join(caller, NULL);
    HOLDS(cvec_vector_close(&vector) == CVEC_BUSY);
    if (wrong) exit(1);
    __atomic_store_n(&dozing, 0, __ATOMIC_SEQ_CST);
    pthread_join(holder, NULL);
    HOLDS(cleared == CVEC_DONE && answer == CVEC_DONE && counted(0) == 0);
    all_answer(CVEC_BUSY);
    HOLDS(cvec_vector_release(vector) == CVEC_DONE && cvec_vector_close(&vector) == CVEC_DONE && found(path) == 0);
}

/* A call of the whole vector that waits for a flusher's commit hasn't begun: a hold that comes meanwhile waits for neither, and the
 * call is refused. */
static void hold_comes_first(const char *path) {
    pthread_t flusher, caller;
    uint32_t cleared = CVEC_DONE;
    uint64_t number = 9;
    const uint64_t *const lent = make_lent(path);
    HOLDS(cvec_seat_take(vector, &seat) == CVEC_DONE && grow(3, &number) == CVEC_DONE);
    HOLDS(cvec_seat_close(&seat) == CVEC_DONE);
    shut_gate(1);
    begin_flusher(&flusher, &never);
    until_held();
    const int before = __atomic_load_n(&waits, __ATOMIC_SEQ_CST);
    pthread_create(&caller, NULL, run_clear, &cleared);
    while (__atomic_load_n(&waits, __ATOMIC_SEQ_CST) == before) nap();
    HOLDS(cvec_vector_hold(vector) == CVEC_DONE && holds() == 1 && cvec_vector_close(&vector) == CVEC_BUSY);
    if (wrong) exit(1);
    shut_gate(0);
    pthread_join(caller, NULL);
    HOLDS(cleared == CVEC_BUSY && are_lent(lent) && counted(3) == 1);
    HOLDS(cvec_vector_stop_flusher(vector) == CVEC_DONE && end_of_flusher(flusher) == CVEC_DONE);
    HOLDS(cvec_vector_release(vector) == CVEC_DONE && cvec_vector_close(&vector) == CVEC_DONE && found(path) == 4);
}

/* What nobody lent moves beside a hold: a phase ends as ever. */
static void hold_renews(const char *path) {
    uint64_t number = 9;
    make_narrow(path, 1, 5);
    HOLDS(cvec_vector_hold(vector) == CVEC_DONE);
    for (uint64_t k = 0; k < 22; k++) HOLDS(grow(k, &number) == CVEC_DONE && number == k && settled() == k / 5 * 5);
    HOLDS(cvec_seat_close(&seat) == CVEC_DONE && cvec_vector_compact(vector) == CVEC_BUSY);
    HOLDS(cvec_vector_release(vector) == CVEC_DONE && cvec_vector_close(&vector) == CVEC_DONE && found(path) == 22);
}

/* What was lent stays in a broken vector too, and is held there. */
static void hold_broken(const char *path) {
    uint64_t number = 9;
    const uint64_t *const lent = make_lent(path);
    HOLDS(cvec_seat_take(vector, &seat) == CVEC_DONE && grow(3, &number) == CVEC_DONE);
    const uint64_t *const block = lend_one(4);
    left = 0;
    HOLDS(cvec_seat_settle(seat, number, CVEC_NO_LIMIT) == CVEC_DISK_WRITE && are_lent(lent));
    HOLDS(publish_one(4, &number) == CVEC_BROKEN && publish_one(4, &number) == CVEC_BROKEN && *block == 4);
    HOLDS(cvec_seat_drop(seat) == CVEC_DONE && cvec_seat_block(seat, 1, (void **)&number) == CVEC_BROKEN);
    HOLDS(cvec_seat_close(&seat) == CVEC_DONE && cvec_vector_hold(vector) == CVEC_DONE);
    is_held_back(lent);
    HOLDS(cvec_vector_release(vector) == CVEC_DONE);
    all_answer(CVEC_BROKEN);
    HOLDS(are_lent(lent) && cvec_vector_close(&vector) == CVEC_BROKEN && found(path) == 3);
}

/* A forked process reads what was lent, also behind its close, and writes to a block of its own, which its parent's isn't. Its
 * parent's hold stays. */
static void hold_forks(const char *path) {
    uint64_t number = 9;
    int status = 1;
    const uint64_t *const lent = make_lent(path);
    HOLDS(cvec_vector_hold(vector) == CVEC_DONE && cvec_seat_take(vector, &seat) == CVEC_DONE);
    uint64_t *const block = lend_one(3);
    pid_t child = fork();
    if (child == 0) {
        *block = 9;
        HOLDS(is_refused_in_a_fork() && are_lent(lent) && *block == 9);
        _exit(wrong);
    }
    HOLDS(waitpid(child, &status, 0) == child && status == 0);
    HOLDS(*block == 3 && publish_one(3, &number) == CVEC_DONE && cvec_seat_close(&seat) == CVEC_DONE);
    is_held_back(lent);
    HOLDS(cvec_vector_release(vector) == CVEC_DONE && cvec_vector_close(&vector) == CVEC_DONE && found(path) == 4);
}

/* ---- memory that is refused beside what is lent */

/* A call of the whole vector that was refused before it closed the phase leaves what was lent, and the phase isn't renewed. Whether
 * there was such a request. */
static int compaction_lacks(const char *path, int request) {
    uint64_t number = 9;
    remove(path);
    const uint64_t *const lent = make_lent(path);
    HOLDS(cvec_seat_take(vector, &seat) == CVEC_DONE);
    for (uint64_t k = 3; k < 7; k++) HOLDS(grow(k, &number) == CVEC_DONE);
    HOLDS(cvec_seat_close(&seat) == CVEC_DONE);
    requests = request;
    uint32_t answer = cvec_vector_compact(vector);
    const int was_refused = requests < 0;
    requests = -1;
    if (answer == CVEC_MEMORY && vector->lent) {
        HOLDS(cvec_seat_take(vector, &seat) == CVEC_DONE && grow(7, &number) == CVEC_FULL && are_lent(lent));
        HOLDS(cvec_seat_close(&seat) == CVEC_DONE);
        halfway++;
    }
    if (answer == CVEC_MEMORY) answer = cvec_vector_compact(vector);
    HOLDS(answer == CVEC_DONE || answer == CVEC_BROKEN);
    HOLDS(cvec_vector_close(&vector) == answer);
    number = found(path);
    HOLDS(number == 7 || (number == 3 && answer == CVEC_BROKEN));
    return was_refused;
}

static void compaction_memory(const char *path) {
    int request = 0;
    while (!wrong && compaction_lacks(path, request)) request++;
    HOLDS(request > 3 && halfway > 0);
}

/* A taker whose memory is refused takes a seat of the phase with it. Where none is left another phase begins; but records that are
 * lent stay, and a call of the whole vector makes seats. */
static void seats_are_lost(const char *path) {
    uint64_t number = 9;
    cvec_seat *second = NULL;
    for (int is_lent = 0; is_lent < 2; is_lent++) {
        remove(path);
        const uint64_t *const lent = make_lent(path);
        if (!is_lent) HOLDS(cvec_vector_compact(vector) == CVEC_DONE);
        HOLDS(cvec_seat_take(vector, &seat) == CVEC_DONE && grow(3, &number) == CVEC_DONE);
        requests = 0;
        HOLDS(cvec_seat_take(vector, &second) == CVEC_MEMORY && second == NULL && requests == -1);
        const uint32_t answer = cvec_seat_take(vector, &second);
        HOLDS(answer == (is_lent ? CVEC_FULL : CVEC_DONE) && (second == NULL) == is_lent);
        HOLDS(grow(4, &number) == CVEC_DONE && (!is_lent || are_lent(lent)));
        if (second != NULL) HOLDS(cvec_seat_close(&second) == CVEC_DONE);
        HOLDS(cvec_seat_close(&seat) == CVEC_DONE && cvec_vector_compact(vector) == CVEC_DONE);
        HOLDS(cvec_seat_take(vector, &seat) == CVEC_DONE && cvec_seat_take(vector, &second) == CVEC_DONE);
        HOLDS(cvec_seat_close(&second) == CVEC_DONE && cvec_seat_close(&seat) == CVEC_DONE);
        HOLDS(cvec_vector_close(&vector) == CVEC_DONE && found(path) == 5);
    }
}

/* ---- more threads than seats */

struct want {
    pthread_t thread;
    cvec_seat *seat;
    uint64_t milliseconds, waited; /* in milliseconds too */
    uint32_t answer;
};

static uint64_t milliseconds_now(void) {
    struct timespec now;
    clock_gettime(CLOCK_MONOTONIC, &now);
    return (uint64_t)now.tv_sec * 1000 + (uint64_t)now.tv_nsec / 1000000;
}

static void *run_want(void *work) {
    struct want *want = work;
    const uint64_t begun = milliseconds_now();
    want->answer = cvec_seat_take_within(vector, want->milliseconds, &want->seat);
    want->waited = milliseconds_now() - begun;
    return NULL;
}

static uint32_t queued(void) {
    pthread_mutex_lock(&vector->mutex);
    const uint32_t count = vector->queued;
    pthread_mutex_unlock(&vector->mutex);
    return count;
}

static void begin_want(struct want *want, uint64_t milliseconds, uint32_t before) {
    want->milliseconds = milliseconds;
    pthread_create(&want->thread, NULL, run_want, want);
    while (queued() == before) nap();
}

/* Who came first has the seat that is closed, and a deadline is kept; the wait sleeps. */
static void seat_within(const char *path) {
    struct want wants[3];
    cvec_seat *none = NULL;
    make(path, 1);
    HOLDS(cvec_seat_take_within(vector, 0, &none) == CVEC_LATE && none == NULL);
    const uint64_t begun = milliseconds_now();
    HOLDS(cvec_seat_take_within(vector, 50, &none) == CVEC_LATE && none == NULL);
    HOLDS(milliseconds_now() - begun >= 50 && milliseconds_now() - begun < 5000);
    begin_want(&wants[0], 100, 0);
    begin_want(&wants[1], UINT64_MAX, 1);
    begin_want(&wants[2], 60000, 2);
    pthread_join(wants[0].thread, NULL);
    HOLDS(wants[0].answer == CVEC_LATE && wants[0].seat == NULL && wants[0].waited >= 100 && wants[0].waited < 5000);
    HOLDS(cvec_vector_close(&vector) == CVEC_BUSY);
    HOLDS(__atomic_load_n(&timed_waits, __ATOMIC_SEQ_CST) < 20);
    HOLDS(cvec_seat_close(&seat) == CVEC_DONE);
    pthread_join(wants[1].thread, NULL);
    HOLDS(wants[1].answer == CVEC_DONE && wants[1].seat != NULL && queued() == 1);
    HOLDS(cvec_seat_take(vector, &none) == CVEC_NOT_SO && none == NULL && cvec_vector_close(&vector) == CVEC_BUSY);
    HOLDS(cvec_seat_close(&wants[1].seat) == CVEC_DONE);
    pthread_join(wants[2].thread, NULL);
    HOLDS(wants[2].answer == CVEC_DONE && cvec_seat_close(&wants[2].seat) == CVEC_DONE);
    HOLDS(cvec_seat_take_within(vector, 0, &seat) == CVEC_DONE && cvec_seat_close(&seat) == CVEC_DONE);
    HOLDS(cvec_vector_close(&vector) == CVEC_DONE);
}

/* A seat that is closed is for the first in line, whoever else is woken or comes before it runs; two are for the first two. No close
 * comes between. */
static void seats_in_line(const char *path) {
    struct want first, second;
    cvec_seat *other = NULL;
    make(path, 2);
    HOLDS(cvec_seat_take(vector, &other) == CVEC_DONE);
    for (int turn = 0; turn < 20 && !wrong; turn++) {
        begin_want(&first, 30000, 0);
        begin_want(&second, 30000, 1);
        pthread_mutex_lock(&vector->mutex);
        cvec_drop_seat(vector, seat);
        pthread_cond_signal(&vector->line->next->turn);
        HOLDS(!is_one_spare(vector) && vector->asking == 2);
        pthread_mutex_unlock(&vector->mutex);
        pthread_join(first.thread, NULL);
        HOLDS(first.answer == CVEC_DONE && first.waited < 20000 && queued() == 1);
        begin_want(&first, 30000, 1);
        pthread_mutex_lock(&vector->mutex);
        cvec_drop_seat(vector, other);
        cvec_drop_seat(vector, vector->first);
        HOLDS(vector->seats == 0 && vector->asking == 2);
        pthread_mutex_unlock(&vector->mutex);
        pthread_join(first.thread, NULL);
        pthread_join(second.thread, NULL);
        HOLDS(first.answer == CVEC_DONE && second.answer == CVEC_DONE && first.waited < 20000 && second.waited < 20000);
        seat = first.seat;
        other = second.seat;
    }
    HOLDS(cvec_seat_close(&other) == CVEC_DONE && cvec_seat_close(&seat) == CVEC_DONE);
    HOLDS(cvec_vector_close(&vector) == CVEC_DONE);
}

/* While the whole vector is changed, which is held in its sync, a wait for a seat has its deadline too. */
static void seat_within_change(const char *path) {
    pthread_t caller;
    struct want want;
    cvec_seat *none = NULL;
    uint32_t answer = CVEC_BUSY;
    uint64_t number = 0;
    make(path, 1);
    HOLDS(grow(0, &number) == CVEC_DONE && cvec_seat_close(&seat) == CVEC_DONE);
    shut_gate(1);
    pthread_create(&caller, NULL, run_clear, &answer);
    until_held();
    HOLDS(cvec_seat_take_within(vector, 20, &none) == CVEC_LATE && none == NULL);
    begin_want(&want, UINT64_MAX, 0);
    HOLDS(holds() == 1 && cvec_vector_close(&vector) == CVEC_BUSY);
    shut_gate(0);
    pthread_join(caller, NULL);
    pthread_join(want.thread, NULL);
    HOLDS(answer == CVEC_DONE && want.answer == CVEC_DONE);
    seat = want.seat;
    HOLDS(grow(0, &number) == CVEC_DONE && number == 1);
    HOLDS(cvec_seat_close(&seat) == CVEC_DONE && cvec_vector_close(&vector) == CVEC_DONE && found(path) == 1);
}

/* A pool of 200 threads works by 64 seats: each grows 20 times, by a seat of its own each time. */
enum { POOL = 200, WORK = 20 };

static void *run_worker(void *name) {
    cvec_seat *own = NULL;
    for (uint64_t k = 0; k < WORK; k++) {
        const uint64_t record = (uint64_t)(uintptr_t)name * WORK + k;
        HOLDS(cvec_seat_take_within(vector, 60000, &own) == CVEC_DONE);
        if (own == NULL) return NULL;
        HOLDS(cvec_seat_grow_u64(own, &record, 1, NULL) == CVEC_DONE);
        if (k % 5 == 0) nap();
        HOLDS(cvec_seat_close(&own) == CVEC_DONE);
    }
    return NULL;
}

static void pool(const char *path) {
    static uint64_t seen[POOL * WORK + 1];
    static int times[POOL * WORK];
    pthread_t threads[POOL];
    uint64_t count = 0;
    HOLDS(cvec_vector_create(&vector, path, CVEC_U64, &(cvec_options){.version = 1, .seats = 64}) == CVEC_DONE);
    for (uintptr_t k = 0; k < POOL; k++) pthread_create(&threads[k], NULL, run_worker, (void *)k);
    for (int k = 0; k < POOL; k++) pthread_join(threads[k], NULL);
    HOLDS(cvec_vector_close(&vector) == CVEC_DONE && cvec_vector_open(&vector, path, CVEC_U64, &(cvec_options){.seats = 1}) == CVEC_DONE);
    HOLDS(cvec_seat_take(vector, &seat) == CVEC_DONE);
    HOLDS(cvec_seat_read_u64(seat, 0, seen, POOL * WORK + 1, &count) == CVEC_DONE && count == POOL * WORK);
    for (uint64_t k = 0; k < count; k++) HOLDS(seen[k] < POOL * WORK && times[seen[k]]++ == 0);
    HOLDS(cvec_seat_close(&seat) == CVEC_DONE && cvec_vector_close(&vector) == CVEC_DONE);
}

int main(int argc, char **argv) {
    static const struct {
        const char *name;
        void (*run)(const char *);
    } behaviours[] = {{"lock", locks},
                      {"readers", readers},
                      {"replaced", replaced},
                      {"streams", streams},
                      {"busy", is_busy},
                      {"fork", forks},
                      {"unlocks", unlocks},
                      {"unlocks_beside_programs", unlocks_beside_programs},
                      {"closes_locked", closes_locked},
                      {"parts", parts},
                      {"faults", faults},
                      {"memory", memory},
                      {"full", full},
                      {"too_large", too_large},
                      {"refusals", refusals},
                      {"foreign", foreign},
                      {"leader", leads},
                      {"gathers", gathers},
                      {"gathers_no_large", gathers_no_large},
                      {"late", late},
                      {"late_between", late_between},
                      {"flusher", flushes},
                      {"flusher_takes_all", flushes_all},
                      {"flusher_takes_blocks", flushes_blocks},
                      {"flusher_once", flushes_once},
                      {"flusher_fails", flusher_fails},
                      {"alone", alone},
                      {"alone_faults", alone_faults},
                      {"alone_forks", alone_forks},
                      {"alone_waits", alone_waits},
                      {"seat_again", seat_is_had_again},
                      {"alone_late", alone_beside_a_late_flusher},
                      {"alone_flushes", alone_flushes},
                      {"typed", typed},
                      {"flags", flags},
                      {"widths", widths},
                      {"flags_by_bytes", flags_by_bytes},
                      {"pushes", pushes},
                      {"push_threads", push_threads},
                      {"push_closes", push_closes},
                      {"push_blocks", push_blocks},
                      {"push_memory", push_memory},
                      {"push_full", push_full},
                      {"push_broken", push_broken},
                      {"pushes_typed", pushes_typed},
                      {"at", at},
                      {"in_memory", in_memory},
                      {"renewal_fails", renewal_fails},
                      {"renewal_memory", renewal_memory},
                      {"renewal_is_killed", renewal_is_killed},
                      {"renewal_waits", renewal_waits},
                      {"renewal_after_commit", renewal_after_commit},
                      {"renewal_after_call", renewal_after_call},
                      {"renewal_before_call", renewal_before_call},
                      {"renewals", renewals},
                      {"hold_refuses", hold_refuses},
                      {"hold_waits", hold_waits},
                      {"hold_comes_first", hold_comes_first},
                      {"hold_renews", hold_renews},
                      {"hold_broken", hold_broken},
                      {"hold_forks", hold_forks},
                      {"compaction_memory", compaction_memory},
                      {"seats_are_lost", seats_are_lost},
                      {"seat_within", seat_within},
                      {"seats_in_line", seats_in_line},
                      {"seat_within_change", seat_within_change},
                      {"pool", pool},
                      {"goes_on_u32", goes_on_u32},
                      {"goes_on_u64", goes_on_u64},
                      {"goes_on_i64", goes_on_i64},
                      {"goes_on_pair", goes_on_pair},
                      {"goes_on_flagged", goes_on_flagged}};
    if (argc != 3) return 2;
    for (size_t k = 0; k < sizeof behaviours / sizeof *behaviours; k++)
        if (strcmp(argv[1], behaviours[k].name) == 0) {
            behaviours[k].run(argv[2]);
            return wrong;
        }
    return 2;
}
