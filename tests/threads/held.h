/* For tests of the C for threads that include it whole: the calls of the system that it makes may be cut, refused, interrupted and
 * held, and memory may be refused. HOLDS tells what isn't so, and leaves `wrong`. */
#define _GNU_SOURCE 1
#include <errno.h>
#include <fcntl.h>
#include <inttypes.h>
#include <limits.h>
#include <pthread.h>
#include <signal.h>
#include <spawn.h>
#include <stdio.h>
#include <stdlib.h>
#include <string.h>
#include <sys/file.h>
#include <sys/resource.h>
#include <sys/stat.h>
#include <sys/types.h>
#include <sys/wait.h>
#include <unistd.h>

static int writes, syncs;       /* how many were made */
static int left = -1;           /* the calls that pass before one fails; none does below 0 */
static size_t part;             /* the bytes that a write makes at most; all of them at 0 */
static int interrupts;          /* whether every second call is interrupted first */
static int turn;
static int mallocs = -1; /* the requests for memory that pass before one is refused; none is below 0 */

static int waits, timed_waits; /* how many waits were begun: without a deadline, and with one */
static int dozing;
static int is_slow; /* a sync takes a millisecond more, and who waits for so long waits a tenth of a second more */

/* While the gate is shut, who syncs is held before it. */
static pthread_mutex_t gate = PTHREAD_MUTEX_INITIALIZER;
static pthread_cond_t gate_moved = PTHREAD_COND_INITIALIZER;
static int is_shut, held;

static void shut_gate(int shut) {
    pthread_mutex_lock(&gate);
    is_shut = shut;
    pthread_cond_broadcast(&gate_moved);
    pthread_mutex_unlock(&gate);
}

static void pass_gate(void) {
    pthread_mutex_lock(&gate);
    held++;
    pthread_cond_broadcast(&gate_moved);
    while (is_shut) pthread_cond_wait(&gate_moved, &gate);
    held--;
    pthread_mutex_unlock(&gate);
}

static void until_held(void) {
    pthread_mutex_lock(&gate);
    while (held == 0) pthread_cond_wait(&gate_moved, &gate);
    pthread_mutex_unlock(&gate);
}

static int holds(void) {
    pthread_mutex_lock(&gate);
    int count = held;
    pthread_mutex_unlock(&gate);
    return count;
}

static void nap(void) {
    const struct timespec time = {0, 1000000};
    nanosleep(&time, NULL);
}

static int wait_opens_gate; /* whether who waits opens the gate for whom it waits */

/* While `dozing` is set, who was woken gets the mutex only after others that want it. */
static int test_wait(pthread_cond_t *condition, pthread_mutex_t *mutex) {
    __atomic_add_fetch(&waits, 1, __ATOMIC_SEQ_CST);
    if (__atomic_load_n(&wait_opens_gate, __ATOMIC_SEQ_CST)) shut_gate(0);
    int answer = pthread_cond_wait(condition, mutex);
    if (__atomic_load_n(&dozing, __ATOMIC_SEQ_CST) == 0) return answer;
    pthread_mutex_unlock(mutex);
    while (__atomic_load_n(&dozing, __ATOMIC_SEQ_CST)) nap();
    pthread_mutex_lock(mutex);
    return answer;
}

static int is_drowsy; /* who was woken goes on a millisecond later */

static int test_timedwait(pthread_cond_t *condition, pthread_mutex_t *mutex, const struct timespec *until) {
    struct timespec moment = *until;
    __atomic_add_fetch(&timed_waits, 1, __ATOMIC_SEQ_CST);
    moment.tv_nsec += is_slow ? 100000000 : 0;
    if (moment.tv_nsec >= 1000000000) {
        moment.tv_sec++;
        moment.tv_nsec -= 1000000000;
    }
    const int answer = pthread_cond_timedwait(condition, mutex, &moment);
    if (__atomic_load_n(&is_drowsy, __ATOMIC_SEQ_CST)) {
        pthread_mutex_unlock(mutex);
        nap();
        pthread_mutex_lock(mutex);
    }
    return answer;
}

/* Whether the process is killed in place of a write or a sync, behind so many of them; none does below 0. */
static int calls_of_life = -1;

static void live(void) {
    if (calls_of_life >= 0 && calls_of_life-- == 0) raise(SIGKILL);
}

/* Where a path is watched, how many writes and syncs found its file locked, and how many not. */
static const char *watched_path;
static int locked_calls, unlocked_calls;

static void look_for_lock(void) {
    if (watched_path == NULL) return;
    const int other = open(watched_path, O_RDONLY);
    if (flock(other, LOCK_EX | LOCK_NB) == 0)
        unlocked_calls++;
    else
        locked_calls += errno == EWOULDBLOCK;
    close(other);
}

static int fails(void) { return __atomic_load_n(&left, __ATOMIC_SEQ_CST) >= 0 && __atomic_fetch_sub(&left, 1, __ATOMIC_SEQ_CST) == 0; }

static int is_interrupted(void) {
    errno = EINTR;
    return interrupts && turn++ % 2 == 0;
}

static ssize_t test_pwrite(int fd, const void *bytes, size_t len, off_t at) {
    if (is_interrupted()) return -1;
    live();
    look_for_lock();
    __atomic_add_fetch(&writes, 1, __ATOMIC_SEQ_CST);
    if (fails()) {
        errno = EIO;
        return pwrite(fd, bytes, len / 2, at) < 0 ? -1 : (errno = EIO, -1);
    }
    return pwrite(fd, bytes, part > 0 && part < len ? part : len, at);
}

static int test_fdatasync(int fd) {
    if (is_interrupted()) return -1;
    live();
    look_for_lock();
    pass_gate();
    if (is_slow) nap();
    __atomic_add_fetch(&syncs, 1, __ATOMIC_SEQ_CST);
    if (!fails()) return fdatasync(fd);
    errno = EIO;
    return -1;
}

/* A file that another process puts where one is about to be made. */
static const char *between_from;

/* Whether no folder may be read, and whether there is no /dev/null; the path where another file is put in the place of each one
 * that was opened, and how many were; and the least number that a file had at first. */
static int folders_are_shut, is_null_gone;
static const char *replaced_path;
static int opens, least_number;

static int test_open(const char *path, int flags, mode_t mode) {
    const int is_null = strcmp(path, "/dev/null") == 0;
    if (is_null && is_null_gone) {
        errno = ENOENT;
        return -1;
    }
    if (folders_are_shut && (flags & O_DIRECTORY) != 0) {
        errno = EACCES;
        return -1;
    }
    if (between_from != NULL && (flags & O_CREAT) != 0) {
        rename(between_from, path);
        between_from = NULL;
    }
    const int fd = open(path, flags, mode);
    if (!is_null && fd >= 0 && fd < least_number) least_number = fd;
    if (replaced_path == NULL || strcmp(path, replaced_path) != 0) return fd;
    opens++;
    if (remove(path) == 0) close(open(path, O_CREAT | O_WRONLY, 0666));
    return fd;
}

/* While a reader has a lock, a sleep takes no time, and ends that lock where so many have been made. Before, a file may get
 * another name. Signals may cut sleeps, each behind 6 milliseconds; it is counted how many were slept. */
static int reader = -1, naps, naps_of_reader;
static const char *moved_from, *moved_to;
static int naps_are_cut, slept;

/* Whether a signal cuts the sleep of this time, and what of it is left then. */
static int is_cut(const struct timespec *time, struct timespec *left_over) {
    const long all = time->tv_nsec, piece = 6000000;
    if (!naps_are_cut || all <= piece) {
        slept += (int)(all / 1000000);
        return 0;
    }
    slept += (int)(piece / 1000000);
    if (left_over != NULL) left_over->tv_nsec = all - piece;
    errno = EINTR;
    return 1;
}

static int test_nanosleep(const struct timespec *time, struct timespec *left_over) {
    if (reader < 0 && replaced_path == NULL) return nanosleep(time, left_over);
    if (is_cut(time, left_over)) return -1;
    if (++naps == naps_of_reader) {
        if (moved_from != NULL) rename(moved_from, moved_to);
        flock(reader, LOCK_UN);
    }
    return 0;
}

static int test_fsync(int fd) {
    if (!fails()) return fsync(fd);
    errno = EIO;
    return -1;
}

static int test_fstat(int fd, struct stat *found) { return is_interrupted() ? -1 : fstat(fd, found); }

static int stats = -1, stat_fault; /* the looks for a name that pass before one fails, and why; none does below 0 */

static int test_stat(const char *path, struct stat *found) {
    if (stats < 0 || stats-- > 0) return stat(path, found);
    errno = stat_fault;
    return -1;
}

static pid_t number_of_all; /* the number that each process has, or 0: each its own */

static pid_t test_getpid(void) { return number_of_all != 0 ? number_of_all : getpid(); }

static int threads_are_refused; /* whether the system makes no thread for the library */

static int test_create(pthread_t *thread, const pthread_attr_t *how, void *(*run)(void *), void *with) {
    return threads_are_refused ? EAGAIN : pthread_create(thread, how, run, with);
}

static void *test_malloc(size_t len) { return mallocs >= 0 && mallocs-- == 0 ? NULL : malloc(len); }

/* What asks the library for memory may be refused. */
static int requests = -1; /* of the library's that pass before one is refused; none is below 0 */

#include "cvec.h"

void *__real_malloc(size_t len);
void *__real_realloc(void *there, size_t len);
static int is_refused(void) { return requests >= 0 && requests-- == 0; }
void *__wrap_malloc(size_t len) { return is_refused() ? NULL : __real_malloc(len); }
void *__wrap_realloc(void *there, size_t len) { return is_refused() ? NULL : __real_realloc(there, len); }

#define getpid test_getpid
#define malloc test_malloc
#define nanosleep test_nanosleep
#define pwrite test_pwrite
#define fdatasync test_fdatasync
#define fsync test_fsync
#define fstat test_fstat
#define stat(path, found) test_stat(path, found) /* but not the type */
#define open test_open
#define pthread_cond_timedwait test_timedwait
#define pthread_cond_wait test_wait
#define pthread_create test_create
#include "system.c"

/* A call of a thread that is to be stopped asks which process this is, on its way in, and goes no further until it may. */
static __thread int is_to_stop;
static int has_stopped, may_go_on;

static uint64_t asked_process(void) {
    if (is_to_stop) {
        is_to_stop = 0;
        __atomic_store_n(&has_stopped, 1, __ATOMIC_SEQ_CST);
        while (!__atomic_load_n(&may_go_on, __ATOMIC_SEQ_CST)) nap();
    }
    return cvec_process();
}

#include "types.c"
#define cvec_process asked_process
#include "vector.c"
#include "whole.c"
#include "seats.c"
#include "growing.c"
#include "settling.c"
#undef cvec_process
#undef pthread_create
#undef pthread_cond_wait
#undef pthread_cond_timedwait
#undef malloc
#undef getpid
#undef nanosleep
#undef pwrite
#undef fdatasync
#undef fsync
#undef fstat
#undef stat
#undef open

#include "typed.h"

static int wrong;

/* What isn't so is told, by its line. */
#define HOLDS(claim) \
    do \
        if (!(claim)) { \
            printf("line %d: not so: %s\n", __LINE__, #claim); \
            wrong = 1; \
        } \
    while (0)

static cvec_vector *vector;
static cvec_seat *seat;

/* A new vector with so many seats, one of them taken, and with phases of so many growths. */
static void make_narrow(const char *path, uint16_t seats, uint64_t growths) {
    const cvec_options options = {1, seats, 0, growths};
    HOLDS(cvec_vector_create(&vector, path, CVEC_U64, &options) == CVEC_DONE);
    if (wrong) exit(1);
    HOLDS(cvec_seat_take(vector, &seat) == CVEC_DONE);
    if (wrong) exit(1);
}

/* With as many as there can be. */
static void make(const char *path, uint16_t seats) { make_narrow(path, seats, 0); }

static uint32_t grow(uint64_t record, uint64_t *number) {
    cvec_receipt receipt;
    uint32_t status = cvec_seat_grow_u64(seat, &record, 1, &receipt);
    if (status == CVEC_DONE) *number = receipt.number;
    return status;
}

/* Opens the file again, and answers how many records there are, which are 0, 1, .. in order. */
static uint64_t found(const char *path) {
    static uint64_t seen[1 << 18];
    uint64_t size = 0, count = 0;
    HOLDS(cvec_vector_open(&vector, path, CVEC_U64, &(cvec_options){.seats = 1}) == CVEC_DONE);
    if (wrong) return 0;
    HOLDS(cvec_seat_take(vector, &seat) == CVEC_DONE);
    HOLDS(cvec_seat_size(seat, &size) == CVEC_DONE);
    HOLDS(cvec_seat_read_u64(seat, 0, seen, 1 << 18, &count) == CVEC_DONE);
    HOLDS(count == size);
    for (uint64_t k = 0; k < count; k++) HOLDS(seen[k] == k);
    HOLDS(cvec_seat_close(&seat) == CVEC_DONE);
    HOLDS(cvec_vector_close(&vector) == CVEC_DONE);
    return size;
}
