/* See system.h. */
#define _GNU_SOURCE 1
#include "system.h"

#include <errno.h>
#include <fcntl.h>
#include <signal.h>
#include <stdlib.h>
#include <string.h>
#include <sys/file.h>
#include <sys/mman.h>
#include <sys/stat.h>
#include <sys/statvfs.h>
#include <time.h>
#include <unistd.h>

/* How long a lock is tried while readers share it: for 10 seconds by the clock, and as many turns of 20 milliseconds at most. */
enum { LOCK_SECONDS = 10, LOCK_TURNS = 500, LOCK_WAIT = 20000000 };

/* ---- which process this is */

/* A process gets a number, greater than that of each from which it was forked: by the system's own, a child in a namespace of its own
 * may have its parent's. It stands here, or 0 behind a fork, since the system wipes it in the child. &no_process: there is no such
 * memory, and the system's number is asked for each time. NULL: neither is known yet. */
static uint64_t *noted_process;
static uint64_t no_process;
static uint64_t last_process; /* the greatest that was taken, by __atomic: a child goes on from its copy */

static uint64_t *new_note(void) {
#ifdef MADV_WIPEONFORK
    void *page = mmap(NULL, sizeof *noted_process, PROT_READ | PROT_WRITE, MAP_PRIVATE | MAP_ANONYMOUS, -1, 0);
    if (page == MAP_FAILED) return &no_process;
    if (madvise(page, sizeof *noted_process, MADV_WIPEONFORK) == 0) return page;
    munmap(page, sizeof *noted_process);
#endif
    return &no_process;
}

/* Of threads that come first at once the memory of one stays, and the others take it. So with the number below. */
static uint64_t *note_of_process(void) {
    uint64_t *note = __atomic_load_n(&noted_process, __ATOMIC_ACQUIRE);
    if (note != NULL) return note;
    uint64_t *fresh = new_note();
    if (__atomic_compare_exchange_n(&noted_process, &note, fresh, false, __ATOMIC_ACQ_REL, __ATOMIC_ACQUIRE)) return fresh;
    if (fresh != &no_process) munmap(fresh, sizeof *fresh);
    return note;
}

/* The same in each call by a process, without a call of the system, but in the first. Who reads it knows that it was taken: so each
 * copy of it that a child gets is no greater than the child's `last_process`. */
uint64_t cvec_process(void) {
    uint64_t *note = note_of_process();
    if (note == &no_process) return (uint64_t)getpid();
    uint64_t process = __atomic_load_n(note, __ATOMIC_ACQUIRE);
    if (process != 0) return process;
    const uint64_t fresh = __atomic_add_fetch(&last_process, 1, __ATOMIC_RELAXED);
    const bool stays = __atomic_compare_exchange_n(note, &process, fresh, false, __ATOMIC_ACQ_REL, __ATOMIC_ACQUIRE);
    return stays ? fresh : process;
}

/* ---- opening and closing */

/* Whether a signal has interrupted the call that answered this. */
static bool was_interrupted(ssize_t done) { return done < 0 && errno == EINTR; }

static int open_once(const char *path, int flags) {
    int fd;
    do fd = open(path, flags, 0666);
    while (was_interrupted(fd));
    return fd;
}

int cvec_system_open_null(int flags) { return open_once("/dev/null", flags); }

void cvec_system_close(int fd) {
    int why = errno;
    close(fd);
    errno = why;
}

/* /dev/null gets the numbers of standard streams that are closed, before a file would have one for a moment. */
static void take_streams(void) {
    for (int fd = STDIN_FILENO; fd <= STDERR_FILENO; fd++) {
        if (fcntl(fd, F_GETFD) >= 0) continue;
        int taken = cvec_system_open_null((fd == STDIN_FILENO ? O_WRONLY : O_RDONLY) | O_CLOEXEC);
        if (taken > STDERR_FILENO) cvec_system_close(taken);
    }
}

/* Where there is no /dev/null a file has such a number for that moment alone. */
static int behind_streams(int fd) {
    if (fd < 0 || fd > STDERR_FILENO) return fd;
    int moved = fcntl(fd, F_DUPFD_CLOEXEC, STDERR_FILENO + 1);
    cvec_system_close(fd);
    return moved;
}

static int open_path(const char *path, int flags) {
    take_streams();
    return behind_streams(open_once(path, flags | O_CLOEXEC));
}

static bool is_no_file(const char *path) {
    struct stat found;
    return stat(path, &found) == 0 && !S_ISREG(found.st_mode);
}

cvec_status cvec_system_open(const char *path, int flags, int *fd) {
    *fd = -1;
    if (is_no_file(path)) return CVEC_NOT_FILE;
    *fd = open_path(path, flags);
    return *fd < 0 ? CVEC_DISK_OPEN : CVEC_DONE;
}

/* ---- locks */

static cvec_status lock_by(int fd, int operation) {
    int done;
    do done = flock(fd, operation | LOCK_NB);
    while (was_interrupted(done));
    if (done == 0) return CVEC_DONE;
    return errno == EWOULDBLOCK ? CVEC_IN_USE : CVEC_DISK_OPEN;
}

void cvec_system_close_unlocked(int fd) {
    int why = errno;
    lock_by(fd, LOCK_UN);
    close(fd);
    errno = why;
}

/* A wait for readers: when it began, and how many turns it has had. Where processors are busy a turn takes longer. */
typedef struct lock_wait {
    struct timespec begun;
    int turns;
} lock_wait;

static lock_wait begin_lock_wait(void) {
    lock_wait wait = {{0, 0}, 0};
    clock_gettime(CLOCK_MONOTONIC, &wait.begun);
    return wait;
}

static bool has_waited(const lock_wait *wait) {
    struct timespec now;
    clock_gettime(CLOCK_MONOTONIC, &now);
    time_t seconds = now.tv_sec - wait->begun.tv_sec - (now.tv_nsec < wait->begun.tv_nsec);
    return wait->turns >= LOCK_TURNS || seconds >= LOCK_SECONDS;
}

/* The whole time of a turn, whichever signals come: a timer's would else cut all turns short. */
static void wait_a_turn(lock_wait *wait) {
    struct timespec left = {0, LOCK_WAIT};
    while (nanosleep(&left, &left) != 0 && errno == EINTR) {}
    wait->turns++;
}

/* Commands that only read share the lock, and have it for moments: where it can be shared, it is tried again. */
static cvec_status lock(int fd, lock_wait *wait) {
    for (;;) {
        cvec_status answer = lock_by(fd, LOCK_EX);
        if (answer != CVEC_IN_USE || has_waited(wait)) return answer;
        answer = lock_by(fd, LOCK_SH);
        if (answer == CVEC_DONE) answer = lock_by(fd, LOCK_UN);
        if (answer != CVEC_DONE) return answer;
        wait_a_turn(wait);
    }
}

static cvec_status ask_file(int fd, struct stat *found) {
    int done;
    do done = fstat(fd, found);
    while (was_interrupted(done));
    return done == 0 ? CVEC_DONE : CVEC_DISK_LENGTH;
}

/* Whether the path leads to this file. Where it leads to nothing it doesn't; any other failure is none of the name. */
static cvec_status ask_name(const char *path, int fd, bool *leads_here) {
    struct stat opened, named;
    int done;
    cvec_status answer = ask_file(fd, &opened);
    if (answer != CVEC_DONE) return answer;
    do done = stat(path, &named);
    while (was_interrupted(done));
    if (done != 0 && errno != ENOENT && errno != ENOTDIR) return CVEC_DISK_OPEN;
    *leads_here = done == 0 && named.st_dev == opened.st_dev && named.st_ino == opened.st_ino;
    return CVEC_DONE;
}

/* What is written to a file that lost its name while its lock was waited for would be lost. Each time that it did takes a turn, as each
 * try of a lock does. */
cvec_status cvec_system_open_locked(const char *path, int flags, int *fd) {
    lock_wait wait = begin_lock_wait();
    for (;;) {
        bool leads_here = false;
        cvec_status answer = cvec_system_open(path, O_RDWR | flags, fd);
        if (answer != CVEC_DONE) return answer;
        answer = lock(*fd, &wait);
        if (answer == CVEC_DONE) answer = ask_name(path, *fd, &leads_here);
        if (answer == CVEC_DONE && leads_here) return answer;
        cvec_system_close_unlocked(*fd);
        *fd = -1;
        if (answer != CVEC_DONE) return answer;
        if (has_waited(&wait)) return CVEC_IN_USE;
        wait_a_turn(&wait);
    }
}

/* ---- what a file is, and its bytes */

cvec_status cvec_system_length(int fd, uint64_t *len) {
    struct stat found;
    cvec_status answer = ask_file(fd, &found);
    if (answer != CVEC_DONE) return answer;
    if (!S_ISREG(found.st_mode)) return CVEC_NOT_FILE;
    *len = (uint64_t)found.st_size;
    return CVEC_DONE;
}

cvec_status cvec_system_identity(int fd, uint64_t *device, uint64_t *file) {
    struct stat found;
    cvec_status answer = ask_file(fd, &found);
    if (answer != CVEC_DONE) return answer;
    *device = (uint64_t)found.st_dev;
    *file = (uint64_t)found.st_ino;
    return CVEC_DONE;
}

/* A call for these bytes, from this place of a file on, of which it may do a part: so many. */
typedef ssize_t part_of(int fd, void *bytes, size_t len, uint64_t at);

static ssize_t read_part_at(int fd, void *bytes, size_t len, uint64_t at) { return pread(fd, bytes, len, (off_t)at); }
static ssize_t write_part_at(int fd, void *bytes, size_t len, uint64_t at) { return pwrite(fd, bytes, len, (off_t)at); }

static ssize_t read_part(int fd, void *bytes, size_t len, uint64_t at) {
    (void)at;
    return read(fd, bytes, len);
}

static ssize_t write_part(int fd, void *bytes, size_t len, uint64_t at) {
    (void)at;
    return write(fd, bytes, len);
}

/* How many bytes were done before a call that failed, or did none: then errno has this reason. */
static size_t do_all(part_of *part, int fd, void *bytes, size_t len, uint64_t at, int why_none) {
    size_t count = 0;
    while (count < len) {
        ssize_t done = part(fd, (uint8_t *)bytes + count, len - count, at + count);
        if (was_interrupted(done)) continue;
        if (done == 0) errno = why_none;
        if (done <= 0) break;
        count += (size_t)done;
    }
    return count;
}

cvec_status cvec_system_read_at(int fd, uint64_t at, uint8_t *bytes, size_t len) {
    return do_all(read_part_at, fd, bytes, len, at, EIO) == len ? CVEC_DONE : CVEC_DISK_READ;
}

cvec_status cvec_system_read_in_turn(int fd, uint64_t at, uint8_t *bytes, size_t room, size_t *count) {
    const size_t done = do_all(read_part_at, fd, bytes, room, at, 0);
    if (done < room && errno != 0) return CVEC_DISK_READ;
    *count = done;
    return CVEC_DONE;
}

/* SIGXFSZ, which would end the process, is held back in this thread, and taken. No byte of these is written to. */
cvec_status cvec_system_write_at(int fd, uint64_t at, const uint8_t *bytes, size_t len) {
    sigset_t too_large, before, pending;
    const struct timespec now = {0, 0};
    sigemptyset(&too_large);
    sigaddset(&too_large, SIGXFSZ);
    sigpending(&pending);
    pthread_sigmask(SIG_BLOCK, &too_large, &before);
    const bool is_done = do_all(write_part_at, fd, (uint8_t *)bytes, len, at, EIO) == len;
    int why = errno;
    if (!is_done && !sigismember(&pending, SIGXFSZ))
        while (sigtimedwait(&too_large, NULL, &now) < 0 && errno == EINTR) {}
    pthread_sigmask(SIG_SETMASK, &before, NULL);
    errno = why;
    return is_done ? CVEC_DONE : CVEC_DISK_WRITE;
}

cvec_status cvec_system_vacant(int fd, const uint8_t empty[CVEC_EMPTY_LEN], uint64_t *len) {
    uint8_t there[CVEC_EMPTY_LEN];
    cvec_status answer = cvec_system_length(fd, len);
    if (answer != CVEC_DONE) return answer;
    if (*len > CVEC_EMPTY_LEN) return CVEC_EXISTS;
    answer = cvec_system_read_at(fd, 0, there, (size_t)*len);
    for (size_t at = 0; answer == CVEC_DONE && at < (size_t)*len; at++)
        if (there[at] != 0 && there[at] != empty[at]) answer = CVEC_EXISTS;
    return answer == CVEC_DONE && *len > 1 && there[0] != 0 ? CVEC_EXISTS : answer;
}

/* ---- syncs */

cvec_status cvec_system_sync(int fd) {
    int done;
    do done = fdatasync(fd);
    while (was_interrupted(done));
    return done == 0 ? CVEC_DONE : CVEC_DISK_SYNC;
}

cvec_status cvec_system_sync_folder(const char *path) {
    char *whole = realpath(path, NULL);
    if (whole == NULL) return errno == ENOMEM ? CVEC_MEMORY : CVEC_DISK_OPEN;
    char *name = strrchr(whole, '/');
    name[name == whole ? 1 : 0] = '\0';
    int fd = open_path(whole, O_RDONLY | O_DIRECTORY);
    free(whole);
    if (fd < 0) return CVEC_DISK_OPEN;
    int done;
    do done = fsync(fd);
    while (was_interrupted(done));
    cvec_system_close(fd);
    return done == 0 ? CVEC_DONE : CVEC_DISK_SYNC;
}

static bool is_never_written(int fd) {
    struct statvfs found;
    int why = errno, done;
    do done = fstatvfs(fd, &found);
    while (was_interrupted(done));
    errno = why;
    return done == 0 && (found.f_flag & ST_RDONLY) != 0;
}

cvec_status cvec_system_sync_seen(int fd) {
    cvec_status answer = cvec_system_sync(fd);
    return answer != CVEC_DONE && (errno == EINVAL || errno == EROFS) && is_never_written(fd) ? CVEC_DONE : answer;
}

/* ---- pipes */

cvec_status cvec_system_pipe(int ends[2]) {
    take_streams();
    if (pipe2(ends, O_CLOEXEC) != 0) return CVEC_DISK_OPEN;
    for (int k = 0; k < 2; k++) ends[k] = behind_streams(ends[k]);
    if (ends[0] >= 0 && ends[1] >= 0) return CVEC_DONE;
    for (int k = 0; k < 2; k++)
        if (ends[k] >= 0) cvec_system_close(ends[k]);
    return CVEC_DISK_OPEN;
}

cvec_status cvec_system_read(int fd, void *bytes, size_t len) {
    return do_all(read_part, fd, bytes, len, 0, EPIPE) == len ? CVEC_DONE : CVEC_DISK_READ;
}

cvec_status cvec_system_write(int fd, const void *bytes, size_t len) {
    return do_all(write_part, fd, (void *)bytes, len, 0, EPIPE) == len ? CVEC_DONE : CVEC_DISK_WRITE;
}

/* ---- memory */

void cvec_system_touch(uint8_t *memory, size_t len) {
#ifdef MADV_POPULATE_WRITE
    const uintptr_t page = (uintptr_t)sysconf(_SC_PAGESIZE), begin = (uintptr_t)memory;
    const size_t skipped = (page - begin % page) % page;
    if (skipped < len) madvise(memory + skipped, (len - skipped) / page * page, MADV_POPULATE_WRITE);
#else
    (void)memory;
    (void)len;
#endif
}
