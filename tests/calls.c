/* Stands between a program and the system's calls, as a library that LD_PRELOAD names. The environment says what it does:

   CALLS_LOG=FILE     a line is added for each write and each sync that has succeeded, and for each answer that begins:
                          write NAME PLACE LENGTH FIRST LAST    the file's name, and the first and last byte in hex
                          sync NAME                             a file, or a folder
                          answer LENGTH                         on standard output
                          tell NAME LENGTH                      on any other descriptor above standard error
   CALLS_TRACE=FILE   the same with the bytes, from which any moment of a file is laid out. Bytes stand behind their line:
                          write NAME PLACE LENGTH               once it is made
                          sync NAME                             once it has succeeded
                          answer LENGTH, tell NAME LENGTH       before it is made
   CALLS_PART=N       each read and write does at most N bytes. Each call on a file whose interruption docs/file/disk.md
                      names is interrupted once before it is made: pread, pwrite, fdatasync, and statx of a descriptor
   CALLS_FAIL=CALL:N  the call of this name fails, which is number N of those with it, from 1: EIO, ENOSPC of a write, or
                      EAGAIN of the start of a thread (thread)
   CALLS_DROP=1       each fdatasync succeeds, and is neither made nor noted
   CALLS_LARGEST=N    a request for more than N bytes of memory is refused
   CALLS_WAIT=N       each pread is made N microseconds later
   CALLS_NAP=N        each nap takes N microseconds more, as on a busy machine
   CALLS_NAPS=FILE    a line is added for each time that a thread sleeps until it is woken, but for a while at most: for how many
                      microseconds
   CALLS_MOVE=FILE    once the first lock is had, the file FILE.new gets the name FILE
   CALLS_AT_LOCK=N:COMMAND  before lock number N is asked for, from 1, this command of the shell is run, without this library */
#define _GNU_SOURCE
#include <dlfcn.h>
#include <errno.h>
#include <fcntl.h>
#include <linux/futex.h>
#include <pthread.h>
#include <stdarg.h>
#include <stdio.h>
#include <stdlib.h>
#include <string.h>
#include <sys/file.h>
#include <sys/stat.h>
#include <sys/syscall.h>
#include <sys/uio.h>
#include <time.h>
#include <unistd.h>

enum call { READ, WRITE, PREAD, PWRITE, FDATASYNC, FSYNC, STATX, FLOCK, THREAD, CALLS };
static const char *const names[CALLS] = {"read", "write", "pread", "pwrite", "fdatasync", "fsync", "statx", "flock", "thread"};
static int seen[CALLS], made[CALLS], drops, failing = -1, failing_at, log_to = -1, trace_to = -1, naps_to = -1;
static size_t part = (size_t)-1, largest = (size_t)-1;
static useconds_t before_read, in_nap;
static const char *moved, *at_lock;

/* Opens a file that lines are added to. The program's own descriptors keep their numbers. */
static int open_log(const char *name) {
    if (name == NULL) return -1;
    int opened = open(name, O_WRONLY | O_CREAT | O_APPEND | O_CLOEXEC, 0666);
    int moved_to = fcntl(opened, F_DUPFD_CLOEXEC, 200);
    close(opened);
    return moved_to;
}

__attribute__((constructor)) static void begin(void) {
    const char *most = getenv("CALLS_PART"), *fail = getenv("CALLS_FAIL");
    const char *bytes = getenv("CALLS_LARGEST"), *wait = getenv("CALLS_WAIT");
    const char *nap = getenv("CALLS_NAP");
    log_to = open_log(getenv("CALLS_LOG"));
    trace_to = open_log(getenv("CALLS_TRACE"));
    naps_to = open_log(getenv("CALLS_NAPS"));
    drops = getenv("CALLS_DROP") != NULL;
    if (most != NULL) part = strtoul(most, NULL, 10);
    if (bytes != NULL) largest = strtoul(bytes, NULL, 10);
    moved = getenv("CALLS_MOVE");
    at_lock = getenv("CALLS_AT_LOCK");
    if (wait != NULL) before_read = (useconds_t)atoi(wait);
    if (nap != NULL) in_nap = (useconds_t)atoi(nap);
    for (int call = 0; fail != NULL && call < CALLS; call++) {
        size_t length = strlen(names[call]);
        if (strncmp(fail, names[call], length) == 0 && fail[length] == ':') {
            failing = call;
            failing_at = atoi(fail + length + 1);
        }
    }
}

static const char *name_of(int fd, char *buffer, size_t length) {
    char link[32];
    snprintf(link, sizeof link, "/proc/self/fd/%d", fd);
    ssize_t found = readlink(link, buffer, length - 1);
    buffer[found < 0 ? 0 : found] = 0;
    const char *slash = strrchr(buffer, '/');
    return slash == NULL ? buffer : slash + 1;
}

static void note(int fd, const char *kind, const char *more) {
    char name[4096], line[4300];
    if (log_to < 0) return;
    int length = snprintf(line, sizeof line, "%s %s%s%s\n", kind, name_of(fd, name, sizeof name), *more ? " " : "", more);
    if (write(log_to, line, (size_t)length) != length) abort();
}

/* Adds a call to the trace, as a whole. */
static void trace(const char *line, const void *bytes, size_t n) {
    const struct iovec parts[] = {{(void *)line, strlen(line)}, {(void *)bytes, n}};
    if (trace_to >= 0 && writev(trace_to, parts, 2) != (ssize_t)(parts[0].iov_len + n)) abort();
}

static void trace_file(int fd, const char *kind, const char *more, const void *bytes, size_t n) {
    char name[4096], line[4300];
    if (trace_to < 0) return;
    snprintf(line, sizeof line, "%s %s%s\n", kind, name_of(fd, name, sizeof name), more);
    trace(line, bytes, n);
}

/* Whether the call on a file is interrupted instead of made. */
static int is_interrupted(enum call call) {
    if (part == (size_t)-1 || __atomic_fetch_add(&seen[call], 1, __ATOMIC_SEQ_CST) % 2 != 0) return 0;
    errno = EINTR;
    return 1;
}

/* Whether the call fails instead of being made. */
static int is_refused(enum call call) {
    if (__atomic_add_fetch(&made[call], 1, __ATOMIC_SEQ_CST) == failing_at && (int)call == failing) {
        errno = call == WRITE || call == PWRITE ? ENOSPC : EIO;
        return 1;
    }
    return 0;
}

static size_t at_most(size_t n) { return n < part ? n : part; }

#define NEXT(name) ((__typeof__(&name))dlsym(RTLD_NEXT, #name))

ssize_t read(int fd, void *bytes, size_t n) { return is_refused(READ) ? -1 : NEXT(read)(fd, bytes, at_most(n)); }

ssize_t pread(int fd, void *bytes, size_t n, off_t place) {
    if (before_read > 0) usleep(before_read);
    return is_interrupted(PREAD) || is_refused(PREAD) ? -1 : NEXT(pread)(fd, bytes, at_most(n), place);
}

ssize_t write(int fd, const void *bytes, size_t n) {
    char more[32];
    if (fd == log_to) return NEXT(write)(fd, bytes, n);
    if (is_refused(WRITE)) return -1;
    snprintf(more, sizeof more, "%zu", at_most(n));
    if (fd == STDOUT_FILENO && log_to >= 0) dprintf(log_to, "answer %s\n", more);
    if (fd > STDERR_FILENO) note(fd, "tell", more);
    snprintf(more, sizeof more, " %zu", at_most(n));
    if (fd > STDERR_FILENO) trace_file(fd, "tell", more, bytes, at_most(n));
    snprintf(more, sizeof more, "answer %zu\n", at_most(n));
    if (fd == STDOUT_FILENO) trace(more, bytes, at_most(n));
    return NEXT(write)(fd, bytes, at_most(n));
}

ssize_t __write(int fd, const void *bytes, size_t n) { return write(fd, bytes, n); }

ssize_t pwrite(int fd, const void *bytes, size_t n, off_t place) {
    if (is_interrupted(PWRITE) || is_refused(PWRITE)) return -1;
    ssize_t done = NEXT(pwrite)(fd, bytes, at_most(n), place);
    if (done > 0) {
        const unsigned char *all = bytes;
        char more[80];
        snprintf(more, sizeof more, "%lld %zd %02x %02x", (long long)place, done, all[0], all[done - 1]);
        note(fd, "write", more);
        snprintf(more, sizeof more, " %lld %zd", (long long)place, done);
        trace_file(fd, "write", more, bytes, (size_t)done);
    }
    return done;
}

int nanosleep(const struct timespec *asked, struct timespec *left) {
    if (in_nap > 0) usleep(in_nap);
    return NEXT(nanosleep)(asked, left);
}

int clock_nanosleep(clockid_t clock, int flags, const struct timespec *asked, struct timespec *left) {
    if (in_nap > 0) usleep(in_nap);
    return NEXT(clock_nanosleep)(clock, flags, asked, left);
}

/* A sleep without an end has one of ages. */
static void note_nap(const long *words) {
    const struct timespec *most = (const struct timespec *)words[3];
    int what = (int)words[1] & FUTEX_CMD_MASK;
    if (naps_to < 0 || what != FUTEX_WAIT || most == NULL || most->tv_sec > 1000000) return;
    dprintf(naps_to, "%ld\n", most->tv_sec * 1000000 + most->tv_nsec / 1000);
}

long syscall(long number, ...) {
    long words[6];
    va_list given;
    va_start(given, number);
    for (int k = 0; k < 6; k++) words[k] = va_arg(given, long);
    va_end(given);
    if (number == SYS_futex) note_nap(words);
    return NEXT(syscall)(number, words[0], words[1], words[2], words[3], words[4], words[5]);
}

static int synced(int fd, int failed) {
    if (!failed) note(fd, "sync", "");
    if (!failed) trace_file(fd, "sync", "", "", 0);
    return failed;
}

int fdatasync(int fd) {
    if (drops) return 0;
    return is_interrupted(FDATASYNC) || is_refused(FDATASYNC) ? -1 : synced(fd, NEXT(fdatasync)(fd));
}

int fsync(int fd) { return is_refused(FSYNC) ? -1 : synced(fd, NEXT(fsync)(fd)); }

int statx(int fd, const char *path, int flags, unsigned mask, struct statx *found) {
    if ((*path == 0 && is_interrupted(STATX)) || is_refused(STATX)) return -1;
    return NEXT(statx)(fd, path, flags, mask, found);
}

/* Another file is put in the place of the one that was locked, once. */
static void move_over(void) {
    char new[4096];
    if (moved == NULL) return;
    snprintf(new, sizeof new, "%s.new", moved);
    if (rename(new, moved) != 0) abort();
    moved = NULL;
}

static void run_at_lock(void) {
    static int locks;
    char *command;
    if (at_lock == NULL || ++locks != strtol(at_lock, &command, 10)) return;
    unsetenv("LD_PRELOAD");
    if (system(command + 1) != 0) abort();
}

int flock(int fd, int how) {
    run_at_lock();
    if (is_refused(FLOCK) || NEXT(flock)(fd, how) != 0) return -1;
    move_over();
    return 0;
}

int pthread_create(pthread_t *thread, const pthread_attr_t *how, void *(*run)(void *), void *with) {
    return is_refused(THREAD) ? EAGAIN : NEXT(pthread_create)(thread, how, run, with);
}

extern void *__libc_malloc(size_t), *__libc_realloc(void *, size_t);

static int is_too_much(size_t n) {
    if (n > largest) errno = ENOMEM;
    return n > largest;
}

void *malloc(size_t n) { return is_too_much(n) ? NULL : __libc_malloc(n); }

void *realloc(void *bytes, size_t n) { return is_too_much(n) ? NULL : __libc_realloc(bytes, n); }
