/* To be preloaded: what a caller asks of the system on its segment files (those that `open` opens by names that end with .cv,
 * for writing or not), on their folders, and on pipes. By CALLS:
 *
 *   part   each call is interrupted once (EINTR), then a read does a part (at most 7 bytes) and a write at most 5. A call
 *          that closes leaves another errno. A wait for a child is interrupted as well.
 *   plan   each call that writes, syncs or locks is noted in the file `calls`, reads that follow one another as one, and
 *          `back` where one begins in front of where the last one ended. The file
 *          `plan` is `KIND N ERRNO [BYTES]`: the call of that kind with number N from now on fails by this number, having
 *          written so many bytes. Where ERRNO is 0 it answers that it did nothing. The KIND `memory` is a request of just BYTES
 *          bytes, which isn't noted; of less than 4,096 none is looked at.
 *
 * At its first call it makes the file `meddled`. Programs that the caller runs aren't meddled with. */
#define _GNU_SOURCE 1
#include <dlfcn.h>
#include <errno.h>
#include <fcntl.h>
#include <stdarg.h>
#include <stdio.h>
#include <stdlib.h>
#include <string.h>
#include <sys/file.h>
#include <sys/stat.h>
#include <sys/syscall.h>
#include <sys/wait.h>
#include <unistd.h>

enum { LIMIT = 1024, OTHER = 0, SEGMENT = 1, FOLDER = 2, PIPE = 3 };
enum { LEAST_MEMORY = 4096 };
enum { PART_READ = 7, PART_WRITE = 5, MOST_READ = 1 << 20 };

static int is_part, is_plan;
static unsigned char kinds[LIMIT];  /* of descriptors */
static char folders[LIMIT][64];     /* the last part of a folder's name */
static unsigned char pauses[LIMIT]; /* whether the next call is interrupted */
static char planned[16];
static int left, why;
static size_t before;
static int was_read;   /* the last call that was noted is a read */
static off_t read_end; /* and ended here */

__attribute__((constructor)) static void begin(void) {
    const char *mode = getenv("CALLS");
    is_part = mode && !strcmp(mode, "part");
    is_plan = mode && !strcmp(mode, "plan");
    unsetenv("LD_PRELOAD");
    memset(pauses, 1, sizeof pauses);
}

/* Adds a line to a file of the folder. */
static void note(const char *name, const char *line) {
    int log = (int)syscall(SYS_openat, AT_FDCWD, name, O_WRONLY | O_CREAT | O_APPEND | O_CLOEXEC, 0666);
    if (log < 0 || syscall(SYS_write, log, line, strlen(line)) < 0) abort();
    syscall(SYS_close, log);
}

static void note_that_it_meddles(void) {
    static int was_noted;
    if (!was_noted) note("meddled", "");
    was_noted = 1;
}

static int kind_of(int fd) { return fd >= 0 && fd < LIMIT ? kinds[fd] : OTHER; }

static int is_pipe(int fd) {
    struct stat found;
    return fd > 2 && fd < LIMIT && syscall(SYS_fstat, fd, &found) == 0 && S_ISFIFO(found.st_mode);
}

/* Each second call on a descriptor is interrupted. */
static int is_interrupted(int fd) {
    if (!is_part || fd < 0 || fd >= LIMIT) return 0;
    note_that_it_meddles();
    int now = pauses[fd];
    pauses[fd] = !now;
    if (now) errno = EINTR;
    return now;
}

static void read_plan(void) {
    char text[64] = "";
    int plan = (int)syscall(SYS_openat, AT_FDCWD, "plan", O_RDONLY | O_CLOEXEC);
    if (plan < 0) return;
    if (syscall(SYS_read, plan, text, sizeof text - 1) < 0) abort();
    syscall(SYS_close, plan);
    unlink("plan");
    before = 0;
    if (sscanf(text, "%15s %d %d %zu", planned, &left, &why, &before) < 3) abort();
}

/* Notes a call, and whether it fails. */
static int fails(const char *kind, const char *words) {
    char line[160];
    if (!is_plan) return 0;
    note_that_it_meddles();
    read_plan();
    int failing = left > 0 && !strcmp(kind, planned) && --left == 0;
    int reads = !strcmp(kind, "read");
    snprintf(line, sizeof line, "%s%s%s\n", kind, words, failing ? " fails" : "");
    if (failing || !reads || !was_read) note("calls", line);
    was_read = reads && !failing;
    if (failing) errno = why;
    return failing;
}

extern void *__libc_malloc(size_t);
extern void *__libc_realloc(void *, size_t);

static int is_memory_refused(size_t len) {
    if (!is_plan || len < LEAST_MEMORY) return 0;
    read_plan();
    if (left <= 0 || strcmp(planned, "memory") || len != before || --left > 0) return 0;
    errno = ENOMEM;
    return 1;
}

void *malloc(size_t len) { return is_memory_refused(len) ? NULL : __libc_malloc(len); }
void *realloc(void *bytes, size_t len) { return is_memory_refused(len) ? NULL : __libc_realloc(bytes, len); }

#define REAL(name) __typeof__(&name) real = (__typeof__(&name))dlsym(RTLD_NEXT, #name)

static int is_segment(const char *path) {
    size_t len = strlen(path);
    return len > 3 && !strcmp(path + len - 3, ".cv");
}

static int opened(const char *path, int flags, int fd) {
    const char *last = strrchr(path, '/');
    if (fd < 0 || fd >= LIMIT) return fd;
    kinds[fd] = OTHER;
    if (is_segment(path)) kinds[fd] = SEGMENT;
    if (flags & O_DIRECTORY) {
        kinds[fd] = FOLDER;
        snprintf(folders[fd], sizeof folders[fd], "%.60s", last ? last + 1 : path);
    }
    return fd;
}

int open(const char *path, int flags, ...) {
    static int pause = 1;
    REAL(open);
    va_list more;
    va_start(more, flags);
    mode_t mode = flags & (O_CREAT | O_TMPFILE) ? va_arg(more, mode_t) : 0;
    va_end(more);
    if (is_part && (is_segment(path) || flags & O_DIRECTORY) && (pause = !pause) == 0) {
        errno = EINTR;
        return -1;
    }
    return opened(path, flags, real(path, flags, mode));
}

int flock(int fd, int operation) {
    REAL(flock);
    const char *kind = (operation & LOCK_UN) != 0 ? "unlock" : "lock";
    if (kind_of(fd) == SEGMENT && (is_interrupted(fd) || fails(kind, ""))) return -1;
    return real(fd, operation);
}

int fstat(int fd, struct stat *found) {
    REAL(fstat);
    if (kind_of(fd) == SEGMENT && (is_interrupted(fd) || fails("length", ""))) return -1;
    return real(fd, found);
}

static size_t part(size_t len, size_t most) { return is_part && len > most ? most : len; }

ssize_t pread(int fd, void *bytes, size_t len, off_t at) {
    REAL(pread);
    if (kind_of(fd) != SEGMENT) return real(fd, bytes, len, at);
    if (is_interrupted(fd)) return -1;
    if (is_plan && was_read && at < read_end) note("calls", "back\n");
    if (fails("read", "")) return why == 0 ? 0 : -1;
    read_end = at;
    /* A long file is read by calls that do more and more, so that it takes no minutes, but by some past 2 GiB too. */
    size_t most = PART_READ + (size_t)at / 4;
    ssize_t done = real(fd, bytes, part(len, most < MOST_READ ? most : MOST_READ), at);
    if (done > 0) read_end = at + done;
    return done;
}

ssize_t pwrite(int fd, const void *bytes, size_t len, off_t at) {
    char words[64];
    REAL(pwrite);
    if (kind_of(fd) != SEGMENT) return real(fd, bytes, len, at);
    if (is_interrupted(fd)) return -1;
    snprintf(words, sizeof words, " %zu at %lld", len, (long long)at);
    if (fails("write", words)) {
        if (before > 0 && real(fd, bytes, before, at) != (ssize_t)before) abort();
        errno = why;
        return why == 0 ? 0 : -1;
    }
    return real(fd, bytes, part(len, PART_WRITE + len / 2), at);
}

int fdatasync(int fd) {
    REAL(fdatasync);
    if (kind_of(fd) == SEGMENT && (is_interrupted(fd) || fails("sync", ""))) return -1;
    return real(fd);
}

int fsync(int fd) {
    char words[80];
    REAL(fsync);
    if (kind_of(fd) == OTHER) return real(fd);
    snprintf(words, sizeof words, " %s", kind_of(fd) == FOLDER ? folders[fd] : "");
    if (is_interrupted(fd) || fails(kind_of(fd) == FOLDER ? "folder" : "sync", kind_of(fd) == FOLDER ? words : "")) return -1;
    return real(fd);
}

ssize_t read(int fd, void *bytes, size_t len) {
    REAL(read);
    if (!is_part || !is_pipe(fd)) return real(fd, bytes, len);
    return is_interrupted(fd) ? -1 : real(fd, bytes, part(len, PART_READ));
}

ssize_t write(int fd, const void *bytes, size_t len) {
    REAL(write);
    if (!is_part || !is_pipe(fd)) return real(fd, bytes, len);
    return is_interrupted(fd) ? -1 : real(fd, bytes, part(len, PART_WRITE));
}

/* Each second wait for a child is interrupted. */
pid_t waitpid(pid_t pid, int *status, int options) {
    static int pause;
    REAL(waitpid);
    if (is_part && (pause = !pause) != 0) {
        errno = EINTR;
        return -1;
    }
    return real(pid, status, options);
}

int close(int fd) {
    REAL(close);
    int was = kind_of(fd), done = real(fd);
    if (was != OTHER) {
        kinds[fd] = OTHER;
        if (is_part || is_plan) errno = EBADF;
    }
    return done;
}
