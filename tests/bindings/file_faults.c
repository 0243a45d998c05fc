/* A test of file.c: every call of the system fails once, and what the file has then is what it had before the function
 * that was running, or what it has after; a forked process is refused, no file ever has the number of a standard stream, no write
 * past the limit of a file's size ends the process, what is opened has the name, signals cut short no wait for a lock, what is
 * closed is locked no more, no record has another flag than 0 or 1, or another width, and a handle of nothing is refused. Prints the calls of a run in which none fails:
 * ./file_faults FILE */
#define _GNU_SOURCE 1
#include <errno.h>
#include <fcntl.h>
#include <limits.h>
#include <pthread.h>
#include <signal.h>
#include <spawn.h>
#include <stdio.h>
#include <stdlib.h>
#include <string.h>
#include <sys/file.h>
#include <sys/resource.h>
#include <sys/stat.h>
#include <sys/statvfs.h>
#include <sys/types.h>
#include <sys/wait.h>
#include <time.h>
#include <unistd.h>

static int left = -1; /* the calls that pass before one fails; none does below 0 */
static int traced;

static int fails(void) { return left >= 0 && left-- == 0; }

/* A write that fails has written half. */
static ssize_t faulty_pwrite(int fd, const void *bytes, size_t len, off_t at) {
    if (traced) printf("write %zu at %lld\n", len, (long long)at);
    if (!fails()) return pwrite(fd, bytes, len, at);
    if (pwrite(fd, bytes, len / 2, at) < 0) perror("pwrite");
    return -1;
}

static int faulty_sync(int fd, int (*sync)(int), const char *name) {
    if (traced) puts(name);
    return fails() ? -1 : sync(fd);
}

static int faulty_fdatasync(int fd) { return faulty_sync(fd, fdatasync, "sync"); }
static int faulty_fsync(int fd) { return faulty_sync(fd, fsync, "sync of the folder"); }

static int looks = -1, why_no_look; /* the looks for a name that pass before one fails, and why; none does below 0 */

static int faulty_stat(const char *path, struct stat *found) {
    if (looks < 0 || looks-- > 0) return stat(path, found);
    errno = why_no_look;
    return -1;
}

static int is_read_only; /* whether no file system can be written; a signal interrupts the first call that asks for it */

static int faulty_fstatvfs(int fd, struct statvfs *found) {
    if (is_read_only == 0) return fstatvfs(fd, found);
    memset(found, 0, sizeof *found);
    found->f_flag = ST_RDONLY;
    errno = EINTR;
    return is_read_only++ == 1 ? -1 : 0;
}

static pid_t number_of_all; /* the number that each process has, or 0: each its own */

static pid_t faulty_getpid(void) { return number_of_all != 0 ? number_of_all : getpid(); }

/* Whether no folder may be read, and the least number that a file had at first. */
static int folders_are_shut, least_number;

static int faulty_open(const char *path, int flags, mode_t mode) {
    const int fd = folders_are_shut && (flags & O_DIRECTORY) ? -1 : open(path, flags, mode);
    if (fd >= 0 && fd < least_number && strcmp(path, "/dev/null") != 0) least_number = fd;
    return fd;
}

/* While a reader has a lock, a sleep takes no time: in it a file gets another name, and the lock ends. Before, so many signals
 * come, each in the midst of a sleep; and so many nanoseconds were slept. */
static int reader = -1, signals;
static long slept;
static const char *moved_from, *moved_to;

static int faulty_nanosleep(const struct timespec *time, struct timespec *left_over) {
    const long all = time->tv_nsec, half = all / 2;
    if (reader < 0) return nanosleep(time, left_over);
    slept += signals > 0 ? half : all;
    if (signals > 0) {
        signals--;
        if (left_over != NULL) left_over->tv_nsec = all - half;
        errno = EINTR;
        return -1;
    }
    rename(moved_from, moved_to);
    return flock(reader, LOCK_UN);
}

static int frees; /* how often memory was given back */

static void counted_free(void *memory) {
    frees += memory != NULL;
    free(memory);
}

#define free counted_free
#define getpid faulty_getpid
#define nanosleep faulty_nanosleep
#define open faulty_open
#define pwrite faulty_pwrite
#define fdatasync faulty_fdatasync
#define fsync faulty_fsync
#define fstatvfs faulty_fstatvfs
#define stat(path, found) faulty_stat(path, found) /* but not the type */
#include "system.c"
#include "types.c"
#include "file.c"
#undef free
#undef getpid
#undef nanosleep
#undef open
#undef pwrite
#undef fdatasync
#undef fsync
#undef fstatvfs
#undef stat

static const uint64_t numbers[] = {5, 7, 11, 13};

/* Creates a file and appends 3 records and 1, as far as no call fails. How many were told to be durable: -1 where not even
 * the file was. */
static int run(const char *path) {
    int done = -1;
    cvec_file *file;
    if (cvec_file_create(&file, path, CVEC_U64, 1) != CVEC_DONE) return done;
    done = 0;
    if (cvec_file_append_u64(file, numbers, 3) == CVEC_DONE) {
        done = 3;
        if (cvec_file_append_u64(file, numbers + 3, 1) == CVEC_DONE) done = 4;
    }
    cvec_stat stat;
    if (done < 4 && cvec_file_append_u64(file, numbers, 1) != CVEC_BROKEN) puts("a broken file takes records");
    if (cvec_file_stat(file, &stat) != CVEC_DONE || stat.size != (uint64_t)done) puts("a file tells of records that it was refused");
    cvec_file_close(&file);
    return done;
}

/* What a file that is opened again has: -1 where there is none yet. */
static int found(const char *path) {
    uint64_t seen[4], count = 0;
    cvec_fault fault;
    cvec_file *file;
    uint32_t status = cvec_file_open(&file, path, CVEC_U64, &fault);
    if (status == CVEC_UNBORN) return -1;
    if (status == CVEC_DONE) status = cvec_file_read_u64(file, 0, seen, 4, &count, &fault);
    cvec_file_close(&file);
    return status == CVEC_DONE && memcmp(seen, numbers, 8 * count) == 0 ? (int)count : -2;
}

/* A file with these first numbers. */
static int is_made(const char *path, size_t count) {
    cvec_file *file;
    uint32_t status = cvec_file_create(&file, path, CVEC_U64, 1);
    if (status == CVEC_DONE) status = cvec_file_append_u64(file, numbers, count);
    cvec_file_close(&file);
    return status == CVEC_DONE;
}

/* In a forked process: whether it is refused, and gives back no memory, at which another thread of its parent may have been. It would
 * append where its parent does. */
static int is_refused(cvec_file *file) {
    uint64_t seen[4], count = 0;
    cvec_stat stat;
    uint32_t appended = cvec_file_append_u64(file, numbers + 3, 1), read = cvec_file_read_u64(file, 0, seen, 4, &count, NULL);
    const int is_known = cvec_file_stat(file, &stat) == CVEC_DONE && stat.size == 0;
    frees = 0;
    cvec_file_close(&file);
    return appended == CVEC_FORKED && read == CVEC_FORKED && is_known && file == NULL && frees == 0;
}

/* Whether the file is refused since it is in use, which a second opening in one process is too. */
static int is_in_use(const char *path) {
    cvec_file *other;
    return cvec_file_open(&other, path, CVEC_U64, NULL) == CVEC_IN_USE;
}

/* Whether a file whose process has forked has what that appended then, and stays its own behind a close in the child; also where
 * the system's number of the child is its own, as in a namespace. */
static int stays_of_one_process(const char *path) {
    cvec_file *file;
    int status = 1;
    if (cvec_file_create(&file, path, CVEC_U64, 1) != CVEC_DONE) return 0;
    if (noted_process != &no_process) number_of_all = getpid();
    pid_t child = fork();
    if (child == 0) _exit(is_refused(file) ? 0 : 1);
    number_of_all = 0;
    if (child < 0 || waitpid(child, &status, 0) != child) return 0;
    const int stays = is_in_use(path);
    uint32_t appended = cvec_file_append_u64(file, numbers, 3);
    cvec_file_close(&file);
    return status == 0 && stays && appended == CVEC_DONE && found(path) == 3;
}

/* Whether a file is free once it is closed, while another process has a copy of its descriptor, as a program has that another
 * thread has started, until it runs. */
static int is_free_beside_a_copy(const char *path) {
    cvec_file *file;
    if (cvec_file_create(&file, path, CVEC_U64, 1) != CVEC_DONE) return 0;
    pid_t child = fork();
    if (child == 0)
        for (;;) pause();
    cvec_file_close(&file);
    const int size = found(path);
    return child > 0 && kill(child, SIGKILL) == 0 && waitpid(child, NULL, 0) == child && size == 0;
}

extern char **environ;
static int is_over; /* no program is to be started any more */

static void *start_programs(void *unused) {
    char *const words[] = {(char *)"true", NULL};
    pid_t child;
    while (!__atomic_load_n(&is_over, __ATOMIC_SEQ_CST))
        if (posix_spawnp(&child, words[0], NULL, NULL, words, environ) == 0) waitpid(child, NULL, 0);
    return unused;
}

/* The same beside such a thread. */
static int is_free_beside_programs(const char *path) {
    pthread_t starter;
    int opened = 0;
    if (!is_made(path, 3) || pthread_create(&starter, NULL, start_programs, NULL) != 0) return 0;
    while (opened < 500 && found(path) == 3) opened++;
    __atomic_store_n(&is_over, 1, __ATOMIC_SEQ_CST);
    return pthread_join(starter, NULL) == 0 && opened == 500;
}

/* No sync fails where the folder can't be read, which is to be synced. */
static int tells_of_a_folder_that_is_shut(const char *path) {
    cvec_file *file;
    folders_are_shut = 1;
    uint32_t status = cvec_file_create(&file, path, CVEC_U64, 1);
    folders_are_shut = 0;
    return status == CVEC_DISK_OPEN && file == NULL;
}

/* A file that stands in the root has a folder too. */
static int syncs_the_root(const char *path) {
    (void)path;
    return cvec_system_sync_folder("/dev") == CVEC_DONE;
}

/* In a process whose standard streams are closed: whether the file never has one of their numbers, to print fails as before, and
 * no program that is run has the file. */
static int is_behind_streams(const char *path) {
    cvec_file *file;
    for (int fd = 0; fd <= STDERR_FILENO; fd++) close(fd);
    least_number = INT_MAX;
    if (cvec_file_create(&file, path, CVEC_U64, 1) != CVEC_DONE || least_number <= STDERR_FILENO) return 0;
    for (int fd = STDOUT_FILENO; fd <= STDERR_FILENO; fd++)
        if (write(fd, "a line", 6) != -1 || errno != EBADF || fcntl(fd, F_GETFD) != FD_CLOEXEC) return 0;
    return file->fd > STDERR_FILENO && fcntl(file->fd, F_GETFD) == FD_CLOEXEC;
}

/* In a process whose files may be no larger than this: whether an append past that is refused, and no signal is held back behind
 * it. */
static int is_refused_past_the_limit(const char *path) {
    static const uint64_t many[1024];
    struct rlimit most;
    sigset_t held_back;
    cvec_file *file;
    if (cvec_file_create(&file, path, CVEC_U64, 1) != CVEC_DONE || getrlimit(RLIMIT_FSIZE, &most) != 0) return 0;
    most.rlim_cur = 4096;
    if (setrlimit(RLIMIT_FSIZE, &most) != 0 || cvec_file_append_u64(file, many, 1024) != CVEC_DISK_WRITE || errno != EFBIG) return 0;
    if (pthread_sigmask(SIG_BLOCK, NULL, &held_back) != 0 || sigismember(&held_back, SIGXFSZ)) return 0;
    return cvec_file_append_u64(file, numbers, 1) == CVEC_BROKEN;
}

/* In a process that holds the signal back, and for which one waits: whether a refused write leaves both as they are. */
static int is_left_a_signal_that_waits(const char *path) {
    sigset_t too_large, now;
    sigemptyset(&too_large);
    sigaddset(&too_large, SIGXFSZ);
    if (pthread_sigmask(SIG_BLOCK, &too_large, NULL) != 0 || raise(SIGXFSZ) != 0) return 0;
    if (is_refused_past_the_limit(path) || errno != EFBIG) return 0; /* since the signal is held back */
    if (sigpending(&now) != 0 || !sigismember(&now, SIGXFSZ)) return 0;
    return pthread_sigmask(SIG_BLOCK, NULL, &now) == 0 && sigismember(&now, SIGXFSZ);
}

static int holds_in_a_child(int (*holds)(const char *), const char *path) {
    int status = 1;
    pid_t child = fork();
    if (child == 0) _exit(holds(path) ? 0 : 1);
    return child > 0 && waitpid(child, &status, 0) == child && status == 0;
}

static int stays_behind_streams(const char *path) { return holds_in_a_child(is_behind_streams, path); }

static int lives_past_the_limit(const char *path) { return holds_in_a_child(is_refused_past_the_limit, path); }

static int leaves_a_signal_that_waits(const char *path) { return holds_in_a_child(is_left_a_signal_that_waits, path); }

/* Whether a file that is put in place of one, whose lock is waited for, is the one that takes records. */
static int opens_what_has_the_name(const char *path) {
    char other[4096];
    cvec_fault fault;
    cvec_file *file;
    snprintf(other, sizeof other, "%s.other", path);
    if (!is_made(path, 1) || !is_made(other, 3)) return 0;
    reader = open(path, O_RDONLY);
    if (flock(reader, LOCK_SH) != 0) return 0;
    moved_from = other;
    moved_to = path;
    uint32_t status = cvec_file_open(&file, path, CVEC_U64, &fault);
    close(reader);
    reader = -1;
    if (status == CVEC_DONE) status = cvec_file_append_u64(file, numbers + 3, 1);
    cvec_file_close(&file);
    return status == CVEC_DONE && found(path) == 4;
}

/* Whether a look for the name of what is locked, the second one, is told where it fails by more than that nothing has the name. One
 * that a signal interrupts is made again: it takes no turn of the wait. */
static int tells_of_a_look_that_fails(const char *path) {
    cvec_fault fault;
    cvec_file *file;
    looks = 1;
    why_no_look = EIO;
    if (cvec_file_create(&file, path, CVEC_U64, 1) != CVEC_DISK_OPEN || errno != EIO || file != NULL) return 0;
    looks = 1;
    why_no_look = ENOENT;
    uint32_t status = cvec_file_create(&file, path, CVEC_U64, 1);
    cvec_file_close(&file);
    if (status != CVEC_DONE || looks != -1) return 0;
    looks = 1;
    why_no_look = EINTR;
    status = cvec_file_open(&file, path, CVEC_U64, &fault);
    cvec_file_close(&file);
    return status == CVEC_DONE && looks == -1;
}

/* Whether signals cut no turn short for which a lock is waited. */
static int waits_whole_turns(const char *path) {
    cvec_fault fault;
    cvec_file *file;
    if (!is_made(path, 1)) return 0;
    reader = open(path, O_RDONLY);
    if (flock(reader, LOCK_SH) != 0) return 0;
    moved_from = moved_to = path;
    signals = 3;
    slept = 0;
    uint32_t status = cvec_file_open(&file, path, CVEC_U64, &fault);
    close(reader);
    reader = -1;
    cvec_file_close(&file);
    return status == CVEC_DONE && signals == 0 && slept == LOCK_WAIT;
}

/* Whether an append that has another flag than 0 or 1 is refused, and one behind it goes on where that would have. */
static int takes_no_other_flag(const char *path) {
    const uint8_t other = 2;
    cvec_flagged records[2] = {{5, true}, {6, false}}, seen[4];
    uint64_t count = 0, before = 0, after = 0;
    cvec_fault fault;
    cvec_file *file;
    memcpy((uint8_t *)&records[1] + offsetof(cvec_flagged, flag), &other, 1);
    uint32_t status = cvec_file_create(&file, path, CVEC_FLAGGED, 1);
    if (status == CVEC_DONE) status = cvec_file_append_flagged(file, records, 1);
    if (status != CVEC_DONE || cvec_system_length(file->fd, &before) != CVEC_DONE) return 0;
    uint32_t refused = cvec_file_append_flagged(file, records, 2);
    if (cvec_system_length(file->fd, &after) != CVEC_DONE || after != before) return 0;
    status = cvec_file_append_flagged(file, records, 1);
    cvec_file_close(&file);
    if (status == CVEC_DONE) status = cvec_file_open(&file, path, CVEC_FLAGGED, &fault);
    if (status == CVEC_DONE) status = cvec_file_read_flagged(file, 0, seen, 4, &count, &fault);
    cvec_file_close(&file);
    return refused == CVEC_NO_RECORD && status == CVEC_DONE && count == 2 && seen[0].flag && seen[1].flag;
}

static int is_so(cvec_status answer) { return answer == CVEC_NOT_SO; }

/* Whether a handle of nothing is refused, and its close does nothing, also behind a close. */
static int refuses_no_handle(const char *path) {
    uint64_t seen[2] = {3, 3}, count = 3;
    cvec_fault fault = {3, 3, 3};
    cvec_stat stat;
    cvec_file *file = NULL;
    cvec_file_close(&file);
    if (cvec_file_create(&file, path, CVEC_U64, 1) != CVEC_DONE || file == NULL) return 0;
    for (int k = 0; k < 2; k++) cvec_file_close(&file);
    memset(&stat, 3, sizeof stat);
    const int are = is_so(cvec_file_append_u64(file, numbers, 1)) && is_so(cvec_file_read_u64(file, 0, seen, 2, &count, &fault)) &&
                    is_so(cvec_file_read_u64(file, 0, seen, 2, &count, NULL)) && is_so(cvec_file_stat(file, &stat));
    return are && file == NULL && count == 3 && seen[0] == 3 && stat.size == 0x0303030303030303 && found(path) == 0;
}

/* Whether calls of a file of u64 are refused that name a type of another width, or none, and those by one of the same aren't. */
static int takes_its_width_alone(cvec_file *file, int is_to_read) {
    union { uint32_t u32; int64_t i64; double f64; cvec_pair pair; cvec_flagged flagged; uint64_t words[8]; } seen = {.words = {3, 3}};
    const cvec_type others[] = {CVEC_U32, CVEC_PAIR, CVEC_FLAGGED, CVEC_BYTES64};
    uint64_t count = 9;
    cvec_fault fault;
    cvec_stat stat;
    for (size_t k = 0; k < sizeof others / sizeof *others; k++) {
        if (!is_to_read && cvec_file_append(file, others[k], &seen, 1) != CVEC_WIDTH) return 0;
        if (cvec_file_read(file, others[k], 0, &seen, 1, &count, &fault) != CVEC_WIDTH || fault.found != 8) return 0;
        if (cvec_file_read(file, others[k], 0, NULL, 0, &count, NULL) != CVEC_WIDTH) return 0;
    }
    if (!is_to_read && !is_so(cvec_file_append(file, CVEC_TYPE_COUNT, &seen, 1))) return 0;
    if (!is_so(cvec_file_read(file, CVEC_TYPE_COUNT, 0, &seen, 1, &count, &fault)) || seen.words[0] != 3 || count != 9) return 0;
    if (cvec_file_stat(file, &stat) != CVEC_DONE || stat.width != 8 || stat.size != 1) return 0;
    return cvec_file_read_i64(file, 0, &seen.i64, 1, &count, NULL) == CVEC_DONE && seen.i64 == -2 && count == 1;
}

static int keeps_widths_apart(const char *path) {
    const int64_t number = -2;
    cvec_file *file, *beside;
    if (cvec_file_create(&file, path, CVEC_U64, 1) != CVEC_DONE || cvec_file_append_i64(file, &number, 1) != CVEC_DONE) return 0;
    if (cvec_file_open_to_read(&beside, path, CVEC_F64, NULL) != CVEC_DONE) return 0;
    const int are = takes_its_width_alone(file, 0) && takes_its_width_alone(beside, 1);
    cvec_file_close(&beside);
    cvec_file_close(&file);
    return are && cvec_file_open(&file, path, CVEC_PAIR, NULL) == CVEC_WIDTH && file == NULL;
}

/* Whether a file is made of either version, and of no other, of which nothing is made. */
static int makes_both_versions(const char *path) {
    const size_t many = ((1 << 20) - 8) / sizeof(uint64_t) + 1; /* one more than a growth of version 1 has */
    uint64_t *records = calloc(many, sizeof *records);
    cvec_file *file;
    cvec_stat stat;
    int are = records != NULL;
    for (uint8_t version = 0; version < 4; version += 3)
        are = are && cvec_file_create(&file, path, CVEC_U64, version) == CVEC_VERSION && file == NULL && access(path, F_OK) != 0;
    for (uint8_t version = 1; version < 3; version++) {
        const cvec_status wanted = version == 1 ? CVEC_TOO_LARGE : CVEC_DONE;
        remove(path);
        are = are && cvec_file_create(&file, path, CVEC_U64, version) == CVEC_DONE && cvec_file_stat(file, &stat) == CVEC_DONE;
        are = are && stat.version == version && cvec_file_append_u64(file, records, many) == wanted;
        cvec_file_close(&file);
        are = are && cvec_file_open(&file, path, CVEC_U64, NULL) == CVEC_DONE && cvec_file_stat(file, &stat) == CVEC_DONE;
        are = are && stat.version == version;
        cvec_file_close(&file);
    }
    free(records);
    return are;
}

/* Whether a file that is longer than what is read of it at first, and at next, is read whole beside its writer. */
static int reads_all_beside_a_writer(const char *path) {
    enum { EACH = 20000, TIMES = 3 };
    static uint64_t records[EACH], seen[EACH * TIMES + 1];
    uint64_t count = 0;
    cvec_file *file, *beside;
    int are = cvec_file_create(&file, path, CVEC_U64, 1) == CVEC_DONE;
    for (uint64_t k = 0; k < EACH; k++) records[k] = k;
    for (int k = 0; k < TIMES; k++) are = are && cvec_file_append_u64(file, records, EACH) == CVEC_DONE;
    are = are && cvec_file_open_to_read(&beside, path, CVEC_U64, NULL) == CVEC_DONE;
    are = are && cvec_file_read_u64(beside, 0, seen, EACH * TIMES + 1, &count, NULL) == CVEC_DONE && count == EACH * TIMES;
    for (uint64_t k = 0; k < count; k++) are = are && seen[k] == k % EACH;
    cvec_file_close(&beside);
    cvec_file_close(&file);
    return are;
}

/* Whether a pipe, which another program may put in the place of a file as it is opened, has no length. */
static int asks_files_alone(const char *path) {
    uint64_t len = 9;
    int ends[2];
    (void)path;
    if (pipe(ends) != 0) return 0;
    const uint32_t answer = cvec_system_length(ends[0], &len);
    close(ends[0]);
    close(ends[1]);
    return answer == CVEC_NOT_FILE && len == 9;
}

/* Whether what can't be written needs no sync to be seen. */
static int sees_what_is_never_written(const char *path) {
    if (!is_made(path, 1)) return 0;
    const int fd = open(path, O_RDONLY);
    is_read_only = 1;
    left = 0;
    errno = EINVAL;
    const uint32_t answer = cvec_system_sync_seen(fd);
    const int asked = is_read_only;
    is_read_only = 0;
    left = -1;
    close(fd);
    return answer == CVEC_DONE && asked == 3;
}

/* The next size behind this one. */
static int next(int size) { return size == -1 ? 0 : size == 0 ? 3 : 4; }

/* Each call fails once. How many there are, or -1 where something was lost. */
static int loses_nothing(const char *path) {
    int calls = 0, lost = 0;
    for (int done = -1; done < 4; calls++) {
        remove(path);
        left = calls;
        done = run(path);
        left = -1;
        int size = found(path);
        if (size != done && size != next(done)) {
            printf("call %d failed: %d were durable, %d are there\n", calls, done, size);
            lost = 1;
        }
    }
    return lost ? -1 : calls - 1;
}

int main(int argc, char **argv) {
    static const struct {
        int (*holds)(const char *);
        const char *otherwise;
    } rules[] = {{stays_of_one_process, "a forked process has the file too"},
                 {tells_of_a_folder_that_is_shut, "a folder that can't be read passes for one whose sync has failed"},
                 {stays_behind_streams, "a file has the number of a standard stream"},
                 {lives_past_the_limit, "a write past the limit of a file's size ends the process"},
                 {leaves_a_signal_that_waits, "a write takes a signal that waited before it, or lets one come"},
                 {syncs_the_root, "the root isn't the folder of what stands in it"},
                 {opens_what_has_the_name, "a file that has the name no more takes records"},
                 {tells_of_a_look_that_fails, "a look for a name that fails passes for a name that is gone"},
                 {waits_whole_turns, "signals cut short how long a lock is waited for"},
                 {is_free_beside_a_copy, "a file that is closed is locked still, by a copy of its descriptor"},
                 {is_free_beside_programs, "a file that is closed is locked still, by a program that is being started"},
                 {takes_no_other_flag, "a flag is neither 0 nor 1"},
                 {refuses_no_handle, "a handle of nothing is none of the library's to refuse"},
                 {keeps_widths_apart, "a type of another width is taken"},
                 {makes_both_versions, "a file has another version than it was made by"},
                 {reads_all_beside_a_writer, "a file is read beside its writer to its middle"},
                 {asks_files_alone, "a pipe passes for a file"},
                 {sees_what_is_never_written, "a file that nobody can write is not seen where it can't be synced"}};
    if (argc != 2) return 2;
    const int calls = loses_nothing(argv[1]);
    int lost = calls < 0;
    for (size_t k = 0; k < sizeof rules / sizeof *rules; k++) {
        remove(argv[1]);
        if (rules[k].holds(argv[1])) continue;
        puts(rules[k].otherwise);
        lost = 1;
    }
    remove(argv[1]);
    traced = 1;
    run(argv[1]);
    printf("each of %d calls failed once\n", calls);
    return lost;
}
