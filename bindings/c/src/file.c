/* A segment file by the system's calls, in the order on which libcvec_c.a's promises rest. */
#define _DEFAULT_SOURCE 1
#include "system.h"
#include "types.h"

#include <fcntl.h>
#include <stdlib.h>
#include <string.h>

static const uint8_t open_gate = 1;
static const uint8_t closed_gate = 0;

/* What is lent in place of no records: the library wants a pointer also where the length is 0. */
static const cvec_pair no_records[1];
static cvec_pair no_room[1];

/* The bytes that a file takes for its frames at first, and for what is read of one whose length isn't known. */
enum { FIRST_ROOM = 4096, FIRST_PIECE = 65536 };

/* ---- records as C has them. Of each type but flagged these are the bytes of the file. */

/* The bytes of a file, read into memory: of a device that fails a map would end the process. */
struct image {
    uint8_t *bytes;
    size_t len;
};

/* Either of the library's two reads of an image. */
typedef cvec_status read_image(uint32_t type, const uint8_t *image, size_t len, uint64_t from, uint8_t *out, size_t room, uint64_t *count,
                               cvec_stat *stat, cvec_fault *fault);

/* What is asked of a file: records from position `from` on. */
struct wanted {
    cvec_type type;
    uint64_t from;
    void *out;
    size_t room;
    uint64_t *count;
};

static cvec_status read_records(read_image *read, const struct image *image, struct wanted of, cvec_stat *stat, cvec_fault *fault) {
    const size_t room = cvec_bytes_of(of.type, of.room);
    const cvec_status answer = read(of.type, image->bytes, image->len, of.from, of.out, room, of.count, stat, fault);
    if (answer == CVEC_DONE && of.type == CVEC_FLAGGED) cvec_unpack(of.out, (size_t)*of.count);
    return answer;
}

/* What is refused whatever the records are is so before they are packed: the library, told that there is no room, says it. */
static cvec_status append_flagged(const cvec_stat *stat, const void *records, size_t count, uint8_t *out, size_t room, cvec_stat *next) {
    const size_t len = cvec_bytes_of(CVEC_FLAGGED, count);
    cvec_status answer = cvec_image_append(CVEC_FLAGGED, stat, records, len, out, 0, next);
    if (answer != CVEC_NO_ROOM || room < CVEC_APPEND_LEN(FLAGGED_LEN, count)) return answer;
    uint8_t *bytes = malloc(len);
    if (bytes == NULL) return CVEC_MEMORY;
    cvec_pack(records, count, bytes);
    answer = cvec_image_append(CVEC_FLAGGED, stat, bytes, len, out, room, next);
    free(bytes);
    return answer;
}

static cvec_status append_records(cvec_type type, const cvec_stat *stat, const void *records, size_t count, uint8_t *out, size_t room,
                                  cvec_stat *next) {
    if (type == CVEC_FLAGGED) return append_flagged(stat, records, count, out, room, next);
    return cvec_image_append(type, stat, records, cvec_bytes_of(type, count), out, room, next);
}

/* ---- what is written, and read */

static cvec_status write_synced(int fd, uint64_t at, const uint8_t *bytes, size_t len) {
    cvec_status answer = cvec_system_write_at(fd, at, bytes, len);
    return answer != CVEC_DONE ? answer : cvec_system_sync(fd);
}

/* Bytes that are written behind their gate, synced, and then appear by their gate, the first of them, synced too. A crash
 * leaves the gate shut, or all of them. */
static cvec_status commit(int fd, uint64_t gate, const uint8_t *bytes, size_t len) {
    cvec_status answer = write_synced(fd, gate + 1, bytes + 1, len - 1);
    return answer != CVEC_DONE ? answer : write_synced(fd, gate, &open_gate, 1);
}

struct cvec_file {
    int fd;
    bool is_broken;
    bool is_to_read;
    uint64_t process; /* the one that opened it */
    cvec_stat stat;   /* of one that is open to be read: what it held when it was last read */
    uint8_t *bytes;   /* of the last append, to be used again; of one that is open to be read NULL */
    size_t room;
};

/* Takes memory for a file that isn't open yet, and for its frames. Refused, nothing has been made. */
static cvec_status begin(cvec_file **file, bool is_to_read) {
    cvec_file *made = calloc(1, sizeof *made);
    *file = NULL;
    if (made == NULL) return CVEC_MEMORY;
    made->fd = -1;
    made->is_to_read = is_to_read;
    made->process = cvec_process();
    if (!is_to_read) {
        made->bytes = malloc(FIRST_ROOM);
        made->room = FIRST_ROOM;
    }
    if (is_to_read || made->bytes != NULL) {
        *file = made;
        return CVEC_DONE;
    }
    free(made);
    return CVEC_MEMORY;
}

/* What a call that makes a handle answers: if it is refused, it makes none. */
static cvec_status kept_where_done(cvec_file **file, cvec_status answer) {
    if (answer != CVEC_DONE) cvec_file_close(file);
    return answer;
}

static bool is_forked(const cvec_file *file) { return file->process != cvec_process(); }

/* Why no call may be made on the file, if none may. The lock is that of a forked process too, so it stops neither. */
static cvec_status refusal_of(const cvec_file *file) {
    if (file == NULL) return CVEC_NOT_SO;
    if (file->is_broken) return CVEC_BROKEN;
    return is_forked(file) ? CVEC_FORKED : CVEC_DONE;
}

/* The fault, which is none yet: another one if nobody asks for it. */
static cvec_fault *no_fault_yet(cvec_fault *fault, cvec_fault *unasked) {
    if (fault == NULL) fault = unasked;
    memset(fault, 0, sizeof *fault);
    return fault;
}

static cvec_status load(int fd, struct image *image) {
    uint64_t len = 0;
    cvec_status answer = cvec_system_length(fd, &len);
    if (answer != CVEC_DONE) return answer;
    if (len >= SIZE_MAX) return CVEC_MEMORY;
    image->len = (size_t)len;
    image->bytes = malloc(image->len + 1); /* of no bytes malloc may give NULL */
    if (image->bytes == NULL) return CVEC_MEMORY;
    answer = cvec_system_read_at(fd, 0, image->bytes, image->len);
    if (answer != CVEC_DONE) free(image->bytes);
    return answer;
}

static cvec_status take_more(struct image *image, size_t *room) {
    size_t more = *room == 0 ? FIRST_PIECE : *room * 2;
    uint8_t *bytes = more > *room ? realloc(image->bytes, more) : NULL;
    if (bytes == NULL) return CVEC_MEMORY;
    image->bytes = bytes;
    *room = more;
    return CVEC_DONE;
}

/* Of a file that another process may write. A length that was asked before would cut a frame whose gate is read open later. */
static cvec_status load_in_turn(int fd, struct image *image) {
    size_t room = 0, count = 0;
    cvec_status answer;
    *image = (struct image){NULL, 0};
    do {
        answer = take_more(image, &room);
        if (answer == CVEC_DONE) answer = cvec_system_read_in_turn(fd, image->len, image->bytes + image->len, room - image->len, &count);
        if (answer == CVEC_DONE) image->len += count;
    } while (answer == CVEC_DONE && image->len == room);
    if (answer != CVEC_DONE) free(image->bytes);
    return answer;
}

/* ---- a file that is made: a sync, a look what is there, its first byte shut, and a commit at place 0 */

static cvec_status shut_first(int fd, const uint8_t *empty) {
    uint64_t len = 0;
    cvec_status answer = cvec_system_vacant(fd, empty, &len);
    if (answer != CVEC_DONE) return answer;
    return len < 2 ? write_synced(fd, 0, &closed_gate, 1) : CVEC_DONE;
}

static cvec_status make(cvec_file *file, const char *path, const uint8_t bytes[CVEC_EMPTY_LEN]) {
    cvec_status answer = cvec_system_open_locked(path, O_CREAT, &file->fd);
    if (answer == CVEC_DONE) answer = cvec_system_sync_folder(path);
    if (answer == CVEC_DONE) answer = cvec_system_sync(file->fd);
    if (answer == CVEC_DONE) answer = shut_first(file->fd, bytes);
    return answer == CVEC_DONE ? commit(file->fd, 0, bytes, CVEC_EMPTY_LEN) : answer;
}

cvec_status cvec_file_create(cvec_file **file, const char *path, cvec_type type, uint8_t version) {
    uint8_t bytes[CVEC_EMPTY_LEN];
    cvec_stat empty;
    *file = NULL;
    cvec_status answer = cvec_image_empty(type, version, bytes, sizeof bytes, &empty);
    if (answer == CVEC_DONE) answer = begin(file, false);
    if (answer != CVEC_DONE) return answer;
    (*file)->stat = empty;
    return kept_where_done(file, make(*file, path, bytes));
}

/* ---- a file that is opened: a sync, so that what is read is what a crash leaves, and a check of its bytes */

static cvec_status check(cvec_file *file, const char *path, cvec_type type, cvec_fault *fault) {
    struct image image;
    cvec_status answer = cvec_system_open_locked(path, 0, &file->fd);
    if (answer == CVEC_DONE) answer = cvec_system_sync(file->fd);
    if (answer == CVEC_DONE) answer = load(file->fd, &image);
    if (answer != CVEC_DONE) return answer;
    answer = cvec_image_check(type, image.bytes, image.len, &file->stat, fault);
    free(image.bytes);
    return answer;
}

cvec_status cvec_file_open(cvec_file **file, const char *path, cvec_type type, cvec_fault *fault) {
    cvec_fault unasked;
    fault = no_fault_yet(fault, &unasked);
    const cvec_status answer = begin(file, false);
    return answer == CVEC_DONE ? kept_where_done(file, check(*file, path, type, fault)) : answer;
}

/* ---- a file that is read beside its writer: all bytes in turn, a sync, so that what was seen is on the device, and a look */

static cvec_status look(cvec_file *file, struct wanted wanted, cvec_fault *fault) {
    struct image image;
    cvec_status answer = load_in_turn(file->fd, &image);
    if (answer != CVEC_DONE) return answer;
    answer = cvec_system_sync_seen(file->fd);
    if (answer != CVEC_DONE)
        file->is_broken = true;
    else
        answer = read_records(cvec_image_look, &image, wanted, &file->stat, fault);
    free(image.bytes);
    return answer;
}

static cvec_status check_beside(cvec_file *file, const char *path, cvec_type type, cvec_fault *fault) {
    uint64_t count = 0;
    const cvec_status answer = cvec_system_open(path, O_RDONLY, &file->fd);
    return answer == CVEC_DONE ? look(file, (struct wanted){type, 0, no_room, 0, &count}, fault) : answer;
}

cvec_status cvec_file_open_to_read(cvec_file **file, const char *path, cvec_type type, cvec_fault *fault) {
    cvec_fault unasked;
    fault = no_fault_yet(fault, &unasked);
    const cvec_status answer = begin(file, true);
    return answer == CVEC_DONE ? kept_where_done(file, check_beside(*file, path, type, fault)) : answer;
}

/* ---- records */

static cvec_status take_room(cvec_file *file, size_t len) {
    uint8_t *bytes = realloc(file->bytes, len);
    if (bytes == NULL) return CVEC_MEMORY;
    file->bytes = bytes;
    file->room = len;
    return CVEC_DONE;
}

/* The frame of the records, in the file's memory: of the library's tests that of the room comes last. */
static cvec_status make_frame(cvec_file *file, cvec_type type, const void *records, size_t count, cvec_stat *next) {
    cvec_status answer = append_records(type, &file->stat, records, count, file->bytes, file->room, next);
    if (answer != CVEC_NO_ROOM) return answer;
    answer = take_room(file, (size_t)CVEC_APPEND_LEN(file->stat.width, count));
    if (answer != CVEC_DONE) return answer;
    return append_records(type, &file->stat, records, count, file->bytes, file->room, next);
}

cvec_status cvec_file_append(cvec_file *file, cvec_type type, const void *records, size_t count) {
    cvec_stat next;
    cvec_status answer = refusal_of(file);
    if (answer == CVEC_DONE && file->is_to_read) answer = CVEC_READ_ONLY;
    if (answer == CVEC_DONE) answer = make_frame(file, type, count > 0 ? records : no_records, count, &next);
    if (answer != CVEC_DONE) return answer;
    answer = commit(file->fd, file->stat.gate, file->bytes, (size_t)(next.gate + 1 - file->stat.gate));
    if (answer != CVEC_DONE) {
        file->is_broken = true;
        return answer;
    }
    file->stat = next;
    return CVEC_DONE;
}

/* Of a file that nobody else writes. */
static cvec_status copy(const cvec_file *file, struct wanted wanted, cvec_fault *fault) {
    struct image image;
    cvec_stat stat;
    cvec_status answer = load(file->fd, &image);
    if (answer != CVEC_DONE) return answer;
    answer = read_records(cvec_image_read, &image, wanted, &stat, fault);
    free(image.bytes);
    return answer;
}

cvec_status cvec_file_read(cvec_file *file, cvec_type type, uint64_t from, void *out, size_t room, uint64_t *count, cvec_fault *fault) {
    cvec_fault unasked;
    fault = no_fault_yet(fault, &unasked);
    const cvec_status answer = refusal_of(file);
    if (answer != CVEC_DONE) return answer;
    const struct wanted wanted = {type, from, room == 0 ? no_room : out, room, count};
    return file->is_to_read ? look(file, wanted, fault) : copy(file, wanted, fault);
}

cvec_status cvec_file_stat(const cvec_file *file, cvec_stat *stat) {
    if (file == NULL) return CVEC_NOT_SO;
    *stat = file->stat;
    return CVEC_DONE;
}

/* A forked process leaves its parent the lock, and the memory as it is: a thread that it doesn't have may have been at that. Who reads
 * beside a writer has no lock. */
void cvec_file_close(cvec_file **file) {
    cvec_file *closed = *file;
    *file = NULL;
    if (closed == NULL) return;
    const bool stays = is_forked(closed);
    if (closed->fd >= 0) (stays || closed->is_to_read ? cvec_system_close : cvec_system_close_unlocked)(closed->fd);
    if (stays) return;
    free(closed->bytes);
    free(closed);
}
