/* A durable vector in a file, from C (C99) and C++.
 *
 *     cvec_file      one process appends, others read           docs/use/c.md
 *     cvec_vector    threads of one process grow and read it    docs/use/threads.md
 *     cvec_server    processes grow it by pipes                 docs/use/serve.md
 *
 * The functions here make the system's calls, around the proved ones of <cvec/proved.h>; they are tested and not proved.
 *
 * A function that can be refused answers a cvec_status. Refused, it has written nothing but a *fault, and a handle that it was to make is
 * NULL. After a status from CVEC_DISK_OPEN to CVEC_DISK_SYNC, and after CVEC_GONE, errno says why. A pointer to no records may be NULL.
 * A handle that is NULL is CVEC_NOT_SO; to close it does nothing.
 *
 * Records are of a type of CVEC_TYPES. A call that names them takes the type and a pointer to them as C has them; functions with a type's
 * name are the same calls. A file has the width of its records and not their type (docs/file/format.md#records): a call with a type of
 * another width is CVEC_WIDTH, and one of i64 reads a file of u64, one of bytes16 one of pair. No function looks at what the bits of a
 * number stand for: any are kept, also those of each NaN.
 *
 * What opens a file or a pipe opens /dev/null first for standard streams that are closed, so that to read and to print fails as before.
 * Else a file might have their numbers, and get what another thread prints. */
#ifndef CVEC_H
#define CVEC_H

#include <stddef.h>
#include <stdint.h>
#ifndef __cplusplus
#include <stdbool.h>
#endif

#if defined(__BYTE_ORDER__) && __BYTE_ORDER__ != __ORDER_LITTLE_ENDIAN__
#error "records are passed as they stand in a file: the lowest byte first"
#endif

#ifdef __cplusplus
extern "C" {
#endif

/* What a function answers: the one list. X(NAME, number, a sentence for any caller to show, which cvec_status_text has). Those from 32
 * on are of what makes the system's calls, those from 64 on of a vector, but for CVEC_NOT_SO, those from 96 on of clients. */
#define CVEC_STATUSES(X) \
    X(DONE, 0, "done") \
    X(UNBORN, 1, "no vector was begun in the file") /* at most one byte, or the first isn't 1 */ \
    X(NOT_SEGMENT, 2, "it is no segment file") /* by the bytes behind the first */ \
    X(VERSION, 3, "the version isn't known") /* fault->found, or stat->version */ \
    X(WIDTH, 4, "the records have another width") /* fault->found, or stat->width */ \
    X(DAMAGED, 5, "a frame of the file is damaged") /* fault->at, fault->cause */ \
    X(MEMORY, 6, "memory was refused") \
    X(EMPTY, 7, "a growth has at least one record") \
    X(OUT_OF_RANGE, 8, "there is no such growth or position, or the vector would pass 2^32 records") \
    X(TOO_LARGE, 9, "more records than fit one growth, not 1 to 64 seats, or room for more than 536,870,904 growths") \
    /* 2^20 bytes fit one growth of a vector, or of a file of version 1, and 2^24 one of version 2, with 8 of its own */ \
    X(FILE_FULL, 10, "the file would pass 2^48 bytes") /* of cvec_image_look: there are more */ \
    X(NO_ROOM, 11, "the memory that was passed is too small") \
    X(NO_FRAME, 12, "no whole open frame begins there") \
    X(NO_RECORD, 13, "bytes are no record of the type (a flag is 0 or 1)") /* of a file: at position fault->at */ \
    X(EXISTS, 32, "something is there already") \
    X(IN_USE, 33, "the file is in use") /* in this process too, or locked (flock) otherwise. A lock that readers share is waited for, \
                                           10 seconds: what is opened has the name then */ \
    X(BROKEN, 34, "a write or a sync has failed before: open the file again") /* after a sync, restart the system first */ \
    X(DISK_OPEN, 35, "the file can't be opened") /* from here to DISK_SYNC a call of the system failed, and errno has the reason */ \
    X(DISK_LENGTH, 36, "the file's length can't be asked") \
    X(DISK_READ, 37, "the file can't be read") \
    X(DISK_WRITE, 38, "the file can't be written") \
    X(DISK_SYNC, 39, "the file can't be synced: restart the system before it is opened again") /* or its folder */ \
    X(FORKED, 40, "a forked process can only close it") /* the process from which this one was forked has opened it */ \
    X(NOT_FILE, 41, "a folder, a pipe or a device has this name") /* it wasn't opened */ \
    X(READ_ONLY, 42, "the file was opened to be read") \
    X(NOT_SO, 64, "every seat or block is taken, or there is no such handle, answer, block, hold, version or type") \
    X(AGAIN, 65, "another growth came first") \
    X(FULL, 66, "it takes no more growths while records are lent: compact it") \
    X(BUSY, 67, "another thread is inside a call, a seat isn't closed, the vector is held, or answers of growths aren't taken") \
    X(LATE, 68, "the time has passed: what was waited for may yet come") \
    X(UNFOLDED, 69, "a change isn't folded: fold first") \
    X(UNSETTLED, 70, "a growth isn't committed") \
    /* Those of a client: the numbers of docs/use/serve.md, and 96 more. After the first six it is over, and every call but its end is \
       CVEC_GONE, unless the library has refused them before anything was asked */ \
    X(GONE, 96, "the server has ended, or the client has: each growth that isn't settled stands in the file whole, or not at all") \
    X(REFUSED_UNKNOWN_KIND, 97, "the server knows no such request") \
    X(REFUSED_STRAY_NUMBER, 98, "the request has a number where none belongs") \
    X(REFUSED_NO_RECORD, 99, "a request has at least one record") \
    X(REFUSED_TOO_MANY, 100, "a request has at most 2^20 - 8 bytes of records") \
    X(REFUSED_BAD_RECORD, 101, "a record is none of the server's type, and nothing was grown") \
    X(REFUSED_NO_MEMORY, 102, "the server has no memory for the bytes of the growth") \
    X(REFUSED_GROWTH_MEMORY, 103, "the server has no memory for the growth") \
    X(REFUSED_CLOSED, 104, "the server takes no more growths") \
    X(REFUSED_FULL, 105, "the server has taken all growths that it has room for: start it again") \
    X(REFUSED_TOO_LONG, 106, "the vector would have more than 2^32 records") \
    X(REFUSED_STRAYED, 107, "the growths don't follow one another: the server's memory is damaged") \
    X(REFUSED_ENDED, 108, "it isn't settled, and the server has ended") \
    X(REFUSED_BROKEN, 109, "it isn't known to be settled: the file refused, restart the system before it is opened again")

#define CVEC_CODE(NAME, NUMBER, SENTENCE) CVEC_##NAME = NUMBER,
typedef enum cvec_status { CVEC_STATUSES(CVEC_CODE) } cvec_status;
#undef CVEC_CODE

/* Why a file is damaged, in the order in which docs/file/format.md looks for it. X(NAME, number, what cvec_cause_text has) */
#define CVEC_CAUSES(X) \
    X(NONE, 0, "none") \
    X(NO_GATE, 1, "the file ends where a gate has to stand") \
    X(SHORT_FRAME, 2, "the file ends inside a frame") \
    X(KIND, 3, "a kind of frame that isn't known") /* fault->found */ \
    X(TOO_LARGE, 4, "a payload past the limit") \
    X(LAYOUT, 5, "a payload without the form of its kind") \
    X(RUNS, 6, "runs of a change that don't ascend, or overlap") \
    X(RANGE, 7, "a change outside the vector, or a shrink to more than it has") \
    X(UNFOLDED, 8, "a shrink while a change isn't folded") \
    X(FOLD_COUNT, 9, "a fold's count that falls, or passes the changes so far") \
    X(TOO_LONG, 10, "a group that brings the vector past 2^32 records") \
    X(BAD_RECORD, 11, "bytes that are no record")

#define CVEC_CODE(NAME, NUMBER, SENTENCE) CVEC_CAUSE_##NAME = NUMBER,
typedef enum cvec_cause { CVEC_CAUSES(CVEC_CODE) } cvec_cause;
#undef CVEC_CODE

/* Where and why a file has no vector. */
typedef struct cvec_fault {
    uint64_t at;    /* the place of a damage, the position of a record that is none, 0 for another fault */
    uint32_t cause; /* a cvec_cause */
    uint32_t found; /* the version, the width or the kind that was found, else 0 */
} cvec_fault;

/* What a file with a vector holds. Who keeps it can append without reading the file again. */
typedef struct cvec_stat {
    uint64_t size;    /* the records of the vector */
    uint64_t frames;  /* the frames before the closed gate */
    uint64_t changes; /* how many of them are changes */
    uint64_t folded;  /* the count of the last fold: changes below it stand in their home bytes */
    uint64_t gate;    /* the place of the closed gate */
    uint16_t width;   /* the bytes of one record */
    uint8_t version;  /* 1 or 2 */
} cvec_stat;

/* The record types that are structs. In a file a flagged takes 9 bytes. */
typedef struct cvec_pair {
    uint64_t key;
    int64_t value;
} cvec_pair;

typedef struct cvec_flagged {
    uint64_t key;
    bool flag; /* 0 or 1 */
} cvec_flagged;

/* Any 16, 24, 32 or 64 bytes, in memory in the order of the file. The library reads them as words, so they are aligned as such. */
typedef union cvec_bytes16 {
    uint8_t bytes[16];
    uint64_t words[2];
} cvec_bytes16;

typedef union cvec_bytes24 {
    uint8_t bytes[24];
    uint64_t words[3];
} cvec_bytes24;

typedef union cvec_bytes32 {
    uint8_t bytes[32];
    uint64_t words[4];
} cvec_bytes32;

typedef union cvec_bytes64 {
    uint8_t bytes[64];
    uint64_t words[8];
} cvec_bytes64;

/* The types of records: the one table. X(NAME, name as a command has it, what C has, bytes in a file); the number is the line's, from
 * 0 on. */
#define CVEC_TYPES(X) \
    X(U8, u8, uint8_t, 1) \
    X(U16, u16, uint16_t, 2) \
    X(U32, u32, uint32_t, 4) \
    X(U64, u64, uint64_t, 8) \
    X(I32, i32, int32_t, 4) \
    X(I64, i64, int64_t, 8) \
    X(F32, f32, float, 4) \
    X(F64, f64, double, 8) \
    X(PAIR, pair, cvec_pair, 16) \
    X(FLAGGED, flagged, cvec_flagged, 9) \
    X(BYTES16, bytes16, cvec_bytes16, 16) \
    X(BYTES24, bytes24, cvec_bytes24, 24) \
    X(BYTES32, bytes32, cvec_bytes32, 32) \
    X(BYTES64, bytes64, cvec_bytes64, 64)

#define CVEC_NUMBER(NAME, name, RECORD, WIDTH) CVEC_##NAME,
typedef enum cvec_type { CVEC_TYPES(CVEC_NUMBER) CVEC_TYPE_COUNT } cvec_type;
#undef CVEC_NUMBER

/* ---- a file: one writer, by one thread at a time, or a reader. While it is open to be written it is locked (flock). If the process that
 * opened it ends without a close, it is in use until each process that was forked from it has closed it, has ended or runs another
 * program. fault may be NULL. By file.c, over system.c and types.c beside it. */

typedef struct cvec_file cvec_file;

/* Makes a file of version 1 or 2 (else CVEC_VERSION), and syncs its folder. What is there stays: CVEC_EXISTS; but for what a stopped
 * creation of this type and version leaves, at most 12 bytes, each 0 or that of the empty file. */
cvec_status cvec_file_create(cvec_file **file, const char *path, cvec_type type, uint8_t version);

/* Syncs what is there, reads and checks it: CVEC_DONE, or why not, as cvec_image_read and the system's calls answer. It takes memory
 * for the bytes of the file and for its records, and gives it back. */
cvec_status cvec_file_open(cvec_file **file, const char *path, cvec_type type, cvec_fault *fault);

/* To read alone, also while another process writes it, or has it locked: without a lock, and with no leave to write. It reads and checks
 * it as cvec_file_read does. */
cvec_status cvec_file_open_to_read(cvec_file **file, const char *path, cvec_type type, cvec_fault *fault);

/* Appends the records as one growth: all of them or none. CVEC_DONE: they are durable. A refusal from CVEC_VERSION to CVEC_NO_RECORD
 * writes nothing. After CVEC_DISK_WRITE and CVEC_DISK_SYNC the file is broken: it has all of them or none once it is opened again, after
 * CVEC_DISK_SYNC once the system was restarted too. */
cvec_status cvec_file_append(cvec_file *file, cvec_type type, const void *records, size_t count);

/* Copies records from position `from` on, as many as there are and as fit; *count is how many. It takes as much memory as
 * cvec_file_open. Of a file that is open to be read it answers as cvec_image_look: the vector of one moment of the call, synced before
 * it is answered. After CVEC_DISK_SYNC that file is broken. */
cvec_status cvec_file_read(cvec_file *file, cvec_type type, uint64_t from, void *out, size_t room, uint64_t *count, cvec_fault *fault);

/* What it holds; one that is open to be read, what it held when it was last read: if stat->size > from + *count there were more records
 * than room. Of a file that is broken, what it held before. */
cvec_status cvec_file_stat(const cvec_file *file, cvec_stat *stat);

/* Closes the file, and makes the handle NULL; of NULL it does nothing. What was appended stands. In a forked process, which can do
 * nothing else, the parent's file stays locked. */
void cvec_file_close(cvec_file **file);

/* The calls that name records by their type: cvec_file_append_u64, cvec_file_read_pair .. */
#define CVEC_TYPED(NAME, name, RECORD, WIDTH) \
    static inline cvec_status cvec_file_append_##name(cvec_file *file, const RECORD *records, size_t count) { \
        return cvec_file_append(file, CVEC_##NAME, records, count); \
    } \
    static inline cvec_status cvec_file_read_##name(cvec_file *file, uint64_t from, RECORD *out, size_t room, uint64_t *count, \
                                                    cvec_fault *fault) { \
        return cvec_file_read(file, CVEC_##NAME, from, out, room, count, fault); \
    }
CVEC_TYPES(CVEC_TYPED)
#undef CVEC_TYPED

/* Where a growth stands. */
typedef struct cvec_receipt {
    uint64_t number; /* how many growths stand before it: since the vector was begun; of a client since its server was started; of the
                        library's in this phase */
    uint64_t start;  /* how many records stand before it */
    uint64_t len;    /* how many it has */
    uint64_t serial; /* how many growths of its seat stand before it */
    uint16_t seat;   /* whose growth it is: how many seats were taken before that one, if they are fewer than 65,536; of a client its
                        number, and 0 of one by descriptors */
} cvec_receipt;

/* ---- a vector that threads of this process grow and read, by a seat each, over POSIX threads. Its records are of one type, uint32_t,
 * uint64_t, int64_t, cvec_pair or cvec_flagged, which is passed where it is made or opened.
 *
 * CVEC_MEMORY and CVEC_FILE_FULL lose no record, and the same call may be made again; but a close that answers one of them has lost what
 * wasn't durable. Memory that is refused while the calls of a commit or of a fold are listed is CVEC_BROKEN: nothing of it was written,
 * and what was durable is in the file, which is opened again.
 *
 * What a status from 64 on says, beside its sentence:
 *   CVEC_NOT_SO    a handle that is NULL, or of a vector that was ended
 *   CVEC_FULL      of a vector that has lent records
 *   CVEC_BUSY      of a seat: another thread is inside a call by it; of the vector: it is held; of its close: or a seat isn't closed
 *   CVEC_LATE      of what has a deadline
 *   CVEC_UNFOLDED  of a resize that takes records away, and of a clear */

typedef struct cvec_vector cvec_vector;
typedef struct cvec_seat cvec_seat;

enum { CVEC_PUSHES = 1024 };

/* In milliseconds, of what has a deadline: as long as it takes. With 0 a call only looks, and is CVEC_LATE. */
#define CVEC_NO_LIMIT UINT64_MAX

/* 0 of any: the default, so {0} is all of them. */
typedef struct cvec_options {
    uint8_t version;  /* of a file that is made: 1 by default, or 2 (else CVEC_NOT_SO) */
    uint16_t seats;   /* 64 by default, or fewer (CVEC_TOO_LARGE past that) */
    uint32_t pushes;  /* so many records that were pushed are grown at once: CVEC_PUSHES by default, what fits one growth at most */
    uint64_t growths; /* for so many a phase has room: 536,870,904 at most (CVEC_TOO_LARGE); 4,129,776 by default with 64 seats */
} cvec_options;

/* Makes a file, or opens one that is there. The file is locked (flock) until the vector is closed; a lock that readers share is waited
 * for, 10 seconds. It is the one that has the name then. Any other number than CVEC_DONE leaves *vector NULL. CVEC_EXISTS: what is
 * there stays; a file is made over nothing but what a stopped creation of that version and type leaves. CVEC_WIDTH: its records have
 * another width. A file has no name for their type: one of u64 is opened as i64 or f64 too.
 *
 * A creation whose path is NULL makes a vector in memory alone, which ends with its close. It has no file and no descriptor, and nothing
 * of it is durable: none of its growths is settled, and to settle or flush it, or to ask which file it is, is CVEC_NOT_SO. What else there
 * is does as it says.
 *
 * A vector's records are of a type of CVEC_TYPES (else CVEC_NOT_SO). A call that names records takes their type, and is CVEC_WIDTH where
 * the vector's have another width; it takes them, or writes them, by a pointer to them as C has them. Records are equal, to count and
 * find, where their bytes are: of floats too. A flag that is neither 0 nor 1 is CVEC_NO_RECORD, and nothing is done then. The typed
 * functions at the end are the same calls.
 *
 * Options may be NULL. What is refused by them is so before a file is made. A phase is what is grown between two pauses (cvec_seat_grow).
 * With room for more than 1,048,568 growths each seat and who commits reserve 4 bytes of addresses for each growth of it, of which memory
 * is touched only as growths are made; where the system refuses them it has room for 1,048,568. By default they reserve 1 GiB together: so
 * the room is 268,435,456 divided by one more than the seats. With more a fork may be refused, since it asks the system for all that is
 * reserved once more. Built with the address or the thread sanitizer, which pay for what is reserved, the default is 1,048,568. */
cvec_status cvec_vector_create(cvec_vector **vector, const char *path, cvec_type type, const cvec_options *options);
cvec_status cvec_vector_open(cvec_vector **vector, const char *path, cvec_type type, const cvec_options *options);

/* Opens a file that is there, and makes one where there is none, or only what a stopped creation left. */
cvec_status cvec_vector_open_or_create(cvec_vector **vector, const char *path, cvec_type type, const cvec_options *options);

/* Ends the loops of flushers and waits for these, commits what was grown, and closes the file. CVEC_BUSY, and nothing ends or is closed,
 * while a seat isn't closed, or a borrowed one not given back, or it is held (below), or a call by no seat waits, or has the whole vector.
 * Whatever else it answers, *vector is NULL, and the vector is gone with all that it lent; in a forked process memory stays. Another
 * number than CVEC_DONE says that growths nobody awaited may be lost. But for such a call and for loops of flushers that have begun, no
 * call may be under way beside it, or begin. */
cvec_status cvec_vector_close(cvec_vector **vector);

/* The same for who can't know which threads are about to borrow a seat: it waits until those that are borrowed are given back, and the
 * calls under way have ended, or are refused where they wait for a seat. Later calls, but of seats that are closed, are CVEC_NOT_SO.
 * The handle stays, for cvec_vector_close to give up. CVEC_BUSY, and nothing ends: a seat of a caller's own isn't closed, or it is
 * held. */
cvec_status cvec_vector_end(cvec_vector *vector);

/* Which file it is: the number of its device, and its own there. One that is put in its place has another. */
cvec_status cvec_vector_identity(const cvec_vector *vector, uint64_t *device, uint64_t *file);

/* A seat, for one thread at a time. CVEC_NOT_SO: as many are taken, or waited for, as the vector has. It waits for nothing but a
 * pause: while another call has the whole vector, or a growth settles all (below). CVEC_FULL: memory was refused to takers so
 * often that the phase has no more seats, and records are lent (below). */
cvec_status cvec_seat_take(cvec_vector *vector, cvec_seat **seat);

/* The same, but it waits so many milliseconds at most for a seat that another thread closes, and for a pause: CVEC_LATE. Who came
 * first has the first one. With 0 it only looks. So any number of threads work by the seats that there are. */
cvec_status cvec_seat_take_within(cvec_vector *vector, uint64_t milliseconds, cvec_seat **seat);

/* For threads that keep no seat: one for a call or a few, mostly the one that this thread had last, without a lock then. CVEC_LATE: so
 * many milliseconds none was free. Who waits is in one line with those of cvec_seat_take_within; who has waited for a millisecond
 * goes before who comes. Borrowed seats count among the vector's. While it is idle one holds up no other call: to take a seat where
 * there is no other closes it, and so does the close of the vector. A borrowed seat whose call waits for a commit is lent to others
 * who would wait for one, if it keeps nothing, and had again before that call returns. */
cvec_status cvec_seat_borrow(cvec_vector *vector, uint64_t milliseconds, cvec_seat **seat);

/* Gives it back, and *seat is NULL. It keeps nothing: what was pushed is grown, and its block given up. CVEC_BUSY, CVEC_FORKED, CVEC_NOT_SO
 * (it wasn't borrowed): *seat stays. Any other number says why what waited wasn't grown, and is lost. */
cvec_status cvec_seat_return(cvec_seat **seat);

/* Grows by what was pushed and still waits, and gives the seat up. Its growths stay. CVEC_BUSY, CVEC_FORKED: it stays. Whatever
 * else it answers, the seat is gone, and *seat NULL; another number than CVEC_DONE says why what waited wasn't grown, and is lost: who can't
 * lose that calls cvec_seat_flush before. NULL, as a seat that was refused is, is CVEC_NOT_SO here too. One that
 * was borrowed is given back. */
cvec_status cvec_seat_close(cvec_seat **seat);

/* Grows by copies of these records, as one block behind all that was grown before: all of them are in the vector, in a row,
 * or none. Others read them from then on; durable they are once they are awaited. receipt may be NULL.
 *
 * Where the phase has no more room, it settles all that was grown, and begins a new phase, while other calls wait: so it may
 * answer what a commit does; or CVEC_FULL, where records are lent (below). Refused for memory, it may be made again; until then
 * calls by other seats may be refused so too. Where the library lacks memory even to keep what it has, the vector is CVEC_BROKEN
 * from then on, and the file has all. */
cvec_status cvec_seat_grow(cvec_seat *seat, cvec_type type, const void *records, size_t count, cvec_receipt *receipt);

/* Lends a block of so many records to be written in place: a growth without a copy. They are all zero at first, and the caller's
 * alone: nobody reads them. A seat has one block at a time (else CVEC_NOT_SO), and makes other calls meanwhile, which leave it as it
 * is. CVEC_EMPTY, CVEC_TOO_LARGE, CVEC_BROKEN: as of a growth. */
cvec_status cvec_seat_block(cvec_seat *seat, size_t count, void **records);

/* Grows by the seat's block, as cvec_seat_grow would by copies of it: all of its records are in the vector, in a row, or
 * none. They stay where they are, lent to be read, as what cvec_seat_pieces lends (below), and nobody writes them any more. Where
 * it is refused, the seat has the block as before, to be written and published again. A flag that is neither 0 nor 1 is
 * CVEC_NO_RECORD; no block, CVEC_NOT_SO. receipt may be NULL. */
cvec_status cvec_seat_publish(cvec_seat *seat, cvec_receipt *receipt);

/* Gives up the seat's block, of which nothing is left, as a close of the seat does. CVEC_NOT_SO: it has none. */
cvec_status cvec_seat_drop(cvec_seat *seat);

/* A block that is taken out of its seat, so that the seat may be given back while the block is written. It is nobody's copy: a block
 * is in one place. `at` is NULL of none. */
typedef struct cvec_block {
    void *at, *records;
    size_t count;
} cvec_block;

/* Takes the seat's block out, and puts one into a seat of the same vector, to be published or dropped by it; *block has none then.
 * CVEC_NOT_SO: the seat has no block; it has one, or there is none to put in. */
cvec_status cvec_seat_detach(cvec_seat *seat, cvec_block *block);
cvec_status cvec_seat_attach(cvec_seat *seat, cvec_block *block);

/* Gives it up by no seat, also where its vector is closed. */
void cvec_block_drop(cvec_block *block);

/* Puts a copy of one record into a buffer of the seat, where it waits. The last of so many as the option says grows the vector by all of them, as
 * cvec_seat_grow would: as one growth. Before that nobody reads them, nothing makes them durable, and whatever ends
 * the process loses them. But for the next two calls and the close of the seat, none moves them: a growth in between stands
 * before them, and an await is for none of them.
 *
 * Where it is refused this record isn't in the buffer, and the others wait as before: the same call may be made again. The
 * first push takes memory for so many records, later ones none but for growths. */
cvec_status cvec_seat_push(cvec_seat *seat, cvec_type type, const void *record);

/* From now on so many records are grown at once: 1 at least (CVEC_EMPTY), and no more than fit one growth (CVEC_TOO_LARGE).
 * What waits is grown first; where that is refused, all stays as it was. */
cvec_status cvec_seat_push_block(cvec_seat *seat, size_t records);

/* Grows by what waits, if anything does, as one growth. The receipt, which may be NULL, is that of the last growth by what
 * the seat pushed, also where a push has made it. CVEC_EMPTY: there is none yet. Where it is refused all wait as before. */
cvec_status cvec_seat_flush(cvec_seat *seat, cvec_receipt *receipt);

/* Lends what waits, *count records in their order, until the next call by this seat. */
cvec_status cvec_seat_waiting(cvec_seat *seat, const void **records, size_t *count);

/* Waits until the growth of that number, and each before it, is durable: for commits of others so many milliseconds at most (CVEC_LATE).
 * Who finds that nobody commits commits for all. A commit that it has begun itself it ends, and begins a further one only while there
 * is time. So with 0 it commits where nobody does, and else only looks. */
cvec_status cvec_seat_settle(cvec_seat *seat, uint64_t number, uint64_t milliseconds);

/* Waits so long, by no seat, until each growth is durable that had returned when it was called, of whichever seat. Once a write or a
 * sync has failed it is CVEC_BROKEN, also where nothing was grown. */
cvec_status cvec_vector_settle(cvec_vector *vector, uint64_t milliseconds);

/* Begins a thread of the library's own that commits what was grown each so many milliseconds (at least 1), takes no signals, and which
 * a stop or the close ends. CVEC_MEMORY: the system makes no thread. A commit that is refused for good ends it. */
cvec_status cvec_vector_start_flusher(cvec_vector *vector, uint64_t every_milliseconds);

/* For a thread of the caller's, which takes no seat: commits what was grown, and so again and again, this many milliseconds
 * (at least 1) behind the last time. CVEC_DONE: it was ended by cvec_vector_stop_flusher or the close; any other number: a
 * commit was refused, and it ends. What was grown behind its last commit is left to who waits, or to the close. As any other
 * call it has to have begun before the close does: who can't know that stops it and joins its thread first. */
cvec_status cvec_vector_run_flusher(cvec_vector *vector, uint64_t every_milliseconds);

/* One turn of such a loop, for a thread that rests by itself: commits what was grown, by no seat. It too has to have begun before the
 * close does, and behind a stop it leaves what there is. */
cvec_status cvec_vector_flush(cvec_vector *vector);

/* Ends the loops of this vector, each that is begun later too. It doesn't wait for them. */
cvec_status cvec_vector_stop_flusher(cvec_vector *vector);

/* How many growths are durable: the first ones are. It doesn't wait for commits; by no seat it is as the last one that ended told. */
cvec_status cvec_seat_settled(cvec_seat *seat, uint64_t *count);
cvec_status cvec_vector_settled(cvec_vector *vector, uint64_t *count);

/* How many records there are, durable or not. */
cvec_status cvec_seat_size(cvec_seat *seat, uint64_t *size);

/* Copies the records from position `from` on, as far as `out` and the vector reach, durable or not; *count says how many. */
cvec_status cvec_seat_read(cvec_seat *seat, cvec_type type, uint64_t from, void *out, size_t room, uint64_t *count);

/* Copies the record at this position, durable or not. CVEC_OUT_OF_RANGE: the vector has none there. */
cvec_status cvec_seat_at(cvec_seat *seat, cvec_type type, uint64_t position, void *record);

/* Records that stand in the vector one behind the other, lent: from position `start` on `len` records of the vector's type begin
 * at `records`. Nobody writes them. */
typedef struct cvec_piece {
    uint64_t start;
    const void *records;
    uint64_t len; /* 1 at least */
} cvec_piece;

/* Lends the records from position `from` on, durable or not, without a copy: *count pieces, of which the first begins at `from`
 * and each other where the one before it ends. They are all that there are, or as many as `out` has room for: the next call goes
 * on where the last one ends. A piece is a growth or more, or the rest of one.
 *
 * What is lent stays where it is, as it is, while threads grow, wait, and take and close seats, this one too: until a call of the
 * whole vector (below) or its close begins; one that answers CVEC_BUSY hasn't. Who reads what is lent beside such calls holds the
 * vector, so that they are refused. A vector that has lent records never moves them to go on growing: where the phase has no more
 * room growths are CVEC_FULL, and a call of the whole vector, as cvec_vector_compact, makes room. A forked process may read what was
 * lent before the fork. */
cvec_status cvec_seat_pieces(cvec_seat *seat, uint64_t from, cvec_piece *out, size_t room, size_t *count);

/* From now on calls of the whole vector and its close answer CVEC_BUSY, until each hold is released: what is lent from then on
 * stays. It takes no seat, and stops neither growths nor commits. It waits for such a call that is under way; one that only waits for
 * a commit is refused. Any thread may release;
 * CVEC_NOT_SO: nobody holds it. */
cvec_status cvec_vector_hold(cvec_vector *vector);
cvec_status cvec_vector_release(cvec_vector *vector);

/* How many records equal this one, durable or not. */
cvec_status cvec_seat_count(cvec_seat *seat, cvec_type type, const void *record, uint64_t *count);

/* The first position from `from` on that has this record; where none has, how many records there are. */
cvec_status cvec_seat_find(cvec_seat *seat, cvec_type type, const void *record, uint64_t from, uint64_t *place);

/* Of the whole vector. They wait for calls by seats that are under way, but not for those that wait for a commit, and later calls wait
 * for them: seats may be taken meanwhile. Who waited comes in before the next such call. What a seat keeps stays: what was pushed and
 * waits, and its block. CVEC_BUSY, and nothing is done: somebody holds the vector. What they do is durable when they return. Nothing
 * that was lent before may be read once they have begun. CVEC_MEMORY and CVEC_FILE_FULL: the same call may be made again.
 *
 * Writes the records over those from position `start` on, as one frame. */
cvec_status cvec_vector_change(cvec_vector *vector, cvec_type type, uint64_t start, const void *records, size_t count);

/* Takes the records behind the first `size` away, or appends copies of this one. */
cvec_status cvec_vector_resize(cvec_vector *vector, cvec_type type, uint64_t size, const void *record);

/* Takes all records away. */
cvec_status cvec_vector_clear(cvec_vector *vector);

/* Writes what was changed to its place in the file, which costs a write for each changed record. */
cvec_status cvec_vector_fold(cvec_vector *vector);

/* Settles what was grown, and puts the records of the growths of this phase behind one another, as one piece: afterwards they take no
 * more memory than themselves, and the vector takes as many growths as a new one. */
cvec_status cvec_vector_compact(cvec_vector *vector);

/* ---- the same by type, made of the table: cvec_seat_grow_u64, cvec_vector_change_pair .. */

#define CVEC_TYPED(NAME, name, RECORD, WIDTH) \
    static inline cvec_status cvec_seat_grow_##name(cvec_seat *seat, const RECORD *records, size_t count, cvec_receipt *receipt) { \
        return cvec_seat_grow(seat, CVEC_##NAME, records, count, receipt); \
    } \
    static inline cvec_status cvec_seat_push_##name(cvec_seat *seat, RECORD record) { \
        return cvec_seat_push(seat, CVEC_##NAME, &record); \
    } \
    static inline cvec_status cvec_seat_read_##name(cvec_seat *seat, uint64_t from, RECORD *out, size_t room, uint64_t *count) { \
        return cvec_seat_read(seat, CVEC_##NAME, from, out, room, count); \
    } \
    static inline cvec_status cvec_seat_at_##name(cvec_seat *seat, uint64_t position, RECORD *record) { \
        return cvec_seat_at(seat, CVEC_##NAME, position, record); \
    } \
    static inline cvec_status cvec_seat_count_##name(cvec_seat *seat, RECORD record, uint64_t *count) { \
        return cvec_seat_count(seat, CVEC_##NAME, &record, count); \
    } \
    static inline cvec_status cvec_seat_find_##name(cvec_seat *seat, RECORD record, uint64_t from, uint64_t *place) { \
        return cvec_seat_find(seat, CVEC_##NAME, &record, from, place); \
    } \
    static inline cvec_status cvec_vector_change_##name(cvec_vector *vector, uint64_t start, const RECORD *records, size_t count) { \
        return cvec_vector_change(vector, CVEC_##NAME, start, records, count); \
    } \
    static inline cvec_status cvec_vector_resize_##name(cvec_vector *vector, uint64_t size, RECORD record) { \
        return cvec_vector_resize(vector, CVEC_##NAME, size, &record); \
    }
CVEC_TYPES(CVEC_TYPED)
#undef CVEC_TYPED

/* ---- a server (`cvec serve`) over a file that is there, and its clients, which grow and read its vector by pipes. A server and a client
 * belong to one thread at a time; the clients may be in many. After CVEC_GONE errno is EPIPE if the server has ended or the client is over,
 * else the system's reason; a read that the server's end cuts may have written some records. A program that goes on after a server's end
 * ignores SIGPIPE. By client.c, over system.c and types.c beside it. */

typedef struct cvec_server cvec_server;
typedef struct cvec_client cvec_client; /* a seat of a server */

/* Starts `program serve type file --seats=count`, 1 to 64 (else CVEC_TOO_LARGE), with /dev/null as its standard input and output, in a
 * session of its own: a terminal's Ctrl-C reaches the clients alone, and the server ends when its clients have ended. It is started for
 * f32 as for u32, and for f64 as for u64: it keeps their bytes. A program that can't be run is one that has ended, with status 127.
 * If the system refuses pipes (CVEC_DISK_OPEN) or a process (CVEC_GONE), errno says why. */
cvec_status cvec_server_start(cvec_server **server, const char *program, cvec_type type, const char *file, uint16_t count);

/* The client of this number, from 0 on, which is the caller's from then on. CVEC_NOT_SO: there is none, or it was taken before. */
cvec_status cvec_server_client(cvec_server *server, uint16_t number, cvec_client **client);

/* Ends the clients that nobody has taken, and waits until the server has ended, which it does behind its last client. *exit_status is 0
 * if all that was grown is durable, and -1 if the signal *signal has ended it, else that is 0; either pointer may be NULL. CVEC_GONE: it
 * couldn't be waited for. CVEC_FORKED: another process has started it, so this one has closed its copies of those pipes alone. Whatever
 * it answers, *server is NULL then. */
cvec_status cvec_server_wait(cvec_server **server, int *exit_status, int *signal);

/* A client of a server that another program started, by its descriptors here, which the end of the client closes. */
cvec_status cvec_client_of(cvec_client **client, cvec_type type, int requests, int answers);

/* Publishes these records as one growth: others read them from then on; durable they are once they are settled. receipt may be NULL. No
 * record, and too many, are refused before anything is asked. */
cvec_status cvec_client_grow(cvec_client *client, cvec_type type, const void *records, size_t count, cvec_receipt *receipt);

/* The two halves of it, for growths that are sent before the answers of earlier ones are taken. A pipe holds few answers that nobody
 * reads: some 2,700 on Linux. Until they are taken all but a send and the end is CVEC_BUSY, and to take one if none is left is
 * CVEC_NOT_SO: nothing is sent or waited for then, and the client goes on. CVEC_MEMORY of a send: nothing was sent. */
cvec_status cvec_client_send(cvec_client *client, cvec_type type, const void *records, size_t count);
cvec_status cvec_client_take(cvec_client *client, cvec_receipt *receipt);

/* Waits until all that this client grew is durable: so many growths of the server are. */
cvec_status cvec_client_settle(cvec_client *client, uint64_t *settled);

/* How many records the vector has, with those of other clients, and how many growths of the server are durable. */
cvec_status cvec_client_look(cvec_client *client, uint64_t *size, uint64_t *settled);

/* Copies records from position `from` on, at most room of them, as far as they stand in one piece: so many. None: the client knows none
 * there. */
cvec_status cvec_client_read(cvec_client *client, cvec_type type, uint64_t from, void *out, size_t room, size_t *count);

/* Takes the answers that are left, ends the client, closes its pipes, and makes the handle NULL; of NULL it does nothing. It answers what
 * the first of these growths was refused for, also if the end is well, and CVEC_GONE if some are never answered. Else CVEC_DONE, also if
 * the client was over before. */
cvec_status cvec_client_end(cvec_client **client);

/* Closes its pipes alone, and makes the handle NULL: the server sees their end, if no other process has them. For a forked process,
 * which has copies of all of its parent's. */
void cvec_client_close(cvec_client **client);

#define CVEC_TYPED(NAME, name, RECORD, WIDTH) \
    static inline cvec_status cvec_client_grow_##name(cvec_client *client, const RECORD *records, size_t count, \
                                                      cvec_receipt *receipt) { \
        return cvec_client_grow(client, CVEC_##NAME, records, count, receipt); \
    } \
    static inline cvec_status cvec_client_read_##name(cvec_client *client, uint64_t from, RECORD *out, size_t room, size_t *count) { \
        return cvec_client_read(client, CVEC_##NAME, from, out, room, count); \
    }
CVEC_TYPES(CVEC_TYPED)
#undef CVEC_TYPED

/* A number of the calling process: that of none from which it was forked, though the system may give them one and the same, in
 * namespaces of their own. For who keeps beside a file or a vector what a forked process has copies of, as locks. */
uint64_t cvec_process(void);

/* The table of types for other languages: by their numbers, as many as *count. */
typedef struct cvec_type_of {
    const char *name; /* as a command has it */
    uint16_t width;   /* bytes of a record in a file */
    uint16_t size;    /* in memory: as wide, but of a flagged */
} cvec_type_of;
const cvec_type_of *cvec_types(size_t *count);

/* A status in a sentence, whatever the number, for any caller to show; and a cause in words. */
const char *cvec_status_text(uint32_t status);
const char *cvec_cause_text(uint32_t cause);

#ifdef __cplusplus
}
#endif
#endif
