/* <cvec/proved.h>: the proved functions under those of cvec.h, for who makes the system's calls himself: of files (libcvec_c.a), and below
 * of threads (libcvec_threads.a). They call nothing of the system but malloc, realloc and free. docs/use/c.md and threads.md say what
 * their clauses promise.
 *
 * `type` is a number of enum cvec_type: another one is CVEC_NOT_SO. Records are their bytes as in a file: one behind the other, the lowest
 * byte first, with no gaps and of any alignment. So an array of a type whose size in memory is its width goes as it stands, and one of
 * cvec_flagged by cvec_pack_records.
 *
 * A function that answers another number than CVEC_DONE changes nothing but *fault (and *count, at CVEC_NO_ROOM). Pointers are never NULL,
 * also where the length is 0, and what is written overlaps no other. Any number of threads may call these functions at once, each on memory
 * of its own. Bytes that are read must not change meanwhile: also those of a file that is mapped. */
#ifndef CVEC_PROVED_H
#define CVEC_PROVED_H

#include "cvec.h"

#ifdef __cplusplus
extern "C" {
#endif

/* The kinds of frames. */
enum cvec_kind { CVEC_GROUP = 1, CVEC_CHANGE = 2, CVEC_SHRINK = 3, CVEC_FOLD = 4 };

/* One frame. Its records stand one behind the other from first_record on, each of them as in the file (little-endian,
 * with no gaps and no alignment). */
typedef struct cvec_frame {
    uint64_t first_record; /* of a frame without records it is next */
    uint64_t next;         /* the place of the next gate */
    uint32_t payload_len;  /* bytes */
    uint32_t growths;      /* of a group; 0 of any other frame */
    uint32_t records;
    uint8_t kind; /* an enum cvec_kind */
} cvec_frame;

/* Consecutive positions of the vector, whose records the file's groups have one behind the other. */
typedef struct cvec_home {
    uint64_t position; /* the first */
    uint64_t place;    /* of its first byte in the file */
    uint64_t count;    /* how many positions */
} cvec_home;

/* The place of the first gate behind the header, and the bytes of an empty file. */
#define CVEC_FIRST_GATE 11
#define CVEC_EMPTY_LEN 12

/* The bytes that cvec_image_append writes for so many records of this width. */
#define CVEC_APPEND_LEN(width, records) (15 + (uint64_t)(width) * (records))

/* Whether these bytes are a file with a vector of this type. CVEC_DONE: *stat says what it holds, and the bytes of its records from
 * position `from` on stand in front of `out`, of *count records, as many as there are and as fit. Or CVEC_UNBORN to CVEC_DAMAGED, the
 * first fault in the order of docs/file/format.md, with *fault; or CVEC_MEMORY. It takes memory for all records, and gives it back. */
cvec_status cvec_image_read(uint32_t type, const uint8_t *image, size_t len, uint64_t from, uint8_t *out, size_t room, uint64_t *count,
                            cvec_stat *stat, cvec_fault *fault);

/* The same of bytes that were read while another process writes the file: from the first one on, none before one in front of it, up to
 * where a read finds none; a length that was asked before may cut a frame. Then the records and *stat are the vector of one moment of
 * the reading, and such a file isn't called damaged, also where changes are folded meanwhile. Of a file at which nobody writes it
 * answers what cvec_image_read does. Bytes that stop before the file are CVEC_UNBORN, CVEC_NOT_SEGMENT, or CVEC_DAMAGED by
 * CVEC_CAUSE_NO_GATE or CVEC_CAUSE_SHORT_FRAME: read on. What was seen is on the device once the file is synced behind the last read.
 * It also answers CVEC_NO_RECORD and CVEC_FILE_FULL, and takes twice as much memory. */
cvec_status cvec_image_look(uint32_t type, const uint8_t *bytes, size_t len, uint64_t from, uint8_t *out, size_t room, uint64_t *count,
                            cvec_stat *stat, cvec_fault *fault);

/* Checks an image as cvec_image_read does, and writes the homes of the vector's positions over out[0 .. *count], each position in one,
 * in order. Where stat->changes <= stat->folded the vector's records are the ones that stand there, so who has mapped the file reads
 * them with no copy; else some have been changed since, and a read tells which records they are. CVEC_NO_ROOM: there are *count of
 * them, more than room. */
cvec_status cvec_image_homes(uint32_t type, const uint8_t *image, size_t len, cvec_home *out, size_t room, uint64_t *count,
                             cvec_stat *stat, cvec_fault *fault);

/* Writes an empty file of this version over out[0 .. CVEC_EMPTY_LEN], and *stat is what it holds. On disk write all but the first byte
 * behind a first byte that isn't 1, sync, write the first, sync: whatever a crash leaves is then CVEC_UNBORN or the empty file.
 * Refused: CVEC_VERSION, CVEC_NO_ROOM. */
cvec_status cvec_image_empty(uint32_t type, uint8_t version, uint8_t *out, size_t room, cvec_stat *stat);

/* Writes the frame of these records and the next gate over the first CVEC_APPEND_LEN bytes of out, and *next is what the file holds
 * with them, where *stat is what it holds without. On disk they belong to place stat->gate: write all but the first byte from
 * stat->gate + 1 on, sync, write the first byte at stat->gate, sync. Whatever a crash leaves is then the vector without these records,
 * or with all of them. It takes memory for the records and for the frame.
 * Refused, in this order: CVEC_VERSION, CVEC_WIDTH, CVEC_EMPTY, CVEC_OUT_OF_RANGE, CVEC_TOO_LARGE, CVEC_FILE_FULL and CVEC_NO_ROOM,
 * which count as many records as are whole; then CVEC_NO_RECORD, for bytes of no whole records and for a flag that isn't 0 or 1, or
 * CVEC_MEMORY. */
cvec_status cvec_image_append(uint32_t type, const cvec_stat *stat, const uint8_t *records, size_t len, uint8_t *out, size_t room,
                              cvec_stat *next);

/* The frame whose gate stands at this place of the bytes of a file of this version and width: CVEC_DONE, and *frame says what it has.
 * CVEC_NO_FRAME: no whole open frame of a known kind and the right form begins there. The first gate is at CVEC_FIRST_GATE. */
cvec_status cvec_image_frame(const uint8_t *image, size_t len, uint64_t at, uint8_t version, uint16_t width, cvec_frame *frame);

/* An image is checked by a read of no records. */
static inline cvec_status cvec_image_check(uint32_t type, const uint8_t *image, size_t len, cvec_stat *stat, cvec_fault *fault) {
    uint8_t none[1];
    uint64_t count;
    return cvec_image_read(type, image, len, 0, none, 0, &count, stat, fault);
}

/* Not proved: between what C has of a type, and its bytes in a file. Of no type they write nothing; `out` may be `bytes`, where there is
 * room for the records. */
void cvec_pack_records(cvec_type type, const void *records, size_t count, uint8_t *out);
void cvec_unpack_records(cvec_type type, const uint8_t *bytes, size_t count, void *out);

/* ---- libcvec_threads.a. The C of a vector keeps its rules: a handle is all zero at first; it is never copied; one call at a time has it;
 * no call comes from a signal's handler or from a forked process. Pointers are never NULL, and what is written overlaps nothing. A call
 * that doesn't answer 0 writes nothing but its handles. It answers a number of enum cvec_status: CVEC_NOT_SO is a handle of another end
 * too, or of none; CVEC_AGAIN and CVEC_UNSETTLED are of these calls alone; CVEC_FULL is of any phase. */

/* An end of a vector, or nothing. */
typedef struct cvec_handle {
    void *at;
    bool full;
} cvec_handle;

/* A call of the file that the host is to make. */
typedef struct cvec_call {
    uint64_t at;          /* the place from which on it writes */
    const uint8_t *bytes; /* what it writes, which stays there until a call plans, settles, changes or closes */
    uint64_t len;         /* how many bytes */
    uint32_t kind;        /* 0 a write, 1 a sync (fdatasync) */
} cvec_call;

/* A file whose bytes are to be read: file has memory for len of them, and cvec_phase_feed puts them there, from the front on,
 * piece by piece. width: the bytes of a record, 4 of u32, 8 of u64 and i64, 16 of pair, 9 of flagged; else CVEC_WIDTH. */
uint32_t cvec_phase_file(uint64_t len, uint16_t width, cvec_handle *file);
uint32_t cvec_phase_feed(cvec_handle *file, const uint8_t *piece, size_t len);

/* Begins the vector of a file whose bytes are all read, or, of version 1 or 2, makes an empty one over what a stopped creation left
 * there; version 0 makes none. Its handle has who commits then, and phase the seats, 1 to 64. growths: for so many the phase has room,
 * 1 to 536,870,904 (else CVEC_TOO_LARGE); past 1,048,568 each seat reserves 4 bytes of addresses for each, and where these are refused
 * it has room for 1,048,568. Refused, the bytes are given up, and the handle is to be closed. */
uint32_t cvec_phase_begin(cvec_handle *file, uint8_t version, uint64_t growths, uint16_t seats, cvec_handle *phase);
uint32_t cvec_phase_seat(cvec_handle *phase, cvec_handle *grower);
uint32_t cvec_phase_close(cvec_handle *handle);

/* By a seat's handle. state: 0, growths may yet be settled. */
uint32_t cvec_phase_settled(cvec_handle *grower, uint64_t *count, uint32_t *state);
uint32_t cvec_phase_size(cvec_handle *grower, uint64_t *size);

/* Where the records stand that the grower knows, from position `from` on: what cvec_seat_pieces lends. They stay there until each
 * handle of the phase is closed, or gather has the vector: it answers CVEC_BUSY while another handle isn't closed. */
uint32_t cvec_phase_pieces(cvec_handle *grower, uint64_t from, cvec_piece *out, size_t room, uint64_t *count);

/* A block of so many blank records, of the type of the grower's vector, in a handle of its own; what that one had is given up. They
 * stand at *records, to be written by the caller alone until they are published. publish grows by them: the block's handle has
 * nothing then, and the records stay where they are. Refused, as cvec_phase_grow is (CVEC_AGAIN: call it again), both handles are
 * as they were, but that the grower may know more. cvec_phase_close gives a block up. */
uint32_t cvec_phase_block(cvec_handle *grower, uint64_t count, cvec_handle *block, void **records);
uint32_t cvec_phase_publish(cvec_handle *grower, cvec_handle *block, cvec_receipt *receipt);

/* Records come and go as they stand in a file, one behind the other, of any alignment: len is a number of bytes, and room too.
 * CVEC_NO_RECORD: they aren't whole records of the handle's vector, or a flag is neither 0 nor 1. A handle knows the width of its
 * records and not their type: who passes others of that width gets these.
 *
 * grow: CVEC_EMPTY: fewer bytes than a record has; CVEC_AGAIN: another growth came first, so call it again. read: *count records of
 * the piece that begins there. count and find look at the records that the grower knows: how many equal that one; the first position
 * from `from` on that has it, or how many records there are. */
uint32_t cvec_phase_grow(cvec_handle *grower, const void *records, size_t len, cvec_receipt *receipt);
uint32_t cvec_phase_read(cvec_handle *grower, uint64_t from, void *out, size_t room, uint64_t *count);
uint32_t cvec_phase_count(cvec_handle *grower, const void *record, size_t len, uint64_t *count);
uint32_t cvec_phase_find(cvec_handle *grower, const void *record, size_t len, uint64_t from, uint64_t *place);

/* Who commits has the vector alone, where each other handle of it is closed (else CVEC_BUSY): its handle has a vault then, for
 * which cvec_phase_call and _settle are too. share: threads have it again, with so much room and so many seats. */
uint32_t cvec_phase_gather(cvec_handle *committer);
uint32_t cvec_phase_share(cvec_handle *vault, uint64_t growths, uint16_t seats, cvec_handle *phase);

/* By the handle of a vault. What writes lists its calls: make them in order, and only if each has succeeded, settle. */
uint32_t cvec_vault_change(cvec_handle *vault, uint64_t start, const void *records, size_t len);
uint32_t cvec_vault_resize(cvec_handle *vault, uint64_t size, const void *record, size_t len);
uint32_t cvec_vault_size(cvec_handle *vault, uint64_t *size);
uint32_t cvec_vault_fold(cvec_handle *vault);

/* By the handle of who commits: plan, make each call in order, and only if each has succeeded, settle. The calls are numbered from 0
 * on: CVEC_OUT_OF_RANGE behind the last. */
uint32_t cvec_phase_plan(cvec_handle *committer, uint64_t *growths);
uint32_t cvec_phase_call(cvec_handle *committer, uint64_t number, cvec_call *call);
uint32_t cvec_phase_settle(cvec_handle *committer, uint64_t *count);

#ifdef __cplusplus
}
#endif
#endif
