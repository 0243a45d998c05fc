/* Calls by a seat: growths, by copies and in place, records that are pushed, and reading. */
#define _DEFAULT_SOURCE 1
#define _POSIX_C_SOURCE 200809L
#include "vector.h"

#include <stdlib.h>
#include <string.h>

/* How often a growth that came second is tried again at once, before it sleeps. */
enum { TRIES_AT_ONCE = 3 };

/* In bytes: how much memory is asked for at once for growths, what one takes beside its records, how large those are that are
 * small, and those that ask for theirs alone. */
enum { ROOM = 120 * 1024, BESIDE_RECORDS = 96, SMALL_GROWTH = 512, LARGE_GROWTH = 64 * 1024 };

/* What is written in place of records for which there is no room. */
static cvec_pair no_room[1];

/* ThreadSanitizer doesn't see by what the proved library has threads in order, which isn't built for it. So it passes over what the
 * library writes to a growth, and is told that what was written to a block comes before who finds it. */
#if defined(WITH_THREAD_SANITIZER)
void AnnotateIgnoreWritesBegin(const char *file, int line);
void AnnotateIgnoreWritesEnd(const char *file, int line);
void __tsan_release(void *at);
void __tsan_acquire(void *at);
#else
#define AnnotateIgnoreWritesBegin(file, line)
#define AnnotateIgnoreWritesEnd(file, line)
#define __tsan_release(at)
#define __tsan_acquire(at)
#endif

/* ---- records as the library takes them: as they stand in a file */

static size_t size_of(cvec_type type) {
    switch (type) {
#define CVEC_SIZE_OF(NAME, name, RECORD, WIDTH) \
    case CVEC_##NAME: return sizeof(RECORD);
        CVEC_TYPES(CVEC_SIZE_OF)
#undef CVEC_SIZE_OF
    default: return 0;
    }
}

/* Of each type but flagged records stand so in memory too; those are packed. More than fit a growth aren't, of which the library reads
 * none. */
static uint32_t phase_grow(cvec_type type, cvec_handle *grower, const void *records, size_t count, cvec_receipt *receipt) {
    const size_t len = cvec_bytes_of(type, count);
    if (type != CVEC_FLAGGED || len > LARGEST_GROWTH) return cvec_phase_grow(grower, records, len, receipt);
    uint8_t *bytes = malloc(len > 0 ? len : 1);
    if (bytes == NULL) return CVEC_MEMORY;
    cvec_pack(records, count, bytes);
    const uint32_t answer = cvec_phase_grow(grower, bytes, len, receipt);
    free(bytes);
    return answer;
}

static uint32_t phase_read(cvec_type type, cvec_handle *grower, uint64_t from, void *out, size_t room, uint64_t *count) {
    const uint32_t answer = cvec_phase_read(grower, from, out, cvec_bytes_of(type, room), count);
    if (answer == CVEC_DONE && type == CVEC_FLAGGED) cvec_unpack(out, (size_t)*count);
    return answer;
}

static uint32_t phase_count(cvec_type type, cvec_handle *grower, const void *record, uint64_t *count) {
    uint8_t room[FLAGGED_LEN];
    return cvec_phase_count(grower, bytes_of_one(type, record, room), width_of(type), count);
}

static uint32_t phase_find(cvec_type type, cvec_handle *grower, const void *record, uint64_t from, uint64_t *place) {
    uint8_t room[FLAGGED_LEN];
    return cvec_phase_find(grower, bytes_of_one(type, record, room), width_of(type), from, place);
}

/* ---- a call by a seat */

/* For a call by this seat: it is inside once its grower is one of another phase than this. Where another thread is at that it
 * waits for it, and else begins that phase. Refused, it is aside. */
static uint32_t come_in(cvec_seat *seat, uint64_t past_phase) {
    cvec_vector *vector = seat->vector;
    uint32_t answer = CVEC_DONE;
    set_busy(seat, ASIDE);
    pthread_mutex_lock(&vector->mutex);
    cvec_await_release(vector);
    while (answer == CVEC_DONE && (vector->unseated || vector->phases == past_phase)) {
        answer = cvec_renew(vector);
        cvec_await_release(vector);
    }
    if (answer == CVEC_DONE) set_busy(seat, INSIDE);
    pthread_mutex_unlock(&vector->mutex);
    return answer;
}

/* For a call that uses its grower. */
static uint32_t enter(cvec_seat *seat) {
    uint32_t answer = enter_so(seat, INSIDE);
    if (answer != CVEC_DONE || !__atomic_load_n(&seat->vector->shut, __ATOMIC_SEQ_CST)) return answer;
    answer = come_in(seat, NO_PHASE);
    if (answer != CVEC_DONE) leave_seat(seat);
    return answer;
}

/* The same for one that names records of this type, and passes these. Of a handle that is none nothing is asked. */
static uint32_t enter_with(cvec_seat *seat, cvec_type type, const void *records, size_t count) {
    if (seat == NULL) return CVEC_NOT_SO;
    if (!has_width_of(seat->vector, type)) return CVEC_WIDTH;
    return are_records(seat->vector->type, records, count) ? enter(seat) : CVEC_NO_RECORD;
}

/* ---- growths */

static uint32_t begin_growth(cvec_seat *seat) {
    if (is_broken(seat->vector)) return CVEC_BROKEN;
    count_begun(seat, seat->begun + 1);
    return CVEC_DONE;
}

/* The library asks for memory growth by growth. glibc's malloc enlarges a thread's part of the heap page by page then, each time
 * by a call of the system in which all threads wait for one another. So much is asked for at once, and given back: it stays
 * with that part of the heap, where it is less than 128 KiB.
 *
 * The first touch of a page is dear: for small growths all of them are touched by one call. In that, threads would wait for one
 * another, so that larger growths touch theirs themselves. */
static void make_room(cvec_seat *seat, size_t count) {
    const size_t each = size_of(seat->vector->type);
    if (count > LARGE_GROWTH / each) return;
    const size_t len = count * each + BESIDE_RECORDS;
    if (seat->room < len) {
        uint8_t *volatile room = malloc(ROOM); /* volatile: else a compiler leaves out both calls */
        if (room != NULL && len <= SMALL_GROWTH + BESIDE_RECORDS) cvec_system_touch(room, ROOM);
        free(room);
        seat->room = ROOM;
    }
    seat->room -= len;
}

/* What a seat grows by: copies of so many records, or its block. */
struct growth {
    bool is_block;
    const void *records;
    size_t count;
};

static uint32_t try_growth(cvec_seat *seat, const struct growth *growth, cvec_receipt *receipt) {
    __tsan_release(seat->vector);
    AnnotateIgnoreWritesBegin(__FILE__, __LINE__);
    uint32_t answer = growth->is_block
                          ? cvec_phase_publish(&seat->grower, &seat->block, receipt)
                          : phase_grow(seat->vector->type, &seat->grower, growth->records, growth->count, receipt);
    AnnotateIgnoreWritesEnd(__FILE__, __LINE__);
    return answer;
}

/* Learns what others grew, and how many records there are. */
static uint32_t look(cvec_seat *seat, uint64_t *size) {
    uint32_t answer = cvec_phase_size(&seat->grower, size);
    __tsan_acquire(seat->vector);
    return answer;
}

static uint32_t grow_in_turn(cvec_seat *seat, const struct growth *growth, cvec_receipt *receipt) {
    uint64_t size;
    long nap = FIRST_NAP;
    for (int tries = 1;; tries++) {
        uint32_t answer = try_growth(seat, growth, receipt);
        if (answer != CVEC_AGAIN) return answer;
        /* Were the growth that came first none of this vector's, no turn would come. */
        answer = look(seat, &size);
        if (answer != CVEC_DONE) return answer;
        if (tries > TRIES_AT_ONCE) cvec_give_way(&nap);
    }
}

/* Where the phase takes no more growths, it is made in the next one. */
static uint32_t grow_by(cvec_seat *seat, const struct growth *growth, cvec_receipt *receipt) {
    for (;;) {
        const uint64_t phase = seat->vector->phases;
        uint32_t answer = grow_in_turn(seat, growth, receipt);
        if (answer != CVEC_FULL) return answer;
        answer = come_in(seat, phase);
        if (answer != CVEC_DONE) return answer;
    }
}

/* For a call inside: all of the records are grown, or none. What the library counts of a phase is counted on here. */
static uint32_t grow_counted(cvec_seat *seat, const struct growth *growth, cvec_receipt *receipt) {
    uint32_t answer = begin_growth(seat);
    if (answer != CVEC_DONE) return answer;
    if (!growth->is_block) make_room(seat, growth->count); /* a block has its memory */
    answer = grow_by(seat, growth, receipt);
    if (answer != CVEC_DONE) {
        count_begun(seat, seat->begun - 1);
        return answer;
    }
    receipt->number += seat->vector->base;
    __atomic_store_n(&seat->grown, receipt->number + 1, __ATOMIC_RELEASE); /* a wait by no seat is for it from now on */
    receipt->serial = seat->begun - 1;
    receipt->seat = seat->number;
    return answer;
}

static uint32_t grow_copies(cvec_seat *seat, const void *records, size_t count, cvec_receipt *receipt) {
    const struct growth growth = {false, count > 0 ? records : no_records, count};
    return grow_counted(seat, &growth, receipt);
}

cvec_status cvec_seat_grow(cvec_seat *seat, cvec_type type, const void *records, size_t count, cvec_receipt *receipt) {
    cvec_receipt unasked;
    uint32_t answer = enter_with(seat, type, records, count);
    if (answer != CVEC_DONE) return answer;
    answer = grow_copies(seat, records, count, receipt ? receipt : &unasked);
    leave_seat(seat);
    return answer;
}

/* ---- growth in place: who calls has the seat */

/* For a call inside, of which a renewal waits: it ends no phase from then on. */
static void note_lent(cvec_vector *vector) {
    if (!has_lent(vector)) __atomic_store_n(&vector->lent, 1, __ATOMIC_RELAXED);
}

static uint32_t lend_block(cvec_seat *seat, size_t count, void **records) {
    if (is_broken(seat->vector)) return CVEC_BROKEN;
    if (seat->block.full) return CVEC_NOT_SO;
    make_room(seat, count);
    uint32_t answer = cvec_phase_block(&seat->grower, count, &seat->block, &seat->blank);
    if (answer != CVEC_DONE) return answer;
    seat->blank_len = count;
    *records = seat->blank;
    return answer;
}

cvec_status cvec_seat_block(cvec_seat *seat, size_t count, void **records) {
    uint32_t answer = enter(seat);
    if (answer != CVEC_DONE) return answer;
    answer = lend_block(seat, count, records);
    leave_seat(seat);
    return answer;
}

/* Who wrote the records has their place, and may go on reading them: they are lent. */
static uint32_t publish(cvec_seat *seat, cvec_receipt *receipt) {
    const struct growth growth = {true, NULL, 0};
    if (!seat->block.full) return CVEC_NOT_SO;
    if (!are_records(seat->vector->type, seat->blank, seat->blank_len)) return CVEC_NO_RECORD;
    uint32_t answer = grow_counted(seat, &growth, receipt);
    if (answer == CVEC_DONE) note_lent(seat->vector);
    return answer;
}

cvec_status cvec_seat_publish(cvec_seat *seat, cvec_receipt *receipt) {
    cvec_receipt unasked;
    uint32_t answer = enter(seat);
    if (answer != CVEC_DONE) return answer;
    answer = publish(seat, receipt != NULL ? receipt : &unasked);
    leave_seat(seat);
    return answer;
}

cvec_status cvec_seat_drop(cvec_seat *seat) {
    uint32_t answer = enter_so(seat, ASIDE);
    if (answer != CVEC_DONE) return answer;
    answer = cvec_phase_close(&seat->block); /* CVEC_NOT_SO: it has nothing */
    leave_seat(seat);
    return answer;
}

cvec_status cvec_seat_detach(cvec_seat *seat, cvec_block *block) {
    uint32_t answer = enter_so(seat, ASIDE);
    if (answer != CVEC_DONE) return answer;
    const cvec_block its = {seat->block.at, seat->blank, seat->blank_len};
    answer = seat->block.full ? CVEC_DONE : CVEC_NOT_SO;
    if (answer == CVEC_DONE) *block = its;
    memset(&seat->block, 0, sizeof seat->block);
    leave_seat(seat);
    return answer;
}

cvec_status cvec_seat_attach(cvec_seat *seat, cvec_block *block) {
    const cvec_handle its = {block->at, true};
    uint32_t answer = enter_so(seat, ASIDE);
    if (answer != CVEC_DONE) return answer;
    if (seat->block.full || block->at == NULL) answer = CVEC_NOT_SO;
    if (answer == CVEC_DONE) {
        seat->block = its;
        seat->blank = block->records;
        seat->blank_len = block->count;
        memset(block, 0, sizeof *block);
    }
    leave_seat(seat);
    return answer;
}

void cvec_block_drop(cvec_block *block) {
    cvec_handle its = {block->at, block->at != NULL};
    cvec_phase_close(&its);
    memset(block, 0, sizeof *block);
}

/* ---- records that were pushed: who calls has the seat */

/* Grows by the first so many of the buffer, which are all that it has. Where that is refused, what waits is as it was. */
static uint32_t grow_front(cvec_seat *seat, size_t count) {
    uint32_t answer = grow_copies(seat, seat->pushed, count, &seat->last);
    if (answer == CVEC_DONE) seat->waiting = 0;
    return answer;
}

static uint32_t grow_waiting(cvec_seat *seat) {
    return seat->waiting > 0 ? grow_front(seat, seat->waiting) : CVEC_DONE;
}

/* The record that fills a block is none that waits: where its growth is refused, a caller that pushes it again would have it
 * twice. */
static uint32_t put_behind(cvec_seat *seat, const void *record) {
    const size_t each = size_of(seat->vector->type);
    if (seat->pushed == NULL) seat->pushed = malloc(seat->at_once * each);
    if (seat->pushed == NULL) return CVEC_MEMORY;
    memcpy(seat->pushed + seat->waiting * each, record, each);
    if (seat->waiting + 1 == seat->at_once) return grow_front(seat, seat->at_once);
    seat->waiting++;
    return CVEC_DONE;
}

cvec_status cvec_seat_push(cvec_seat *seat, cvec_type type, const void *record) {
    uint32_t answer = enter_with(seat, type, record, 1);
    if (answer != CVEC_DONE) return answer;
    answer = put_behind(seat, record);
    leave_seat(seat);
    return answer;
}

/* A block that no growth can have is refused here: else each push that fills one would be. */
cvec_status cvec_seat_push_block(cvec_seat *seat, size_t records) {
    if (seat == NULL) return CVEC_NOT_SO;
    if (records == 0) return CVEC_EMPTY;
    if (records > (size_t)LARGEST_GROWTH / width_of(seat->vector->type)) return CVEC_TOO_LARGE;
    uint32_t answer = enter(seat);
    if (answer != CVEC_DONE) return answer;
    answer = grow_waiting(seat);
    if (answer == CVEC_DONE) {
        free(seat->pushed);
        seat->pushed = NULL;
        seat->at_once = records;
    }
    leave_seat(seat);
    return answer;
}

cvec_status cvec_seat_flush(cvec_seat *seat, cvec_receipt *receipt) {
    uint32_t answer = enter(seat);
    if (answer != CVEC_DONE) return answer;
    answer = grow_waiting(seat);
    if (answer == CVEC_DONE && seat->last.len == 0) answer = CVEC_EMPTY;
    if (answer == CVEC_DONE && receipt != NULL) *receipt = seat->last;
    leave_seat(seat);
    return answer;
}

cvec_status cvec_seat_waiting(cvec_seat *seat, const void **records, size_t *count) {
    uint32_t answer = enter_so(seat, ASIDE);
    if (answer != CVEC_DONE) return answer;
    *records = seat->waiting > 0 ? (const void *)seat->pushed : no_records;
    *count = seat->waiting;
    leave_seat(seat);
    return answer;
}

uint32_t cvec_empty_seat(cvec_seat *seat) {
    uint32_t answer = seat->waiting > 0 ? come_in(seat, NO_PHASE) : CVEC_DONE;
    if (answer == CVEC_DONE) answer = grow_waiting(seat);
    set_busy(seat, ASIDE);
    cvec_phase_close(&seat->block);
    free(seat->pushed);
    seat->pushed = NULL;
    seat->waiting = 0;
    seat->at_once = seat->vector->pushes;
    memset(&seat->last, 0, sizeof seat->last);
    return answer;
}

/* ---- reading */

cvec_status cvec_seat_settled(cvec_seat *seat, uint64_t *count) {
    uint32_t state;
    uint32_t answer = enter(seat);
    if (answer != CVEC_DONE) return answer;
    answer = cvec_phase_settled(&seat->grower, count, &state);
    if (answer == CVEC_DONE) *count = seat->vector->in_memory ? 0 : *count + seat->vector->base;
    leave_seat(seat);
    return answer;
}

cvec_status cvec_seat_size(cvec_seat *seat, uint64_t *size) {
    uint32_t answer = enter(seat);
    if (answer != CVEC_DONE) return answer;
    answer = look(seat, size);
    leave_seat(seat);
    return answer;
}

/* Piece by piece, as the records stand. */
static uint32_t read_pieces(cvec_seat *seat, uint64_t from, uint8_t *out, size_t room, uint64_t *count) {
    const cvec_type type = seat->vector->type;
    uint64_t size, copied = 0, part = 1;
    uint32_t answer = look(seat, &size);
    while (answer == CVEC_DONE && copied < room && part > 0) {
        void *behind = out + copied * size_of(type);
        answer = phase_read(type, &seat->grower, from + copied, behind, room - (size_t)copied, &part);
        if (answer == CVEC_DONE) copied += part;
    }
    if (answer == CVEC_DONE) *count = copied;
    return answer;
}

cvec_status cvec_seat_read(cvec_seat *seat, cvec_type type, uint64_t from, void *out, size_t room, uint64_t *count) {
    uint32_t answer = enter_with(seat, type, NULL, 0);
    if (answer != CVEC_DONE) return answer;
    answer = read_pieces(seat, from, room > 0 ? out : (void *)no_room, room, count);
    leave_seat(seat);
    return answer;
}

static uint32_t lend_pieces(cvec_seat *seat, uint64_t from, cvec_piece *out, size_t room, size_t *count) {
    uint64_t size, found = 0;
    uint32_t answer = look(seat, &size);
    if (answer == CVEC_DONE && from < size && room > 0) {
        note_lent(seat->vector);
        answer = cvec_phase_pieces(&seat->grower, from, out, room, &found);
    }
    if (answer == CVEC_DONE) *count = (size_t)found;
    return answer;
}

cvec_status cvec_seat_pieces(cvec_seat *seat, uint64_t from, cvec_piece *out, size_t room, size_t *count) {
    uint32_t answer = enter(seat);
    if (answer != CVEC_DONE) return answer;
    answer = lend_pieces(seat, from, out, room, count);
    leave_seat(seat);
    return answer;
}

/* What a seat knows of the vector stays in it: what others grew is looked for only where the position is behind that. */
static uint32_t read_one(cvec_seat *seat, uint64_t position, void *record) {
    const cvec_type type = seat->vector->type;
    uint64_t size, count = 0;
    uint32_t answer = phase_read(type, &seat->grower, position, record, 1, &count);
    if (answer != CVEC_DONE || count > 0) return answer;
    answer = look(seat, &size);
    if (answer == CVEC_DONE) answer = phase_read(type, &seat->grower, position, record, 1, &count);
    return answer == CVEC_DONE && count == 0 ? CVEC_OUT_OF_RANGE : answer;
}

cvec_status cvec_seat_at(cvec_seat *seat, cvec_type type, uint64_t position, void *record) {
    uint32_t answer = enter_with(seat, type, NULL, 0);
    if (answer != CVEC_DONE) return answer;
    answer = read_one(seat, position, record);
    leave_seat(seat);
    return answer;
}

static uint32_t count_equal(cvec_seat *seat, const void *record, uint64_t *count) {
    uint64_t size;
    uint32_t answer = look(seat, &size);
    return answer == CVEC_DONE ? phase_count(seat->vector->type, &seat->grower, record, count) : answer;
}

cvec_status cvec_seat_count(cvec_seat *seat, cvec_type type, const void *record, uint64_t *count) {
    uint32_t answer = enter_with(seat, type, record, 1);
    if (answer != CVEC_DONE) return answer;
    answer = count_equal(seat, record, count);
    leave_seat(seat);
    return answer;
}

static uint32_t find_equal(cvec_seat *seat, const void *record, uint64_t from, uint64_t *place) {
    uint64_t size;
    uint32_t answer = look(seat, &size);
    return answer == CVEC_DONE ? phase_find(seat->vector->type, &seat->grower, record, from, place) : answer;
}

cvec_status cvec_seat_find(cvec_seat *seat, cvec_type type, const void *record, uint64_t from, uint64_t *place) {
    uint32_t answer = enter_with(seat, type, record, 1);
    if (answer != CVEC_DONE) return answer;
    answer = find_equal(seat, record, from, place);
    leave_seat(seat);
    return answer;
}
