/* What the C for threads lends, each behaviour by its name: lent NAME FILE. The status is 0 where the behaviour is as it is promised; else
 * a line says what isn't. */
#define _POSIX_C_SOURCE 200809L
#include "cvec.h"
#include "typed.h"

#include <inttypes.h>
#include <pthread.h>
#include <stdbool.h>
#include <stdio.h>
#include <stdlib.h>
#include <sys/wait.h>
#include <unistd.h>

static int wrong; /* by __atomic */

static int is_wrong(void) { return __atomic_load_n(&wrong, __ATOMIC_RELAXED); }

/* What isn't so is told, by its line. */
#define HOLDS(claim) \
    do \
        if (!(claim)) { \
            printf("line %d: not so: %s\n", __LINE__, #claim); \
            __atomic_store_n(&wrong, 1, __ATOMIC_RELAXED); \
        } \
    while (0)

static cvec_vector *vector;
static cvec_seat *seat, *other;

/* A new vector of this type, with two seats, both taken, and with phases of so many growths. */
static void make(const char *path, cvec_type type, uint64_t growths) {
    const cvec_options options = {2, 8, 0, growths};
    remove(path);
    HOLDS(cvec_vector_create(&vector, path, type, &options) == CVEC_DONE);
    if (is_wrong()) exit(1);
    HOLDS(cvec_seat_take(vector, &seat) == CVEC_DONE && cvec_seat_take(vector, &other) == CVEC_DONE);
    if (is_wrong()) exit(1);
}

static void close_all(void) {
    HOLDS(cvec_seat_close(&other) == CVEC_DONE && cvec_seat_close(&seat) == CVEC_DONE);
    HOLDS(cvec_vector_close(&vector) == CVEC_DONE);
}

static uint64_t size_by(cvec_seat *own) {
    uint64_t size = UINT64_MAX;
    HOLDS(cvec_seat_size(own, &size) == CVEC_DONE);
    return size;
}

static uint64_t settled(void) {
    uint64_t count = UINT64_MAX;
    HOLDS(cvec_seat_settled(seat, &count) == CVEC_DONE);
    return count;
}

/* Writes the records of the numbers from this one on. */
static void fill(cvec_type type, void *records, uint64_t from, size_t len) {
    for (size_t k = 0; k < len; k++) {
        const uint64_t number = from + k;
        put_records(type, &number, 1, (uint8_t *)records + k * record_size(type));
    }
}

static bool are_numbers(cvec_type type, const void *records, uint64_t from, uint64_t len) {
    for (uint64_t k = 0; k < len; k++)
        if (!is_record(type, (const uint8_t *)records + k * record_size(type), from + k)) return false;
    return true;
}

/* Grows by copies of the records of the numbers from this one on: 16 at most. */
static uint32_t grow_from(cvec_seat *own, cvec_type type, uint64_t from, size_t len, cvec_receipt *receipt) {
    union record records[16];
    fill(type, records, from, len);
    return cvec_seat_grow(own, type, records, len, receipt);
}

/* One record of u64, which is this number. */
static uint32_t grow(cvec_seat *own, uint64_t number) { return cvec_seat_grow_u64(own, &number, 1, NULL); }

/* Where this record of the vector stands. */
static const void *place_of(cvec_seat *own, uint64_t position) {
    cvec_piece piece = {0, NULL, 0};
    size_t count = 0;
    HOLDS(cvec_seat_pieces(own, position, &piece, 1, &count) == CVEC_DONE && count == 1 && piece.start == position);
    return piece.records;
}

/* ---- pieces */

enum { GROWTHS = 40, MOST_LEN = 7, ALL = 2 * GROWTHS * MOST_LEN };

/* The vector of a test of pieces: so many records, each of its number; of each where it stands; and where a growth ends. */
static struct {
    cvec_type type;
    uint64_t len;
    const uint8_t *places[ALL];
    bool is_end[ALL + 1];
} told;

/* The pieces are those from there on, as far as so many reach. Where they end. */
static uint64_t are_pieces(const cvec_piece *pieces, uint64_t from, size_t count) {
    for (size_t k = 0; k < count && !is_wrong(); k++) {
        const cvec_piece *piece = &pieces[k];
        HOLDS(piece->start == from && piece->len > 0 && from + piece->len <= told.len && told.is_end[from + piece->len]);
        if (is_wrong()) return from;
        for (uint64_t at = 0; at < piece->len; at++)
            HOLDS((const uint8_t *)piece->records + at * record_size(told.type) == told.places[from + at]);
        HOLDS(is_wrong() || are_numbers(told.type, piece->records, from, piece->len));
        from += piece->len;
    }
    return from;
}

/* From there on to the end, so many pieces at a time: each call goes on where the last one ended. What is behind them stays. */
static void are_told_by(cvec_seat *own, uint64_t from, size_t room) {
    cvec_piece pieces[GROWTHS + 1];
    const uint8_t before = 0xa5;
    size_t count = room;
    while (count == room && !is_wrong()) {
        memset(pieces, before, sizeof pieces);
        HOLDS(cvec_seat_pieces(own, from, pieces, room, &count) == CVEC_DONE && count <= room);
        from = are_pieces(pieces, from, count);
        for (const uint8_t *at = (const uint8_t *)&pieces[count]; at < (const uint8_t *)(pieces + GROWTHS + 1); at++)
            if (*at != before) HOLDS(!"nothing is written behind the pieces");
    }
    HOLDS(from == told.len);
}

/* Nothing is told from there on. */
static void are_none(cvec_seat *own, uint64_t from, size_t room) {
    cvec_piece piece = {7, &piece, 7};
    size_t count = 7;
    HOLDS(cvec_seat_pieces(own, from, &piece, room, &count) == CVEC_DONE && count == 0);
    HOLDS(piece.start == 7 && piece.records == &piece && piece.len == 7);
}

/* Two seats grow in turns, by so many growths. Each record is told alone first, by the seat that grew it or by the other one. */
static void grow_told(uint64_t growths) {
    for (uint64_t k = 0; k < growths; k++) {
        const size_t len = 1 + (size_t)(k * 3 % MOST_LEN);
        HOLDS(grow_from(k % 2 == 0 ? seat : other, told.type, told.len, len, NULL) == CVEC_DONE);
        for (size_t at = 0; at < len; at++, told.len++) told.places[told.len] = place_of(k % 3 == 0 ? seat : other, told.len);
        told.is_end[told.len] = true;
    }
}

static void make_told(const char *path, cvec_type type) {
    make(path, type, 0);
    memset(&told, 0, sizeof told);
    told.type = type;
    are_none(seat, 0, 1);
    grow_told(GROWTHS);
}

/* What was in the file stands elsewhere, in any pieces. */
static void open_told(const char *path) {
    HOLDS(cvec_vector_open(&vector, path, told.type, &(cvec_options){.seats = 2}) == CVEC_DONE);
    if (is_wrong()) exit(1);
    HOLDS(cvec_seat_take(vector, &seat) == CVEC_DONE && cvec_seat_take(vector, &other) == CVEC_DONE);
    for (uint64_t at = 0; at < told.len; at++) {
        told.places[at] = place_of(at % 2 == 0 ? seat : other, at);
        told.is_end[at + 1] = true;
    }
}

static void tells_of(const char *path, cvec_type type) {
    make_told(path, type);
    for (uint64_t from = 0; from < told.len && !is_wrong(); from++) are_told_by(seat, from, GROWTHS + 1);
    for (size_t room = 1; room <= GROWTHS + 1 && !is_wrong(); room++) are_told_by(other, 0, room);
    are_none(seat, 0, 0);
    are_none(seat, told.len, 1);
    are_none(other, told.len + 5, 1);
    are_none(other, UINT64_MAX, 1);
    close_all();
    open_told(path);
    grow_told(GROWTHS / 2);
    for (uint64_t from = 0; from < told.len && !is_wrong(); from++) are_told_by(other, from, GROWTHS + 1);
    close_all();
}

static void pieces(const char *path) {
    for (int k = 0; k < CVEC_TYPE_COUNT && !is_wrong(); k++) tells_of(path, (cvec_type)k);
}

/* ---- beside growers */

enum { GROWERS = 4, READERS = 2, TURNS = 3000, EARLY = 100, LONGEST = 5, MOST_PIECES = 64 };

static int growing; /* by __atomic: so many threads grow yet */

/* What a thread grows: its name, and how many it grew before. */
static uint64_t row(uint64_t name, uint64_t turn) { return name << 32 | turn; }

/* By a block in place, or by copies. */
static void grow_rows(cvec_seat *own, const uint64_t *rows, size_t len, bool is_block, cvec_receipt *receipt) {
    void *block = NULL;
    if (!is_block) {
        HOLDS(cvec_seat_grow_u64(own, rows, len, receipt) == CVEC_DONE);
        return;
    }
    HOLDS(cvec_seat_block(own, len, &block) == CVEC_DONE);
    if (block == NULL) return;
    memcpy(block, rows, len * sizeof *rows);
    HOLDS(cvec_seat_publish(own, receipt) == CVEC_DONE);
    HOLDS(place_of(own, receipt->start) == block);
}

static void *run_grower(void *work) {
    const uint64_t name = (uint64_t)(uintptr_t)work;
    cvec_seat *own = NULL;
    cvec_receipt receipt = {0, 0, 0, 0, 0};
    uint64_t next = 0;
    HOLDS(cvec_seat_take(vector, &own) == CVEC_DONE);
    for (uint64_t turn = 0; turn < TURNS && !is_wrong(); turn++) {
        uint64_t rows[LONGEST];
        const size_t len = 1 + (size_t)(turn % LONGEST);
        for (size_t k = 0; k < len; k++) rows[k] = row(name, next++);
        grow_rows(own, rows, len, turn % 3 == 0, &receipt);
        HOLDS(receipt.serial == turn && receipt.len == len && memcmp(place_of(own, receipt.start), rows, len * sizeof *rows) == 0);
    }
    HOLDS(cvec_seat_close(&own) == CVEC_DONE);
    __atomic_sub_fetch(&growing, 1, __ATOMIC_RELEASE);
    return NULL;
}

/* Reads what is new where it stands: of each thread its rows in order, from `next` on. Where it ends. */
static uint64_t follow(cvec_seat *own, uint64_t from, uint64_t *next) {
    cvec_piece found[MOST_PIECES];
    size_t count = 0;
    HOLDS(cvec_seat_pieces(own, from, found, MOST_PIECES, &count) == CVEC_DONE);
    for (size_t k = 0; k < count && !is_wrong(); k++) {
        const uint64_t *rows = found[k].records;
        HOLDS(found[k].start == from);
        for (uint64_t at = 0; at < found[k].len && !is_wrong(); at++)
            HOLDS(rows[at] >> 32 <= GROWERS && rows[at] == row(rows[at] >> 32, next[rows[at] >> 32]++));
        from += found[k].len;
    }
    return from;
}

static void *run_reader(void *unused) {
    cvec_seat *own = NULL;
    uint64_t next[GROWERS + 1] = {0}, at = 0, end = UINT64_MAX;
    HOLDS(cvec_seat_take(vector, &own) == CVEC_DONE);
    while (!is_wrong() && at < end) {
        if (end == UINT64_MAX && __atomic_load_n(&growing, __ATOMIC_ACQUIRE) == 0) end = size_by(own);
        at = follow(own, at, next);
    }
    HOLDS(cvec_seat_close(&own) == CVEC_DONE);
    return unused;
}

/* Rows that this thread grows before the others. */
static void grow_early(void) {
    cvec_receipt receipt;
    for (uint64_t k = 0; k < EARLY; k++) {
        const uint64_t early = row(GROWERS, k);
        grow_rows(seat, &early, 1, k % 2 == 0, &receipt);
    }
}

/* They stand where they stood. */
static void are_early(const cvec_piece *early, size_t count) {
    uint64_t at = 0;
    for (size_t k = 0; k < count; k++)
        for (uint64_t in = 0; in < early[k].len; in++, at++) HOLDS(((const uint64_t *)early[k].records)[in] == row(GROWERS, at));
    HOLDS(at == EARLY);
    for (size_t k = 0; k < count && !is_wrong(); k++) HOLDS(place_of(other, early[k].start) == early[k].records);
}

/* What was lent first stays behind more than 10,000 growths by threads, while they grow, and closed seats. */
static void stays(const char *path) {
    pthread_t growers[GROWERS], readers[READERS];
    cvec_piece early[EARLY];
    size_t count = 0;
    make(path, CVEC_U64, 0);
    grow_early();
    HOLDS(cvec_seat_pieces(other, 0, early, EARLY, &count) == CVEC_DONE);
    are_early(early, count);
    growing = GROWERS;
    for (uintptr_t k = 0; k < GROWERS; k++) pthread_create(&growers[k], NULL, run_grower, (void *)k);
    for (int k = 0; k < READERS; k++) pthread_create(&readers[k], NULL, run_reader, NULL);
    while (__atomic_load_n(&growing, __ATOMIC_ACQUIRE) > 0 && !is_wrong()) are_early(early, count);
    for (int k = 0; k < GROWERS; k++) pthread_join(growers[k], NULL);
    for (int k = 0; k < READERS; k++) pthread_join(readers[k], NULL);
    HOLDS(cvec_seat_settle(seat, EARLY + GROWERS * TURNS - 1, CVEC_NO_LIMIT) == CVEC_DONE && settled() > 10000);
    are_early(early, count);
    close_all();
}

/* ---- counting and finding by a seat */

enum { COUNTED = 1000 };

/* Each growth is the number of its thread, and one that all have. */
static void *run_counted(void *work) {
    const uint64_t rows[2] = {1 + (uint64_t)(uintptr_t)work, 77};
    cvec_seat *own = NULL;
    cvec_receipt receipt = {0, 0, 0, 0, 0};
    uint64_t count = 0, place = 0;
    HOLDS(cvec_seat_take(vector, &own) == CVEC_DONE);
    for (uint64_t turn = 0; turn < COUNTED && !is_wrong(); turn++) {
        grow_rows(own, rows, 2, turn % 2 == 0, &receipt);
        if (turn % 50 != 0) continue;
        HOLDS(cvec_seat_count_u64(own, rows[0], &count) == CVEC_DONE && count == turn + 1);
        HOLDS(cvec_seat_find_u64(own, rows[0], receipt.start, &place) == CVEC_DONE && place == receipt.start);
    }
    HOLDS(cvec_seat_close(&own) == CVEC_DONE);
    __atomic_sub_fetch(&growing, 1, __ATOMIC_RELEASE);
    return NULL;
}

/* Beside threads that grow, without a pause for them: what was grown before is counted, and the first one stays the first. */
static void counts(const char *path) {
    pthread_t growers[GROWERS];
    cvec_seat *third = NULL;
    uint64_t before = 0, count = 0, place = 9;
    make(path, CVEC_U64, 0);
    HOLDS(cvec_seat_take(vector, &third) == CVEC_DONE);
    HOLDS(cvec_seat_count_u64(seat, 77, &count) == CVEC_DONE && count == 0);
    HOLDS(cvec_seat_find_u64(seat, 77, 0, &place) == CVEC_DONE && place == 0);
    growing = GROWERS;
    for (uintptr_t k = 0; k < GROWERS; k++) pthread_create(&growers[k], NULL, run_counted, (void *)k);
    while (__atomic_load_n(&growing, __ATOMIC_ACQUIRE) > 0 && !is_wrong()) {
        HOLDS(cvec_seat_count_u64(seat, 77, &count) == CVEC_DONE && count >= before && count <= GROWERS * COUNTED);
        before = count;
        HOLDS(cvec_seat_find_u64(seat, 77, 0, &place) == CVEC_DONE && (place == 1 || (place == 0 && before == 0)));
    }
    for (int k = 0; k < GROWERS; k++) pthread_join(growers[k], NULL);
    /* By seats that have looked at nothing before. */
    HOLDS(cvec_seat_count_u64(third, 77, &count) == CVEC_DONE && count == GROWERS * COUNTED);
    HOLDS(cvec_seat_close(&third) == CVEC_DONE);
    HOLDS(cvec_seat_find_u64(other, 77, GROWERS * COUNTED * 2 - 1, &place) == CVEC_DONE && place == GROWERS * COUNTED * 2 - 1);
    for (uint64_t k = 1; k <= GROWERS; k++) HOLDS(cvec_seat_count_u64(other, k, &count) == CVEC_DONE && count == COUNTED);
    for (uint64_t from = GROWERS * COUNTED * 2; from < GROWERS * COUNTED * 2 + 3; from++)
        HOLDS(cvec_seat_find_u64(other, 77, from, &place) == CVEC_DONE && place == GROWERS * COUNTED * 2);
    HOLDS(cvec_seat_find_u64(other, 78, 0, &place) == CVEC_DONE && place == GROWERS * COUNTED * 2);
    close_all();
}

/* ---- growth in place */

static bool is_blank(cvec_type type, const void *records, size_t len) {
    union record blank;
    memset(&blank, 0, sizeof blank);
    for (size_t k = 0; k < len; k++)
        if (!are_equal(type, (const uint8_t *)records + k * record_size(type), &blank)) return false;
    return true;
}

/* Lends a block of so many blank records to this seat. */
static void *block_of(cvec_seat *own, cvec_type type, size_t len) {
    void *records = NULL;
    HOLDS(cvec_seat_block(own, len, &records) == CVEC_DONE && records != NULL);
    if (records == NULL) exit(1);
    HOLDS(is_blank(type, records, len));
    return records;
}

/* The seat has no block. */
static void has_no_block(cvec_seat *own) {
    cvec_receipt receipt = {9, 9, 9, 9, 9};
    HOLDS(cvec_seat_publish(own, &receipt) == CVEC_NOT_SO && receipt.number == 9 && receipt.len == 9);
    HOLDS(cvec_seat_drop(own) == CVEC_NOT_SO);
}

/* The vector has just the records of the numbers from 0 on, so many. */
static void has_numbers(cvec_seat *own, cvec_type type, uint64_t len) {
    static uint8_t seen[64 * sizeof(union record)];
    uint64_t count = 0;
    HOLDS(size_by(own) == len && cvec_seat_read(own, type, 0, seen, 64, &count) == CVEC_DONE && count == len);
    HOLDS(are_numbers(type, seen, 0, len));
}

/* What is written to a block is in the vector once it is published, where it was written, and before that nowhere. */
static void grows_in_place(cvec_type type) {
    cvec_receipt receipt = {9, 9, 9, 9, 9};
    void *second = &receipt;
    HOLDS(grow_from(seat, type, 0, 3, NULL) == CVEC_DONE);
    void *const records = block_of(seat, type, 5);
    HOLDS(cvec_seat_block(seat, 1, &second) == CVEC_NOT_SO && second == &receipt);
    fill(type, records, 5, 5);
    HOLDS(grow_from(other, type, 3, 2, NULL) == CVEC_DONE);
    has_numbers(seat, type, 5);
    has_numbers(other, type, 5);
    HOLDS(cvec_seat_publish(seat, &receipt) == CVEC_DONE);
    HOLDS(receipt.number == 2 && receipt.start == 5 && receipt.len == 5 && receipt.serial == 1 && receipt.seat == 0);
    HOLDS(place_of(other, 5) == records && place_of(seat, 5) == records);
    has_numbers(other, type, 10);
    has_no_block(seat);
    has_no_block(other);
}

/* Of a block that is dropped nothing is left, nor of one of a seat that is closed; who has that seat next has none. */
static void is_dropped(cvec_type type) {
    fill(type, block_of(seat, type, 4), 10, 4);
    HOLDS(cvec_seat_drop(seat) == CVEC_DONE && size_by(other) == 10);
    has_no_block(seat);
    fill(type, block_of(seat, type, 4), 10, 4);
    HOLDS(cvec_seat_close(&seat) == CVEC_DONE && cvec_seat_take(vector, &seat) == CVEC_DONE);
    has_no_block(seat);
    fill(type, block_of(seat, type, 4), 10, 4);
    HOLDS(grow_from(seat, type, 10, 2, NULL) == CVEC_DONE && cvec_seat_drop(seat) == CVEC_DONE);
    has_numbers(seat, type, 12);
}

/* Behind a close the file has each block that was published, awaited or not. */
static void blocks_of(const char *path, cvec_type type) {
    cvec_receipt receipt = {9, 9, 9, 9, 9};
    make(path, type, 0);
    grows_in_place(type);
    is_dropped(type);
    fill(type, block_of(other, type, 2), 12, 2);
    HOLDS(cvec_seat_publish(other, &receipt) == CVEC_DONE && receipt.start == 12);
    HOLDS(cvec_seat_settle(other, receipt.number, CVEC_NO_LIMIT) == CVEC_DONE && settled() == receipt.number + 1);
    fill(type, block_of(seat, type, 1), 14, 1);
    HOLDS(cvec_seat_publish(seat, NULL) == CVEC_DONE);
    fill(type, block_of(seat, type, 1), 15, 1);
    close_all();
    HOLDS(cvec_vector_open(&vector, path, type, &(cvec_options){.seats = 1}) == CVEC_DONE);
    if (is_wrong()) exit(1);
    HOLDS(cvec_seat_take(vector, &seat) == CVEC_DONE);
    has_numbers(seat, type, 15);
    HOLDS(cvec_seat_close(&seat) == CVEC_DONE && cvec_vector_close(&vector) == CVEC_DONE);
}

static void blocks(const char *path) {
    for (int k = 0; k < CVEC_TYPE_COUNT && !is_wrong(); k++) blocks_of(path, (cvec_type)k);
}

/* The bytes of a record in a file, as docs/file/format.md says. */
static const size_t widths[CVEC_TYPE_COUNT] = {
    [CVEC_U8] = 1, [CVEC_U16] = 2, [CVEC_U32] = 4, [CVEC_U64] = 8, [CVEC_I32] = 4, [CVEC_I64] = 8, [CVEC_F32] = 4, [CVEC_F64] = 8,
    [CVEC_PAIR] = 16, [CVEC_FLAGGED] = 9, [CVEC_BYTES16] = 16, [CVEC_BYTES24] = 24, [CVEC_BYTES32] = 32, [CVEC_BYTES64] = 64};

/* As many records as one growth may have, and no more; a block that isn't lent leaves the seat without one. */
static void has_blocks_of_lengths(const char *path, cvec_type type) {
    const size_t most = ((1u << 20) - 8) / widths[type];
    cvec_receipt receipt = {9, 9, 9, 9, 9};
    void *records = &receipt;
    make(path, type, 0);
    HOLDS(cvec_seat_block(seat, 0, &records) == CVEC_EMPTY && cvec_seat_block(seat, most + 1, &records) == CVEC_TOO_LARGE);
    HOLDS(cvec_seat_block(seat, SIZE_MAX, &records) == CVEC_TOO_LARGE && records == &receipt);
    has_no_block(seat);
    records = block_of(seat, type, most);
    fill(type, records, 0, most);
    HOLDS(cvec_seat_publish(seat, &receipt) == CVEC_DONE && receipt.start == 0 && receipt.len == most && size_by(other) == most);
    HOLDS(place_of(other, 0) == records && are_numbers(type, records, 0, most));
    close_all();
}

/* A flag that is neither 0 nor 1 gets into no vector; the seat has the block as before. */
static void keeps_a_flag_out(const char *path) {
    cvec_receipt receipt = {9, 9, 9, 9, 9};
    make(path, CVEC_FLAGGED, 0);
    cvec_flagged *const records = block_of(seat, CVEC_FLAGGED, 3);
    fill(CVEC_FLAGGED, records, 0, 3);
    ((uint8_t *)&records[2])[8] = 2;
    for (int k = 0; k < 2; k++) HOLDS(cvec_seat_publish(seat, &receipt) == CVEC_NO_RECORD && receipt.number == 9);
    HOLDS(size_by(other) == 0 && are_numbers(CVEC_FLAGGED, records, 0, 2) && ((uint8_t *)&records[2])[8] == 2);
    fill(CVEC_FLAGGED, records + 2, 2, 1);
    HOLDS(cvec_seat_publish(seat, &receipt) == CVEC_DONE && receipt.number == 0 && receipt.serial == 0 && receipt.len == 3);
    has_numbers(other, CVEC_FLAGGED, 3);
    close_all();
}

static void blocks_refused(const char *path) {
    for (int k = 0; k < CVEC_TYPE_COUNT && !is_wrong(); k++) has_blocks_of_lengths(path, (cvec_type)k);
    keeps_a_flag_out(path);
}

/* ---- phases of 8 growths */

enum { PHASE = 8 };

/* A block survives the end of its phase, and what its publishing makes of a full one. */
static void blocks_renewed(const char *path) {
    cvec_receipt receipt = {9, 9, 9, 9, 9};
    make(path, CVEC_U64, PHASE);
    uint64_t *const records = block_of(seat, CVEC_U64, 3);
    for (uint64_t k = 0; k < 2 * PHASE; k++) HOLDS(grow(other, UINT64_MAX - k) == CVEC_DONE);
    HOLDS(settled() == PHASE && is_blank(CVEC_U64, records, 3));
    fill(CVEC_U64, records, 2 * PHASE, 3);
    /* The second phase is full: it ends, and the block is published in the third. */
    HOLDS(cvec_seat_publish(seat, &receipt) == CVEC_DONE && receipt.number == 2 * PHASE && receipt.start == 2 * PHASE);
    HOLDS(receipt.serial == 0 && settled() == 2 * PHASE && place_of(other, 2 * PHASE) == records);
    has_numbers(other, CVEC_U64, 2 * PHASE + 3);
    close_all();
}

/* So many growths more of the numbers from this one on, one each by turns of both seats. */
static void grow_all(uint64_t from, uint64_t count) {
    for (uint64_t k = from; k < from + count; k++) HOLDS(grow(k % 2 == 0 ? seat : other, UINT64_MAX - k) == CVEC_DONE);
}

/* A vector that lends nothing goes on for ever: not where it has nothing to lend, nor by blocks that are dropped, by copies, by what
 * is counted and found. */
static void goes_on(const char *path) {
    uint64_t found = 0, copy = 0;
    make(path, CVEC_U64, PHASE);
    are_none(seat, 0, 1);
    for (uint64_t k = 0; k < 20; k++) {
        grow_all(k * 5, 5);
        HOLDS(settled() == (k * 5 + 4) / PHASE * PHASE);
        block_of(seat, CVEC_U64, 3);
        HOLDS(cvec_seat_drop(seat) == CVEC_DONE);
        HOLDS(cvec_seat_count_u64(seat, UINT64_MAX - k, &found) == CVEC_DONE && found == 1);
        HOLDS(cvec_seat_find_u64(other, UINT64_MAX - k, 0, &found) == CVEC_DONE && found == k);
        HOLDS(cvec_seat_at(other, CVEC_U64, k, &copy) == CVEC_DONE && copy == UINT64_MAX - k);
        are_none(other, 5 * k + 5, 1);
        are_none(other, 0, 0);
    }
    close_all();
}

/* The phase is full, and what was lent stays: no call of a seat moves it. */
static void is_full(const uint64_t *lent, uint64_t value, uint64_t size) {
    cvec_receipt receipt = {9, 9, 9, 9, 9};
    cvec_seat *third = NULL;
    const uint64_t pushed = 5;
    for (int k = 0; k < 2; k++) {
        HOLDS(grow(k == 0 ? seat : other, 5) == CVEC_FULL && *lent == value);
        uint64_t *const records = block_of(seat, CVEC_U64, 2);
        fill(CVEC_U64, records, 3, 2);
        for (int turn = 0; turn < 2; turn++) HOLDS(cvec_seat_publish(seat, &receipt) == CVEC_FULL && receipt.number == 9);
        HOLDS(are_numbers(CVEC_U64, records, 3, 2) && cvec_seat_drop(seat) == CVEC_DONE && *lent == value);
        HOLDS(cvec_seat_push_block(other, 1) == CVEC_DONE && cvec_seat_push(other, CVEC_U64, &pushed) == CVEC_FULL && *lent == value);
        HOLDS(cvec_seat_take(vector, &third) == CVEC_DONE && size_by(third) == size);
        HOLDS(cvec_seat_close(&third) == CVEC_DONE && *lent == value && cvec_vector_hold(vector) == CVEC_DONE);
        HOLDS(cvec_vector_compact(vector) == CVEC_BUSY && cvec_vector_release(vector) == CVEC_DONE);
    }
    HOLDS(cvec_seat_settle(seat, size - 1, CVEC_NO_LIMIT) == CVEC_DONE && settled() == size && *lent == value);
    HOLDS(place_of(seat, 0) == lent && place_of(other, 0) == lent);
    has_numbers(other, CVEC_U64, size);
}

static void compact(void) {
    HOLDS(cvec_seat_close(&seat) == CVEC_DONE && cvec_seat_close(&other) == CVEC_DONE);
    HOLDS(cvec_vector_compact(vector) == CVEC_DONE);
    HOLDS(cvec_seat_take(vector, &seat) == CVEC_DONE && cvec_seat_take(vector, &other) == CVEC_DONE);
}

/* A call of the whole vector makes room, and from then on nothing is lent; the growths of the phase are one piece. */
static void makes_room(uint64_t size) {
    cvec_piece found[2];
    size_t count = 0;
    compact();
    grow_all(size, 3 * PHASE);
    has_numbers(seat, CVEC_U64, size + 3 * PHASE);
    compact();
    grow_all(size + 3 * PHASE, 5);
    compact();
    HOLDS(cvec_seat_pieces(other, size + 3 * PHASE, found, 2, &count) == CVEC_DONE && count == 1 && found[0].len == 5);
    HOLDS(are_numbers(CVEC_U64, found[0].records, size + 3 * PHASE, 5));
    has_numbers(seat, CVEC_U64, size + 3 * PHASE + 5);
}

/* A vector that has lent takes as many growths as its phase has room for. */
static void full(const char *path) {
    make(path, CVEC_U64, PHASE);
    grow_all(0, 3);
    const uint64_t *const lent = place_of(seat, 0);
    grow_all(3, PHASE - 3);
    is_full(lent, UINT64_MAX, PHASE);
    makes_room(PHASE);
    close_all();
}

/* So has one that was grown in place: who wrote the records reads them where they stand. */
static void full_by_blocks(const char *path) {
    make(path, CVEC_U64, PHASE);
    uint64_t *const records = block_of(other, CVEC_U64, 1);
    *records = UINT64_MAX;
    HOLDS(cvec_seat_publish(other, NULL) == CVEC_DONE);
    grow_all(1, PHASE - 1);
    is_full(records, UINT64_MAX, PHASE);
    makes_room(PHASE);
    close_all();
}

/* What was pushed waits where the phase is full, and is lost by the close of the seat: who copied it grows by it later. */
static void full_by_pushes(const char *path) {
    const void *waiting = NULL;
    uint64_t copies[2] = {0, 0};
    size_t count = 0;
    make(path, CVEC_U64, PHASE);
    HOLDS(cvec_seat_push_block(seat, 10) == CVEC_DONE);
    for (uint64_t k = PHASE; k < PHASE + 2; k++) HOLDS(cvec_seat_push(seat, CVEC_U64, &(uint64_t){UINT64_MAX - k}) == CVEC_DONE);
    for (uint64_t k = 0; k < PHASE; k++) HOLDS(grow(other, UINT64_MAX - k) == CVEC_DONE);
    const uint64_t *const lent = place_of(other, 0);
    for (int k = 0; k < 2; k++) HOLDS(cvec_seat_flush(seat, NULL) == CVEC_FULL && *lent == UINT64_MAX);
    HOLDS(cvec_seat_waiting(seat, &waiting, &count) == CVEC_DONE && count == 2);
    memcpy(copies, waiting, sizeof copies);
    HOLDS(cvec_seat_close(&seat) == CVEC_FULL && *lent == UINT64_MAX);
    HOLDS(cvec_seat_close(&other) == CVEC_DONE && cvec_vector_compact(vector) == CVEC_DONE);
    HOLDS(cvec_seat_take(vector, &seat) == CVEC_DONE && cvec_seat_take(vector, &other) == CVEC_DONE);
    has_numbers(other, CVEC_U64, PHASE);
    HOLDS(cvec_seat_grow_u64(seat, copies, 2, NULL) == CVEC_DONE);
    has_numbers(other, CVEC_U64, PHASE + 2);
    close_all();
}

/* A refused call of the whole vector has not begun: what was lent stays, and the phase isn't renewed. */
static void stays_beside_refusals(const char *path) {
    const uint64_t record = 9;
    make(path, CVEC_U64, PHASE);
    grow_all(0, PHASE);
    const uint64_t *const lent = place_of(seat, 0);
    HOLDS(cvec_seat_close(&seat) == CVEC_DONE && cvec_vector_hold(vector) == CVEC_DONE);
    HOLDS(cvec_vector_compact(vector) == CVEC_BUSY && cvec_vector_clear(vector) == CVEC_BUSY);
    HOLDS(cvec_vector_change_u64(vector, 0, &record, 1) == CVEC_BUSY && cvec_vector_close(&vector) == CVEC_BUSY);
    HOLDS(cvec_vector_release(vector) == CVEC_DONE);
    HOLDS(grow(other, 5) == CVEC_FULL && *lent == UINT64_MAX && place_of(other, 0) == lent);
    HOLDS(cvec_seat_take(vector, &seat) == CVEC_DONE);
    close_all();
}

/* ---- options */

/* What no vector has is refused by its name, and no file is made. */
static void options(const char *path) {
    static const struct {
        cvec_options options;
        uint32_t answer;
    } none[] = {{{3, 1, 0, 8}, CVEC_NOT_SO},          {{UINT8_MAX, 1, 0, 8}, CVEC_NOT_SO},       {{1, 65, 0, 8}, CVEC_TOO_LARGE},
                {{1, 1, 0, 536870905}, CVEC_TOO_LARGE}, {{1, 1, 0, UINT64_MAX}, CVEC_TOO_LARGE}, {{0, UINT16_MAX, 0, 0}, CVEC_TOO_LARGE}},
      some[] = {{{0, 0, 0, 0}, CVEC_DONE}, {{2, 1, 0, 536870904}, CVEC_DONE}, {{0, 1, 0, 1}, CVEC_DONE}, {{1, 64, 131071, 0}, CVEC_DONE}};
    for (size_t k = 0; k < sizeof none / sizeof *none; k++) {
        vector = (cvec_vector *)&vector;
        HOLDS(cvec_vector_create(&vector, path, CVEC_U64, &none[k].options) == none[k].answer && vector == NULL);
        HOLDS(access(path, F_OK) != 0);
        vector = (cvec_vector *)&vector;
        HOLDS(cvec_vector_open(&vector, path, CVEC_U64, &none[k].options) == none[k].answer && vector == NULL);
    }
    HOLDS(cvec_vector_create(&vector, path, CVEC_TYPE_COUNT, NULL) == CVEC_NOT_SO && vector == NULL && access(path, F_OK) != 0);
    for (size_t k = 0; k < sizeof some / sizeof *some && !is_wrong(); k++) {
        remove(path);
        HOLDS(cvec_vector_create(&vector, path, CVEC_U64, &some[k].options) == CVEC_DONE);
        HOLDS(!is_wrong() && cvec_vector_close(&vector) == CVEC_DONE);
    }
}

/* How many seats a vector has. */
static uint16_t all_seats(void) {
    cvec_seat *taken[65];
    uint16_t count = 0;
    while (count < 65 && cvec_seat_take(vector, &taken[count]) == CVEC_DONE) count++;
    for (uint16_t k = 0; k < count; k++) HOLDS(cvec_seat_close(&taken[k]) == CVEC_DONE);
    return count;
}

/* The version of the file's vector, in its ninth byte. */
static int version_of(const char *path) {
    FILE *file = fopen(path, "rb");
    const int version = file != NULL && fseek(file, 8, SEEK_SET) == 0 ? getc(file) : -1;
    if (file != NULL) fclose(file);
    return version;
}

/* What isn't said is the default: 64 seats, a file of version 1; and a file is opened with options too. */
static void defaults(const char *path) {
    const cvec_options version_2 = {2, 0, 0, 0}, seats_3 = {2, 3, 0, 1};
    HOLDS(cvec_vector_create(&vector, path, CVEC_U64, NULL) == CVEC_DONE && all_seats() == 64);
    HOLDS(cvec_vector_close(&vector) == CVEC_DONE && version_of(path) == 1);
    HOLDS(cvec_vector_open(&vector, path, CVEC_U64, NULL) == CVEC_DONE && all_seats() == 64);
    HOLDS(cvec_vector_close(&vector) == CVEC_DONE);
    HOLDS(cvec_vector_open(&vector, path, CVEC_PAIR, NULL) == CVEC_WIDTH && vector == NULL);
    HOLDS(cvec_vector_open(&vector, path, CVEC_U64, &seats_3) == CVEC_DONE && all_seats() == 3);
    /* Phases of one growth: each settles the one before it. */
    HOLDS(cvec_seat_take(vector, &seat) == CVEC_DONE);
    for (uint64_t k = 0; k < 5; k++) HOLDS(grow(seat, UINT64_MAX - k) == CVEC_DONE && settled() == k);
    HOLDS(cvec_seat_close(&seat) == CVEC_DONE && cvec_vector_close(&vector) == CVEC_DONE && version_of(path) == 1);
    remove(path);
    HOLDS(cvec_vector_create(&vector, path, CVEC_U64, &version_2) == CVEC_DONE && cvec_vector_close(&vector) == CVEC_DONE);
    HOLDS(version_of(path) == 2);
}

/* How many kilobytes of addresses the process has. */
static uint64_t addresses(void) {
    char line[256];
    uint64_t found = 0;
    FILE *status = fopen("/proc/self/status", "r");
    if (status == NULL) exit(2);
    while (fgets(line, sizeof line, status) != NULL)
        if (strncmp(line, "VmSize:", 7) == 0) found = strtoull(line + 7, NULL, 10);
    fclose(status);
    return found;
}

/* How many more a vector of so many seats takes, with phases of so many growths. */
static uint64_t addresses_of(const char *path, uint16_t seats, uint64_t growths) {
    const cvec_options options = {1, seats, 0, growths};
    remove(path);
    const uint64_t before = addresses();
    HOLDS(cvec_vector_create(&vector, path, CVEC_U64, &options) == CVEC_DONE);
    if (is_wrong()) exit(1);
    HOLDS(cvec_seat_take(vector, &seat) == CVEC_DONE);
    const uint64_t taken = addresses() - before;
    HOLDS(cvec_seat_close(&seat) == CVEC_DONE && cvec_vector_close(&vector) == CVEC_DONE);
    return taken;
}

/* Tells them, by default with one seat and with all, and for a phase as narrow as one is where they are refused. */
static void reserves(const char *path) {
    const uint64_t with_one = addresses_of(path, 1, 0), with_all = addresses_of(path, 64, 0);
    printf("%" PRIu64 " %" PRIu64 " %" PRIu64 "\n", with_one, with_all, addresses_of(path, 1, 1048568));
}

/* What a vector reserves by default doesn't keep its process from forking. */
static void forks_by_default(const char *path) {
    int status = -1;
    remove(path);
    HOLDS(cvec_vector_create(&vector, path, CVEC_U64, NULL) == CVEC_DONE);
    const pid_t child = is_wrong() ? -1 : fork();
    if (child == 0) _exit(7);
    HOLDS(child > 0 && waitpid(child, &status, 0) == child && WIFEXITED(status) && WEXITSTATUS(status) == 7);
    HOLDS(cvec_vector_close(&vector) == CVEC_DONE);
}

/* ---- where the system refuses the addresses for wide phases, as under `ulimit -v` */

enum { NARROW = 1048568 };

/* So many growths of one record, each of its number. */
static uint32_t grow_until(uint64_t *next, uint64_t end) {
    uint32_t answer = CVEC_DONE;
    while (*next < end && (answer = grow(seat, *next)) == CVEC_DONE) ++*next;
    return answer;
}

/* A phase has room for fewer growths, and is followed by another where nothing is lent. Where something is, it is full. */
static void narrow(const char *path) {
    uint64_t next = 0;
    make(path, CVEC_U64, 536870904);
    HOLDS(grow_until(&next, NARROW + 1) == CVEC_DONE && settled() == NARROW);
    const uint64_t *const lent = place_of(seat, 5);
    HOLDS(*lent == 5);
    HOLDS(grow_until(&next, 3 * NARROW) == CVEC_FULL && next == 2 * NARROW && *lent == 5 && size_by(other) == next);
    HOLDS(cvec_seat_settle(seat, next - 1, CVEC_NO_LIMIT) == CVEC_DONE && *lent == 5 && place_of(other, 5) == lent);
    HOLDS(cvec_seat_close(&other) == CVEC_DONE && cvec_seat_close(&seat) == CVEC_DONE);
    HOLDS(cvec_vector_compact(vector) == CVEC_DONE);
    HOLDS(cvec_seat_take(vector, &seat) == CVEC_DONE && cvec_seat_take(vector, &other) == CVEC_DONE);
    HOLDS(grow_until(&next, 2 * NARROW + 5) == CVEC_DONE && size_by(other) == next);
    close_all();
}

int main(int argc, char **argv) {
    static const struct {
        const char *name;
        void (*run)(const char *);
    } behaviours[] = {{"pieces", pieces},
                      {"stays", stays},
                      {"counts", counts},
                      {"blocks", blocks},
                      {"blocks_refused", blocks_refused},
                      {"blocks_renewed", blocks_renewed},
                      {"goes_on", goes_on},
                      {"full", full},
                      {"full_by_blocks", full_by_blocks},
                      {"full_by_pushes", full_by_pushes},
                      {"stays_beside_refusals", stays_beside_refusals},
                      {"options", options},
                      {"defaults", defaults},
                      {"reserves", reserves},
                      {"forks_by_default", forks_by_default},
                      {"narrow", narrow}};
    if (argc != 3) return 2;
    for (size_t k = 0; k < sizeof behaviours / sizeof *behaviours; k++)
        if (strcmp(argv[1], behaviours[k].name) == 0) {
            behaviours[k].run(argv[2]);
            return is_wrong();
        }
    return 2;
}
