/* Growths of the C for threads where memory is refused: refused FILE. A file is made, grown by each call and closed, once with the first
 * request for memory refused, once with the second, and so on, until none is met. A call that answers CVEC_MEMORY is made once
 * more. The status is 0 where each growth is then made, and the file has what was awaited; else a line says what isn't so. */
#define _POSIX_C_SOURCE 200809L
#include "cvec.h"

#include <errno.h>
#include <inttypes.h>
#include <stdbool.h>
#include <stdio.h>
#include <stdlib.h>
#include <unistd.h>

enum { GROWTHS = 12, MOST = 5, ROOM = GROWTHS * MOST, BLOCK = 4 }; /* pushed records are grown by so many */

/* ---- requests for memory, of which one is refused */

extern void *__libc_malloc(size_t), *__libc_calloc(size_t, size_t), *__libc_realloc(void *, size_t);
extern void *__libc_memalign(size_t, size_t);

static uint64_t seen, refused; /* one thread makes all requests; none is refused where the second is 0 */

static bool is_refused(void) {
    if (++seen != refused) return false;
    errno = ENOMEM;
    return true;
}

void *malloc(size_t len) { return is_refused() ? NULL : __libc_malloc(len); }
void *calloc(size_t count, size_t len) { return is_refused() ? NULL : __libc_calloc(count, len); }
void *realloc(void *at, size_t len) { return is_refused() ? NULL : __libc_realloc(at, len); }
void *aligned_alloc(size_t align, size_t len) { return is_refused() ? NULL : __libc_memalign(align, len); }
int posix_memalign(void **at, size_t align, size_t len) {
    *at = aligned_alloc(align, len);
    return *at == NULL ? ENOMEM : 0;
}

/* ---- the growths */

#define HOLDS(claim) \
    do \
        if (!(claim)) { \
            printf("request %" PRIu64 " line %d: not so: %s\n", refused, __LINE__, #claim); \
            exit(1); \
        } \
    while (0)

/* The same call once more, where memory was refused. */
#define AGAIN(call, answer) \
    do { \
        answer = call; \
        if (answer == CVEC_MEMORY) answer = call; \
    } while (0)

/* How many records each growth has. The records of the vector are 0, 1, 2 and so on. The second seat learns what the first grew. */
static const size_t lengths[GROWTHS] = {3, 4, 1, 5, 4, 1, 2, 4, 1, 3, 4, 1};
static uint64_t records[ROOM];

static cvec_vector *vector;
static cvec_seat *seat, *other;

/* The push that fills a block grows by it, and of fewer records who asks for the receipt. */
static uint32_t push(uint64_t start, uint64_t end, cvec_receipt *receipt) {
    uint32_t answer = CVEC_DONE;
    for (uint64_t at = start; at < end && answer == CVEC_DONE; at++) AGAIN(cvec_seat_push(seat, CVEC_U64, &at), answer);
    if (answer == CVEC_DONE) AGAIN(cvec_seat_flush(seat, receipt), answer);
    return answer;
}

/* Where it is refused no block is lent, and what was written to one waits to be published. */
static uint32_t publish(uint64_t start, size_t len, cvec_receipt *receipt) {
    void *block = NULL;
    uint32_t answer;
    AGAIN(cvec_seat_block(seat, len, &block), answer);
    HOLDS(answer == CVEC_DONE && block != NULL);
    for (uint64_t at = 0; at < len; at++) ((uint64_t *)block)[at] = start + at;
    AGAIN(cvec_seat_publish(seat, receipt), answer);
    HOLDS(answer == CVEC_DONE && cvec_seat_drop(seat) == CVEC_NOT_SO);
    return answer;
}

/* The growth of that number, behind so many records. An even length is pushed; of an odd one every second growth is in place. */
static void grow(size_t number, uint64_t start) {
    cvec_receipt receipt = {7, 7, 7, 7, 7};
    uint32_t answer;
    if (lengths[number] % 2 == 0) {
        answer = push(start, start + lengths[number], &receipt);
    } else if (number % 2 != 0) {
        answer = publish(start, lengths[number], &receipt);
    } else {
        AGAIN(cvec_seat_grow_u64(seat, records + start, lengths[number], &receipt), answer);
    }
    HOLDS(answer == CVEC_DONE && receipt.number == number && receipt.start == start && receipt.len == lengths[number]);
}

/* So they are lent to the other seat. */
static void expect_pieces(uint64_t count) {
    cvec_piece pieces[ROOM];
    uint64_t end = 0;
    size_t told = 0;
    uint32_t answer;
    AGAIN(cvec_seat_pieces(other, 0, pieces, ROOM, &told), answer);
    HOLDS(answer == CVEC_DONE);
    for (size_t k = 0; k < told; k++) {
        HOLDS(pieces[k].start == end);
        for (uint64_t at = 0; at < pieces[k].len; at++, end++) HOLDS(((const uint64_t *)pieces[k].records)[at] == end);
    }
    HOLDS(end == count);
}

/* And it counts and finds each. */
static void expect_each(uint64_t count) {
    uint64_t equal = 9, place = 9;
    uint32_t answer;
    AGAIN(cvec_seat_count_u64(other, count - 1, &equal), answer);
    HOLDS(answer == CVEC_DONE && equal == 1);
    AGAIN(cvec_seat_find_u64(other, count - 1, 0, &place), answer);
    HOLDS(answer == CVEC_DONE && place == count - 1);
}

/* The vector has just so many records. By turns the other seat learns it by each call first. */
static void expect(uint64_t count, size_t turn) {
    uint64_t found[ROOM + 1], there = 0;
    HOLDS(cvec_seat_read_u64(seat, 0, found, ROOM + 1, &there) == CVEC_DONE && there == count);
    for (uint64_t at = 0; at < count; at++) HOLDS(found[at] == at);
    if (turn % 2 == 0) expect_pieces(count);
    if (count > 0) expect_each(count);
    expect_pieces(count);
}

static void take_seats(void) {
    uint32_t answer;
    AGAIN(cvec_seat_take(vector, &seat), answer);
    HOLDS(answer == CVEC_DONE && cvec_seat_push_block(seat, BLOCK) == CVEC_DONE);
    AGAIN(cvec_seat_take(vector, &other), answer);
    HOLDS(answer == CVEC_DONE);
}

/* Every second growth is awaited. Where the calls of a commit couldn't be listed, the vector is broken. How many records are
 * durable then. */
static uint64_t grow_all(void) {
    uint64_t start = 0, durable = 0;
    for (size_t number = 0; number < GROWTHS; number++) {
        uint32_t answer;
        grow(number, start);
        start += lengths[number];
        expect(start, number);
        if (number % 2 == 0) continue;
        AGAIN(cvec_seat_settle(seat, number, CVEC_NO_LIMIT), answer);
        if (answer == CVEC_BROKEN) return durable;
        HOLDS(answer == CVEC_DONE);
        durable = start;
    }
    return durable;
}

/* What is in the file: what was durable, and whole growths alone. */
static void expect_file(const char *path, uint64_t durable) {
    uint64_t size = 0, whole = 0;
    HOLDS(cvec_vector_open(&vector, path, CVEC_U64, &(cvec_options){.seats = 2}) == CVEC_DONE);
    take_seats();
    HOLDS(cvec_seat_size(seat, &size) == CVEC_DONE && size >= durable);
    for (size_t number = 0; number < GROWTHS && whole < size; number++) whole += lengths[number];
    HOLDS(whole == size);
    expect(size, 0);
    HOLDS(cvec_seat_close(&other) == CVEC_DONE);
    HOLDS(cvec_seat_close(&seat) == CVEC_DONE && cvec_vector_close(&vector) == CVEC_DONE);
}

/* Whether there was such a request. */
static bool refuse(const char *path, uint64_t number) {
    uint32_t answer;
    seen = 0;
    refused = number;
    AGAIN(cvec_vector_create(&vector, path, CVEC_U64, &(cvec_options){.version = 1, .seats = 2}), answer);
    if (answer == CVEC_BROKEN) answer = cvec_vector_create(&vector, path, CVEC_U64, &(cvec_options){.version = 1, .seats = 2}); /* of its commit the calls couldn't be listed */
    HOLDS(answer == CVEC_DONE);
    take_seats();
    const uint64_t durable = grow_all();
    cvec_seat_close(&other);
    cvec_seat_close(&seat);
    cvec_vector_close(&vector);
    const bool was_refused = seen >= number;
    refused = 0;
    expect_file(path, durable);
    unlink(path);
    return was_refused;
}

int main(int argc, char **argv) {
    if (argc != 2) return 2;
    for (uint64_t at = 0; at < ROOM; at++) records[at] = at;
    uint64_t number = 1;
    while (refuse(argv[1], number)) number++;
    printf("%" PRIu64 " requests were refused\n", number - 1);
    return 0;
}
