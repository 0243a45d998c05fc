/* Random calls of the C for threads by 1 to 16 threads, whose answers are checked by what each thread knows:
 * random_calls FILE SEED ROUNDS. A round runs in a process of its own. At its end calls of the whole vector are made, which leave
 * each record as it is, and the vector is closed; or the process is killed behind so many calls. Then the file is opened again:
 * it has each growth that was known to be durable, and whole growths alone. The status is 0 where all is as it is promised; else
 * a line says what isn't, and by which seed and round it is found again. */
#define _DEFAULT_SOURCE 1
#define _POSIX_C_SOURCE 200809L
#include "cvec.h"

#include <inttypes.h>
#include <pthread.h>
#include <signal.h>
#include <stdio.h>
#include <stdlib.h>
#include <string.h>
#include <sys/mman.h>
#include <sys/wait.h>
#include <unistd.h>

enum { MOST_THREADS = 16, MOST_TURNS = 256, MOST_CALLS = 400, MOST_SEATS = 64, LARGEST = 131071, ROUNDS_OF_A_FILE = 8 };

/* A thread, and what it knows. */
struct thread {
    pthread_t id;
    cvec_seat *seat;
    uint64_t *room; /* for one growth, and one record more */
    uint64_t name, random, calls, turns, size, settled;
    cvec_receipt receipts[MOST_TURNS];
};

/* A round, in memory that its process shares with the one that looks at the file. */
struct round {
    uint64_t seed, number, random, base, sum, seats, calls_left;
    unsigned threads;
    uint8_t version;
    bool is_killed, has_flusher, wrong;
    struct thread all[MOST_THREADS];
};

static struct round *round_of;
static cvec_vector *vector;
static cvec_seat *common; /* which each thread may call at any time */

#define HOLDS(claim) \
    do \
        if (!(claim)) { \
            printf("seed %" PRIu64 " round %" PRIu64 " line %d: not so: %s\n", round_of->seed, round_of->number, __LINE__, #claim); \
            round_of->wrong = true; \
        } \
    while (0)

/* The next number of a generator (splitmix64), below this one. */
static uint64_t below(uint64_t *state, uint64_t limit) {
    uint64_t z = *state += 0x9e3779b97f4a7c15;
    z = (z ^ z >> 30) * 0xbf58476d1ce4e5b9;
    z = (z ^ z >> 27) * 0x94d049bb133111eb;
    return (z ^ z >> 31) % limit;
}

/* The record at this place of a growth. The first one says whose growth it is, which, and how long. */
static uint64_t record(uint64_t name, uint64_t turn, uint64_t len, uint64_t at) {
    const uint64_t head = round_of->number % 256 << 56 | name << 48 | turn << 24 | len;
    return at == 0 ? head : head * 31 + at;
}

static uint64_t greatest(uint64_t a, uint64_t b) { return a > b ? a : b; }

/* ---- the calls */

/* The next growth of this thread has been made, with so many records. */
static void note_growth(struct thread *own, uint64_t len) {
    const cvec_receipt *receipt = &own->receipts[own->turns];
    HOLDS(receipt->len == len && receipt->start >= own->size);
    HOLDS(own->turns == 0 || receipt->number > receipt[-1].number);
    own->size = receipt->start + len;
    own->turns++;
}

static void grow(struct thread *own) {
    if (own->turns == MOST_TURNS) return;
    const uint64_t most = below(&own->random, 500) == 0 ? LARGEST : below(&own->random, 40) == 0 ? 5000 : 60;
    const uint64_t len = 1 + below(&own->random, most);
    for (uint64_t at = 0; at < len; at++) own->room[at] = record(own->name, own->turns, len, at);
    HOLDS(cvec_seat_grow_u64(own->seat, own->room, len, &own->receipts[own->turns]) == CVEC_DONE);
    note_growth(own, len);
}

/* Record by record: the last push makes the growth, or who asks for its receipt. */
static void push(struct thread *own) {
    if (own->turns == MOST_TURNS) return;
    const uint64_t len = 1 + below(&own->random, 60);
    HOLDS(cvec_seat_push_block(own->seat, len + below(&own->random, 2)) == CVEC_DONE);
    for (uint64_t at = 0; at < len; at++) {
        const uint64_t next = record(own->name, own->turns, len, at);
        HOLDS(cvec_seat_push(own->seat, CVEC_U64, &next) == CVEC_DONE);
    }
    HOLDS(cvec_seat_flush(own->seat, &own->receipts[own->turns]) == CVEC_DONE);
    note_growth(own, len);
}

/* In place: now and then the block is dropped, and grown by copies. */
static void grow_in_place(struct thread *own) {
    void *block = NULL;
    if (own->turns == MOST_TURNS) return;
    const uint64_t len = 1 + below(&own->random, below(&own->random, 40) == 0 ? 5000 : 60);
    HOLDS(cvec_seat_block(own->seat, len, &block) == CVEC_DONE && block != NULL);
    if (block == NULL) return;
    for (uint64_t at = 0; at < len; at++) ((uint64_t *)block)[at] = record(own->name, own->turns, len, at);
    if (below(&own->random, 4) == 0) {
        HOLDS(cvec_seat_drop(own->seat) == CVEC_DONE && cvec_seat_publish(own->seat, NULL) == CVEC_NOT_SO);
        return;
    }
    HOLDS(cvec_seat_publish(own->seat, &own->receipts[own->turns]) == CVEC_DONE);
    note_growth(own, len);
}

static void grow_what_is_refused(struct thread *own) {
    cvec_receipt receipt = {7, 7, 7, 7, 7};
    HOLDS(cvec_seat_grow_u64(own->seat, own->room, 0, &receipt) == CVEC_EMPTY);
    HOLDS(cvec_seat_grow_u64(own->seat, own->room, LARGEST + 1, &receipt) == CVEC_TOO_LARGE);
    HOLDS(receipt.number == 7 && receipt.start == 7 && receipt.len == 7);
}

/* Any growth of this thread. */
static const cvec_receipt *any(struct thread *own, uint64_t *turn) {
    *turn = below(&own->random, own->turns);
    return &own->receipts[*turn];
}

static void read_own(struct thread *own) {
    uint64_t turn, count = 0;
    if (own->turns == 0) return;
    const cvec_receipt *receipt = any(own, &turn);
    const uint64_t skipped = below(&own->random, receipt->len);
    HOLDS(cvec_seat_read_u64(own->seat, receipt->start + skipped, own->room, receipt->len - skipped, &count) == CVEC_DONE);
    HOLDS(count == receipt->len - skipped);
    for (uint64_t at = 0; at < count; at++)
        if (own->room[at] != record(own->name, turn, receipt->len, skipped + at)) HOLDS(!"its own growth is read");
}

static void read_one(struct thread *own) {
    uint64_t turn, seen = 0;
    if (own->turns == 0) return;
    const cvec_receipt *receipt = any(own, &turn);
    const uint64_t skipped = below(&own->random, receipt->len);
    HOLDS(cvec_seat_at(own->seat, CVEC_U64, receipt->start + skipped, &seen) == CVEC_DONE);
    HOLDS(seen == record(own->name, turn, receipt->len, skipped));
    HOLDS(cvec_seat_at(own->seat, CVEC_U64, UINT64_C(1) << 32, &seen) == CVEC_OUT_OF_RANGE);
}

static void ask_size(struct thread *own) {
    uint64_t size = 0;
    HOLDS(cvec_seat_size(own->seat, &size) == CVEC_DONE && size >= own->size);
    own->size = size;
}

/* Reads what was lent, of any growth of its own, once before and once behind another call. */
static void read_lent(struct thread *own) {
    enum { PIECES = 8 };
    cvec_piece pieces[PIECES];
    uint64_t turn, at = 0;
    size_t count = 0;
    if (own->turns == 0) return;
    const cvec_receipt *receipt = any(own, &turn);
    const size_t room = 1 + below(&own->random, PIECES);
    HOLDS(cvec_seat_pieces(own->seat, receipt->start, pieces, room, &count) == CVEC_DONE && count > 0 && count <= room);
    if (count == 0) return;
    HOLDS(pieces[0].start == receipt->start && pieces[0].len >= receipt->len);
    for (size_t k = 1; k < count; k++) HOLDS(pieces[k].start == pieces[k - 1].start + pieces[k - 1].len && pieces[k].len > 0);
    ask_size(own);
    for (; at < receipt->len; at++)
        if (((const uint64_t *)pieces[0].records)[at] != record(own->name, turn, receipt->len, at)) HOLDS(!"its own growth is lent");
}

/* While it holds the vector, no call of the whole vector is made: so what is lent may be read. */
static void hold(struct thread *own) {
    HOLDS(cvec_vector_hold(vector) == CVEC_DONE);
    if (below(&own->random, 2) == 0) HOLDS(cvec_vector_compact(vector) == CVEC_BUSY);
    read_lent(own);
    HOLDS(cvec_vector_release(vector) == CVEC_DONE);
}

static void count_a_head(struct thread *own) {
    uint64_t turn, count = 0;
    if (own->turns == 0) return;
    const cvec_receipt *receipt = any(own, &turn);
    HOLDS(cvec_seat_count_u64(own->seat, record(own->name, turn, receipt->len, 0), &count) == CVEC_DONE && count == 1);
}

static void find_a_head(struct thread *own) {
    uint64_t turn, place = 0;
    if (own->turns == 0) return;
    const cvec_receipt *receipt = any(own, &turn);
    const uint64_t from = below(&own->random, receipt->start + 1);
    HOLDS(cvec_seat_find_u64(own->seat, record(own->name, turn, receipt->len, 0), from, &place) == CVEC_DONE && place == receipt->start);
}

static void read_any(struct thread *own) {
    const uint64_t from = below(&own->random, own->size + 100), room = below(&own->random, 500);
    uint64_t count = UINT64_MAX;
    HOLDS(cvec_seat_read_u64(own->seat, from, own->room, room, &count) == CVEC_DONE && count <= room);
    HOLDS(from >= own->size || count >= (own->size - from < room ? own->size - from : room));
}

static void ask_settled(struct thread *own) {
    uint64_t settled = 0;
    HOLDS(cvec_seat_settled(own->seat, &settled) == CVEC_DONE && settled >= own->settled);
    own->settled = settled;
}

static void await_own(struct thread *own) {
    uint64_t turn;
    if (own->turns == 0) return;
    const uint64_t number = any(own, &turn)->number;
    HOLDS(cvec_seat_settle(own->seat, number, CVEC_NO_LIMIT) == CVEC_DONE);
    own->settled = greatest(own->settled, number + 1);
    ask_settled(own);
}

static void await_own_for(struct thread *own) {
    uint64_t turn;
    if (own->turns == 0) return;
    const uint64_t number = any(own, &turn)->number;
    const uint32_t status = cvec_seat_settle(own->seat, number, below(&own->random, 3));
    HOLDS(status == CVEC_DONE || status == CVEC_LATE);
    if (status == CVEC_DONE) own->settled = greatest(own->settled, number + 1);
    ask_settled(own);
}

static void await_none(struct thread *own) {
    HOLDS(cvec_seat_settle(own->seat, UINT64_MAX, CVEC_NO_LIMIT) == CVEC_OUT_OF_RANGE);
    HOLDS(cvec_seat_settle(own->seat, 1048568 + below(&own->random, 1000), CVEC_NO_LIMIT) == CVEC_OUT_OF_RANGE);
}

/* A number of a seat isn't given again. */
static void change_seat(struct thread *own) {
    if (__atomic_add_fetch(&round_of->seats, 1, __ATOMIC_SEQ_CST) > MOST_SEATS) return;
    HOLDS(cvec_seat_close(&own->seat) == CVEC_DONE);
    HOLDS(cvec_seat_take(vector, &own->seat) == CVEC_DONE);
}

static void call_common(struct thread *own) {
    uint64_t answer = 0;
    const uint64_t which = below(&own->random, 5);
    const uint32_t status = which == 0   ? cvec_seat_size(common, &answer)
                            : which == 1 ? cvec_seat_settled(common, &answer)
                            : which == 2 ? cvec_seat_read_u64(common, below(&own->random, own->size + 1), own->room, 50, &answer)
                            : which == 3 ? cvec_seat_at(common, CVEC_U64, below(&own->random, own->size + 1), own->room)
                                         : cvec_seat_settle(common, 0, 0);
    HOLDS(status == CVEC_DONE || status == CVEC_BUSY || (which >= 3 && status == CVEC_OUT_OF_RANGE) ||
          (which == 4 && status == CVEC_LATE));
}

static void close_too_early(struct thread *own) {
    (void)own;
    HOLDS(cvec_vector_close(&vector) == CVEC_BUSY);
}

static uint32_t change_own(struct thread *own) {
    uint64_t turn;
    const cvec_receipt *receipt = any(own, &turn);
    const uint64_t skipped = below(&own->random, receipt->len), left = receipt->len - skipped, count = left < 1000 ? left : 1000;
    for (uint64_t at = 0; at < count; at++) own->room[at] = record(own->name, turn, receipt->len, skipped + at);
    return cvec_vector_change_u64(vector, receipt->start + skipped, own->room, count);
}

/* A call of the whole vector beside those by seats. It leaves each record as it is. */
static void whole_beside(struct thread *own) {
    const uint64_t which = below(&own->random, 9);
    if (which > 2 || own->turns == 0) return;
    const uint32_t status = which == 0 ? change_own(own) : which == 1 ? cvec_vector_fold(vector) : cvec_vector_compact(vector);
    HOLDS(status == CVEC_DONE || status == CVEC_BUSY);
}

/* By a seat that is borrowed, all that has returned is settled. */
static void settle_all(struct thread *own) {
    uint64_t settled = 0;
    if (own->turns == 0) return;
    HOLDS(cvec_vector_settle(vector, CVEC_NO_LIMIT) == CVEC_DONE && cvec_vector_settled(vector, &settled) == CVEC_DONE);
    HOLDS(settled > own->receipts[own->turns - 1].number);
    ask_settled(own);
}

/* Another growth of this thread, by a seat that is borrowed where there is one. */
static void grow_by_any(struct thread *own) {
    cvec_seat *seat = NULL;
    const cvec_seat *const its = own->seat;
    const uint32_t status = cvec_seat_borrow(vector, below(&own->random, 20), &seat);
    HOLDS((status == CVEC_DONE && seat != NULL && seat != its) || (status == CVEC_LATE && seat == NULL));
    if (seat == NULL) return;
    cvec_seat *const kept = own->seat;
    own->seat = seat;
    (below(&own->random, 2) == 0 ? grow : push)(own);
    own->seat = kept;
    HOLDS(cvec_seat_return(&seat) == CVEC_DONE && seat == NULL);
}

static void (*const calls[])(struct thread *) = {
    grow,     grow,        grow,       grow,        push,          push,       grow_in_place, grow_in_place, grow_what_is_refused,
    read_own, read_one,    hold,       hold,        count_a_head,  find_a_head, whole_beside, settle_all,    grow_by_any, grow_by_any,
    read_any, ask_size,    ask_settled, await_own,  await_own_for, await_none, change_seat,   call_common,   close_too_early,
};

/* ---- the calls of the whole vector, of what this thread has grown */

static void change_to_the_same(struct thread *own) { HOLDS(change_own(own) == CVEC_DONE); }

static void fold(struct thread *own) {
    (void)own;
    HOLDS(cvec_vector_fold(vector) == CVEC_DONE);
}

static void compact(struct thread *own) {
    (void)own;
    HOLDS(cvec_vector_compact(vector) == CVEC_DONE && cvec_vector_release(vector) == CVEC_NOT_SO);
}

static void (*const whole_calls[])(struct thread *) = {change_to_the_same, change_to_the_same, compact, fold};

/* ---- a round */

/* Before each call: a round that is killed may be so here. */
static void end_perhaps(void) {
    if (round_of->is_killed && __atomic_sub_fetch(&round_of->calls_left, 1, __ATOMIC_SEQ_CST) == 0) kill(getpid(), SIGKILL);
}

static void *run(void *work) {
    struct thread *own = work;
    while (own->calls-- > 0 && !round_of->wrong) {
        end_perhaps();
        calls[below(&own->random, sizeof calls / sizeof *calls)](own);
    }
    return NULL;
}

/* Once no seat is taken. A flusher may go on. */
static void call_alone(void) {
    for (uint64_t left = below(&round_of->random, 2 * MOST_THREADS); left > 0 && !round_of->wrong; left--) {
        struct thread *own = &round_of->all[below(&round_of->random, round_of->threads)];
        if (own->turns == 0) continue;
        end_perhaps();
        whole_calls[below(&round_of->random, sizeof whole_calls / sizeof *whole_calls)](own);
    }
    if (round_of->is_killed) kill(getpid(), SIGKILL);
}

static void *flush(void *every) { return (void *)(uintptr_t)cvec_vector_run_flusher(vector, (uint64_t)(uintptr_t)every); }

static void begin_threads(const char *path) {
    const uint32_t status = round_of->base == 0 && access(path, F_OK) != 0
                                ? cvec_vector_create(&vector, path, CVEC_U64, &(cvec_options){.version = round_of->version, .seats = MOST_SEATS})
                                : cvec_vector_open(&vector, path, CVEC_U64, &(cvec_options){.seats = MOST_SEATS});
    HOLDS(status == CVEC_DONE && cvec_seat_take(vector, &common) == CVEC_DONE);
    if (round_of->wrong) exit(1);
    for (unsigned k = 0; k < round_of->threads; k++) {
        struct thread *own = &round_of->all[k];
        own->room = malloc((LARGEST + 1) * sizeof *own->room);
        HOLDS(own->room != NULL && cvec_seat_take(vector, &own->seat) == CVEC_DONE);
        if (round_of->wrong) exit(1);
        memset(own->room, 1, (LARGEST + 1) * sizeof *own->room);
    }
}

/* The work of the round's process. */
static void live(const char *path) {
    pthread_t flusher;
    void *flushed = NULL;
    begin_threads(path);
    if (round_of->has_flusher) pthread_create(&flusher, NULL, flush, (void *)(uintptr_t)(1 + round_of->random % 3));
    for (unsigned k = 0; k < round_of->threads; k++) pthread_create(&round_of->all[k].id, NULL, run, &round_of->all[k]);
    for (unsigned k = 0; k < round_of->threads; k++) {
        pthread_join(round_of->all[k].id, NULL);
        HOLDS(cvec_seat_close(&round_of->all[k].seat) == CVEC_DONE);
    }
    HOLDS(cvec_seat_close(&common) == CVEC_DONE);
    call_alone();
    for (unsigned k = 0; k < round_of->threads; k++) free(round_of->all[k].room);
    if (round_of->has_flusher) {
        HOLDS(cvec_vector_stop_flusher(vector) == CVEC_DONE);
        pthread_join(flusher, &flushed);
        HOLDS(flushed == NULL);
    }
    HOLDS(cvec_vector_close(&vector) == CVEC_DONE);
    fflush(stdout);
}

/* ---- the file behind a round */

/* The records of the file. */
static uint64_t *read_all(const char *path, uint64_t *size) {
    cvec_seat *seat;
    uint64_t count = 0;
    *size = 0;
    HOLDS(cvec_vector_open(&vector, path, CVEC_U64, &(cvec_options){.seats = 1}) == CVEC_DONE);
    if (round_of->wrong) return NULL;
    HOLDS(cvec_seat_take(vector, &seat) == CVEC_DONE && cvec_seat_size(seat, size) == CVEC_DONE);
    uint64_t *records = malloc((*size + 1) * sizeof *records);
    HOLDS(records != NULL && cvec_seat_read_u64(seat, 0, records, *size, &count) == CVEC_DONE && count == *size);
    HOLDS(cvec_seat_close(&seat) == CVEC_DONE && cvec_vector_close(&vector) == CVEC_DONE);
    return records;
}

static uint64_t sum_of(const uint64_t *records, uint64_t count) {
    uint64_t sum = 0;
    for (uint64_t k = 0; k < count; k++) sum = (sum ^ records[k]) * 0x100000001b3;
    return sum;
}

/* Whether a whole growth stands here, the next one of its thread; its length then. */
static uint64_t growth_at(const uint64_t *records, uint64_t left, uint64_t *turns) {
    const uint64_t name = records[0] >> 48 & 255, turn = records[0] >> 24 & 0xffffff, len = records[0] & 0xffffff;
    if (name >= round_of->threads || turn != turns[name] || len == 0 || len > left) return 0;
    for (uint64_t at = 0; at < len; at++)
        if (records[at] != record(name, turn, len, at)) return 0;
    turns[name]++;
    return len;
}

/* What was grown stands where its receipts say. A growth whose receipt nobody has seen may stand besides. */
static void check_growths(const uint64_t *records, uint64_t size) {
    uint64_t turns[MOST_THREADS] = {0}, found = 0, len;
    for (uint64_t at = round_of->base; at < size; at += len, found++) {
        const uint64_t name = records[at] >> 48 & 255, turn = records[at] >> 24 & 0xffffff;
        len = growth_at(records + at, size - at, turns);
        HOLDS(len > 0);
        if (len == 0) return;
        const struct thread *own = &round_of->all[name];
        if (turn < own->turns) HOLDS(own->receipts[turn].start == at && own->receipts[turn].number == found);
    }
    for (unsigned k = 0; k < round_of->threads; k++) {
        HOLDS(found >= round_of->all[k].settled);
        HOLDS(round_of->is_killed || turns[k] == round_of->all[k].turns);
    }
}

static void check_file(const char *path) {
    uint64_t size;
    uint64_t *records = read_all(path, &size);
    if (round_of->wrong) return;
    HOLDS(size >= round_of->base && sum_of(records, round_of->base) == round_of->sum);
    if (size >= round_of->base) check_growths(records, size);
    round_of->base = size;
    round_of->sum = sum_of(records, size);
    free(records);
}

/* ---- all rounds */

static void choose(void) {
    uint64_t *random = &round_of->random, calls_of_all = MOST_THREADS;
    memset(round_of->all, 0, sizeof round_of->all);
    round_of->threads = 1 + (unsigned)below(random, MOST_THREADS);
    round_of->seats = round_of->threads + 1;
    round_of->version = (uint8_t)(1 + below(random, 2));
    round_of->has_flusher = below(random, 2) == 0;
    round_of->is_killed = below(random, 2) == 0;
    for (unsigned k = 0; k < round_of->threads; k++) {
        round_of->all[k].name = k;
        round_of->all[k].random = below(random, UINT64_MAX);
        round_of->all[k].calls = 1 + below(random, MOST_CALLS);
        round_of->all[k].size = round_of->base;
        calls_of_all += round_of->all[k].calls;
    }
    round_of->calls_left = 1 + below(random, calls_of_all);
}

static void run_round(const char *path) {
    int status = 0;
    if (round_of->number % ROUNDS_OF_A_FILE == 0) {
        remove(path);
        round_of->base = round_of->sum = 0;
    }
    choose();
    fflush(stdout);
    const pid_t child = fork();
    if (child == 0) {
        live(path);
        exit(round_of->wrong);
    }
    HOLDS(waitpid(child, &status, 0) == child);
    HOLDS(round_of->is_killed ? WIFSIGNALED(status) && WTERMSIG(status) == SIGKILL : status == 0);
    if (!round_of->wrong) check_file(path);
}

int main(int argc, char **argv) {
    if (argc != 4) return 2;
    round_of = mmap(NULL, sizeof *round_of, PROT_READ | PROT_WRITE, MAP_SHARED | MAP_ANONYMOUS, -1, 0);
    if (round_of == MAP_FAILED) return 2;
    round_of->seed = round_of->random = strtoull(argv[2], NULL, 10);
    const uint64_t rounds = strtoull(argv[3], NULL, 10);
    for (; round_of->number < rounds && !round_of->wrong; round_of->number++) run_round(argv[1]);
    return round_of->wrong ? 1 : 0;
}
