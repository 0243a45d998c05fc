/* What the files of the vector share: vector.c begins and ends it, whole.c has commits, phases and calls of the whole vector, seats.c
 * seats, growing.c calls by a seat, settling.c waits. "With the mutex" says that who calls has the vector's. */
#ifndef CVEC_VECTOR_PARTS_H
#define CVEC_VECTOR_PARTS_H

#include "cvec/proved.h"
#include "system.h"
#include "types.h"

#include <pthread.h>
#include <time.h>

struct slot;
struct in_line;
struct own_flusher;

struct cvec_vector {
    int fd;
    bool in_memory;   /* it has no file, so nothing of it is durable: `fd` is none, and no call of its commits is made */
    uint64_t process; /* in which it was begun */
    pthread_mutex_t mutex;   /* guards all below but what who commits has, and who has all handles */
    pthread_cond_t settled;  /* a commit has ended */
    pthread_cond_t returned; /* each that it woke has come again */
    pthread_cond_t flushing; /* a loop of a flusher is to end, or has */
    pthread_cond_t released; /* nobody has all handles any more */
    pthread_cond_t came;     /* who waited then has come in */
    pthread_cond_t handed;   /* a seat that was lent on is given back */
    cvec_handle phase, committer;
    cvec_type type;     /* of the records */
    uint64_t durable;   /* so many growths are */
    uint64_t committed; /* the same, as who commits knows it */
    uint64_t begun;     /* so many growths there are of seats that are closed */
    uint64_t grown;     /* behind so many growths the last one stands that returned by a seat that is closed */
    uint64_t base;      /* so many there were before this phase: who has all handles writes it, and what follows */
    uint64_t phases;    /* so many began, this one too */
    bool unseated;      /* a phase has ended, or its renewal was refused halfway: the seats have no growers until the next one */
    bool alone;         /* `committer` has a vault, and `phase` nothing */
    cvec_seat *first; /* of the seats that aren't closed */
    cvec_seat *idle;  /* of those that are, and have a grower for the next one */
    struct slot *slots;      /* MOST_SEATS, of seats that are borrowed */
    uint32_t slotted;        /* by __atomic: behind the first so many slots each is empty */
    uint32_t slot_seats;     /* so many seats are in slots */
    struct in_line *line;    /* of the calls that wait for a seat, the one that came first */
    uint32_t queued;         /* by __atomic: so many these are */
    uint32_t called;         /* by __atomic: the first of them was called, and hasn't looked yet */
    uint32_t overdue;        /* by __atomic: so many of them have waited long */
    uint32_t seats;          /* so many aren't closed, those in slots too */
    uint64_t holds;          /* so many aren't released */
    uint32_t taken;          /* so many were taken */
    uint32_t flushers;       /* whose loops run */
    struct own_flusher *own; /* threads of the library's */
    uint32_t asking;         /* so many calls by no seat are under way that wait, or have all handles */
    uint32_t paused;         /* so many calls wait until nobody has all handles */
    uint32_t owed;           /* so many of those that waited when the last one gave them back haven't come in */
    bool owes_first;         /* one of them is the first in line for a seat */
    uint32_t waiting;        /* so many wait for the commit that is under way */
    uint32_t woken;          /* so many haven't come again of those that the last one woke, and who made it */
    uint64_t written;        /* so many bytes it wrote: who commits has it too */
    uint16_t most_seats;
    size_t pushes;    /* so many records that were pushed are grown at once, where a seat says nothing else */
    uint64_t growths; /* for so many a phase has room, where the system gives the addresses */
    bool committing, stopped; /* stopped: no loop of a flusher goes on */
    bool over;       /* it is ended: each later call is refused */
    bool ended;      /* it was: nothing is left but to give it up */
    bool claimed;    /* one call has all handles, those of the seats too, or waits for them: it commits then */
    bool yields;     /* that one waits for a commit, and gives up where somebody holds the vector */
    uint32_t shut;   /* by __atomic: it is claimed or unseated */
    uint32_t lent;   /* by __atomic: records of this phase were lent */
    uint32_t broken; /* by __atomic */
};

/* What a seat's thread does: nothing by it, a call that may use its grower, or one that doesn't. */
enum { FREE, INSIDE, ASIDE };

/* The first phase is 1. */
enum { NO_PHASE, FIRST_PHASE };

struct cvec_seat {
    cvec_vector *vector;
    cvec_handle grower;
    struct slot *slot; /* where it is to be borrowed, or NULL: it is one call's own until it is closed */
    uint64_t begun; /* by __atomic: so many growths of this seat there are, or are coming */
    uint64_t grown; /* by __atomic: behind so many growths of the vector the last one stands that returned by this seat */
    size_t room;    /* so many bytes are left of the memory that was asked for at once */
    cvec_seat *next; /* of those that aren't closed, or of those that are: with the vector's mutex */
    uint16_t number;        /* how many were taken before it */
    uint8_t *pushed; /* room for a block of records, or NULL: none was pushed since it was given back */
    size_t waiting;  /* so many of them were pushed and aren't grown: fewer than a block */
    size_t at_once;  /* so many are grown at once */
    cvec_receipt last; /* of the last growth by what was pushed; one of no records: there is none */
    cvec_handle block; /* that is lent to be written, or nothing: it is of no phase */
    void *blank;       /* its records */
    size_t blank_len;
    uint32_t busy;     /* by __atomic */
};

/* The seats of one vector, and how far apart in memory lies what no two processors take from one another. */
enum { MOST_SEATS = 64, APART = 128 };

/* For how many nanoseconds who waits for another thread's call sleeps at first, and at most. */
enum { FIRST_NAP = 2000, LONGEST_NAP = 200000 };

/* What a growth may have, in bytes. */
enum { LARGEST_GROWTH = (1 << 20) - 8 };

/* What is lent in place of no records. */
static const cvec_pair no_records[1] = {{0, 0}};

/* Which sanitizer this is built with: gcc says so by a macro, clang by a feature. */
#if defined(__SANITIZE_ADDRESS__)
#define WITH_ADDRESS_SANITIZER
#elif defined(__SANITIZE_THREAD__)
#define WITH_THREAD_SANITIZER
#elif defined(__has_feature)
#if __has_feature(address_sanitizer)
#define WITH_ADDRESS_SANITIZER
#elif __has_feature(thread_sanitizer)
#define WITH_THREAD_SANITIZER
#endif
#endif

#pragma GCC visibility push(hidden)

/* ---- types.c has what files need too */

/* The bytes of a record in a file. */
static inline uint16_t width_of(cvec_type type) {
    switch (type) {
#define CVEC_WIDTH_OF(NAME, name, RECORD, WIDTH) \
    case CVEC_##NAME: return WIDTH;
        CVEC_TYPES(CVEC_WIDTH_OF)
#undef CVEC_WIDTH_OF
    default: return 0;
    }
}

/* Whether these are records of the type: a flag is the byte 0 or 1, and what else memory may have there is none. */
static inline bool are_records(cvec_type type, const void *records, size_t count) {
    if (type != CVEC_FLAGGED || count == 0) return true;
    const uint8_t *flag = (const uint8_t *)records + offsetof(cvec_flagged, flag);
    for (size_t k = 0; k < count; k++, flag += sizeof(cvec_flagged))
        if (*flag > 1) return false;
    return true;
}

/* The bytes of one record: where it stands, or, packed, in `room`. */
static inline const uint8_t *bytes_of_one(cvec_type type, const void *record, uint8_t room[FLAGGED_LEN]) {
    if (type != CVEC_FLAGGED) return record;
    cvec_pack(record, 1, room);
    return room;
}

/* ---- time */

/* The moment so long from now on, by the clock of the conditions; the nanoseconds are less than a second. */
struct timespec cvec_moment_behind(time_t seconds, long nanoseconds);

/* So many milliseconds from now on; at CVEC_NO_LIMIT in 31 years. */
struct timespec cvec_moment_in(uint64_t milliseconds);

/* No moment never passes. */
bool cvec_has_passed(const struct timespec *moment);

/* Sleeps so that who came first can go on, each time longer. */
void cvec_give_way(long *nap);

/* A condition whose deadlines are of the clock that nobody sets. */
void cvec_begin_condition(pthread_cond_t *condition);

/* ---- the vector */

static inline bool is_of_this_process(const cvec_vector *vector) { return vector->process == cvec_process(); }

/* Why nothing is asked of this handle. */
static inline uint32_t refusal_of(const cvec_vector *vector) {
    if (vector == NULL) return CVEC_NOT_SO;
    return is_of_this_process(vector) ? CVEC_DONE : CVEC_FORKED;
}

/* Why nothing of it is made durable. */
static inline uint32_t refusal_to_settle(const cvec_vector *vector) {
    const uint32_t refusal = refusal_of(vector);
    return refusal == CVEC_DONE && vector->in_memory ? CVEC_NOT_SO : refusal;
}

/* Whether what names records of this type is for the vector. */
static inline bool has_width_of(const cvec_vector *vector, cvec_type type) { return width_of(vector->type) == width_of(type); }

static inline void set_broken(cvec_vector *vector) { __atomic_store_n(&vector->broken, 1, __ATOMIC_RELAXED); }

static inline bool is_broken(const cvec_vector *vector) { return __atomic_load_n(&vector->broken, __ATOMIC_RELAXED) != 0; }

/* Whether records of the phase are lent. Only a call inside lends. Who has all handles has seen that each such call left its seat,
 * or the mutex from who closed the seat, and so sees what it noted here; and none begins meanwhile. */
static inline bool has_lent(const cvec_vector *vector) { return __atomic_load_n(&vector->lent, __ATOMIC_RELAXED) != 0; }

/* ---- whole.c */

/* For who has the committer: commits one group of what was grown. The library counts the growths of this phase. */
uint32_t cvec_commit(cvec_vector *vector, uint64_t *growths);

/* With the mutex, while nobody commits: commits one group for all who wait. Meanwhile it hasn't got the mutex. */
uint32_t cvec_lead(cvec_vector *vector, uint64_t *growths);

/* With the mutex: one more has come that waits for a commit, and makes it where nobody does. */
void cvec_come(cvec_vector *vector);

/* Makes the calls that a vault has listed, and settles. */
uint32_t cvec_settle_listed(cvec_vector *vector);

/* The growers of closed seats, which would be given to the next ones, are closed. */
void cvec_drop_idle(cvec_vector *vector);

/* With the mutex: until nobody has all handles. */
void cvec_await_release(cvec_vector *vector);

/* The same for a call by no seat. A close would free the vector under it: it is counted. */
void cvec_await_pause(cvec_vector *vector);

/* With the mutex, and while nobody has all handles: who waited has come in. */
void cvec_come_in_turn(cvec_vector *vector);

/* With the mutex, which it hasn't got meanwhile, and while nobody has all handles: a new phase, with all its seats. Others only
 * wait longer. Refused, nothing is lost, and it may be tried again. CVEC_FULL: records are lent. */
uint32_t cvec_renew(cvec_vector *vector);

/* ---- seats.c */

/* A call that waits for a seat. */
struct in_line {
    pthread_cond_t turn; /* it may be its turn */
    struct in_line *next;
    struct timespec patience; /* behind this moment it has waited long */
    bool is_overdue;          /* it has, and looked */
};

/* A seat that any thread may borrow: a state that one exchange takes and one store gives back. An empty slot has no seat. Only with the
 * mutex is one lent on whose call waits, and given back to it. */
enum { IDLE, LENT, LENDABLE };

struct slot {
    uint32_t state; /* by __atomic */
    uint32_t away;  /* who has it writes: so many calls that wait have lent it on, and want it back */
    cvec_seat *seat;
    uint32_t wanted; /* with the mutex: so many of those wait for it: nobody else has it then */
    uint32_t ended;  /* 1: who ends the vector has it */
    uint8_t apart[APART - 4 * sizeof(uint32_t) - sizeof(void *)];
};

/* With the mutex: who came first to wait for a seat looks again. */
void cvec_call_first(cvec_vector *vector);

/* With the mutex, and with nobody's call under way by it: this seat is no more. */
void cvec_drop_seat(cvec_vector *vector, cvec_seat *seat);

/* With the mutex: takes each idle slot, so that nobody borrows; whether those are all that have seats. */
bool cvec_take_slots(cvec_vector *vector);
void cvec_give_slots_back(cvec_vector *vector);

/* With the mutex, having taken all slots: the seats in them are no more. */
void cvec_drop_slots(cvec_vector *vector);

/* With the mutex, for a call by this seat that is to wait: others may borrow it meanwhile, where it was borrowed and keeps nothing. */
bool cvec_lend_on(cvec_seat *seat);

/* With the mutex: it has its seat again. */
void cvec_have_again(cvec_seat *seat);

/* ---- growing.c: a call by a seat */

static inline void set_busy(cvec_seat *seat, uint32_t busy) { __atomic_store_n(&seat->busy, busy, __ATOMIC_RELEASE); }

/* Takes the seat for one call, that is inside or aside. Two calls at once on one handle would be undefined. */
static inline uint32_t enter_so(cvec_seat *seat, uint32_t busy) {
    uint32_t was = FREE;
    if (seat == NULL) return CVEC_NOT_SO;
    if (!is_of_this_process(seat->vector)) return CVEC_FORKED;
    return __atomic_compare_exchange_n(&seat->busy, &was, busy, false, __ATOMIC_SEQ_CST, __ATOMIC_RELAXED) ? CVEC_DONE : CVEC_BUSY;
}

static inline void leave_seat(cvec_seat *seat) { set_busy(seat, FREE); }

/* For who has the seat: it alone counts. */
static inline void count_begun(cvec_seat *seat, uint64_t count) { __atomic_store_n(&seat->begun, count, __ATOMIC_RELAXED); }

/* Whether something waits in it, or is its own, that nobody who borrows it next is to find. */
static inline bool keeps_something(const cvec_seat *seat) {
    return seat->pushed != NULL || seat->block.full || seat->last.len > 0 || seat->at_once != seat->vector->pushes;
}

/* For a call that is aside: grows by what was pushed and waits, gives its memory and its block up, and is aside again. Where a growth
 * is refused, what waited is lost. */
uint32_t cvec_empty_seat(cvec_seat *seat);

/* ---- settling.c */

/* With the mutex: ends the loops of flushers, and waits until each has. */
void cvec_end_flushers(cvec_vector *vector);

/* Joins the threads of the library's own, which have ended. */
void cvec_join_flushers(cvec_vector *vector);

#pragma GCC visibility pop

#endif
