/* What vector.pml takes of the system: the mutex, the conditions and the time; and what callers promise, or are promised. No name here
 * is one of the C's. */

/* FIFO: who comes first to the mutex has it first; who is woken comes when it goes on. Else anyone has it. */
#ifdef FIFO
chan comers = [5] of { byte };
#define come_to_mutex comers!id
#define may_have_mutex (mutex == NOBODY && comers?[eval(id)])
#define have_mutex comers?eval(id); mutex = id
#else
#define come_to_mutex skip
#define may_have_mutex (mutex == NOBODY)
#define have_mutex mutex = id
#endif

inline lock() {
    come_to_mutex;
    may_have_mutex -> have_mutex;
    assert(!freed) /* the vector is there */
}

#define is_asleep(one) (line?[one] && (turn & (1 << one)))
#define is_first_asleep (is_asleep(0) || is_asleep(1) || is_asleep(2) || is_asleep(3))

/* Who is refused memory for a further seat, while others are lent, waits for these. */
#define was_refused (slot_seats > 0 && refusals < REFUSALS)
#define is_lendable (slot[0] == LENDABLE && wanted_back[0] == 0 || slot[1] == LENDABLE && wanted_back[1] == 0)
#ifndef BORROWERS
#define BORROWERS 0 /* the threads before this number borrow */
#endif
#define is_borrower_first (BORROWERS > 0 && line?[0] || BORROWERS > 1 && line?[1] || BORROWERS > 2 && line?[2])

inline unlock() {
    assert(mutex == id);
    assert(claimed || seats == SEATS || !is_first_asleep || was_refused);    /* who is first in line was called where there is a seat */
    assert(idle_slots == 0 || passing > 0 || claimed || !is_first_asleep);   /* who is first in line was called where one is idle */
    assert(!is_lendable || !is_first_asleep || !is_borrower_first);          /* who waits to borrow was called where a seat is lent on */
    assert(!(handed & away[0] && slot[0] == LENDABLE || handed & away[1] && slot[1] == LENDABLE)); /* who wants it back was called */
    mutex = NOBODY
}

#ifdef FIFO
#define come_again(condition) !(condition & MINE) -> come_to_mutex
#else
#define come_again(condition) skip
#endif

/* In an atomic, from which others go on, until this thread was woken and has the mutex again. */
inline wait(condition, is_timed) {
    condition = condition | MINE;
    deadlines = deadlines | ((is_timed) -> MINE : 0);
    unlock();
    come_again(condition);
    may_have_mutex && !(condition & MINE) -> have_mutex;
    assert(!freed); /* the vector is there when a wait ends */
    late = late || (expired & MINE);
    deadlines = deadlines & ~MINE;
    expired = expired & ~MINE
}

inline broadcast(condition) { condition = 0 }

/* One of them is woken, whichever. */
inline signal(condition) {
    if
    :: condition & 1 -> condition = condition & ~1
    :: condition & 2 -> condition = condition & ~2
    :: condition & 4 -> condition = condition & ~4
    :: condition & 8 -> condition = condition & ~8
    :: condition == 0
    fi
}

/* ---- waits that end by their deadlines, or for nothing */

#define all_waits (settled | returned | flushing | released | came | handed | turn)

inline end_wait(one) {
    settled = settled & ~one; returned = returned & ~one; flushing = flushing & ~one; released = released & ~one; came = came & ~one;
    handed = handed & ~one; turn = turn & ~one
}

/* The waits whose deadlines may pass. Where a flusher would find nothing to commit it changes nothing, and rests on. */
#define may_expire (deadlines & (settled | returned | turn | (durable < begun || broken -> flushing : 0)))

#define CHANCES(one) \
    :: atomic { may_expire & one -> expired = expired | one; end_wait(one) } \
    :: atomic { spurious > 0 && (all_waits & one) -> spurious--; end_wait(one) }

/* A process of its own: a choice of the thread that waits would be made before others go on. */
proctype chance() {
end:
    do
    CHANCES(1)
    CHANCES(2)
    CHANCES(4)
    CHANCES(8)
    od
}

/* A deadline may pass at any moment, and has passed from then on. */
inline let_pass() {
    if
    :: timed -> late = true
    :: true
    fi
}

/* ---- calls by no seat */

/* Its caller sees to it that the vector is there, and that no close has begun. */
inline begin_call() {
    come_to_mutex;
    if
    :: may_have_mutex && !closing && !freed -> have_mutex; calls++
    :: freed -> goto gone
    fi
}

inline end_call() {
    calls--;
    unlock()
}

/* The same of one that goes on without the mutex. */
inline begin_passing() {
    if
    :: !closing && !freed -> passing++
    :: freed -> goto gone
    fi
}

/* ---- what calls answered */

/* A wait, for the growth of this thread's number, or for that many behind it. */
inline check_answer(ahead) {
    assert(answer != DONE || number + 1 + ahead <= synced);            /* what a wait tells to be durable is */
    assert(answer != OUT_OF_RANGE || ahead > 0);                       /* a growth that was made is known */
    assert((answer != LATE || timed) && (answer != BROKEN || broken)); /* a wait is late or broken for a reason */
    answer = DONE
}

/* Ghost: who has the seat. */
inline note_owner() {
    assert(owner[seat] == NOBODY); /* no seat is lent to two */
    owner[seat] = id
}

/* Who was lent records reads them until then. */
inline stop_reading() { readers = readers & ~MINE }
