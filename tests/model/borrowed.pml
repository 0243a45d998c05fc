/* Threads that borrow seats, grow and wait by them, and give them back; beside them threads that take seats of their own, calls of the
 * whole vector, threads that settle by no seat, a flusher of the library's own, and a close, or an end before it (ENDS). With PUSHES
 * who borrows pushes, and with NO_WORK it does nothing else. */
#include "vector.pml"

#ifndef OWNERS
#define OWNERS 0
#endif
#ifndef WHOLES
#define WHOLES 0
#endif
#ifndef SETTLERS
#define SETTLERS 0
#endif
#ifndef STARTS
#define STARTS 0 /* 1: a flusher of the library's own is started */
#endif
#ifndef TURNS
#define TURNS 1
#endif
#ifndef TIMED
#define TIMED 1 /* 0: no deadline passes */
#endif
#ifndef LOOPS
#define LOOPS 0 /* 1: each that borrows but the first does nothing else, in a loop, until the first has ended */
#endif
#define THREADS (BORROWERS + OWNERS + WHOLES + SETTLERS + STARTS + 1)

byte ended; /* ghost */

inline choose_deadline() {
    if
    :: timed = TIMED
    :: timed = false
    fi
}

/* What a thread does by its seat. */
inline work() {
#ifdef PUSHES
    if
    :: enter(); when(answer == DONE, put_behind(); leave_seat())
    :: true
    fi;
#endif
    cvec_seat_grow();
    if
    :: answer == DONE -> atomic { choose_deadline() }; cvec_seat_settle(0)
    :: true
    fi;
    atomic { answer = DONE; timed = false; number = 0 }
}

#if BORROWERS > 0
proctype borrower(byte id) {
    LOCALS;
    byte turns;
    do
    :: (LOOPS && id > 0 -> ended == 0 : turns < TURNS) ->
        turns = turns + !(LOOPS && id > 0);
        atomic { choose_deadline() };
        cvec_seat_borrow();
        atomic { timed = false };
        if
        :: answer == DONE ->
#ifndef NO_WORK
            when(!LOOPS || id == 0, work());
#endif
            cvec_seat_return()
        :: else
        fi;
        atomic { answer = DONE; seat = 0; number = 0 }
    :: else -> break
    od;
gone:
    atomic { answer = DONE; timed = false; turns = 0; seat = 0; ended++ }
}
#endif

#if OWNERS > 0
/* One that waits for a seat of its own as long as it takes, or takes one that there is. */
proctype owns(byte id) {
    LOCALS;
    byte turns;
    do
    :: turns < TURNS ->
        turns++;
        if
        :: cvec_seat_take_within()
        :: cvec_seat_take()
        fi;
        if
        :: answer == DONE -> cvec_seat_grow(); cvec_seat_close()
        :: else
        fi;
        atomic { answer = DONE; seat = 0; number = 0 }
    :: turns == TURNS -> break
    od;
gone:
    atomic { answer = DONE; turns = 0; seat = 0; ended++ }
}
#endif

#if WHOLES > 0
proctype whole(byte id) {
    LOCALS;
    byte turns;
    do
    :: turns < TURNS ->
        turns++;
        cvec_vector_change();
        assert(answer != IS_BUSY) /* nobody holds the vector: no call of the whole vector is refused for that */
    :: turns == TURNS -> break
    od;
gone:
    atomic { answer = DONE; turns = 0; ended++ }
}
#endif

#if SETTLERS > 0
proctype settler(byte id) {
    LOCALS;
    byte turns;
    do
    :: turns < TURNS ->
        turns++;
        atomic { choose_deadline() };
        cvec_vector_settle();
        atomic { timed = false; number = 0 };
        cvec_vector_settled()
    :: turns == TURNS -> break
    od;
gone:
    atomic { answer = DONE; timed = false; number = 0; growths = 0; turns = 0; ended++ }
}
#endif

#if STARTS > 0
proctype flusher_of_library(byte id) {
    LOCALS;
    if
    :: threads > 0
    :: ended == THREADS - 1 -> goto gone /* it was never started */
    fi;
    atomic { timed = TIMED };
    run_own_flusher();
    atomic { threads-- };
gone:
    atomic { answer = DONE; timed = false; growths = 0; ended++ }
}
#endif

#ifdef ENDS
/* One that tries to end the vector until it is ended, or closed. */
proctype ender(byte id) {
    LOCALS;
    do
    :: over || freed -> break
    :: else -> cvec_vector_end(); over || freed || (seats == slot_seats && holds == 0) /* before, it is as busy again */
    od;
gone:
    atomic { answer = DONE; ended++ }
}
#endif

/* One that tries to close the vector until it is closed. */
proctype closer(byte id) {
    LOCALS;
#if STARTS > 0
    cvec_vector_start_flusher();
#endif
    !LOOPS || ended == THREADS - 1;
    do
    :: freed -> break
    :: else ->
        cvec_vector_close();
        freed || is_ended || (!over && seats == idle_slots && holds == 0 && asking == 0) /* before, it is as busy again */
    od;
gone:
    atomic { answer = DONE; ended++ }
}

init {
    byte id;
    atomic {
        run chance();
        for (id : 0 .. THREADS - 1) {
            if
#if BORROWERS > 0
            :: id < BORROWERS -> run borrower(id)
#endif
#if OWNERS > 0
            :: id >= BORROWERS && id < BORROWERS + OWNERS -> run owns(id)
#endif
#if WHOLES > 0
            :: id >= BORROWERS + OWNERS && id < BORROWERS + OWNERS + WHOLES -> run whole(id)
#endif
#if SETTLERS > 0
            :: id >= THREADS - 1 - STARTS - SETTLERS && id < THREADS - 1 - STARTS -> run settler(id)
#endif
#if STARTS > 0
            :: id == THREADS - 2 -> run flusher_of_library(id)
#endif
            :: id == THREADS - 1 -> run closer(id)
            fi
        };
#ifdef ENDS
        run ender(THREADS);
#endif
        id = 0
    }
}

#ifdef FAIR
ltl all_return { <> (ended == THREADS) }
#endif
