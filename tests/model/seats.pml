/* Threads that take seats, grow by them beyond the end of a phase, wait, and give them back; beside them threads that hold the vector,
 * calls of the whole vector, flushers, and a close. Each thread makes some calls and ends. With LENDS they are also lent what there is,
 * and blocks to be written; with PUSHES they push. */
#include "vector.pml"

#ifndef WORKERS
#define WORKERS 2
#endif
#ifndef HOLDERS
#define HOLDERS 0
#endif
#ifndef WHOLES
#define WHOLES 0
#endif
#ifndef FLUSHERS
#define FLUSHERS 0
#endif
#ifndef GROWTHS
#define GROWTHS 1
#endif
#ifndef TURNS
#define TURNS 1
#endif
#ifndef TIMED
#define TIMED 1 /* 0: no deadline passes */
#endif
#ifndef LOOPS
#define LOOPS 0 /* 1: calls of the whole vector are made in a loop, until each worker has ended */
#endif
#define THREADS (WORKERS + HOLDERS + WHOLES + FLUSHERS + 1)

byte ended; /* ghost */

inline choose_call() {
#ifdef LENDS
    if
    :: call = GROW
    :: call = PIECES
    :: !(blocks & MY_SEAT) -> call = BLOCK
    :: blocks & MY_SEAT -> call = PUBLISH
    :: blocks & MY_SEAT -> call = DROP
    fi
#else
#ifdef PUSHES
    if
    :: call = GROW
    :: !(pushes & MY_SEAT) -> call = PUSH
    fi
#else
    skip
#endif
#endif
}

/* Each call by the grower of a seat: cvec_seat_grow, _publish, _pieces, _block and _push. */
inline call_by_seat() {
    enter();
    if
    :: answer == DONE ->
        if
        :: call == GROW -> grow_counted()
#ifdef LENDS
        :: call == PUBLISH -> publish()
        :: call == PIECES -> lend_pieces()
        :: call == BLOCK -> lend_block()
#endif
#ifdef PUSHES
        :: call == PUSH -> put_behind()
#endif
        fi;
        leave_seat();
        when(BUG == 65 && call == PIECES, note_lent());
        assert(call != PUBLISH || answer != NOT_SO) /* a block is there until it is published or given up */
    :: else
    fi
}

inline work() {
    do
    :: grows < GROWTHS ->
        grows++;
        choose_call();
        if
        :: call == DROP -> cvec_seat_drop()
        :: else -> call_by_seat()
        fi;
#ifndef LENDS
        if
        :: answer == DONE && call == GROW ->
#ifdef AHEAD
            if
            :: ahead = 1
            :: true
            fi;
#endif
            cvec_seat_settle(ahead);
            ahead = 0
        :: true
        fi
#endif
    :: grows == GROWTHS -> break
    od
}

proctype worker(byte id) {
    LOCALS;
    byte turns, grows, ahead;
    do
    :: turns < TURNS ->
        turns++;
        if
        :: cvec_seat_take()
#ifndef NO_LINE
        :: atomic {
               if
               :: timed = TIMED
               :: true
               fi
           };
           cvec_seat_take_within();
           timed = false
#endif
        fi;
        if
        :: answer == DONE ->
            work();
            atomic { grows = 0; call = GROW; stop_reading() };
            cvec_seat_close()
        :: else
        fi;
        atomic { answer = DONE; call = GROW; seat = 0; number = 0 }
    :: turns == TURNS -> break
    od;
gone:
    atomic { answer = DONE; turns = 0; ended++ }
}

#if HOLDERS > 0
/* One that holds the vector, is lent what there is, and reads it until it releases the vector. */
proctype holder(byte id) {
    LOCALS;
    byte turns;
    do
    :: turns < TURNS ->
        turns++;
        cvec_vector_hold();
        cvec_seat_take();
        if
        :: answer == DONE ->
            enter();
            when(answer == DONE, lend_pieces(); leave_seat());
            cvec_seat_close()
        :: else
        fi;
        atomic { stop_reading(); answer = DONE; seat = 0 };
        cvec_vector_release();
        assert(answer == DONE); /* who holds the vector may release it */
#ifdef RELEASES
        cvec_vector_release() /* once more: nobody holds it */
#endif
    :: turns == TURNS -> break
    od;
gone:
    atomic { answer = DONE; turns = 0; ended++ }
}
#endif

#if WHOLES > 0
/* One that calls what has the whole vector. */
proctype whole(byte id) {
    LOCALS;
    byte turns;
    do
    :: (LOOPS -> ended < WORKERS : turns < TURNS) ->
        turns = turns + !LOOPS;
#ifdef COMPACTS
        cvec_vector_compact()
#else
        cvec_vector_change()
#endif
        ;
        assert(answer != IS_BUSY || HOLDERS > 0) /* it is refused only while somebody holds the vector */
    :: else -> break
    od;
gone:
    atomic { answer = DONE; turns = 0; ended++ }
}
#endif

#if FLUSHERS > 0
proctype flusher(byte id) {
    LOCALS;
    if
    :: timed = TIMED
    :: timed = false /* the time of its rests never passes */
    fi;
    cvec_vector_run_flusher();
gone:
    atomic { answer = DONE; timed = false; ended++ }
}
#endif

/* One that tries to close the vector until it is closed. */
proctype closer(byte id) {
    LOCALS;
    !LOOPS || ended == THREADS - 1;
    do
    :: freed -> break
    :: else -> cvec_vector_close(); freed || (seats == 0 && holds == 0 && asking == 0) /* before, it is as busy again */
    od;
    ended++
}

init {
    byte id;
    atomic {
        run chance();
        for (id : 0 .. THREADS - 1) {
            if
            :: id < WORKERS -> run worker(id)
#if HOLDERS > 0
            :: id >= WORKERS && id < WORKERS + HOLDERS -> run holder(id)
#endif
#if WHOLES > 0
            :: id >= WORKERS + HOLDERS && id < WORKERS + HOLDERS + WHOLES -> run whole(id)
#endif
#if FLUSHERS > 0
            :: id >= WORKERS + HOLDERS + WHOLES && id < THREADS - 1 -> run flusher(id)
#endif
            :: id == THREADS - 1 -> run closer(id)
            fi
        };
        id = 0
    }
}

#ifdef FAIR
ltl all_return { <> (ended == THREADS) }
#endif
