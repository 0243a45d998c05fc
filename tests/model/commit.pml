/* Threads that have seats grow, and wait until what they grew is durable: one commits for all who wait. */
#define GATHERS 1
#include "vector.pml"

byte first; /* ghost: threads have their numbers in the order in which they begin */
byte ended; /* ghost */

inline grow_next() {
    round++;
    if
    :: broken || round > ROUNDS -> goto gone
    :: else -> number = grown; grown++; total++
    fi;
    if
    :: timed = false
    :: timed = true
    fi
}

proctype thread(byte id) {
    LOCALS;
    byte round;
    atomic { first == id -> first++; seat = id; grow_next() };
    do
    :: cvec_seat_settle(0);
       atomic { grow_next() }
    od;
gone:
    atomic { answer = DONE; number = 0; seat = 0; round = 0; timed = false; ended++ }
}

init {
    byte id;
    atomic {
        run chance();
        for (id : 0 .. THREADS - 1) {
            run thread(id)
        }
    }
}

#ifdef FAIR
ltl all_return { <> (ended == THREADS) }
#endif
