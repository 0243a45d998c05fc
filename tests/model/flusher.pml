/* Threads that have seats grow, wait with deadlines or don't wait at all, and give them back; beside them flushers commit, again and
 * again or once (ONCE), and a further thread stops these, or not, and closes the vector. */
#define SEATS GROWERS
#include "vector.pml"

#define THREADS (GROWERS + FLUSHERS + 1)

byte first; /* ghost: growers have their numbers in the order in which they begin */
byte ended; /* ghost */

/* What grow_counted does, of a seat that is inside, in a phase that isn't full. */
inline grow() {
    atomic {
        if
        :: broken -> answer = BROKEN
        :: else -> begun++; answer = DONE
        fi
    };
    atomic {
        if
        :: answer == DONE -> number = grown; grown++; total++
        :: answer == DONE && refusals > 0 -> refusals--; begun--; answer = MEMORY
        :: else
        fi
    }
}

proctype one_grower(byte id) {
    LOCALS;
    byte round;
    atomic { first == id -> first++; seat = id };
    do
    :: round < ROUNDS ->
        round++;
        grow();
        if
        :: answer == DONE ->
            if
            :: timed = true
            :: true
            fi;
            cvec_seat_settle(0)
        :: true
        fi;
        atomic { answer = DONE; timed = false; number = 0 }
    :: round == ROUNDS -> break
    od;
    cvec_seat_close();
    atomic { answer = DONE; number = 0; seat = 0; round = 0; ended++ }
}

proctype flusher(byte id) {
    LOCALS;
#ifdef ONCE
    cvec_vector_flush();
#else
    if
    :: timed = true
    :: timed = false /* the time of its rest never passes */
    fi;
    cvec_vector_run_flusher();
#endif
gone:
    atomic { answer = DONE; timed = false; ended++ }
}

proctype closer(byte id) {
    LOCALS;
    if
    :: cvec_vector_stop_flusher()
    :: true
    fi;
    do
    :: freed -> break
    :: else -> cvec_vector_close(); freed || (seats == 0 && asking == 0) /* before, it is as busy again */
    od;
gone:
    atomic { answer = DONE; ended++ }
}

init {
    byte id;
    atomic {
        run chance();
        for (id : 0 .. GROWERS - 1) {
            at[id] = LISTED; owner[id] = id; grower[id] = phases; seats++; free_seats--;
            run one_grower(id)
        };
        for (id : GROWERS .. THREADS - 2) {
            run flusher(id)
        };
        run closer(THREADS - 1);
        id = 0
    }
}

#ifdef FAIR
ltl all_return { <> (ended == THREADS) }
#endif
