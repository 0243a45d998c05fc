/* A process in which threads begin a vector, use it and close it, while others fork: its child, and that one's. Of bindings/c/src:
 * note_of_process and cvec_process, and what asks the latter. Process 0 is the first, 1 its child, 2 that one's child. An atomic is one
 * access to memory that other threads use, a section with the mutex, or a call of the system. What says `ghost` stands in no code. */

#ifndef BUG
#define BUG 0 /* the number of the planted bug: run.sh lists them */
#endif

/* The memory of each process. A fork copies it; in the child the system wipes what the notes hold. */
byte note[3];   /* noted_process: 0, or which note it is: two threads may make one each */
byte noted[6];  /* what each note holds */
byte last[3];   /* last_process */
byte number[3]; /* vector->process, or 0: no vector was begun yet */
bool mutex[3];  /* a thread has the vector's mutex. In a copy nobody gives it back */

/* The file, which all of them have open by one description. */
bool locked;

byte ended; /* ghost */

#define HELD_BY_NOTE noted[2 * (p) + mine - 1]

/* Leaves in `mine` which note it is; `own` is the one that this thread would make. */
inline note_of_process(p, own) {
    atomic { mine = note[p] };
    if
    :: mine == 0 ->
        atomic {
#if BUG == 71
            mine = own;
            note[p] = mine
#else
            mine = (note[p] == 0 -> own : note[p]);
            note[p] = mine
#endif
        }
    :: else
    fi
}

/* Leaves the process's number in `process`. */
inline cvec_process(p, own) {
    note_of_process(p, own);
    atomic { process = HELD_BY_NOTE };
    if
    :: process == 0 ->
#if BUG == 42
        atomic { fresh = last[p] + 1 };
#else
        atomic { last[p]++; fresh = last[p] };
#endif
        atomic {
            process = (HELD_BY_NOTE == 0 -> fresh : HELD_BY_NOTE);
            HELD_BY_NOTE = process
        };
#if BUG == 42
        atomic { last[p] = fresh };
#endif
        fresh = 0
    :: else
    fi;
    mine = 0
}

inline leave() {
#if BUG == 44
    locked = false
#else
    skip /* its descriptor is closed: the description stays, with its lock, while the parent has it */
#endif
}

/* A thread of the first process: of two the first one begins the vector, and the last one closes it. */
proctype user(byte own) {
    byte mine, process, fresh;
    cvec_process(0, own);
    atomic {
        if
        :: number[0] == 0 -> number[0] = process; locked = true
        :: else
        fi
    };
    cvec_process(0, own);
    assert(process == number[0]); /* who has begun it isn't refused, nor another thread of its process */
    atomic { !mutex[0] -> mutex[0] = true };
    assert(locked); /* no child gives the lock up */
    mutex[0] = false;
    atomic {
        ended++;
        if
        :: ended == 2 -> locked = false
        :: else
        fi
    }
}

/* A thread of a child, which has a copy of the vector: a call, and the close. */
proctype heir(byte p) {
    byte mine, process, fresh;
    cvec_process(p, 1);
    if
    :: number[p] != 0 && BUG != 43 ->
        assert(process != number[p]); /* CVEC_FORKED */
        leave()
    :: number[p] != 0 && BUG == 43 -> /* a close that doesn't ask */
        atomic { !mutex[p] -> mutex[p] = true };
        leave()
    :: else /* there was no vector yet */
    fi;
    assert(process == noted[2 * p + note[p] - 1]) /* all threads of a process have one number */
}

/* A fork at any moment. The child forks too. */
proctype forker(byte p) {
    atomic {
        last[p + 1] = last[p];
        note[p + 1] = note[p];
        noted[2 * p + 2] = (BUG == 45 -> noted[2 * p] : 0);
        noted[2 * p + 3] = (BUG == 45 -> noted[2 * p + 1] : 0);
        number[p + 1] = number[p];
        mutex[p + 1] = mutex[p];
        run heir(p + 1);
        if
        :: p == 0 -> run forker(1)
        :: else
        fi
    }
}

init {
    atomic { run user(1); run user(2); run forker(0) }
}
