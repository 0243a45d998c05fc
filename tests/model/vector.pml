/* What the C for threads (bindings/c/src: vector.c, whole.c, seats.c, growing.c, settling.c) does with its mutex, its conditions and its
 * atomics, function by function and in its order: an inline has the name of its function. An atomic is a section that has the mutex, or
 * one call of the library or of the file, or one exchange of a slot; where it waits, others go on. README.md tells what is left out.
 *
 * A process that uses these has the locals LOCALS, a label `gone`, and a number `id`, from 0 on. What is `ghost` stands in no code:
 * assertions ask for it. Each assertion stands in one line with what it says. */

#ifndef BUG
#define BUG 0 /* the number of the planted bug: run.sh lists them */
#endif

/* How often, in one run, a wait ends for nothing, memory is refused, and a call of the file fails: at most. */
#ifndef SPURIOUS
#define SPURIOUS 1
#endif
#ifndef REFUSALS
#define REFUSALS 0
#endif
#ifndef FAILURES
#define FAILURES 0
#endif
byte spurious = SPURIOUS, refusals = REFUSALS, failures = FAILURES;

/* How often who is first in line looks for a seat by itself, at most; 255: as often as it likes. With 0 it has to be called. */
#ifndef LOOKS
#define LOOKS 0
#endif
byte looks = LOOKS;

/* The seats of the vector, and the growths of a phase. */
#ifndef SEATS
#define SEATS 1
#endif
#ifndef LIMIT
#define LIMIT 100
#endif

/* 1: who commits waits for those that the last commit woke. That takes time alone, and 0 leaves it out. */
#ifndef GATHERS
#define GATHERS 0
#endif

mtype = { DONE, MEMORY, BROKEN, LATE, OUT_OF_RANGE, NOT_SO, IS_FULL, DISK_WRITE, DISK_SYNC, IS_BUSY };
mtype = { FREE, INSIDE, ASIDE };       /* what a seat's thread does */
mtype = { NONE, FRESH, LISTED, IDLE }; /* where a seat is: nowhere, being made, among `first`, among `idle` */
mtype = { OWN, LENT, LENDABLE };       /* in which slot: in none; or, with IDLE too, the state of its slot */
mtype = { GROW, PUBLISH, PIECES, BLOCK, DROP, PUSH }; /* calls by a seat */

#define NOBODY 255
#define MINE (1 << id)
#define NO_PHASE 0
#define LOCALS mtype answer = DONE, call = GROW; byte growths, seat, number, phase, own, wanted, had; bool late, timed, was, lends
#define when(condition, then) if :: condition -> then :: else fi

/* ---- struct cvec_vector */

byte mutex = NOBODY;                        /* who has it */
byte settled, returned, flushing, released, came, handed; /* conditions: the threads that wait for it, and whom nobody has woken */
byte turn;                                  /* the same of those in line, though each has a condition of its own */
byte deadlines, expired;                    /* of these waits some have deadlines, and some of these have passed */
byte durable, committed, begun, base;       /* growths since the vector was begun; `begun` is all_begun() */
byte phases = 1;
bool unseated, alone, committing, is_stopped, claimed, shut_out, lent, broken;
byte seats, holds, flushers, asking, paused, owed, waiting, woken;
bool over, is_ended, yields, owes_first, called;
byte overdue;                               /* the threads in line that have waited long */
chan line = [4] of { byte };                /* `queued` is its length */

/* of each seat */
mtype at[3] = NONE, busy[3] = FREE;
byte blocks, pushes; /* the seats that have a block, and those that have records which were pushed and wait */
#define is_waiting (pushes & MY_SEAT)
#define keeps_something ((pushes | blocks) & MY_SEAT)
mtype slot[3] = OWN; /* here a slot has the number of its seat */
byte away[3];        /* the threads that have lent it on */
byte wanted_back[3]; /* so many of these wait for it */
byte taken_slots;    /* the slots that who ends the vector has: `ended` */
#define slot_seats ((slot[0] != OWN) + (slot[1] != OWN))
#define idle_slots ((slot[0] == IDLE) + (slot[1] == IDLE))
#ifdef SETTLES
byte grown_by[3], all_known; /* behind so many growths the last one stands that returned by it; by those that are closed */
#endif

#define MY_SEAT (1 << seat)

/* ghost */
bool closing;            /* a close is under way: no call begins */
bool freed;              /* the vector is gone */
byte calls;              /* so many calls by no seat are under way */
byte passing;            /* so many without the mutex: no close may begin beside them */
byte threads;            /* so many of the library's own are there */
byte returned_growths;   /* behind so many the last growth stands whose call has returned */
byte kept;               /* the seats that were pushed what isn't grown */
byte total;              /* so many growths were made */
bool has_all;            /* a call has all handles */
byte owner[3] = NOBODY;  /* who has the seat */
byte caller[3] = NOBODY; /* who is in a call by it */
byte readers;            /* the threads that read what they were lent */
byte holding;            /* those that hold the vector */
bool is_lent;            /* of this phase something was lent, or is about to be */

/* ---- libcvec_threads.a */

bool has_phase = true, has_vault; /* whether there is a phase, and whether who commits has a vault */
byte free_seats = SEATS;          /* so many seats of the phase were given to nobody */
byte grower[3];                   /* of which phase it is, or 0 */
byte grown, taken, told;          /* growths of this phase: by its seats, planned, told to the seats by the mark */
bool is_listed;                   /* calls of a vault are listed */
bool in_commit;                   /* ghost: a thread is between a plan and its end */

inline cvec_phase_seat() {
    if
    :: has_phase && free_seats > 0 -> free_seats--; grower[seat] = phases; answer = DONE
    :: has_phase && free_seats > 0 && refusals > 0 -> refusals--; free_seats--; answer = MEMORY
    :: !has_phase || free_seats == 0 -> answer = NOT_SO
    fi
}

inline cvec_phase_size() {
    assert(caller[seat] == id);                /* one call at a time has a seat */
    assert(grower[seat] == phases && !has_all) /* a seat's grower is open, and nobody has all handles */
}

inline phase_grow() {
    cvec_phase_size();
    if
    :: grown < LIMIT -> number = grown; grown++; total++; answer = DONE
    :: grown == LIMIT -> answer = IS_FULL
    :: refusals > 0 -> refusals--; answer = MEMORY
    fi;
    assert(base + grown == total) /* numbers count on */
}

/* Who calls reads what it is lent, from then on. */
#define lend is_lent = true; readers = readers | MINE

inline cvec_phase_publish() {
    phase_grow();
    when(answer == DONE, blocks = blocks & ~MY_SEAT; lend)
}

inline cvec_phase_pieces() {
    cvec_phase_size();
    lend;
    answer = DONE
}

inline cvec_phase_block() {
    cvec_phase_size();
    if
    :: blocks = blocks | MY_SEAT; answer = DONE
    :: refusals > 0 -> refusals--; answer = MEMORY
    fi
}

/* One payload may hold no more than one of the growths. */
inline cvec_phase_plan() {
    assert(!in_commit && !has_vault && !freed); /* one thread at a time commits, by a committer */
    in_commit = true;
    answer = DONE;
    if
    :: growths = grown - taken
    :: taken + 1 < grown -> growths = 1
    :: refusals > 0 -> refusals--; answer = MEMORY
    fi;
    when(answer == DONE, taken = taken + growths)
}

inline cvec_phase_settle() {
    told = taken;
    is_listed = false;
    assert(base + told <= synced && changed) /* what the mark tells is durable */
}

inline cvec_phase_gather() {
    assert(!has_phase && grower[0] == 0 && grower[1] == 0); /* each other handle is closed */
    assert(told == grown);                                  /* each growth is committed */
    if
    :: has_vault = true
    :: refusals > 0 -> refusals--; answer = MEMORY
    fi
}

/* Refused memory, it may lose the vault. */
inline cvec_phase_share() {
    assert(has_vault); /* there is a vault to share */
    if
    :: has_vault = false; has_phase = true; free_seats = SEATS; grown = 0; taken = 0; told = 0
    :: refusals > 0 -> refusals--; answer = MEMORY
    :: refusals > 0 -> refusals--; answer = MEMORY; has_vault = false
    fi
}

/* ---- the file: growths since the vector was begun of which it has the bytes, and has them durably */

byte written, synced;
bool failed;         /* ghost: a call has failed */
bool changed = true; /* ghost: what a vault has written is durable */
bool locked = true;  /* flock */

inline cvec_system_write_at() {
    atomic {
        assert(locked && !freed); /* the file is locked while it is written */
        assert(!failed);          /* no write follows a call that failed */
        if
        :: written = base + taken
        :: failures > 0 -> failures--; failed = true; answer = DISK_WRITE
        fi
    }
}

/* Behind one that failed a further sync may seem to succeed, and yet what was written before be lost. */
inline cvec_system_sync() {
    atomic {
        assert(locked && !freed); /* the file is locked while it is synced */
        if
        :: !failed -> synced = written; changed = true
        :: failed
        :: failures > 0 -> failures--; failed = true; answer = DISK_SYNC
        fi
    }
}

#include "system.pml"

/* ---- commits */

#define are_listed (taken > told || is_listed)

inline make_calls() {
    when(answer == DONE && are_listed, cvec_system_write_at());
    when(answer == DONE && are_listed, cvec_system_sync())
}

#define settle when(answer == DONE, cvec_phase_settle(); committed = base + told)

inline cvec_commit() {
    atomic { cvec_phase_plan() };
#if BUG == 1
    atomic { settle };
    make_calls();
    in_commit = false
#else
    make_calls();
    atomic { settle; in_commit = false }
#endif
}

#if BUG == 2
#define is_lasting (answer != DONE && answer != MEMORY && answer != DISK_SYNC)
#else
#define is_lasting (answer != DONE && answer != MEMORY)
#endif

inline cvec_come() {
    if
    :: woken == 1 -> woken = 0; signal(returned)
    :: woken > 1 -> woken--
    :: woken == 0
    fi
}

/* For 100 microseconds at most. */
inline await_woken() {
    late = false;
    do
    :: woken > 0 && !late -> wait(returned, BUG != 3)
    :: else -> break
    od;
    late = false;
    woken = 0
}

inline end_commit() {
    assert(!failed || broken); /* who is woken behind a call that failed finds the vector broken */
    committing = false;
    durable = committed;
    woken = waiting;
    waiting = 0;
#if BUG == 4
    signal(settled)
#else
    broadcast(settled)
#endif
}

inline cvec_lead() {
    atomic {
        committing = (BUG != 5);
        if
        :: woken > 0 -> await_woken()
        :: true /* nobody was woken, or the last group was large */
        fi;
        committing = true;
#if BUG == 6
        end_commit();
#endif
        unlock()
    };
    cvec_commit();
#if BUG == 7
    atomic { lock(); end_commit(); unlock() };
    atomic { lock(); broken = broken || is_lasting }
#else
    atomic {
        lock();
        broken = broken || is_lasting;
#if BUG == 8
        if
        :: answer == DONE -> end_commit()
        :: else -> committing = false
        fi
#else
        end_commit()
#endif
    }
#endif
}

/* ---- having all handles */

#define is_inside(s) (at[s] == LISTED && busy[s] == INSIDE)
#define is_somebody_inside (is_inside(0) || is_inside(1))

inline shut() { shut_out = claimed || unseated }

inline claim() {
    asking = asking + (BUG != 15);
    claimed = true;
#if BUG != 16
    shut()
#endif
}

/* While somebody is inside it looks again and again, which changes nothing: here it looks again when nobody is. */
inline take_all() {
    atomic {
        do
        :: committing && BUG != 17 -> wait(settled, false)
        :: else -> break
        od;
        committing = true
    };
    do
    :: atomic { is_somebody_inside -> unlock(); mutex == NOBODY && !is_somebody_inside -> mutex = id }
    :: atomic { else -> break }
    od;
#if BUG == 16
    shut();
#endif
    atomic { unlock(); has_all = true }
}

inline cvec_call_first() {
    if
    :: line?[0] -> called = true; turn = turn & ~1
    :: line?[1] -> called = true; turn = turn & ~2
    :: line?[2] -> called = true; turn = turn & ~4
    :: line?[3] -> called = true; turn = turn & ~8
    :: empty(line)
    fi
}

inline let_others_in() {
    asking = asking - (BUG != 15);
    claimed = false;
    owes_first = (BUG != 74 && len(line) > 0);
    owed = (BUG == 75 -> 0 : paused + owes_first);
    shut();
#if BUG == 18
    signal(released);
#else
    broadcast(released);
#endif
#if BUG != 19
    cvec_call_first()
#endif
}

inline give_all_back() {
    atomic {
        lock();
        has_all = false;
        end_commit();
        let_others_in()
    }
}

inline cvec_come_in_turn() {
    if
    :: owed == 1 -> owed = 0; broadcast(came)
    :: owed > 1 -> owed--
    :: owed == 0
    fi
}

inline cvec_await_release() {
    if
    :: claimed ->
        paused++;
        do
        :: claimed ->
            wait(released, false);
#if BUG == 31
            break
#endif
        :: else -> break
        od;
        paused--;
        when(BUG != 76, cvec_come_in_turn())
    :: else
    fi
}

inline cvec_await_pause() {
    asking = asking + (BUG != 57);
    cvec_await_release();
#if BUG == 58
    do
    :: holds > 0 -> wait(released, false)
    :: else -> break
    od;
#endif
    asking = asking - (BUG != 57)
}

#define tell broken = broken || answer == BROKEN || answer == DISK_WRITE || answer == DISK_SYNC

inline cvec_settle_listed() {
    atomic {
        assert(!in_commit); /* one thread at a time commits, by a vault */
        in_commit = true
    };
    make_calls();
    atomic {
        when(answer == DONE, cvec_phase_settle());
        in_commit = false;
        tell
    }
}

/* drop_idle, and the growers of seats that aren't closed. */
#define UNSEAT_ONE(s) \
    if \
    :: at[s] == IDLE && BUG != 20 -> at[s] = NONE; grower[s] = 0 \
    :: at[s] == LISTED -> grower[s] = 0 \
    :: else \
    fi

inline unseat() {
    UNSEAT_ONE(0);
    UNSEAT_ONE(1);
#if BUG == 73
    pushes = 0;
#endif
    has_phase = false;
    unseated = seats > 0;
#if BUG != 52
    lent = false;
#endif
    is_lent = false;
    assert(readers == 0) /* what is lent stays while it may be read */
}

inline gather() {
    growths = 1;
    do
    :: answer == DONE && growths > 0 -> cvec_commit()
    :: else -> break
    od;
    atomic {
        growths = 0;
        when(answer == DONE, unseat(); cvec_phase_gather(); alone = (answer == DONE));
        tell
    }
}

inline share() {
    atomic {
        cvec_phase_share();
        if
        :: answer == DONE -> alone = false; base = committed; phases++
        :: else -> broken = broken || (!has_vault && BUG != 72)
        fi
    }
}

#define SEAT_ONE(s) when(answer == DONE && at[s] == LISTED, seat = s; cvec_phase_seat())

inline seat_all() {
    atomic {
        own = seat;
        SEAT_ONE(0);
        SEAT_ONE(1);
        seat = own;
        own = 0;
        if
        :: answer == DONE || BUG == 21 -> unseated = false
        :: else -> unseat()
        fi
    }
}

inline end_phase() {
    if
    :: atomic { broken && BUG != 22 -> answer = BROKEN }
    :: atomic { (!broken || BUG == 22) && alone -> answer = DONE }
    :: atomic { (!broken || BUG == 22) && !alone && lent && BUG != 50 -> answer = IS_FULL }
    :: atomic { (!broken || BUG == 22) && !alone && (!lent || BUG == 50) -> answer = DONE }; gather()
    fi
}

inline cvec_renew() {
    if
    :: atomic {
           lent && BUG != 51 ->
           assert(is_lent); /* a phase is full where something of it is lent */
           answer = IS_FULL
       }
    :: atomic { else -> answer = DONE; claim() };
       take_all();
       end_phase();
       when(answer == DONE, share());
       when(answer == DONE, seat_all());
       give_all_back()
    fi
}

#if BUG == 53
#define is_held false
#else
#define is_held (holds > 0)
#endif

inline await_handles() {
    asking = asking + (BUG != 23);
    do
    :: !is_held && claimed -> wait(released, false)
    :: !is_held && !claimed && owed > 0 && BUG != 77 -> wait(came, false)
    :: BUG == 54 && holds > 0 -> wait(released, false)
    :: else -> break
    od;
    asking = asking - (BUG != 23)
}

inline await_committer() {
    yields = true;
    do
    :: committing && !is_held && BUG != 24 -> wait(settled, false)
    :: else -> break
    od;
    yields = false
}

inline leave_alone() {
    assert(holds == 0); /* a call of the whole vector has it alone */
    give_all_back();
    atomic { end_call() }
}

#define refusal (over -> NOT_SO : ((BUG == 49 -> was : is_held) -> IS_BUSY : ((BUG == 25 -> was : broken) -> BROKEN : DONE)))

inline claim_all() {
    atomic {
        was = (BUG == 25 && broken) || (BUG == 49 && is_held);
        await_handles();
        answer = refusal;
        when(answer == DONE,
            claim();
            await_committer();
            answer = refusal;
            when(answer != DONE, let_others_in()));
        was = false
    };
    when(answer == DONE, take_all(); readers = readers & holding) /* others may read no more what they were lent */
}

inline enter_alone() {
    atomic { begin_call() };
    claim_all();
    if
    :: answer == DONE ->
        when(!alone, gather());
        when(answer != DONE, leave_alone())
    :: else -> atomic { end_call() }
    fi
}

inline settle_alone() {
    if
    :: answer == DONE -> cvec_settle_listed()
    :: else -> tell
    fi;
    leave_alone()
}

/* One that is refused may leave calls listed, as a fold does. */
inline vault_change() {
    assert(has_all && has_vault && !in_commit); /* who writes by a vault has all handles */
    if
    :: is_listed = true; changed = false
    :: refusals > 0 -> refusals--; answer = MEMORY
    :: refusals > 0 -> refusals--; answer = MEMORY; is_listed = true; changed = false
    fi
}

/* So is each call of the whole vector that writes. */
inline cvec_vector_change() {
    enter_alone();
    if
    :: answer == DONE -> atomic { vault_change() }; settle_alone()
    :: else
    fi
}

inline cvec_vector_compact() {
    enter_alone();
#if BUG == 55
    when(answer == DONE, atomic { lock(); has_all = false; let_others_in(); end_call() })
#else
    when(answer == DONE || BUG == 47, leave_alone())
#endif
}

/* ---- the vector */

/* Behind an end the mutex, the conditions and the slots are left. */
inline give_up_file() {
    atomic {
    assert(calls == 0 && empty(line) && asking == 0 && flushers == 0); /* nobody is inside a vector that is closed */
    assert(seats == 0 && holds == 0 && readers == 0);                  /* nobody uses a vector that is closed */
    assert(all_waits == 0);                                            /* nobody waits in a vector that is closed */
    assert(answer != DONE || (synced == total && changed && !failed)); /* a close that answers DONE lost nothing */
    locked = false
    }
}

inline give_up() {
    atomic {
        if
        :: was -> assert(calls == 0 && all_waits == 0 && flushers == 0) /* nobody is inside a vector that is given up */
        :: else -> give_up_file()
        fi;
        assert(mutex == NOBODY && passing == 0); /* nobody has the mutex of a vector that is given up */
        assert(threads == 0);                    /* a close leaves no thread of the library's */
        freed = true
    }
}

inline commit_rest() {
    growths = 1;
    do
    :: answer == DONE && growths > 0 -> cvec_lead()
    :: else -> break
    od
}

inline commit_all() {
    atomic { answer = (broken -> BROKEN : DONE) };
    if
    :: answer == DONE && alone -> cvec_settle_listed()
    :: answer == DONE && !alone -> commit_rest()
    :: else
    fi
}

#if BUG == 78
#define is_used (seats > 0 || holds > 0)
#else
#define is_used (seats > slot_seats || (holds > 0 && BUG != 56))
#endif

#define TAKE_ONE(s) when(slot[s] == IDLE, slot[s] = LENT; taken_slots = taken_slots | (1 << s))
#define GIVE_ONE(s) when(taken_slots & (1 << s), slot[s] = IDLE)
#define DROP_ONE(s) when(slot[s] != OWN, seat = s; empty_slot())
#define is_taken(s) (slot[s] == OWN || (taken_slots & (1 << s)))
#define has_slots (is_taken(0) && is_taken(1))

inline cvec_take_slots() {
    TAKE_ONE(0);
    TAKE_ONE(1)
}

inline cvec_give_slots_back() {
    GIVE_ONE(0);
    GIVE_ONE(1);
    taken_slots = 0
}

inline cvec_drop_slots() {
    DROP_ONE(0);
    DROP_ONE(1);
    seat = 0
}

inline cvec_end_flushers() {
    is_stopped = true;
    broadcast(flushing);
    do
    :: flushers > 0 ->
        wait(flushing, false);
#if BUG == 26
        break
#endif
    :: else -> break
    od
}

inline cvec_join_flushers() { threads == 0 || BUG == 79 }

inline is_idle() {
    answer = (is_used || asking > 0 -> IS_BUSY : DONE);
    when(answer == DONE,
        cvec_take_slots();
        when(!has_slots && BUG != 80, answer = IS_BUSY));
    when(answer == IS_BUSY, cvec_give_slots_back());
    assert(answer == DONE || seats > idle_slots || holds > 0 || asking > 0) /* a borrowed seat that is idle holds up no close */
}

inline finish() {
    atomic {
        when(BUG != 27, cvec_end_flushers());
        cvec_drop_slots();
        locked = (BUG != 28)
    };
    when(BUG != 29, commit_all());
    atomic { when(BUG == 27, cvec_end_flushers()) }
}

/* Its caller sees to it that no call is under way but those that its answer counts: none that takes no mutex. */
inline cvec_vector_close() {
    atomic {
        mutex == NOBODY && passing == 0 -> mutex = id;
        assert(!freed); /* the vector is there */
        closing = true;
        was = (is_ended || (BUG == 107 && over));
        answer = DONE;
        when(!was && over, answer = IS_BUSY);
        when(!was && !over, is_idle());
        when(answer == IS_BUSY, closing = false; unlock(); goto is_busy)
    };
    when(!was, finish());
    atomic { unlock() };
    cvec_join_flushers();
    give_up();
is_busy:
    atomic { answer = DONE; growths = 0; was = false }
}

/* While it has to wait it looks again and again, and calls who is first in line: here it looks again when there is something to be
 * done. */
#define is_left(s) (is_taken(s) || slot[s] == IDLE)
#define is_all_left (asking == 0 && !is_used && is_left(0) && is_left(1))

inline await_calls() {
    over = true;
    do
    :: cvec_take_slots();
       when(asking == 0 && !is_used && (has_slots || BUG == 102), break);
       when(BUG != 81, cvec_call_first());
       unlock();
       mutex == NOBODY && (is_all_left || (is_first_asleep && BUG != 81)) -> mutex = id
    od
}

/* As each call it begins before a close does. */
inline cvec_vector_end() {
    atomic {
        begin_call();
        calls--;
        answer = (over -> NOT_SO : (is_used -> IS_BUSY : DONE));
        when(answer == DONE, await_calls())
    };
    when(answer == DONE, finish(); give_up_file());
    atomic {
        when(answer != NOT_SO && answer != IS_BUSY, is_ended = true);
        unlock();
        growths = 0
    }
}

/* ---- seats */

inline list_seat() {
    assert(owner[seat] == NOBODY && seats < SEATS); /* no seat is given twice */
    assert(!has_all);                               /* nobody walks through the seats that are listed meanwhile */
    owner[seat] = id;
    at[seat] = LISTED;
    seats++
}

#ifdef SETTLES
#define count_known when(all_known < grown_by[seat], all_known = grown_by[seat])
#define note_fresh grown_by[seat] = 0
#else
#define count_known skip
#define note_fresh skip
#endif

inline cvec_drop_seat() {
    assert(!has_all); /* nobody walks through the seats that are dropped meanwhile */
    owner[seat] = NOBODY;
    caller[seat] = NOBODY;
    pushes = pushes & ~MY_SEAT;
    kept = kept & ~MY_SEAT;
    when(BUG != 82, count_known);
    seats--;
    busy[seat] = FREE; /* its next call finds it so */
    at[seat] = (unseated -> NONE : IDLE);
#if BUG != 30
    cvec_call_first()
#endif
}

/* The new one has the first place in memory that is free. */
inline fresh_seat() {
    atomic {
        seat = (at[0] == NONE -> 0 : 1);
        assert(at[seat] == NONE); /* no more seats are given than there are */
        at[seat] = FRESH;
        note_fresh;
        cvec_phase_seat()
    };
    when(answer == NOT_SO, cvec_renew());
    atomic {
        when(answer == DONE && grower[seat] == 0, cvec_phase_seat());
        when(answer != DONE, at[seat] = NONE)
    }
}

inline seat_of() {
    if
    :: atomic { at[0] == IDLE -> seat = 0; answer = DONE }
    :: atomic { at[0] != IDLE && at[1] == IDLE -> seat = 1; answer = DONE }
    :: else -> fresh_seat()
    fi;
    atomic {
        when(answer == DONE, list_seat());
#if BUG != 32
        cvec_call_first()
#endif
    }
}

/* ---- slots: seats that any thread may borrow */

/* Each is tried, from whichever on. DONE: it has that seat; LATE: none was idle. */
#if BUG == 83
#define TRY_SLOT(s) if :: answer == LATE && slot[s] == IDLE -> atomic { slot[s] = LENT; seat = s; note_owner(); answer = DONE } :: else fi
#else
#define TRY_SLOT(s) if :: atomic { answer == LATE && slot[s] == IDLE -> slot[s] = LENT; seat = s; note_owner(); answer = DONE } :: else fi
#endif

inline idle_slot() {
#if SEATS == 1
    TRY_SLOT(0)
#else
    if
    :: true -> TRY_SLOT(0); TRY_SLOT(1)
    :: true -> TRY_SLOT(1); TRY_SLOT(0)
    fi
#endif
}

#define LENDABLE_ONE(s) when(answer == LATE && slot[s] == LENDABLE && (wanted_back[s] == 0 || BUG == 106), slot[s] = LENT; seat = s; note_owner(); answer = DONE)

inline lendable_slot() {
    LENDABLE_ONE(0);
    LENDABLE_ONE(1);
    assert(answer != DONE || wanted_back[seat] == 0) /* who wants a seat back has it before who comes */
}

inline put_in_slot() { slot[seat] = LENT }

inline empty_slot() {
    slot[seat] = OWN;
    taken_slots = taken_slots & ~MY_SEAT;
    cvec_drop_seat()
}

/* ---- the line */

#if BUG == 104
#define is_one_spare (seats + len(line) < SEATS)
#else
#define is_one_spare (seats + len(line) < SEATS + idle_slots)
#endif

inline begin_line() {
    line!id;
    asking++
}

/* Who was called has come. */
inline is_first() {
    if
    :: line?[eval(id)] ->
        called = (BUG == 88 && called);
        when(owes_first, cvec_come_in_turn());
        owes_first = false
    :: else
    fi
}

inline end_line() {
    is_first();
    line??eval(id);
    overdue = overdue & ~MINE;
    asking--
}

/* ---- who has a seat next. LATE: there is none */

inline find_own() {
    atomic { answer = ((claimed && BUG != 48) || seats == SEATS -> LATE : DONE) };
    if
    :: answer == LATE && !claimed && BUG != 84 -> idle_slot(); atomic { when(answer == DONE, empty_slot()) }
    :: else
    fi;
    when(answer == DONE, seat_of())
}

inline idle_since() {
    atomic { called = false };
#if BUG != 109
    idle_slot()
#endif
}

inline find_borrowed() {
    atomic { answer = LATE };
    idle_slot();
    if
    :: atomic { answer == LATE && !claimed && seats < SEATS -> answer = DONE };
       seat_of();
       if
       :: atomic { answer == DONE -> put_in_slot() }
       :: atomic { answer != DONE && slot_seats > 0 -> answer = LATE }; idle_since()
       :: atomic { answer != DONE && slot_seats == 0 }
       fi
    :: else
    fi;
    atomic { when(answer == LATE && BUG != 85, lendable_slot()) }
}

/* A millisecond may have passed since it came; where the first one looks as often as it likes, it has. */
inline lose_patience() {
    if
    :: LOOKS > 0 && BUG != 108 -> overdue = overdue | MINE
    :: LOOKS < 255 || BUG == 108
    fi
}

/* The first one looks besides each millisecond. */
inline await_call() {
    was = (line?[eval(id)] && slot_seats > 0);
    when(was, lose_patience());
    was = (was && looks > 0);
    wait(turn, timed || was);
    when(was && late, late = false; looks = looks - (LOOKS < 255); when(BUG == 108, overdue = overdue | MINE));
    was = false
}

inline find_seat(borrows) {
    if
    :: borrows -> find_borrowed()
    :: !borrows -> find_own()
    fi
}

inline await_turn(borrows) {
    atomic { begin_line(); late = false };
    do
    :: atomic {
           when(over && BUG != 86, answer = NOT_SO);
           was = (answer == LATE && line?[eval(id)]);
           when(was, is_first())
       };
       if
       :: was -> was = false; find_seat(borrows)
       :: else
       fi;
       atomic {
           when(answer != LATE, break);
           let_pass();
           when(late, break);
           await_call();
           when(BUG == 33, break)
       }
    od;
    atomic { end_line(); late = false }
}

/* ---- seats of callers' own */

inline cvec_seat_take() {
    atomic {
        begin_call();
        cvec_await_pause();
        answer = NOT_SO;
        was = (!over && is_one_spare);
        assert(was || over || seats - idle_slots + len(line) >= SEATS) /* a borrowed seat that is idle holds up no take */
    };
    if
    :: was -> was = false; find_own()
    :: else
    fi;
    atomic {
        when(answer == LATE, answer = NOT_SO);
        end_call()
    }
}

inline cvec_seat_take_within() {
    atomic {
        begin_call();
        answer = LATE;
        was = (!over && is_one_spare)
    };
    if
    :: was -> was = false; find_own()
    :: else
    fi;
    if
    :: answer == LATE -> await_turn(false)
    :: else
    fi;
    atomic {
        assert(answer != LATE || timed); /* who waits for a seat is late for a reason */
        when(BUG != 34, cvec_call_first());
        end_call()
    }
}

/* ---- seats that are borrowed */

inline borrow_in_turn() {
    atomic { lock(); passing--; calls++; answer = LATE; was = (!over && empty(line)) };
    if
    :: was -> was = false; find_borrowed()
    :: else
    fi;
    if
    :: answer == LATE -> await_turn(true)
    :: else
    fi;
    atomic {
        assert(answer != LATE || timed); /* who waits to borrow is late for a reason */
        cvec_call_first();
        end_call()
    }
}

inline cvec_seat_borrow() {
    atomic { begin_passing(); answer = LATE };
    if
    :: overdue == 0 -> idle_slot()
    :: else
    fi;
    if
    :: answer == LATE -> borrow_in_turn()
    :: else -> passing--
    fi;
    assert(answer != DONE || !keeps_something) /* a seat that is borrowed keeps nothing */
}

inline hand_back() {
    atomic {
        lock();
        owner[seat] = NOBODY;
        slot[seat] = LENDABLE;
#if BUG != 89
        broadcast(handed);
#endif
        when(BUG != 90, cvec_call_first());
        unlock()
    }
}

#if BUG == 91
#define is_call_due (len(line) > 0 && overdue > 0)
#else
#define is_call_due (len(line) > 0 && !called)
#endif

inline make_idle() {
#if BUG == 92
    was = is_call_due;
#endif
    atomic { owner[seat] = NOBODY; slot[seat] = IDLE };
    if
    :: (BUG == 92 -> was : is_call_due) -> atomic { lock(); cvec_call_first(); unlock() }
    :: else
    fi;
    was = false
}

inline cvec_seat_return() {
    atomic { passing++; answer = DONE };
#ifdef PUSHES
    when(keeps_something && BUG != 93, enter_so(ASIDE); cvec_empty_seat(); leave_seat());
#endif
    assert(!keeps_something); /* a seat that is given back keeps nothing */
    if
    :: away[seat] != 0 && BUG != 94 -> hand_back()
    :: else -> make_idle()
    fi;
    passing--
}

/* ---- a seat whose call waits */

/* In `lends`: whether others may have it. */
inline cvec_lend_on() {
    if
    :: slot[seat] != OWN && (!keeps_something || BUG == 95) ->
        lends = true;
        busy[seat] = FREE;
        caller[seat] = NOBODY;
        owner[seat] = NOBODY;
        slot[seat] = (BUG == 96 -> IDLE : LENDABLE);
        when(away[seat] != 0 && BUG != 103, broadcast(handed));
        away[seat] = away[seat] | MINE;
        when(BUG != 97, cvec_call_first())
    :: else
    fi
}

inline cvec_have_again() {
    wanted_back[seat]++;
    do
    :: slot[seat] != LENDABLE && BUG != 98 -> wait(handed, false)
    :: else -> break
    od;
    wanted_back[seat]--;
    note_owner();
    slot[seat] = LENT;
    away[seat] = away[seat] & ~MINE;
    busy[seat] = ASIDE;
    caller[seat] = id;
    lends = false
}

/* ---- holds */

inline await_hold() {
    when(!yields, cvec_await_pause());
    when(yields, broadcast(settled))
}

inline cvec_vector_hold() {
    atomic {
        begin_call();
#if BUG == 59
        asking++; asking--;
#elif BUG == 60
        cvec_await_release();
#else
        await_hold();
#endif
        answer = (over -> NOT_SO : DONE);
        when(answer == DONE, holds++; holding = holding | MINE);
        assert(!has_all); /* no call has all handles when a hold begins */
        end_call()
    }
}

inline cvec_vector_release() {
    atomic {
        begin_call();
        answer = (holds > 0 || BUG == 61 -> DONE : NOT_SO);
        when(answer == DONE, holds--; holding = holding & ~MINE);
        end_call()
    }
}

/* ---- a call by a seat */

#if BUG == 62
inline enter_so(how) {
    if
    :: busy[seat] == FREE -> atomic { busy[seat] = how; caller[seat] = id; answer = DONE }
    :: else -> answer = IS_BUSY
    fi
}
#else
inline enter_so(how) {
    atomic {
        if
        :: busy[seat] == FREE -> busy[seat] = how; caller[seat] = id; answer = DONE
        :: else -> answer = IS_BUSY
        fi
    }
}
#endif

inline leave_seat() { atomic { busy[seat] = FREE; caller[seat] = NOBODY } }

inline come_in(past_phase) {
#if BUG != 35
    busy[seat] = ASIDE;
#endif
    atomic { lock(); cvec_await_release(); answer = DONE };
    do
    :: answer == DONE && (unseated || phases == past_phase) ->
        cvec_renew();
        atomic { cvec_await_release() }
    :: else -> break
    od;
    atomic {
        when(answer == DONE, busy[seat] = INSIDE);
        unlock()
    }
}

inline enter() {
#if BUG == 36
    was = shut_out;
    enter_so(INSIDE);
#else
    enter_so(INSIDE);
    was = shut_out;
#endif
    if
    :: answer == DONE && was -> was = false; come_in(NO_PHASE); when(answer != DONE, leave_seat())
    :: else -> was = false
    fi
}

/* ---- growths */

/* A turn comes: growths are made one by one here, and none has to be tried again. */
inline try_growth() {
    if
    :: call == PUBLISH -> cvec_phase_publish()
    :: else -> phase_grow()
    fi
}

inline grow_by() {
    do
    :: phase = phases;
       atomic { try_growth() };
       if
       :: answer == IS_FULL -> come_in(phase)
       :: else -> break
       fi;
       when(answer != DONE, break)
    od;
    phase = 0
}

#ifdef SETTLES
#define note_grown atomic { when(BUG != 99, grown_by[seat] = number + 1) }
#define note_returned when(returned_growths <= number, returned_growths = number + 1)
#else
#define note_grown skip
#define note_returned skip
#endif

inline grow_counted() {
    if
    :: broken -> answer = BROKEN
    :: else ->
        begun++;
        grow_by();
        if
        :: answer == DONE -> number = number + base; note_grown
        :: else -> begun--
        fi
    fi
}

inline cvec_seat_grow() {
    enter();
    if
    :: answer == DONE -> grow_counted(); leave_seat(); atomic { when(answer == DONE, note_returned) }
    :: else
    fi
}

/* ---- growth in place, and what is lent */

inline note_lent() { lent = true }

inline lend_block() {
    if
    :: broken -> answer = BROKEN
    :: else ->
        atomic {
            if
            :: blocks & MY_SEAT -> answer = NOT_SO
            :: else -> cvec_phase_block()
            fi
        }
    fi
}

inline publish() {
    if
    :: blocks & MY_SEAT ->
#if BUG == 63
        note_lent();
        grow_counted()
#else
        grow_counted();
        when(answer == DONE && BUG != 64, note_lent())
#endif
    :: else -> answer = NOT_SO
    fi
}

inline cvec_seat_drop() {
    enter_so(ASIDE);
    blocks = blocks & ~MY_SEAT;
    leave_seat()
}

/* Each vector has records: there is something to lend. */
inline lend_pieces() {
    atomic { cvec_phase_size() };
#if BUG != 65
    atomic { note_lent(); is_lent = true };
#endif
    atomic { cvec_phase_pieces() }
}

/* ---- records that were pushed */

/* What waits is fewer than are grown at once. */
inline put_behind() { atomic { pushes = pushes | MY_SEAT; kept = kept | MY_SEAT; answer = DONE } }

inline grow_waiting() {
    if
    :: is_waiting -> grow_counted(); atomic { when(answer == DONE, pushes = pushes & ~MY_SEAT; kept = kept & ~MY_SEAT) }
    :: else
    fi
}

/* For a call that is aside. */
inline cvec_empty_seat() {
    when(is_waiting && BUG != 66, come_in(NO_PHASE));
    when(answer == DONE || BUG == 67, grow_waiting());
    atomic {
#if BUG != 68
        busy[seat] = ASIDE;
#endif
        assert(answer != DONE || !(kept & MY_SEAT)); /* what was pushed is kept until it is grown */
        blocks = blocks & ~MY_SEAT;
        pushes = pushes & ~MY_SEAT;
        kept = kept & ~MY_SEAT
    }
}

inline cvec_seat_close() {
#ifdef PUSHES
    enter_so(ASIDE);
    cvec_empty_seat();
#endif
    atomic {
#ifndef PUSHES
        enter_so(ASIDE);
#endif
#if BUG != 69
        blocks = blocks & ~MY_SEAT;
#endif
        lock();
        when(BUG != 37, cvec_await_release());
        cvec_drop_seat();
        unlock()
    }
#if BUG == 69
    ;
    blocks = blocks & ~MY_SEAT
#endif
}

/* ---- waiting, and who commits for nobody */

inline await_other(is_timed) { wait(settled, is_timed) }

inline await_count(count) {
    late = false;
    do
    :: atomic {
           when(durable >= (count), answer = DONE; break);
           when(broken && BUG != 9, answer = BROKEN; break);
           when(late, answer = (BUG == 10 -> DONE : LATE); break);
           when(BUG != 14, cvec_come());
           if
           :: (BUG == 12 -> was : committing) ->
               was = (BUG == 12 && committing);
               waiting = waiting + GATHERS;
               await_other(timed);
               waiting = waiting - (late && waiting > 0);
#if BUG == 11
               answer = DONE; break
#else
               goto next
#endif
           :: else
           fi;
           when((unseated || alone) && BUG != 13, answer = OUT_OF_RANGE; break)
       };
       cvec_lead();
       atomic {
           when(answer != DONE, break);
           woken = woken + (woken > 0);
           when(growths == 0 && durable < (count), answer = OUT_OF_RANGE; break)
       };
next:  atomic { let_pass() }
    od
}

/* `ahead`: for the growth behind that one, which may not be there. */
inline cvec_seat_settle(ahead) {
#if BUG == 12
    was = committing;
#endif
#if BUG == 46
    if
    :: durable > number + ahead -> answer = DONE; goto told_before
    :: else
    fi;
#endif
    atomic {
        enter_so(ASIDE);
        if
        :: answer == DONE -> lock()
        :: else -> goto told_before
        fi;
        when(durable < number + 1 + ahead, cvec_lend_on())
    };
    await_count(number + 1 + ahead);
    atomic {
        when(lends, cvec_have_again());
        unlock();
        leave_seat();
told_before:
        check_answer(ahead);
        was = false;
        late = false;
        growths = 0
    }
}

inline flush() {
    atomic { wanted = begun; had = total; growths = 1; was = (BUG == 38 && (alone || unseated)) };
    do
    :: atomic {
           if
           :: answer == DONE && growths > 0 && durable < wanted && !is_stopped
           :: else -> break
           fi;
           when(broken, answer = BROKEN; goto next);
           when(committing, await_other(false); goto next);
           when((BUG == 38 -> was : alone || unseated), growths = 0; goto next)
       };
       cvec_lead();
       when(BUG == 39, growths = 1);
next:  skip
    od;
    atomic {
        assert(answer != DONE || is_stopped || durable >= had); /* what there was when a flush began is durable */
        wanted = 0; had = 0; growths = 0; was = false
    }
}

inline rest() {
    late = false;
#if BUG == 40
    wait(flushing, timed);
#endif
    do
    :: !is_stopped && !late -> wait(flushing, timed)
    :: else -> break
    od;
    late = false
}

inline enter_flushers() {
    begin_call();
    answer = (over -> NOT_SO : DONE);
    if
    :: answer == DONE -> flushers++
    :: else -> end_call(); goto gone
    fi
}

inline leave_flushers() {
    flushers--;
    when(BUG != 41, broadcast(flushing));
    end_call()
}

inline flush_once() {
    atomic { answer = (broken -> BROKEN : DONE) };
    when(answer == DONE, flush())
}

inline cvec_vector_run_flusher() {
    atomic { enter_flushers() };
    do
    :: answer == DONE && !is_stopped -> flush_once(); atomic { when(answer == DONE, rest()) }
    :: else -> break
    od;
    atomic { leave_flushers() }
}

inline cvec_vector_flush() {
#if BUG == 70
    atomic { begin_call() };
    flush_once();
    atomic { end_call() }
#else
    atomic { enter_flushers() };
    flush_once();
    atomic { leave_flushers() }
#endif
}

inline cvec_vector_stop_flusher() {
    atomic {
        enter_flushers();
        is_stopped = true;
        leave_flushers()
    }
}

/* ---- by no seat */

#ifdef SETTLES
inline all_grown() {
    number = (BUG == 100 -> begun : all_known);
    when(at[0] == LISTED && number < grown_by[0], number = grown_by[0]);
    when(at[1] == LISTED && number < grown_by[1], number = grown_by[1])
}

inline cvec_vector_settle() {
    atomic {
        begin_call();
        asking = asking + (BUG != 101);
        all_grown();
        assert(over || number >= returned_growths); /* a settle is for each growth that had returned */
        answer = (over -> NOT_SO : (broken -> BROKEN : DONE))
    };
    if
    :: answer == DONE -> await_count(number)
    :: else
    fi;
    atomic {
        assert(answer != DONE || number <= synced);  /* what a settle reports is durable */
        assert(answer != OUT_OF_RANGE);              /* a growth that had returned is known */
        assert(answer != LATE || timed);             /* a settle is late for a reason */
        assert(answer != BROKEN || broken);          /* a settle is broken for a reason */
        asking = asking - (BUG != 101);
        end_call()
    }
}

inline cvec_vector_settled() {
    atomic {
        begin_call();
        assert(over || durable <= synced); /* what is told to be durable is synced */
        answer = (over -> NOT_SO : DONE);
        end_call()
    }
}
#endif

inline run_own_flusher() {
    atomic { lock(); calls++ };
    do
    :: !is_stopped && !broken -> flush_once(); atomic { rest() }
    :: else -> break
    od;
    atomic { leave_flushers() }
}

/* The thread waits for the mutex, until which it is counted. */
inline cvec_vector_start_flusher() {
    atomic {
        begin_call();
        answer = (over -> NOT_SO : (broken -> BROKEN : DONE));
        when(answer == DONE, threads++; flushers++);
        end_call()
    }
}
