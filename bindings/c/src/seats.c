/* Seats of a vector: those of their callers' own, those that are borrowed, and the line of the calls that wait for one. */
#define _DEFAULT_SOURCE 1
#define _POSIX_C_SOURCE 200809L
#include "vector.h"

#include <stdlib.h>
#include <string.h>

/* For how many nanoseconds who waits for a seat to borrow lets others pass, who find one at once: while it is woken seats would be idle.
 * Behind that nobody passes it. So often it looks besides: a return doesn't wait until it sees who waits. */
enum { PATIENCE = 1000000 };

/* ---- seats that are made, and closed */

/* Threads write to their seats with each call. */
static cvec_seat *new_seat(cvec_vector *vector) {
    void *made = NULL;
    if (posix_memalign(&made, APART, (sizeof(cvec_seat) + APART - 1) / APART * APART) != 0) return NULL;
    cvec_seat *seat = made;
    memset(seat, 0, sizeof *seat);
    seat->vector = vector;
    seat->at_once = vector->pushes;
    return seat;
}

/* With the mutex. */
static void list_seat(cvec_vector *vector, cvec_seat *seat) {
    seat->next = vector->first;
    vector->first = seat;
    seat->number = (uint16_t)vector->taken++;
    vector->seats++;
}

/* While nobody has all handles. What was grown by the seat is counted on, and the next one has its grower. */
void cvec_drop_seat(cvec_vector *vector, cvec_seat *seat) {
    cvec_seat **at = &vector->first;
    while (*at != seat) at = &(*at)->next;
    *at = seat->next;
    vector->begun += seat->begun;
    if (vector->grown < seat->grown) vector->grown = seat->grown;
    vector->seats--;
    free(seat->pushed);
    if (vector->unseated) {
        free(seat);
    } else {
        seat->next = vector->idle;
        vector->idle = seat;
    }
    cvec_call_first(vector);
}

/* With the mutex, while nobody has all handles: a seat of the phase, or, where each of its seats was given, of a new one. */
static uint32_t fresh_seat(cvec_vector *vector, cvec_seat **taken) {
    cvec_seat *seat = new_seat(vector);
    if (seat == NULL) return CVEC_MEMORY;
    uint32_t answer = cvec_phase_seat(&vector->phase, &seat->grower);
    if (answer == CVEC_NOT_SO) answer = cvec_renew(vector);
    if (answer == CVEC_DONE && !seat->grower.full) answer = cvec_phase_seat(&vector->phase, &seat->grower);
    if (answer == CVEC_DONE)
        *taken = seat;
    else
        free(seat);
    return answer;
}

/* With the mutex: a seat that was closed, with its grower, and with nothing else of the thread that had it. */
static cvec_seat *reused_seat(cvec_vector *vector) {
    cvec_seat *seat = vector->idle;
    vector->idle = seat->next;
    count_begun(seat, 0);
    set_busy(seat, FREE);
    seat->slot = NULL;
    seat->pushed = NULL;
    seat->waiting = 0;
    seat->at_once = vector->pushes;
    memset(&seat->last, 0, sizeof seat->last);
    return seat;
}

/* With the mutex, while nobody has all handles. */
static uint32_t seat_of(cvec_vector *vector, cvec_seat **taken) {
    uint32_t answer = CVEC_DONE;
    if (vector->seats == vector->most_seats) return CVEC_NOT_SO;
    if (vector->idle != NULL)
        *taken = reused_seat(vector);
    else
        answer = fresh_seat(vector, taken);
    if (answer == CVEC_DONE) list_seat(vector, *taken);
    cvec_call_first(vector);
    return answer;
}

/* ---- slots: seats that any thread may borrow */

static uint32_t state_of(const struct slot *slot) { return __atomic_load_n(&slot->state, __ATOMIC_RELAXED); }

static void set_state(struct slot *slot, uint32_t state) { __atomic_store_n(&slot->state, state, __ATOMIC_RELEASE); }

/* Whether the slot was idle, and is the caller's. */
static bool try_slot(struct slot *slot) {
    uint32_t was = IDLE;
    return state_of(slot) == IDLE && __atomic_compare_exchange_n(&slot->state, &was, LENT, false, __ATOMIC_ACQUIRE, __ATOMIC_RELAXED);
}

/* Where this thread looks first: at the slot that it had before, by its number and one more. Threads begin at different ones. */
static __thread uint32_t place_of_thread;

static uint32_t first_place(uint32_t count) {
    static uint32_t threads;
    if (place_of_thread == 0) place_of_thread = 1 + __atomic_fetch_add(&threads, 1, __ATOMIC_RELAXED) % MOST_SEATS;
    return (place_of_thread - 1) % count;
}

/* An idle one, or NULL. */
static struct slot *idle_slot(cvec_vector *vector) {
    const uint32_t count = __atomic_load_n(&vector->slotted, __ATOMIC_ACQUIRE);
    if (count == 0) return NULL;
    uint32_t at = first_place(count);
    for (uint32_t k = 0; k < count; k++, at = at + 1 < count ? at + 1 : 0) {
        if (!try_slot(&vector->slots[at])) continue;
        place_of_thread = at + 1;
        return &vector->slots[at];
    }
    return NULL;
}

/* With the mutex: one whose call waits, so that another may have its seat, and that nobody wants back. */
static struct slot *lendable_slot(cvec_vector *vector) {
    for (uint32_t k = 0; k < vector->slotted; k++) {
        struct slot *slot = &vector->slots[k];
        if (state_of(slot) != LENDABLE || slot->wanted > 0) continue;
        set_state(slot, LENT);
        return slot;
    }
    return NULL;
}

/* With the mutex: puts the seat into an empty one, which is the caller's. There are as many as seats. */
static struct slot *put_in_slot(cvec_vector *vector, cvec_seat *seat) {
    struct slot *slot = vector->slots;
    while (slot->seat != NULL) slot++;
    const uint32_t behind = (uint32_t)(slot - vector->slots) + 1;
    slot->seat = seat;
    seat->slot = slot;
    vector->slot_seats++;
    if (behind > vector->slotted) __atomic_store_n(&vector->slotted, behind, __ATOMIC_RELEASE);
    place_of_thread = behind;
    return slot;
}

/* With the mutex, while nobody has all handles, of one that is the caller's: it is empty then. */
static void empty_slot(cvec_vector *vector, struct slot *slot) {
    cvec_seat *seat = slot->seat;
    slot->seat = NULL;
    vector->slot_seats--;
    cvec_drop_seat(vector, seat);
}

bool cvec_take_slots(cvec_vector *vector) {
    bool has_all = true;
    for (uint32_t k = 0; k < vector->slotted; k++) {
        struct slot *slot = &vector->slots[k];
        if (slot->seat != NULL && !slot->ended) slot->ended = try_slot(slot);
        has_all = has_all && (slot->seat == NULL || slot->ended);
    }
    return has_all;
}

void cvec_give_slots_back(cvec_vector *vector) {
    for (uint32_t k = 0; k < vector->slotted; k++) {
        struct slot *slot = &vector->slots[k];
        if (slot->ended) set_state(slot, IDLE);
        slot->ended = false;
    }
}

void cvec_drop_slots(cvec_vector *vector) {
    for (uint32_t k = 0; k < vector->slotted; k++)
        if (vector->slots[k].seat != NULL) empty_slot(vector, &vector->slots[k]);
}

/* ---- the line */

void cvec_call_first(cvec_vector *vector) {
    if (vector->line == NULL) return;
    __atomic_store_n(&vector->called, 1, __ATOMIC_RELAXED);
    pthread_cond_signal(&vector->line->turn);
}

static void count_queued(cvec_vector *vector, uint32_t count) { __atomic_store_n(&vector->queued, count, __ATOMIC_RELAXED); }

/* With the mutex: this call is the last in line. A close would free the vector under it: it is counted. */
static void begin_line(cvec_vector *vector, struct in_line *mine) {
    struct in_line **last = &vector->line;
    while (*last != NULL) last = &(*last)->next;
    *last = mine;
    mine->next = NULL;
    mine->is_overdue = false;
    mine->patience = cvec_moment_behind(0, PATIENCE);
    cvec_begin_condition(&mine->turn);
    count_queued(vector, vector->queued + 1);
    vector->asking++;
}

/* With the mutex: whether it is the first in line, which has come then where it was called. */
static bool is_first(cvec_vector *vector, const struct in_line *mine) {
    if (vector->line != mine) return false;
    __atomic_store_n(&vector->called, 0, __ATOMIC_RELAXED);
    if (vector->owes_first) cvec_come_in_turn(vector);
    vector->owes_first = false;
    return true;
}

static void end_line(cvec_vector *vector, struct in_line *mine) {
    struct in_line **at = &vector->line;
    is_first(vector, mine);
    while (*at != mine) at = &(*at)->next;
    *at = mine->next;
    pthread_cond_destroy(&mine->turn);
    if (mine->is_overdue) __atomic_fetch_sub(&vector->overdue, 1, __ATOMIC_RELAXED);
    count_queued(vector, vector->queued - 1);
    vector->asking--;
}

/* ---- who has a seat next. Each may give up the mutex and have it again */

/* With the mutex: so many slots are idle, whose seats are for who comes. */
static uint32_t count_idle(const cvec_vector *vector) {
    uint32_t count = 0;
    for (uint32_t k = 0; k < vector->slotted; k++) count += state_of(&vector->slots[k]) == IDLE;
    return count;
}

/* With the mutex: whether there is a seat for who hasn't waited for one. */
static bool is_one_spare(const cvec_vector *vector) {
    return vector->seats + vector->queued < vector->most_seats + count_idle(vector);
}

/* With the mutex, for who is the first: a seat of its own, also in place of one to be borrowed that is idle. CVEC_LATE: there is none. */
static uint32_t find_own(cvec_vector *vector, cvec_seat **found) {
    if (vector->claimed) return CVEC_LATE;
    struct slot *slot = vector->seats < vector->most_seats ? NULL : idle_slot(vector);
    if (slot != NULL) empty_slot(vector, slot);
    return vector->seats < vector->most_seats ? seat_of(vector, found) : CVEC_LATE;
}

/* With the mutex, for who was refused a further seat: one that was given back meanwhile. In line it has called itself by that, and a
 * return that saw this called nobody. */
static struct slot *idle_since(cvec_vector *vector) {
    __atomic_store_n(&vector->called, 0, __ATOMIC_RELAXED);
    return idle_slot(vector);
}

/* With the mutex, for who is the first: a seat to borrow that is idle, a further one, or one whose call waits. Memory that is refused
 * for a further one is no refusal while there are others. */
static uint32_t find_borrowed(cvec_vector *vector, cvec_seat **found) {
    cvec_seat *seat = NULL;
    struct slot *slot = idle_slot(vector);
    if (slot == NULL && !vector->claimed && vector->seats < vector->most_seats) {
        const uint32_t answer = seat_of(vector, &seat);
        if (answer != CVEC_DONE && vector->slot_seats == 0) return answer;
        slot = answer == CVEC_DONE ? put_in_slot(vector, seat) : idle_since(vector);
    }
    if (slot == NULL) slot = lendable_slot(vector);
    if (slot != NULL) *found = slot->seat;
    return slot != NULL ? CVEC_DONE : CVEC_LATE;
}

static uint32_t find_seat(cvec_vector *vector, bool borrows, cvec_seat **found) {
    return borrows ? find_borrowed(vector, found) : find_own(vector, found);
}

static bool is_before(const struct timespec *one, const struct timespec *other) {
    return one->tv_sec < other->tv_sec || (one->tv_sec == other->tv_sec && one->tv_nsec < other->tv_nsec);
}

/* With the mutex, of the first in line: once it has waited long, nobody passes it. */
static void lose_patience(cvec_vector *vector, struct in_line *mine) {
    if (mine->is_overdue || !cvec_has_passed(&mine->patience)) return;
    mine->is_overdue = true;
    __atomic_fetch_add(&vector->overdue, 1, __ATOMIC_RELAXED);
}

/* When the first in line looks besides. */
static struct timespec next_look(const struct in_line *mine) {
    return mine->is_overdue ? cvec_moment_behind(0, PATIENCE) : mine->patience;
}

/* With the mutex: sleeps in line until it is called, and no longer than to this moment. The first one looks for what is given back
 * besides. */
static void await_call(cvec_vector *vector, struct in_line *mine, const struct timespec *until) {
    struct timespec look = *until;
    if (vector->line == mine && vector->slot_seats > 0) {
        lose_patience(vector, mine);
        look = next_look(mine);
    }
    pthread_cond_timedwait(&mine->turn, &vector->mutex, is_before(&look, until) ? &look : until);
}

/* With the mutex: waits in line for a seat, and while another call has all handles, and no longer than to this moment. */
static uint32_t await_turn(cvec_vector *vector, const struct timespec *until, bool borrows, cvec_seat **found) {
    struct in_line mine;
    uint32_t answer = CVEC_LATE;
    begin_line(vector, &mine);
    for (;;) {
        if (vector->over) answer = CVEC_NOT_SO;
        if (answer == CVEC_LATE && is_first(vector, &mine)) answer = find_seat(vector, borrows, found);
        if (answer != CVEC_LATE || cvec_has_passed(until)) break;
        await_call(vector, &mine, until);
    }
    end_line(vector, &mine);
    return answer;
}

/* ---- seats of callers' own */

cvec_status cvec_seat_take(cvec_vector *vector, cvec_seat **taken) {
    uint32_t answer = CVEC_LATE;
    *taken = NULL;
    if (refusal_of(vector) != CVEC_DONE) return refusal_of(vector);
    pthread_mutex_lock(&vector->mutex);
    cvec_await_pause(vector);
    if (!vector->over && is_one_spare(vector)) answer = find_own(vector, taken);
    pthread_mutex_unlock(&vector->mutex);
    return answer == CVEC_LATE ? CVEC_NOT_SO : answer;
}

cvec_status cvec_seat_take_within(cvec_vector *vector, uint64_t milliseconds, cvec_seat **taken) {
    const struct timespec until = cvec_moment_in(milliseconds);
    uint32_t answer = CVEC_LATE;
    *taken = NULL;
    if (refusal_of(vector) != CVEC_DONE) return refusal_of(vector);
    pthread_mutex_lock(&vector->mutex);
    if (!vector->over && is_one_spare(vector)) answer = find_own(vector, taken);
    if (answer == CVEC_LATE) answer = await_turn(vector, &until, false, taken);
    cvec_call_first(vector);
    pthread_mutex_unlock(&vector->mutex);
    return answer;
}

cvec_status cvec_seat_close(cvec_seat **closed) {
    cvec_seat *seat = *closed;
    if (seat != NULL && seat->slot != NULL) return cvec_seat_return(closed);
    uint32_t answer = enter_so(seat, ASIDE);
    if (answer != CVEC_DONE) return answer;
    cvec_vector *vector = seat->vector;
    *closed = NULL;
    answer = cvec_empty_seat(seat);
    pthread_mutex_lock(&vector->mutex);
    cvec_await_release(vector);
    cvec_drop_seat(vector, seat);
    pthread_mutex_unlock(&vector->mutex);
    return answer;
}

/* ---- seats that are borrowed */

static uint32_t borrow_in_turn(cvec_vector *vector, uint64_t milliseconds, cvec_seat **borrowed) {
    const struct timespec until = cvec_moment_in(milliseconds);
    uint32_t answer = CVEC_LATE;
    pthread_mutex_lock(&vector->mutex);
    if (!vector->over && vector->queued == 0) answer = find_borrowed(vector, borrowed);
    if (answer == CVEC_LATE) answer = await_turn(vector, &until, true, borrowed);
    cvec_call_first(vector);
    pthread_mutex_unlock(&vector->mutex);
    return answer;
}

cvec_status cvec_seat_borrow(cvec_vector *vector, uint64_t milliseconds, cvec_seat **borrowed) {
    *borrowed = NULL;
    if (refusal_of(vector) != CVEC_DONE) return refusal_of(vector);
    struct slot *slot = __atomic_load_n(&vector->overdue, __ATOMIC_RELAXED) == 0 ? idle_slot(vector) : NULL;
    if (slot == NULL) return borrow_in_turn(vector, milliseconds, borrowed);
    *borrowed = slot->seat;
    return CVEC_DONE;
}

/* To who has lent it on. */
static void hand_back(cvec_vector *vector, struct slot *slot) {
    pthread_mutex_lock(&vector->mutex);
    set_state(slot, LENDABLE);
    pthread_cond_broadcast(&vector->handed);
    cvec_call_first(vector);
    pthread_mutex_unlock(&vector->mutex);
}

/* Who has come to the line since may not be seen: it looks again by itself. */
static void make_idle(cvec_vector *vector, struct slot *slot) {
    set_state(slot, IDLE);
    if (__atomic_load_n(&vector->queued, __ATOMIC_RELAXED) == 0 || __atomic_load_n(&vector->called, __ATOMIC_RELAXED) != 0) return;
    pthread_mutex_lock(&vector->mutex);
    cvec_call_first(vector);
    pthread_mutex_unlock(&vector->mutex);
}

cvec_status cvec_seat_return(cvec_seat **returned) {
    cvec_seat *seat = *returned;
    uint32_t answer = CVEC_DONE;
    if (seat == NULL || seat->slot == NULL) return CVEC_NOT_SO;
    if (!is_of_this_process(seat->vector)) return CVEC_FORKED;
    if (__atomic_load_n(&seat->busy, __ATOMIC_RELAXED) != FREE) return CVEC_BUSY;
    if (keeps_something(seat)) {
        answer = enter_so(seat, ASIDE);
        if (answer != CVEC_DONE) return answer;
        answer = cvec_empty_seat(seat);
        leave_seat(seat);
    }
    *returned = NULL;
    if (seat->slot->away > 0)
        hand_back(seat->vector, seat->slot);
    else
        make_idle(seat->vector, seat->slot);
    return answer;
}

/* ---- a seat whose call waits */

bool cvec_lend_on(cvec_seat *seat) {
    struct slot *slot = seat->slot;
    if (slot == NULL || keeps_something(seat)) return false;
    leave_seat(seat);
    set_state(slot, LENDABLE);
    if (slot->away++ > 0) pthread_cond_broadcast(&seat->vector->handed); /* one who wants it back may have it */
    cvec_call_first(seat->vector);
    return true;
}

void cvec_have_again(cvec_seat *seat) {
    struct slot *slot = seat->slot;
    slot->wanted++;
    while (state_of(slot) != LENDABLE) pthread_cond_wait(&seat->vector->handed, &seat->vector->mutex);
    slot->wanted--;
    set_state(slot, LENT);
    slot->away--;
    set_busy(seat, ASIDE);
}
