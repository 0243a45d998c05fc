/* Who waits until growths are durable, who commits for nobody, and who holds a vector. */
#define _DEFAULT_SOURCE 1
#define _POSIX_C_SOURCE 200809L
#include "vector.h"

#include <errno.h>
#include <signal.h>
#include <stdlib.h>

/* ---- waiting */

/* With the mutex: until a commit of another has ended, and no longer than to this moment. Whether the moment has come. */
static bool await_other(cvec_vector *vector, const struct timespec *until) {
    if (until != NULL) return pthread_cond_timedwait(&vector->settled, &vector->mutex, until) == ETIMEDOUT;
    pthread_cond_wait(&vector->settled, &vector->mutex);
    return false;
}

/* With the mutex: waits until so many growths are durable, for others no longer than to this moment. */
static uint32_t await_count(cvec_vector *vector, uint64_t count, const struct timespec *until) {
    uint64_t growths = 0;
    for (bool late = false; vector->durable < count; late = cvec_has_passed(until)) {
        if (is_broken(vector)) return CVEC_BROKEN;
        if (late) return CVEC_LATE;
        cvec_come(vector);
        if (vector->committing) {
            vector->waiting++;
            if (await_other(vector, until) && vector->waiting > 0) vector->waiting--;
            continue;
        }
        if (vector->unseated || vector->alone) return CVEC_OUT_OF_RANGE; /* all are durable, and the committer may be a vault */
        uint32_t answer = cvec_lead(vector, &growths);
        if (answer != CVEC_DONE) return answer;
        if (vector->woken > 0) vector->woken++; /* who made it comes again too */
        if (growths == 0 && vector->durable < count) return CVEC_OUT_OF_RANGE;
    }
    return CVEC_DONE;
}

/* With the mutex, of a call by this seat that is aside: others may borrow it meanwhile. */
static uint32_t await_beside_others(cvec_seat *seat, uint64_t count, const struct timespec *until) {
    const bool is_lent = seat->vector->durable < count && cvec_lend_on(seat);
    const uint32_t answer = await_count(seat->vector, count, until);
    if (is_lent) cvec_have_again(seat);
    return answer;
}

/* A deadline, or NULL: as long as it takes. */
static const struct timespec *deadline(uint64_t milliseconds, struct timespec *moment) {
    if (milliseconds == CVEC_NO_LIMIT) return NULL;
    *moment = cvec_moment_in(milliseconds);
    return moment;
}

cvec_status cvec_seat_settle(cvec_seat *seat, uint64_t number, uint64_t milliseconds) {
    struct timespec moment;
    const struct timespec *until = deadline(milliseconds, &moment);
    uint32_t answer = enter_so(seat, ASIDE);
    if (answer != CVEC_DONE) return answer;
    pthread_mutex_lock(&seat->vector->mutex);
    answer = refusal_to_settle(seat->vector);
    if (answer == CVEC_DONE) answer = number == UINT64_MAX ? CVEC_OUT_OF_RANGE : await_beside_others(seat, number + 1, until);
    pthread_mutex_unlock(&seat->vector->mutex);
    leave_seat(seat);
    return answer;
}

/* With the mutex: behind so many growths the last one stands that has returned. */
static uint64_t all_grown(const cvec_vector *vector) {
    uint64_t most = vector->grown;
    for (const cvec_seat *seat = vector->first; seat != NULL; seat = seat->next) {
        const uint64_t its = __atomic_load_n(&seat->grown, __ATOMIC_ACQUIRE);
        if (most < its) most = its;
    }
    return most;
}

/* With the mutex. Of a broken vector it isn't known whether all is durable that was changed. */
static uint32_t settle_all(cvec_vector *vector, const struct timespec *until) {
    if (vector->over) return CVEC_NOT_SO;
    return is_broken(vector) ? CVEC_BROKEN : await_count(vector, all_grown(vector), until);
}

cvec_status cvec_vector_settle(cvec_vector *vector, uint64_t milliseconds) {
    struct timespec moment;
    const struct timespec *until = deadline(milliseconds, &moment);
    if (refusal_to_settle(vector) != CVEC_DONE) return refusal_to_settle(vector);
    pthread_mutex_lock(&vector->mutex);
    vector->asking++;
    uint32_t answer = settle_all(vector, until);
    vector->asking--;
    pthread_mutex_unlock(&vector->mutex);
    return answer;
}

cvec_status cvec_vector_settled(cvec_vector *vector, uint64_t *count) {
    if (refusal_of(vector) != CVEC_DONE) return refusal_of(vector);
    pthread_mutex_lock(&vector->mutex);
    const uint32_t answer = vector->over ? CVEC_NOT_SO : CVEC_DONE;
    if (answer == CVEC_DONE) *count = vector->in_memory ? 0 : vector->durable;
    pthread_mutex_unlock(&vector->mutex);
    return answer;
}

/* ---- who commits for nobody */

/* With the mutex: so many growths there are, or are coming. */
static uint64_t all_begun(const cvec_vector *vector) {
    uint64_t count = vector->begun;
    for (const cvec_seat *seat = vector->first; seat != NULL; seat = seat->next)
        count += __atomic_load_n(&seat->begun, __ATOMIC_RELAXED);
    return count;
}

/* With the mutex: commits what there is now, by as many commits as that takes. While it waits for another's the committer may
 * become a vault: then all that was wanted is durable. */
static uint32_t flush(cvec_vector *vector) {
    const uint64_t wanted = all_begun(vector);
    uint64_t growths = 1;
    uint32_t answer = CVEC_DONE;
    while (answer == CVEC_DONE && growths > 0 && vector->durable < wanted && !vector->stopped) {
        if (is_broken(vector))
            answer = CVEC_BROKEN;
        else if (vector->committing)
            await_other(vector, NULL);
        else if (vector->alone || vector->unseated)
            growths = 0;
        else
            answer = cvec_lead(vector, &growths);
    }
    return answer;
}

/* With the mutex: waits until this moment, or the loop is to end. */
static void rest(cvec_vector *vector, struct timespec until) {
    while (!vector->stopped && !cvec_has_passed(&until)) pthread_cond_timedwait(&vector->flushing, &vector->mutex, &until);
}

/* A close waits until it has left. It has the mutex where it answers CVEC_DONE. */
static uint32_t enter_flushers(cvec_vector *vector) {
    if (refusal_to_settle(vector) != CVEC_DONE) return refusal_to_settle(vector);
    pthread_mutex_lock(&vector->mutex);
    if (!vector->over) {
        vector->flushers++;
        return CVEC_DONE;
    }
    pthread_mutex_unlock(&vector->mutex);
    return CVEC_NOT_SO;
}

static void leave_flushers(cvec_vector *vector) {
    vector->flushers--;
    pthread_cond_broadcast(&vector->flushing);
    pthread_mutex_unlock(&vector->mutex);
}

/* With the mutex. */
static uint32_t flush_once(cvec_vector *vector) { return is_broken(vector) ? CVEC_BROKEN : flush(vector); }

static struct timespec end_of_rest(uint64_t milliseconds) { return cvec_moment_in(milliseconds > 0 ? milliseconds : 1); }

cvec_status cvec_vector_run_flusher(cvec_vector *vector, uint64_t every_milliseconds) {
    uint32_t answer = enter_flushers(vector);
    if (answer != CVEC_DONE) return answer;
    while (answer == CVEC_DONE && !vector->stopped) {
        answer = flush_once(vector);
        if (answer == CVEC_DONE) rest(vector, end_of_rest(every_milliseconds));
    }
    leave_flushers(vector);
    return answer;
}

cvec_status cvec_vector_flush(cvec_vector *vector) {
    uint32_t answer = enter_flushers(vector);
    if (answer != CVEC_DONE) return answer;
    answer = flush_once(vector);
    leave_flushers(vector);
    return answer;
}

cvec_status cvec_vector_stop_flusher(cvec_vector *vector) {
    const uint32_t answer = enter_flushers(vector);
    if (answer != CVEC_DONE) return answer;
    vector->stopped = true;
    leave_flushers(vector);
    return answer;
}

void cvec_end_flushers(cvec_vector *vector) {
    vector->stopped = true;
    pthread_cond_broadcast(&vector->flushing);
    while (vector->flushers > 0) pthread_cond_wait(&vector->flushing, &vector->mutex);
}

/* ---- threads of the library's own */

struct own_flusher {
    pthread_t thread;
    cvec_vector *vector;
    uint64_t every_milliseconds;
    struct own_flusher *next; /* of the vector's */
};

/* Nobody is told what a commit is refused: where that may be made again, it is. It was counted where it was started. */
static void *run_own_flusher(void *begun) {
    struct own_flusher *own = begun;
    cvec_vector *vector = own->vector;
    pthread_mutex_lock(&vector->mutex);
    while (!vector->stopped && !is_broken(vector)) {
        flush_once(vector);
        rest(vector, end_of_rest(own->every_milliseconds));
    }
    leave_flushers(vector);
    return NULL;
}

/* It takes no signals: they are for threads of the caller's. */
static bool begin_thread(struct own_flusher *own) {
    sigset_t all, before;
    sigfillset(&all);
    pthread_sigmask(SIG_SETMASK, &all, &before);
    const bool has_begun = pthread_create(&own->thread, NULL, run_own_flusher, own) == 0;
    pthread_sigmask(SIG_SETMASK, &before, NULL);
    return has_begun;
}

/* With the mutex. */
static uint32_t start_own(cvec_vector *vector, uint64_t every_milliseconds) {
    struct own_flusher *own = malloc(sizeof *own);
    if (own == NULL) return CVEC_MEMORY;
    own->vector = vector;
    own->every_milliseconds = every_milliseconds;
    if (!begin_thread(own)) {
        free(own);
        return CVEC_MEMORY;
    }
    own->next = vector->own;
    vector->own = own;
    vector->flushers++;
    return CVEC_DONE;
}

cvec_status cvec_vector_start_flusher(cvec_vector *vector, uint64_t every_milliseconds) {
    if (refusal_to_settle(vector) != CVEC_DONE) return refusal_to_settle(vector);
    pthread_mutex_lock(&vector->mutex);
    uint32_t answer = vector->over ? CVEC_NOT_SO : is_broken(vector) ? CVEC_BROKEN : start_own(vector, every_milliseconds);
    pthread_mutex_unlock(&vector->mutex);
    return answer;
}

void cvec_join_flushers(cvec_vector *vector) {
    while (vector->own != NULL) {
        struct own_flusher *own = vector->own;
        vector->own = own->next;
        pthread_join(own->thread, NULL);
        free(own);
    }
}

/* ---- holds: while there is one, calls of the whole vector are refused */

/* With the mutex: a call of the whole vector that waits for a commit hasn't begun, and gives up. */
static void await_hold(cvec_vector *vector) {
    if (!vector->yields) cvec_await_pause(vector);
    if (vector->yields) pthread_cond_broadcast(&vector->settled);
}

cvec_status cvec_vector_hold(cvec_vector *vector) {
    if (refusal_of(vector) != CVEC_DONE) return refusal_of(vector);
    pthread_mutex_lock(&vector->mutex);
    await_hold(vector);
    const uint32_t answer = vector->over ? CVEC_NOT_SO : CVEC_DONE;
    if (answer == CVEC_DONE) vector->holds++;
    pthread_mutex_unlock(&vector->mutex);
    return answer;
}

cvec_status cvec_vector_release(cvec_vector *vector) {
    if (refusal_of(vector) != CVEC_DONE) return refusal_of(vector);
    pthread_mutex_lock(&vector->mutex);
    uint32_t answer = vector->holds > 0 ? CVEC_DONE : CVEC_NOT_SO;
    if (answer == CVEC_DONE) vector->holds--;
    pthread_mutex_unlock(&vector->mutex);
    return answer;
}
