/* Commits, phases, and who has all handles of a vector: a call of the whole vector, and one that begins a new phase. */
#define _DEFAULT_SOURCE 1
#define _POSIX_C_SOURCE 200809L
#include "vector.h"

#include <stdlib.h>

/* For how many nanoseconds who commits waits at most for those that the last commit woke, and from how many bytes on, which that
 * one wrote, it doesn't: large groups take longer to be written than to be synced. */
enum { LONGEST_GATHERING = 100000, LARGE_GROUP = 256 * 1024 };

/* No deadline is further away, in milliseconds: 31 years. */
static const uint64_t LONGEST_WAIT = 1000000000000;

/* ---- time */

struct timespec cvec_moment_behind(time_t seconds, long nanoseconds) {
    struct timespec moment;
    clock_gettime(CLOCK_MONOTONIC, &moment);
    moment.tv_sec += seconds;
    moment.tv_nsec += nanoseconds;
    if (moment.tv_nsec >= 1000000000) {
        moment.tv_sec++;
        moment.tv_nsec -= 1000000000;
    }
    return moment;
}

struct timespec cvec_moment_in(uint64_t milliseconds) {
    if (milliseconds > LONGEST_WAIT) milliseconds = LONGEST_WAIT;
    return cvec_moment_behind((time_t)(milliseconds / 1000), (long)(milliseconds % 1000) * 1000000);
}

bool cvec_has_passed(const struct timespec *moment) {
    struct timespec now;
    if (moment == NULL) return false;
    clock_gettime(CLOCK_MONOTONIC, &now);
    return now.tv_sec > moment->tv_sec || (now.tv_sec == moment->tv_sec && now.tv_nsec >= moment->tv_nsec);
}

void cvec_give_way(long *nap) {
    struct timespec time = {0, *nap};
    nanosleep(&time, NULL);
    if (*nap < LONGEST_NAP) *nap *= 2;
}

void cvec_begin_condition(pthread_cond_t *condition) {
    pthread_condattr_t steady;
    pthread_condattr_init(&steady);
    pthread_condattr_setclock(&steady, CLOCK_MONOTONIC);
    pthread_cond_init(condition, &steady);
    pthread_condattr_destroy(&steady);
}

/* ---- commits */

/* Makes the listed call of that number: a write writes what stands in the library. */
static uint32_t make_call(cvec_vector *vector, uint64_t number) {
    cvec_call call;
    uint32_t answer = cvec_phase_call(&vector->committer, number, &call);
    if (answer != CVEC_DONE) return answer;
    vector->written += call.len;
    if (vector->in_memory) return CVEC_DONE; /* nobody would read it */
    return call.kind == 1 ? cvec_system_sync(vector->fd) : cvec_system_write_at(vector->fd, call.at, call.bytes, (size_t)call.len);
}

/* Makes the listed calls in their order. */
static uint32_t make_calls(cvec_vector *vector) {
    uint32_t answer = CVEC_DONE;
    for (uint64_t number = 0; answer == CVEC_DONE; number++) answer = make_call(vector, number);
    return answer == CVEC_OUT_OF_RANGE ? CVEC_DONE : answer; /* behind the last one */
}

uint32_t cvec_commit(cvec_vector *vector, uint64_t *growths) {
    uint64_t durable = 0;
    vector->written = 0;
    uint32_t answer = cvec_phase_plan(&vector->committer, growths);
    if (answer == CVEC_DONE) answer = make_calls(vector);
    if (answer == CVEC_DONE) answer = cvec_phase_settle(&vector->committer, &durable);
    if (answer == CVEC_DONE) vector->committed = vector->base + durable;
    return answer;
}

/* Whether the answer of a commit leaves a vector that commits no more: else the same commit may be tried again. */
static bool is_lasting(uint32_t answer) {
    return answer != CVEC_DONE && answer != CVEC_MEMORY && answer != CVEC_FILE_FULL;
}

void cvec_come(cvec_vector *vector) {
    if (vector->woken > 0 && --vector->woken == 0) pthread_cond_signal(&vector->returned);
}

/* With the mutex: waits for those that the last commit woke, 100 microseconds at most. What they grow by in between is then in
 * the next group: else half of them would always wait for the other half. */
static void await_woken(cvec_vector *vector) {
    const struct timespec until = cvec_moment_behind(0, LONGEST_GATHERING);
    while (vector->woken > 0 && pthread_cond_timedwait(&vector->returned, &vector->mutex, &until) == 0) {}
    vector->woken = 0;
}

/* With the mutex: nobody commits any more, and who waited for it goes on. */
static void end_commit(cvec_vector *vector) {
    vector->committing = false;
    vector->durable = vector->committed;
    vector->woken = vector->waiting;
    vector->waiting = 0;
    pthread_cond_broadcast(&vector->settled);
}

uint32_t cvec_lead(cvec_vector *vector, uint64_t *growths) {
    vector->committing = true;
    if (vector->woken > 0 && vector->written < LARGE_GROUP) await_woken(vector);
    pthread_mutex_unlock(&vector->mutex);
    uint32_t answer = cvec_commit(vector, growths);
    pthread_mutex_lock(&vector->mutex);
    if (is_lasting(answer)) set_broken(vector);
    end_commit(vector);
    return answer;
}

/* ---- having all handles: a pause of all calls by seats */

/* With the mutex: whether calls by seats wait. */
static void shut(cvec_vector *vector) {
    __atomic_store_n(&vector->shut, (uint32_t)(vector->claimed || vector->unseated), __ATOMIC_SEQ_CST);
}

/* With the mutex. Of a call that begins later it sees that, or the call sees that it is shut out, and goes aside. */
static bool is_somebody_inside(const cvec_vector *vector) {
    for (const cvec_seat *seat = vector->first; seat != NULL; seat = seat->next)
        if (__atomic_load_n(&seat->busy, __ATOMIC_SEQ_CST) == INSIDE) return true;
    return false;
}

/* With the mutex, while nobody has all handles: calls by seats that begin later wait. */
static void claim(cvec_vector *vector) {
    vector->asking++;
    vector->claimed = true;
    shut(vector);
}

/* With the mutex, behind a claim: has all handles. Calls inside end by themselves, since none of them waits for another thread's: who
 * awaits a commit, and who is to have another phase, is aside. It hasn't got the mutex from then on. */
static void take_all(cvec_vector *vector) {
    long nap = FIRST_NAP;
    while (vector->committing) pthread_cond_wait(&vector->settled, &vector->mutex);
    vector->committing = true;
    while (is_somebody_inside(vector)) {
        pthread_mutex_unlock(&vector->mutex);
        cvec_give_way(&nap);
        pthread_mutex_lock(&vector->mutex);
    }
    pthread_mutex_unlock(&vector->mutex);
}

/* With the mutex: nobody claims all handles any more. Who waits now comes in before the next call of the whole vector: one that makes
 * them in a loop would have others wait for ever. Of those in line for a seat the first one does, or finds none. */
static void let_others_in(cvec_vector *vector) {
    vector->asking--;
    vector->claimed = false;
    vector->owes_first = vector->line != NULL;
    vector->owed = vector->paused + vector->owes_first;
    shut(vector);
    pthread_cond_broadcast(&vector->released);
    cvec_call_first(vector);
}

/* Others have them again. It has the mutex from then on. */
static void give_all_back(cvec_vector *vector) {
    pthread_mutex_lock(&vector->mutex);
    end_commit(vector);
    let_others_in(vector);
}

void cvec_come_in_turn(cvec_vector *vector) {
    if (vector->owed > 0 && --vector->owed == 0) pthread_cond_broadcast(&vector->came);
}

void cvec_await_release(cvec_vector *vector) {
    if (!vector->claimed) return;
    vector->paused++;
    while (vector->claimed) pthread_cond_wait(&vector->released, &vector->mutex);
    vector->paused--;
    cvec_come_in_turn(vector);
}

void cvec_await_pause(cvec_vector *vector) {
    vector->asking++;
    cvec_await_release(vector);
    vector->asking--;
}

/* Behind an answer after which nothing can be committed the vector is broken. */
static uint32_t told(cvec_vector *vector, uint32_t answer) {
    if (answer == CVEC_BROKEN || (answer >= CVEC_DISK_OPEN && answer <= CVEC_DISK_SYNC)) set_broken(vector);
    return answer;
}

uint32_t cvec_settle_listed(cvec_vector *vector) {
    uint64_t durable;
    uint32_t answer = make_calls(vector);
    return told(vector, answer == CVEC_DONE ? cvec_phase_settle(&vector->committer, &durable) : answer);
}

/* ---- phases */

void cvec_drop_idle(cvec_vector *vector) {
    while (vector->idle != NULL) {
        cvec_seat *seat = vector->idle;
        vector->idle = seat->next;
        cvec_phase_close(&seat->grower);
        free(seat);
    }
}

/* Closes the phase and each grower: what was lent of it may go then. What seats keep and have counted stays, and their blocks. */
static void unseat(cvec_vector *vector) {
    cvec_drop_idle(vector);
    for (cvec_seat *seat = vector->first; seat != NULL; seat = seat->next) cvec_phase_close(&seat->grower);
    cvec_phase_close(&vector->phase);
    vector->unseated = vector->seats > 0;
    __atomic_store_n(&vector->lent, 0, __ATOMIC_RELAXED);
}

/* Commits all growths, closes the phase and all growers, and has the vector alone. Refused before it closes them, all is as it was. */
static uint32_t gather(cvec_vector *vector) {
    uint64_t growths = 1;
    uint32_t answer = CVEC_DONE;
    while (answer == CVEC_DONE && growths > 0) answer = cvec_commit(vector, &growths);
    if (answer != CVEC_DONE) return told(vector, answer);
    unseat(vector);
    answer = cvec_phase_gather(&vector->committer);
    vector->alone = answer == CVEC_DONE;
    return told(vector, answer);
}

/* Threads have it again, and growths are counted on. Where even the vault is lost, for want of memory, the file has all. */
static uint32_t share(cvec_vector *vector) {
    uint64_t size;
    uint32_t answer = cvec_phase_share(&vector->committer, vector->growths, vector->most_seats, &vector->phase);
    if (answer != CVEC_DONE) {
        if (cvec_vault_size(&vector->committer, &size) != CVEC_DONE) set_broken(vector);
        return told(vector, answer);
    }
    vector->alone = false;
    vector->base = vector->committed;
    vector->phases++;
    return answer;
}

/* Each seat that isn't closed has a grower of the new phase; or none has, where memory is refused. */
static uint32_t seat_all(cvec_vector *vector) {
    uint32_t answer = CVEC_DONE;
    for (cvec_seat *seat = vector->first; seat != NULL && answer == CVEC_DONE; seat = seat->next)
        answer = cvec_phase_seat(&vector->phase, &seat->grower);
    if (answer == CVEC_DONE)
        vector->unseated = false;
    else
        unseat(vector);
    return answer;
}

/* To end a phase frees its growths: not while some are lent. */
static uint32_t end_phase(cvec_vector *vector) {
    if (is_broken(vector)) return CVEC_BROKEN;
    if (vector->alone) return CVEC_DONE;
    return has_lent(vector) ? CVEC_FULL : gather(vector);
}

/* Once growers are closed nothing is lent until it is done. */
uint32_t cvec_renew(cvec_vector *vector) {
    if (has_lent(vector)) return CVEC_FULL; /* already: nobody has to wait */
    claim(vector);
    take_all(vector);
    uint32_t answer = end_phase(vector);
    if (answer == CVEC_DONE) answer = share(vector);
    if (answer == CVEC_DONE) answer = seat_all(vector);
    give_all_back(vector);
    return answer;
}

/* ---- calls of the whole vector */

/* With the mutex: until one may claim all handles, or others hold the vector. No seat tells a close of who waits here, and it would
 * free the vector under them: they are counted. */
static void await_handles(cvec_vector *vector) {
    vector->asking++;
    while (vector->holds == 0 && (vector->claimed || vector->owed > 0))
        pthread_cond_wait(vector->claimed ? &vector->released : &vector->came, &vector->mutex);
    vector->asking--;
}

/* With the mutex, behind a claim: until nobody commits, or somebody holds the vector: until then the call hasn't begun. */
static void await_committer(cvec_vector *vector) {
    vector->yields = true;
    while (vector->committing && vector->holds == 0) pthread_cond_wait(&vector->settled, &vector->mutex);
    vector->yields = false;
}

/* With the mutex: why there is no call of the whole vector. */
static uint32_t refusal(const cvec_vector *vector) {
    if (vector->over) return CVEC_NOT_SO;
    if (vector->holds > 0) return CVEC_BUSY;
    return is_broken(vector) ? CVEC_BROKEN : CVEC_DONE;
}

static void leave_alone(cvec_vector *vector) {
    give_all_back(vector);
    pthread_mutex_unlock(&vector->mutex);
}

/* With the mutex: has all handles where it answers CVEC_DONE, and then hasn't got the mutex. */
static uint32_t claim_all(cvec_vector *vector) {
    await_handles(vector);
    uint32_t answer = refusal(vector);
    if (answer != CVEC_DONE) return answer;
    claim(vector);
    await_committer(vector);
    answer = refusal(vector); /* by a hold, or what that commit was refused */
    if (answer == CVEC_DONE)
        take_all(vector);
    else
        let_others_in(vector);
    return answer;
}

/* For a call of the whole vector: it has the vector alone where it answers CVEC_DONE. */
static uint32_t enter_alone(cvec_vector *vector) {
    uint32_t answer = refusal_of(vector);
    if (answer != CVEC_DONE) return answer;
    pthread_mutex_lock(&vector->mutex);
    answer = claim_all(vector);
    if (answer != CVEC_DONE) pthread_mutex_unlock(&vector->mutex);
    if (answer != CVEC_DONE || vector->alone) return answer;
    answer = gather(vector);
    if (answer != CVEC_DONE) leave_alone(vector);
    return answer;
}

/* The same for one that names records of this type, and passes these. */
static uint32_t enter_alone_with(cvec_vector *vector, cvec_type type, const void *records, size_t count) {
    if (vector == NULL) return CVEC_NOT_SO;
    if (!has_width_of(vector, type)) return CVEC_WIDTH;
    return are_records(vector->type, records, count) ? enter_alone(vector) : CVEC_NO_RECORD;
}

/* Behind what a vault was asked to write. */
static uint32_t settle_alone(cvec_vector *vector, uint32_t answer) {
    if (answer == CVEC_DONE) answer = cvec_settle_listed(vector);
    else if (answer == CVEC_BROKEN) set_broken(vector);
    leave_alone(vector);
    return answer;
}

static uint32_t vault_change(cvec_type type, cvec_handle *vault, uint64_t start, const void *records, size_t count) {
    const size_t len = cvec_bytes_of(type, count);
    if (type != CVEC_FLAGGED) return cvec_vault_change(vault, start, records, len);
    uint8_t *bytes = malloc(len > 0 ? len : 1);
    if (bytes == NULL) return CVEC_MEMORY;
    cvec_pack(records, count, bytes);
    const uint32_t answer = cvec_vault_change(vault, start, bytes, len);
    free(bytes);
    return answer;
}

cvec_status cvec_vector_change(cvec_vector *vector, cvec_type type, uint64_t start, const void *records, size_t count) {
    uint32_t answer = enter_alone_with(vector, type, records, count);
    if (answer != CVEC_DONE) return answer;
    return settle_alone(vector, vault_change(vector->type, &vector->committer, start, count > 0 ? records : no_records, count));
}

static uint32_t vault_resize(cvec_type type, cvec_handle *vault, uint64_t size, const void *record) {
    uint8_t room[FLAGGED_LEN];
    return cvec_vault_resize(vault, size, bytes_of_one(type, record, room), width_of(type));
}

cvec_status cvec_vector_resize(cvec_vector *vector, cvec_type type, uint64_t size, const void *record) {
    uint32_t answer = enter_alone_with(vector, type, record, 1);
    if (answer != CVEC_DONE) return answer;
    return settle_alone(vector, vault_resize(vector->type, &vector->committer, size, record));
}

cvec_status cvec_vector_clear(cvec_vector *vector) {
    uint32_t answer = enter_alone(vector);
    static const uint8_t none[MOST_WIDTH]; /* of no record more a copy is made */
    return answer == CVEC_DONE ? settle_alone(vector, cvec_vault_resize(&vector->committer, 0, none, width_of(vector->type))) : answer;
}

cvec_status cvec_vector_fold(cvec_vector *vector) {
    uint32_t answer = enter_alone(vector);
    return answer == CVEC_DONE ? settle_alone(vector, cvec_vault_fold(&vector->committer)) : answer;
}

cvec_status cvec_vector_compact(cvec_vector *vector) {
    uint32_t answer = enter_alone(vector);
    if (answer == CVEC_DONE) leave_alone(vector);
    return answer;
}
