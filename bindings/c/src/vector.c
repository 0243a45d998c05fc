/* A vector that threads grow, over libcvec_threads.a: how it begins, and how it ends. */
#define _DEFAULT_SOURCE 1
#define _POSIX_C_SOURCE 200809L
#include "vector.h"

#include <errno.h>
#include <fcntl.h>
#include <stdlib.h>
#include <string.h>

/* How many bytes of a file are read at once where it is opened. */
#define PIECE_LEN ((size_t)1 << 18)

/* For how many growths a phase has room at most, and how many it has that isn't wide. */
static const uint64_t MOST_GROWTHS = 536870904, NARROW_GROWTHS = 1048568;

/* By default all seats and who commits reserve 4 bytes for each of 268,435,456 growths together, 1 GiB: a fork asks the system for all
 * that is reserved, and is refused where that is more than the machine's memory. Sanitizers keep account of what is reserved, and
 * take seconds to give it back: there a phase isn't wide. */
static uint64_t default_growths(uint16_t seats) {
#if defined(WITH_ADDRESS_SANITIZER) || defined(WITH_THREAD_SANITIZER)
    (void)seats;
    return NARROW_GROWTHS;
#else
    const uint64_t growths = UINT64_C(268435456) / (seats + UINT64_C(1));
    return growths > NARROW_GROWTHS ? growths : NARROW_GROWTHS;
#endif
}

/* ---- what a vector has */

static pthread_cond_t *condition_of(cvec_vector *vector, int number) {
    pthread_cond_t *const all[] = {&vector->settled,  &vector->returned, &vector->flushing,
                                   &vector->released, &vector->came,     &vector->handed};
    return number < (int)(sizeof all / sizeof *all) ? all[number] : NULL;
}

/* Threads write to their slots with each call. Each is empty: nobody can take it. */
static struct slot *new_slots(void) {
    void *made = NULL;
    if (posix_memalign(&made, APART, MOST_SEATS * sizeof(struct slot)) != 0) return NULL;
    struct slot *slots = made;
    memset(slots, 0, MOST_SEATS * sizeof *slots);
    for (int k = 0; k < MOST_SEATS; k++) slots[k].state = LENT;
    return slots;
}

static cvec_vector *vector_of(void) {
    cvec_vector *vector = calloc(1, sizeof *vector);
    if (vector != NULL) vector->slots = new_slots();
    if (vector == NULL || vector->slots == NULL) {
        free(vector);
        return NULL;
    }
    vector->fd = -1;
    vector->process = cvec_process();
    vector->phases = FIRST_PHASE;
    pthread_mutex_init(&vector->mutex, NULL);
    for (int k = 0; condition_of(vector, k) != NULL; k++) cvec_begin_condition(condition_of(vector, k));
    return vector;
}

/* Gives up the file and its vector. */
static void give_up_file(cvec_vector *vector) {
    cvec_drop_idle(vector);
    cvec_phase_close(&vector->phase);
    cvec_phase_close(&vector->committer);
    if (vector->fd >= 0) cvec_system_close_unlocked(vector->fd);
    vector->fd = -1;
}

/* And what is left: what calls wait by. */
static void give_up(cvec_vector *vector) {
    give_up_file(vector);
    for (int k = 0; condition_of(vector, k) != NULL; k++) pthread_cond_destroy(condition_of(vector, k));
    pthread_mutex_destroy(&vector->mutex);
    free(vector->slots);
    free(vector);
}

/* ---- beginning */

static uint32_t open_alone(cvec_vector *vector, const char *path, int flags) {
    uint32_t answer = cvec_system_open_locked(path, flags, &vector->fd);
    if (answer == CVEC_DONE && flags != 0) answer = cvec_system_sync_folder(path);
    /* What is read then is what a crash leaves. */
    return answer == CVEC_DONE ? cvec_system_sync(vector->fd) : answer;
}

/* How many bytes the file has. Where one of this version is made, they are those that a stopped creation leaves: over others, which
 * are somebody's, it would write. */
static uint32_t ask_length(const cvec_vector *vector, uint8_t version, uint64_t *len) {
    *len = 0;
    if (vector->in_memory) return CVEC_DONE;
    const uint8_t empty[CVEC_EMPTY_LEN] = {1, 'C', 'V', 'E', 'C', 'S', 'E', 'G', version, (uint8_t)width_of(vector->type), 0, 0};
    return version == 0 ? cvec_system_length(vector->fd, len) : cvec_system_vacant(vector->fd, empty, len);
}

/* Gives the handle what its file holds, from the front on, piece by piece. */
static uint32_t feed(cvec_handle *file, int fd, uint64_t len) {
    uint32_t answer = CVEC_DONE;
    uint8_t *piece = malloc(PIECE_LEN);
    if (piece == NULL) return CVEC_MEMORY;
    for (uint64_t at = 0; answer == CVEC_DONE && at < len; at += PIECE_LEN) {
        const size_t count = len - at < PIECE_LEN ? (size_t)(len - at) : PIECE_LEN;
        answer = cvec_system_read_at(fd, at, piece, count);
        if (answer == CVEC_DONE) answer = cvec_phase_feed(file, piece, count);
    }
    free(piece);
    return answer;
}

/* Begins the vector over what the file holds; a version of 0 opens it. */
static uint32_t begin(cvec_vector *vector, uint8_t version) {
    const uint16_t width = width_of(vector->type);
    cvec_handle *file = &vector->committer; /* which it becomes */
    uint64_t len;
    uint32_t answer = ask_length(vector, version, &len);
    if (answer == CVEC_DONE) answer = cvec_phase_file(len, width, file);
    if (answer == CVEC_DONE) answer = feed(file, vector->fd, len);
    if (answer != CVEC_DONE) return answer;
    return cvec_phase_begin(file, version, vector->growths, vector->most_seats, &vector->phase);
}

/* Opens the file and begins its vector; a version of 0 opens one that is there. */
static uint32_t begin_at(cvec_vector *vector, const char *path, uint8_t version) {
    uint64_t growths = 0;
    vector->in_memory = path == NULL;
    uint32_t answer = vector->in_memory ? CVEC_DONE : open_alone(vector, path, version == 0 ? 0 : O_CREAT);
    if (answer == CVEC_DONE) answer = begin(vector, version);
    return answer == CVEC_DONE ? cvec_commit(vector, &growths) : answer;
}

/* Each option said: what isn't has its default. */
static cvec_options all_options(const cvec_options *said) {
    cvec_options all = {0, 0, 0, 0};
    if (said != NULL) all = *said;
    if (all.version == 0) all.version = 1;
    if (all.seats == 0) all.seats = MOST_SEATS;
    if (all.pushes == 0) all.pushes = CVEC_PUSHES;
    if (all.growths == 0) all.growths = default_growths(all.seats);
    return all;
}

/* What is refused before a file is made. */
static uint32_t check_options(cvec_type type, const cvec_options *options) {
    if (width_of(type) == 0 || options->version > 2) return CVEC_NOT_SO;
    if (options->pushes > (size_t)LARGEST_GROWTH / width_of(type)) return CVEC_TOO_LARGE;
    return options->seats > MOST_SEATS || options->growths > MOST_GROWTHS ? CVEC_TOO_LARGE : CVEC_DONE;
}

/* Where there is no path, nothing is there to be opened. */
static uint32_t begin_with(cvec_vector **begun, const char *path, cvec_type type, bool is_new, const cvec_options *said) {
    const cvec_options options = all_options(said);
    uint32_t answer = path == NULL && !is_new ? CVEC_NOT_SO : check_options(type, &options);
    *begun = NULL;
    if (answer != CVEC_DONE) return answer;
    cvec_vector *vector = vector_of();
    if (vector == NULL) return CVEC_MEMORY;
    vector->type = type;
    vector->most_seats = options.seats;
    vector->pushes = options.pushes;
    vector->growths = options.growths;
    answer = begin_at(vector, path, is_new ? options.version : 0);
    if (answer == CVEC_DONE)
        *begun = vector;
    else
        give_up(vector);
    return answer;
}

cvec_status cvec_vector_create(cvec_vector **vector, const char *path, cvec_type type, const cvec_options *options) {
    return begin_with(vector, path, type, true, options);
}

cvec_status cvec_vector_open(cvec_vector **vector, const char *path, cvec_type type, const cvec_options *options) {
    return begin_with(vector, path, type, false, options);
}

/* What a stopped creation has left isn't opened, but created over, as a file that isn't there. Another may make it between. */
cvec_status cvec_vector_open_or_create(cvec_vector **vector, const char *path, cvec_type type, const cvec_options *options) {
    const uint32_t opened = begin_with(vector, path, type, false, options);
    const bool is_missing = opened == CVEC_DISK_OPEN && errno == ENOENT;
    if (!is_missing && opened != CVEC_UNBORN) return opened;
    const uint32_t created = begin_with(vector, path, type, true, options);
    return created == CVEC_EXISTS ? begin_with(vector, path, type, false, options) : created;
}

cvec_status cvec_vector_identity(const cvec_vector *vector, uint64_t *device, uint64_t *file) {
    if (refusal_of(vector) != CVEC_DONE) return refusal_of(vector);
    return vector->over || vector->in_memory ? CVEC_NOT_SO : cvec_system_identity(vector->fd, device, file);
}

/* ---- ending */

/* With the mutex: commits until there is nothing to commit. */
static uint32_t commit_rest(cvec_vector *vector) {
    uint64_t growths = 1;
    uint32_t answer = CVEC_DONE;
    while (answer == CVEC_DONE && growths > 0) answer = cvec_lead(vector, &growths);
    return answer;
}

static uint32_t commit_all(cvec_vector *vector) {
    if (is_broken(vector)) return CVEC_BROKEN;
    return vector->alone ? cvec_settle_listed(vector) : commit_rest(vector);
}

/* A forked process has copies of the handles, and of a mutex that any thread may have had: it closes the file alone, and leaves its
 * parent the lock. */
static uint32_t leave(cvec_vector *vector) {
    if (vector->fd >= 0) cvec_system_close(vector->fd);
    vector->fd = -1;
    return CVEC_FORKED;
}

/* With the mutex: whether a seat is a caller's own, or somebody holds the vector. */
static bool is_used(const cvec_vector *vector) { return vector->seats > vector->slot_seats || vector->holds > 0; }

/* With the mutex: whether nothing of the vector is in use, and no seat will be borrowed. */
static bool is_idle(cvec_vector *vector) {
    if (!is_used(vector) && vector->asking == 0 && cvec_take_slots(vector)) return true;
    cvec_give_slots_back(vector);
    return false;
}

/* With the mutex, and nobody beside: what isn't durable is committed, or lost where nothing is. */
static uint32_t finish(cvec_vector *vector) {
    cvec_end_flushers(vector);
    cvec_drop_slots(vector);
    return vector->in_memory ? CVEC_DONE : commit_all(vector);
}

/* Of one that was ended there is nothing more to commit. */
cvec_status cvec_vector_close(cvec_vector **closed) {
    cvec_vector *vector = *closed;
    if (vector == NULL) return CVEC_NOT_SO;
    if (!is_of_this_process(vector)) {
        *closed = NULL;
        return leave(vector);
    }
    pthread_mutex_lock(&vector->mutex);
    const bool was_ended = vector->ended, busy = !was_ended && (vector->over || !is_idle(vector));
    uint32_t answer = busy ? CVEC_BUSY : was_ended ? CVEC_DONE : finish(vector);
    pthread_mutex_unlock(&vector->mutex);
    if (busy) return answer;
    *closed = NULL;
    cvec_join_flushers(vector);
    give_up(vector);
    return answer;
}

/* With the mutex: each call that waits by no seat is refused, and each that has borrowed one gives it back. Later ones have none. One
 * that began before may yet take a seat. */
static void await_calls(cvec_vector *vector) {
    long nap = FIRST_NAP;
    vector->over = true;
    while (vector->asking > 0 || is_used(vector) || !cvec_take_slots(vector)) {
        cvec_call_first(vector);
        pthread_mutex_unlock(&vector->mutex);
        cvec_give_way(&nap);
        pthread_mutex_lock(&vector->mutex);
    }
}

cvec_status cvec_vector_end(cvec_vector *vector) {
    if (vector == NULL) return CVEC_NOT_SO;
    if (!is_of_this_process(vector)) return leave(vector);
    pthread_mutex_lock(&vector->mutex);
    uint32_t answer = vector->over ? CVEC_NOT_SO : is_used(vector) ? CVEC_BUSY : CVEC_DONE;
    if (answer == CVEC_DONE) {
        await_calls(vector);
        answer = finish(vector);
        give_up_file(vector);
        vector->ended = true;
    }
    pthread_mutex_unlock(&vector->mutex);
    return answer;
}
