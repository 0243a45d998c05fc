/* Eight sensors put samples into one file, until the program is killed: samples FILE. Begun again, each sensor goes on behind the
 * last of its samples that is there. It is linked with -lm too. */
#include "example.h"

#include <inttypes.h>
#include <math.h>

enum { SENSORS = 8, BLOCK = 100 };

struct sample {
    uint64_t sensor, number;
    double value;
};

/* A sample is so many records of u64, with the bytes that it has in memory. */
enum { WORDS = sizeof(struct sample) / sizeof(uint64_t) };

struct sensor {
    cvec_vector *samples;
    uint64_t name, next; /* the number of its next sample */
};

/* A hundred samples are one growth. Once it is awaited, no stop of the process or of the system takes them. */
static void *measure(void *work) {
    struct sensor *sensor = work;
    struct sample block[BLOCK];
    cvec_seat *seat;
    cvec_receipt receipt;
    require(cvec_seat_take(sensor->samples, &seat));
    for (;;) {
        for (int k = 0; k < BLOCK; k++, sensor->next++)
            block[k] = (struct sample){sensor->name, sensor->next, sin((double)sensor->next)};
        require(cvec_seat_grow(seat, CVEC_U64, block, BLOCK * WORDS, &receipt));
        require(cvec_seat_settle(seat, receipt.number, CVEC_NO_LIMIT));
    }
    return NULL;
}

/* Finds the next sample of each sensor, and answers how many samples there are. */
static uint64_t find_next(cvec_vector *samples, struct sensor *sensors) {
    uint64_t words;
    struct sample *found = read_all(samples, CVEC_U64, sizeof(uint64_t), &words);
    if (words % WORDS != 0) require(CVEC_WIDTH);
    for (uint64_t k = 0; k < words / WORDS; k++) {
        if (found[k].sensor >= SENSORS) fail("the file has other records", "");
        sensors[found[k].sensor].next = found[k].number + 1;
    }
    free(found);
    return words / WORDS;
}

int main(int argc, char **argv) {
    struct sensor sensors[SENSORS];
    pthread_t threads[SENSORS];
    if (argc != 2) return 2;
    cvec_vector *samples = open_or_create(argv[1], CVEC_U64, SENSORS + 1);
    for (uint64_t k = 0; k < SENSORS; k++) sensors[k] = (struct sensor){samples, k, 0};
    printf("found %" PRIu64 " samples:", find_next(samples, sensors));
    for (int k = 0; k < SENSORS; k++) printf(" %" PRIu64, sensors[k].next);
    printf("\n");
    fflush(stdout);
    for (int k = 0; k < SENSORS; k++) begin(&threads[k], measure, &sensors[k]);
    for (int k = 0; k < SENSORS; k++) pthread_join(threads[k], NULL);
    return 0;
}
