/* Indexes the words of texts by four threads: word_index INDEX WORD TEXT.. Then it prints where WORD stands. The words of a line
 * are one growth, so a stop leaves whole lines: begun again, it goes on with those that aren't there. */
#define _POSIX_C_SOURCE 200809L
#include "example.h"

#include <ctype.h>
#include <inttypes.h>

enum { THREADS = 4 };

struct entry {
    char word[24];  /* as far as it fits, and zeros */
    uint64_t place; /* the number of its text, and in the last 32 bits that of its line */
};

/* An entry is so many records of u64, with the bytes that it has in memory. */
enum { WORDS = sizeof(struct entry) / sizeof(uint64_t) };

/* A thread reads all texts, and takes each fourth line. */
struct indexer {
    cvec_vector *index;
    const struct entry *there; /* what was there before, by its place */
    size_t count;
    char **texts;
    uint64_t name, grown; /* how many lines it has grown by */
    struct entry *entries; /* of a line */
};

static int by_place(const void *one, const void *other) {
    const uint64_t a = ((const struct entry *)one)->place, b = ((const struct entry *)other)->place;
    return (a > b) - (a < b);
}

/* All entries by their places. */
static struct entry *read_index(cvec_vector *index, size_t *count) {
    uint64_t words;
    struct entry *all = read_all(index, CVEC_U64, sizeof(uint64_t), &words);
    if (words % WORDS != 0) require(CVEC_WIDTH);
    *count = (size_t)words / WORDS;
    qsort(all, *count, sizeof *all, by_place);
    return all;
}

/* Makes entries of a line's words in memory that it asks for anew, and answers how many. */
static size_t make_entries(struct entry **entries, const char *line, size_t len, uint64_t place) {
    size_t count = 0, letters = 0;
    struct entry *all = *entries = realloc(*entries, (len / 2 + 1) * sizeof **entries);
    if (all == NULL) require(CVEC_MEMORY);
    for (size_t k = 0; k < len; k++) {
        const bool is_letter = isalpha((unsigned char)line[k]);
        if (is_letter && letters == 0) all[count++] = (struct entry){{0}, place};
        if (is_letter && letters < sizeof all->word) all[count - 1].word[letters] = (char)tolower((unsigned char)line[k]);
        letters = is_letter ? letters + 1 : 0;
    }
    return count;
}

/* Each twenty lines of a thread are made durable. */
static void grow(struct indexer *own, cvec_seat *seat, const char *line, size_t len, uint64_t place) {
    cvec_receipt receipt;
    const size_t count = make_entries(&own->entries, line, len, place);
    if (count == 0) return;
    require(cvec_seat_grow(seat, CVEC_U64, own->entries, count * WORDS, &receipt));
    if (++own->grown % 20 == 0) require(cvec_seat_settle(seat, receipt.number, CVEC_NO_LIMIT));
}

static void *run(void *work) {
    struct indexer *own = work;
    char *line = NULL;
    size_t room = 0;
    cvec_seat *seat;
    require(cvec_seat_take(own->index, &seat));
    for (uint64_t text = 0; own->texts[text] != NULL; text++) {
        FILE *lines = fopen(own->texts[text], "r");
        if (lines == NULL) fail(own->texts[text], strerror(errno));
        struct entry at = {{0}, text << 32 | 1};
        for (ssize_t len; (len = getline(&line, &room, lines)) >= 0; at.place++)
            if (at.place % THREADS == own->name && bsearch(&at, own->there, own->count, sizeof at, by_place) == NULL)
                grow(own, seat, line, (size_t)len, at.place);
        if (!feof(lines)) fail(own->texts[text], strerror(errno));
        fclose(lines);
    }
    require(cvec_seat_close(&seat));
    free(own->entries);
    free(line);
    return NULL;
}

int main(int argc, char **argv) {
    struct indexer indexers[THREADS];
    pthread_t threads[THREADS];
    struct entry *wanted = NULL;
    size_t count;
    uint64_t last = 0;
    if (argc < 4 || make_entries(&wanted, argv[2], strlen(argv[2]), 0) == 0) return 2;
    cvec_vector *index = open_or_create(argv[1], CVEC_U64, THREADS + 1);
    struct entry *there = read_index(index, &count), *all;
    printf("found %zu words\n", count);
    fflush(stdout);
    for (uint64_t k = 0; k < THREADS; k++) {
        indexers[k] = (struct indexer){index, there, count, argv + 3, k, 0, NULL};
        begin(&threads[k], run, &indexers[k]);
    }
    for (int k = 0; k < THREADS; k++) pthread_join(threads[k], NULL);
    all = read_index(index, &count);
    require(cvec_vector_close(&index)); /* commits what nobody has awaited */
    for (struct entry *one = all; one < all + count; one++) {
        if (memcmp(one->word, wanted->word, sizeof one->word) != 0 || one->place == last) continue;
        last = one->place;
        if (last >> 32 >= (uint64_t)argc - 3) fail("the index is of more texts", "");
        printf("%s:%" PRIu64 "\n", argv[3 + (last >> 32)], last & UINT32_MAX);
    }
    free(there);
    free(wanted);
    free(all);
    return 0;
}
