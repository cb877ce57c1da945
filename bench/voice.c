/* voice.c: what calls on a whole voice and on one tree of it take:  voice FILE ROUNDS
 * Opening, its trailer written and looked for, every model loaded, the house's rules, each model's largest and smallest tree through the trailer, and the rows of the longest tree accepted.
 * Times are of the processor, in nanoseconds, the best of all rounds. bench/voice reads what is printed. */
#include <stdint.h>
#include <stdio.h>
#include <stdlib.h>
#include <string.h>
#include <time.h>

#include "larsavim_model.h"

enum { TRAILER = 1 << 20 };

static uint8_t *file, *with; /* the file, and with its trailer */
static uint64_t file_len, with_len, words[LARSAVIM_WORDS];
static int rounds;

static uint64_t now(void) {
    struct timespec t;
    clock_gettime(CLOCK_THREAD_CPUTIME_ID, &t);
    return (uint64_t)t.tv_sec * 1000000000 + (uint64_t)t.tv_nsec;
}

static void *room(uint64_t bytes) {
    void *at = calloc(1, (size_t)bytes + 8);
    if (at == NULL)
        exit(2);
    return at;
}

static void wanted(uint64_t number, uint64_t other) {
    if (number != LARSAVIM_SUCCESS && number != other)
        exit(3);
}

/* The best of all rounds of what stands in `call`. */
#define BEST(best, call)                        \
    do {                                        \
        best = UINT64_MAX;                      \
        for (int round = 0; round < rounds; round++) { \
            uint64_t began = now();             \
            call;                               \
            began = now() - began;              \
            if (began < best)                   \
                best = began;                   \
        }                                       \
    } while (0)

/* Tables for every model of the voice. */
static struct larsavim_model tables(void) {
    struct larsavim_model most = {0}, m = {0};
    for (m.which = 0; m.which <= 2 * words[LARSAVIM_STREAM_TYPE_COUNT]; m.which++)
        if (larsavim_model_needs(&m, with, with_len, words) == LARSAVIM_SUCCESS) {
            for (int t = 0; t < LARSAVIM_TABLES; t++)
                if (larsavim_model_wants(&m, t) > most.lent[t])
                    most.lent[t] = larsavim_model_wants(&m, t);
            if (m.needs[LARSAVIM_NEEDS_WORK] > most.work_lent)
                most.work_lent = m.needs[LARSAVIM_NEEDS_WORK];
        }
    for (int t = 0; t < LARSAVIM_TABLES; t++)
        most.table[t] = room(8 * most.lent[t]);
    most.work = room(8 * most.work_lent);
    return most;
}

static uint64_t bytes_of(const struct larsavim_model *m) {
    uint64_t n = 0;
    for (int t = 0; t < LARSAVIM_TABLES; t++)
        n += 8 * larsavim_model_row_width(t) * m->loaded[LARSAVIM_LOAD_QUESTIONS + t];
    return n;
}

static const uint64_t nobody[LARSAVIM_BOUNDS];

static void one_tree(struct larsavim_model *m, uint64_t tree, uint64_t *best) {
    uint64_t held[LARSAVIM_BOUNDS];
    BEST(*best, (memset(held, 0, sizeof held), wanted(larsavim_model_load_tree(m, tree, LARSAVIM_BOTTOM, held, nobody, with, with_len, words), 0)));
}

/* A model: trees, the time of a full load, its tables' bytes; the largest and the smallest tree, each with records, time and bytes. */
static void model(struct larsavim_model *m) {
    uint64_t full, largest = 0, smallest = 0, trees, all, size[2], best[2], bytes[2];
    BEST(full, wanted(larsavim_model_load(m, with, with_len, words), 0));
    trees = larsavim_model_rows(m, LARSAVIM_TREES);
    all = bytes_of(m);
#define RECORDS(t) larsavim_model_row(m, LARSAVIM_TREES, t)[LARSAVIM_TREE_RECORDS]
    for (uint64_t t = 1; t < trees; t++) {
        if (RECORDS(t) > RECORDS(largest))
            largest = t;
        if (RECORDS(t) < RECORDS(smallest))
            smallest = t;
    }
    size[0] = RECORDS(largest);
    size[1] = RECORDS(smallest);
    one_tree(m, largest, &best[0]);
    bytes[0] = bytes_of(m);
    one_tree(m, smallest, &best[1]);
    bytes[1] = bytes_of(m);
    printf("model%llu %llu %llu %llu", (unsigned long long)m->which, (unsigned long long)trees, (unsigned long long)full, (unsigned long long)all);
    for (int i = 0; i < 2; i++)
        printf(" %llu %llu %llu", (unsigned long long)size[i], (unsigned long long)best[i], (unsigned long long)bytes[i]);
    printf("\n");
}

/* A model's tree text; bracketed names in the order of STREAM_TYPE, as the voices measured here have them (another order is noticed: the rows would not be accepted). */
static const uint8_t *text_of(uint64_t which, uint64_t *len) {
    uint64_t group = LARSAVIM_POSITION((which - 1) / 2);
    const uint64_t *range = words + (which == LARSAVIM_DURATION ? LARSAVIM_DURATION_TREE : group + (which % 2 == 1 ? LARSAVIM_STREAM_TREE : LARSAVIM_GV_TREE));
    *len = range[1] - range[0] + 1;
    return file + words[LARSAVIM_DATA_START] + range[0];
}

/* The longest tree: the bytes of its text, lines, questions, rows; the time to accept them, and of a survey of the text. */
static void accepts(struct larsavim_model *m) {
    uint64_t best = 0, which = 0, tree = 0, len, time, survey, out[LARSAVIM_ACCEPTS_OUT], needs[LARSAVIM_NEEDS_OUT];
    const uint64_t *row;
    const uint8_t *text;
    for (m->which = 0; m->which <= 2 * words[LARSAVIM_STREAM_TYPE_COUNT]; m->which++)
        if (larsavim_model_load(m, file, file_len, words) == LARSAVIM_SUCCESS)
            for (uint64_t t = 0; t < larsavim_model_rows(m, LARSAVIM_TREES); t++)
                if (larsavim_model_row(m, LARSAVIM_TREES, t)[LARSAVIM_TREE_LINES] > best) {
                    best = larsavim_model_row(m, LARSAVIM_TREES, t)[LARSAVIM_TREE_LINES];
                    which = m->which;
                    tree = t;
                }
    m->which = which;
    wanted(larsavim_model_load(m, file, file_len, words), 0);
    row = larsavim_model_row(m, LARSAVIM_TREES, tree);
    text = text_of(which, &len);
    BEST(time, wanted(larsavim_accepts(text, len, tree, m->table[LARSAVIM_RECORDS] + LARSAVIM_RECORD_ROW * row[LARSAVIM_TREE_FIRST], LARSAVIM_RECORD_ROW * row[LARSAVIM_TREE_RECORDS], out, LARSAVIM_ACCEPTS_OUT), 0));
    BEST(survey, wanted(larsavim_needs(file, file_len, words, LARSAVIM_WORDS, which, needs, LARSAVIM_NEEDS_OUT), 0));
    printf("accepts %llu %llu %llu %llu %llu %llu\n", (unsigned long long)len, (unsigned long long)best, (unsigned long long)larsavim_model_rows(m, LARSAVIM_QUESTIONS),
           (unsigned long long)row[LARSAVIM_TREE_RECORDS], (unsigned long long)time, (unsigned long long)survey);
}

/* Every model loaded in turn, and the house's verdict. */
static void house(struct larsavim_model *m) {
    uint64_t loads = 0, one, judged, held[LARSAVIM_BOUNDS], out[LARSAVIM_HOUSE_OUT], opened[LARSAVIM_OPEN_OUT];
    for (m->which = 0; m->which <= 2 * words[LARSAVIM_STREAM_TYPE_COUNT]; m->which++)
        if (larsavim_model_load(m, file, file_len, words) == LARSAVIM_SUCCESS) {
            BEST(one, wanted(larsavim_model_load(m, file, file_len, words), 0));
            loads += one;
        }
    BEST(one, wanted(larsavim_open(file, file_len, words, LARSAVIM_WORDS, opened, LARSAVIM_OPEN_OUT), 0));
    BEST(judged, (memset(held, 0, sizeof held), larsavim_model_house(m, LARSAVIM_BOTTOM, held, nobody, file, file_len, words, out, LARSAVIM_HOUSE_OUT)));
    printf("house %llu %llu %llu %llu %llu\n", (unsigned long long)one, (unsigned long long)loads, (unsigned long long)judged, (unsigned long long)out[0], (unsigned long long)out[LARSAVIM_HOUSE_MODEL]);
}

int main(int argc, char **argv) {
    uint64_t out[LARSAVIM_TRAILED_OUT], written, found, bytes;
    struct larsavim_model m;
    FILE *f;
    if (argc != 3 || (f = fopen(argv[1], "rb")) == NULL)
        return 2;
    rounds = atoi(argv[2]);
    file = room(LARSAVIM_FILE_LIMIT);
    file_len = fread(file, 1, LARSAVIM_FILE_LIMIT, f);
    fclose(f);
    with = room(file_len + TRAILER);
    memcpy(with, file, (size_t)file_len);
    BEST(written, wanted(larsavim_trailer(file, file_len, words, LARSAVIM_WORDS, with + file_len, TRAILER, out, LARSAVIM_TRAILER_OUT), 0));
    bytes = out[LARSAVIM_TRAILER_BYTES];
    with_len = file_len + bytes;
    BEST(found, wanted(larsavim_trailed(with, with_len, words, LARSAVIM_WORDS, out, LARSAVIM_TRAILED_OUT), 0));
    printf("trailer %llu %llu %llu %llu %llu\n", (unsigned long long)file_len, (unsigned long long)out[LARSAVIM_TRAILED_ROWS], (unsigned long long)bytes, (unsigned long long)written, (unsigned long long)found);
    m = tables();
    for (m.which = 0; m.which <= 2 * words[LARSAVIM_STREAM_TYPE_COUNT]; m.which++)
        if (larsavim_model_needs(&m, with, with_len, words) == LARSAVIM_SUCCESS)
            model(&m);
    larsavim_open(file, file_len, words, LARSAVIM_WORDS, out, LARSAVIM_OPEN_OUT);
    house(&m);
    accepts(&m);
    return 0;
}
