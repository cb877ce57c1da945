/* bare.c: how long the walk straight over a tree text takes:  bare FILE ROUNDS     the longest tree of a voice, all answers no, then all yes.
 * Beside it a survey of the same text (larsavim_needs) and the walk of the same tree over loaded tables. meter_walk is larsavim_bare_walk of the library that has this call alone.
 * Times are of the processor, in nanoseconds, the best of all rounds. bench/bare reads what is printed. */
#include <stdint.h>
#include <stdio.h>
#include <stdlib.h>
#include <string.h>
#include <time.h>

#include "larsavim_model.h"

enum { WALKS = 1000 };

uint64_t meter_walk(const uint8_t *text, uint64_t text_len, uint64_t tree, const uint8_t *answers, uint64_t answers_len, uint64_t limit, uint64_t *out, uint64_t out_len);

static uint8_t *file;
static uint64_t file_len, words[LARSAVIM_WORDS];
static struct larsavim_model model;

static uint64_t now(void) {
    struct timespec t;
    clock_gettime(CLOCK_THREAD_CPUTIME_ID, &t);
    return (uint64_t)t.tv_sec * 1000000000 + (uint64_t)t.tv_nsec;
}

static void *room(uint64_t bytes) {
    void *at = calloc(1, (size_t)bytes + 8);
    if (at == NULL)
        exit(2);
    return at;
}

static int load(uint64_t which) {
    struct larsavim_model *m = &model;
    memset(m, 0, sizeof *m);
    m->which = which;
    if (larsavim_model_needs(m, file, file_len, words) != LARSAVIM_SUCCESS)
        return 0;
    for (int t = 0; t < LARSAVIM_TABLES; t++) {
        m->lent[t] = larsavim_model_wants(m, t);
        m->table[t] = room(8 * m->lent[t]);
    }
    m->work_lent = m->needs[LARSAVIM_NEEDS_WORK];
    m->work = room(8 * m->work_lent);
    if (larsavim_model_load(m, file, file_len, words) != LARSAVIM_SUCCESS)
        exit(2);
    return 1;
}

/* A model's tree text, by the ranges of the record; bracketed names in the order of STREAM_TYPE, as the voices measured here have them (another order is noticed: the walks would differ). */
static const uint8_t *text_of(uint64_t which, uint64_t *len) {
    uint64_t group = LARSAVIM_POSITION((which - 1) / 2);
    const uint64_t *range = words + (which == LARSAVIM_DURATION ? LARSAVIM_DURATION_TREE : group + (which % 2 == 1 ? LARSAVIM_STREAM_TREE : LARSAVIM_GV_TREE));
    *len = range[1] - range[0] + 1;
    return file + words[LARSAVIM_DATA_START] + range[0];
}

typedef uint64_t walk(const uint8_t *, uint64_t, uint64_t, const uint8_t *, uint64_t, uint64_t, uint64_t *, uint64_t);

static uint64_t timed(walk *call, const uint8_t *text, uint64_t len, uint64_t tree, const uint8_t *answers, uint64_t count, int rounds, uint64_t *out) {
    uint64_t best = UINT64_MAX;
    for (int i = 0; i < rounds; i++) {
        uint64_t start = now();
        if (call(text, len, tree, answers, count, UINT64_MAX, out, LARSAVIM_BARE_OUT) != LARSAVIM_SUCCESS)
            exit(2);
        if (now() - start < best)
            best = now() - start;
    }
    return best;
}

static void measure(uint64_t which, uint64_t tree, int rounds) {
    uint64_t len, lines, questions, survey = UINT64_MAX;
    const uint8_t *text = text_of(which, &len);
    if (!load(which))
        exit(2);
    lines = larsavim_model_row(&model, LARSAVIM_TREES, tree)[LARSAVIM_TREE_LINES];
    questions = larsavim_model_rows(&model, LARSAVIM_QUESTIONS);
    for (int i = 0; i < rounds; i++) {
        uint64_t start = now(), needs[LARSAVIM_NEEDS_OUT];
        larsavim_needs(file, file_len, words, LARSAVIM_WORDS, which, needs, LARSAVIM_NEEDS_OUT);
        if (now() - start < survey)
            survey = now() - start;
    }
    printf("tree %llu %llu %llu %llu\n", (unsigned long long)len, (unsigned long long)lines, (unsigned long long)questions, (unsigned long long)survey);
    for (int yes = 0; yes < 2; yes++) {
        uint8_t *answers = room(questions);
        uint64_t alone[LARSAVIM_BARE_OUT], whole[LARSAVIM_BARE_OUT], out[LARSAVIM_WALK_OUT], a, b, start;
        memset(answers, yes, (size_t)questions);
        a = timed(meter_walk, text, len, tree, answers, questions, rounds, alone);
        b = timed(larsavim_bare_walk, text, len, tree, answers, questions, rounds, whole);
        start = now();
        for (int i = 0; i < WALKS; i++)
            if (larsavim_model_walk(&model, tree, answers, questions, UINT64_MAX, out, LARSAVIM_WALK_OUT) != LARSAVIM_SUCCESS)
                exit(2);
        start = (now() - start) / WALKS;
        if (memcmp(alone, whole, sizeof alone) != 0 || alone[LARSAVIM_BARE_PDF] != out[1] || alone[LARSAVIM_BARE_ASKED] != out[2])
            exit(3);
        printf("%s %llu %llu %llu %llu %llu\n", yes ? "yes" : "no", (unsigned long long)alone[LARSAVIM_BARE_ASKED], (unsigned long long)alone[LARSAVIM_BARE_READ], (unsigned long long)a,
               (unsigned long long)b, (unsigned long long)start);
        free(answers);
    }
}

int main(int argc, char **argv) {
    uint64_t out[LARSAVIM_OPEN_OUT], best = 0, model_of = 0, tree_of = 0;
    FILE *f;
    if (argc != 3 || (f = fopen(argv[1], "rb")) == NULL)
        return 2;
    file = room(LARSAVIM_FILE_LIMIT);
    file_len = fread(file, 1, LARSAVIM_FILE_LIMIT, f);
    fclose(f);
    if (larsavim_open(file, file_len, words, LARSAVIM_WORDS, out, LARSAVIM_OPEN_OUT) != LARSAVIM_SUCCESS)
        return 1;
    for (uint64_t which = 0; which <= 2 * words[LARSAVIM_STREAM_TYPE_COUNT]; which++)
        if (load(which))
            for (uint64_t t = 0; t < larsavim_model_rows(&model, LARSAVIM_TREES); t++)
                if (larsavim_model_row(&model, LARSAVIM_TREES, t)[LARSAVIM_TREE_LINES] > best) {
                    best = larsavim_model_row(&model, LARSAVIM_TREES, t)[LARSAVIM_TREE_LINES];
                    model_of = which;
                    tree_of = t;
                }
    measure(model_of, tree_of, atoi(argv[2]));
    return 0;
}
