/* say.c: from a label to the PDFs of every model, by the loader:  say FILE REPETITIONS < LABELS
 * All questions of each model are answered, then each of its trees is walked. Prints a line: said, PDFs, nanoseconds of the processor for all labels, best of so many repetitions. */
#include <stdint.h>
#include <stdio.h>
#include <stdlib.h>
#include <string.h>
#include <time.h>

#include "larsavim_model.h"

enum { MODELS = 17 };
static struct model {
    struct larsavim_model at;
    uint8_t *answers;
} model[MODELS];
static int models;
static uint8_t *file;
static uint64_t file_len, words[LARSAVIM_WORDS];

static uint64_t now(void) {
    struct timespec t;
    clock_gettime(CLOCK_THREAD_CPUTIME_ID, &t);
    return (uint64_t)t.tv_sec * 1000000000 + (uint64_t)t.tv_nsec;
}

static void *room(uint64_t bytes) {
    void *at = calloc(1, (size_t)bytes + 8);
    if (at == NULL)
        exit(2);
    return at;
}

static void load(uint64_t which) {
    struct model *m = &model[models];
    m->at.which = which;
    if (larsavim_model_needs(&m->at, file, file_len, words) != LARSAVIM_SUCCESS)
        return;
    for (int t = 0; t < LARSAVIM_TABLES; t++) {
        m->at.lent[t] = larsavim_model_wants(&m->at, t);
        m->at.table[t] = room(8 * m->at.lent[t]);
    }
    m->at.work_lent = m->at.needs[LARSAVIM_NEEDS_WORK];
    m->at.work = room(8 * m->at.work_lent);
    m->answers = room(m->at.needs[LARSAVIM_NEEDS_QUESTIONS]);
    if (larsavim_model_load(&m->at, file, file_len, words) == LARSAVIM_SUCCESS)
        models++;
}

static uint64_t say(const char *label) {
    uint64_t count = 0, out[LARSAVIM_WALK_OUT];
    for (int k = 0; k < models; k++) {
        const struct larsavim_model *m = &model[k].at;
        uint64_t questions = larsavim_model_rows(m, LARSAVIM_QUESTIONS);
        if (larsavim_model_answers(m, (const uint8_t *)label, strlen(label), file + words[LARSAVIM_DATA_START], words[LARSAVIM_DATA_LEN], model[k].answers, questions) != LARSAVIM_SUCCESS)
            exit(2);
        for (uint64_t t = 0; t < larsavim_model_rows(m, LARSAVIM_TREES); t++, count++)
            if (larsavim_model_walk(m, t, model[k].answers, questions, UINT64_MAX, out, LARSAVIM_WALK_OUT) != LARSAVIM_SUCCESS)
                exit(2);
    }
    return count;
}

int main(int argc, char **argv) {
    static char label[1000][4096];
    size_t labels = 0;
    uint64_t best = UINT64_MAX, count = 0, out[LARSAVIM_OPEN_OUT];
    FILE *f = argc == 3 ? fopen(argv[1], "rb") : NULL;
    if (f == NULL)
        return 2;
    while (labels < 1000 && fgets(label[labels], sizeof label[0], stdin) != NULL) {
        label[labels][strcspn(label[labels], "\n")] = 0;
        labels++;
    }
    file = room(LARSAVIM_FILE_LIMIT);
    file_len = fread(file, 1, LARSAVIM_FILE_LIMIT, f);
    fclose(f);
    if (larsavim_open(file, file_len, words, LARSAVIM_WORDS, out, LARSAVIM_OPEN_OUT) != LARSAVIM_SUCCESS)
        return 1;
    for (uint64_t which = 0; which <= 2 * words[LARSAVIM_STREAM_TYPE_COUNT]; which++)
        load(which);
    for (int i = 0; i < atoi(argv[2]); i++) {
        uint64_t start = now();
        count = 0;
        for (size_t k = 0; k < labels; k++)
            count += say(label[k]);
        if (now() - start < best)
            best = now() - start;
    }
    printf("said %llu %llu\n", (unsigned long long)count, (unsigned long long)best);
    return 0;
}
