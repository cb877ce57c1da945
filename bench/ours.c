/* ours.c: how long the library takes:  ours FILE REPETITIONS [ROUNDS]     open and load of every model of a file in memory, best of so many repetitions; and walks, one by one and as jobs.
 * ours FILE -REPETITIONS does open and load so often and nothing else, for counting instructions.
 * Times are of the processor, in nanoseconds. Prints lines of a name and numbers; bench/time reads them. */
#include <stdint.h>
#include <stdio.h>
#include <stdlib.h>
#include <string.h>
#include <time.h>

#include "larsavim_model.h"

enum { MODELS = 2 * LARSAVIM_STREAM_LIMIT + 1, SETS = 64 };

struct model {
    struct larsavim_model at;
    uint8_t *answers; /* SETS sets, a byte a question in each */
};

static uint8_t *file;
static uint64_t file_len, words[LARSAVIM_WORDS], work_len, tables_len;
static struct model model[MODELS];
static int models;
static int64_t *work;

/* Nanoseconds of this thread on the processor. */
static uint64_t now(void) {
    struct timespec t;
    clock_gettime(CLOCK_THREAD_CPUTIME_ID, &t);
    return (uint64_t)t.tv_sec * 1000000000 + (uint64_t)t.tv_nsec;
}

static void least(uint64_t *best, uint64_t n) {
    if (n < *best)
        *best = n;
}

static void *room(uint64_t bytes) {
    void *at = calloc(1, (size_t)bytes + 8);
    if (at == NULL)
        exit(2);
    return at;
}

static uint64_t open_file(void) {
    uint64_t out[LARSAVIM_OPEN_OUT];
    return larsavim_open(file, file_len, words, LARSAVIM_WORDS, out, LARSAVIM_OPEN_OUT);
}

static uint64_t needs_of(struct model *m) {
    return larsavim_model_needs(&m->at, file, file_len, words);
}

static uint64_t load(struct model *m) {
    return larsavim_model_load(&m->at, file, file_len, words);
}

/* Tables for every model of the voice but a GV that it doesn't have. */
static void lend(void) {
    for (uint64_t which = 0; which <= 2 * words[LARSAVIM_STREAM_TYPE_COUNT]; which++) {
        struct model *m = &model[models];
        m->at.which = which;
        if (needs_of(m) == LARSAVIM_USEGV)
            continue;
        models++;
        for (int t = 0; t < LARSAVIM_TABLES; t++) {
            m->at.lent[t] = larsavim_model_wants(&m->at, t);
            m->at.table[t] = room(m->at.lent[t] * 8);
            tables_len += m->at.lent[t] * 8;
        }
        if (m->at.needs[LARSAVIM_NEEDS_WORK] > work_len)
            work_len = m->at.needs[LARSAVIM_NEEDS_WORK];
    }
    work = room(work_len * 8);
    for (int k = 0; k < models; k++) {
        model[k].at.work = work;
        model[k].at.work_lent = work_len;
    }
}

/* The bytes of the file read once and as many as the tables have written once, by the C library: as fast as this machine's memory can be. */
static uint64_t memory(uint8_t *to) {
    uint64_t start = now(), both = file_len < tables_len ? file_len : tables_len;
    memcpy(to, file, both);
    if (tables_len > both)
        memset(to + both, 1, tables_len - both);
    __asm__ volatile("" : : "r"(to) : "memory");
    return now() - start;
}

/* What is measured: open, and load of every model. When the opening was done is told. */
static uint64_t open_and_load(void) {
    uint64_t opened, number = open_file();
    opened = now();
    for (int k = 0; k < models; k++)
        if ((number = load(&model[k])) != LARSAVIM_SUCCESS)
            printf("refused %llu\n", (unsigned long long)number);
    return opened;
}

static void times(int repetitions) {
    uint64_t opening = UINT64_MAX, needing = UINT64_MAX, loading = UINT64_MAX, both = UINT64_MAX, copying = UINT64_MAX;
    uint8_t *to = room(tables_len);
    for (int i = 0; i < repetitions; i++) {
        uint64_t start = now(), opened = open_and_load(), loaded = now();
        for (int k = 0; k < models; k++)
            needs_of(&model[k]);
        least(&needing, now() - loaded);
        least(&opening, opened - start);
        least(&loading, loaded - opened);
        least(&both, loaded - start);
        least(&copying, memory(to));
    }
    printf("open %llu\nload %llu\nneeds %llu\nboth %llu\nmemory %llu\n", (unsigned long long)opening, (unsigned long long)loading, (unsigned long long)needing,
           (unsigned long long)both, (unsigned long long)copying);
    printf("lent %llu %llu\n", (unsigned long long)tables_len, (unsigned long long)work_len * 8);
    free(to);
}

/* The same answers as in oracle/bench. */
static void answer(void) {
    uint64_t x = 88172645463325252u;
    for (int k = 0; k < models; k++) {
        uint64_t n = model[k].at.needs[LARSAVIM_NEEDS_QUESTIONS] * SETS;
        model[k].answers = room(n);
        for (uint64_t i = 0; i < n; i++) {
            x ^= x << 13;
            x ^= x >> 7;
            x ^= x << 17;
            model[k].answers[i] = (uint8_t)(x >> 40 & 1);
        }
    }
}

/* Every tree of every model is walked with each set of answers, best of so many rounds; with the largest limit there is. */
static void walks(int rounds) {
    uint64_t best = UINT64_MAX, count = 0, sum = 0, asked = 0;
    answer();
    for (int i = 0; i < rounds; i++) {
        uint64_t start = now();
        count = sum = asked = 0;
        for (int k = 0; k < models; k++)
            for (uint64_t s = 0; s < SETS; s++)
                for (uint64_t t = 0; t < model[k].at.needs[LARSAVIM_NEEDS_TREES]; t++) {
                    uint64_t out[LARSAVIM_WALK_OUT];
                    larsavim_model_walk(&model[k].at, t, model[k].answers + s * model[k].at.needs[LARSAVIM_NEEDS_QUESTIONS], model[k].at.needs[LARSAVIM_NEEDS_QUESTIONS],
                                        UINT64_MAX, out, LARSAVIM_WALK_OUT);
                    sum += out[LARSAVIM_WALK_PDF];
                    asked += out[LARSAVIM_WALK_ASKED];
                    count++;
                }
        least(&best, now() - start);
    }
    printf("walks %llu %llu %llu %llu\n", (unsigned long long)count, (unsigned long long)best, (unsigned long long)sum, (unsigned long long)asked);
}

/* The same walks as jobs: one call a model, a job for each tree and set of answers. The jobs are filled again before each round, outside the time. */
static void jobs(int rounds) {
    uint64_t best = UINT64_MAX, count = 0, calls = 0, sum = 0, asked = 0;
    for (int i = 0; i < rounds; i++) {
        uint64_t taken = 0;
        count = calls = sum = asked = 0;
        for (int k = 0; k < models; k++) {
            uint64_t trees = model[k].at.needs[LARSAVIM_NEEDS_TREES], n = trees * SETS, questions = model[k].at.needs[LARSAVIM_NEEDS_QUESTIONS], start;
            struct larsavim_job *job = room(n * sizeof *job);
            for (uint64_t j = 0; j < n; j++) {
                job[j].tree = j % trees;
                job[j].limit = UINT64_MAX;
                job[j].start = j / trees * questions;
            }
            start = now();
            larsavim_model_walk_jobs(&model[k].at, model[k].answers, SETS * questions, job, n);
            taken += now() - start;
            for (uint64_t j = 0; j < n; j++) {
                sum += job[j].pdf;
                asked += job[j].asked;
            }
            count += n;
            calls++;
            free(job);
        }
        least(&best, taken);
    }
    printf("jobs %llu %llu %llu %llu %llu\n", (unsigned long long)count, (unsigned long long)best, (unsigned long long)sum, (unsigned long long)asked, (unsigned long long)calls);
}

int main(int argc, char **argv) {
    FILE *f = argc > 2 ? fopen(argv[1], "rb") : NULL;
    uint64_t number;
    if (f == NULL)
        return 2;
    file = room(LARSAVIM_FILE_LIMIT);
    file_len = fread(file, 1, LARSAVIM_FILE_LIMIT, f);
    fclose(f);
    if ((number = open_file()) != LARSAVIM_SUCCESS)
        printf("refused %llu\n", (unsigned long long)number); /* the opening alone is timed then: `words` name no stream, and there is no model but the duration's */
    else
        lend();
    for (int i = atoi(argv[2]); i < 0; i++)
        open_and_load();
    if (atoi(argv[2]) < 0)
        return 0;
    times(atoi(argv[2]));
    if (argc > 3) {
        walks(atoi(argv[3]));
        jobs(atoi(argv[3]));
    }
    return 0;
}
