/* depth.c: how long the depth check takes:  depth FILE ROUNDS     every tree of every model of a voice;  depth long ROUNDS     chains, ladders and rings of n records.
 * Times are of the processor, in nanoseconds, the best of all rounds. bench/depth reads what is printed. */
#include <stdint.h>
#include <stdio.h>
#include <stdlib.h>
#include <string.h>
#include <time.h>

#include "larsavim_model.h"

enum { MODELS = 2 * LARSAVIM_STREAM_LIMIT + 1 };

static uint8_t *file;
static uint64_t file_len, words[LARSAVIM_WORDS];
static struct larsavim_model model[MODELS];
static int models;

static uint64_t now(void) {
    struct timespec t;
    clock_gettime(CLOCK_THREAD_CPUTIME_ID, &t);
    return (uint64_t)t.tv_sec * 1000000000 + (uint64_t)t.tv_nsec;
}

static void *room(uint64_t bytes) {
    void *at = calloc(1, (size_t)bytes + 8);
    if (at == NULL)
        exit(2);
    return at;
}

static void load(uint64_t which) {
    struct larsavim_model *m = &model[models];
    m->which = which;
    if (larsavim_model_needs(m, file, file_len, words) != LARSAVIM_SUCCESS)
        return;
    for (int t = 0; t < LARSAVIM_TABLES; t++) {
        m->lent[t] = larsavim_model_wants(m, t);
        m->table[t] = room(8 * m->lent[t]);
    }
    m->work_lent = m->needs[LARSAVIM_NEEDS_WORK];
    m->work = room(8 * m->work_lent);
    if (larsavim_model_load(m, file, file_len, words) != LARSAVIM_SUCCESS)
        exit(2);
    models++;
}

/* All trees, each with the work that it needs; records, the deepest, and the time. */
static void all_trees(int rounds) {
    uint64_t best = UINT64_MAX, records = 0, deepest = 0, trees = 0;
    int64_t *work;
    for (int k = 0; k < models; k++)
        records += larsavim_model_rows(&model[k], LARSAVIM_RECORDS);
    work = room(8 * LARSAVIM_WORK_A_RECORD * records);
    for (int i = 0; i < rounds; i++) {
        uint64_t start = now();
        trees = 0;
        for (int k = 0; k < models; k++)
            for (uint64_t t = 0; t < larsavim_model_rows(&model[k], LARSAVIM_TREES); t++) {
                const struct larsavim_model *m = &model[k];
                uint64_t out[LARSAVIM_DEPTH_OUT], own = larsavim_model_row(m, LARSAVIM_TREES, t)[LARSAVIM_TREE_RECORDS];
                if (larsavim_model_depth(m, t, work, LARSAVIM_WORK_A_RECORD * own, out, LARSAVIM_DEPTH_OUT) != LARSAVIM_SUCCESS || out[LARSAVIM_DEPTH_ENDS] != 1)
                    exit(2);
                if (out[LARSAVIM_DEPTH_QUESTIONS] > deepest)
                    deepest = out[LARSAVIM_DEPTH_QUESTIONS];
                trees++;
            }
        if (now() - start < best)
            best = now() - start;
    }
    printf("depth %llu %llu %llu %llu\n", (unsigned long long)trees, (unsigned long long)records, (unsigned long long)deepest, (unsigned long long)best);
}

/* n lines and a leaf: a chain, a ladder (both sides go on), a ring. */
static void long_tables(int rounds) {
    for (uint64_t n = 1000; n <= 1000000; n *= 10)
        for (int kind = 0; kind < 3; kind++) {
            uint64_t tree[LARSAVIM_TREE_ROW] = {2, 0, n + 1, n}, *records = room(8 * LARSAVIM_RECORD_ROW * (n + 1)), best = UINT64_MAX, out[LARSAVIM_DEPTH_OUT];
            int64_t *work = room(8 * LARSAVIM_WORK_A_RECORD * (n + 1));
            for (uint64_t i = 0; i < n; i++) {
                records[LARSAVIM_RECORD_ROW * i + LARSAVIM_RECORD_YES] = kind == 2 && i + 1 == n ? 0 : i + 1;
                records[LARSAVIM_RECORD_ROW * i + LARSAVIM_RECORD_NO] = kind == 1 ? i + 1 : n;
            }
            records[LARSAVIM_RECORD_ROW * n] = 1;
            for (int i = 0; i < rounds; i++) {
                uint64_t start = now();
                larsavim_depth(tree, LARSAVIM_TREE_ROW, records, LARSAVIM_RECORD_ROW * (n + 1), 0, work, LARSAVIM_WORK_A_RECORD * (n + 1), out, LARSAVIM_DEPTH_OUT);
                if (now() - start < best)
                    best = now() - start;
            }
            if (out[LARSAVIM_DEPTH_ENDS] != (kind != 2) || out[LARSAVIM_DEPTH_QUESTIONS] != (kind == 2 ? 0 : n))
                exit(2);
            printf("long%d-%llu %llu\n", kind, (unsigned long long)n, (unsigned long long)best);
            free(records);
            free(work);
        }
}

int main(int argc, char **argv) {
    uint64_t out[LARSAVIM_OPEN_OUT];
    FILE *f;
    if (argc != 3)
        return 2;
    if (strcmp(argv[1], "long") == 0) {
        long_tables(atoi(argv[2]));
        return 0;
    }
    f = fopen(argv[1], "rb");
    if (f == NULL)
        return 2;
    file = room(LARSAVIM_FILE_LIMIT);
    file_len = fread(file, 1, LARSAVIM_FILE_LIMIT, f);
    fclose(f);
    if (larsavim_open(file, file_len, words, LARSAVIM_WORDS, out, LARSAVIM_OPEN_OUT) != LARSAVIM_SUCCESS)
        return 1;
    for (uint64_t which = 0; which <= 2 * words[LARSAVIM_STREAM_TYPE_COUNT]; which++)
        load(which);
    all_trees(atoi(argv[2]));
    return 0;
}
