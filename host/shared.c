/* shared.c: tables that two tasks share, and the calls on them. */
#include <string.h>

#include "host.h"

const char *const side_name[SIDES] = {"bottom", "top"};

int read_side(const char *word, uint64_t *side) {
    for (*side = 0; *side < SIDES; ++*side)
        if (strcmp(word, side_name[*side]) == 0)
            return 1;
    return 0;
}

/* Memory for so many numbers, each UNTOUCHED; or nothing where there can't be. */
static uint64_t *lend_painted(uint64_t numbers) {
    uint64_t *at;
    if (numbers > SIZE_MAX / 16)
        stop("there is not enough memory for the tables");
    at = lend(8 * numbers);
    for (uint64_t i = 0; i < numbers; i++)
        at[i] = UNTOUCHED;
    return at;
}

void lend_shared(struct shared *s, const uint64_t numbers[TABLES], uint64_t work) {
    for (int t = 0; t < TABLES; t++) {
        s->lent[t] = numbers[t];
        s->table[t] = lend_painted(numbers[t]);
    }
    s->work_lent = work;
    s->work = (int64_t *)lend_painted(work);
    for (int x = 0; x < SIDES; x++) {
        s->held[x] = lend(8 * LARSAVIM_BOUNDS);
        memset(s->held[x], 0, 8 * LARSAVIM_BOUNDS);
    }
}

void free_shared(struct shared *s) {
    for (int t = 0; t < TABLES; t++)
        give_back(s->table[t], 8 * s->lent[t]);
    give_back(s->work, 8 * s->work_lent);
    for (int x = 0; x < SIDES; x++)
        give_back(s->held[x], 8 * LARSAVIM_BOUNDS);
}

uint64_t load_shared(struct shared *s, const struct voice *v, uint64_t which, uint64_t side, uint64_t out[LARSAVIM_LOAD_OUT]) {
    uint64_t *loaded = answer_slice(LARSAVIM_LOAD_OUT);
    uint64_t number = larsavim_load_shared(v->file.at, v->file.len, v->words, LARSAVIM_WORDS, which, side, s->held[side], LARSAVIM_BOUNDS, s->held[1 - side], LARSAVIM_BOUNDS,
                                           s->table[QUESTIONS], s->lent[QUESTIONS], s->table[PATTERNS], s->lent[PATTERNS], s->table[TREES], s->lent[TREES], s->table[RECORDS],
                                           s->lent[RECORDS], s->table[VALUES], s->lent[VALUES], s->work, s->work_lent, loaded, LARSAVIM_LOAD_OUT);
    memcpy(out, loaded, 8 * LARSAVIM_LOAD_OUT);
    return number;
}

uint64_t house_shared(struct shared *s, struct bytes file, uint64_t side, uint64_t out[LARSAVIM_HOUSE_OUT]) {
    uint64_t *told = answer_slice(LARSAVIM_HOUSE_OUT), *words = lend(8 * LARSAVIM_WORDS);
    uint64_t number = larsavim_house(file.at, file.len, words, LARSAVIM_WORDS, side, s->held[side], LARSAVIM_BOUNDS, s->held[1 - side], LARSAVIM_BOUNDS, s->table[QUESTIONS],
                                     s->lent[QUESTIONS], s->table[PATTERNS], s->lent[PATTERNS], s->table[TREES], s->lent[TREES], s->table[RECORDS], s->lent[RECORDS], s->table[VALUES],
                                     s->lent[VALUES], s->work, s->work_lent, told, LARSAVIM_HOUSE_OUT);
    memcpy(out, told, 8 * LARSAVIM_HOUSE_OUT);
    give_back(words, 8 * LARSAVIM_WORDS);
    return number;
}

uint64_t unload_shared(struct shared *s, uint64_t side) {
    return larsavim_unload(side, s->held[side], LARSAVIM_BOUNDS, s->held[1 - side], LARSAVIM_BOUNDS, s->table[QUESTIONS], s->lent[QUESTIONS], s->table[PATTERNS], s->lent[PATTERNS],
                           s->table[TREES], s->lent[TREES], s->table[RECORDS], s->lent[RECORDS], s->table[VALUES], s->lent[VALUES]);
}

int own_rows(const struct shared *s, uint64_t side, struct larsavim_model *m) {
    for (int t = 0; t < TABLES; t++)
        if (s->held[side][t] > s->lent[t] / row_width[t])
            return 0;
    memset(m, 0, sizeof *m);
    for (int t = 0; t < TABLES; t++) {
        uint64_t rows = s->held[side][t], first = LARSAVIM_FIRST(side, s->lent[t], row_width[t], rows);
        m->loaded[OUT_ROWS + t] = rows;
        m->lent[t] = rows * row_width[t];
        m->table[t] = lend(8 * m->lent[t]);
        if (rows > 0)
            memcpy(m->table[t], s->table[t] + first, (size_t)(8 * m->lent[t]));
    }
    m->work = lend(0);
    return 1;
}
