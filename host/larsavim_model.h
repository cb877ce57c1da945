/* larsavim_model.h: a model as one thing: the tables that are lent for it, their lengths, and what a load returned of them. For those who would rather hand on one
 * pointer than ten. It is optional, takes no memory, and has nothing behind it but the calls of larsavim.h, which each of these makes once.
 *
 *   1. fill in `which`, and ask larsavim_model_needs what it takes;
 *   2. lend: `table[t]` and `lent[t]` numbers for each of the five tables (larsavim_model_wants tells how many), `work` and `work_lent`;
 *   3. larsavim_model_load. The calls behind it take the tables cut to the rows that the load returned; of a refused load these are none, and every walk is refused.
 */
#ifndef LARSAVIM_MODEL_H
#define LARSAVIM_MODEL_H

#include "larsavim.h"

/* The tables, in the order in which larsavim_load takes them and tells their rows. */
enum larsavim_table {
    LARSAVIM_QUESTIONS,
    LARSAVIM_PATTERNS,
    LARSAVIM_TREES,
    LARSAVIM_RECORDS,
    LARSAVIM_VALUES,
    LARSAVIM_TABLES
};

struct larsavim_model {
    uint64_t which;                     /* as in larsavim_load */
    uint64_t needs[LARSAVIM_NEEDS_OUT]; /* what larsavim_model_needs told */
    uint64_t loaded[LARSAVIM_LOAD_OUT]; /* what larsavim_model_load told */
    uint64_t *table[LARSAVIM_TABLES];   /* lent */
    uint64_t lent[LARSAVIM_TABLES];     /* numbers of each */
    int64_t *work;                      /* lent for the load; several models can share it, one after the other */
    uint64_t work_lent;
};

/* Numbers in a row; a value is a row of its own. */
static inline uint64_t larsavim_model_row_width(int table) {
    static const uint64_t width[LARSAVIM_TABLES] = {LARSAVIM_QUESTION_ROW, LARSAVIM_PATTERN_ROW, LARSAVIM_TREE_ROW, LARSAVIM_RECORD_ROW, 1};
    return width[table];
}

/* What the model needs, into `needs`. 0, or why it is refused. */
static inline uint64_t larsavim_model_needs(struct larsavim_model *m, const uint8_t *file, uint64_t file_len, const uint64_t *words) {
    return larsavim_needs(file, file_len, words, LARSAVIM_WORDS, m->which, m->needs, LARSAVIM_NEEDS_OUT);
}

/* Numbers that a table wants, by `needs`. */
static inline uint64_t larsavim_model_wants(const struct larsavim_model *m, int table) {
    return m->needs[LARSAVIM_NEEDS_QUESTIONS + table] * larsavim_model_row_width(table);
}

/* Loads the model into its tables, with the answer into `loaded`, of `loaded_len` numbers. */
static inline uint64_t larsavim_model_load_to(const struct larsavim_model *m, const uint8_t *file, uint64_t file_len, const uint64_t *words, uint64_t *loaded, uint64_t loaded_len) {
    return larsavim_load(file, file_len, words, LARSAVIM_WORDS, m->which, m->table[LARSAVIM_QUESTIONS], m->lent[LARSAVIM_QUESTIONS], m->table[LARSAVIM_PATTERNS],
                         m->lent[LARSAVIM_PATTERNS], m->table[LARSAVIM_TREES], m->lent[LARSAVIM_TREES], m->table[LARSAVIM_RECORDS], m->lent[LARSAVIM_RECORDS],
                         m->table[LARSAVIM_VALUES], m->lent[LARSAVIM_VALUES], m->work, m->work_lent, loaded, loaded_len);
}

/* Loads the model into its tables. 0, or why it is refused; then there are no rows. */
static inline uint64_t larsavim_model_load(struct larsavim_model *m, const uint8_t *file, uint64_t file_len, const uint64_t *words) {
    return larsavim_model_load_to(m, file, file_len, words, m->loaded, LARSAVIM_LOAD_OUT);
}

/* Loads the model into one task's rows of tables that two tasks share: `m` has the tables whole. The task's own bounds are `held`, the other's `other`, LARSAVIM_BOUNDS numbers each. */
static inline uint64_t larsavim_model_load_shared(struct larsavim_model *m, uint64_t side, uint64_t *held, const uint64_t *other, const uint8_t *file, uint64_t file_len, const uint64_t *words) {
    return larsavim_load_shared(file, file_len, words, LARSAVIM_WORDS, m->which, side, held, LARSAVIM_BOUNDS, other, LARSAVIM_BOUNDS, m->table[LARSAVIM_QUESTIONS],
                                m->lent[LARSAVIM_QUESTIONS], m->table[LARSAVIM_PATTERNS], m->lent[LARSAVIM_PATTERNS], m->table[LARSAVIM_TREES], m->lent[LARSAVIM_TREES],
                                m->table[LARSAVIM_RECORDS], m->lent[LARSAVIM_RECORDS], m->table[LARSAVIM_VALUES], m->lent[LARSAVIM_VALUES], m->work, m->work_lent, m->loaded,
                                LARSAVIM_LOAD_OUT);
}

/* Loads one tree of the model through the file's trailer, likewise; work for the model's longest tree is enough. */
static inline uint64_t larsavim_model_load_tree(struct larsavim_model *m, uint64_t tree, uint64_t side, uint64_t *held, const uint64_t *other, const uint8_t *file, uint64_t file_len, const uint64_t *words) {
    return larsavim_load_tree(file, file_len, words, LARSAVIM_WORDS, m->which, tree, side, held, LARSAVIM_BOUNDS, other, LARSAVIM_BOUNDS, m->table[LARSAVIM_QUESTIONS],
                              m->lent[LARSAVIM_QUESTIONS], m->table[LARSAVIM_PATTERNS], m->lent[LARSAVIM_PATTERNS], m->table[LARSAVIM_TREES], m->lent[LARSAVIM_TREES],
                              m->table[LARSAVIM_RECORDS], m->lent[LARSAVIM_RECORDS], m->table[LARSAVIM_VALUES], m->lent[LARSAVIM_VALUES], m->work, m->work_lent, m->loaded,
                              LARSAVIM_LOAD_OUT);
}

/* Judges a voice by the house's rules, as larsavim_house: `m` has the tables whole, with rows enough for each of its models. On 0 and 30 to 36 the last of them stands in the task's rows. */
static inline uint64_t larsavim_model_house(const struct larsavim_model *m, uint64_t side, uint64_t *held, const uint64_t *other, const uint8_t *file, uint64_t file_len, uint64_t *words, uint64_t *out,
                                            uint64_t out_len) {
    return larsavim_house(file, file_len, words, LARSAVIM_WORDS, side, held, LARSAVIM_BOUNDS, other, LARSAVIM_BOUNDS, m->table[LARSAVIM_QUESTIONS], m->lent[LARSAVIM_QUESTIONS],
                          m->table[LARSAVIM_PATTERNS], m->lent[LARSAVIM_PATTERNS], m->table[LARSAVIM_TREES], m->lent[LARSAVIM_TREES], m->table[LARSAVIM_RECORDS], m->lent[LARSAVIM_RECORDS],
                          m->table[LARSAVIM_VALUES], m->lent[LARSAVIM_VALUES], m->work, m->work_lent, out, out_len);
}

static inline uint64_t larsavim_model_unload(const struct larsavim_model *m, uint64_t side, uint64_t *held, const uint64_t *other) {
    return larsavim_unload(side, held, LARSAVIM_BOUNDS, other, LARSAVIM_BOUNDS, m->table[LARSAVIM_QUESTIONS], m->lent[LARSAVIM_QUESTIONS], m->table[LARSAVIM_PATTERNS],
                           m->lent[LARSAVIM_PATTERNS], m->table[LARSAVIM_TREES], m->lent[LARSAVIM_TREES], m->table[LARSAVIM_RECORDS], m->lent[LARSAVIM_RECORDS],
                           m->table[LARSAVIM_VALUES], m->lent[LARSAVIM_VALUES]);
}

/* A task's own rows of shared tables, as a model that the calls below take: bounds as the calls handed them back. */
static inline struct larsavim_model larsavim_model_own(const struct larsavim_model *m, uint64_t side, const uint64_t *held) {
    struct larsavim_model own = *m;
    for (int t = 0; t < LARSAVIM_TABLES; t++) {
        uint64_t width = larsavim_model_row_width(t);
        own.loaded[LARSAVIM_LOAD_QUESTIONS + t] = held[t];
        own.table[t] = m->table[t] + LARSAVIM_FIRST(side, m->lent[t], width, held[t]);
        own.lent[t] = width * held[t];
    }
    return own;
}

/* Rows of a table that the load returned, and the numbers in them. */
static inline uint64_t larsavim_model_rows(const struct larsavim_model *m, int table) {
    return m->loaded[LARSAVIM_LOAD_QUESTIONS + table];
}

static inline uint64_t larsavim_model_used(const struct larsavim_model *m, int table) {
    return larsavim_model_rows(m, table) * larsavim_model_row_width(table);
}

/* A row that the load returned. */
static inline const uint64_t *larsavim_model_row(const struct larsavim_model *m, int table, uint64_t i) {
    return m->table[table] + larsavim_model_row_width(table) * i;
}

/* The tree of a state: the first row that has it, or the number of rows where none does. */
static inline uint64_t larsavim_model_tree(const struct larsavim_model *m, uint64_t state) {
    uint64_t trees = larsavim_model_rows(m, LARSAVIM_TREES), t = 0;
    while (t < trees && larsavim_model_row(m, LARSAVIM_TREES, t)[LARSAVIM_TREE_STATE] != state)
        t++;
    return t;
}

/* The values of an entry of a tree, `needs[LARSAVIM_NEEDS_WIDTH]` of them, as binary64 bit patterns; null where the tree has no entry of that PDF number. */
static inline const uint64_t *larsavim_model_entry(const struct larsavim_model *m, uint64_t tree, uint64_t pdf) {
    const uint64_t *row;
    if (tree >= larsavim_model_rows(m, LARSAVIM_TREES))
        return 0;
    row = larsavim_model_row(m, LARSAVIM_TREES, tree);
    if (pdf == 0 || pdf > row[LARSAVIM_TREE_ENTRIES])
        return 0;
    return m->table[LARSAVIM_VALUES] + row[LARSAVIM_TREE_VALUE] + (pdf - 1) * m->needs[LARSAVIM_NEEDS_WIDTH];
}

/* As larsavim_leaves. */
static inline uint64_t larsavim_model_leaves(const struct larsavim_model *m) {
    return larsavim_leaves(m->table[LARSAVIM_QUESTIONS], larsavim_model_used(m, LARSAVIM_QUESTIONS), m->table[LARSAVIM_TREES], larsavim_model_used(m, LARSAVIM_TREES),
                           m->table[LARSAVIM_RECORDS], larsavim_model_used(m, LARSAVIM_RECORDS), m->table[LARSAVIM_VALUES], larsavim_model_used(m, LARSAVIM_VALUES),
                           m->needs[LARSAVIM_NEEDS_WIDTH]);
}

/* As larsavim_answers; `data` is the file from LARSAVIM_DATA_START on, LARSAVIM_DATA_LEN bytes. */
static inline uint64_t larsavim_model_answers(const struct larsavim_model *m, const uint8_t *label, uint64_t label_len, const uint8_t *data, uint64_t data_len, uint8_t *answers,
                                              uint64_t answers_len) {
    return larsavim_answers(label, label_len, m->table[LARSAVIM_QUESTIONS], larsavim_model_used(m, LARSAVIM_QUESTIONS), m->table[LARSAVIM_PATTERNS],
                            larsavim_model_used(m, LARSAVIM_PATTERNS), data, data_len, answers, answers_len);
}

/* As larsavim_walk. */
static inline uint64_t larsavim_model_walk(const struct larsavim_model *m, uint64_t tree, const uint8_t *answers, uint64_t answers_len, uint64_t limit, uint64_t *out, uint64_t out_len) {
    return larsavim_walk(m->table[LARSAVIM_TREES], larsavim_model_used(m, LARSAVIM_TREES), m->table[LARSAVIM_RECORDS], larsavim_model_used(m, LARSAVIM_RECORDS), tree, answers,
                         answers_len, limit, out, out_len);
}

/* As larsavim_walk_jobs. */
static inline void larsavim_model_walk_jobs(const struct larsavim_model *m, const uint8_t *answers, uint64_t answers_len, struct larsavim_job *jobs, uint64_t jobs_len) {
    larsavim_walk_jobs(m->table[LARSAVIM_TREES], larsavim_model_used(m, LARSAVIM_TREES), m->table[LARSAVIM_RECORDS], larsavim_model_used(m, LARSAVIM_RECORDS), answers, answers_len,
                       jobs, jobs_len);
}

/* As larsavim_depth. The work is of the caller's own: LARSAVIM_WORK_A_RECORD numbers for each record of the tree. */
static inline uint64_t larsavim_model_depth(const struct larsavim_model *m, uint64_t tree, int64_t *work, uint64_t work_len, uint64_t *out, uint64_t out_len) {
    return larsavim_depth(m->table[LARSAVIM_TREES], larsavim_model_used(m, LARSAVIM_TREES), m->table[LARSAVIM_RECORDS], larsavim_model_used(m, LARSAVIM_RECORDS), tree, work,
                          work_len, out, out_len);
}

/* As larsavim_write_needs and larsavim_write; `data` as above. */
static inline uint64_t larsavim_model_write_needs(const struct larsavim_model *m, const uint8_t *data, uint64_t data_len, uint64_t *out, uint64_t out_len) {
    return larsavim_write_needs(data, data_len, m->table[LARSAVIM_QUESTIONS], larsavim_model_used(m, LARSAVIM_QUESTIONS), m->table[LARSAVIM_PATTERNS],
                                larsavim_model_used(m, LARSAVIM_PATTERNS), m->table[LARSAVIM_TREES], larsavim_model_used(m, LARSAVIM_TREES), m->table[LARSAVIM_RECORDS],
                                larsavim_model_used(m, LARSAVIM_RECORDS), out, out_len);
}

static inline uint64_t larsavim_model_write(const struct larsavim_model *m, const uint8_t *data, uint64_t data_len, uint8_t *buffer, uint64_t buffer_len, uint64_t *out,
                                            uint64_t out_len) {
    return larsavim_write(data, data_len, m->table[LARSAVIM_QUESTIONS], larsavim_model_used(m, LARSAVIM_QUESTIONS), m->table[LARSAVIM_PATTERNS],
                          larsavim_model_used(m, LARSAVIM_PATTERNS), m->table[LARSAVIM_TREES], larsavim_model_used(m, LARSAVIM_TREES), m->table[LARSAVIM_RECORDS],
                          larsavim_model_used(m, LARSAVIM_RECORDS), buffer, buffer_len, out, out_len);
}

#endif
