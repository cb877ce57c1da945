/* model.c: a model in tables of the size that the library asks for. The library has no heap; this program has one, and lends from it. */
#include <string.h>

#include "host.h"

const uint64_t row_width[TABLES] = {LARSAVIM_QUESTION_ROW, LARSAVIM_PATTERN_ROW, LARSAVIM_TREE_ROW, LARSAVIM_RECORD_ROW, 1};
const char *const table_name[TABLES] = {"questions", "patterns", "trees", "records", "values"};

/* Memory for `rows` rows of `width` numbers; every number as UNTOUCHED. */
static void *lend_rows(uint64_t rows, uint64_t width, uint64_t *numbers) {
    uint64_t *at;
    if (rows > SIZE_MAX / 8 / width)
        stop("there is not enough memory for the model's tables");
    *numbers = rows * width;
    at = lend(8 * *numbers);
    for (uint64_t i = 0; i < *numbers; i++)
        at[i] = UNTOUCHED;
    return at;
}

/* The library tells what a model needs in two calls, and they must tell the same. */
static int agree(const struct larsavim_model *m) {
    if (m->needs[OUT_NUMBER] != LARSAVIM_SUCCESS)
        return m->loaded[OUT_NUMBER] == m->needs[OUT_NUMBER];
    if (m->loaded[OUT_NUMBER] != LARSAVIM_SUCCESS)
        return m->loaded[OUT_NUMBER] > LARSAVIM_ROOM;
    return memcmp(m->loaded, m->needs, sizeof m->loaded) == 0;
}

void load_model(const struct voice *v, uint64_t which, uint64_t spare, struct larsavim_model *m) {
    uint64_t *needs = answer_slice(LARSAVIM_NEEDS_OUT), *loaded = answer_slice(LARSAVIM_LOAD_OUT);
    m->which = which;
    larsavim_needs(v->file.at, v->file.len, v->words, LARSAVIM_WORDS, which, needs, LARSAVIM_NEEDS_OUT);
    memcpy(m->needs, needs, sizeof m->needs);
    for (int t = 0; t < TABLES; t++)
        m->table[t] = lend_rows(m->needs[OUT_ROWS + t] + spare, row_width[t], &m->lent[t]);
    m->work = lend_rows(m->needs[OUT_WORK] + spare * LARSAVIM_WORK_A_LINE, 1, &m->work_lent);
    larsavim_model_load_to(m, v->file.at, v->file.len, v->words, loaded, LARSAVIM_LOAD_OUT);
    memcpy(m->loaded, loaded, sizeof m->loaded);
    if (!agree(m))
        stop("larsavim_needs and larsavim_load contradict each other");
}

void free_model(struct larsavim_model *m) {
    for (int t = 0; t < TABLES; t++)
        give_back(m->table[t], 8 * m->lent[t]);
    give_back(m->work, 8 * m->work_lent);
}

uint64_t rows_of(const struct larsavim_model *m, int table) {
    return larsavim_model_rows(m, table);
}

uint64_t width_of(const struct larsavim_model *m) {
    return m->needs[OUT_WIDTH];
}

const uint64_t *row_of(const struct larsavim_model *m, int table, uint64_t i) {
    return larsavim_model_row(m, table, i);
}

void cut_tables(struct larsavim_model *m) {
    for (int t = 0; t < TABLES; t++) {
        uint64_t used = larsavim_model_used(m, t), *cut = lend(8 * used);
        memcpy(cut, m->table[t], (size_t)(8 * used));
        give_back(m->table[t], 8 * m->lent[t]);
        m->table[t] = cut;
        m->lent[t] = used;
    }
}

int leaves_fit(const struct larsavim_model *m) {
    return larsavim_model_leaves(m) == 1;
}

void walk_model(const struct larsavim_model *m, uint64_t tree, struct bytes answers, uint64_t limit, uint64_t out[LARSAVIM_WALK_OUT]) {
    uint64_t *walked = answer_slice(LARSAVIM_WALK_OUT);
    larsavim_model_walk(m, tree, answers.at, answers.len, limit, walked, LARSAVIM_WALK_OUT);
    memcpy(out, walked, 8 * LARSAVIM_WALK_OUT);
}

void walk_jobs_model(const struct larsavim_model *m, struct bytes answers, struct larsavim_job *jobs, uint64_t count) {
    larsavim_model_walk_jobs(m, answers.at, answers.len, jobs, count);
}

/* Between guards the data is a copy: it ends with the file, but doesn't begin with it. */
uint64_t answer_model(const struct voice *v, const struct larsavim_model *m, struct bytes label, struct bytes *answers) {
    struct bytes data = guarded() ? lend_copy(data_of(v)) : data_of(v);
    uint8_t *given = lend(rows_of(m, QUESTIONS));
    uint64_t number = larsavim_model_answers(m, label.at, label.len, data.at, data.len, given, rows_of(m, QUESTIONS));
    if (guarded())
        give_back(data.at, data.len);
    answers->at = given;
    answers->len = rows_of(m, QUESTIONS);
    return number;
}

/* The data of a voice stand in its file; between guards they are lent by themselves. */
static struct bytes lent_data(struct bytes data) {
    struct bytes own = data;
    if (guarded()) {
        uint8_t *copy = lend(data.len);
        if (data.len > 0)
            memcpy(copy, data.at, (size_t)data.len);
        own.at = copy;
    }
    return own;
}

struct bytes write_model(const struct larsavim_model *m, struct bytes data) {
    uint64_t *out = answer_slice(LARSAVIM_WRITE_OUT), needed;
    struct bytes own = lent_data(data), text;
    uint8_t *buffer;
    larsavim_model_write_needs(m, own.at, own.len, out, LARSAVIM_WRITE_NEEDS_OUT);
    needed = out[LARSAVIM_WRITE_NEEDS_LENGTH];
    buffer = lend(needed);
    if (out[OUT_NUMBER] == LARSAVIM_SUCCESS)
        larsavim_model_write(m, own.at, own.len, buffer, needed, out, LARSAVIM_WRITE_OUT);
    if (out[OUT_NUMBER] != LARSAVIM_SUCCESS || out[LARSAVIM_WRITE_LENGTH] != needed)
        stop("the library refuses tables that it loaded");
    if (guarded())
        give_back(own.at, own.len);
    text.at = buffer;
    text.len = needed;
    return text;
}

void depth_model(const struct larsavim_model *m, uint64_t tree, uint64_t out[LARSAVIM_DEPTH_OUT]) {
    uint64_t numbers, *told = answer_slice(LARSAVIM_DEPTH_OUT);
    int64_t *work = lend_rows(row_of(m, TREES, tree)[LARSAVIM_TREE_RECORDS], LARSAVIM_WORK_A_RECORD, &numbers);
    larsavim_model_depth(m, tree, work, numbers, told, LARSAVIM_DEPTH_OUT);
    memcpy(out, told, 8 * LARSAVIM_DEPTH_OUT);
    for (uint64_t i = 0; i < numbers; i++)
        if (work[i] != 0)
            stop("the library left something in its work");
    give_back(work, 8 * numbers);
}
