/* warn.c: what is odd about a model that loads, for whoever builds voices: two lines that bear one id, a question name that stands twice, questions nobody asks, lines
 * nobody reaches. Nothing here is a refusal. What is asked and reached is told by the loaded rows; ids and places by the tree text, read again. */
#include <stdlib.h>
#include <string.h>

#include "host.h"

/* Something with an order among others of its kind, and its number. */
struct keyed {
    int64_t id;
    struct bytes name;
    uint64_t number;
};

static int by_number(const struct keyed *a, const struct keyed *b) {
    return a->number < b->number ? -1 : a->number > b->number;
}

static int by_id(const void *x, const void *y) {
    const struct keyed *a = x, *b = y;
    return a->id != b->id ? (a->id < b->id ? -1 : 1) : by_number(a, b);
}

static int by_name(const void *x, const void *y) {
    const struct keyed *a = x, *b = y;
    uint64_t len = a->name.len < b->name.len ? a->name.len : b->name.len;
    int order = len == 0 ? 0 : memcmp(a->name.at, b->name.at, (size_t)len);
    if (order == 0 && a->name.len != b->name.len)
        order = a->name.len < b->name.len ? -1 : 1;
    return order != 0 ? order : by_number(a, b);
}

static void *room_for(uint64_t count, size_t size) {
    void *at = calloc((size_t)count + 1, size);
    if (at == NULL)
        stop("there is not enough memory to look for what is odd");
    return at;
}

/* For each number the one before it that has the same key, or NOT_MET. Sorts the keys. */
static uint64_t *twins_before(struct keyed *keys, uint64_t count, uint64_t numbers, int (*order)(const void *, const void *)) {
    uint64_t *before = room_for(numbers, 8);
    for (uint64_t i = 0; i < numbers; i++)
        before[i] = NOT_MET;
    qsort(keys, (size_t)count, sizeof *keys, order);
    for (uint64_t i = 1; i < count; i++)
        if (order == by_id ? keys[i - 1].id == keys[i].id : same(keys[i - 1].name, keys[i].name))
            before[keys[i].number] = keys[i - 1].number;
    return before;
}

/* ---- questions ---------------------------------------------------------------------------------------------------------------- */

/* A byte a question: whether any line asks it. */
static uint8_t *asked_questions(const struct larsavim_model *m) {
    uint8_t *asked = room_for(rows_of(m, QUESTIONS), 1);
    for (uint64_t i = 0; i < rows_of(m, RECORDS); i++) {
        const uint64_t *row = row_of(m, RECORDS, i);
        if (row[LARSAVIM_RECORD_KIND] == 0 && row[LARSAVIM_RECORD_QUESTION] < rows_of(m, QUESTIONS))
            asked[row[LARSAVIM_RECORD_QUESTION]] = 1;
    }
    return asked;
}

static void warn_questions(const struct voice *v, const struct larsavim_model *m, void (*tell)(const struct warning *, void *), void *with) {
    uint64_t count = rows_of(m, QUESTIONS), start = number_of(v, LARSAVIM_DATA_START);
    struct bytes data = data_of(v);
    struct keyed *keys = room_for(count, sizeof *keys);
    uint8_t *asked = asked_questions(m), *shadowed = room_for(count, 1);
    uint64_t *twin;
    for (uint64_t i = 0; i < count; i++) {
        const uint64_t *q = row_of(m, QUESTIONS, i);
        keys[i].name = part(data, q[LARSAVIM_QUESTION_START], q[LARSAVIM_QUESTION_LEN]);
        keys[i].number = i;
    }
    twin = twins_before(keys, count, count, by_name);
    for (uint64_t i = 0; i < count; i++)
        if (twin[i] != NOT_MET)
            shadowed[twin[i]] = 1; /* no line can ask it: the last of a name is asked */
    for (uint64_t i = 0; i < count; i++) {
        const uint64_t *q = row_of(m, QUESTIONS, i);
        struct warning w = {DOUBLED_QUESTION, m->which, 0, 0, i, start + q[LARSAVIM_QUESTION_START], twin[i], 0, 0, part(data, q[LARSAVIM_QUESTION_START], q[LARSAVIM_QUESTION_LEN])};
        if (twin[i] != NOT_MET) {
            w.other_offset = start + row_of(m, QUESTIONS, twin[i])[LARSAVIM_QUESTION_START];
            tell(&w, with);
        }
        w.kind = UNASKED_QUESTION;
        if (!asked[i] && !shadowed[i])
            tell(&w, with);
    }
    free(keys);
    free(asked);
    free(shadowed);
    free(twin);
}

/* ---- lines -------------------------------------------------------------------------------------------------------------------- */

uint64_t tree_lines(const struct voice *v, const struct larsavim_model *m, uint64_t tree, struct reader *r, struct seen_line **lines) {
    uint64_t count = row_of(m, TREES, tree)[LARSAVIM_TREE_LINES], *twin, *before, start = number_of(v, LARSAVIM_DATA_START), keyed = 0;
    struct pair range = {0, 0};
    struct keyed *keys = room_for(count, sizeof *keys);
    struct written_line l;
    *lines = room_for(count, sizeof **lines);
    tree_range(v, m->which, &range);
    for (uint64_t k = 0; next_line(r, &l); k++) {
        if (k >= count)
            continue; /* one line with equal references is a leaf: the row has no line */
        (*lines)[k].written = l;
        (*lines)[k].offset = start + range.first + l.start;
        if (node_id(l.id, &(*lines)[k].id)) {
            keys[keyed].id = (*lines)[k].id;
            keys[keyed++].number = k;
        }
    }
    twin = twins_before(keys, keyed, count, by_id);
    before = ways_from_first(m, tree);
    for (uint64_t k = 0; k < count; k++) {
        (*lines)[k].twin = twin[k];
        (*lines)[k].reached = before[k] != NOT_MET;
        if (twin[k] != NOT_MET)
            (*lines)[k].doubled = (*lines)[twin[k]].doubled = 1;
    }
    free(keys);
    free(twin);
    free(before);
    return count;
}

static void warn_lines(const struct voice *v, const struct larsavim_model *m, void (*tell)(const struct warning *, void *), void *with) {
    struct reader r = trees_of(tree_text_of(v, m->which));
    struct written_tree head;
    for (uint64_t tree = 0; tree < rows_of(m, TREES) && next_tree(&r, &head); tree++) {
        struct seen_line *lines;
        uint64_t count;
        if (!head.braced)
            continue;
        count = tree_lines(v, m, tree, &r, &lines);
        for (uint64_t k = 0; k < count; k++) {
            struct warning w = {DOUBLED_ID, m->which, tree, row_of(m, TREES, tree)[LARSAVIM_TREE_STATE], k, lines[k].offset, lines[k].twin, 0, lines[k].id, lines[k].written.question};
            if (w.other != NOT_MET) {
                w.other_offset = lines[w.other].offset;
                tell(&w, with);
            }
            w.kind = UNREACHED_LINE;
            if (!lines[k].reached)
                tell(&w, with);
        }
        free(lines);
    }
}

void warn_model(const struct voice *v, const struct larsavim_model *m, void (*tell)(const struct warning *w, void *with), void *with) {
    warn_questions(v, m, tell, with);
    warn_lines(v, m, tell, with);
}
