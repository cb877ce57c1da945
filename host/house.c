/* house.c: whether voices are of the house, which promises more than the format (02, Wish 11). The library judges; what is read here again, of the text and of the tables, is for the wording
 * of a message alone. */
#include <inttypes.h>
#include <math.h>
#include <string.h>

#include "host.h"

/* ---- a voice by itself ----------------------------------------------------------------------------------------------------------- */

static void keep_most(uint64_t *most, uint64_t n) {
    if (*most < n)
        *most = n;
}

/* Tables of just the rows that the largest model needs, table by table. */
static void lend_for(struct shared *s, const struct voice *v) {
    uint64_t numbers[TABLES] = {0}, work = 0, models = models_of(v), *needs = answer_slice(LARSAVIM_NEEDS_OUT);
    for (uint64_t which = 0; which < models; which++) {
        if (is_unasked_gv(v, which))
            continue;
        larsavim_needs(v->file.at, v->file.len, v->words, LARSAVIM_WORDS, which, needs, LARSAVIM_NEEDS_OUT);
        for (int t = 0; t < TABLES; t++)
            keep_most(&numbers[t], needs[OUT_ROWS + t] * row_width[t]);
        keep_most(&work, needs[OUT_WORK]);
    }
    lend_shared(s, numbers, work);
}

void judge_house(const struct voice *v, uint64_t out[LARSAVIM_HOUSE_OUT]) {
    struct shared s;
    memset(out, 0, 8 * LARSAVIM_HOUSE_OUT);
    if (v->number != LARSAVIM_SUCCESS) {
        out[OUT_NUMBER] = v->number;
        out[LARSAVIM_HOUSE_PLACE] = v->place;
        return;
    }
    lend_for(&s, v);
    house_shared(&s, v->file, LARSAVIM_BOTTOM, out);
    free_shared(&s);
    if (out[OUT_NUMBER] == LARSAVIM_ROOM)
        stop("larsavim_needs and larsavim_house contradict each other");
}

int breaks_rule(const uint64_t out[LARSAVIM_HOUSE_OUT]) {
    return out[OUT_NUMBER] >= LARSAVIM_STREAM_NUMBER && out[OUT_NUMBER] <= LARSAVIM_VARIANCE;
}

/* ---- the two rules that are judged once --------------------------------------------------------------------------------------------- */

static void explain_number(FILE *to, const struct voice *v) {
    uint64_t names = number_of(v, LARSAVIM_STREAM_TYPE_COUNT);
    fprintf(to, "NUM_STREAMS is %" PRIu64 ", and STREAM_TYPE has %" PRIu64 " name%s", number_of(v, LARSAVIM_NUM_STREAMS), names, names == 1 ? "" : "s");
}

static void explain_twice(FILE *to, const struct voice *v) {
    uint64_t names = number_of(v, LARSAVIM_STREAM_TYPE_COUNT);
    for (uint64_t i = 1; i < names; i++)
        for (uint64_t k = 0; k < i; k++)
            if (same(string_of(v, LARSAVIM_STREAM_TYPE + 2 * i), string_of(v, LARSAVIM_STREAM_TYPE + 2 * k))) {
                fputs("STREAM_TYPE has ", to);
                put_quoted(to, string_of(v, LARSAVIM_STREAM_TYPE + 2 * i));
                fputs(" twice", to);
                return;
            }
}

/* ---- the rules of a model ----------------------------------------------------------------------------------------------------------- */

static void put_tree(FILE *to, const struct larsavim_model *m, uint64_t tree) {
    fprintf(to, "tree %" PRIu64 " (state %" PRIu64 ")", tree, row_of(m, TREES, tree)[LARSAVIM_TREE_STATE]);
}

/* The first line whose id isn't that of its place. */
static void explain_ids(FILE *to, const struct voice *v, const struct larsavim_model *m) {
    struct reader r = trees_of(tree_text_of(v, m->which));
    struct pair range = {0, 0};
    struct written_tree head;
    struct written_line l;
    int64_t id;
    tree_range(v, m->which, &range);
    for (uint64_t tree = 0; next_tree(&r, &head); tree++)
        for (int64_t k = 0; head.braced && next_line(&r, &l); k++)
            if (node_id(l.id, &id) && id != -k) {
                put_tree(to, m, tree);
                fprintf(to, ", line %" PRId64 ", byte %" PRIu64 " of the file, bears the id %" PRId64 ", and not %" PRId64, k, number_of(v, LARSAVIM_DATA_START) + range.first + l.start, id, -k);
                return;
            }
}

/* The first name that stood before, as `check` warns of it. */
struct doubled {
    FILE *to;
    int told;
};

static void put_doubled(const struct warning *w, void *with) {
    struct doubled *d = with;
    if (d->told || w->kind != DOUBLED_QUESTION)
        return;
    d->told = 1;
    fputs("the question ", d->to);
    put_quoted(d->to, w->name);
    fprintf(d->to, " stands twice, as question %" PRIu64 " and %" PRIu64 ", bytes %" PRIu64 " and %" PRIu64 " of the file", w->other, w->item, w->other_offset, w->offset);
}

static void explain_names(FILE *to, const struct voice *v, const struct larsavim_model *m) {
    struct doubled d = {to, 0};
    warn_model(v, m, put_doubled, &d);
}

static void explain_leaf(FILE *to, const struct larsavim_model *m) {
    for (uint64_t tree = 0; tree < rows_of(m, TREES); tree++) {
        const uint64_t *row = row_of(m, TREES, tree);
        uint64_t entries = row[LARSAVIM_TREE_ENTRIES];
        for (uint64_t i = 0; i < row[LARSAVIM_TREE_RECORDS]; i++) {
            const uint64_t *leaf = row_of(m, RECORDS, row[LARSAVIM_TREE_FIRST] + i);
            uint64_t pdf = leaf[LARSAVIM_RECORD_PDF];
            if (leaf[LARSAVIM_RECORD_KIND] == 0 || (pdf >= 1 && pdf <= entries))
                continue;
            put_tree(to, m, tree);
            if (pdf == 0)
                fputs(" ends in PDF 0: entries count from 1", to);
            else
                fprintf(to, " ends in PDF %" PRIu64 ", and has %" PRIu64 " %s", pdf, entries, entries == 1 ? "entry" : "entries");
            return;
        }
    }
}

static double value_of(uint64_t bits) {
    double value;
    memcpy(&value, &bits, sizeof value);
    return value;
}

static int is_good(double value, int variance) {
    return isfinite(value) && (!variance || value > 0);
}

/* Where a value stands in the file: an entry's means, its variances, then msd, behind a count for each tree. */
static uint64_t value_byte(const struct voice *v, const struct larsavim_model *m, uint64_t entry, uint64_t k, int variance) {
    struct pair range = {0, 0};
    uint64_t width = width_of(m);
    pdf_range(v, m->which, &range);
    return number_of(v, LARSAVIM_DATA_START) + range.first + 4 * (rows_of(m, TREES) + entry * width + (variance ? width / 2 : 0) + k);
}

static void put_value(FILE *to, double value) {
    if (isnan(value))
        fputs("is no number", to);
    else if (isinf(value))
        fputs("is infinite", to);
    else
        fprintf(to, "is %.9g", value);
}

/* The first mean, or the first variance, that isn't good; entries count from 1, as PDF numbers do. */
static void explain_value(FILE *to, const struct voice *v, const struct larsavim_model *m, int variance) {
    uint64_t width = width_of(m);
    for (uint64_t tree = 0; tree < rows_of(m, TREES); tree++) {
        const uint64_t *row = row_of(m, TREES, tree);
        for (uint64_t e = 0; e < row[LARSAVIM_TREE_ENTRIES]; e++)
            for (uint64_t k = 0; k < width / 2; k++) {
                uint64_t first = row[LARSAVIM_TREE_VALUE] + e * width;
                double value = value_of(m->table[VALUES][first + 2 * k + (uint64_t)variance]);
                if (is_good(value, variance))
                    continue;
                put_tree(to, m, tree);
                fprintf(to, ", entry %" PRIu64 ": %s %" PRIu64 ", byte %" PRIu64 " of the file, ", e + 1, variance ? "variance" : "mean", k, value_byte(v, m, first / width, k, variance));
                put_value(to, value);
                return;
            }
    }
}

/* ---- sentences ---------------------------------------------------------------------------------------------------------------------- */

static void explain_model(FILE *to, const struct voice *v, const uint64_t *out) {
    struct larsavim_model m;
    put_model_name(to, v, out[LARSAVIM_HOUSE_MODEL]);
    fputs(", ", to);
    load_model(v, out[LARSAVIM_HOUSE_MODEL], 0, &m);
    switch (out[OUT_NUMBER]) {
    case LARSAVIM_IDS: explain_ids(to, v, &m); break;
    case LARSAVIM_NAME_TWICE: explain_names(to, v, &m); break;
    case LARSAVIM_LEAF: explain_leaf(to, &m); break;
    default: explain_value(to, v, &m, out[OUT_NUMBER] == LARSAVIM_VARIANCE); break;
    }
    free_model(&m);
}

void explain_rule(FILE *to, const struct voice *v, const uint64_t out[LARSAVIM_HOUSE_OUT]) {
    fprintf(to, "no house voice (%" PRIu64 "): ", out[OUT_NUMBER]);
    switch (out[OUT_NUMBER]) {
    case LARSAVIM_STREAM_NUMBER: explain_number(to, v); break;
    case LARSAVIM_STREAM_TWICE: explain_twice(to, v); break;
    default: explain_model(to, v, out); break;
    }
}

static void explain_house(FILE *to, const struct voice *v, const uint64_t out[LARSAVIM_HOUSE_OUT]) {
    if (v->number != LARSAVIM_SUCCESS) {
        explain_open(to, v);
    } else if (breaks_rule(out)) {
        explain_rule(to, v, out);
    } else {
        put_model_name(to, v, out[LARSAVIM_HOUSE_MODEL]);
        fputs(": ", to);
        explain_load(to, v, out[LARSAVIM_HOUSE_MODEL], out);
    }
}

/* ---- house FILE.. --------------------------------------------------------------------------------------------------------------------- */

static int house_file(const char *path) {
    struct bytes file;
    struct voice v;
    uint64_t out[LARSAVIM_HOUSE_OUT];
    if (!map_file(path, &file))
        return TROUBLE;
    open_voice(&v, file);
    judge_house(&v, out);
    if (out[OUT_NUMBER] != LARSAVIM_SUCCESS) {
        hide_progress();
        printf("%s: ", path);
        explain_house(stdout, &v, out);
        putchar('\n');
    }
    close_voice(&v);
    unmap_file(file);
    return out[OUT_NUMBER] == LARSAVIM_SUCCESS ? ALL_WELL : REFUSED;
}

/* Every file is looked at, whatever the ones before it are. */
int house(int files, char **paths) {
    int worst = ALL_WELL;
    for (int i = 0; i < files; i++) {
        int status;
        show_progress("file", (uint64_t)i + 1, (uint64_t)files);
        status = house_file(paths[i]);
        if (worst < status)
            worst = status;
    }
    hide_progress();
    return worst;
}
