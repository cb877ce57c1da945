/* demo.c: a voice in which two lines of one tree bear the same id. Shows both lines, and by walks which of them a loaded tree goes to.
 *
 * Nothing is known of the voice beforehand: the doubled id is looked for in its tree text, and a way to it in the loaded records. */
#include <inttypes.h>
#include <stdlib.h>
#include <string.h>

#include "host.h"

/* Two lines of a tree with one id: the first that bears it and the last. */
struct doubled {
    uint64_t tree, first, last;
    struct written_tree head;
    struct written_line earlier, later;
    int64_t id;
};

/* The last line of a tree that bears an id. */
static uint64_t last_bearing(struct bytes text, uint64_t tree, int64_t id, struct written_line *found) {
    struct reader r;
    struct written_tree t;
    struct written_line l;
    uint64_t last = 0;
    int64_t other;
    if (!find_tree(text, tree, &r, &t) || !t.braced)
        return 0;
    for (uint64_t i = 0; next_line(&r, &l); i++) {
        if (node_id(l.id, &other) && other == id) {
            last = i;
            *found = l;
        }
    }
    return last;
}

static int find_doubled_in(struct bytes text, uint64_t tree, struct reader *r, struct doubled *d) {
    for (uint64_t i = 0; next_line(r, &d->earlier); i++) {
        if (!node_id(d->earlier.id, &d->id))
            continue;
        d->tree = tree;
        d->first = i;
        d->last = last_bearing(text, tree, d->id, &d->later);
        if (d->last > i)
            return 1;
    }
    return 0;
}

static int find_doubled(struct bytes text, struct doubled *d) {
    struct reader r = trees_of(text);
    for (uint64_t tree = 0; next_tree(&r, &d->head); tree++)
        if (d->head.braced && find_doubled_in(text, tree, &r, d))
            return 1;
    return 0;
}

/* Answers that lead a walk to a record; 0 if there is no way to it. */
static int answers_to(const struct larsavim_model *m, uint64_t tree, uint64_t record, uint8_t *answers) {
    const uint64_t *t = row_of(m, TREES, tree);
    uint64_t *before = ways_from_first(m, tree);
    int found = before[record] != NOT_MET;
    for (uint64_t at = record; found && at != 0; at = before[at]) {
        const uint64_t *row = row_of(m, RECORDS, t[LARSAVIM_TREE_FIRST] + before[at]);
        answers[row[LARSAVIM_RECORD_QUESTION]] = row[LARSAVIM_RECORD_YES] == at;
    }
    free(before);
    return found;
}

/* Answers in the order of the question rows. */
static void show_questions(const struct voice *v, const struct larsavim_model *m) {
    struct bytes data = data_of(v);
    for (uint64_t i = 0; i < rows_of(m, QUESTIONS); i++) {
        const uint64_t *q = row_of(m, QUESTIONS, i);
        struct bytes name = part(data, q[LARSAVIM_QUESTION_START], q[LARSAVIM_QUESTION_LEN]);
        printf("%s%.*s", i == 0 ? "    questions " : " ", (int)name.len, (const char *)name.at);
    }
    putchar('\n');
}

static void show_reference(struct bytes reference) {
    printf("%.*s", (int)reference.len, (const char *)reference.at);
}

static void show_line(uint64_t number, const struct written_line *l) {
    printf("    line %" PRIu64 ":  %.*s\n", number, (int)l->whole.len, (const char *)l->whole.at);
}

/* Whether a reference is to the PDF of a number: its last digits say which. */
static int is_pdf(struct bytes reference, uint64_t number) {
    uint64_t first = reference.len, n = 0;
    int64_t id;
    if (node_id(reference, &id))
        return 0;
    while (first > 0 && reference.at[first - 1] >= '0' && reference.at[first - 1] <= '9')
        first--;
    for (uint64_t i = first; i < reference.len; i++)
        n = 10 * n + (uint64_t)(reference.at[i] - '0');
    return n == number;
}

static void show_walk(const struct larsavim_model *m, uint64_t tree, const uint8_t *answers, uint64_t out[LARSAVIM_WALK_OUT]) {
    uint64_t questions = rows_of(m, QUESTIONS);
    struct bytes all = {answers, questions};
    walk_model(m, tree, all, rows_of(m, RECORDS), out);
    fputs("    answers ", stdout);
    for (uint64_t i = 0; i < questions; i++)
        putchar(answers[i] ? '1' : '0');
    if (out[OUT_NUMBER] == LARSAVIM_SUCCESS)
        printf(": PDF %" PRIu64 " after %" PRIu64 " questions", out[LARSAVIM_WALK_PDF], out[LARSAVIM_WALK_ASKED]);
    else
        printf(": refused (%" PRIu64 ")", out[OUT_NUMBER]);
}

/* Two walks to the doubled id, with either answer to the question of the line that the loaded tree has there. 1 if a walk ended where the
 * last line says and the first one doesn't, and none ended otherwise. */
static int show_walks(const struct larsavim_model *m, const struct doubled *d) {
    const uint64_t *t = row_of(m, TREES, d->tree);
    uint64_t asked_last = row_of(m, RECORDS, t[LARSAVIM_TREE_FIRST] + d->last)[LARSAVIM_RECORD_QUESTION];
    uint64_t asked_first = row_of(m, RECORDS, t[LARSAVIM_TREE_FIRST] + d->first)[LARSAVIM_RECORD_QUESTION];
    uint8_t *answers = lend(rows_of(m, QUESTIONS));
    int found, last_wins = 0, otherwise = 0;
    memset(answers, 0, (size_t)rows_of(m, QUESTIONS));
    answers[asked_first] = 1;
    found = answers_to(m, d->tree, d->last, answers);
    for (int yes = 1; found && yes >= 0; yes--) {
        struct bytes last = yes ? d->later.yes : d->later.no, first;
        uint64_t out[LARSAVIM_WALK_OUT];
        answers[asked_last] = (uint8_t)yes;
        first = answers[asked_first] ? d->earlier.yes : d->earlier.no;
        show_walk(m, d->tree, answers, out);
        printf("; line %" PRIu64 " says ", d->last);
        show_reference(last);
        printf(", line %" PRIu64 " would have said ", d->first);
        show_reference(first);
        putchar('\n');
        last_wins |= is_pdf(last, out[LARSAVIM_WALK_PDF]) && !is_pdf(first, out[LARSAVIM_WALK_PDF]);
        otherwise |= out[OUT_NUMBER] != LARSAVIM_SUCCESS || !is_pdf(last, out[LARSAVIM_WALK_PDF]);
    }
    give_back(answers, rows_of(m, QUESTIONS));
    return last_wins && !otherwise;
}

/* The tree as it is written out of its tables: one id a line, so that each reference shows which line it went to. */
static void show_written(const struct voice *v, const struct larsavim_model *m, uint64_t tree) {
    struct bytes text = write_model(m, data_of(v));
    struct written_tree t, next;
    struct reader r;
    uint64_t end = text.len;
    if (find_tree(text, tree + 1, &r, &next))
        end = next.start;
    puts("\nThe tree written out of the loaded tables, an id for each line:");
    if (find_tree(text, tree, &r, &t))
        for (uint64_t at = t.start; at < end; at++) {
            if (at == t.start || text.at[at - 1] == '\n')
                fputs("    ", stdout);
            putchar(text.at[at]);
        }
    give_back(text.at, text.len);
}

/* 1 if the model has a doubled id; `clear` says whether the walks showed that its last line wins. */
static int show_doubled(const struct voice *v, uint64_t which, const struct larsavim_model *m, int *clear) {
    struct doubled d;
    if (!find_doubled(tree_text_of(v, which), &d))
        return 0;
    printf("\nIn model %" PRIu64 ", ", which);
    put_model_name(stdout, v, which);
    printf(", tree %" PRIu64 " (state %.*s) has two lines with the id %" PRId64 ":\n", d.tree, (int)d.head.state.len, (const char *)d.head.state.at, d.id);
    show_line(d.first, &d.earlier);
    show_line(d.last, &d.later);
    puts("(id, question, where `no` goes, where `yes` goes)\n\nWalks over the loaded tree to that id:");
    show_questions(v, m);
    *clear = show_walks(m, &d);
    if (*clear)
        puts("\nThe last line wins: a reference goes to the last line that bears its id. A loader that went to the first one would speak another sound\n"
             "here, without any complaint; and a clear wrong number is worse than silence.");
    else
        puts("\nThese walks don't show that the last line wins.");
    show_written(v, m, d.tree);
    return 1;
}

/* 1 if a model has a doubled id, and the walks show that its last line wins; 0 if they don't; -1 if no model has one. */
static int demo_models(const struct voice *v) {
    uint64_t models = v->number == LARSAVIM_SUCCESS ? models_of(v) : 0;
    for (uint64_t which = 0; which < models; which++) {
        struct larsavim_model m;
        int shown, clear = 0;
        load_model(v, which, 0, &m);
        shown = m.loaded[OUT_NUMBER] == LARSAVIM_SUCCESS && show_doubled(v, which, &m, &clear);
        free_model(&m);
        if (shown)
            return clear;
    }
    return -1;
}

static int demo_voice(struct bytes file) {
    struct voice v;
    int clear;
    open_voice(&v, file);
    clear = demo_models(&v);
    close_voice(&v);
    if (clear < 0)
        puts("\nNo tree of this voice has two lines with one id.");
    return clear == 1 ? ALL_WELL : REFUSED;
}

int demo(const char *path) {
    struct bytes file;
    int status = inspect(path);
    if (status != ALL_WELL || !map_file(path, &file))
        return status == ALL_WELL ? TROUBLE : status;
    status = demo_voice(file);
    unmap_file(file);
    return status;
}
