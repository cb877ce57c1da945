/* accept.c: whether record rows that somebody else linked belong to a tree of a voice, and the first that doesn't. The library judges; what is read here again is
 * for the wording of a message alone. */
#include <errno.h>
#include <inttypes.h>
#include <stdlib.h>
#include <string.h>

#include "host.h"

/* ---- rows out of a file ---------------------------------------------------------------------------------------------------------- */

struct rows {
    uint64_t *numbers, count, room;
};

static void add_number(struct rows *r, uint64_t n) {
    if (r->count == r->room) {
        uint64_t *more;
        r->room = 2 * r->room + 64;
        more = realloc(r->numbers, (size_t)(8 * r->room));
        if (more == NULL)
            stop("there is no memory for the rows");
        r->numbers = more;
    }
    r->numbers[r->count++] = n;
}

/* A line of four numbers, as `dump` has them behind `R i`; the two words in front may stand there. */
static int add_row(char *line, struct rows *r) {
    char *words[7];
    int n = cut(line, words, 6), first = n == 6 && strcmp(words[0], "R") == 0 ? 2 : 0;
    if (n != 4 && first == 0)
        return 0;
    for (int i = first; i < first + 4; i++) {
        uint64_t number;
        if (!read_number(words[i], &number))
            return 0;
        add_number(r, number);
    }
    return 1;
}

static int read_rows(const char *path, struct rows *r) {
    FILE *from = strcmp(path, "-") == 0 ? stdin : fopen(path, "r");
    char line[256];
    uint64_t at = 0;
    int good = 1;
    if (from == NULL) {
        fprintf(stderr, "larsavim: %s: %s\n", path, strerror(errno));
        return 0;
    }
    while (good && fgets(line, sizeof line, from) != NULL) {
        at++;
        line[strcspn(line, "\n")] = '\0';
        good = add_row(line, r);
    }
    if (!good)
        fprintf(stderr, "larsavim: accept: line %" PRIu64 " of the rows is no row: four decimal numbers, or R, a number and these four\n", at);
    if (from != stdin)
        fclose(from);
    return good;
}

/* ---- why rows are not the tree's ------------------------------------------------------------------------------------------------------ */

static const uint64_t *row(const struct rows *r, uint64_t i) {
    return r->numbers + LARSAVIM_RECORD_ROW * i;
}

static uint64_t how_many(const struct rows *r) {
    return r->count / LARSAVIM_RECORD_ROW;
}

static uint64_t pdf_number(struct bytes reference) {
    uint64_t n = 0, ten = 1;
    for (uint64_t i = reference.len; i > 0 && reference.at[i - 1] >= '0' && reference.at[i - 1] <= '9'; i--, ten *= 10)
        n += ten * (uint64_t)(reference.at[i - 1] - '0');
    return n;
}

static int is_leaf_row(const uint64_t *r) {
    return r[0] == 1 && r[2] == 0 && r[3] == 0;
}

static void put_row(FILE *to, const struct rows *r, uint64_t i) {
    fprintf(to, "record %" PRIu64 " is (%" PRIu64 ", %" PRIu64 ", %" PRIu64 ", %" PRIu64 ")", i, row(r, i)[0], row(r, i)[1], row(r, i)[2], row(r, i)[3]);
}

/* The last line of the tree that bears an id. */
static uint64_t last_bearer(struct bytes text, uint64_t tree, int64_t id) {
    struct reader r;
    struct written_tree t;
    struct written_line l;
    int64_t other;
    uint64_t last = 0;
    if (!find_tree(text, tree, &r, &t))
        return 0;
    for (uint64_t i = 0; t.braced && next_line(&r, &l); i++)
        if (node_id(l.id, &other) && other == id)
            last = i;
    return last;
}

/* Whether a reference of line k leads where it should; otherwise a sentence. */
static int explain_target(FILE *to, struct bytes text, uint64_t tree, const struct rows *r, uint64_t k, const char *side, struct bytes reference, uint64_t goes) {
    int64_t id;
    if (node_id(reference, &id)) {
        uint64_t last = last_bearer(text, tree, id);
        if (goes == last)
            return 0;
        fprintf(to, "record %" PRIu64 ": %s goes to record %" PRIu64 "; the last line bearing id %" PRId64 " is line %" PRIu64, k, side, goes, id, last);
        return 1;
    }
    if (goes < how_many(r) && is_leaf_row(row(r, goes)) && row(r, goes)[1] == pdf_number(reference))
        return 0;
    fprintf(to, "record %" PRIu64 ": %s goes to record %" PRIu64 ", which ", k, side, goes);
    if (goes >= how_many(r))
        fputs("isn't there", to);
    else
        fprintf(to, "is (%" PRIu64 ", %" PRIu64 ", %" PRIu64 ", %" PRIu64 ")", row(r, goes)[0], row(r, goes)[1], row(r, goes)[2], row(r, goes)[3]);
    fprintf(to, "; the text says PDF %" PRIu64 ", the leaf (1, %" PRIu64 ", 0, 0)", pdf_number(reference), pdf_number(reference));
    return 1;
}

/* 1 after a sentence on line k's row. */
static int explain_line(FILE *to, struct bytes text, uint64_t tree, const struct rows *r, uint64_t k, const struct written_line *l) {
    uint64_t question = last_question_row(text, l->question);
    if (k >= how_many(r)) {
        fprintf(to, "there is no record %" PRIu64 " for line %" PRIu64 " of the tree", k, k);
        return 1;
    }
    if (row(r, k)[0] != 0 || row(r, k)[1] != question) {
        put_row(to, r, k);
        fprintf(to, "; line %" PRIu64 " asks ", k);
        put_quoted(to, l->question);
        fprintf(to, ", question row %" PRIu64 ", so it should begin (0, %" PRIu64 ", ..)", question, question);
        return 1;
    }
    return explain_target(to, text, tree, r, k, "yes", l->yes, row(r, k)[2]) || explain_target(to, text, tree, r, k, "no", l->no, row(r, k)[3]);
}

static void explain_one(FILE *to, const struct rows *r, struct bytes reference) {
    uint64_t n = pdf_number(reference);
    if (how_many(r) > 0 && !(is_leaf_row(row(r, 0)) && row(r, 0)[1] == n)) {
        put_row(to, r, 0);
        fprintf(to, "; the tree is one PDF, the leaf (1, %" PRIu64 ", 0, 0)", n);
    } else {
        fprintf(to, "the tree is one PDF and has one record, (1, %" PRIu64 ", 0, 0); here are %" PRIu64, n, how_many(r));
    }
}

static void explain_rows(FILE *to, struct bytes text, uint64_t tree, const struct rows *r) {
    struct reader at;
    struct written_tree t;
    struct written_line l, only;
    uint64_t lines = 0;
    int64_t id;
    if (!find_tree(text, tree, &at, &t))
        return;
    if (!t.braced) {
        explain_one(to, r, t.lone);
        return;
    }
    while (next_line(&at, &l)) {
        if (lines == 0)
            only = l;
        lines++;
    }
    if (lines == 0) {
        fprintf(to, "the tree has no lines, and so no records; here are %" PRIu64, how_many(r));
        return;
    }
    if (lines == 1 && !node_id(only.no, &id) && !node_id(only.yes, &id) && pdf_number(only.no) == pdf_number(only.yes)) {
        explain_one(to, r, only.yes);
        return;
    }
    find_tree(text, tree, &at, &t);
    for (uint64_t k = 0; next_line(&at, &l); k++)
        if (explain_line(to, text, tree, r, k, &l))
            return;
    for (uint64_t k = lines; k < how_many(r); k++)
        if (!is_leaf_row(row(r, k))) {
            put_row(to, r, k);
            fprintf(to, "; behind the tree's %" PRIu64 " lines only leaves may stand, (1, number, 0, 0)", lines);
            return;
        }
    fputs("the rows are not the tree's", to);
}

/* ---- the verb ------------------------------------------------------------------------------------------------------------------------ */

/* Of a refusal of the text, the answer as a load would have it: 17's place counts from the first data byte there. */
void explain_text_refusal(FILE *to, const struct voice *v, uint64_t which, const uint64_t *out) {
    uint64_t load[LARSAVIM_LOAD_OUT] = {0};
    struct pair range = {0, 0};
    tree_range(v, which, &range);
    load[OUT_NUMBER] = out[0];
    load[OUT_PLACE] = out[1] + (out[0] == LARSAVIM_TEXT ? range.first : 0);
    load[OUT_LINE] = out[2];
    explain_load(to, v, which, load);
}

static int accept_tree(const struct voice *v, uint64_t which, uint64_t tree, const struct rows *r) {
    struct bytes text = lend_copy(tree_text_of(v, which));
    uint64_t *records = lend(8 * r->count), *told = answer_slice(LARSAVIM_ACCEPTS_OUT), out[LARSAVIM_ACCEPTS_OUT];
    if (r->count > 0)
        memcpy(records, r->numbers, (size_t)(8 * r->count));
    larsavim_accepts(text.at, text.len, tree, records, r->count, told, LARSAVIM_ACCEPTS_OUT);
    memcpy(out, told, sizeof out);
    if (out[0] == LARSAVIM_SUCCESS)
        puts("ACCEPTED");
    else
        printf("REFUSED %" PRIu64 "\n", out[0]);
    if (out[0] == LARSAVIM_OTHER_ROWS) {
        fprintf(stderr, "refused (%" PRIu64 "): ", out[0]);
        explain_rows(stderr, text, tree, r);
        fputc('\n', stderr);
    } else if (out[0] == LARSAVIM_WALKTABLE) {
        fprintf(stderr, "refused (%" PRIu64 "): there is no tree %" PRIu64 "\n", out[0], tree);
    } else if (out[0] != LARSAVIM_SUCCESS) {
        explain_text_refusal(stderr, v, which, out);
        fputc('\n', stderr);
    }
    give_back(records, 8 * r->count);
    give_back(text.at, text.len);
    return out[0] == LARSAVIM_SUCCESS ? ALL_WELL : REFUSED;
}

/* A model without a tree text in the data is refused as a load refuses it. */
static int accept_voice(struct bytes file, uint64_t which, uint64_t tree, const struct rows *r) {
    struct voice v;
    struct larsavim_model m;
    int status = REFUSED;
    open_voice(&v, file);
    if (v.number != LARSAVIM_SUCCESS) {
        printf("REFUSED %" PRIu64 "\n", v.number);
        explain_open(stderr, &v);
        fputc('\n', stderr);
        close_voice(&v);
        return REFUSED;
    }
    load_model(&v, which, 0, &m);
    if (m.needs[OUT_NUMBER] >= LARSAVIM_LIMIT && m.needs[OUT_NUMBER] <= LARSAVIM_RANGE) {
        printf("REFUSED %" PRIu64 "\n", m.needs[OUT_NUMBER]);
        explain_load(stderr, &v, which, m.needs);
        fputc('\n', stderr);
    } else {
        status = accept_tree(&v, which, tree, r);
    }
    free_model(&m);
    close_voice(&v);
    return status;
}

/* The words are FILE MODEL TREE ROWS. */
int accept_rows(char **words) {
    struct bytes file;
    struct rows r = {NULL, 0, 0};
    uint64_t which, tree;
    int status = TROUBLE;
    for (int i = 0; i < 2; i++)
        if (!read_number(words[1 + i], i == 0 ? &which : &tree)) {
            fprintf(stderr, "larsavim: accept: %s is '%s', and should be %s\n", walk_word[i], words[1 + i], walk_wanted[i]);
            return TROUBLE;
        }
    if (read_rows(words[3], &r) && map_file(words[0], &file)) {
        status = accept_voice(file, which, tree, &r);
        unmap_file(file);
    }
    free(r.numbers);
    return status;
}
