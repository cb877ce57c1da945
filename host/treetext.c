/* treetext.c: reads tree text again, so that a message can show what the library counted. The library has found the text, or the part before
 * the place that it gave, to be in the grammar before anything here looks at it; so this reader checks nothing, and only never leaves the text. */
#include <string.h>

#include "host.h"

static int more(const struct reader *r) {
    return r->at < r->text.len;
}

static uint8_t here(const struct reader *r) {
    return more(r) ? r->text.at[r->at] : 0;
}

static int is_blank(uint8_t b) {
    return b == ' ' || b == '\n';
}

static int in_reference(uint8_t b) {
    return (b >= 'A' && b <= 'Z') || (b >= 'a' && b <= 'z') || (b >= '0' && b <= '9') || b == '_' || b == '-';
}

static void pass_blanks(struct reader *r) {
    while (more(r) && is_blank(here(r)))
        r->at++;
}

/* What parts two questions, trees or lines: blanks, and tabs before the newline. */
static void pass_parting(struct reader *r) {
    while (more(r) && (is_blank(here(r)) || here(r) == '\t'))
        r->at++;
}

static int pass(struct reader *r, const char *text) {
    struct bytes rest = part(r->text, r->at, r->text.len - r->at);
    if (!starts_with(rest, text))
        return 0;
    while (*text++ != '\0')
        r->at++;
    return 1;
}

static struct bytes since(const struct reader *r, uint64_t start) {
    return part(r->text, start, r->at - start);
}

/* Bytes up to the next blank: an id or a question's name. */
static struct bytes word(struct reader *r) {
    uint64_t start = r->at;
    while (more(r) && !is_blank(here(r)))
        r->at++;
    return since(r, start);
}

/* A reference without its quotes. */
static struct bytes reference(struct reader *r) {
    struct bytes inner;
    int quoted = pass(r, "\"");
    uint64_t start = r->at;
    while (more(r) && in_reference(here(r)))
        r->at++;
    inner = since(r, start);
    if (quoted)
        pass(r, "\"");
    return inner;
}

static void pass_to(struct reader *r, uint8_t last) {
    while (more(r) && here(r) != last)
        r->at++;
    if (more(r))
        r->at++;
}

static int next_question(struct reader *r, struct bytes *name) {
    if (!pass(r, "QS"))
        return 0;
    pass_blanks(r);
    *name = word(r);
    pass_blanks(r);
    pass_to(r, '}'); /* no pattern has one */
    pass_parting(r);
    return 1;
}

struct reader trees_of(struct bytes text) {
    struct reader r = {text, 0};
    struct bytes name;
    while (next_question(&r, &name)) {
    }
    return r;
}

struct items items_before(struct bytes text, uint64_t at) {
    struct items n = {0, 0};
    struct reader r = {part(text, 0, at < text.len ? at : text.len), 0};
    struct bytes name;
    struct written_tree t;
    struct written_line l;
    while (next_question(&r, &name))
        n.questions++;
    for (; next_tree(&r, &t); n.trees++)
        while (t.braced && next_line(&r, &l)) {
        }
    return n;
}

/* A byte that a pattern can have, or that can stand about patterns. */
static int fits_patterns(uint8_t b) {
    return in_reference(b) || (b != '\0' && strchr("*?!#%&+/:=@^|\", \n", b) != NULL);
}

uint64_t odd_pattern_byte(struct bytes text, uint64_t question) {
    struct reader r = {text, question};
    pass(&r, "QS");
    pass_blanks(&r);
    word(&r);
    pass_blanks(&r);
    if (!pass(&r, "{"))
        return text.len;
    while (more(&r) && fits_patterns(here(&r)))
        r.at++;
    return more(&r) && here(&r) != '}' ? r.at : text.len;
}

int has_question(struct bytes text, struct bytes name) {
    struct reader r = {text, 0};
    struct bytes other;
    while (next_question(&r, &other))
        if (same(name, other))
            return 1;
    return 0;
}

uint64_t last_question_row(struct bytes text, struct bytes name) {
    struct reader r = {text, 0};
    struct bytes other;
    uint64_t last = 0;
    for (uint64_t i = 0; next_question(&r, &other); i++)
        if (same(name, other))
            last = i;
    return last;
}

int next_tree(struct reader *r, struct written_tree *t) {
    uint64_t start;
    pass_parting(r);
    t->start = r->at;
    if (!pass(r, "{*}"))
        return 0;
    pass_blanks(r);
    pass(r, "[");
    start = r->at;
    pass_to(r, ']');
    t->state = part(r->text, start, r->at - start - (r->at > start));
    pass_blanks(r);
    t->braced = pass(r, "{");
    t->lone = part(r->text, 0, 0);
    if (!t->braced)
        t->lone = reference(r);
    return 1;
}

int next_line(struct reader *r, struct written_line *l) {
    pass_parting(r);
    l->start = r->at;
    if (!more(r) || pass(r, "}"))
        return 0;
    l->id = word(r);
    pass_blanks(r);
    l->question = word(r);
    pass_blanks(r);
    l->no = reference(r);
    pass_blanks(r);
    l->yes = reference(r);
    l->whole = since(r, l->start);
    return l->whole.len > 0;
}

int find_tree(struct bytes text, uint64_t tree, struct reader *r, struct written_tree *t) {
    struct written_line l;
    *r = trees_of(text);
    for (uint64_t i = 0; next_tree(r, t); i++) {
        if (i == tree)
            return 1;
        while (t->braced && next_line(r, &l)) {
        }
    }
    return 0;
}

int find_line(struct bytes text, uint64_t tree, uint64_t line, struct written_line *l) {
    struct reader r;
    struct written_tree t;
    if (!find_tree(text, tree, &r, &t) || !t.braced)
        return 0;
    for (uint64_t i = 0; next_line(&r, l); i++)
        if (i == line)
            return 1;
    return 0;
}

/* Decimal digits, perhaps after -, and nothing else. */
int node_id(struct bytes reference, int64_t *id) {
    int negative = reference.len > 0 && reference.at[0] == '-';
    uint64_t n = 0, limit = negative ? UINT64_C(1) << 63 : (UINT64_C(1) << 63) - 1;
    if (reference.len <= (uint64_t)negative)
        return 0;
    for (uint64_t i = (uint64_t)negative; i < reference.len; i++) {
        uint64_t digit = (uint64_t)reference.at[i] - '0';
        if (reference.at[i] < '0' || reference.at[i] > '9' || n > (limit - digit) / 10)
            return 0;
        n = 10 * n + digit;
    }
    *id = !negative ? (int64_t)n : n == 0 ? 0 : -(int64_t)(n - 1) - 1;
    return 1;
}

int bears_id(struct bytes text, uint64_t tree, int64_t id) {
    struct reader r;
    struct written_tree t;
    struct written_line l;
    int64_t other;
    if (!find_tree(text, tree, &r, &t) || !t.braced)
        return 0;
    while (next_line(&r, &l))
        if (node_id(l.id, &other) && other == id)
            return 1;
    return 0;
}

uint64_t line_of(struct bytes text, uint64_t at) {
    uint64_t line = 1;
    for (uint64_t i = 0; i < at && i < text.len; i++)
        line += text.at[i] == '\n';
    return line;
}

uint64_t column_of(struct bytes text, uint64_t at) {
    uint64_t column = 1;
    for (uint64_t i = 0; i < at && i < text.len; i++)
        column = text.at[i] == '\n' ? 1 : column + 1;
    return column;
}
