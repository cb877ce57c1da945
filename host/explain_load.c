/* explain_load.c: why a model was not loaded, as a sentence: what is wrong, and where. */
#include <inttypes.h>

#include "host.h"

/* ---- ranges and blocks -------------------------------------------------------------------------------------------------------- */

static int is_inside(struct pair r, uint64_t len) {
    return r.second < UINT64_MAX && r.first <= r.second + 1 && r.second + 1 <= len;
}

static void put_range(FILE *to, struct pair r) {
    fprintf(to, "%" PRIu64 "-%" PRIu64, r.first, r.second);
}

static void explain_range(FILE *to, const struct voice *v, uint64_t which) {
    uint64_t len = number_of(v, LARSAVIM_DATA_LEN);
    struct pair tree = {0, 0}, pdf = {0, 0};
    int bad_tree = tree_range(v, which, &tree) && !is_inside(tree, len);
    pdf_range(v, which, &pdf);
    fprintf(to, "the range of its %s, ", bad_tree ? "tree text" : "PDF block");
    put_range(to, bad_tree ? tree : pdf);
    fprintf(to, ", isn't inside the data, which has %" PRIu64 " bytes", len);
}

/* A range of the data, as bytes of the file. */
static void put_file_range(FILE *to, const struct voice *v, struct pair r) {
    uint64_t start = number_of(v, LARSAVIM_DATA_START);
    if (r.first > r.second)
        fputs("(no bytes)", to);
    else
        fprintf(to, "(bytes %" PRIu64 " to %" PRIu64 " of the file)", start + r.first, start + r.second);
}

/* A tree text, and the byte of the file where it begins. */
struct tree_text {
    struct bytes bytes;
    uint64_t start;
};

static void put_text_place(FILE *to, struct tree_text text, uint64_t at) {
    fprintf(to, "byte %" PRIu64 " of the file (line %" PRIu64 ", column %" PRIu64 " of the tree text)", text.start + at, line_of(text.bytes, at), column_of(text.bytes, at));
}

/* What stands at a place, as much as fits a message. */
static void put_beginning(FILE *to, struct bytes text, uint64_t at) {
    enum { SHOWN = 40 };
    uint64_t rest = text.len - at;
    put_quoted(to, part(text, at, rest < SHOWN ? rest : SHOWN));
    if (rest > SHOWN)
        fputs("..", to);
}

static void explain_question(FILE *to, struct tree_text text, uint64_t at) {
    uint64_t odd = odd_pattern_byte(text.bytes, at);
    if (odd == text.bytes.len)
        return;
    fputs("; the byte ", to);
    put_quoted(to, part(text.bytes, odd, 1));
    fputs(" at ", to);
    put_text_place(to, text, odd);
    fputs(" can't stand in a pattern", to);
}

/* The question or tree that doesn't fit, at the place that the library gave. */
static void put_broken(FILE *to, struct tree_text text, uint64_t at) {
    struct bytes rest = part(text.bytes, at, text.bytes.len - at);
    struct items before = items_before(text.bytes, at);
    int question = starts_with(rest, "QS ") || starts_with(rest, "QS\n");
    if (rest.len == 0) {
        fprintf(to, "it ends at byte %" PRIu64 " of the file without a tree", text.start + at);
        return;
    }
    if (question && before.trees == 0)
        fprintf(to, "question %" PRIu64 " at ", before.questions);
    else if (starts_with(rest, "{*}"))
        fprintf(to, "tree %" PRIu64 " at ", before.trees);
    else
        fprintf(to, "what stands in place of tree %" PRIu64 " at ", before.trees);
    put_text_place(to, text, at);
    fputs(" doesn't fit: ", to);
    put_beginning(to, text.bytes, at);
    if (question && before.trees == 0)
        explain_question(to, text, at);
}

static void explain_text(FILE *to, const struct voice *v, uint64_t which, uint64_t place) {
    struct pair r = {0, 0};
    struct tree_text text = {tree_text_of(v, which), number_of(v, LARSAVIM_DATA_START)};
    tree_range(v, which, &r);
    text.start += r.first;
    fputs("its tree text ", to);
    put_file_range(to, v, r);
    fputs(" is not in the grammar of questions and trees: ", to);
    put_broken(to, text, place - r.first);
}

static void explain_block(FILE *to, const struct voice *v, uint64_t which) {
    struct pair r = {0, 0};
    pdf_range(v, which, &r);
    fputs("its PDF block ", to);
    put_file_range(to, v, r);
    fprintf(to, " has %" PRIu64 " bytes, which are not a count of 4 bytes for each of its %" PRIu64 " trees and the entries that these counts announce",
            r.second + 1 - r.first, items_before(tree_text_of(v, which), UINT64_MAX).trees);
}

/* ---- GV and width ------------------------------------------------------------------------------------------------------------- */

static void explain_gv(FILE *to, const struct voice *v, uint64_t which) {
    uint64_t s = stream_group(v, which), p = position_group(v, which);
    if (s != 0 && number_of(v, s + LARSAVIM_USE_GV) == 0)
        fputs("there is no GV: USE_GV is 0", to);
    else if (p != 0 && number_of(v, p + LARSAVIM_HAS_GV_TREE) == 0)
        fputs("USE_GV is 1, but there is no GV_TREE", to);
    else
        fputs("USE_GV is 1, but there is no GV_PDF", to);
}

static void explain_width(FILE *to, uint64_t which) {
    const char *rule = which == LARSAVIM_DURATION ? "2 x NUM_STATES" : is_gv(which) ? "2 x VECTOR_LENGTH" : "2 x VECTOR_LENGTH x NUM_WINDOWS + IS_MSD";
    fprintf(to, "an entry would have more than %d values (%s)", LARSAVIM_WIDTH_LIMIT, rule);
}

/* ---- states and linking ------------------------------------------------------------------------------------------------------- */

static void explain_state(FILE *to, const struct voice *v, uint64_t which) {
    struct bytes text = tree_text_of(v, which);
    struct reader r = trees_of(text);
    struct written_tree t;
    struct written_line l;
    int64_t state;
    for (uint64_t i = 0; next_tree(&r, &t); i++) {
        if (node_id(t.state, &state) && state < 0) {
            fprintf(to, "tree %" PRIu64 " has the negative state %" PRId64, i, state);
            return;
        }
        while (t.braced && next_line(&r, &l)) {
        }
    }
    fputs("a tree has a negative state", to);
}

static void put_tree(FILE *to, struct bytes text, uint64_t tree) {
    struct reader r;
    struct written_tree t;
    fprintf(to, "tree %" PRIu64, tree);
    if (find_tree(text, tree, &r, &t))
        fprintf(to, " (state %.*s)", (int)t.state.len, (const char *)t.state.at);
}

static void put_line(FILE *to, const struct voice *v, uint64_t which, struct bytes text, const struct written_line *l, uint64_t line) {
    struct pair r = {0, 0};
    tree_range(v, which, &r);
    fprintf(to, ", line %" PRIu64 " ", line);
    put_quoted(to, l->whole);
    fprintf(to, " at byte %" PRIu64 " of the file (line %" PRIu64 " of the tree text)", number_of(v, LARSAVIM_DATA_START) + r.first + l->start, line_of(text, l->start));
}

/* The id that no line bears: the library tests yes before no. */
static void put_missing_id(FILE *to, struct bytes text, uint64_t tree, const struct written_line *l) {
    int64_t id;
    int yes_is_missing = node_id(l->yes, &id) && !bears_id(text, tree, id);
    if (!yes_is_missing && !node_id(l->no, &id))
        id = 0;
    fprintf(to, ": its %s reference is to the id %" PRId64 ", which no line of the tree bears", yes_is_missing ? "yes" : "no", id);
}

static void explain_link(FILE *to, const struct voice *v, uint64_t which, const uint64_t *out) {
    struct bytes text = tree_text_of(v, which);
    struct written_line l;
    put_tree(to, text, out[OUT_PLACE]);
    if (!find_line(text, out[OUT_PLACE], out[OUT_LINE], &l)) {
        fprintf(to, ", line %" PRIu64, out[OUT_LINE]);
        return;
    }
    put_line(to, v, which, text, &l, out[OUT_LINE]);
    if (out[OUT_NUMBER] == LARSAVIM_NODEREF) {
        put_missing_id(to, text, out[OUT_PLACE], &l);
        return;
    }
    fputs(": it asks the question ", to);
    put_quoted(to, l.question);
    fputs(", which is not among the questions", to);
}

static void explain_lone_node(FILE *to, const struct voice *v, uint64_t which, const uint64_t *out) {
    struct bytes text = tree_text_of(v, which);
    struct reader r;
    struct written_tree t;
    struct written_line l;
    struct bytes reference;
    put_tree(to, text, out[OUT_PLACE]);
    if (!find_tree(text, out[OUT_PLACE], &r, &t))
        return;
    reference = t.lone;
    if (t.braced && next_line(&r, &l))
        reference = l.yes;
    fprintf(to, " goes to the node %.*s and has nothing else: there is no line to go to", (int)reference.len, (const char *)reference.at);
}

/* ---- sentences ---------------------------------------------------------------------------------------------------------------- */

void explain_load(FILE *to, const struct voice *v, uint64_t which, const uint64_t *out) {
    fprintf(to, "refused (%" PRIu64 "): ", out[OUT_NUMBER]);
    switch (out[OUT_NUMBER]) {
    case LARSAVIM_LIMIT: explain_width(to, which); break;
    case LARSAVIM_NOPOS: fputs(which < models_of(v) ? "[POSITION] has nothing for this stream" : "there is no such model", to); break;
    case LARSAVIM_NOSTREAM: fputs("[STREAM] has nothing for this stream", to); break;
    case LARSAVIM_USEGV: explain_gv(to, v, which); break;
    case LARSAVIM_RANGE: explain_range(to, v, which); break;
    case LARSAVIM_TEXT: explain_text(to, v, which, out[OUT_PLACE]); break;
    case LARSAVIM_STATE: explain_state(to, v, which); break;
    case LARSAVIM_BLOCK: explain_block(to, v, which); break;
    case LARSAVIM_NODEREF:
    case LARSAVIM_QUESTREF: explain_link(to, v, which, out); break;
    case LARSAVIM_LONENODE: explain_lone_node(to, v, which, out); break;
    default: fputs("the library gave a number that its header doesn't have for a load", to); break;
    }
}
