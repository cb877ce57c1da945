/* draw.c: a loaded tree as a picture, in Graphviz's language, or as SVG where its program `dot` is at hand: lines with their questions, leaves with their numbers, what is odd about
 * them, and the way of one walk. What is drawn are the loaded rows, so that a reference shows which line it went to; ids are read in the tree text. */
#include <inttypes.h>
#include <stdlib.h>
#include <string.h>

#include "host.h"

/* The tree to draw, and the way of a walk through it: for each line the side that it takes (LARSAVIM_RECORD_YES or _NO), or 0. */
struct drawing {
    FILE *to;
    const struct voice *v;
    const struct larsavim_model *m;
    uint64_t tree, lines;
    struct seen_line *line;
    uint8_t *way;
    int first_on_way; /* a walk begins, be it at a lone leaf */
};

/* ---- strings of Graphviz's language -------------------------------------------------------------------------------------------- */

static void put_escaped(FILE *to, struct bytes s) {
    for (uint64_t i = 0; i < s.len; i++) {
        if (s.at[i] == '"' || s.at[i] == '\\')
            fprintf(to, "\\%c", s.at[i]);
        else if (s.at[i] < 0x20 || s.at[i] > 0x7e)
            fprintf(to, "\\\\x%02x", s.at[i]);
        else
            fputc(s.at[i], to);
    }
}

static struct bytes question_name(const struct drawing *d, uint64_t q) {
    const uint64_t *row = row_of(d->m, QUESTIONS, q);
    return part(data_of(d->v), row[LARSAVIM_QUESTION_START], row[LARSAVIM_QUESTION_LEN]);
}

/* The patterns of a question: what a reader of the SVG sees when the mouse rests on the line. */
static void put_patterns(const struct drawing *d, uint64_t q) {
    const uint64_t *row = row_of(d->m, QUESTIONS, q);
    for (uint64_t k = 0; k < row[LARSAVIM_QUESTION_PATTERNS]; k++) {
        const uint64_t *p = row_of(d->m, PATTERNS, row[LARSAVIM_QUESTION_FIRST] + k);
        if (k > 0)
            fputs(", ", d->to);
        put_escaped(d->to, part(data_of(d->v), p[LARSAVIM_PATTERN_START], p[LARSAVIM_PATTERN_LEN]));
    }
}

/* ---- rows ------------------------------------------------------------------------------------------------------------------------ */

static const uint64_t *record_of(const struct drawing *d, uint64_t k) {
    return row_of(d->m, RECORDS, row_of(d->m, TREES, d->tree)[LARSAVIM_TREE_FIRST] + k);
}

static int is_leaf(const struct drawing *d, uint64_t k) {
    return record_of(d, k)[LARSAVIM_RECORD_KIND] == 1;
}

/* ---- the picture ------------------------------------------------------------------------------------------------------------------ */

static void put_title(const struct drawing *d, const char *walked) {
    const uint64_t *t = row_of(d->m, TREES, d->tree);
    uint64_t depth[LARSAVIM_DEPTH_OUT];
    char *name = NULL;
    size_t len;
    FILE *to = open_memstream(&name, &len);
    struct bytes bytes;
    if (to == NULL)
        stop("there is not enough memory for a picture");
    put_model_name(to, d->v, d->m->which);
    fclose(to);
    bytes.at = (const uint8_t *)name;
    bytes.len = len;
    fprintf(d->to, "  label=\"model %" PRIu64 ", ", d->m->which);
    put_escaped(d->to, bytes);
    fprintf(d->to, ", tree %" PRIu64 " (state %" PRIu64 "): %" PRIu64 " lines, %" PRIu64 " entries", d->tree, t[LARSAVIM_TREE_STATE], t[LARSAVIM_TREE_LINES], t[LARSAVIM_TREE_ENTRIES]);
    depth_model(d->m, d->tree, depth);
    if (depth[OUT_NUMBER] == LARSAVIM_SUCCESS && depth[LARSAVIM_DEPTH_ENDS] == 1)
        fprintf(d->to, ", at most %" PRIu64 " questions", depth[LARSAVIM_DEPTH_QUESTIONS]);
    else
        fputs(depth[OUT_NUMBER] == LARSAVIM_SUCCESS ? ", a path goes round" : ", nothing to walk", d->to);
    fprintf(d->to, "%s\";\n  labelloc=t;\n", walked);
    free(name);
}

static void put_line(const struct drawing *d, uint64_t k) {
    const struct seen_line *l = &d->line[k];
    uint64_t q = record_of(d, k)[LARSAVIM_RECORD_QUESTION];
    fprintf(d->to, "  line%" PRIu64 " [label=\"", k);
    put_escaped(d->to, question_name(d, q));
    fprintf(d->to, "?\\nline %" PRIu64 ", id %" PRId64, k, l->id);
    if (l->doubled)
        fputs("\\nthis id stands twice", d->to);
    if (!l->reached)
        fputs("\\nno walk comes here", d->to);
    fputs("\", tooltip=\"", d->to);
    put_patterns(d, q);
    fputc('"', d->to);
    if (l->doubled)
        fprintf(d->to, ", style=\"filled%s\", fillcolor=\"#ffd27f\"", l->reached ? "" : ",dashed");
    else if (!l->reached)
        fputs(", style=\"filled,dashed\", fillcolor=\"#e0e0e0\"", d->to);
    if (d->way[k] != 0)
        fputs(", color=\"#b00020\", penwidth=3", d->to);
    fputs("];\n", d->to);
}

/* Yes or no of a line: to another line, or to a leaf of its own, so that the tree stays a tree. */
static void put_side(const struct drawing *d, uint64_t k, int side) {
    const char *word = side == LARSAVIM_RECORD_YES ? "yes" : "no";
    const char *bold = d->way[k] == side ? ", color=\"#b00020\", fontcolor=\"#b00020\", penwidth=3" : "";
    uint64_t to = record_of(d, k)[side];
    if (is_leaf(d, to)) {
        fprintf(d->to, "  leaf%" PRIu64 "%s [shape=ellipse, label=\"%" PRIu64 "\"%s];\n", k, word, record_of(d, to)[LARSAVIM_RECORD_PDF],
                *bold ? ", style=filled, fillcolor=\"#f6c6cd\", color=\"#b00020\", penwidth=3" : "");
        fprintf(d->to, "  line%" PRIu64 " -> leaf%" PRIu64 "%s [label=\"%s\"%s%s];\n", k, k, word, word, side == LARSAVIM_RECORD_NO ? ", style=dashed" : "", bold);
    } else {
        fprintf(d->to, "  line%" PRIu64 " -> line%" PRIu64 " [label=\"%s\"%s%s];\n", k, to, word, side == LARSAVIM_RECORD_NO ? ", style=dashed" : "", bold);
    }
}

static void put_picture(const struct drawing *d, const char *walked) {
    fputs("digraph tree {\n  rankdir=LR;\n  fontname=\"sans-serif\";\n  node [shape=box, fontname=\"sans-serif\", fontsize=11, margin=\"0.08,0.04\"];\n"
          "  edge [fontname=\"sans-serif\", fontsize=9];\n  ranksep=0.3;\n  nodesep=0.12;\n  ordering=out;\n",
          d->to);
    put_title(d, walked);
    for (uint64_t k = 0; k < d->lines; k++)
        put_line(d, k);
    for (uint64_t k = 0; k < d->lines; k++) {
        put_side(d, k, LARSAVIM_RECORD_YES);
        put_side(d, k, LARSAVIM_RECORD_NO);
    }
    if (d->lines == 0 && row_of(d->m, TREES, d->tree)[LARSAVIM_TREE_RECORDS] > 0)
        fprintf(d->to, "  leaf [shape=ellipse, label=\"%" PRIu64 "\"%s];\n", record_of(d, 0)[LARSAVIM_RECORD_PDF], d->first_on_way ? ", color=\"#b00020\", penwidth=3" : "");
    fputs("}\n", d->to);
}

/* ---- the way of a walk ------------------------------------------------------------------------------------------------------------- */

/* Marks the way, as far as it goes; the library's own walk says where it ends. */
static uint64_t mark_way(struct drawing *d, struct bytes answers, char *words, size_t room) {
    uint64_t out[LARSAVIM_WALK_OUT], at = 0;
    walk_model(d->m, d->tree, answers, rows_of(d->m, RECORDS), out);
    d->first_on_way = 1;
    while (at < d->lines && d->way[at] == 0) {
        uint64_t q = record_of(d, at)[LARSAVIM_RECORD_QUESTION];
        if (q >= answers.len)
            break;
        d->way[at] = answers.at[q] ? LARSAVIM_RECORD_YES : LARSAVIM_RECORD_NO;
        at = record_of(d, at)[d->way[at]];
    }
    if (out[OUT_NUMBER] != LARSAVIM_SUCCESS)
        snprintf(words, room, "\\na walk that is refused (%" PRIu64 ")", out[OUT_NUMBER]);
    else if (record_of(d, at)[LARSAVIM_RECORD_KIND] != 1 || record_of(d, at)[LARSAVIM_RECORD_PDF] != out[LARSAVIM_WALK_PDF])
        stop("the library walks otherwise than the rows say");
    else
        snprintf(words, room, "\\na walk to PDF %" PRIu64 " after %" PRIu64 " questions", out[LARSAVIM_WALK_PDF], out[LARSAVIM_WALK_ASKED]);
    return out[OUT_NUMBER];
}

/* ---- the verb ---------------------------------------------------------------------------------------------------------------------- */

static void read_lines(struct drawing *d) {
    struct reader r;
    struct written_tree head;
    d->lines = 0;
    d->line = NULL;
    if (find_tree(tree_text_of(d->v, d->m->which), d->tree, &r, &head) && head.braced)
        d->lines = tree_lines(d->v, d->m, d->tree, &r, &d->line);
    d->way = calloc((size_t)d->lines + 1, 1);
    if (d->way == NULL)
        stop("there is not enough memory for a picture");
}

/* A stream to `dot`, which writes SVG to standard output; or NULL, after a sentence. */
static FILE *through_dot(void) {
    FILE *to;
    if (system("command -v dot >/dev/null 2>&1") != 0) {
        fputs("larsavim: draw: --svg needs Graphviz's program dot, which isn't here; without --svg its language is written\n", stderr);
        return NULL;
    }
    fflush(stdout);
    to = popen("dot -Tsvg", "w");
    if (to == NULL)
        fputs("larsavim: draw: dot can't be run\n", stderr);
    return to;
}

static int draw_tree(const struct voice *v, const struct larsavim_model *m, const struct asked_drawing *a) {
    struct drawing d = {stdout, v, m, a->tree, 0, NULL, NULL, 0};
    struct bytes given = a->answers;
    char words[96] = "";
    int status = ALL_WELL;
    if (a->svg && (d.to = through_dot()) == NULL)
        return TROUBLE;
    read_lines(&d);
    if (a->label.at != NULL && answer_model(v, m, a->label, &given) != LARSAVIM_SUCCESS)
        stop("the library refuses the questions that it loaded");
    if (given.at != NULL && mark_way(&d, given, words, sizeof words) != LARSAVIM_SUCCESS)
        status = REFUSED;
    put_picture(&d, words);
    if (a->svg && pclose(d.to) != 0) {
        fputs("larsavim: draw: dot failed\n", stderr);
        status = TROUBLE;
    }
    if (a->label.at != NULL)
        give_back(given.at, given.len);
    free(d.line);
    free(d.way);
    return status;
}

static int draw_voice(const struct voice *v, const struct asked_drawing *a) {
    struct larsavim_model m;
    int status = REFUSED;
    if (v->number != LARSAVIM_SUCCESS) {
        explain_open(stderr, v);
        fputc('\n', stderr);
        return REFUSED;
    }
    load_model(v, a->which, 0, &m);
    if (m.loaded[OUT_NUMBER] != LARSAVIM_SUCCESS) {
        explain_load(stderr, v, a->which, m.loaded);
        fputc('\n', stderr);
    } else if (a->tree >= rows_of(&m, TREES)) {
        fprintf(stderr, "larsavim: draw: the model has %" PRIu64 " trees, counted from 0\n", rows_of(&m, TREES));
    } else {
        status = draw_tree(v, &m, a);
    }
    free_model(&m);
    return status;
}

int picture(const struct asked_drawing *a) {
    struct bytes file;
    struct voice v;
    int status;
    if (!map_file(a->path, &file))
        return TROUBLE;
    open_voice(&v, file);
    status = draw_voice(&v, a);
    close_voice(&v);
    unmap_file(file);
    return status;
}
