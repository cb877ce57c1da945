/* tree.c: one tree of a model, loaded through the trailer behind the voice's data. The lines are those of `dump`. */
#include <inttypes.h>
#include <string.h>

#include "host.h"

uint64_t load_tree(struct shared *s, const struct voice *v, uint64_t which, uint64_t tree, uint64_t side, uint64_t out[LARSAVIM_LOAD_OUT]) {
    uint64_t *loaded = answer_slice(LARSAVIM_LOAD_OUT);
    uint64_t number = larsavim_load_tree(v->file.at, v->file.len, v->words, LARSAVIM_WORDS, which, tree, side, s->held[side], LARSAVIM_BOUNDS, s->held[1 - side], LARSAVIM_BOUNDS,
                                         s->table[QUESTIONS], s->lent[QUESTIONS], s->table[PATTERNS], s->lent[PATTERNS], s->table[TREES], s->lent[TREES], s->table[RECORDS],
                                         s->lent[RECORDS], s->table[VALUES], s->lent[VALUES], s->work, s->work_lent, loaded, LARSAVIM_LOAD_OUT);
    memcpy(out, loaded, 8 * LARSAVIM_LOAD_OUT);
    return number;
}

void put_loaded(const uint64_t out[LARSAVIM_LOAD_OUT]) {
    fputs("LOAD", stdout);
    for (int i = 0; i < LARSAVIM_LOAD_OUT; i++)
        printf(" %" PRIu64, out[i]);
    putchar('\n');
}

/* Room for any one tree of the model: what the whole model needs; or, where other trees of it are refused, what no text or block of that length passes. */
static uint64_t room_for(const struct voice *v, uint64_t which, uint64_t numbers[TABLES], uint64_t *work) {
    uint64_t *needs = answer_slice(LARSAVIM_NEEDS_OUT), width;
    struct pair text = {1, 0}, block = {1, 0};
    uint64_t bytes, values;
    if (larsavim_needs(v->file.at, v->file.len, v->words, LARSAVIM_WORDS, which, needs, LARSAVIM_NEEDS_OUT) == LARSAVIM_SUCCESS) {
        for (int t = 0; t < TABLES; t++)
            numbers[t] = needs[OUT_ROWS + t] * row_width[t];
        *work = needs[OUT_WORK];
        width = needs[OUT_WIDTH];
        return width;
    }
    bytes = tree_range(v, which, &text) && text.second < v->file.len && text.first <= text.second ? text.second - text.first + 1 : 0;
    values = pdf_range(v, which, &block) && block.second < v->file.len && block.first <= block.second ? (block.second - block.first + 1) / 4 : 0;
    numbers[QUESTIONS] = numbers[PATTERNS] = numbers[RECORDS] = 4 * (bytes / 2 + 1);
    numbers[TREES] = LARSAVIM_TREE_ROW;
    numbers[VALUES] = values;
    *work = 6 * (bytes / 4 + 1);
    return 0;
}

/* Why, where the trailer is what is wrong; the others have `check` and `inspect`. */
static void explain_trailer(const char *path, const struct voice *v, uint64_t which, uint64_t tree, uint64_t number) {
    fprintf(stderr, "larsavim: %s: ", path);
    if (number == LARSAVIM_TRAILER)
        fprintf(stderr, "refused (26): the data has %" PRIu64 " bytes: there is no trailer\n", number_of(v, LARSAVIM_DATA_LEN));
    else if (number == LARSAVIM_TRAILER_ROWS)
        fputs("refused (28): the rows don't end where the last three numbers begin: the file has no trailer, or it was changed\n", stderr);
    else if (number == LARSAVIM_WALKTABLE)
        fprintf(stderr, "refused (24): the trailer has no row for tree %" PRIu64 " of model %" PRIu64 "\n", tree, which);
    else
        fprintf(stderr, "refused (%" PRIu64 "): tree %" PRIu64 " of model %" PRIu64 "; `larsavim check` says more of the model\n", number, tree, which);
}

static int load_and_put(const char *path, const struct voice *v, uint64_t which, uint64_t tree) {
    struct shared s;
    struct larsavim_model m;
    uint64_t numbers[TABLES], work, width = room_for(v, which, numbers, &work), out[LARSAVIM_LOAD_OUT], number;
    lend_shared(&s, numbers, work);
    number = load_tree(&s, v, which, tree, LARSAVIM_BOTTOM, out);
    put_loaded(out);
    if (number != LARSAVIM_SUCCESS)
        explain_trailer(path, v, which, tree, number);
    else if (own_rows(&s, LARSAVIM_BOTTOM, &m)) {
        /* one tree, so that its entries and values say the width where the model's needs don't */
        uint64_t entries = row_of(&m, TREES, 0)[LARSAVIM_TREE_ENTRIES];
        m.needs[OUT_WIDTH] = width != 0 || entries == 0 ? width : rows_of(&m, VALUES) / entries;
        put_tables(v, &m);
        free_model(&m);
    }
    free_shared(&s);
    return number == LARSAVIM_SUCCESS ? ALL_WELL : REFUSED;
}

int one_tree(char **words) {
    struct bytes file;
    struct voice v;
    uint64_t which, tree;
    int status = REFUSED;
    if (!read_number(words[1], &which) || !read_number(words[2], &tree)) {
        fprintf(stderr, "larsavim: MODEL is '%s' and TREE is '%s': each is a decimal number below 2^64\n", words[1], words[2]);
        return TROUBLE;
    }
    if (!map_file(words[0], &file))
        return TROUBLE;
    open_voice(&v, file);
    if (v.number == LARSAVIM_SUCCESS)
        status = load_and_put(words[0], &v, which, tree);
    else {
        const uint64_t out[LARSAVIM_LOAD_OUT] = {v.number, v.place};
        put_loaded(out);
        fprintf(stderr, "larsavim: %s: refused (%" PRIu64 "): the file doesn't open; `larsavim check` says more of it\n", words[0], v.number);
    }
    close_voice(&v);
    unmap_file(file);
    return status;
}
