/* bare.c: a walk straight over the tree text of a model, as a meter without room for tables does it. */
#include <inttypes.h>
#include <string.h>

#include "host.h"

static void explain_bare(FILE *to, const struct voice *v, const struct asked_walk *w, const uint64_t *out) {
    if (out[0] == LARSAVIM_WALKTABLE || out[0] == LARSAVIM_STEPS)
        explain_walk(to, out[0]);
    else
        explain_text_refusal(to, v, w->which, out);
    fputc('\n', to);
}

static int bare_tree(const struct voice *v, const struct asked_walk *w) {
    struct bytes text = lend_copy(tree_text_of(v, w->which));
    uint64_t *told = answer_slice(LARSAVIM_BARE_OUT), out[LARSAVIM_BARE_OUT];
    larsavim_bare_walk(text.at, text.len, w->tree, w->answers.at, w->answers.len, w->limit, told, LARSAVIM_BARE_OUT);
    memcpy(out, told, sizeof out);
    if (out[0] == LARSAVIM_SUCCESS) {
        printf("PDF %" PRIu64 " ASKED %" PRIu64 " READ %" PRIu64 "\n", out[LARSAVIM_BARE_PDF], out[LARSAVIM_BARE_ASKED], out[LARSAVIM_BARE_READ]);
    } else {
        printf("REFUSED %" PRIu64 "\n", out[0]);
        explain_bare(stderr, v, w, out);
    }
    give_back(text.at, text.len);
    return out[0] == LARSAVIM_SUCCESS ? ALL_WELL : REFUSED;
}

/* A model without a tree text in the data is refused as a load refuses it. */
static int bare_voice(struct bytes file, const struct asked_walk *w) {
    struct voice v;
    struct larsavim_model m;
    int status = REFUSED;
    open_voice(&v, file);
    if (v.number != LARSAVIM_SUCCESS) {
        printf("REFUSED %" PRIu64 "\n", v.number);
        explain_open(stderr, &v);
        fputc('\n', stderr);
        close_voice(&v);
        return REFUSED;
    }
    load_model(&v, w->which, 0, &m);
    if (m.needs[OUT_NUMBER] >= LARSAVIM_LIMIT && m.needs[OUT_NUMBER] <= LARSAVIM_RANGE) {
        printf("REFUSED %" PRIu64 "\n", m.needs[OUT_NUMBER]);
        explain_load(stderr, &v, w->which, m.needs);
        fputc('\n', stderr);
    } else {
        status = bare_tree(&v, w);
    }
    free_model(&m);
    close_voice(&v);
    return status;
}

/* The words are FILE MODEL TREE ANSWERS LIMIT. */
int bare(char **words) {
    struct asked_walk w;
    struct bytes file;
    int bad = read_walk(words + 1, &w), status = TROUBLE;
    if (bad < WALK_WORDS) {
        fprintf(stderr, "larsavim: bare: %s is '%s', and should be %s\n", walk_word[bad], words[1 + bad], walk_wanted[bad]);
        return TROUBLE;
    }
    if (map_file(words[0], &file)) {
        status = bare_voice(file, &w);
        unmap_file(file);
    }
    give_back(w.answers.at, w.answers.len);
    return status;
}
