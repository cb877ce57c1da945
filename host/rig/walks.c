/* walks.c: many walks over one voice, a line each on standard input. The voice is opened once, and a model is loaded when it is first asked
 * for; its tables are kept, as a display keeps them. */
#include <inttypes.h>
#include <stdlib.h>

#include "../host.h"

/* A voice and the models of it that are loaded (those of a table). The last one is for numbers that the voice has no model of. */
struct kept {
    struct voice v;
    struct larsavim_model *model;
    uint64_t models;
    int refused; /* whether any walk was */
};

static struct larsavim_model *kept_model(struct kept *k, uint64_t which) {
    struct larsavim_model *m = &k->model[which < k->models ? which : k->models];
    if (m->table[0] != NULL && m->which == which)
        return m;
    if (m->table[0] != NULL)
        free_model(m);
    load_model(&k->v, which, 0, m);
    return m;
}

/* The number of the opening, of the load or of the walk, whichever refuses first. */
static void walk_kept(struct kept *k, const struct asked_walk *w, uint64_t out[LARSAVIM_WALK_OUT]) {
    struct larsavim_model *m;
    out[OUT_NUMBER] = k->v.number;
    if (out[OUT_NUMBER] != LARSAVIM_SUCCESS)
        return;
    m = kept_model(k, w->which);
    out[OUT_NUMBER] = m->loaded[OUT_NUMBER];
    if (out[OUT_NUMBER] == LARSAVIM_SUCCESS)
        walk_model(m, w->tree, w->answers, w->limit, out);
}

/* Answers one line, or says what is wrong with it. */
static const char *answer(char *line, void *with) {
    static char wrong[128];
    struct kept *k = with;
    struct asked_walk w;
    char *words[WALK_WORDS];
    uint64_t out[LARSAVIM_WALK_OUT];
    int bad;
    if (cut(line, words, WALK_WORDS) != WALK_WORDS)
        return "is not MODEL TREE ANSWERS LIMIT, parted by single spaces";
    bad = read_walk(words, &w);
    if (bad < WALK_WORDS) {
        snprintf(wrong, sizeof wrong, "has a wrong %s, which should be %s", walk_word[bad], walk_wanted[bad]);
        return wrong;
    }
    walk_kept(k, &w, out);
    give_back(w.answers.at, w.answers.len);
    put_walk(out);
    k->refused |= out[OUT_NUMBER] != LARSAVIM_SUCCESS;
    return NULL;
}

int walks(const char *path) {
    struct kept k;
    struct bytes file;
    int status;
    if (!map_file(path, &file))
        return TROUBLE;
    open_voice(&k.v, file);
    k.models = k.v.number == LARSAVIM_SUCCESS ? models_of(&k.v) : 0;
    k.refused = 0;
    k.model = calloc((size_t)k.models + 1, sizeof *k.model);
    if (k.model == NULL)
        stop("there is not enough memory for the voice's models");
    status = answer_lines("walks", answer, &k);
    for (uint64_t i = 0; i <= k.models; i++)
        if (k.model[i].table[0] != NULL)
            free_model(&k.model[i]);
    free(k.model);
    close_voice(&k.v);
    unmap_file(file);
    return status == ALL_WELL && k.refused ? REFUSED : status;
}
