/* depth.c: how many questions a walk of each tree can ask, whatever the answers: what a speech task makes its slots by. */
#include <inttypes.h>

#include "host.h"

/* One tree, a line. 1 if every walk of it ends by itself. */
static int put_depth(const struct larsavim_model *m, uint64_t tree) {
    uint64_t out[LARSAVIM_DEPTH_OUT];
    depth_model(m, tree, out);
    printf("MODEL %" PRIu64 " TREE %" PRIu64 " STATE %" PRIu64 " ", m->which, tree, row_of(m, TREES, tree)[LARSAVIM_TREE_STATE]);
    if (out[OUT_NUMBER] != LARSAVIM_SUCCESS)
        printf("REFUSED %" PRIu64 "\n", out[OUT_NUMBER]);
    else if (out[LARSAVIM_DEPTH_ENDS] == 1)
        printf("DEPTH %" PRIu64 "\n", out[LARSAVIM_DEPTH_QUESTIONS]);
    else
        puts("ROUND");
    if (out[OUT_NUMBER] == LARSAVIM_SUCCESS && out[LARSAVIM_DEPTH_ENDS] == 1)
        return 1;
    fprintf(stderr, "model %" PRIu64 ", tree %" PRIu64 ": %s\n", m->which, tree,
            out[OUT_NUMBER] == LARSAVIM_SUCCESS ? "a path goes round, so a walk may be ended by its limit alone" : "there is nothing to walk, or a path leads outside the tree");
    return 0;
}

static int model_depths(const struct voice *v, uint64_t which) {
    struct larsavim_model m;
    int good;
    load_model(v, which, 0, &m);
    good = m.loaded[OUT_NUMBER] == LARSAVIM_SUCCESS;
    if (!good) {
        printf("MODEL %" PRIu64 " REFUSED %" PRIu64 "\n", which, m.loaded[OUT_NUMBER]);
        put_model_name(stderr, v, which);
        fputs(": ", stderr);
        explain_load(stderr, v, which, m.loaded);
        fputc('\n', stderr);
    } else {
        for (uint64_t t = 0; t < rows_of(&m, TREES); t++)
            good &= put_depth(&m, t);
    }
    free_model(&m);
    return good;
}

/* All models but a GV that the header doesn't ask for, or the one that is named. */
static int voice_depths(struct bytes file, const uint64_t *which) {
    struct voice v;
    int good = 0;
    open_voice(&v, file);
    if (v.number != LARSAVIM_SUCCESS) {
        printf("REFUSED %" PRIu64 "\n", v.number);
        explain_open(stderr, &v);
        fputc('\n', stderr);
    } else if (which != NULL) {
        good = model_depths(&v, *which);
    } else {
        uint64_t models = models_of(&v);
        good = 1;
        for (uint64_t i = 0; i < models; i++)
            if (!is_unasked_gv(&v, i))
                good &= model_depths(&v, i);
    }
    close_voice(&v);
    return good ? ALL_WELL : REFUSED;
}

/* The words are FILE, and perhaps MODEL. */
int depth(int n, char **words) {
    struct bytes file;
    uint64_t which;
    int status = TROUBLE;
    if (n == 2 && !read_number(words[1], &which)) {
        fprintf(stderr, "larsavim: depth: MODEL is '%s', and should be %s\n", words[1], walk_wanted[0]);
        return TROUBLE;
    }
    if (map_file(words[0], &file)) {
        status = voice_depths(file, n == 2 ? &which : NULL);
        unmap_file(file);
    }
    return status;
}

void show_depth(const struct larsavim_model *m) {
    uint64_t most = 0, deepest = 0;
    for (uint64_t t = 0; t < rows_of(m, TREES); t++) {
        uint64_t out[LARSAVIM_DEPTH_OUT];
        depth_model(m, t, out);
        if (out[OUT_NUMBER] != LARSAVIM_SUCCESS)
            printf("    tree %" PRIu64 " has nothing to walk\n", t);
        else if (out[LARSAVIM_DEPTH_ENDS] == 0)
            printf("    tree %" PRIu64 ": a path goes round, so a walk may be ended by its limit alone\n", t);
        else if (out[LARSAVIM_DEPTH_QUESTIONS] > most) {
            most = out[LARSAVIM_DEPTH_QUESTIONS];
            deepest = t;
        }
    }
    if (most > 0)
        printf("    questions that a walk can ask: at most %" PRIu64 ", in tree %" PRIu64 "\n", most, deepest);
    else
        puts("    questions that a walk can ask: none");
}
