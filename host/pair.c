/* pair.c: a day voice and a night voice in the same tables: what each pair of models needs together, and whether each walks and checks there as it does alone. */
#include <inttypes.h>
#include <string.h>

#include "host.h"

/* ---- why a task's call was refused --------------------------------------------------------------------------------------------- */

static const char *const one_table[TABLES] = {"question", "pattern", "tree", "record", "value"};

/* The table in which the two tasks' rows overlap or pass the end. */
static int overlapping(const struct shared *s) {
    for (int t = 0; t < TABLES; t++) {
        uint64_t rows = s->lent[t] / row_width[t];
        if (s->held[LARSAVIM_BOTTOM][t] > rows || s->held[LARSAVIM_TOP][t] > rows - s->held[LARSAVIM_BOTTOM][t])
            return t;
    }
    return TABLES;
}

void explain_shared(FILE *to, const struct shared *s, uint64_t side, const uint64_t *needs, uint64_t number) {
    if (number == LARSAVIM_HELD) {
        fputs("this task already holds a model: unload it first", to);
        return;
    }
    if (number == LARSAVIM_WALKTABLE) {
        int t = overlapping(s);
        fprintf(to, "the bounds of the two tasks overlap in the %s table, or pass its end: they are not those that the library handed back", t < TABLES ? one_table[t] : "tree");
        return;
    }
    for (int t = 0; t < TABLES; t++) {
        uint64_t rows = s->lent[t] / row_width[t], others = s->held[1 - side][t];
        if (others <= rows && needs[OUT_ROWS + t] > rows - others) {
            fprintf(to, "the %s need %" PRIu64 " rows, and beside the other task's %" PRIu64 " only %" PRIu64 " of %" PRIu64 " are left", table_name[t], needs[OUT_ROWS + t], others,
                    rows - others, rows);
            return;
        }
    }
    fprintf(to, "the work needs %" PRIu64 " numbers, and has %" PRIu64, needs[OUT_WORK], s->work_lent);
}

/* ---- a task's rows against the same model alone -------------------------------------------------------------------------------- */

enum { DRAWS = 8 }; /* walks of each tree */

/* Answers of a kind: all no, all yes, then some that only look random. */
static void draw(uint8_t *answers, uint64_t len, uint64_t tree, int kind) {
    uint32_t x = (uint32_t)(2654435761u * (tree + 1) + (uint32_t)kind);
    for (uint64_t i = 0; i < len; i++) {
        x = 1664525u * x + 1013904223u;
        answers[i] = kind == 0 ? 0 : kind == 1 ? 1 : (uint8_t)(x >> 31);
    }
}

static int tree_walks_alike(const struct larsavim_model *own, const struct larsavim_model *alone, uint64_t tree) {
    uint64_t len = rows_of(alone, QUESTIONS), a[LARSAVIM_WALK_OUT], b[LARSAVIM_WALK_OUT];
    uint8_t *given = lend(len);
    struct bytes answers = {given, len};
    int same_walks = 1;
    for (int kind = 0; kind < DRAWS; kind++) {
        draw(given, len, tree, kind);
        walk_model(own, tree, answers, 1000, a);
        walk_model(alone, tree, answers, 1000, b);
        same_walks &= memcmp(a, b, sizeof a) == 0;
    }
    give_back(given, len);
    return same_walks;
}

/* Whether a task's rows walk and check as the model does in tables of its own. */
static int alike(const struct shared *s, uint64_t side, const struct larsavim_model *alone) {
    struct larsavim_model own;
    int good;
    if (!own_rows(s, side, &own))
        return 0;
    own.needs[OUT_WIDTH] = width_of(alone);
    good = rows_of(&own, TREES) == rows_of(alone, TREES) && leaves_fit(&own) == leaves_fit(alone);
    for (uint64_t t = 0; good && t < rows_of(alone, TREES); t++)
        good = tree_walks_alike(&own, alone, t);
    free_model(&own);
    return good;
}

/* ---- two models ---------------------------------------------------------------------------------------------------------------- */

/* Tables of just the rows that both need; how many bytes these are, the work of the longer with them. */
static uint64_t lend_both(struct shared *s, const struct larsavim_model *a, const struct larsavim_model *b) {
    uint64_t numbers[TABLES], work = a->needs[OUT_WORK] > b->needs[OUT_WORK] ? a->needs[OUT_WORK] : b->needs[OUT_WORK], bytes = 8 * work;
    for (int t = 0; t < TABLES; t++) {
        numbers[t] = (a->needs[OUT_ROWS + t] + b->needs[OUT_ROWS + t]) * row_width[t];
        bytes += 8 * numbers[t];
    }
    lend_shared(s, numbers, work);
    return bytes;
}

static int load_side(struct shared *s, const struct voice *v, uint64_t side, const struct larsavim_model *alone) {
    uint64_t out[LARSAVIM_LOAD_OUT];
    uint64_t number = load_shared(s, v, alone->which, side, out);
    if (number == LARSAVIM_SUCCESS)
        return 1;
    fprintf(stderr, "larsavim: pair: model %" PRIu64 " of the %s voice: ", alone->which, side == LARSAVIM_BOTTOM ? "day" : "night");
    explain_shared(stderr, s, side, alone->needs, number);
    fputc('\n', stderr);
    return 0;
}

static int pair_loaded(const struct voice *day, const struct larsavim_model *a, const struct voice *night, const struct larsavim_model *b) {
    struct shared s;
    uint64_t bytes = lend_both(&s, a, b);
    int good = load_side(&s, day, LARSAVIM_BOTTOM, a) && load_side(&s, night, LARSAVIM_TOP, b);
    printf("    together:");
    for (int t = 0; t < TABLES; t++)
        printf("%s %" PRIu64 " %s", t == 0 ? "" : ",", a->needs[OUT_ROWS + t] + b->needs[OUT_ROWS + t], table_name[t]);
    printf("; %" PRIu64 " bytes with the work\n", bytes);
    if (good) {
        int first = alike(&s, LARSAVIM_BOTTOM, a), second = alike(&s, LARSAVIM_TOP, b);
        printf("    day %s, night %s\n", first ? "walks and checks as alone" : "differs from the same model alone", second ? "walks and checks as alone" : "differs from the same model alone");
        good = first && second;
    }
    free_shared(&s);
    return good;
}

static int refused_alone(const char *path, const struct voice *v, const struct larsavim_model *m) {
    if (m->loaded[OUT_NUMBER] == LARSAVIM_SUCCESS)
        return 0;
    printf("    %s: ", path);
    explain_load(stdout, v, m->which, m->loaded);
    putchar('\n');
    return 1;
}

static int pair_models(char **paths, const struct voice *day, const struct voice *night, uint64_t which) {
    struct larsavim_model a, b;
    int good;
    printf("model %" PRIu64 ", ", which);
    put_model_name(stdout, day, which);
    putchar('\n');
    load_model(day, which, 0, &a);
    load_model(night, which, 0, &b);
    good = !(refused_alone(paths[0], day, &a) | refused_alone(paths[1], night, &b)) && pair_loaded(day, &a, night, &b);
    free_model(&a);
    free_model(&b);
    return good;
}

static int opened(const char *path, const struct voice *v) {
    if (v->number == LARSAVIM_SUCCESS)
        return 1;
    fprintf(stderr, "larsavim: %s: ", path);
    explain_open(stderr, v);
    fputc('\n', stderr);
    return 0;
}

static int pair_voices(char **paths, struct bytes day_file, struct bytes night_file) {
    struct voice day, night;
    int good;
    open_voice(&day, day_file);
    open_voice(&night, night_file);
    good = opened(paths[0], &day) & opened(paths[1], &night);
    if (good) {
        uint64_t models = models_of(&day) < models_of(&night) ? models_of(&day) : models_of(&night);
        for (uint64_t which = 0; which < models; which++)
            if (!is_unasked_gv(&day, which) && !is_unasked_gv(&night, which))
                good &= pair_models(paths, &day, &night, which);
        puts(good ? "every pair of models walks and checks as alone" : "not every pair of models does");
    }
    close_voice(&day);
    close_voice(&night);
    return good ? ALL_WELL : REFUSED;
}

/* The words are DAY NIGHT. */
int pair_up(char **words) {
    struct bytes day, night;
    int status = TROUBLE;
    if (map_file(words[0], &day)) {
        if (map_file(words[1], &night)) {
            status = pair_voices(words, day, night);
            unmap_file(night);
        }
        unmap_file(day);
    }
    return status;
}
