/* tables.c: what the models of some voices need, as a C header: the greatest of all voices, for tables of fixed size. */
#include <inttypes.h>
#include <string.h>

#include "host.h"

enum { MODELS = 2 * LARSAVIM_STREAM_LIMIT + 1, SIZES = TABLES + 4, WORK_SIZE = TABLES, WIDTH_SIZE, DEPTH_WORK_SIZE, DEPTH_SIZE };

static const char *const size_name[SIZES] = {"QUESTIONS", "PATTERNS", "TREES", "RECORDS", "VALUES", "WORK", "WIDTH", "DEPTH_WORK", "DEPTH"};
static const char *const size_says[SIZES] = {"rows of LARSAVIM_QUESTION_ROW numbers",
                                             "rows of LARSAVIM_PATTERN_ROW numbers",
                                             "rows of LARSAVIM_TREE_ROW numbers",
                                             "rows of LARSAVIM_RECORD_ROW numbers",
                                             "numbers",
                                             "numbers of work",
                                             "values in an entry",
                                             "numbers of work of larsavim_depth",
                                             "questions that a walk asks at most; 0 where a path goes round"};

/* The greatest sizes so far, model by model. */
struct sizes {
    uint64_t most[MODELS][SIZES];
    int there[MODELS], round[MODELS];
};

static void keep(uint64_t *most, uint64_t n) {
    if (*most < n)
        *most = n;
}

static void keep_model(struct sizes *s, const struct larsavim_model *m) {
    uint64_t *most = s->most[m->which];
    s->there[m->which] = 1;
    for (int t = 0; t < TABLES; t++)
        keep(&most[t], rows_of(m, t));
    keep(&most[WORK_SIZE], m->needs[OUT_WORK]);
    keep(&most[WIDTH_SIZE], width_of(m));
    for (uint64_t t = 0; t < rows_of(m, TREES); t++) {
        uint64_t out[LARSAVIM_DEPTH_OUT];
        depth_model(m, t, out);
        keep(&most[DEPTH_WORK_SIZE], LARSAVIM_WORK_A_RECORD * row_of(m, TREES, t)[LARSAVIM_TREE_RECORDS]);
        keep(&most[DEPTH_SIZE], out[LARSAVIM_DEPTH_QUESTIONS]);
        s->round[m->which] |= out[OUT_NUMBER] == LARSAVIM_SUCCESS && out[LARSAVIM_DEPTH_ENDS] == 0;
    }
}

/* 1 if every model of the voice loads and passes the leaf check: tables are made for nothing else. */
static int keep_voice(struct sizes *s, const char *path, const struct voice *v) {
    uint64_t models;
    int good = 1;
    if (v->number != LARSAVIM_SUCCESS) {
        fprintf(stderr, "larsavim: %s: ", path);
        explain_open(stderr, v);
        fputc('\n', stderr);
        return 0;
    }
    models = models_of(v);
    for (uint64_t which = 0; which < models; which++) {
        struct larsavim_model m;
        int loads;
        if (is_unasked_gv(v, which))
            continue;
        load_model(v, which, 0, &m);
        loads = m.loaded[OUT_NUMBER] == LARSAVIM_SUCCESS;
        if (loads && leaves_fit(&m)) {
            keep_model(s, &m);
        } else {
            complain_model(path, v, which);
            if (loads)
                fputs("the leaf check failed", stderr);
            else
                explain_load(stderr, v, which, m.loaded);
            fputc('\n', stderr);
            good = 0;
        }
        free_model(&m);
    }
    return good;
}

static int keep_file(struct sizes *s, const char *path) {
    struct bytes file;
    struct voice v;
    int good;
    if (!map_file(path, &file))
        return TROUBLE;
    open_voice(&v, file);
    good = keep_voice(s, path, &v);
    close_voice(&v);
    unmap_file(file);
    return good ? ALL_WELL : REFUSED;
}

/* A name that can stand in a comment: what could end it, or the line, is a dot. */
static void put_commented(const char *text) {
    for (; *text != '\0'; text++)
        putchar((unsigned char)*text < 0x20 || *text == '*' || *text == 0x7f ? '.' : *text);
}

static void put_sizes(const char *name, const uint64_t sizes[SIZES]) {
    for (int i = 0; i < SIZES; i++)
        printf("#define VOICE_%s%s %" PRIu64 " /* %s */\n", name, size_name[i], sizes[i], size_says[i]);
}

static void put_header(const struct sizes *s, int files, char **paths) {
    uint64_t most[SIZES] = {0};
    int round = 0;
    puts("/* Made by `larsavim tables`, version " LARSAVIM_VERSION ": the greatest sizes that the models of these voices need. A voice that needs more is refused with 20.");
    for (int i = 0; i < files; i++) {
        fputs(" *   ", stdout);
        put_commented(paths[i]);
        putchar('\n');
    }
    puts(" */\n#ifndef VOICE_TABLES_H\n#define VOICE_TABLES_H");
    for (uint64_t which = 0; which < MODELS; which++) {
        char name[32];
        uint64_t own[SIZES];
        if (!s->there[which])
            continue;
        memcpy(own, s->most[which], sizeof own);
        for (int i = 0; i < SIZES; i++)
            keep(&most[i], own[i]);
        round |= s->round[which];
        if (s->round[which])
            own[DEPTH_SIZE] = 0;
        if (which == LARSAVIM_DURATION)
            puts("\n/* the duration model, LARSAVIM_DURATION */");
        else
            printf("\n/* LARSAVIM_%s_MODEL(%" PRIu64 ") */\n", is_gv(which) ? "GV" : "STREAM", (which - 1) / 2);
        snprintf(name, sizeof name, "MODEL_%" PRIu64 "_", which);
        put_sizes(name, own);
    }
    if (round)
        most[DEPTH_SIZE] = 0;
    puts("\n/* any of them: for tables that hold one model after the other */");
    put_sizes("MOST_", most);
    puts("\n#endif");
}

int tables(int files, char **paths) {
    static struct sizes s;
    int worst = ALL_WELL;
    for (int i = 0; i < files; i++) {
        int status;
        show_progress("file", (uint64_t)i + 1, (uint64_t)files);
        status = keep_file(&s, paths[i]);
        if (worst < status)
            worst = status;
    }
    hide_progress();
    if (worst == ALL_WELL)
        put_header(&s, files, paths);
    return worst;
}
