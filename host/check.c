/* check.c: whether voices are in order, for a build: a line for whatever is refused, and for what a voice builder should look at. */
#include <inttypes.h>
#include <stdlib.h>
#include <string.h>

#include "host.h"

/* A run over some files: how it prints, and what it found in the file at hand. */
struct checking {
    int json, strict;
    const char *path;
    const struct voice *v;
    uint64_t warnings;
    int of_house;
};

/* ---- a finding, as a line or as an object ---------------------------------------------------------------------------------------- */

static const char *const finding[] = {"doubled-id", "doubled-question", "unasked-question", "unreached-line"};

static struct bytes text_bytes(const char *text) {
    struct bytes s = {(const uint8_t *)text, strlen(text)};
    return s;
}

/* The front of a line: `FILE: ` and `warning: `, or of an object. */
static void begin(const struct checking *c, const char *what) {
    hide_progress();
    if (!c->json) {
        printf("%s: ", c->path);
        return;
    }
    fputs("{\"file\":", stdout);
    put_json(stdout, text_bytes(c->path));
    printf(",\"finding\":\"%s\"", what);
}

/* What `explain` says to a stream, as memory that is to be freed. */
static char *in_words(void (*explain)(FILE *to, const void *of), const void *of) {
    char *text = NULL;
    size_t len;
    FILE *to = open_memstream(&text, &len);
    if (to == NULL)
        stop("there is not enough memory for a message");
    explain(to, of);
    if (fclose(to) != 0)
        stop("there is not enough memory for a message");
    return text;
}

static void finish(const struct checking *c, void (*explain)(FILE *to, const void *of), const void *of) {
    if (!c->json) {
        explain(stdout, of);
        putchar('\n');
    } else {
        char *text = in_words(explain, of);
        fputs(",\"says\":", stdout);
        put_json(stdout, text_bytes(text));
        puts("}");
        free(text);
    }
}

/* ---- refusals ------------------------------------------------------------------------------------------------------------------- */

struct refused {
    const struct voice *v;
    const struct larsavim_model *m;
};

static void say_open(FILE *to, const void *of) {
    const struct refused *r = of;
    explain_open(to, r->v);
}

static void say_model(FILE *to, const void *of) {
    const struct refused *r = of;
    put_model_name(to, r->v, r->m->which);
    fputs(": ", to);
    if (r->m->loaded[OUT_NUMBER] == LARSAVIM_SUCCESS)
        fputs("the leaf check failed: a leaf's number is 0 or past the entries of its tree", to);
    else
        explain_load(to, r->v, r->m->which, r->m->loaded);
}

/* Of an opening (no model), or of a load. */
static void tell_refusal(const struct checking *c, const struct larsavim_model *m) {
    struct refused r = {c->v, m};
    int leaves = m != NULL && m->loaded[OUT_NUMBER] == LARSAVIM_SUCCESS;
    begin(c, leaves ? "leaf-check" : "refused");
    if (c->json && m == NULL)
        printf(",\"number\":%" PRIu64 ",\"place\":%" PRIu64, c->v->number, c->v->place);
    else if (c->json && leaves)
        printf(",\"model\":%" PRIu64, m->which);
    else if (c->json)
        printf(",\"model\":%" PRIu64 ",\"number\":%" PRIu64 ",\"place\":%" PRIu64 ",\"line\":%" PRIu64, m->which, m->loaded[OUT_NUMBER], m->loaded[OUT_PLACE], m->loaded[OUT_LINE]);
    finish(c, m == NULL ? say_open : say_model, &r);
}

/* ---- warnings ------------------------------------------------------------------------------------------------------------------- */

struct warned {
    const struct voice *v;
    const struct warning *w;
};

static int of_question(const struct warning *w) {
    return w->kind == DOUBLED_QUESTION || w->kind == UNASKED_QUESTION;
}

static void say_warning(FILE *to, const void *of) {
    const struct warned *x = of;
    const struct warning *w = x->w;
    fputs("warning: ", to);
    put_model_name(to, x->v, w->which);
    if (of_question(w)) {
        fprintf(to, ", question %" PRIu64 " ", w->item);
        put_quoted(to, w->name);
    } else {
        fprintf(to, ", tree %" PRIu64 " (state %" PRIu64 "), line %" PRIu64, w->tree, w->state, w->item);
    }
    fprintf(to, ", byte %" PRIu64 " of the file: ", w->offset);
    if (w->kind == DOUBLED_ID)
        fprintf(to, "it bears the id %" PRId64 ", as line %" PRIu64 " (byte %" PRIu64 ") does; references to it go to the last line that bears it", w->id, w->other, w->other_offset);
    else if (w->kind == DOUBLED_QUESTION)
        fprintf(to, "question %" PRIu64 " (byte %" PRIu64 ") has the same name; lines ask the last question of a name", w->other, w->other_offset);
    else
        fputs(w->kind == UNASKED_QUESTION ? "no line asks it" : "no walk reaches it", to);
}

static void put_warning_fields(const struct warning *w) {
    printf(",\"model\":%" PRIu64, w->which);
    if (of_question(w)) {
        printf(",\"question\":%" PRIu64 ",\"name\":", w->item);
        put_json(stdout, w->name);
    } else {
        printf(",\"tree\":%" PRIu64 ",\"state\":%" PRIu64 ",\"line\":%" PRIu64 ",\"id\":%" PRId64, w->tree, w->state, w->item, w->id);
    }
    printf(",\"offset\":%" PRIu64, w->offset);
    if (w->kind == DOUBLED_ID || w->kind == DOUBLED_QUESTION)
        printf(",\"other\":%" PRIu64 ",\"other_offset\":%" PRIu64, w->other, w->other_offset);
}

static void tell_warning(const struct warning *w, void *with) {
    struct checking *c = with;
    struct warned x = {c->v, w};
    begin(c, finding[w->kind]);
    if (c->json)
        put_warning_fields(w);
    finish(c, say_warning, &x);
    c->warnings++;
}

/* ---- the house's rules ------------------------------------------------------------------------------------------------------------ */

struct broken {
    const struct voice *v;
    const uint64_t *out;
};

static void say_rule(FILE *to, const void *of) {
    const struct broken *b = of;
    fputs("warning: ", to);
    explain_rule(to, b->v, b->out);
}

/* The first rule that the voice breaks; a refused load has been told by then. */
static void check_house(struct checking *c) {
    uint64_t out[LARSAVIM_HOUSE_OUT];
    struct broken b = {c->v, out};
    judge_house(c->v, out);
    c->of_house = out[OUT_NUMBER] == LARSAVIM_SUCCESS;
    if (!breaks_rule(out))
        return;
    begin(c, "house");
    if (c->json)
        printf(",\"number\":%" PRIu64, out[OUT_NUMBER]);
    if (c->json && out[OUT_NUMBER] >= LARSAVIM_IDS)
        printf(",\"model\":%" PRIu64, out[LARSAVIM_HOUSE_MODEL]);
    finish(c, say_rule, &b);
    c->warnings++;
}

/* ---- files ---------------------------------------------------------------------------------------------------------------------- */

/* A line for a model that doesn't load or fails the leaf check, and its warnings where it loads; nothing for one that is in order. */
static int check_model(struct checking *c, uint64_t which) {
    struct larsavim_model m;
    int loads, good;
    if (is_unasked_gv(c->v, which))
        return 1;
    load_model(c->v, which, 0, &m);
    loads = m.loaded[OUT_NUMBER] == LARSAVIM_SUCCESS;
    good = loads && leaves_fit(&m);
    if (!good)
        tell_refusal(c, &m);
    if (loads)
        warn_model(c->v, &m, tell_warning, c);
    free_model(&m);
    return good;
}

static int check_voice(struct checking *c) {
    uint64_t models;
    int good = 1;
    if (c->v->number != LARSAVIM_SUCCESS) {
        tell_refusal(c, NULL);
        return 0;
    }
    models = models_of(c->v);
    for (uint64_t which = 0; which < models; which++)
        good &= check_model(c, which);
    check_house(c);
    return good;
}

/* With --json the last object of a file says how it ended. */
static int check_file(struct checking *c) {
    struct bytes file;
    struct voice v;
    int good;
    c->v = &v;
    c->warnings = 0;
    c->of_house = 0;
    if (!map_file(c->path, &file)) {
        if (c->json) {
            begin(c, "unreadable");
            puts("}");
        }
        return TROUBLE;
    }
    open_voice(&v, file);
    good = check_voice(c);
    if (c->json) {
        begin(c, "verdict");
        printf(",\"in_order\":%s,\"house\":%s,\"warnings\":%" PRIu64 "}\n", good ? "true" : "false", c->of_house ? "true" : "false", c->warnings);
    }
    close_voice(&v);
    unmap_file(file);
    return good && (!c->strict || c->warnings == 0) ? ALL_WELL : REFUSED;
}

/* Every file is looked at, whatever the ones before it are. */
int check(int json, int strict, int files, char **paths) {
    struct checking c = {json, strict, NULL, NULL, 0, 0};
    int worst = ALL_WELL;
    for (int i = 0; i < files; i++) {
        int status;
        show_progress("file", (uint64_t)i + 1, (uint64_t)files);
        c.path = paths[i];
        status = check_file(&c);
        if (worst < status)
            worst = status;
    }
    hide_progress();
    return worst;
}
