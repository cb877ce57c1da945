/* label.c: a label instead of answer bytes: the answers of a model's questions to it, and where it leads in every tree of a voice. */
#include <inttypes.h>
#include <string.h>

#include "host.h"

/* A word of the command line, lent: its bytes as they are, an empty word too. */
static struct bytes lend_label(const char *word) {
    struct bytes label = {(const uint8_t *)word, strlen(word)};
    return lend_copy(label);
}

/* The model's answer bytes to a label, lent. The rows are the library's own, so it has nothing to refuse. */
static struct bytes answers_to(const struct voice *v, const struct larsavim_model *m, struct bytes label) {
    struct bytes answers;
    if (answer_model(v, m, label, &answers) != LARSAVIM_SUCCESS)
        stop("the library refuses the questions that it loaded");
    return answers;
}

static void put_answers(struct bytes answers) {
    for (uint64_t q = 0; q < answers.len; q++)
        putchar(answers.at[q] == 0 ? '0' : '1');
    puts(answers.len == 0 ? "-" : "");
}

/* Opens, or prints the refusal and says why. */
static int opened(struct voice *v, struct bytes file) {
    open_voice(v, file);
    if (v->number == LARSAVIM_SUCCESS)
        return 1;
    printf("REFUSED %" PRIu64 "\n", v->number);
    explain_open(stderr, v);
    fputc('\n', stderr);
    return 0;
}

/* ---- answers ------------------------------------------------------------------------------------------------------------------- */

static int answer_label(struct bytes file, uint64_t which, struct bytes label) {
    struct voice v;
    struct larsavim_model m;
    int status = REFUSED;
    if (opened(&v, file)) {
        load_model(&v, which, 0, &m);
        if (m.loaded[OUT_NUMBER] == LARSAVIM_SUCCESS) {
            struct bytes given = answers_to(&v, &m, label);
            put_answers(given);
            give_back(given.at, given.len);
            status = ALL_WELL;
        } else {
            printf("REFUSED %" PRIu64 "\n", m.loaded[OUT_NUMBER]);
            explain_load(stderr, &v, which, m.loaded);
            fputc('\n', stderr);
        }
        free_model(&m);
    }
    close_voice(&v);
    return status;
}

/* The words are FILE MODEL LABEL. */
int answers(char **words) {
    struct bytes file, label;
    uint64_t which;
    int status = TROUBLE;
    if (!read_number(words[1], &which)) {
        fprintf(stderr, "larsavim: answers: MODEL is '%s', and should be %s\n", words[1], walk_wanted[0]);
        return TROUBLE;
    }
    label = lend_label(words[2]);
    if (map_file(words[0], &file)) {
        status = answer_label(file, which, label);
        unmap_file(file);
    }
    give_back(label.at, label.len);
    return status;
}

/* ---- say ----------------------------------------------------------------------------------------------------------------------- */

/* Where the answers lead in every tree, a line each. No tree asks more questions than its model has records, unless it goes round. */
static int say_trees(const struct larsavim_model *m, struct bytes answers) {
    int status = ALL_WELL;
    for (uint64_t t = 0; t < rows_of(m, TREES); t++) {
        uint64_t out[LARSAVIM_WALK_OUT];
        walk_model(m, t, answers, rows_of(m, RECORDS), out);
        printf("MODEL %" PRIu64 " TREE %" PRIu64 " STATE %" PRIu64 " ", m->which, t, row_of(m, TREES, t)[LARSAVIM_TREE_STATE]);
        put_walk(out);
        if (out[OUT_NUMBER] != LARSAVIM_SUCCESS) {
            fprintf(stderr, "model %" PRIu64 ", tree %" PRIu64 ": ", m->which, t);
            explain_walk(stderr, out[OUT_NUMBER]);
            fputc('\n', stderr);
            status = REFUSED;
        }
    }
    return status;
}

/* A GV that the header doesn't ask for is no part of the voice: nothing is said of it. */
static int say_model(const struct voice *v, uint64_t which, struct bytes label) {
    struct larsavim_model m;
    int status = REFUSED;
    load_model(v, which, 0, &m);
    if (m.loaded[OUT_NUMBER] == LARSAVIM_SUCCESS) {
        struct bytes answers = answers_to(v, &m, label);
        status = say_trees(&m, answers);
        give_back(answers.at, answers.len);
    } else if (is_unasked_gv(v, which)) {
        status = ALL_WELL;
    } else {
        printf("MODEL %" PRIu64 " REFUSED %" PRIu64 "\n", which, m.loaded[OUT_NUMBER]);
        put_model_name(stderr, v, which);
        fputs(": ", stderr);
        explain_load(stderr, v, which, m.loaded);
        fputc('\n', stderr);
    }
    free_model(&m);
    return status;
}

static int say_voice(struct bytes file, struct bytes label) {
    struct voice v;
    int status = REFUSED;
    if (opened(&v, file)) {
        uint64_t models = models_of(&v);
        status = ALL_WELL;
        for (uint64_t which = 0; which < models; which++)
            if (say_model(&v, which, label) != ALL_WELL)
                status = REFUSED;
    }
    close_voice(&v);
    return status;
}

/* The words are FILE LABEL. */
int say(char **words) {
    struct bytes file, label = lend_label(words[1]);
    int status = TROUBLE;
    if (map_file(words[0], &file)) {
        status = say_voice(file, label);
        unmap_file(file);
    }
    give_back(label.at, label.len);
    return status;
}
