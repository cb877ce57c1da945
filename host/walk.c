/* walk.c: one walk over one tree of one model, with the answers given. */
#include <inttypes.h>
#include <string.h>

#include "host.h"

void put_walk(const uint64_t out[LARSAVIM_WALK_OUT]) {
    if (out[OUT_NUMBER] == LARSAVIM_SUCCESS)
        printf("PDF %" PRIu64 " ASKED %" PRIu64 "\n", out[LARSAVIM_WALK_PDF], out[LARSAVIM_WALK_ASKED]);
    else
        printf("REFUSED %" PRIu64 "\n", out[OUT_NUMBER]);
}

/* Walks, and says why there is no answer to `why`, if there is a place for it. out: as walk_model's, or the refusal of the opening or the load. */
static void walk_voice(const struct voice *v, const struct asked_walk *w, FILE *why, uint64_t out[LARSAVIM_WALK_OUT]) {
    struct larsavim_model m;
    out[OUT_NUMBER] = v->number;
    if (out[OUT_NUMBER] != LARSAVIM_SUCCESS) {
        if (why != NULL)
            explain_open(why, v);
        return;
    }
    load_model(v, w->which, 0, &m);
    out[OUT_NUMBER] = m.loaded[OUT_NUMBER];
    if (out[OUT_NUMBER] == LARSAVIM_SUCCESS) {
        walk_model(&m, w->tree, w->answers, w->limit, out);
        if (why != NULL && out[OUT_NUMBER] != LARSAVIM_SUCCESS)
            explain_walk(why, out[OUT_NUMBER]);
    } else if (why != NULL) {
        explain_load(why, v, w->which, m.loaded);
    }
    free_model(&m);
}

int walk_line(struct bytes file, const struct asked_walk *w, FILE *why) {
    struct voice v;
    uint64_t out[LARSAVIM_WALK_OUT];
    open_voice(&v, file);
    walk_voice(&v, w, why, out);
    close_voice(&v);
    put_walk(out);
    return out[OUT_NUMBER] == LARSAVIM_SUCCESS ? ALL_WELL : REFUSED;
}

int read_answers(const char *word, struct bytes *answers) {
    size_t n = strspn(word, "01");
    uint8_t *own;
    if (strcmp(word, "-") != 0 && (n == 0 || word[n] != '\0'))
        return 0;
    own = lend(n);
    for (size_t i = 0; i < n; i++)
        own[i] = (uint8_t)(word[i] - '0');
    answers->at = own;
    answers->len = n;
    return 1;
}

#define NUMBER "a decimal number from 0 to 18446744073709551615"
const char *const walk_word[WALK_WORDS] = {"MODEL", "TREE", "ANSWERS", "LIMIT"};
const char *const walk_wanted[WALK_WORDS] = {NUMBER, NUMBER, "0 and 1 alone, one for each question, or - for none", NUMBER};

int read_walk(char **words, struct asked_walk *w) {
    if (!read_number(words[0], &w->which))
        return 0;
    if (!read_number(words[1], &w->tree))
        return 1;
    if (!read_number(words[3], &w->limit))
        return 3;
    return read_answers(words[2], &w->answers) ? WALK_WORDS : 2;
}

/* The words are FILE MODEL TREE ANSWERS LIMIT. */
int walk(char **words) {
    struct asked_walk w;
    struct bytes file;
    int bad = read_walk(words + 1, &w), status = TROUBLE;
    if (bad < WALK_WORDS) {
        fprintf(stderr, "larsavim: walk: %s is '%s', and should be %s\n", walk_word[bad], words[1 + bad], walk_wanted[bad]);
        return TROUBLE;
    }
    if (map_file(words[0], &file)) {
        status = walk_line(file, &w, stderr);
        if (status == REFUSED)
            fputc('\n', stderr);
        unmap_file(file);
    }
    give_back(w.answers.at, w.answers.len);
    return status;
}
