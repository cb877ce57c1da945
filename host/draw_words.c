/* draw_words.c: the words behind `larsavim draw`. */
#include <stdio.h>
#include <string.h>

#include "host.h"

static int wrong(const char *name, const char *word, const char *wanted) {
    fprintf(stderr, "larsavim: draw: %s is '%s', and should be %s\n", name, word, wanted);
    return TROUBLE;
}

/* FILE MODEL TREE, and options before or behind them. */
int draw_words(int n, char **words) {
    struct asked_drawing a = {NULL, 0, 0, 0, {NULL, 0}, {NULL, 0}};
    const char *plain[3], *label = NULL, *answers = NULL;
    int count = 0, status;
    for (int i = 0; i < n; i++) {
        if (strcmp(words[i], "--svg") == 0)
            a.svg = 1;
        else if (strcmp(words[i], "--answers") == 0 && i + 1 < n)
            answers = words[++i];
        else if (strcmp(words[i], "--label") == 0 && i + 1 < n)
            label = words[++i];
        else if (count < 3 && strncmp(words[i], "--", 2) != 0)
            plain[count++] = words[i];
        else
            return NOT_SO;
    }
    if (count != 3 || (label != NULL && answers != NULL))
        return NOT_SO;
    a.path = plain[0];
    if (!read_number(plain[1], &a.which))
        return wrong("MODEL", plain[1], walk_wanted[0]);
    if (!read_number(plain[2], &a.tree))
        return wrong("TREE", plain[2], walk_wanted[0]);
    if (answers != NULL && !read_answers(answers, &a.answers))
        return wrong("ANSWERS", answers, walk_wanted[2]);
    if (label != NULL) {
        struct bytes s = {(const uint8_t *)label, strlen(label)};
        a.label = lend_copy(s);
    }
    status = picture(&a);
    if (answers != NULL)
        give_back(a.answers.at, a.answers.len);
    if (label != NULL)
        give_back(a.label.at, a.label.len);
    return status;
}
