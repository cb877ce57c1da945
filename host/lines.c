/* lines.c: the lines of standard input, for the verbs that answer one after the other. */
#define _POSIX_C_SOURCE 200809L
#include <stdlib.h>
#include <string.h>
#include <sys/types.h>

#include "host.h"

int cut(char *line, char **words, int most) {
    int n = 0;
    for (;;) {
        char *space = strchr(line, ' ');
        if (n == most)
            return 0;
        words[n++] = line;
        if (space == NULL)
            return n;
        *space = '\0';
        line = space + 1;
    }
}

int answer_lines(const char *verb, const char *(*answer)(char *line, void *with), void *with) {
    const char *wrong = NULL;
    char *line = NULL;
    size_t room = 0;
    ssize_t len;
    unsigned long number = 0;
    while (wrong == NULL && (len = getline(&line, &room, stdin)) >= 0) {
        number++;
        while (len > 0 && (line[len - 1] == '\n' || line[len - 1] == '\r'))
            line[--len] = '\0';
        wrong = strlen(line) == (size_t)len ? answer(line, with) : "has a byte of 0";
        fflush(stdout); /* each answer is out before the next line is looked at */
    }
    if (wrong != NULL)
        fprintf(stderr, "larsavim: %s: line %lu %s\n", verb, number, wrong);
    else if (ferror(stdin))
        fprintf(stderr, "larsavim: %s: standard input can't be read\n", verb);
    free(line);
    return wrong != NULL || ferror(stdin) ? TROUBLE : ALL_WELL;
}
