/* hex.c: many inputs at once, a line each on standard input, for comparing the library with another reader of the same files.
 *
 * A line is a whole file as hex, and its answer the lines of `dump` and a line END. Where the line goes on with a model, the answer is the tree text
 * of its tables, as hex; where it goes on with a model, a tree, answers as hex (or -) and a limit, that of `walk`; and a line END. */
#include <string.h>

#include "../host.h"

static int hex_digit(char c) {
    if (c >= '0' && c <= '9')
        return c - '0';
    return c >= 'a' ? c - 'a' + 10 : c - 'A' + 10;
}

int bytes_of_hex(const char *word, struct bytes *out) {
    size_t digits = strlen(word), len = digits / 2;
    uint8_t *at;
    if (digits % 2 != 0 || strspn(word, "0123456789abcdefABCDEF") != digits)
        return 0;
    at = lend(len);
    for (size_t i = 0; i < len; i++)
        at[i] = (uint8_t)(16 * hex_digit(word[2 * i]) + hex_digit(word[2 * i + 1]));
    out->at = at;
    out->len = len;
    return 1;
}

static int walk_words(struct bytes file, char **words) {
    struct asked_walk w;
    if (!read_number(words[1], &w.which) || !read_number(words[2], &w.tree) || !read_number(words[4], &w.limit))
        return 0;
    if (!bytes_of_hex(strcmp(words[3], "-") == 0 ? "" : words[3], &w.answers))
        return 0;
    walk_line(file, &w, NULL);
    give_back(w.answers.at, w.answers.len);
    return 1;
}

static int write_words(struct bytes file, char **words) {
    uint64_t which;
    if (!read_number(words[1], &which))
        return 0;
    put_text_hex(file, which);
    return 1;
}

/* Answers one line, or says what is wrong with it. */
static const char *answer(char *line, void *nothing) {
    static const char wrong[] = "is neither a file as hex, nor that and a model, nor that, a tree, answers as hex and a limit, parted by single spaces";
    char *words[5];
    int n = cut(line, words, 5), good = 1;
    struct bytes file;
    (void)nothing;
    if ((n != 1 && n != 2 && n != 5) || !bytes_of_hex(words[0], &file))
        return wrong;
    if (n == 5)
        good = walk_words(file, words);
    else if (n == 2)
        good = write_words(file, words);
    else
        dump_voice(file);
    give_back(file.at, file.len);
    if (!good)
        return wrong;
    puts("END");
    return NULL;
}

int hex(void) {
    return answer_lines("hex", answer, NULL);
}
