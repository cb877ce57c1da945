/* accepts.c: the stored cases of somebody else's rows (judge/readings/accepting.py), each a line on standard input: the text as hex, the tree, how many rows, their numbers,
 * then number, place and line of the answer, and of accepted rows how walks over the text end: answers, limit, number, PDF number, questions asked. A walk over the rows,
 * which stand behind another in a table, must end so. The call must answer so, with numbers behind the last row that are no row too; what is lent for reading must stay; a short
 * `out` is 20. Every slice is lent by host/lend.c, so that LARSAVIM_GUARD puts guards beside it. Prints what differs, and how many checks passed and failed. */
#include "cases.h"

struct stored {
    struct bytes text;
    uint64_t tree, rows, *records, answer[LARSAVIM_ACCEPTS_OUT];
};

static void read_case(char *line, struct stored *s) {
    s->text = read_hex(strtok(line, " \n"));
    s->tree = next_number();
    s->rows = next_number();
    s->records = calloc((size_t)(4 * s->rows + 1), 8);
    if (s->records == NULL)
        stop("there is no memory for the rows");
    for (uint64_t i = 0; i < 4 * s->rows; i++)
        s->records[i] = next_number();
    for (int i = 0; i < LARSAVIM_ACCEPTS_OUT; i++)
        s->answer[i] = next_number();
}

/* The walks of accepted rows, which stand from the second record of a table on. */
static void walk_rows(const struct stored *s) {
    uint64_t len = 4 * (s->rows + 1), *records = lend(8 * len), *trees = lend(8 * LARSAVIM_TREE_ROW), *out = lend(8 * LARSAVIM_WALK_OUT);
    const char *word;
    for (uint64_t i = 0; i < len; i++)
        records[i] = i < 4 ? 77 : s->records[i - 4];
    memset(trees, 0, 8 * LARSAVIM_TREE_ROW);
    trees[1] = 1;
    trees[2] = s->rows;
    while ((word = strtok(NULL, " \n")) != NULL) {
        size_t n = strcmp(word, "-") == 0 ? 0 : strlen(word);
        uint8_t *answers = lend(n);
        uint64_t limit = next_number(), want[LARSAVIM_WALK_OUT];
        for (size_t i = 0; i < n; i++)
            answers[i] = (uint8_t)(word[i] - '0');
        for (int i = 0; i < LARSAVIM_WALK_OUT; i++)
            want[i] = next_number();
        larsavim_walk(trees, LARSAVIM_TREE_ROW, records, len, 0, answers, n, limit, out, LARSAVIM_WALK_OUT);
        expect(memcmp(out, want, sizeof want) == 0, "a walk over the rows");
        give_back(answers, n);
    }
    give_back(out, 8 * LARSAVIM_WALK_OUT);
    give_back(trees, 8 * LARSAVIM_TREE_ROW);
    give_back(records, 8 * len);
}

/* The rows with so many numbers behind them. */
static void ask(const struct stored *s, uint64_t behind) {
    uint64_t len = 4 * s->rows + behind, *records = lend(8 * len), *out = lend(8 * LARSAVIM_ACCEPTS_OUT), *kept = lend(8 * len);
    struct bytes text = lend_copy(s->text);
    for (uint64_t i = 0; i < len; i++)
        records[i] = kept[i] = i < 4 * s->rows ? s->records[i] : 1;
    memset(out, OLD, 8 * LARSAVIM_ACCEPTS_OUT);
    expect(larsavim_accepts(text.at, text.len, s->tree, records, len, out, LARSAVIM_ACCEPTS_OUT) == s->answer[0], "what is returned");
    expect(memcmp(out, s->answer, sizeof s->answer) == 0, "number, place, line");
    expect(len == 0 || memcmp(records, kept, (size_t)(8 * len)) == 0, "the rows stay");
    expect(text.len == 0 || memcmp(text.at, s->text.at, (size_t)text.len) == 0, "the text stays");
    memset(out, OLD, 8 * LARSAVIM_ACCEPTS_OUT);
    expect(larsavim_accepts(text.at, text.len, s->tree, records, len, out, LARSAVIM_ACCEPTS_OUT - 1) == LARSAVIM_ROOM && *(uint8_t *)out == OLD, "a short out");
    give_back(text.at, text.len);
    give_back(kept, 8 * len);
    give_back(out, 8 * LARSAVIM_ACCEPTS_OUT);
    give_back(records, 8 * len);
}

int main(void) {
    char *line;
    while ((line = next_case()) != NULL) {
        struct stored s;
        read_case(line, &s);
        for (uint64_t behind = 0; behind < 4; behind += 3)
            ask(&s, behind);
        walk_rows(&s);
        give_back(s.text.at, s.text.len);
        free(s.records);
    }
    return told();
}
