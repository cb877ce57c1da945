/* writes.c: the stored cases of the writer (judge/readings/writing.py), each a line on standard input: data as hex, of each table its rows and numbers, the number of
 * the answer, the text as hex. Both calls must answer so, into a buffer of just the text's length, one with room behind it and one a byte short; nothing but what
 * is promised may change. Every slice is lent by host/lend.c, so that LARSAVIM_GUARD puts guards beside it. Prints what differs, and how many checks passed and failed. */
#include "cases.h"

enum { WRITE_TABLES = 4, SPARE = 5 };

struct stored {
    struct bytes data, text;
    uint64_t *table[WRITE_TABLES], len[WRITE_TABLES];
    uint64_t number;
};

/* ---- reading a case --------------------------------------------------------------------------------------------------------------- */

/* A table of rows that are stored with so many numbers and lent with so many; numbers that the text doesn't say are of no account. Behind the last row
 * stands a number that is no row. */
static void read_table(struct stored *s, int t, uint64_t stored_width, uint64_t width) {
    uint64_t rows = next_number();
    s->len[t] = rows * width + (width > 1);
    s->table[t] = lend(8 * s->len[t]);
    for (uint64_t i = 0; i < s->len[t]; i++)
        s->table[t][i] = 77;
    for (uint64_t i = 0; i < rows; i++)
        for (uint64_t k = 0; k < stored_width; k++)
            s->table[t][width * i + k] = next_number();
}

static void read_case(char *line, struct stored *s) {
    const char *text;
    s->data = read_hex(strtok(line, " \n"));
    read_table(s, 0, 4, LARSAVIM_QUESTION_ROW);
    read_table(s, 1, 2, LARSAVIM_PATTERN_ROW);
    read_table(s, 2, 4, LARSAVIM_TREE_ROW);
    read_table(s, 3, 4, LARSAVIM_RECORD_ROW);
    s->number = next_number();
    text = strtok(NULL, " \n");
    if (text == NULL || strtok(NULL, " \n") != NULL)
        stop("a stored line of the writer has too few or too many words");
    s->text = read_hex(text);
}

static void free_case(struct stored *s) {
    give_back(s->data.at, s->data.len);
    give_back(s->text.at, s->text.len);
    for (int t = 0; t < WRITE_TABLES; t++)
        give_back(s->table[t], 8 * s->len[t]);
}

/* ---- the calls -------------------------------------------------------------------------------------------------------------------- */

static uint64_t needs(const struct stored *s, uint64_t *out, uint64_t out_len) {
    return larsavim_write_needs(s->data.at, s->data.len, s->table[0], s->len[0], s->table[1], s->len[1], s->table[2], s->len[2], s->table[3], s->len[3], out, out_len);
}

static uint64_t write_into(const struct stored *s, uint8_t *buffer, uint64_t len, uint64_t *out, uint64_t out_len) {
    return larsavim_write(s->data.at, s->data.len, s->table[0], s->len[0], s->table[1], s->len[1], s->table[2], s->len[2], s->table[3], s->len[3], buffer, len, out, out_len);
}

static int all_old(const uint8_t *at, uint64_t len) {
    for (uint64_t i = 0; i < len; i++)
        if (at[i] != OLD)
            return 0;
    return 1;
}

/* Into a buffer of so many bytes, which must be answered so. */
static void write_so(const struct stored *s, uint64_t len, uint64_t number) {
    uint64_t *out = lend(8 * (LARSAVIM_WRITE_OUT + 1)), want = number == LARSAVIM_SUCCESS ? s->text.len : 0;
    uint8_t *buffer = lend(len);
    memset(buffer, OLD, (size_t)len);
    out[LARSAVIM_WRITE_OUT] = 77;
    expect(write_into(s, buffer, len, out, LARSAVIM_WRITE_OUT + 1) == number, "the number returned");
    expect(out[0] == number && out[1] == want && out[2] == 77, "the answer");
    expect(want == 0 || memcmp(buffer, s->text.at, (size_t)want) == 0, "the text");
    expect(all_old(buffer + want, len - want), "what is behind the text, or the whole buffer where nothing is written");
    give_back(buffer, len);
    give_back(out, 8 * (LARSAVIM_WRITE_OUT + 1));
}

/* An `out` that is too short is 20 before all else. */
static void short_out(const struct stored *s) {
    uint64_t *out = lend(8), len = s->text.len + SPARE;
    uint8_t *buffer = lend(len);
    memset(buffer, OLD, (size_t)len);
    *out = 77;
    expect(needs(s, out, 1) == LARSAVIM_ROOM && needs(s, out, 0) == LARSAVIM_ROOM && *out == 77, "a short out of larsavim_write_needs");
    expect(write_into(s, buffer, len, out, 1) == LARSAVIM_ROOM && *out == 77 && all_old(buffer, len), "a short out of larsavim_write");
    give_back(buffer, len);
    give_back(out, 8);
}

static void try_case(const struct stored *s) {
    uint64_t *out = lend(8 * LARSAVIM_WRITE_NEEDS_OUT);
    expect(needs(s, out, LARSAVIM_WRITE_NEEDS_OUT) == s->number && out[0] == s->number && out[1] == s->text.len, "larsavim_write_needs");
    give_back(out, 8 * LARSAVIM_WRITE_NEEDS_OUT);
    write_so(s, s->text.len, s->number);
    write_so(s, s->text.len + SPARE, s->number);
    if (s->number == LARSAVIM_SUCCESS) {
        write_so(s, s->text.len - 1, LARSAVIM_ROOM);
        write_so(s, 0, LARSAVIM_ROOM);
    }
    short_out(s);
}

int main(void) {
    char *line;
    while ((line = next_case()) != NULL) {
        struct stored s;
        read_case(line, &s);
        try_case(&s);
        free_case(&s);
    }
    return told();
}
