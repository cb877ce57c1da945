/* house.c: the stored cases of house voices (judge/readings/house.py), each a line on standard input: a file as hex, the side, the lengths of the tables and of the work, the task's bounds, the other's;
 * number, place, line and model of the answer, the task's bounds afterwards, each table and the work afterwards, mixed to one number each. So the call must answer, and so it must leave all that is lent
 * to it; the words are as larsavim_open leaves them where the file was opened, else as before; what is lent for reading must stay. Then the same call with a slice that is too short: `out`, either
 * task's bounds (20 alone, nothing is written), the words. Every slice is lent by host/lend.c, so that LARSAVIM_GUARD puts guards beside it. Prints what differs, and how many checks passed and failed. */
#include "cases.h"

enum { LENT = TABLES + 1, SLICES = 4 };

/* ---- a case ---------------------------------------------------------------------------------------------------------------------- */

struct stored {
    struct bytes file;
    uint64_t side, len[LENT], held[LARSAVIM_BOUNDS], other[LARSAVIM_BOUNDS];
    uint64_t told[LARSAVIM_HOUSE_OUT], after[LARSAVIM_BOUNDS], mixed[LENT];
};

static void read_numbers(uint64_t *at, int count) {
    for (int i = 0; i < count; i++)
        at[i] = next_number();
}

static void read_case(char *line, struct stored *s) {
    s->file = read_hex(strtok(line, " \n"));
    read_numbers(&s->side, 1);
    read_numbers(s->len, LENT);
    read_numbers(s->held, LARSAVIM_BOUNDS);
    read_numbers(s->other, LARSAVIM_BOUNDS);
    read_numbers(s->told, LARSAVIM_HOUSE_OUT);
    read_numbers(s->after, LARSAVIM_BOUNDS);
    read_numbers(s->mixed, LENT);
}

/* ---- what is lent ---------------------------------------------------------------------------------------------------------------- */

enum { OUT, HELD, OTHER, WORDS };

static const uint64_t whole[SLICES] = {LARSAVIM_HOUSE_OUT, LARSAVIM_BOUNDS, LARSAVIM_BOUNDS, LARSAVIM_WORDS};

struct lent {
    struct bytes file;
    uint64_t *slice[SLICES], len[SLICES]; /* out, held, other, words */
    uint64_t *table[LENT];
};

static uint64_t *painted(uint64_t numbers) {
    uint64_t *at = lend(8 * numbers);
    if (numbers > 0)
        memset(at, OLD, (size_t)(8 * numbers));
    return at;
}

/* Slices of the lengths that they should have, but for one, which is so many numbers shorter. */
static void lend_all(struct lent *l, const struct stored *s, int which, uint64_t shorter) {
    l->file = lend_copy(s->file);
    for (int i = 0; i < SLICES; i++) {
        l->len[i] = whole[i] - (i == which ? shorter : 0);
        l->slice[i] = painted(l->len[i]);
    }
    memcpy(l->slice[HELD], s->held, (size_t)(8 * l->len[HELD]));
    memcpy(l->slice[OTHER], s->other, (size_t)(8 * l->len[OTHER]));
    for (int t = 0; t < LENT; t++)
        l->table[t] = painted(s->len[t]);
}

static void end_all(struct lent *l, const struct stored *s) {
    give_back(l->file.at, l->file.len);
    for (int i = 0; i < SLICES; i++)
        give_back(l->slice[i], 8 * l->len[i]);
    for (int t = 0; t < LENT; t++)
        give_back(l->table[t], 8 * s->len[t]);
}

static uint64_t call(struct lent *l, const struct stored *s) {
    return larsavim_house(l->file.at, l->file.len, l->slice[WORDS], l->len[WORDS], s->side, l->slice[HELD], l->len[HELD], l->slice[OTHER], l->len[OTHER], l->table[QUESTIONS], s->len[QUESTIONS],
                          l->table[PATTERNS], s->len[PATTERNS], l->table[TREES], s->len[TREES], l->table[RECORDS], s->len[RECORDS], l->table[VALUES], s->len[VALUES], (int64_t *)l->table[TABLES],
                          s->len[TABLES], l->slice[OUT], l->len[OUT]);
}

/* ---- how it looks afterwards ------------------------------------------------------------------------------------------------------ */

static uint64_t mixed(const uint64_t *at, uint64_t len) {
    uint64_t sum = UINT64_C(0xcbf29ce484222325);
    for (uint64_t i = 0; i < len; i++)
        sum = (sum ^ at[i]) * UINT64_C(0x100000001b3);
    return sum;
}

static int all_old(const void *slice, uint64_t numbers) {
    const uint8_t *at = slice;
    for (uint64_t i = 0; i < 8 * numbers; i++)
        if (at[i] != OLD)
            return 0;
    return 1;
}

static int same_numbers(const uint64_t *at, const uint64_t *want, uint64_t numbers) {
    return memcmp(at, want, (size_t)(8 * numbers)) == 0;
}

/* The file and the other's bounds, which are only read. */
static int stay(const struct lent *l, const struct stored *s) {
    return same(l->file, s->file) && same_numbers(l->slice[OTHER], s->other, l->len[OTHER]);
}

static int untouched(const struct lent *l, const struct stored *s) {
    int good = stay(l, s) && same_numbers(l->slice[HELD], s->held, l->len[HELD]) && all_old(l->slice[WORDS], l->len[WORDS]);
    for (int t = 0; t < LENT; t++)
        good &= all_old(l->table[t], s->len[t]);
    return good;
}

/* Number and place of an opening into so many words, and the words that it leaves where OLD stood. */
static uint64_t *opened_words(struct bytes file, uint64_t words_len, uint64_t out[LARSAVIM_OPEN_OUT]) {
    uint64_t *words = painted(words_len), *told = lend(8 * LARSAVIM_OPEN_OUT);
    larsavim_open(file.at, file.len, words, words_len, told, LARSAVIM_OPEN_OUT);
    memcpy(out, told, 8 * LARSAVIM_OPEN_OUT);
    give_back(told, 8 * LARSAVIM_OPEN_OUT);
    return words;
}

static int before_opening(const struct stored *s) {
    return s->told[OUT_NUMBER] == LARSAVIM_HELD || s->told[OUT_NUMBER] == LARSAVIM_WALKTABLE;
}

/* ---- the calls --------------------------------------------------------------------------------------------------------------------- */

static void whole_call(const struct stored *s) {
    struct lent l;
    uint64_t opened[LARSAVIM_OPEN_OUT], *words = opened_words(s->file, LARSAVIM_WORDS, opened);
    int tables = 1;
    lend_all(&l, s, SLICES, 0);
    expect(call(&l, s) == s->told[OUT_NUMBER], "what is returned");
    expect(same_numbers(l.slice[OUT], s->told, LARSAVIM_HOUSE_OUT), "number, place, line, model");
    expect(same_numbers(l.slice[HELD], s->after, LARSAVIM_BOUNDS), "the task's bounds");
    expect(before_opening(s) ? all_old(l.slice[WORDS], LARSAVIM_WORDS) : same_numbers(l.slice[WORDS], words, LARSAVIM_WORDS), "the words");
    for (int t = 0; t < LENT; t++)
        tables &= mixed(l.table[t], s->len[t]) == s->mixed[t];
    expect(tables, "the tables and the work");
    expect(stay(&l, s), "what is only read");
    end_all(&l, s);
    give_back(words, 8 * LARSAVIM_WORDS);
}

/* 20 by itself: not even the answer is written. */
static void short_call(const struct stored *s, int which, uint64_t shorter, const char *name) {
    struct lent l;
    lend_all(&l, s, which, shorter);
    expect(call(&l, s) == LARSAVIM_ROOM && untouched(&l, s) && all_old(l.slice[OUT], l.len[OUT]), name);
    end_all(&l, s);
}

/* Words one too few: 29 and 24 as ever, else what opening says of so many; nothing but the answer is written. */
static void few_words(const struct stored *s) {
    struct lent l;
    uint64_t want[LARSAVIM_HOUSE_OUT] = {0}, opened[LARSAVIM_OPEN_OUT], *words = opened_words(s->file, LARSAVIM_WORDS - 1, opened);
    lend_all(&l, s, WORDS, 1);
    want[OUT_NUMBER] = before_opening(s) ? s->told[OUT_NUMBER] : opened[0];
    want[LARSAVIM_HOUSE_PLACE] = before_opening(s) ? 0 : opened[1];
    expect(call(&l, s) == want[OUT_NUMBER] && want[OUT_NUMBER] != LARSAVIM_SUCCESS && untouched(&l, s) && same_numbers(l.slice[OUT], want, LARSAVIM_HOUSE_OUT), "few words");
    end_all(&l, s);
    give_back(words, 8 * (LARSAVIM_WORDS - 1));
}

int main(void) {
    char *line;
    while ((line = next_case()) != NULL) {
        struct stored s;
        read_case(line, &s);
        whole_call(&s);
        short_call(&s, OUT, 1, "a short out");
        short_call(&s, OUT, whole[OUT], "no out");
        short_call(&s, HELD, 1, "short bounds of its own");
        short_call(&s, OTHER, 1, "short bounds of the other's");
        few_words(&s);
        give_back(s.file.at, s.file.len);
    }
    return told();
}
