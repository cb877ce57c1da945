/* depth.c: larsavim_depth against a plain search of all paths: the worked cases of docs/READINGS.md, random tables, many of them damaged or going round, with work of any length and content; and long chains,
 * ladders and rings, whose paths nobody could search. Slices stand between guards where LARSAVIM_GUARD says so (host/lend.c). Prints what differs, and how many checks passed and failed. */
#include <stdio.h>
#include <string.h>

#include "../host.h"

enum { MOST_TREES = 3, MOST_RECORDS = 9, ROUNDS = 60000, MANY = 20000, WORK = LARSAVIM_WORK_A_RECORD };

static unsigned passed, failed, told[4]; /* told: yes, no, 20, 24 of random tables */

static void expect(int holds, const char *name) {
    if (holds) {
        passed++;
        return;
    }
    failed++;
    if (failed < 20)
        printf("depth: %s\n", name);
}

/* ---- what is right ------------------------------------------------------------------------------------------------------------- */

/* The records of a tree that stand in the table, and what all paths over them come to. */
struct search {
    const uint64_t *record;
    uint64_t count, most;
    int on_path[MOST_RECORDS], bad, round;
};

/* Every path from record k on that meets no record twice. */
static void follow(struct search *s, uint64_t k, uint64_t asked) {
    const uint64_t *r = s->record + LARSAVIM_RECORD_ROW * k;
    if (k >= s->count || r[0] > 1) {
        s->bad = 1;
        return;
    }
    if (s->on_path[k]) {
        s->round = 1;
        return;
    }
    if (asked > s->most)
        s->most = asked;
    if (r[0] == 1)
        return;
    s->on_path[k] = 1;
    follow(s, r[2], asked + 1);
    follow(s, r[3], asked + 1);
    s->on_path[k] = 0;
}

struct call {
    const uint64_t *trees, *records;
    uint64_t trees_len, records_len, tree, work_len, out_len;
};

static void right(const struct call *c, uint64_t want[LARSAVIM_DEPTH_OUT]) {
    const uint64_t *row = c->trees + LARSAVIM_TREE_ROW * c->tree;
    uint64_t rows = c->records_len / LARSAVIM_RECORD_ROW;
    struct search s;
    memset(&s, 0, sizeof s);
    want[0] = 24;
    want[1] = want[2] = 0;
    if (c->tree >= c->trees_len / LARSAVIM_TREE_ROW)
        return;
    if (row[2] > c->work_len / WORK) {
        want[0] = 20;
        return;
    }
    s.count = row[1] >= rows ? 0 : rows - row[1] < row[2] ? rows - row[1] : row[2];
    if (s.count > 0)
        s.record = c->records + LARSAVIM_RECORD_ROW * row[1];
    follow(&s, 0, 0);
    if (s.bad)
        return;
    want[0] = 0;
    want[1] = !s.round;
    want[2] = s.round ? 0 : s.most;
}

/* ---- the call over lent copies of exactly these lengths -------------------------------------------------------------------------- */

static int64_t filler(uint64_t i) {
    return (int64_t)(UINT64_C(0x9e3779b97f4a7c15) * (i + 1));
}

/* Whether the work is as it should be after a number. */
static int work_right(const int64_t *work, uint64_t len, uint64_t number) {
    for (uint64_t i = 0; i < len; i++)
        if (work[i] != (number == 20 ? filler(i) : 0))
            return 0;
    return 1;
}

static void *lend_words(const void *from, uint64_t numbers) {
    struct bytes b = {from, 8 * numbers};
    union {
        const uint8_t *lent;
        void *own;
    } at;
    at.lent = lend_copy(b).at;
    return at.own;
}

static int called(const struct call *c, const uint64_t want[LARSAVIM_DEPTH_OUT]) {
    uint64_t *trees = lend_words(c->trees, c->trees_len), *records = lend_words(c->records, c->records_len), *out = lend(8 * c->out_len), number;
    int64_t *work = lend(8 * c->work_len);
    int holds;
    for (uint64_t i = 0; i < c->work_len; i++)
        work[i] = filler(i);
    for (uint64_t i = 0; i < c->out_len; i++)
        out[i] = 77;
    number = larsavim_depth(trees, c->trees_len, records, c->records_len, c->tree, work, c->work_len, out, c->out_len);
    if (c->out_len < LARSAVIM_DEPTH_OUT) {
        holds = number == 20 && work_right(work, c->work_len, 20);
        for (uint64_t i = 0; i < c->out_len; i++)
            holds &= out[i] == 77;
    } else {
        holds = number == want[0] && memcmp(out, want, 8 * LARSAVIM_DEPTH_OUT) == 0 && work_right(work, c->work_len, number);
        for (uint64_t i = LARSAVIM_DEPTH_OUT; i < c->out_len; i++)
            holds &= out[i] == 77;
    }
    give_back(trees, 8 * c->trees_len);
    give_back(records, 8 * c->records_len);
    give_back(out, 8 * c->out_len);
    give_back(work, 8 * c->work_len);
    return holds;
}

/* A tree row: state, first record, records, lines; whatever else a row has is 0. */
static void put_tree(uint64_t *trees, uint64_t t, uint64_t first, uint64_t records, uint64_t lines) {
    uint64_t *row = trees + LARSAVIM_TREE_ROW * t;
    memset(row, 0, 8 * LARSAVIM_TREE_ROW);
    row[0] = 2;
    row[1] = first;
    row[2] = records;
    row[3] = lines;
}

/* ---- worked cases ---------------------------------------------------------------------------------------------------------------- */

static void worked(uint64_t first, uint64_t count, const uint64_t *records, uint64_t rows, uint64_t work, uint64_t number, uint64_t yes, uint64_t questions) {
    uint64_t tree[LARSAVIM_TREE_ROW], said[LARSAVIM_DEPTH_OUT];
    const uint64_t want[LARSAVIM_DEPTH_OUT] = {number, yes, questions};
    struct call c = {tree, records, LARSAVIM_TREE_ROW, LARSAVIM_RECORD_ROW * rows, 0, work, LARSAVIM_DEPTH_OUT};
    put_tree(tree, 0, first, count, 0);
    expect(called(&c, want), "a worked case");
    right(&c, said);
    expect(memcmp(said, want, sizeof said) == 0, "a worked case, by the search");
}

static void worked_cases(void) {
    static const uint64_t one[] = {0, 0, 1, 2, 1, 5, 0, 0, 1, 6, 0, 0}, leaf[] = {1, 9, 4, 4}, self[] = {0, 0, 0, 0}, alike[] = {0, 0, 1, 1, 1, 5, 0, 0}, back[] = {0, 0, 1, 2, 0, 0, 0, 2, 1, 5, 0, 0};
    static const uint64_t shared[] = {0, 0, 1, 2, 0, 1, 2, 3, 0, 2, 3, 3, 1, 4, 0, 0}, outside[] = {0, 0, 1, 3, 1, 5, 0, 0, 1, 5, 0, 0}, unmet[] = {0, 0, 1, 1, 1, 5, 0, 0, 7, 7, 7, 7};
    static const uint64_t both[] = {0, 0, 0, 2, 1, 5, 0, 0, 2, 0, 0, 0};
    const struct call none = {NULL, one, 0, 12, 0, 0, LARSAVIM_DEPTH_OUT};
    const uint64_t missing[LARSAVIM_DEPTH_OUT] = {24, 0, 0};
    expect(called(&none, missing), "no tree row");
    worked(0, 0, one, 3, 0, 24, 0, 0);
    worked(0, 3, one, 3, 11, 20, 0, 0);
    worked(0, 3, one, 3, 12, 0, 1, 1);
    worked(0, 1, leaf, 1, 4, 0, 1, 0);
    worked(0, 1, self, 1, 4, 0, 0, 0);
    worked(0, 2, alike, 2, 8, 0, 1, 1);
    worked(0, 3, back, 3, 12, 0, 0, 0);
    worked(0, 4, shared, 4, 16, 0, 1, 3);
    worked(0, 3, outside, 3, 12, 24, 0, 0);
    worked(0, 3, unmet, 3, 12, 0, 1, 1);
    worked(0, 3, both, 3, 12, 24, 0, 0);
    worked(0, 9, one, 3, 12, 20, 0, 0);
    worked(0, 9, one, 3, 36, 0, 1, 1);
    worked(1, 2, one, 3, 8, 0, 1, 0);
    worked(5, 1, one, 3, 4, 24, 0, 0);
    worked(0, UINT64_MAX, one, 3, 40, 20, 0, 0);
    worked(UINT64_MAX, 1, one, 3, 4, 24, 0, 0);
}

/* ---- random tables ----------------------------------------------------------------------------------------------------------------- */

static uint64_t drawn(uint64_t below) {
    static uint64_t state = 3;
    state = state * UINT64_C(6364136223846793005) + UINT64_C(1442695040888963407);
    return (state >> 33) % below;
}

static uint64_t some(uint64_t below) {
    return drawn(60) == 0 ? UINT64_MAX - drawn(2) : drawn(below);
}

/* Half of the tables refer onwards alone, so that many have a depth; the others anywhere. */
static void draw_records(uint64_t *records, uint64_t count) {
    int onwards = drawn(2) == 0;
    for (uint64_t i = 0; i < MOST_RECORDS; i++) {
        uint64_t *r = records + LARSAVIM_RECORD_ROW * i, left = count > i + 1 ? count - i - 1 : 1;
        r[0] = drawn(40) == 0 ? 2 + drawn(2) : onwards && i + 1 >= count ? 1 : drawn(4) == 0;
        r[1] = some(9);
        for (int k = 2; k < 4; k++)
            r[k] = onwards ? i + 1 + drawn(left) : some(count + (drawn(8) == 0));
    }
}

static void random_tables(void) {
    uint64_t trees[MOST_TREES * LARSAVIM_TREE_ROW], records[MOST_RECORDS * LARSAVIM_RECORD_ROW], want[LARSAVIM_DEPTH_OUT];
    for (int round = 0; round < ROUNDS; round++) {
        uint64_t count = 1 + drawn(MOST_RECORDS), first = drawn(4) == 0 ? drawn(3) : 0;
        struct call c = {trees, records, drawn(20) == 0 ? drawn(sizeof trees / 8 + 1) : sizeof trees / 8, drawn(10) == 0 ? drawn(sizeof records / 8 + 1) : sizeof records / 8, drawn(MOST_TREES + (drawn(9) == 0)),
                         WORK * count + drawn(3), LARSAVIM_DEPTH_OUT + drawn(2)};
        for (uint64_t t = 0; t < MOST_TREES; t++)
            put_tree(trees, t, drawn(30) == 0 ? some(MOST_RECORDS) : first, drawn(12) == 0 ? some(MOST_RECORDS + 2) : count, drawn(9));
        draw_records(records + LARSAVIM_RECORD_ROW * 0, count);
        if (drawn(12) == 0)
            c.work_len = drawn(WORK * MOST_RECORDS + 1);
        if (drawn(40) == 0)
            c.out_len = drawn(LARSAVIM_DEPTH_OUT);
        right(&c, want);
        told[want[0] == 0 ? 1 - want[1] : want[0] == 20 ? 2 : 3]++;
        expect(called(&c, want), "random tables");
    }
    for (int i = 0; i < 4; i++)
        expect(told[i] > ROUNDS / 40, "random tables: each answer often enough");
}

/* ---- long ones ------------------------------------------------------------------------------------------------------------------------ */

/* MANY lines and a leaf. 0: a chain, no goes to the leaf; 1: a ladder, both go on; 2: the last line goes back to the first; 3: a chain backwards in the table. */
static void long_tables(void) {
    static uint64_t tree[LARSAVIM_TREE_ROW], records[LARSAVIM_RECORD_ROW * (MANY + 1)];
    struct call c = {tree, records, LARSAVIM_TREE_ROW, sizeof records / 8, 0, WORK * (MANY + 1), LARSAVIM_DEPTH_OUT};
    put_tree(tree, 0, 0, MANY + 1, MANY);
    for (int kind = 0; kind < 4; kind++) {
        const uint64_t want[LARSAVIM_DEPTH_OUT] = {0, kind != 2, kind == 2 ? 0 : MANY};
        for (uint64_t i = 0; i < MANY; i++) {
            uint64_t *r = records + LARSAVIM_RECORD_ROW * i, next = kind == 2 && i + 1 == MANY ? 0 : i + 1;
            r[0] = 0;
            r[1] = i;
            r[2] = kind == 3 ? (i == 0 ? MANY - 1 : i == 1 ? MANY : i - 1) : next;
            r[3] = kind == 1 ? next : MANY;
        }
        records[LARSAVIM_RECORD_ROW * MANY] = 1;
        expect(called(&c, want), "a long table");
    }
}

int main(void) {
    worked_cases();
    random_tables();
    long_tables();
    printf("%u passed, %u failed\n", passed, failed);
    return failed != 0;
}
