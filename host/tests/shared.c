/* shared.c: larsavim_load_shared and larsavim_unload, and larsavim_load_tree with short slices, call by call: 02's Wish 9 by the worked example of docs/READINGS.md, and calls that the program never makes: a side that is neither,
 * slices that are too short, bounds that overlap, pass a table or come near 2^64 in any place. After each call every number that is lent is looked at. Slices stand between guards
 * where LARSAVIM_GUARD says so (host/lend.c). The words are two files: the example's voice V, and V' whose second line asks for a question that isn't there. */
#include <stdlib.h>
#include <string.h>

#include "../host.h"

enum { NUMBERS = 64, PAINT = 7 };

static const uint64_t example_len[TABLES] = {9, 4, 26, 50, 14}, need[TABLES] = {1, 1, 2, 6, 6};
static const uint64_t width[TABLES] = {4, 2, 6, 4, 1};
static unsigned passed, failed;

static void expect(int holds, const char *name) {
    if (holds) {
        passed++;
        return;
    }
    failed++;
    printf("shared: %s\n", name);
}

/* ---- what is lent, and what it should be after a call --------------------------------------------------------------------------- */

struct state {
    uint64_t *table[TABLES], len[TABLES], *held[2], *out;
    int64_t *work;
    uint64_t work_len;
};

struct image {
    uint64_t table[TABLES][NUMBERS], held[2][LARSAVIM_BOUNDS];
    int64_t work[NUMBERS];
};

static void lend_state(struct state *s, const uint64_t len[TABLES], uint64_t work) {
    for (int t = 0; t < TABLES; t++) {
        s->len[t] = len[t];
        s->table[t] = lend(8 * len[t]);
        for (uint64_t i = 0; i < len[t]; i++)
            s->table[t][i] = PAINT;
    }
    s->work_len = work;
    s->work = lend(8 * work);
    for (uint64_t i = 0; i < work; i++)
        s->work[i] = PAINT;
    for (int x = 0; x < 2; x++) {
        s->held[x] = lend(8 * LARSAVIM_BOUNDS);
        memset(s->held[x], 0, 8 * LARSAVIM_BOUNDS);
    }
    s->out = lend(8 * LARSAVIM_LOAD_OUT);
}

static void take_image(const struct state *s, struct image *i) {
    memset(i, 0, sizeof *i);
    for (int t = 0; t < TABLES; t++)
        memcpy(i->table[t], s->table[t], (size_t)(8 * s->len[t]));
    memcpy(i->work, s->work, (size_t)(8 * s->work_len));
    for (int x = 0; x < 2; x++)
        memcpy(i->held[x], s->held[x], sizeof i->held[x]);
}

static int looks(const struct state *s, const struct image *want) {
    struct image i;
    take_image(s, &i);
    return memcmp(&i, want, sizeof i) == 0;
}

/* Rows of a task in the image: from the given numbers, or zeros. */
static void put_image(const struct state *s, struct image *i, int side, const uint64_t rows[TABLES], uint64_t *const from[TABLES]) {
    for (int t = 0; t < TABLES; t++) {
        uint64_t first = LARSAVIM_FIRST(side, s->len[t], width[t], rows[t]);
        for (uint64_t k = 0; k < width[t] * rows[t]; k++)
            i->table[t][first + k] = from == NULL ? 0 : from[t][k];
    }
}

/* ---- calls ----------------------------------------------------------------------------------------------------------------------- */

static struct voice good, broken;
static uint64_t *alone[TABLES]; /* V in tables of its own */

static uint64_t load(struct state *s, const struct voice *v, uint64_t side) {
    int x = side == LARSAVIM_TOP;
    for (int i = 0; i < LARSAVIM_LOAD_OUT; i++)
        s->out[i] = PAINT;
    return larsavim_load_shared(v->file.at, v->file.len, v->words, LARSAVIM_WORDS, 1, side, s->held[x], LARSAVIM_BOUNDS, s->held[1 - x], LARSAVIM_BOUNDS, s->table[0], s->len[0],
                                s->table[1], s->len[1], s->table[2], s->len[2], s->table[3], s->len[3], s->table[4], s->len[4], s->work, s->work_len, s->out, LARSAVIM_LOAD_OUT);
}

static uint64_t unload(struct state *s, uint64_t side) {
    int x = side == LARSAVIM_TOP;
    return larsavim_unload(side, s->held[x], LARSAVIM_BOUNDS, s->held[1 - x], LARSAVIM_BOUNDS, s->table[0], s->len[0], s->table[1], s->len[1], s->table[2], s->len[2], s->table[3], s->len[3],
                           s->table[4], s->len[4]);
}

static int said(const struct state *s, uint64_t number, uint64_t place, uint64_t line) {
    const uint64_t want[3] = {number, place, line};
    int holds = memcmp(s->out, want, sizeof want) == 0;
    for (int t = 0; t < TABLES; t++)
        holds &= s->out[3 + t] == (number == 0 ? need[t] : 0);
    return holds;
}

/* ---- the worked example ----------------------------------------------------------------------------------------------------------- */

static void hold(struct image *i, int side, const uint64_t rows[TABLES]) {
    memcpy(i->held[side], rows, sizeof i->held[side]);
}

static void example(void) {
    static const uint64_t none[TABLES] = {0};
    struct state s;
    struct image i;
    lend_state(&s, example_len, 13);
    take_image(&s, &i);
    expect(load(&s, &broken, LARSAVIM_BOTTOM) == 22 && said(&s, 22, 0, 1), "bottom loads V': 22, tree 0, line 1");
    put_image(&s, &i, 0, need, NULL);
    memset(i.work, 0, 8 * 13);
    expect(looks(&s, &i), "bottom loads V': the rows needed and the work are zero");
    lend_state(&s, example_len, 13);
    take_image(&s, &i);
    expect(load(&s, &good, LARSAVIM_TOP) == 0 && said(&s, 0, 0, 0), "top loads V");
    put_image(&s, &i, 1, need, alone);
    hold(&i, 1, need);
    memset(i.work, 0, 8 * 13);
    expect(looks(&s, &i), "top loads V: its rows end at the last whole row");
    expect(s.table[QUESTIONS][8] == PAINT && s.table[TREES][24] == PAINT && s.table[TREES][25] == PAINT, "what is left over");
    expect(s.table[TREES][12] == 2 && s.table[TREES][13] == 0 && s.table[TREES][14] == 5 && s.table[TREES][15] == 2 && s.table[TREES][18] == 3 && s.table[TREES][19] == 5, "first records count from the task's own");
    expect(load(&s, &good, LARSAVIM_TOP) == 29 && said(&s, 29, 0, 0) && looks(&s, &i), "top loads V again");
    expect(load(&s, &broken, LARSAVIM_BOTTOM) == 22 && said(&s, 22, 0, 1), "bottom loads V' beside V");
    put_image(&s, &i, 0, need, NULL);
    expect(looks(&s, &i) && s.table[VALUES][6] == PAINT && s.table[VALUES][7] == PAINT, "bottom loads V' beside V: the top's rows are as before");
    expect(load(&s, &good, LARSAVIM_BOTTOM) == 0 && said(&s, 0, 0, 0), "bottom loads V beside V");
    put_image(&s, &i, 0, need, alone);
    hold(&i, 0, need);
    expect(looks(&s, &i), "bottom loads V beside V: the same words");
    expect(unload(&s, LARSAVIM_TOP) == 0, "top unloads");
    put_image(&s, &i, 1, need, NULL);
    hold(&i, 1, none);
    expect(looks(&s, &i), "top unloads: zeros in its rows");
    expect(unload(&s, LARSAVIM_TOP) == 0 && looks(&s, &i), "a task that holds nothing unloads");
}

static void too_full(void) {
    uint64_t len[TABLES];
    struct state s;
    struct image i;
    for (int t = 0; t < TABLES; t++) {
        memcpy(len, example_len, sizeof len);
        len[t] = width[t] * (2 * need[t]) - 1;
        lend_state(&s, len, 13);
        expect(load(&s, &good, LARSAVIM_TOP) == 0, "top loads where a row is missing for two");
        take_image(&s, &i);
        expect(load(&s, &good, LARSAVIM_BOTTOM) == 20 && said(&s, 20, 0, 0) && looks(&s, &i), "no room beside the other");
        expect(unload(&s, LARSAVIM_TOP) == 0 && load(&s, &good, LARSAVIM_BOTTOM) == 0, "rows that are freed are free for either");
    }
    lend_state(&s, example_len, 11);
    take_image(&s, &i);
    expect(load(&s, &good, LARSAVIM_TOP) == 20 && said(&s, 20, 0, 0) && looks(&s, &i), "work for one line of two");
}

/* ---- bounds that no call handed back ----------------------------------------------------------------------------------------------- */

static void odd_bounds(void) {
    static const uint64_t odd[] = {1, 2, 3, 4, 5, 12, 13, 14, 15, 26, 50, UINT64_C(1) << 32, UINT64_C(1) << 61, UINT64_C(1) << 62, UINT64_C(1) << 63, UINT64_MAX / 6, UINT64_MAX / 6 + 1, UINT64_MAX / 4,
                                   UINT64_MAX / 4 + 1, UINT64_MAX / 2, UINT64_MAX - 13, UINT64_MAX - 1, UINT64_MAX};
    static struct voice none;
    struct state s;
    struct image i;
    uint64_t words[LARSAVIM_WORDS] = {0};
    none.words = words;
    for (int side = 0; side < 2; side++)
        for (int whose = 0; whose < 2; whose++)
            for (int t = 0; t < TABLES; t++)
                for (size_t k = 0; k < sizeof odd / sizeof odd[0]; k++) {
                    uint64_t rows = example_len[t] / width[t];
                    int passes = odd[k] > rows, own = whose == side;
                    lend_state(&s, example_len, 13);
                    s.held[whose][t] = odd[k];
                    take_image(&s, &i);
                    if (own || passes) {
                        uint64_t number = own ? 29 : 24;
                        expect(load(&s, &good, (uint64_t)side) == number && said(&s, number, 0, 0) && looks(&s, &i), "a load by odd bounds");
                        expect(load(&s, &none, (uint64_t)side) == number && said(&s, number, 0, 0) && looks(&s, &i), "a load by odd bounds, of no file");
                    }
                    if (passes)
                        expect(unload(&s, (uint64_t)side) == 24 && looks(&s, &i), "an unload by odd bounds");
                    else {
                        uint64_t held[TABLES] = {0};
                        held[t] = odd[k];
                        expect(unload(&s, (uint64_t)side) == 0, "an unload by bounds that stand");
                        if (own) {
                            put_image(&s, &i, side, held, NULL);
                            memset(i.held[side], 0, sizeof i.held[side]);
                        }
                        expect(looks(&s, &i), "an unload by bounds that stand: its rows alone");
                    }
                    /* both at once, so that only their sum passes, or wraps */
                    s.held[whose][t] = odd[k];
                    s.held[1 - whose][t] = rows - (odd[k] < rows ? odd[k] : rows) + 1;
                    take_image(&s, &i);
                    expect(unload(&s, (uint64_t)side) == 24 && looks(&s, &i), "an unload by bounds that overlap");
                }
}

static void odd_sides(void) {
    static const uint64_t sides[] = {2, 3, UINT64_C(1) << 32, (UINT64_C(1) << 32) + 1, UINT64_MAX};
    struct state s;
    struct image i;
    for (size_t k = 0; k < sizeof sides / sizeof sides[0]; k++) {
        lend_state(&s, example_len, 13);
        take_image(&s, &i);
        expect(load(&s, &good, sides[k]) == 24 && said(&s, 24, 0, 0) && looks(&s, &i), "a load of no side");
        expect(unload(&s, sides[k]) == 24 && looks(&s, &i), "an unload of no side");
        s.held[0][4] = 1;
        take_image(&s, &i);
        expect(load(&s, &good, sides[k]) == 29 && said(&s, 29, 0, 0) && looks(&s, &i), "29 is before 24");
    }
}

/* ---- slices that are too short ------------------------------------------------------------------------------------------------------ */

static uint64_t *short_slice(uint64_t numbers) {
    uint64_t *at = lend(8 * numbers);
    for (uint64_t i = 0; i < numbers; i++)
        at[i] = PAINT;
    return at;
}

static int is_painted(const uint64_t *at, uint64_t numbers) {
    for (uint64_t i = 0; i < numbers; i++)
        if (at[i] != PAINT)
            return 0;
    return 1;
}

static void short_slices(void) {
    struct state s;
    struct image i;
    for (int which = 0; which < 3; which++)
        for (uint64_t n = 0; n < (which == 0 ? LARSAVIM_LOAD_OUT : LARSAVIM_BOUNDS); n++) {
            uint64_t *at = short_slice(n), *held, *other, *out, held_len = LARSAVIM_BOUNDS, other_len = LARSAVIM_BOUNDS, out_len = LARSAVIM_LOAD_OUT;
            lend_state(&s, example_len, 13);
            held = s.held[0];
            other = s.held[1];
            out = s.out;
            memset(out, 0, 8 * LARSAVIM_LOAD_OUT);
            if (which == 0)
                out = at, out_len = n;
            else if (which == 1)
                held = at, held_len = n;
            else
                other = at, other_len = n;
            take_image(&s, &i);
            expect(larsavim_load_shared(good.file.at, good.file.len, good.words, LARSAVIM_WORDS, 1, 0, held, held_len, other, other_len, s.table[0], s.len[0], s.table[1], s.len[1], s.table[2], s.len[2],
                                        s.table[3], s.len[3], s.table[4], s.len[4], s.work, s.work_len, out, out_len) == 20 && looks(&s, &i) && is_painted(at, n) && s.out[0] == 0,
                   "a short slice of a load");
            expect(larsavim_load_tree(good.file.at, good.file.len, good.words, LARSAVIM_WORDS, 1, 0, 0, held, held_len, other, other_len, s.table[0], s.len[0], s.table[1], s.len[1], s.table[2],
                                      s.len[2], s.table[3], s.len[3], s.table[4], s.len[4], s.work, s.work_len, out, out_len) == 20 && looks(&s, &i) && is_painted(at, n) && s.out[0] == 0,
                   "a short slice of a tree's load");
            if (which > 0)
                expect(larsavim_unload(0, held, held_len, other, other_len, s.table[0], s.len[0], s.table[1], s.len[1], s.table[2], s.len[2], s.table[3], s.len[3], s.table[4], s.len[4]) == 20 &&
                           looks(&s, &i) && is_painted(at, n),
                       "a short slice of an unload");
            give_back(at, 8 * n);
        }
    lend_state(&s, example_len, 13);
    take_image(&s, &i);
    expect(larsavim_load_shared(good.file.at, good.file.len, good.words, LARSAVIM_WORDS - 1, 1, 0, s.held[0], LARSAVIM_BOUNDS, s.held[1], LARSAVIM_BOUNDS, s.table[0], s.len[0], s.table[1], s.len[1],
                                s.table[2], s.len[2], s.table[3], s.len[3], s.table[4], s.len[4], s.work, s.work_len, s.out, LARSAVIM_LOAD_OUT) == 20 && looks(&s, &i), "too few words");
}

/* A plain load into longer tables: 21 to 23 zero the rows needed alone. */
static void plain_load(void) {
    struct state s;
    struct image i;
    lend_state(&s, example_len, 13);
    take_image(&s, &i);
    expect(larsavim_load(broken.file.at, broken.file.len, broken.words, LARSAVIM_WORDS, 1, s.table[0], s.len[0], s.table[1], s.len[1], s.table[2], s.len[2], s.table[3], s.len[3], s.table[4], s.len[4], s.work,
                         s.work_len, s.out, LARSAVIM_LOAD_OUT) == 22 && said(&s, 22, 0, 1), "larsavim_load of V'");
    put_image(&s, &i, 0, need, NULL);
    memset(i.work, 0, 8 * 13);
    expect(looks(&s, &i), "larsavim_load of V': the rows needed and the work are zero, what is behind them is as before");
}

int main(int argc, char **argv) {
    struct bytes file;
    struct larsavim_model m;
    if (argc != 3 || !map_file(argv[1], &file))
        return 2;
    open_voice(&good, file);
    if (!map_file(argv[2], &file))
        return 2;
    open_voice(&broken, file);
    load_model(&good, 1, 0, &m);
    if (good.number != 0 || broken.number != 0 || m.loaded[OUT_NUMBER] != 0 || memcmp(m.needs + OUT_ROWS, need, sizeof need) != 0)
        return 2;
    memcpy(alone, m.table, sizeof alone);
    example();
    too_full();
    odd_bounds();
    odd_sides();
    short_slices();
    plain_load();
    printf("%u passed, %u failed\n", passed, failed);
    return failed == 0 ? 0 : 1;
}
