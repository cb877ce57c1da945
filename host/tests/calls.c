/* calls.c: the calls of larsavim.h as a careless caller makes them: slices too short, null with length 0, words that no opening wrote, tables a row
 * short. The program larsavim makes no such call, and larsavim.h says what each of them does. The sample voice is the argument; prints what differs,
 * and how many checks passed and failed. */
#include <stdio.h>
#include <stdlib.h>
#include <string.h>

#include "larsavim_model.h"

enum { ROOM = 4096, QUESTIONS = LARSAVIM_QUESTIONS, PATTERNS, TREES, RECORDS, VALUES, TABLES, STREAM_MCP = 1 };

/* Where the answer of larsavim_needs has the rows, the work and the width. */
enum { ROWS = LARSAVIM_NEEDS_QUESTIONS, WORK = LARSAVIM_NEEDS_WORK, WIDTH = LARSAVIM_NEEDS_WIDTH };

#define PAINT UINT64_C(0x5a5a5a5a5a5a5a5a)

static uint8_t file[65536];
static uint64_t file_len, good[LARSAVIM_WORDS], words[LARSAVIM_WORDS + 8], out[16], table[TABLES][ROOM], needs[LARSAVIM_NEEDS_OUT];
static int64_t work[ROOM];
static const uint64_t width[TABLES] = {LARSAVIM_QUESTION_ROW, LARSAVIM_PATTERN_ROW, LARSAVIM_TREE_ROW, LARSAVIM_RECORD_ROW, 1};
static unsigned passed, failed;

static void expect(int holds, const char *name) {
    if (holds) {
        passed++;
        return;
    }
    failed++;
    printf("calls: %s\n", name);
}

static void paint(uint64_t *at, uint64_t n) {
    for (uint64_t i = 0; i < n; i++)
        at[i] = PAINT;
}

static int painted(const uint64_t *at, uint64_t from, uint64_t to) {
    for (uint64_t i = from; i < to; i++)
        if (at[i] != PAINT)
            return 0;
    return 1;
}

static int all_zero(const uint64_t *at, uint64_t from, uint64_t to) {
    for (uint64_t i = from; i < to; i++)
        if (at[i] != 0)
            return 0;
    return 1;
}

static void paint_all(void) {
    paint(out, 16);
    for (int t = 0; t < TABLES; t++)
        paint(table[t], ROOM);
    memset(work, 0x5a, sizeof work);
}

static int lent_is_painted(void) {
    for (int t = 0; t < TABLES; t++)
        if (!painted(table[t], 0, ROOM))
            return 0;
    for (int i = 0; i < ROOM; i++)
        if ((uint64_t)work[i] != PAINT)
            return 0;
    return 1;
}

/* A refusal: the number comes back, stands first, and what stands behind it up to `n` is 0; numbers beyond are as they were. */
static int refused(uint64_t got, uint64_t number, uint64_t n) {
    return got == number && out[0] == number && all_zero(out, 1, n) && painted(out, n, 16);
}

/* A load into tables of so many numbers each. */
static uint64_t load_into(const uint64_t *w, uint64_t w_len, const uint64_t len[TABLES], uint64_t work_len, uint64_t out_len) {
    return larsavim_load(file, file_len, w, w_len, STREAM_MCP, table[QUESTIONS], len[QUESTIONS], table[PATTERNS], len[PATTERNS], table[TREES], len[TREES], table[RECORDS],
                         len[RECORDS], table[VALUES], len[VALUES], work, work_len, out, out_len);
}

/* A load into tables of so many rows each. */
static uint64_t load(const uint64_t *w, uint64_t w_len, const uint64_t rows[TABLES], uint64_t work_len, uint64_t out_len) {
    uint64_t len[TABLES];
    for (int t = 0; t < TABLES; t++)
        len[t] = rows[t] * width[t];
    return load_into(w, w_len, len, work_len, out_len);
}

/* ---- answers too short: 20 before all else, and nothing written -------------------------------------------------------------------- */

static void short_answers(void) {
    paint_all();
    paint(words, LARSAVIM_WORDS + 8);
    expect(larsavim_open(file, file_len, words, LARSAVIM_WORDS, out, LARSAVIM_OPEN_OUT - 1) == LARSAVIM_ROOM, "open, short out");
    expect(larsavim_open(NULL, 0, words, LARSAVIM_WORDS, out, LARSAVIM_OPEN_OUT - 1) == LARSAVIM_ROOM, "open of nothing, short out");
    expect(larsavim_comment(file_len, good, LARSAVIM_WORDS, 3, out, LARSAVIM_COMMENT_OUT - 1) == LARSAVIM_ROOM, "comment, short out");
    expect(larsavim_get(good, LARSAVIM_WORDS, LARSAVIM_NUM_STATES, out, LARSAVIM_GET_OUT - 1) == LARSAVIM_ROOM, "get, short out");
    expect(larsavim_pair(good, LARSAVIM_WORDS, LARSAVIM_DURATION_PDF, out, LARSAVIM_PAIR_OUT - 1) == LARSAVIM_ROOM, "pair, short out");
    expect(larsavim_needs(file, file_len, good, LARSAVIM_WORDS, STREAM_MCP, out, LARSAVIM_NEEDS_OUT - 1) == LARSAVIM_ROOM, "needs, short out");
    expect(load(good, LARSAVIM_WORDS, needs + ROWS, needs[WORK], LARSAVIM_LOAD_OUT - 1) == LARSAVIM_ROOM, "load, short out");
    expect(larsavim_walk(NULL, 0, NULL, 0, 0, NULL, 0, 0, out, LARSAVIM_WALK_OUT - 1) == LARSAVIM_ROOM, "walk, short out");
    expect(larsavim_open(file, file_len, words, LARSAVIM_WORDS, NULL, 0) == LARSAVIM_ROOM, "open, no out at all");
    expect(painted(out, 0, 16) && painted(words, 0, LARSAVIM_WORDS + 8) && lent_is_painted(), "a short out: something was written");
}

/* ---- words -------------------------------------------------------------------------------------------------------------------------- */

static void opening(void) {
    paint_all();
    paint(words, LARSAVIM_WORDS + 8);
    expect(refused(larsavim_open(NULL, 0, words, LARSAVIM_WORDS, out, 16), LARSAVIM_SPLIT, LARSAVIM_OPEN_OUT), "open of nothing");
    paint_all();
    expect(refused(larsavim_open(file, file_len - 1 > 40 ? 40 : 0, NULL, 0, out, 16), LARSAVIM_SPLIT, LARSAVIM_OPEN_OUT), "a file's refusal comes before too few words");
    paint_all();
    expect(refused(larsavim_open(file, file_len, words, LARSAVIM_WORDS - 1, out, 16), LARSAVIM_ROOM, LARSAVIM_OPEN_OUT), "open, too few words");
    expect(painted(words, 0, LARSAVIM_WORDS + 8), "a refused opening leaves the words");
    paint_all();
    expect(larsavim_open(file, file_len, words, LARSAVIM_WORDS + 8, out, 16) == LARSAVIM_SUCCESS && all_zero(out, 0, 2) && painted(out, 2, 16), "open");
    expect(memcmp(words, good, sizeof good) == 0 && painted(words, LARSAVIM_WORDS, LARSAVIM_WORDS + 8), "words beyond are as they were");
}

/* Every call that takes words refuses these with the number. */
static void words_refused(const uint64_t *w, uint64_t w_len, uint64_t number, const char *name) {
    paint_all();
    expect(refused(larsavim_comment(file_len, w, w_len, 3, out, 16), number, LARSAVIM_COMMENT_OUT), name);
    paint_all();
    expect(refused(larsavim_get(w, w_len, LARSAVIM_NUM_STATES, out, 16), number, LARSAVIM_GET_OUT), name);
    paint_all();
    expect(refused(larsavim_pair(w, w_len, LARSAVIM_DURATION_PDF, out, 16), number, LARSAVIM_PAIR_OUT), name);
    paint_all();
    expect(refused(larsavim_needs(file, file_len, w, w_len, STREAM_MCP, out, 16), number, LARSAVIM_NEEDS_OUT), name);
    paint_all();
    expect(refused(load(w, w_len, needs + ROWS, needs[WORK], 16), number, LARSAVIM_LOAD_OUT) && lent_is_painted(), name);
}

/* A load by words with one changed; comment, get and pair don't judge what it says. */
static void load_refused(uint64_t field, uint64_t value, uint64_t number, const char *name) {
    memcpy(words, good, sizeof good);
    words[field] = value;
    paint_all();
    expect(refused(larsavim_needs(file, file_len, words, LARSAVIM_WORDS, STREAM_MCP, out, 16), number, LARSAVIM_NEEDS_OUT), name);
    paint_all();
    expect(refused(load(words, LARSAVIM_WORDS, needs + ROWS, needs[WORK], 16), number, LARSAVIM_LOAD_OUT) && lent_is_painted(), name);
}

static void foreign_words(void) {
    static const uint64_t flags[] = {LARSAVIM_HAS_COMMENT, LARSAVIM_STREAMS + LARSAVIM_IS_MSD, LARSAVIM_STREAMS + LARSAVIM_USE_GV, LARSAVIM_POSITIONS + LARSAVIM_HAS_GV_PDF,
                                     LARSAVIM_POSITIONS + LARSAVIM_HAS_GV_TREE};
    words_refused(good, LARSAVIM_WORDS - 1, LARSAVIM_ROOM, "too few words");
    words_refused(NULL, 0, LARSAVIM_ROOM, "no words");
    for (size_t i = 0; i < sizeof flags / sizeof flags[0]; i++) {
        memcpy(words, good, sizeof good);
        words[flags[i]] = 2;
        words_refused(words, LARSAVIM_WORDS, LARSAVIM_RANGE, "a flag of 2");
    }
    load_refused(LARSAVIM_STREAM_TYPE_COUNT, LARSAVIM_STREAM_LIMIT + 1, LARSAVIM_RANGE, "nine names");
    load_refused(LARSAVIM_STREAM_COUNT, UINT64_MAX, LARSAVIM_RANGE, "a count of 2^64 - 1");
    load_refused(LARSAVIM_STREAM_TYPE, file_len + 1, LARSAVIM_RANGE, "a name past the file");
    load_refused(LARSAVIM_STREAM_TYPE + 1, UINT64_MAX, LARSAVIM_RANGE, "a name of 2^64 - 1 bytes");
    load_refused(LARSAVIM_DATA_LEN, UINT64_MAX, LARSAVIM_RANGE, "data of 2^64 - 1 bytes");
    load_refused(LARSAVIM_STREAM_COUNT, 0, LARSAVIM_NOSTREAM, "no groups in [STREAM]");
    load_refused(LARSAVIM_POSITION_COUNT, 0, LARSAVIM_NOPOS, "no groups in [POSITION]");
    load_refused(LARSAVIM_STREAMS + LARSAVIM_VECTOR_LENGTH, UINT64_MAX, LARSAVIM_LIMIT, "a vector of 2^64 - 1");
    load_refused(LARSAVIM_POSITIONS + LARSAVIM_STREAM_TREE + 1, UINT64_MAX, LARSAVIM_RANGE, "a range end of 2^64 - 1");
}

static void fields(void) {
    static const uint64_t none[] = {LARSAVIM_WORDS, LARSAVIM_WORDS + 1, UINT64_MAX - 1, UINT64_MAX};
    for (size_t i = 0; i < sizeof none / sizeof none[0]; i++) {
        paint_all();
        expect(refused(larsavim_get(good, LARSAVIM_WORDS, none[i], out, 16), LARSAVIM_RANGE, LARSAVIM_GET_OUT), "get of no field");
        paint_all();
        expect(refused(larsavim_pair(good, LARSAVIM_WORDS, none[i], out, 16), LARSAVIM_RANGE, LARSAVIM_PAIR_OUT), "pair of no field");
    }
    paint_all();
    expect(larsavim_get(good, LARSAVIM_WORDS, LARSAVIM_NUM_STATES, out, 16) == 0 && out[0] == 0 && out[1] == 5 && painted(out, 2, 16), "get");
    paint_all();
    expect(larsavim_pair(good, LARSAVIM_WORDS, LARSAVIM_STREAM_TYPE, out, 16) == 0 && out[2] == 3 && memcmp(file + out[1], "MCP", 3) == 0 && painted(out, 3, 16), "pair");
    memcpy(words, good, sizeof good);
    words[LARSAVIM_COMMENT] = file_len;
    paint_all();
    expect(larsavim_comment(file_len, words, LARSAVIM_WORDS, 3, out, 16) == 0 && out[1] == 1 && out[2] == 0 && out[3] == 3 && painted(out, 4, 16), "a COMMENT past the file");
    words[LARSAVIM_COMMENT + 1] = 0;
    expect(larsavim_comment(file_len, words, LARSAVIM_WORDS, 3, out, 16) == 0 && out[1] == 0 && out[2] == file_len && out[3] == 0, "an empty COMMENT at the file's end");
    words[LARSAVIM_HAS_COMMENT] = 0;
    expect(larsavim_comment(file_len, words, LARSAVIM_WORDS, 0, out, 16) == 0 && out[1] == 1 && out[3] == 0, "no COMMENT and no fallback");
}

/* ---- tables ------------------------------------------------------------------------------------------------------------------------- */

static void short_tables(void) {
    uint64_t rows[TABLES];
    for (int t = 0; t < TABLES; t++) {
        memcpy(rows, needs + ROWS, sizeof rows);
        rows[t]--;
        paint_all();
        expect(refused(load(good, LARSAVIM_WORDS, rows, needs[WORK], 16), LARSAVIM_ROOM, LARSAVIM_LOAD_OUT) && lent_is_painted(), "a table a row short");
    }
    paint_all();
    expect(refused(load(good, LARSAVIM_WORDS, needs + ROWS, needs[WORK] - 1, 16), LARSAVIM_ROOM, LARSAVIM_LOAD_OUT) && lent_is_painted(), "work a number short");
    paint_all();
    expect(load(good, LARSAVIM_WORDS, needs + ROWS, needs[WORK], 16) == LARSAVIM_SUCCESS && memcmp(out, needs, LARSAVIM_LOAD_OUT * 8) == 0 && painted(out, LARSAVIM_LOAD_OUT, 16),
           "tables of just the rows needed");
}

/* A tree table of so many numbers; the others as needed. */
static uint64_t load_trees(uint64_t numbers) {
    uint64_t len[TABLES];
    for (int t = 0; t < TABLES; t++)
        len[t] = needs[ROWS + t] * width[t];
    len[TREES] = numbers;
    paint_all();
    return load_into(good, LARSAVIM_WORDS, len, needs[WORK], 16);
}

/* A tree's row has six numbers: four of them are room for no tree, and what is left over is not written. */
static void tree_rows(void) {
    uint64_t trees = needs[ROWS + TREES];
    expect(refused(load_trees(4 * trees), LARSAVIM_ROOM, LARSAVIM_LOAD_OUT) && lent_is_painted(), "four numbers a tree");
    expect(refused(load_trees(6 * trees - 1), LARSAVIM_ROOM, LARSAVIM_LOAD_OUT) && lent_is_painted(), "all numbers of the trees but one");
    expect(load_trees(6 * trees + 5) == LARSAVIM_SUCCESS && out[ROWS + TREES] == trees && painted(table[TREES], 6 * trees, ROOM), "five numbers left over");
    for (uint64_t t = 0, value = 0; t < trees; t++) {
        expect(table[TREES][6 * t + 4] == value, "a tree's first value stands behind those of the trees before it");
        value += table[TREES][6 * t + 5] * needs[WIDTH];
    }
}

/* Over the tables of the load before. */
static void walks(void) {
    static const uint8_t answers[] = {0, 0, 1, 0, 0, 1, 1};
    const uint64_t *trees = table[TREES], *records = table[RECORDS];
    uint64_t trees_len = needs[ROWS + TREES] * LARSAVIM_TREE_ROW, records_len = needs[ROWS + RECORDS] * LARSAVIM_RECORD_ROW;
    paint(out, 16);
    expect(larsavim_walk(trees, trees_len, records, records_len, 0, answers, 7, 3, out, 16) == 0 && out[0] == 0 && out[1] == 5 && out[2] == 3 && painted(out, 3, 16), "walk");
    paint(out, 16);
    expect(refused(larsavim_walk(trees, trees_len, records, records_len, 0, answers, 7, 2, out, 16), LARSAVIM_STEPS, LARSAVIM_WALK_OUT), "walk, limit");
    paint(out, 16);
    expect(refused(larsavim_walk(trees, trees_len, records, records_len, needs[ROWS + TREES], answers, 7, 9, out, 16), LARSAVIM_WALKTABLE, LARSAVIM_WALK_OUT), "walk, no such tree");
    paint(out, 16);
    expect(refused(larsavim_walk(trees, trees_len - 1, records, records_len, needs[ROWS + TREES] - 1, answers, 7, 9, out, 16), LARSAVIM_WALKTABLE, LARSAVIM_WALK_OUT),
           "walk, a tree without its last number");
    paint(out, 16);
    expect(refused(larsavim_walk(trees, trees_len, NULL, 0, 0, answers, 7, 9, out, 16), LARSAVIM_WALKTABLE, LARSAVIM_WALK_OUT), "walk, no records");
    paint(out, 16);
    expect(refused(larsavim_walk(trees, trees_len, records, records_len, UINT64_MAX, NULL, 0, 9, out, 16), LARSAVIM_WALKTABLE, LARSAVIM_WALK_OUT), "walk, tree 2^64 - 1");
}

/* The leaf check of these tables, with so many questions and values at this width. */
static uint64_t leaves(uint64_t questions, uint64_t values, uint64_t of_width) {
    return larsavim_leaves(table[QUESTIONS], questions * LARSAVIM_QUESTION_ROW, table[TREES], needs[ROWS + TREES] * LARSAVIM_TREE_ROW, table[RECORDS],
                           needs[ROWS + RECORDS] * LARSAVIM_RECORD_ROW, table[VALUES], values, of_width);
}

static void leaf_checks(void) {
    static const uint64_t tree[LARSAVIM_TREE_ROW] = {2, 0, 0, 0, 5, 2}, none[LARSAVIM_TREE_ROW] = {2, 0, 0, 0, UINT64_MAX, 0};
    uint64_t questions = needs[ROWS + QUESTIONS], values = needs[ROWS + VALUES];
    expect(larsavim_leaves(NULL, 0, NULL, 0, NULL, 0, NULL, 0, 0) == 1, "leaf check of nothing");
    expect(leaves(questions, values, needs[WIDTH]) == 1, "leaf check");
    expect(leaves(questions, values, UINT64_MAX) == 0, "leaf check, width 2^64 - 1");
    expect(leaves(0, values, needs[WIDTH]) == 0, "leaf check, no questions");
    expect(leaves(questions, values - 1, needs[WIDTH]) == 0, "leaf check, a value short");
    expect(larsavim_leaves(NULL, 0, tree, LARSAVIM_TREE_ROW, NULL, 0, table[VALUES], 11, 3) == 1, "leaf check, two entries of three values from the fifth on");
    expect(larsavim_leaves(NULL, 0, tree, LARSAVIM_TREE_ROW, NULL, 0, table[VALUES], 10, 3) == 0, "leaf check, one value less");
    expect(larsavim_leaves(NULL, 0, none, LARSAVIM_TREE_ROW, NULL, 0, NULL, 0, 3) == 1, "leaf check, no entries");
}

/* The text of these tables, with so many questions, into a buffer of so many bytes. */
static uint8_t buffer[65536];

static uint64_t write_to(uint64_t questions, uint64_t buffer_len, uint64_t out_len) {
    return larsavim_write(file + good[LARSAVIM_DATA_START], good[LARSAVIM_DATA_LEN], table[QUESTIONS], questions * LARSAVIM_QUESTION_ROW, table[PATTERNS],
                          needs[ROWS + PATTERNS] * LARSAVIM_PATTERN_ROW, table[TREES], needs[ROWS + TREES] * LARSAVIM_TREE_ROW, table[RECORDS],
                          needs[ROWS + RECORDS] * LARSAVIM_RECORD_ROW, buffer, buffer_len, out, out_len);
}

static int buffer_is_painted(uint64_t from) {
    for (uint64_t i = from; i < sizeof buffer; i++)
        if (buffer[i] != 0x5a)
            return 0;
    return 1;
}

static void texts(void) {
    uint64_t questions = needs[ROWS + QUESTIONS], first = table[RECORDS][LARSAVIM_RECORD_YES], len;
    memset(buffer, 0x5a, sizeof buffer);
    paint(out, 16);
    expect(write_to(questions, sizeof buffer, LARSAVIM_WRITE_OUT - 1) == LARSAVIM_ROOM && painted(out, 0, 16), "write, short out");
    expect(larsavim_write_needs(NULL, 0, NULL, 0, NULL, 0, NULL, 0, NULL, 0, out, LARSAVIM_WRITE_NEEDS_OUT - 1) == LARSAVIM_ROOM && painted(out, 0, 16), "write_needs, short out");
    expect(refused(larsavim_write_needs(NULL, 0, NULL, 0, NULL, 0, NULL, 0, NULL, 0, out, 16), LARSAVIM_TEXT, LARSAVIM_WRITE_NEEDS_OUT), "write_needs of nothing: no text is without a tree");
    paint(out, 16);
    expect(refused(larsavim_write(NULL, 0, NULL, 0, NULL, 0, NULL, 0, NULL, 0, NULL, 0, out, 16), LARSAVIM_TEXT, LARSAVIM_WRITE_OUT), "write of nothing");
    paint(out, 16);
    expect(refused(write_to(0, sizeof buffer, 16), LARSAVIM_WALKTABLE, LARSAVIM_WRITE_OUT), "write, no questions");
    paint(out, 16);
    expect(refused(write_to(questions, 0, 16), LARSAVIM_ROOM, LARSAVIM_WRITE_OUT), "write, no buffer");
    table[RECORDS][LARSAVIM_RECORD_YES] = UINT64_MAX;
    paint(out, 16);
    expect(refused(write_to(questions, 0, 16), LARSAVIM_WALKTABLE, LARSAVIM_WRITE_OUT), "write, a reference of 2^64 - 1: 24 before 20");
    table[RECORDS][LARSAVIM_RECORD_YES] = first;
    expect(buffer_is_painted(0), "a refused write leaves the buffer");
    paint(out, 16);
    expect(write_to(questions, sizeof buffer, 16) == 0 && out[0] == 0 && painted(out, 2, 16), "write");
    len = out[LARSAVIM_WRITE_LENGTH];
    expect(len > 0 && len < sizeof buffer && buffer[len - 1] == '\n' && buffer_is_painted(len), "bytes behind the text are as they were");
    paint(out, 16);
    expect(refused(write_to(questions, len - 1, 16), LARSAVIM_ROOM, LARSAVIM_WRITE_OUT), "write, a byte short");
    paint(out, 16);
    expect(write_to(questions, len, 16) == 0 && out[LARSAVIM_WRITE_LENGTH] == len, "write, just the text");
}

/* ---- house voices ----------------------------------------------------------------------------------------------------------------- */

static uint64_t held[LARSAVIM_BOUNDS + 3];
static const uint64_t nobody[LARSAVIM_BOUNDS + 3] = {0};

static uint64_t house(uint64_t words_len, uint64_t rows_of_all, uint64_t out_len) {
    return larsavim_house(file, file_len, words, words_len, LARSAVIM_TOP, held, LARSAVIM_BOUNDS + 3, nobody, LARSAVIM_BOUNDS + 3, table[QUESTIONS], rows_of_all, table[PATTERNS], rows_of_all, table[TREES],
                          rows_of_all, table[RECORDS], rows_of_all, table[VALUES], rows_of_all, work, rows_of_all, out, out_len);
}

static void no_bounds(void) {
    paint_all();
    paint(words, LARSAVIM_WORDS + 8);
    paint(held, LARSAVIM_BOUNDS + 3);
    memset(held, 0, 8 * LARSAVIM_BOUNDS);
}

/* Nothing at all, nothing but bounds and answer, and slices that are longer than they need be. */
static void houses(void) {
    no_bounds();
    expect(larsavim_house(NULL, 0, NULL, 0, 0, NULL, 0, NULL, 0, NULL, 0, NULL, 0, NULL, 0, NULL, 0, NULL, 0, NULL, 0, NULL, 0) == LARSAVIM_ROOM, "house of nothing");
    expect(refused(larsavim_house(NULL, 0, NULL, 0, 0, held, LARSAVIM_BOUNDS, nobody, LARSAVIM_BOUNDS, NULL, 0, NULL, 0, NULL, 0, NULL, 0, NULL, 0, NULL, 0, out, 16), LARSAVIM_SPLIT, LARSAVIM_HOUSE_OUT),
           "house of no file");
    paint(out, 16);
    expect(refused(larsavim_house(file, file_len, NULL, 0, 1, held, LARSAVIM_BOUNDS, nobody, LARSAVIM_BOUNDS, NULL, 0, NULL, 0, NULL, 0, NULL, 0, NULL, 0, NULL, 0, out, 16), LARSAVIM_ROOM, LARSAVIM_HOUSE_OUT),
           "house, no words");
    paint(out, 16);
    expect(refused(larsavim_house(file, file_len, words, LARSAVIM_WORDS, 1, held, LARSAVIM_BOUNDS, nobody, LARSAVIM_BOUNDS, NULL, 0, NULL, 0, NULL, 0, NULL, 0, NULL, 0, NULL, 0, out, 16), LARSAVIM_ROOM,
                   LARSAVIM_HOUSE_OUT) && memcmp(words, good, sizeof good) == 0,
           "house, no tables: the words are written");
    no_bounds();
    expect(house(LARSAVIM_WORDS - 1, ROOM, 16) == LARSAVIM_ROOM && lent_is_painted() && painted(words, 0, LARSAVIM_WORDS + 8) && all_zero(held, 0, LARSAVIM_BOUNDS), "house, few words");
    no_bounds();
    expect(house(LARSAVIM_WORDS + 8, ROOM, 16) == LARSAVIM_IDS && out[LARSAVIM_OUT_NUMBER] == LARSAVIM_IDS && out[LARSAVIM_HOUSE_MODEL] == STREAM_MCP, "house");
    expect(painted(out, LARSAVIM_HOUSE_OUT, 16) && painted(words, LARSAVIM_WORDS, LARSAVIM_WORDS + 8) && painted(held, LARSAVIM_BOUNDS, LARSAVIM_BOUNDS + 3), "house: what is behind its answer, words and bounds");
    expect(held[TREES] == 5 && held[RECORDS] == 5 && table[TREES][ROOM - ROOM % LARSAVIM_TREE_ROW - LARSAVIM_TREE_ROW] == 6 && painted(table[TREES], 0, 64), "house: the last model stays, from the top");
    expect(house(LARSAVIM_WORDS, ROOM, 16) == LARSAVIM_HELD && held[TREES] == 5, "house, held");
}

int main(int argc, char **argv) {
    FILE *f = argc == 2 ? fopen(argv[1], "rb") : NULL;
    if (f == NULL)
        return 2;
    file_len = fread(file, 1, sizeof file, f);
    fclose(f);
    if (larsavim_open(file, file_len, good, LARSAVIM_WORDS, out, 16) != 0 || larsavim_needs(file, file_len, good, LARSAVIM_WORDS, STREAM_MCP, needs, LARSAVIM_NEEDS_OUT) != 0)
        return 2;
    short_answers();
    opening();
    foreign_words();
    fields();
    short_tables();
    tree_rows();
    walks();
    leaf_checks();
    texts();
    houses();
    printf("calls: %u passed, %u failed\n", passed, failed);
    return failed == 0 ? 0 : 1;
}
