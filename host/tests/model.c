/* model.c: larsavim_model.h at work on the sample voice, its argument: needs, load, and each call over the loaded rows, beside the same calls of larsavim.h; and what a refused load leaves. Compiles as C and as C++. */
#include <stdio.h>
#include <stdlib.h>
#include <string.h>

#include "larsavim_model.h"

enum { MCP = 1, TREES_OF_MCP = 5 };

static uint8_t file[65536];
static uint64_t file_len, words[LARSAVIM_WORDS];
static struct larsavim_model m;
static unsigned passed, failed;

static void expect(int holds, const char *name) {
    passed += holds != 0;
    failed += holds == 0;
    if (!holds)
        printf("model: %s\n", name);
}

static uint64_t *room(uint64_t numbers) {
    uint64_t *at = (uint64_t *)calloc((size_t)numbers + 1, 8);
    if (at == NULL)
        exit(2);
    return at;
}

static void lend(void) {
    for (int t = 0; t < LARSAVIM_TABLES; t++) {
        m.lent[t] = larsavim_model_wants(&m, t);
        m.table[t] = room(m.lent[t]);
    }
    m.work_lent = m.needs[LARSAVIM_NEEDS_WORK];
    m.work = (int64_t *)room(m.work_lent);
}

/* Each tree of a state, each entry of each tree, and none that isn't there. */
static void rows(void) {
    uint64_t width = m.needs[LARSAVIM_NEEDS_WIDTH], values = 0;
    for (uint64_t t = 0; t < TREES_OF_MCP; t++) {
        const uint64_t *row = larsavim_model_row(&m, LARSAVIM_TREES, t);
        expect(larsavim_model_tree(&m, t + 2) == t && row[LARSAVIM_TREE_STATE] == t + 2, "the tree of a state");
        for (uint64_t pdf = 1; pdf <= row[LARSAVIM_TREE_ENTRIES]; pdf++, values += width)
            expect(larsavim_model_entry(&m, t, pdf) == m.table[LARSAVIM_VALUES] + values, "entries stand one behind the other");
        expect(larsavim_model_entry(&m, t, 0) == NULL && larsavim_model_entry(&m, t, row[LARSAVIM_TREE_ENTRIES] + 1) == NULL && larsavim_model_entry(&m, t, UINT64_MAX) == NULL, "no entry");
    }
    expect(values == larsavim_model_used(&m, LARSAVIM_VALUES), "all values");
    expect(larsavim_model_tree(&m, 99) == TREES_OF_MCP, "no tree of a state");
    expect(larsavim_model_entry(&m, TREES_OF_MCP, 1) == NULL && larsavim_model_entry(&m, UINT64_MAX, 1) == NULL, "an entry of no tree");
}

static void calls(void) {
    static const char label[] = "sil^sh-i+ch=i";
    static uint8_t answers[7], text[4096];
    uint64_t out[LARSAVIM_WALK_OUT], questions = larsavim_model_rows(&m, LARSAVIM_QUESTIONS), need[LARSAVIM_WRITE_NEEDS_OUT];
    int64_t work[LARSAVIM_WORK_A_RECORD * 64];
    struct larsavim_job job = {0, 9, 0, 77, 77, 77};
    expect(larsavim_model_leaves(&m) == 1, "leaves");
    expect(larsavim_model_answers(&m, (const uint8_t *)label, strlen(label), file + words[LARSAVIM_DATA_START], words[LARSAVIM_DATA_LEN], answers, questions) == 0 && answers[5] == 1, "answers");
    expect(larsavim_model_walk(&m, 0, answers, questions, 9, out, LARSAVIM_WALK_OUT) == 0 && out[LARSAVIM_WALK_PDF] == 5 && out[LARSAVIM_WALK_ASKED] == 3, "walk");
    larsavim_model_walk_jobs(&m, answers, questions, &job, 1);
    expect(job.number == 0 && job.pdf == 5 && job.asked == 3, "jobs");
    expect(larsavim_model_depth(&m, 0, work, LARSAVIM_WORK_A_RECORD * 64, out, LARSAVIM_DEPTH_OUT) == 0 && out[LARSAVIM_DEPTH_ENDS] == 1 && out[LARSAVIM_DEPTH_QUESTIONS] == 3, "depth");
    expect(larsavim_model_write_needs(&m, file + words[LARSAVIM_DATA_START], words[LARSAVIM_DATA_LEN], need, LARSAVIM_WRITE_NEEDS_OUT) == 0 && need[LARSAVIM_WRITE_NEEDS_LENGTH] < sizeof text, "write_needs");
    expect(larsavim_model_write(&m, file + words[LARSAVIM_DATA_START], words[LARSAVIM_DATA_LEN], text, sizeof text, out, LARSAVIM_WRITE_OUT) == 0 &&
               out[LARSAVIM_WRITE_LENGTH] == need[LARSAVIM_WRITE_NEEDS_LENGTH] && memcmp(text, "QS C-Silence", 12) == 0,
           "write");
}

/* A model that is refused has no rows, and no walk. */
static void refused(void) {
    uint64_t out[LARSAVIM_WALK_OUT];
    m.lent[LARSAVIM_RECORDS]--;
    expect(larsavim_model_load(&m, file, file_len, words) == LARSAVIM_ROOM, "room");
    for (int t = 0; t < LARSAVIM_TABLES; t++)
        expect(larsavim_model_rows(&m, t) == 0, "no rows");
    expect(larsavim_model_walk(&m, 0, file, 7, 9, out, LARSAVIM_WALK_OUT) == LARSAVIM_WALKTABLE, "no walk");
    expect(larsavim_model_tree(&m, 2) == 0 && larsavim_model_entry(&m, 0, 1) == NULL, "no tree");
}

/* Two tasks in the same tables: each walks over its own rows; a task that holds a model is refused another. */
static void shared(void) {
    static uint64_t held[2][LARSAVIM_BOUNDS];
    uint64_t out[LARSAVIM_WALK_OUT];
    struct larsavim_model own;
    for (int t = 0; t < LARSAVIM_TABLES; t++) {
        m.lent[t] = 2 * larsavim_model_wants(&m, t) + (t < LARSAVIM_VALUES);
        m.table[t] = room(m.lent[t]);
    }
    for (uint64_t side = 0; side < 2; side++) {
        expect(larsavim_model_load_shared(&m, side, held[side], held[1 - side], file, file_len, words) == LARSAVIM_SUCCESS, "a shared load");
        expect(larsavim_model_load_shared(&m, side, held[side], held[1 - side], file, file_len, words) == LARSAVIM_HELD, "held");
        own = larsavim_model_own(&m, side, held[side]);
        expect(larsavim_model_leaves(&own) == 1 && larsavim_model_walk(&own, 0, (const uint8_t *)"\0\0\1\0\0\1\1", 7, 9, out, LARSAVIM_WALK_OUT) == 0 && out[LARSAVIM_WALK_PDF] == 5, "its walk");
    }
    expect(larsavim_model_unload(&m, LARSAVIM_BOTTOM, held[0], held[1]) == 0 && held[0][LARSAVIM_TREES] == 0, "unload");
    own = larsavim_model_own(&m, LARSAVIM_TOP, held[1]);
    expect(larsavim_model_leaves(&own) == 1 && larsavim_model_rows(&own, LARSAVIM_TREES) == TREES_OF_MCP, "the other stays");
    own = larsavim_model_own(&m, LARSAVIM_BOTTOM, held[0]);
    expect(larsavim_model_walk(&own, 0, file, 7, 9, out, LARSAVIM_WALK_OUT) == LARSAVIM_WALKTABLE, "nothing is held");
}

/* A whole voice by the house's rules: the sample has two lines with one id. The last of its models stays. */
static void house(void) {
    enum { LPF = 5, ROOM = 4096 };
    static uint64_t held[LARSAVIM_BOUNDS], own_words[LARSAVIM_WORDS];
    static const uint64_t other[LARSAVIM_BOUNDS] = {0};
    uint64_t out[LARSAVIM_HOUSE_OUT], walked[LARSAVIM_WALK_OUT];
    struct larsavim_model own;
    for (int t = 0; t < LARSAVIM_TABLES; t++) {
        m.lent[t] = ROOM;
        m.table[t] = room(ROOM);
    }
    expect(larsavim_model_house(&m, LARSAVIM_TOP, held, other, file, file_len, own_words, out, LARSAVIM_HOUSE_OUT) == LARSAVIM_IDS && out[LARSAVIM_OUT_NUMBER] == LARSAVIM_IDS, "no house voice");
    expect(out[LARSAVIM_HOUSE_PLACE] == 0 && out[LARSAVIM_HOUSE_LINE] == 0 && out[LARSAVIM_HOUSE_MODEL] == MCP, "its model");
    expect(memcmp(words, own_words, sizeof words) == 0, "its words");
    m.which = LPF;
    expect(larsavim_model_needs(&m, file, file_len, words) == LARSAVIM_SUCCESS && memcmp(held, m.needs + LARSAVIM_NEEDS_QUESTIONS, sizeof held) == 0, "the last model's bounds");
    own = larsavim_model_own(&m, LARSAVIM_TOP, held);
    expect(larsavim_model_leaves(&own) == 1 && larsavim_model_walk(&own, 4, file, 0, 0, walked, LARSAVIM_WALK_OUT) == 0 && walked[LARSAVIM_WALK_PDF] == 1, "the last model's rows");
    expect(larsavim_model_house(&m, LARSAVIM_TOP, held, other, file, file_len, own_words, out, LARSAVIM_HOUSE_OUT) == LARSAVIM_HELD, "house, held");
}

int main(int argc, char **argv) {
    uint64_t out[LARSAVIM_OPEN_OUT];
    FILE *f = argc == 2 ? fopen(argv[1], "rb") : NULL;
    if (f == NULL)
        return 2;
    file_len = fread(file, 1, sizeof file, f);
    fclose(f);
    m.which = MCP;
    if (larsavim_open(file, file_len, words, LARSAVIM_WORDS, out, LARSAVIM_OPEN_OUT) != 0 || larsavim_model_needs(&m, file, file_len, words) != 0)
        return 2;
    lend();
    expect(larsavim_model_load(&m, file, file_len, words) == LARSAVIM_SUCCESS, "load");
    rows();
    calls();
    refused();
    shared();
    house();
    printf("model: %u passed, %u failed\n", passed, failed);
    return failed != 0;
}
