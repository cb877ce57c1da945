/* stack.c: how many bytes of stack each call of the library takes on the voices named, the most of all models. Each call runs on a stack of its
 * own that was painted before; what is no longer painted afterwards was used. Prints a line for each call. */
#define _XOPEN_SOURCE 700
#include <stdint.h>
#include <stdio.h>
#include <stdlib.h>
#include <string.h>
#include <ucontext.h>

#include "larsavim_model.h"

#define STACK (1024 * 1024)
#define PAINT 0xa5

enum { CALLS = 15 };

static uint8_t *stack;
static ucontext_t here, there;
static uint8_t *top; /* the frame from which the call is made */

/* The call and what it works on: static, so that only the library's own use is measured. */
static void (*measured)(void);
static uint8_t file[LARSAVIM_FILE_LIMIT];
static uint64_t file_len, words[LARSAVIM_WORDS], out[LARSAVIM_NEEDS_OUT];
static struct larsavim_model m;
static uint8_t answers[LARSAVIM_FILE_LIMIT], text[LARSAVIM_FILE_LIMIT];
static int64_t depths[LARSAVIM_FILE_LIMIT / 8];

static void call_open(void) { larsavim_open(file, file_len, words, LARSAVIM_WORDS, out, LARSAVIM_OPEN_OUT); }
static void call_needs(void) { larsavim_model_needs(&m, file, file_len, words); }
static void call_load(void) { larsavim_model_load(&m, file, file_len, words); }

static void call_load_tree(void) {
    static uint64_t held[LARSAVIM_BOUNDS];
    static const uint64_t other[LARSAVIM_BOUNDS];
    memset(held, 0, sizeof held);
    larsavim_model_load_tree(&m, 0, LARSAVIM_TOP, held, other, file, file_len, words);
}

/* In tables that have room for each model of the voice. */
static void call_house(void) {
    static uint64_t held[LARSAVIM_BOUNDS], opened[LARSAVIM_WORDS];
    static const uint64_t other[LARSAVIM_BOUNDS];
    memset(held, 0, sizeof held);
    larsavim_model_house(&m, LARSAVIM_TOP, held, other, file, file_len, opened, out, LARSAVIM_HOUSE_OUT);
}

static void call_walk(void) { larsavim_model_walk(&m, 0, answers, larsavim_model_rows(&m, LARSAVIM_QUESTIONS), larsavim_model_rows(&m, LARSAVIM_RECORDS), out, LARSAVIM_WALK_OUT); }
static void call_leaves(void) { larsavim_model_leaves(&m); }
static void call_depth(void) { larsavim_model_depth(&m, 0, depths, sizeof depths / 8, out, LARSAVIM_DEPTH_OUT); }

static void call_answers(void) {
    static const uint8_t label[] = "sh^i-ch+i=sil";
    larsavim_model_answers(&m, label, sizeof label - 1, file + words[LARSAVIM_DATA_START], words[LARSAVIM_DATA_LEN], answers, sizeof answers);
}

static void call_accepts(void) {
    static const uint8_t text[] = "QS A { \"a*\" }\nQS B { \"b*\" }\n{*}[2]{ 0 A -1 p_3\n-1 B \"p_1\" p_3\n7 A 0 -1 }";
    static const uint64_t rows[] = {0, 0, 4, 1, 0, 1, 4, 3, 0, 0, 1, 0, 1, 1, 0, 0, 1, 3, 0, 0};
    larsavim_accepts(text, sizeof text - 1, 0, rows, sizeof rows / 8, out, LARSAVIM_ACCEPTS_OUT);
}

static void call_bare(void) {
    static const uint8_t text[] = "QS A { \"a*\" }\nQS B { \"b*\" }\n{*}[2]{ 0 A -1 p_3\n-1 B \"p_1\" 7\n7 A 7 -1 }", given[2] = {0, 0};
    larsavim_bare_walk(text, sizeof text - 1, 0, given, 2, 9, out, LARSAVIM_BARE_OUT);
}

static void call_write_needs(void) { larsavim_model_write_needs(&m, file + words[LARSAVIM_DATA_START], words[LARSAVIM_DATA_LEN], out, LARSAVIM_WRITE_NEEDS_OUT); }
static void call_write(void) { larsavim_model_write(&m, file + words[LARSAVIM_DATA_START], words[LARSAVIM_DATA_LEN], text, sizeof text, out, LARSAVIM_WRITE_OUT); }

static void call_trailer(void) {
    static uint8_t trailer[1 << 16];
    larsavim_trailer(file, file_len, words, LARSAVIM_WORDS, trailer, sizeof trailer, out, LARSAVIM_TRAILER_OUT);
    if (out[0] == LARSAVIM_SUCCESS && file_len + out[LARSAVIM_TRAILER_BYTES] <= sizeof file)
        memcpy(file + file_len, trailer, (size_t)out[LARSAVIM_TRAILER_BYTES]);
}

/* Of the file with what call_trailer wrote behind it. */
static void call_trailed(void) { larsavim_trailed(file, file_len + out[LARSAVIM_TRAILER_BYTES], words, LARSAVIM_WORDS, out, LARSAVIM_TRAILED_OUT); }

static void on_painted_stack(void) {
    top = __builtin_frame_address(0);
    measured();
}

static uint64_t stack_of(void (*call)(void)) {
    uint64_t lowest = 0;
    memset(stack, PAINT, STACK);
    measured = call;
    getcontext(&there);
    there.uc_stack.ss_sp = stack;
    there.uc_stack.ss_size = STACK;
    there.uc_link = &here;
    makecontext(&there, on_painted_stack, 0);
    swapcontext(&here, &there);
    while (stack[lowest] == PAINT)
        lowest++;
    return (uint64_t)(top - (stack + lowest));
}

static void keep_most(uint64_t *most, uint64_t n) {
    if (*most < n)
        *most = n;
}

static void *room(uint64_t numbers) {
    void *at = calloc((size_t)numbers + 1, 8);
    if (at == NULL)
        exit(2);
    return at;
}

static void measure_model(uint64_t most[CALLS]) {
    keep_most(&most[1], stack_of(call_needs));
    for (int t = 0; t < LARSAVIM_TABLES; t++) {
        m.lent[t] = larsavim_model_wants(&m, t);
        m.table[t] = room(m.lent[t]);
    }
    m.work_lent = m.needs[LARSAVIM_NEEDS_WORK];
    m.work = room(m.work_lent);
    keep_most(&most[13], stack_of(call_load_tree));
    keep_most(&most[2], stack_of(call_load));
    if (m.loaded[LARSAVIM_OUT_NUMBER] == LARSAVIM_SUCCESS) {
        keep_most(&most[3], stack_of(call_walk));
        keep_most(&most[4], stack_of(call_leaves));
        keep_most(&most[5], stack_of(call_answers));
        keep_most(&most[6], stack_of(call_depth));
        keep_most(&most[7], stack_of(call_accepts));
        keep_most(&most[8], stack_of(call_bare));
        keep_most(&most[9], stack_of(call_write_needs));
        keep_most(&most[10], stack_of(call_write));
    }
    for (int t = 0; t < LARSAVIM_TABLES; t++)
        free(m.table[t]);
    free(m.work);
}

static void measure_house(const uint64_t numbers[LARSAVIM_TABLES], uint64_t work, uint64_t most[CALLS]) {
    for (int t = 0; t < LARSAVIM_TABLES; t++) {
        m.lent[t] = numbers[t];
        m.table[t] = room(numbers[t]);
    }
    m.work_lent = work;
    m.work = room(work);
    keep_most(&most[14], stack_of(call_house));
    for (int t = 0; t < LARSAVIM_TABLES; t++)
        free(m.table[t]);
    free(m.work);
}

static void measure_file(const char *path, uint64_t most[CALLS]) {
    uint64_t numbers[LARSAVIM_TABLES] = {0}, work = 0;
    FILE *f = fopen(path, "rb");
    if (f == NULL)
        exit(2);
    file_len = fread(file, 1, sizeof file, f);
    fclose(f);
    keep_most(&most[0], stack_of(call_open));
    if (out[LARSAVIM_OUT_NUMBER] != LARSAVIM_SUCCESS)
        return;
    for (m.which = 0; m.which <= 2 * words[LARSAVIM_STREAM_TYPE_COUNT]; m.which++) {
        measure_model(most);
        for (int t = 0; t < LARSAVIM_TABLES; t++)
            keep_most(&numbers[t], larsavim_model_wants(&m, t));
        keep_most(&work, m.needs[LARSAVIM_NEEDS_WORK]);
    }
    measure_house(numbers, work, most);
    keep_most(&most[11], stack_of(call_trailer));
    keep_most(&most[12], stack_of(call_trailed)); /* the words are those of the longer file from here on */
}

int main(int argc, char **argv) {
    static const char *const name[CALLS] = {"open", "needs", "load", "walk", "leaves", "answers", "depth", "accepts", "bare_walk", "write_needs", "write", "trailer", "trailed", "load_tree", "house"};
    uint64_t most[CALLS] = {0};
    stack = malloc(STACK);
    if (stack == NULL)
        return 2;
    for (int i = 1; i < argc; i++)
        measure_file(argv[i], most);
    for (int i = 0; i < CALLS; i++)
        printf("%-11s %llu\n", name[i], (unsigned long long)most[i]);
    return 0;
}
