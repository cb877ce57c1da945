/* writes.c: how long the writer takes beside the load of the same model:  writes FILE REPETITIONS
 * Times are of the processor, in microseconds, the best of so many repetitions: of larsavim_load, larsavim_write_needs, and larsavim_write into a buffer of just the
 * text's length, which measures too. Prints a line a model: number, rows of questions, trees and records, bytes of the text, the three times, and write : load. */
#include <inttypes.h>
#include <stdio.h>
#include <stdlib.h>
#include <time.h>

#include "larsavim_model.h"

static uint8_t *file;
static uint64_t file_len, words[LARSAVIM_WORDS];
static struct larsavim_model m;

static uint64_t now(void) {
    struct timespec t;
    clock_gettime(CLOCK_THREAD_CPUTIME_ID, &t);
    return (uint64_t)t.tv_sec * 1000000000 + (uint64_t)t.tv_nsec;
}

static void *room(uint64_t bytes) {
    void *at = calloc(1, (size_t)bytes + 8);
    if (at == NULL)
        exit(2);
    return at;
}

static uint64_t load(void) {
    uint64_t start = now();
    larsavim_model_load(&m, file, file_len, words);
    return now() - start;
}

static uint64_t write_needs(uint64_t *len) {
    uint64_t out[LARSAVIM_WRITE_NEEDS_OUT], start = now();
    if (larsavim_model_write_needs(&m, file + words[LARSAVIM_DATA_START], words[LARSAVIM_DATA_LEN], out, LARSAVIM_WRITE_NEEDS_OUT) != LARSAVIM_SUCCESS)
        exit(1);
    *len = out[LARSAVIM_WRITE_NEEDS_LENGTH];
    return now() - start;
}

static uint64_t write_text(uint8_t *buffer, uint64_t len) {
    uint64_t out[LARSAVIM_WRITE_OUT], start = now();
    if (larsavim_model_write(&m, file + words[LARSAVIM_DATA_START], words[LARSAVIM_DATA_LEN], buffer, len, out, LARSAVIM_WRITE_OUT) != LARSAVIM_SUCCESS)
        exit(1);
    return now() - start;
}

static void measure(int repetitions) {
    uint64_t loading = UINT64_MAX, needing = UINT64_MAX, writing = UINT64_MAX, len = 0;
    uint8_t *buffer;
    for (int t = 0; t < LARSAVIM_TABLES; t++) {
        m.lent[t] = larsavim_model_wants(&m, t);
        m.table[t] = room(8 * m.lent[t]);
    }
    m.work_lent = m.needs[LARSAVIM_NEEDS_WORK];
    m.work = room(8 * m.work_lent);
    load();
    write_needs(&len);
    buffer = room(len);
    for (int i = 0; i < repetitions; i++) {
        uint64_t a = load(), b = write_needs(&len), c = write_text(buffer, len);
        loading = a < loading ? a : loading;
        needing = b < needing ? b : needing;
        writing = c < writing ? c : writing;
    }
    printf("%" PRIu64 " %" PRIu64 " %" PRIu64 " %" PRIu64 " %" PRIu64 " %.1f %.1f %.1f %.2f\n", m.which, larsavim_model_rows(&m, LARSAVIM_QUESTIONS), larsavim_model_rows(&m, LARSAVIM_TREES), larsavim_model_rows(&m, LARSAVIM_RECORDS), len, (double)loading / 1000, (double)needing / 1000,
           (double)writing / 1000, (double)writing / (double)loading);
    for (int t = 0; t < LARSAVIM_TABLES; t++)
        free(m.table[t]);
    free(m.work);
    free(buffer);
}

int main(int argc, char **argv) {
    FILE *f = argc == 3 ? fopen(argv[1], "rb") : NULL;
    uint64_t out[LARSAVIM_OPEN_OUT];
    if (f == NULL)
        return 2;
    file = room(LARSAVIM_FILE_LIMIT);
    file_len = fread(file, 1, LARSAVIM_FILE_LIMIT, f);
    fclose(f);
    if (larsavim_open(file, file_len, words, LARSAVIM_WORDS, out, LARSAVIM_OPEN_OUT) != LARSAVIM_SUCCESS)
        return 1;
    for (m.which = 0; m.which <= 2 * words[LARSAVIM_STREAM_TYPE_COUNT]; m.which++)
        if (larsavim_model_needs(&m, file, file_len, words) == LARSAVIM_SUCCESS)
            measure(atoi(argv[2]));
    return 0;
}
