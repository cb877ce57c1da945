/* chosen.c: from a label to the PDFs of every model, by hts_engine:  chosen FILE REPETITIONS < LABELS
 * It matches a pattern where a tree asks for it, and stops at the first that stands. Prints a line: chosen, PDFs, nanoseconds of the processor for all labels, best of so many repetitions. */
#include <stdint.h>
#include <stdio.h>
#include <stdlib.h>
#include <string.h>
#include <time.h>

#include <HTS_engine.h>

void HTS_ModelSet_get_duration_index(HTS_ModelSet *ms, size_t voice, const char *label, size_t *tree, size_t *pdf);
void HTS_ModelSet_get_parameter_index(HTS_ModelSet *ms, size_t voice, size_t stream, size_t state, const char *label, size_t *tree, size_t *pdf);
void HTS_ModelSet_get_gv_index(HTS_ModelSet *ms, size_t voice, size_t stream, const char *label, size_t *tree, size_t *pdf);

static uint64_t now(void) {
    struct timespec t;
    clock_gettime(CLOCK_THREAD_CPUTIME_ID, &t);
    return (uint64_t)t.tv_sec * 1000000000 + (uint64_t)t.tv_nsec;
}

static size_t choose(HTS_ModelSet *ms, const char *label) {
    size_t tree, pdf, count = 1;
    HTS_ModelSet_get_duration_index(ms, 0, label, &tree, &pdf);
    for (size_t s = 0; s < ms->num_streams; s++) {
        for (size_t state = 2; state < 2 + ms->num_states; state++, count++)
            HTS_ModelSet_get_parameter_index(ms, 0, s, state, label, &tree, &pdf);
        if (ms->gv != NULL && ms->gv[0][s].tree != NULL) {
            HTS_ModelSet_get_gv_index(ms, 0, s, label, &tree, &pdf);
            count++;
        }
    }
    return count;
}

int main(int argc, char **argv) {
    static char label[1000][4096];
    size_t labels = 0, count = 0;
    uint64_t best = UINT64_MAX;
    HTS_Engine engine;
    while (labels < 1000 && fgets(label[labels], sizeof label[0], stdin) != NULL) {
        label[labels][strcspn(label[labels], "\n")] = 0;
        labels++;
    }
    HTS_Engine_initialize(&engine);
    if (argc != 3 || !HTS_Engine_load(&engine, &argv[1], 1))
        return 1;
    for (int i = 0; i < atoi(argv[2]); i++) {
        uint64_t start = now();
        count = 0;
        for (size_t k = 0; k < labels; k++)
            count += choose(&engine.ms, label[k]);
        if (now() - start < best)
            best = now() - start;
    }
    printf("chosen %zu %llu\n", count, (unsigned long long)best);
    HTS_Engine_clear(&engine);
    return 0;
}
