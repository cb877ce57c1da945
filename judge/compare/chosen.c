/* chosen.c: the PDFs that hts_engine chooses:  chosen VOICE < LABELS     a label a line.
 * For each label a line LABEL, and for each model and state a line as `larsavim say` prints it, without the questions asked: models count as there, the duration
 * first, then each stream's own and its GV. hts_engine asks the first tree of a state. The three calls are in its library, and in a header that Debian has not. */
#include <stdio.h>
#include <string.h>

#include <HTS_engine.h>

void HTS_ModelSet_get_duration_index(HTS_ModelSet *ms, size_t voice, const char *label, size_t *tree, size_t *pdf);
void HTS_ModelSet_get_parameter_index(HTS_ModelSet *ms, size_t voice, size_t stream, size_t state, const char *label, size_t *tree, size_t *pdf);
void HTS_ModelSet_get_gv_index(HTS_ModelSet *ms, size_t voice, size_t stream, const char *label, size_t *tree, size_t *pdf);

/* hts_engine counts trees from 2. */
static void put(size_t model, size_t tree, size_t state, size_t pdf) {
    printf("MODEL %zu TREE %zu STATE %zu PDF %zu\n", model, tree - 2, state, pdf);
}

int main(int argc, char **argv) {
    static char label[4096];
    HTS_Engine engine;
    HTS_ModelSet *ms = &engine.ms;
    HTS_Engine_initialize(&engine);
    if (argc != 2 || !HTS_Engine_load(&engine, &argv[1], 1))
        return 1;
    while (fgets(label, sizeof label, stdin) != NULL) {
        size_t tree, pdf;
        label[strcspn(label, "\n")] = 0;
        printf("LABEL %s\n", label);
        HTS_ModelSet_get_duration_index(ms, 0, label, &tree, &pdf);
        put(0, tree, 2, pdf);
        for (size_t s = 0; s < ms->num_streams; s++) {
            for (size_t state = 2; state < 2 + ms->num_states; state++) {
                HTS_ModelSet_get_parameter_index(ms, 0, s, state, label, &tree, &pdf);
                put(2 * s + 1, tree, state, pdf);
            }
            if (ms->gv != NULL && ms->gv[0][s].tree != NULL) {
                HTS_ModelSet_get_gv_index(ms, 0, s, label, &tree, &pdf);
                put(2 * s + 2, tree, 2, pdf);
            }
        }
    }
    HTS_Engine_clear(&engine);
    return 0;
}
