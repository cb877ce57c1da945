/* ways.c: ways through a loaded tree, each branch taken freely: which records a walk can meet, and by which record it comes there first. */
#include <stdlib.h>

#include "host.h"

/* Breadth first, over the loaded rows. What refers outside the tree is no way. */
uint64_t *ways_from_first(const struct larsavim_model *m, uint64_t tree) {
    const uint64_t *t = row_of(m, TREES, tree);
    uint64_t count = t[LARSAVIM_TREE_RECORDS], head = 0, tail = 0;
    uint64_t *before = malloc((size_t)count * 8 + 8), *queue = malloc((size_t)count * 8 + 8);
    if (before == NULL || queue == NULL)
        stop("there is not enough memory for a way through the tree");
    for (uint64_t i = 0; i < count; i++)
        before[i] = NOT_MET;
    if (count > 0) {
        before[0] = 0;
        queue[tail++] = 0;
    }
    while (head < tail) {
        uint64_t at = queue[head++];
        const uint64_t *row = row_of(m, RECORDS, t[LARSAVIM_TREE_FIRST] + at);
        for (int k = LARSAVIM_RECORD_YES; row[LARSAVIM_RECORD_KIND] == 0 && k <= LARSAVIM_RECORD_NO; k++) {
            if (row[k] < count && before[row[k]] == NOT_MET) {
                before[row[k]] = at;
                queue[tail++] = row[k];
            }
        }
    }
    free(queue);
    return before;
}
