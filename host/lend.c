/* lend.c: the memory of every slice that the program lends to the library; between guards where the test rig says so (rig/guards.c). */
#include <stdlib.h>
#include <string.h>

#include "host.h"

void *lend(uint64_t len) {
    void *at = NULL;
    if (guarded())
        at = lend_between(len);
    else if (len < SIZE_MAX)
        at = malloc((size_t)len + 1); /* 1 more, so that no bytes are no null pointer either */
    if (at == NULL)
        stop("there is not enough memory to lend to the library");
    return at;
}

void give_back(const void *slice, uint64_t len) {
    union {
        const void *lent;
        uint8_t *own;
    } at;
    at.lent = slice; /* free and munmap take pointers that aren't const */
    if (guarded())
        take_between(at.own, len);
    else
        free(at.own);
}

struct bytes lend_copy(struct bytes s) {
    struct bytes copy = {NULL, s.len};
    uint8_t *own = lend(s.len);
    if (s.len > 0)
        memcpy(own, s.at, (size_t)s.len);
    copy.at = own;
    return copy;
}

uint64_t *answer_slice(uint64_t numbers) {
    static uint64_t *slice[LARSAVIM_NEEDS_OUT + 1]; /* the longest answer */
    if (slice[numbers] == NULL)
        slice[numbers] = lend(8 * numbers);
    return slice[numbers];
}
