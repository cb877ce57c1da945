/* guards.c: memory that can't be touched beside every slice that the test rig lends to the library.
 *
 * The library is proved to stay inside its slices. LARSAVIM_GUARD in the environment is for seeing that the built code does: each slice then stands
 * between two guards, which is memory that can't be touched. With `above` it ends exactly where the upper guard begins, with `below` it begins exactly
 * where the lower one ends, and a slice of length 0 stands where the two meet. A byte read or written on that side ends the run by SIGSEGV. */
#define _DEFAULT_SOURCE /* for MAP_ANONYMOUS */
#include <stdlib.h>
#include <string.h>
#include <sys/mman.h>

#include "../host.h"

enum { GUARD = 65536 }; /* bytes: whole pages, also where an emulator's are larger than the program's */

enum side { NOWHERE, ABOVE, BELOW };

/* A word that is neither must not pass for a run without guards. */
static enum side guard(void) {
    const char *word = getenv("LARSAVIM_GUARD");
    if (word == NULL)
        return NOWHERE;
    if (strcmp(word, "above") != 0 && strcmp(word, "below") != 0)
        stop("LARSAVIM_GUARD is neither `above` nor `below`");
    return *word == 'a' ? ABOVE : BELOW;
}

int guarded(void) {
    return guard() != NOWHERE;
}

/* Bytes between the guards of a slice. */
static size_t room_for(uint64_t len) {
    return ((size_t)len + GUARD - 1) / GUARD * GUARD;
}

/* Where a slice stands behind the start of its lower guard. */
static size_t place_of(uint64_t len) {
    return GUARD + (guard() == ABOVE ? room_for(len) - (size_t)len : 0);
}

/* Rooms with their guards that were given back, for the next slices of their size: a run lends millions of slices, and half of its time went into mapping them. */
enum { KEPT = 64, KEPT_ROOM = 16 * GUARD };

static struct {
    uint8_t *low;
    size_t room;
} kept[KEPT];

/* The lower guard of a room that was kept, or NULL. */
static uint8_t *kept_of(size_t room) {
    size_t i;
    for (i = 0; i < KEPT; i++)
        if (kept[i].low != NULL && kept[i].room == room) {
            uint8_t *low = kept[i].low;
            kept[i].low = NULL;
            return low;
        }
    return NULL;
}

/* A new room between guards, or NULL. */
static uint8_t *mapped(size_t room) {
    uint8_t *low = mmap(NULL, room + 2 * GUARD, PROT_NONE, MAP_PRIVATE | MAP_ANONYMOUS, -1, 0);
    if (low == MAP_FAILED || (room > 0 && mprotect(low + GUARD, room, PROT_READ | PROT_WRITE) != 0))
        return NULL;
    return low;
}

void *lend_between(uint64_t len) {
    uint8_t *low;
    if (len >= SIZE_MAX - 3 * GUARD)
        return NULL;
    low = kept_of(room_for(len));
    if (low == NULL)
        low = mapped(room_for(len));
    return low == NULL ? NULL : low + place_of(len);
}

void take_between(uint8_t *slice, uint64_t len) {
    uint8_t *low = slice - place_of(len);
    size_t room = room_for(len), i;
    for (i = 0; room <= KEPT_ROOM && i < KEPT; i++)
        if (kept[i].low == NULL) {
            kept[i].low = low;
            kept[i].room = room;
            return;
        }
    munmap(low, room + 2 * GUARD);
}
