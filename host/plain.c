/* plain.c: what the user's program has in place of the test rig (rig/): memory without guards, and no verb more. */
#include "host.h"

int guarded(void) {
    return 0;
}

void *lend_between(uint64_t len) {
    (void)len;
    return NULL;
}

void take_between(uint8_t *slice, uint64_t len) {
    (void)slice;
    (void)len;
}

int rig_verb(const char *verb, int n, char **words) {
    (void)verb;
    (void)n;
    (void)words;
    return NOT_SO;
}

const char *rig_usage(void) {
    return "";
}
