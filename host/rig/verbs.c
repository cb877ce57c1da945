/* verbs.c: the verbs of the test rig, a program beside the user's over the same library: everything that one has, guards around what is lent, and
 * many inputs at once. */
#include <string.h>

#include "../host.h"

static const char usage[] =
    "       larsavim walks FILE                            many walks: lines MODEL TREE ANSWERS LIMIT on standard input\n"
    "       larsavim share                                 two tasks in the same tables, call by call: a script on standard input, an answer a line\n"
    "       larsavim hex                                   the dump of each line of hex on standard input, then END\n"
    "LARSAVIM_GUARD=above or below in the environment: memory that can't be touched stands just above or below everything lent to the library.\n";

const char *rig_usage(void) {
    return usage;
}

static int wrong(const char *sentence) {
    fprintf(stderr, "larsavim: %s\nusage:\n%s", sentence, usage);
    return TROUBLE;
}

int rig_verb(const char *verb, int n, char **words) {
    if (strcmp(verb, "walks") == 0)
        return n == 1 ? walks(words[0]) : wrong("walks takes one FILE; its lines stand on standard input");
    if (strcmp(verb, "share") == 0)
        return n == 0 ? share() : wrong("share takes no word: its script stands on standard input");
    if (strcmp(verb, "hex") == 0)
        return n == 0 ? hex() : wrong("hex takes no word: its input stands on standard input");
    return NOT_SO;
}
