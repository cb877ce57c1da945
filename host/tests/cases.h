/* cases.h: what the tests of stored cases share. A case is a line on standard input, of words parted by spaces; a check that fails is told with the number of its line. */
#ifndef LARSAVIM_CASES_H
#define LARSAVIM_CASES_H

#include <inttypes.h>
#include <stdlib.h>
#include <string.h>

#include "host.h"

enum { OLD = 0x5a }; /* what is lent for writing holds before a call */

static unsigned passed, failed;
static uint64_t line_number;

static void expect(int holds, const char *name) {
    if (holds) {
        passed++;
        return;
    }
    failed++;
    printf("line %" PRIu64 ": %s\n", line_number, name);
}

static int hex_digit(char c) {
    return c <= '9' ? c - '0' : c - 'a' + 10;
}

/* The bytes of a word of hex, - for none, in lent memory. */
static struct bytes read_hex(const char *word) {
    size_t len = strcmp(word, "-") == 0 ? 0 : strlen(word) / 2;
    uint8_t *at = lend(len);
    struct bytes b = {at, len};
    for (size_t i = 0; i < len; i++)
        at[i] = (uint8_t)(16 * hex_digit(word[2 * i]) + hex_digit(word[2 * i + 1]));
    return b;
}

/* The next word of the line at hand, a number. */
static uint64_t next_number(void) {
    uint64_t n = 0;
    const char *word = strtok(NULL, " \n");
    if (word == NULL || !read_number(word, &n))
        stop("a stored line has a wrong number");
    return n;
}

/* The next line, as long as it may be; null behind the last. */
static char *next_case(void) {
    static char *line;
    static size_t room;
    line_number++;
    return getline(&line, &room, stdin) > 0 ? line : NULL;
}

static int told(void) {
    printf("%u passed, %u failed\n", passed, failed);
    return failed == 0 ? 0 : 1;
}

#endif
