/* bytes.c: bytes that belong to somebody else, how they are compared and shown. */
#include <stdlib.h>
#include <string.h>

#include "host.h"

struct bytes part(struct bytes whole, uint64_t start, uint64_t len) {
    struct bytes none = {whole.at, 0};
    struct bytes some = {whole.at, len};
    if (start > whole.len || len > whole.len - start)
        return none;
    if (len > 0)
        some.at = whole.at + start;
    return some;
}

int same(struct bytes a, struct bytes b) {
    return a.len == b.len && (a.len == 0 || memcmp(a.at, b.at, (size_t)a.len) == 0);
}

int starts_with(struct bytes a, const char *text) {
    size_t len = strlen(text);
    return a.len >= len && memcmp(a.at, text, len) == 0;
}

int same_text(struct bytes a, const char *text) {
    return a.len == strlen(text) && starts_with(a, text);
}

static void put_shown(FILE *to, uint8_t b) {
    switch (b) {
    case '\n': fputs("\\n", to); return;
    case '\t': fputs("\\t", to); return;
    case '\r': fputs("\\r", to); return;
    case '"': fputs("\\\"", to); return;
    case '\\': fputs("\\\\", to); return;
    default: break;
    }
    if (b >= 0x20 && b <= 0x7e)
        putc(b, to);
    else
        fprintf(to, "\\x%02x", (unsigned)b);
}

void put_quoted(FILE *to, struct bytes s) {
    putc('"', to);
    for (uint64_t i = 0; i < s.len; i++)
        put_shown(to, s.at[i]);
    putc('"', to);
}

int read_number(const char *text, uint64_t *number) {
    uint64_t n = 0;
    if (*text == '\0')
        return 0;
    for (; *text != '\0'; text++) {
        uint64_t digit = (uint64_t)(unsigned char)*text - '0';
        if (*text < '0' || *text > '9' || n > (UINT64_MAX - digit) / 10)
            return 0;
        n = 10 * n + digit;
    }
    *number = n;
    return 1;
}

void stop(const char *sentence) {
    fflush(stdout);
    fprintf(stderr, "larsavim: %s\n", sentence);
    exit(TROUBLE);
}
