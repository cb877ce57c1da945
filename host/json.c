/* json.c: strings for machines: one JSON object a line, UTF-8 as it stands, and U+FFFD for a byte that is none. */
#include "host.h"

/* The length of the UTF-8 sequence at the front, or 0 where there is none: RFC 3629's table. */
static uint64_t sequence(struct bytes s) {
    static const struct {
        uint8_t first_low, first_high, second_low, second_high, len;
    } row[] = {{0xc2, 0xdf, 0x80, 0xbf, 2}, {0xe0, 0xe0, 0xa0, 0xbf, 3}, {0xe1, 0xec, 0x80, 0xbf, 3}, {0xed, 0xed, 0x80, 0x9f, 3},
               {0xee, 0xef, 0x80, 0xbf, 3}, {0xf0, 0xf0, 0x90, 0xbf, 4}, {0xf1, 0xf3, 0x80, 0xbf, 4}, {0xf4, 0xf4, 0x80, 0x8f, 4}};
    for (size_t i = 0; i < sizeof row / sizeof row[0]; i++) {
        if (s.at[0] < row[i].first_low || s.at[0] > row[i].first_high || s.len < row[i].len || s.at[1] < row[i].second_low || s.at[1] > row[i].second_high)
            continue;
        for (uint64_t k = 2; k < row[i].len; k++)
            if (s.at[k] < 0x80 || s.at[k] > 0xbf)
                return 0;
        return row[i].len;
    }
    return 0;
}

void put_json(FILE *to, struct bytes s) {
    fputc('"', to);
    for (uint64_t i = 0, n; i < s.len; i += n) {
        uint8_t b = s.at[i];
        n = 1;
        if (b == '"' || b == '\\')
            fprintf(to, "\\%c", b);
        else if (b < 0x20 || b == 0x7f)
            fprintf(to, "\\u%04x", b);
        else if (b < 0x80)
            fputc(b, to);
        else if ((n = sequence(part(s, i, s.len - i))) > 0)
            fwrite(s.at + i, 1, (size_t)n, to);
        else {
            n = 1;
            fputs("\\ufffd", to);
        }
    }
    fputc('"', to);
}
