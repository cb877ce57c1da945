/* trails.c: the stored cases of trailers (judge/readings/trailing.py), each a line on standard input: a file as hex, the bytes of the buffer, number, place and bytes of what writing answers,
 * the trailer as hex (- for none), then number, place, rows and begin of what reading answers. Both calls must answer so; the buffer behind the trailer, and all of it when
 * refused, must stay; what is lent for reading must stay; the words must be as larsavim_open leaves them; short answers and words are 20. Every slice is lent by host/lend.c,
 * so that LARSAVIM_GUARD puts guards beside it. Prints what differs, and how many checks passed and failed. */
#include "cases.h"

enum { MOST = 4096 };

struct stored {
    struct bytes file, trailer;
    uint64_t room, wrote[LARSAVIM_TRAILER_OUT], found[LARSAVIM_TRAILED_OUT];
};

static void read_case(char *line, struct stored *s) {
    s->file = read_hex(strtok(line, " \n"));
    s->room = next_number();
    for (int i = 0; i < LARSAVIM_TRAILER_OUT; i++)
        s->wrote[i] = next_number();
    s->trailer = read_hex(strtok(NULL, " \n"));
    for (int i = 0; i < LARSAVIM_TRAILED_OUT; i++)
        s->found[i] = next_number();
}

/* The words that an opening leaves, where OLD stood. */
static uint64_t *opened_words(struct bytes file) {
    uint64_t *words = lend(8 * LARSAVIM_WORDS), *out = lend(8 * LARSAVIM_OPEN_OUT);
    memset(words, OLD, 8 * LARSAVIM_WORDS);
    larsavim_open(file.at, file.len, words, LARSAVIM_WORDS, out, LARSAVIM_OPEN_OUT);
    give_back(out, 8 * LARSAVIM_OPEN_OUT);
    return words;
}

static int all_old(const uint8_t *at, uint64_t from, uint64_t len) {
    for (uint64_t i = from; i < len; i++)
        if (at[i] != OLD)
            return 0;
    return 1;
}

static void write_case(const struct stored *s, const uint64_t *opened) {
    uint64_t room = s->room < MOST ? s->room : MOST, *words = lend(8 * LARSAVIM_WORDS), *out = lend(8 * LARSAVIM_TRAILER_OUT);
    uint8_t *buffer = lend(room);
    struct bytes file = lend_copy(s->file);
    if (s->wrote[LARSAVIM_TRAILER_BYTES] > MOST)
        stop("a stored trailer is longer than the buffer");
    memset(words, OLD, 8 * LARSAVIM_WORDS);
    if (room > 0)
        memset(buffer, OLD, (size_t)room);
    memset(out, OLD, 8 * LARSAVIM_TRAILER_OUT);
    expect(larsavim_trailer(file.at, file.len, words, LARSAVIM_WORDS, buffer, room, out, LARSAVIM_TRAILER_OUT - 1) == LARSAVIM_ROOM && all_old((uint8_t *)out, 0, 8 * LARSAVIM_TRAILER_OUT) &&
               all_old((uint8_t *)words, 0, 8 * LARSAVIM_WORDS) && all_old(buffer, 0, room),
           "writing, a short out");
    expect(larsavim_trailer(file.at, file.len, words, LARSAVIM_WORDS, buffer, room, out, LARSAVIM_TRAILER_OUT) == s->wrote[0], "writing, what is returned");
    expect(memcmp(out, s->wrote, sizeof s->wrote) == 0, "writing, number, place, bytes");
    expect(memcmp(words, opened, 8 * LARSAVIM_WORDS) == 0, "writing, the words");
    expect((s->trailer.len == 0 || memcmp(buffer, s->trailer.at, (size_t)s->trailer.len) == 0) && all_old(buffer, s->trailer.len, room), "writing, the buffer");
    expect(memcmp(file.at, s->file.at, (size_t)file.len) == 0, "writing, the file stays");
    give_back(file.at, file.len);
    give_back(buffer, room);
    give_back(out, 8 * LARSAVIM_TRAILER_OUT);
    give_back(words, 8 * LARSAVIM_WORDS);
}

static void read_trailer(const struct stored *s, const uint64_t *opened) {
    uint64_t *words = lend(8 * LARSAVIM_WORDS), *out = lend(8 * LARSAVIM_TRAILED_OUT);
    struct bytes file = lend_copy(s->file);
    memset(words, OLD, 8 * LARSAVIM_WORDS);
    memset(out, OLD, 8 * LARSAVIM_TRAILED_OUT);
    expect(larsavim_trailed(file.at, file.len, words, LARSAVIM_WORDS, out, LARSAVIM_TRAILED_OUT - 1) == LARSAVIM_ROOM && all_old((uint8_t *)out, 0, 8 * LARSAVIM_TRAILED_OUT) &&
               all_old((uint8_t *)words, 0, 8 * LARSAVIM_WORDS),
           "reading, a short out");
    expect(larsavim_trailed(file.at, file.len, words, LARSAVIM_WORDS, out, LARSAVIM_TRAILED_OUT) == s->found[0], "reading, what is returned");
    expect(memcmp(out, s->found, sizeof s->found) == 0, "reading, number, place, rows, begin");
    expect(memcmp(words, opened, 8 * LARSAVIM_WORDS) == 0, "reading, the words");
    expect(memcmp(file.at, s->file.at, (size_t)file.len) == 0, "reading, the file stays");
    give_back(file.at, file.len);
    give_back(out, 8 * LARSAVIM_TRAILED_OUT);
    give_back(words, 8 * LARSAVIM_WORDS);
}

/* Words one too few: 20 for a file that opens, else what opening says; the words stay. */
static void few_words(const struct stored *s) {
    uint64_t few = 8 * (LARSAVIM_WORDS - 1), *words = lend(few), *out = lend(8 * LARSAVIM_TRAILED_OUT), *open_out = lend(8 * LARSAVIM_OPEN_OUT);
    struct bytes file = lend_copy(s->file);
    memset(words, OLD, (size_t)few);
    larsavim_open(file.at, file.len, words, LARSAVIM_WORDS - 1, open_out, LARSAVIM_OPEN_OUT);
    larsavim_trailed(file.at, file.len, words, LARSAVIM_WORDS - 1, out, LARSAVIM_TRAILED_OUT);
    expect(out[0] == open_out[0] && out[1] == open_out[1] && out[2] == 0 && out[3] == 0 && all_old((uint8_t *)words, 0, few), "reading, few words");
    larsavim_trailer(file.at, file.len, words, LARSAVIM_WORDS - 1, NULL, 0, out, LARSAVIM_TRAILER_OUT);
    expect(out[0] == open_out[0] && out[1] == open_out[1] && out[2] == 0 && all_old((uint8_t *)words, 0, few), "writing, few words");
    give_back(file.at, file.len);
    give_back(open_out, 8 * LARSAVIM_OPEN_OUT);
    give_back(out, 8 * LARSAVIM_TRAILED_OUT);
    give_back(words, few);
}

int main(void) {
    char *line;
    while ((line = next_case()) != NULL) {
        struct stored s;
        uint64_t *opened;
        read_case(line, &s);
        opened = opened_words(s.file);
        write_case(&s, opened);
        read_trailer(&s, opened);
        few_words(&s);
        give_back(opened, 8 * LARSAVIM_WORDS);
        give_back(s.trailer.at, s.trailer.len);
        give_back(s.file.at, s.file.len);
    }
    return told();
}
