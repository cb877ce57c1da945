/* bare.c: the stored cases of walks straight over a tree text (judge/readings/metering.py), each a line on standard input: the text as hex, the tree, the answers as hex, the limit,
 * then the six numbers of the answer. The call must answer so; what is lent for reading must stay; a short `out` is 20 and stays.
 * Every slice is lent by host/lend.c, so that LARSAVIM_GUARD puts guards beside it. Prints what differs, and how many checks passed and failed. */
#include "cases.h"

static int stays(struct bytes now, struct bytes before) {
    return now.len == 0 || memcmp(now.at, before.at, (size_t)now.len) == 0;
}

static void one_case(char *line) {
    struct bytes text = read_hex(strtok(line, " \n")), text_before, answers, answers_before;
    uint64_t tree = next_number(), limit, want[LARSAVIM_BARE_OUT], *out = lend(8 * LARSAVIM_BARE_OUT), *few = lend(8 * (LARSAVIM_BARE_OUT - 1));
    int untouched = 1;
    answers = read_hex(strtok(NULL, " \n"));
    limit = next_number();
    for (int i = 0; i < LARSAVIM_BARE_OUT; i++)
        want[i] = next_number();
    text_before = lend_copy(text);
    answers_before = lend_copy(answers);
    memset(out, OLD, 8 * LARSAVIM_BARE_OUT);
    memset(few, OLD, 8 * (LARSAVIM_BARE_OUT - 1));
    expect(larsavim_bare_walk(text.at, text.len, tree, answers.at, answers.len, limit, out, LARSAVIM_BARE_OUT) == want[0], "what is returned");
    expect(memcmp(out, want, sizeof want) == 0, "the six numbers");
    expect(larsavim_bare_walk(text.at, text.len, tree, answers.at, answers.len, limit, few, LARSAVIM_BARE_OUT - 1) == LARSAVIM_ROOM, "a short answer is 20");
    for (int i = 0; i < 8 * (LARSAVIM_BARE_OUT - 1); i++)
        untouched = untouched && ((uint8_t *)few)[i] == OLD;
    expect(untouched, "a short answer stays");
    expect(stays(text, text_before) && stays(answers, answers_before), "the text and the answers stay");
    give_back(answers_before.at, answers_before.len);
    give_back(text_before.at, text_before.len);
    give_back(few, 8 * (LARSAVIM_BARE_OUT - 1));
    give_back(out, 8 * LARSAVIM_BARE_OUT);
    give_back(answers.at, answers.len);
    give_back(text.at, text.len);
}

int main(void) {
    char *line;
    while ((line = next_case()) != NULL) {
        one_case(line);
    }
    return told();
}
