/* answers.c: larsavim_answers against a matcher of another kind, which keeps the set of places up to which a pattern can reach: the worked cases of docs/READINGS.md, every short
 * pattern with every short label, and random rows, patterns and labels, many of them outside their tables. Slices stand between guards where LARSAVIM_GUARD says so (host/lend.c).
 * Prints what differs, and how many checks passed and failed. */
#include <stdio.h>
#include <string.h>

#include "../host.h"

enum { MOST = 400, ROUNDS = 30000, SHORT_PATTERN = 5, SHORT_LABEL = 5 };

static unsigned passed, failed;

static void expect(int holds, const char *name) {
    if (holds) {
        passed++;
        return;
    }
    failed++;
    if (failed < 20)
        printf("answers: %s\n", name);
}

/* ---- what is right ------------------------------------------------------------------------------------------------------------- */

/* Whether the whole label is what the pattern's bytes stand for, one after the other. reached[i]: the pattern so far can stand for the label's first i bytes. */
static int matches(const uint8_t *p, uint64_t m, const uint8_t *l, uint64_t n) {
    static uint8_t reached[MOST + 1];
    memset(reached, 0, n + 1);
    reached[0] = 1;
    for (uint64_t k = 0; k < m; k++) {
        if (p[k] == '*') {
            for (uint64_t i = 1; i <= n; i++)
                reached[i] |= reached[i - 1];
        } else {
            for (uint64_t i = n; i > 0; i--)
                reached[i] = reached[i - 1] && (p[k] == '?' || p[k] == l[i - 1]);
            reached[0] = 0;
        }
    }
    return reached[n];
}

struct call {
    const uint8_t *label, *data;
    const uint64_t *questions, *patterns;
    uint64_t label_len, questions_len, patterns_len, data_len, answers_len;
};

/* All patterns of a row stand in their table and the data; exact sums, by what is left. */
static int row_fits(const struct call *c, uint64_t q) {
    uint64_t first = c->questions[4 * q + 2], count = c->questions[4 * q + 3], rows = c->patterns_len / 2;
    if (count > 0 && (first >= rows || count > rows - first))
        return 0;
    for (uint64_t k = 0; k < count; k++) {
        uint64_t start = c->patterns[2 * (first + k)], len = c->patterns[2 * (first + k) + 1];
        if (len > 0 && (start >= c->data_len || len > c->data_len - start))
            return 0;
    }
    return 1;
}

static uint64_t right(const struct call *c, uint8_t *answers) {
    uint64_t rows = c->questions_len / 4;
    for (uint64_t q = 0; q < rows; q++)
        if (!row_fits(c, q))
            return 24;
    if (c->answers_len < rows)
        return 20;
    for (uint64_t q = 0; q < rows; q++) {
        answers[q] = 0;
        for (uint64_t k = 0; k < c->questions[4 * q + 3]; k++) {
            const uint64_t *row = c->patterns + 2 * (c->questions[4 * q + 2] + k);
            if (matches(row[1] == 0 ? c->data : c->data + row[0], row[1], c->label, c->label_len))
                answers[q] = 1;
        }
    }
    return 0;
}

/* The call over lent copies of exactly these lengths, and what is right. */
static void compare(const struct call *c, const uint8_t *before, const char *name) {
    uint8_t want[MOST];
    struct bytes label = {c->label, c->label_len}, data = {c->data, c->data_len}, answers = {before, c->answers_len};
    struct bytes questions = {(const uint8_t *)c->questions, 8 * c->questions_len}, patterns = {(const uint8_t *)c->patterns, 8 * c->patterns_len};
    union {
        const uint8_t *lent;
        uint8_t *own;
        const uint64_t *numbers;
    } a, q, p;
    uint64_t number;
    memcpy(want, before, (size_t)c->answers_len);
    label = lend_copy(label);
    data = lend_copy(data);
    a.lent = lend_copy(answers).at;
    q.lent = lend_copy(questions).at;
    p.lent = lend_copy(patterns).at;
    number = larsavim_answers(label.at, label.len, q.numbers, c->questions_len, p.numbers, c->patterns_len, data.at, data.len, a.own, c->answers_len);
    expect(number == right(c, want) && memcmp(a.own, want, (size_t)c->answers_len) == 0, name);
    give_back(label.at, label.len);
    give_back(data.at, data.len);
    give_back(a.own, c->answers_len);
    give_back(q.lent, 8 * c->questions_len);
    give_back(p.lent, 8 * c->patterns_len);
}

/* ---- worked cases --------------------------------------------------------------------------------------------------------------- */

static const uint8_t *bytes_of(const char *text) {
    return (const uint8_t *)text;
}

static void one_pattern(const char *pattern, const char *label, int yes) {
    const uint64_t question[4] = {0, 0, 0, 1}, row[2] = {0, strlen(pattern)};
    uint8_t answer = 7;
    uint64_t number = larsavim_answers(bytes_of(label), strlen(label), question, 4, row, 2, bytes_of(pattern), strlen(pattern), &answer, 1);
    expect(number == 0 && answer == yes, pattern);
    expect(matches(bytes_of(pattern), strlen(pattern), bytes_of(label), strlen(label)) == yes, "the other matcher");
}

static void worked_patterns(void) {
    static const struct {
        const char *pattern, *label;
        int yes;
    } cases[] = {{"", "", 1}, {"", "a", 0}, {"*", "", 1}, {"**", "", 1}, {"?", "", 0}, {"?", "\xe3\x81\x82", 0}, {"???", "\xe3\x81\x82", 1}, {"-i+", "x-i+", 0}, {"*-i+*", "-i+", 1},
                 {"A", "a", 0}, {"*ab", "abab", 1}, {"*ab*b", "ab", 0}, {"*aab", "aaab", 1}, {"a*a", "a", 0}, {"*a*a*", "a", 0}, {"*?*", "", 0}, {"*?*", "x", 1}, {"?*?", "x", 0},
                 {"a*b?c", "a*b?c", 1}, {"\"a\"", "a", 0}, {"-i+", "-i+x", 0}};
    for (size_t i = 0; i < sizeof cases / sizeof cases[0]; i++)
        one_pattern(cases[i].pattern, cases[i].label, cases[i].yes);
}

static void worked_call(const char *label, const uint64_t *questions, uint64_t questions_len, const uint64_t *patterns, uint64_t patterns_len, uint64_t room, uint64_t number, const char *after) {
    static const char data[] = "a**?b";
    uint8_t answers[3] = {7, 7, 8};
    uint64_t said = larsavim_answers(bytes_of(label), strlen(label), questions, questions_len, patterns, patterns_len, bytes_of(data), 5, answers, room);
    expect(said == number, "a worked call: its number");
    for (int i = 0; i < 3; i++)
        expect(answers[i] == after[i] - '0', "a worked call: its bytes");
}

static void worked_calls(void) {
    const uint64_t none = 0, far = UINT64_MAX, first[2] = {0, 1}, nowhere[2] = {UINT64_MAX, 0}, past[2] = {4, 2}, two[4] = {0, 1, 5, 1}, both[4] = {0, 1, 1, 1};
    const uint64_t empty[4] = {0, 0, 9, 0}, one[4] = {0, 0, 0, 1}, named[4] = {far, far, 0, 1}, many[4] = {0, 0, 0, 2}, outside[4] = {0, 0, far, 1};
    const uint64_t rows[8] = {0, 0, 0, 1, 0, 0, 1, 1}, rest[10] = {0, 0, 0, 1, 0, 0, 0, 2, 9, 9};
    worked_call("a", &none, 0, &none, 0, 1, 0, "778");
    worked_call("a", empty, 4, &none, 0, 2, 0, "078");
    worked_call("", one, 4, nowhere, 2, 1, 0, "178");
    worked_call("a", named, 4, first, 2, 2, 0, "178");
    worked_call("a", many, 4, first, 2, 1, 24, "778");
    worked_call("a", outside, 4, first, 2, 1, 24, "778");
    worked_call("a", one, 4, past, 2, 0, 24, "778");
    worked_call("a", one, 4, first, 2, 0, 20, "778");
    worked_call("a", rows, 8, two, 4, 2, 24, "778");
    worked_call("ab", rest, 10, both, 4, 3, 0, "018");
}

/* ---- all short ones ---------------------------------------------------------------------------------------------------------------- */

/* The i-th word of letters; its length, or no more words of at most `most`. */
static uint64_t word(uint64_t i, const char *letters, uint8_t *to) {
    uint64_t n = 0, k = strlen(letters);
    for (; i > 0; i = (i - 1) / k)
        to[n++] = (uint8_t)letters[(i - 1) % k];
    return n;
}

static uint64_t words(uint64_t k, uint64_t most) {
    uint64_t all = 1, power = 1;
    for (uint64_t n = 0; n < most; n++)
        all += power *= k;
    return all;
}

/* Every pattern is a question of its own, so that one call answers all of them. */
static void all_short(void) {
    static uint64_t questions[4 * 1500], patterns[2 * 1500];
    static uint8_t data[1500 * SHORT_PATTERN], answers[1500];
    uint64_t count = words(4, SHORT_PATTERN), labels = words(3, SHORT_LABEL), end = 0;
    for (uint64_t i = 0; i < count; i++) {
        patterns[2 * i] = end;
        patterns[2 * i + 1] = word(i, "ab*?", data + end);
        end += patterns[2 * i + 1];
        questions[4 * i + 2] = i;
        questions[4 * i + 3] = 1;
    }
    for (uint64_t j = 0; j < labels; j++) {
        uint8_t label[SHORT_LABEL];
        uint64_t len = word(j, "ab*", label);
        expect(larsavim_answers(label, len, questions, 4 * count, patterns, 2 * count, data, end, answers, count) == 0, "short patterns: the number");
        for (uint64_t i = 0; i < count; i++)
            expect(answers[i] == matches(data + patterns[2 * i], patterns[2 * i + 1], label, len), "a short pattern");
    }
}

/* ---- random ones -------------------------------------------------------------------------------------------------------------------- */

static uint64_t drawn(uint64_t below) {
    static uint64_t state = 2;
    state = state * UINT64_C(6364136223846793005) + UINT64_C(1442695040888963407);
    return (state >> 33) % below;
}

static uint64_t often_small(uint64_t below) {
    return drawn(60) == 0 ? UINT64_MAX - drawn(3) : drawn(below);
}

static uint8_t byte_of(const char *letters, uint64_t k) {
    return drawn(50) == 0 ? (uint8_t)drawn(256) : (uint8_t)letters[drawn(k)];
}

static void random_calls(void) {
    static uint64_t questions[4 * 12 + 3], patterns[2 * 12 + 1];
    static uint8_t label[300], data[300], before[20];
    for (int round = 0; round < ROUNDS; round++) {
        struct call c = {label, data, questions, patterns, drawn(4) == 0 ? drawn(300) : drawn(12), drawn(4 * 12 + 4), drawn(2 * 12 + 2), drawn(3) == 0 ? drawn(300) : drawn(60), drawn(16)};
        for (uint64_t i = 0; i < sizeof label; i++)
            label[i] = byte_of("aab", 3);
        for (uint64_t i = 0; i < sizeof data; i++)
            data[i] = byte_of("aaabb*?", 7);
        for (uint64_t i = 0; i < sizeof before; i++)
            before[i] = (uint8_t)drawn(256);
        for (uint64_t i = 0; i < sizeof questions / 8; i++)
            questions[i] = i % 4 < 2 ? often_small(9) : drawn(8) == 0 ? often_small(13) : drawn(3);
        for (uint64_t i = 0; i < sizeof patterns / 8; i++)
            patterns[i] = i % 2 == 0 ? often_small(20) : drawn(8) == 0 ? often_small(60) : drawn(12);
        compare(&c, before, "a random call");
    }
}

/* Patterns made of a label, so that many of them match, and some of these labels changed in one byte. */
static void made_of_labels(void) {
    static uint8_t label[300], pattern[MOST];
    static const uint64_t question[4] = {0, 0, 0, 1};
    unsigned yes = 0;
    for (int round = 0; round < ROUNDS; round++) {
        uint64_t len = drawn(sizeof label + 1), end = 0, at = 0, row[2] = {0, 0};
        uint8_t answer = 7;
        for (uint64_t i = 0; i < len; i++)
            label[i] = byte_of("aab", 3);
        while (at < len && end < MOST) {
            uint64_t how = drawn(12);
            pattern[end++] = how == 0 ? '*' : how == 1 ? '?' : label[at];
            at += how == 0 ? drawn(9) : 1;
        }
        if (at < len && end < MOST)
            pattern[end++] = '*';
        if (len > 0 && drawn(2) == 0)
            label[drawn(len)] ^= 1;
        row[1] = end;
        expect(larsavim_answers(label, len, question, 4, row, 2, pattern, end, &answer, 1) == 0 && answer == matches(pattern, end, label, len), "a pattern made of a label");
        yes += answer;
    }
    expect(yes > ROUNDS / 4 && yes < ROUNDS - ROUNDS / 8, "many of the patterns made of labels match, and many don't");
}

int main(void) {
    worked_patterns();
    worked_calls();
    all_short();
    random_calls();
    made_of_labels();
    printf("%u passed, %u failed\n", passed, failed);
    return failed != 0;
}
