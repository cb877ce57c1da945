/* answers.c: how long the answers of all questions to a label take:  answers FILE ROUNDS     every model of a voice, some ordinary labels; beside fnmatch of the C library over the same patterns.
 * answers worst ROUNDS     one pattern and one label, made to be slow. Times are of the processor, in nanoseconds, the best of all rounds. bench/answers reads what is printed. */
#include <fnmatch.h>
#include <stdint.h>
#include <stdio.h>
#include <stdlib.h>
#include <string.h>
#include <time.h>

#include "larsavim_model.h"

static const char *const labels[] = {
    "x^x-pau+dh=ax@x_x/A:0_0_0/B:x-x-x@x-x&x-x#x-x$x-x!x-x;x-x|x/C:0+0+2/D:0_0/E:x+x@x+x&x+x#x+x/F:det_1/G:0_0/H:x=x@1=2|0/I:6=5/J:17+14-2",
    "x^pau-dh+ax=m@1_2/A:0_0_0/B:0-0-2@1-1&1-6#1-4$1-3!0-1;0-1|ax/C:1+1+3/D:0_0/E:det+1@1+5&1+2#0+1/F:content_2/G:0_0/H:6=5@1=2|L-L%/I:11=9/J:17+14-2",
    "ih^s-t+eh=r@3_3/A:1_1_3/B:0-0-3@2-1&4-8#2-5$1-4!1-1;1-2|eh/C:1+0+4/D:content_2/E:content+1@3+6&2+4#1+2/F:in_1/G:11_9/H:11=9@2=2|L-H%/I:0=0/J:17+14-2",
    "n^iy-pau+x=x@x_x/A:1_0_2/B:x-x-x@x-x&x-x#x-x$x-x!x-x;x-x|x/C:0+0+0/D:content_1/E:x+x@x+x&x+x#x+x/F:0_0/G:11_9/H:x=x@2=2|0/I:0=0/J:17+14-2",
};
enum { LABELS = sizeof labels / sizeof labels[0], MODELS = 2 * LARSAVIM_STREAM_LIMIT + 1, MOST_WORST = 4096 };

struct model {
    struct larsavim_model at;
    uint64_t question_count, pattern_count;
    char **texts; /* each pattern, ended by a byte of 0 for fnmatch */
    uint8_t *ours, *theirs;
};

static uint8_t *file;
static uint64_t file_len, words[LARSAVIM_WORDS];
static struct model model[MODELS];
static int models;

static uint64_t now(void) {
    struct timespec t;
    clock_gettime(CLOCK_THREAD_CPUTIME_ID, &t);
    return (uint64_t)t.tv_sec * 1000000000 + (uint64_t)t.tv_nsec;
}

static void least(uint64_t *best, uint64_t n) {
    if (n < *best)
        *best = n;
}

static void *room(uint64_t bytes) {
    void *at = calloc(1, (size_t)bytes + 8);
    if (at == NULL)
        exit(2);
    return at;
}

static void load(uint64_t which) {
    struct model *m = &model[models];
    m->at.which = which;
    if (larsavim_model_needs(&m->at, file, file_len, words) != LARSAVIM_SUCCESS)
        return;
    for (int t = 0; t < LARSAVIM_TABLES; t++) {
        m->at.lent[t] = larsavim_model_wants(&m->at, t);
        m->at.table[t] = room(8 * m->at.lent[t]);
    }
    m->at.work_lent = m->at.needs[LARSAVIM_NEEDS_WORK];
    m->at.work = room(8 * m->at.work_lent);
    if (larsavim_model_load(&m->at, file, file_len, words) != LARSAVIM_SUCCESS)
        exit(2);
    m->question_count = larsavim_model_rows(&m->at, LARSAVIM_QUESTIONS);
    m->pattern_count = larsavim_model_rows(&m->at, LARSAVIM_PATTERNS);
    m->ours = room(m->question_count);
    m->theirs = room(m->question_count);
    m->texts = room(sizeof *m->texts * m->pattern_count);
    for (uint64_t p = 0; p < m->pattern_count; p++) {
        const uint64_t *row = larsavim_model_row(&m->at, LARSAVIM_PATTERNS, p);
        m->texts[p] = room(row[LARSAVIM_PATTERN_LEN] + 1);
        memcpy(m->texts[p], file + words[LARSAVIM_DATA_START] + row[LARSAVIM_PATTERN_START], row[LARSAVIM_PATTERN_LEN]);
    }
    models++;
}

static void ours(const struct model *m, const char *label) {
    if (larsavim_model_answers(&m->at, (const uint8_t *)label, strlen(label), file + words[LARSAVIM_DATA_START], words[LARSAVIM_DATA_LEN], m->ours, m->question_count) != LARSAVIM_SUCCESS)
        exit(2);
}

static void theirs(const struct model *m, const char *label) {
    for (uint64_t q = 0; q < m->question_count; q++) {
        const uint64_t *row = larsavim_model_row(&m->at, LARSAVIM_QUESTIONS, q);
        uint64_t first = row[LARSAVIM_QUESTION_FIRST], count = row[LARSAVIM_QUESTION_PATTERNS], k = 0;
        while (k < count && fnmatch(m->texts[first + k], label, 0) != 0)
            k++;
        m->theirs[q] = k < count;
    }
}

static void all_labels(int rounds) {
    uint64_t best[2] = {UINT64_MAX, UINT64_MAX}, answers = 0, patterns = 0, differ = 0, yes = 0;
    for (int k = 0; k < models; k++) {
        answers += LABELS * model[k].question_count;
        patterns += LABELS * model[k].pattern_count;
    }
    for (int i = 0; i < rounds; i++) {
        uint64_t time[2] = {0, 0};
        differ = yes = 0;
        for (int k = 0; k < models; k++)
            for (int l = 0; l < LABELS; l++) {
                uint64_t start = now(), middle;
                ours(&model[k], labels[l]);
                middle = now();
                theirs(&model[k], labels[l]);
                time[0] += middle - start;
                time[1] += now() - middle;
                for (uint64_t q = 0; q < model[k].question_count; q++) {
                    differ += model[k].ours[q] != model[k].theirs[q];
                    yes += model[k].ours[q];
                }
            }
        least(&best[0], time[0]);
        least(&best[1], time[1]);
    }
    printf("answers %llu %llu %llu %llu %llu %llu\n", (unsigned long long)answers, (unsigned long long)patterns, (unsigned long long)yes, (unsigned long long)best[0], (unsigned long long)best[1],
           (unsigned long long)differ);
}

/* One pattern of n bytes against a label of n bytes a, each kind made to be slow. */
static void worst(int rounds) {
    static char pattern[MOST_WORST + 1], label[MOST_WORST + 1];
    for (uint64_t n = 64; n <= MOST_WORST; n *= 8)
        for (int kind = 0; kind < 3; kind++) {
            const uint64_t question[4] = {0, 0, 0, 1}, row[2] = {0, n};
            uint64_t best[2] = {UINT64_MAX, UINT64_MAX};
            uint8_t answer;
            memset(label, 'a', n);
            label[n] = pattern[n] = '\0';
            memset(pattern, 'a', n);
            if (kind == 0) { /* *aa..ab**..*: the part between stars is looked for at every place, and fails at its last byte */
                pattern[0] = '*';
                memset(pattern + n / 2, '*', n - n / 2);
                pattern[n / 2 - 1] = 'b';
            } else if (kind == 1) { /* *a*a..*b: a star for every other byte */
                for (uint64_t i = 0; i < n; i += 2)
                    pattern[i] = '*';
                pattern[n - 1] = 'b';
            } else { /* stars alone, and one byte that isn't there */
                memset(pattern, '*', n);
                pattern[n / 2] = 'b';
            }
            for (int i = 0; i < rounds; i++) {
                uint64_t start = now(), middle;
                larsavim_answers((const uint8_t *)label, n, question, 4, row, 2, (const uint8_t *)pattern, n, &answer, 1);
                middle = now();
                least(&best[0], middle - start);
                fnmatch(pattern, label, 0);
                least(&best[1], now() - middle);
            }
            printf("worst%d-%llu %llu %llu\n", kind, (unsigned long long)n, (unsigned long long)best[0], (unsigned long long)best[1]);
        }
}

int main(int argc, char **argv) {
    uint64_t out[LARSAVIM_OPEN_OUT];
    FILE *f;
    if (argc != 3)
        return 2;
    if (strcmp(argv[1], "worst") == 0) {
        worst(atoi(argv[2]));
        return 0;
    }
    f = fopen(argv[1], "rb");
    if (f == NULL)
        return 2;
    file = room(LARSAVIM_FILE_LIMIT);
    file_len = fread(file, 1, LARSAVIM_FILE_LIMIT, f);
    fclose(f);
    if (larsavim_open(file, file_len, words, LARSAVIM_WORDS, out, LARSAVIM_OPEN_OUT) != LARSAVIM_SUCCESS)
        return 1;
    for (uint64_t which = 0; which <= 2 * words[LARSAVIM_STREAM_TYPE_COUNT]; which++)
        load(which);
    all_labels(atoi(argv[2]));
    return 0;
}
