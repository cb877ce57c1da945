/* spoil.c: a load that leaves something wrong behind, for testing that `larsavim dump` notices it. Linked with --wrap=larsavim_load, it calls the library's
 * own and then changes one number: SPOIL 1 to 5 the last of that table, 6 the last of the work, 7 the first of the work, 0 nothing. */
#include <stdlib.h>

#include "larsavim.h"

/* The names that the linker gives: the library's call, and what stands in its place. */
uint64_t __real_larsavim_load(const uint8_t *file, uint64_t file_len, const uint64_t *words, uint64_t words_len, uint64_t which, uint64_t *questions, uint64_t questions_len,
                              uint64_t *patterns, uint64_t patterns_len, uint64_t *trees, uint64_t trees_len, uint64_t *records, uint64_t records_len,
                              uint64_t *values, uint64_t values_len, int64_t *work, uint64_t work_len, uint64_t *out, uint64_t out_len);
uint64_t __wrap_larsavim_load(const uint8_t *file, uint64_t file_len, const uint64_t *words, uint64_t words_len, uint64_t which, uint64_t *questions, uint64_t questions_len,
                              uint64_t *patterns, uint64_t patterns_len, uint64_t *trees, uint64_t trees_len, uint64_t *records, uint64_t records_len,
                              uint64_t *values, uint64_t values_len, int64_t *work, uint64_t work_len, uint64_t *out, uint64_t out_len);

uint64_t __wrap_larsavim_load(const uint8_t *file, uint64_t file_len, const uint64_t *words, uint64_t words_len, uint64_t which, uint64_t *questions, uint64_t questions_len,
                              uint64_t *patterns, uint64_t patterns_len, uint64_t *trees, uint64_t trees_len, uint64_t *records, uint64_t records_len,
                              uint64_t *values, uint64_t values_len, int64_t *work, uint64_t work_len, uint64_t *out, uint64_t out_len) {
    uint64_t *const table[] = {questions, patterns, trees, records, values};
    const uint64_t len[] = {questions_len, patterns_len, trees_len, records_len, values_len};
    const char *word = getenv("SPOIL");
    int spoil = word == NULL ? 0 : atoi(word);
    uint64_t number = __real_larsavim_load(file, file_len, words, words_len, which, questions, questions_len, patterns, patterns_len, trees, trees_len, records, records_len,
                                           values, values_len, work, work_len, out, out_len);
    if (spoil >= 1 && spoil <= 5)
        table[spoil - 1][len[spoil - 1] - 1] ^= 1;
    if (spoil == 6)
        work[work_len - 1] ^= 1;
    if (spoil == 7)
        work[0] ^= 1;
    return number;
}
