/* overreach.c: calls that reach past a slice, for testing that the guards of lend.c notice it. Linked with --wrap for each call, it calls the library's own and
 * then reads one byte beside one slice: behind its last, or before its first where the guards are below. OVERREACH names call and slice, such as
 * load.records; SKIP says how many such calls are left alone before. Prints OVERREACHED where the byte could be read. */
#include <stdio.h>
#include <stdlib.h>
#include <string.h>

#include "larsavim.h"

static void touch(const char *name, const void *slice, uint64_t len) {
    static long calls;
    const char *word = getenv("OVERREACH"), *skip = getenv("SKIP"), *guard = getenv("LARSAVIM_GUARD");
    const volatile uint8_t *at = slice;
    int below = guard != NULL && strcmp(guard, "below") == 0;
    if (word == NULL || strcmp(word, name) != 0 || calls++ < (skip == NULL ? 0 : atol(skip)))
        return;
    fprintf(stderr, "OVERREACHED %d\n", below ? *(at - 1) : at[len]);
    exit(0);
}

/* The names that the linker gives: the library's call, and what stands in its place. */
__typeof__(larsavim_open) __real_larsavim_open, __wrap_larsavim_open;
__typeof__(larsavim_comment) __real_larsavim_comment, __wrap_larsavim_comment;
__typeof__(larsavim_get) __real_larsavim_get, __wrap_larsavim_get;
__typeof__(larsavim_pair) __real_larsavim_pair, __wrap_larsavim_pair;
__typeof__(larsavim_needs) __real_larsavim_needs, __wrap_larsavim_needs;
__typeof__(larsavim_load) __real_larsavim_load, __wrap_larsavim_load;
__typeof__(larsavim_load_shared) __real_larsavim_load_shared, __wrap_larsavim_load_shared;
__typeof__(larsavim_load_tree) __real_larsavim_load_tree, __wrap_larsavim_load_tree;
__typeof__(larsavim_house) __real_larsavim_house, __wrap_larsavim_house;
__typeof__(larsavim_unload) __real_larsavim_unload, __wrap_larsavim_unload;
__typeof__(larsavim_walk) __real_larsavim_walk, __wrap_larsavim_walk;
__typeof__(larsavim_walk_jobs) __real_larsavim_walk_jobs, __wrap_larsavim_walk_jobs;
__typeof__(larsavim_leaves) __real_larsavim_leaves, __wrap_larsavim_leaves;
__typeof__(larsavim_answers) __real_larsavim_answers, __wrap_larsavim_answers;
__typeof__(larsavim_depth) __real_larsavim_depth, __wrap_larsavim_depth;
__typeof__(larsavim_accepts) __real_larsavim_accepts, __wrap_larsavim_accepts;
__typeof__(larsavim_trailer) __real_larsavim_trailer, __wrap_larsavim_trailer;
__typeof__(larsavim_trailed) __real_larsavim_trailed, __wrap_larsavim_trailed;
__typeof__(larsavim_bare_walk) __real_larsavim_bare_walk, __wrap_larsavim_bare_walk;
__typeof__(larsavim_write_needs) __real_larsavim_write_needs, __wrap_larsavim_write_needs;
__typeof__(larsavim_write) __real_larsavim_write, __wrap_larsavim_write;

uint64_t __wrap_larsavim_open(const uint8_t *file, uint64_t file_len, uint64_t *words, uint64_t words_len, uint64_t *out, uint64_t out_len) {
    uint64_t number = __real_larsavim_open(file, file_len, words, words_len, out, out_len);
    touch("open.file", file, file_len);
    touch("open.words", words, 8 * words_len);
    touch("open.out", out, 8 * out_len);
    return number;
}

uint64_t __wrap_larsavim_comment(uint64_t file_len, const uint64_t *words, uint64_t words_len, uint64_t fallback_len, uint64_t *out, uint64_t out_len) {
    uint64_t number = __real_larsavim_comment(file_len, words, words_len, fallback_len, out, out_len);
    touch("comment.words", words, 8 * words_len);
    touch("comment.out", out, 8 * out_len);
    return number;
}

uint64_t __wrap_larsavim_get(const uint64_t *words, uint64_t words_len, uint64_t field, uint64_t *out, uint64_t out_len) {
    uint64_t number = __real_larsavim_get(words, words_len, field, out, out_len);
    touch("get.words", words, 8 * words_len);
    touch("get.out", out, 8 * out_len);
    return number;
}

uint64_t __wrap_larsavim_pair(const uint64_t *words, uint64_t words_len, uint64_t field, uint64_t *out, uint64_t out_len) {
    uint64_t number = __real_larsavim_pair(words, words_len, field, out, out_len);
    touch("pair.words", words, 8 * words_len);
    touch("pair.out", out, 8 * out_len);
    return number;
}

uint64_t __wrap_larsavim_needs(const uint8_t *file, uint64_t file_len, const uint64_t *words, uint64_t words_len, uint64_t which, uint64_t *out, uint64_t out_len) {
    uint64_t number = __real_larsavim_needs(file, file_len, words, words_len, which, out, out_len);
    touch("needs.file", file, file_len);
    touch("needs.words", words, 8 * words_len);
    touch("needs.out", out, 8 * out_len);
    return number;
}

uint64_t __wrap_larsavim_load(const uint8_t *file, uint64_t file_len, const uint64_t *words, uint64_t words_len, uint64_t which, uint64_t *questions, uint64_t questions_len,
                              uint64_t *patterns, uint64_t patterns_len, uint64_t *trees, uint64_t trees_len, uint64_t *records, uint64_t records_len,
                              uint64_t *values, uint64_t values_len, int64_t *work, uint64_t work_len, uint64_t *out, uint64_t out_len) {
    uint64_t number = __real_larsavim_load(file, file_len, words, words_len, which, questions, questions_len, patterns, patterns_len, trees, trees_len, records, records_len,
                                           values, values_len, work, work_len, out, out_len);
    touch("load.file", file, file_len);
    touch("load.words", words, 8 * words_len);
    touch("load.questions", questions, 8 * questions_len);
    touch("load.patterns", patterns, 8 * patterns_len);
    touch("load.trees", trees, 8 * trees_len);
    touch("load.records", records, 8 * records_len);
    touch("load.values", values, 8 * values_len);
    touch("load.work", work, 8 * work_len);
    touch("load.out", out, 8 * out_len);
    return number;
}

uint64_t __wrap_larsavim_load_shared(const uint8_t *file, uint64_t file_len, const uint64_t *words, uint64_t words_len, uint64_t which, uint64_t side, uint64_t *held, uint64_t held_len,
                                     const uint64_t *other, uint64_t other_len, uint64_t *questions, uint64_t questions_len, uint64_t *patterns, uint64_t patterns_len, uint64_t *trees,
                                     uint64_t trees_len, uint64_t *records, uint64_t records_len, uint64_t *values, uint64_t values_len, int64_t *work, uint64_t work_len, uint64_t *out,
                                     uint64_t out_len) {
    uint64_t number = __real_larsavim_load_shared(file, file_len, words, words_len, which, side, held, held_len, other, other_len, questions, questions_len, patterns, patterns_len, trees,
                                                  trees_len, records, records_len, values, values_len, work, work_len, out, out_len);
    touch("load_shared.file", file, file_len);
    touch("load_shared.words", words, 8 * words_len);
    touch("load_shared.held", held, 8 * held_len);
    touch("load_shared.other", other, 8 * other_len);
    touch("load_shared.questions", questions, 8 * questions_len);
    touch("load_shared.patterns", patterns, 8 * patterns_len);
    touch("load_shared.trees", trees, 8 * trees_len);
    touch("load_shared.records", records, 8 * records_len);
    touch("load_shared.values", values, 8 * values_len);
    touch("load_shared.work", work, 8 * work_len);
    touch("load_shared.out", out, 8 * out_len);
    return number;
}

uint64_t __wrap_larsavim_load_tree(const uint8_t *file, uint64_t file_len, const uint64_t *words, uint64_t words_len, uint64_t which, uint64_t tree, uint64_t side, uint64_t *held, uint64_t held_len,
                                     const uint64_t *other, uint64_t other_len, uint64_t *questions, uint64_t questions_len, uint64_t *patterns, uint64_t patterns_len, uint64_t *trees,
                                     uint64_t trees_len, uint64_t *records, uint64_t records_len, uint64_t *values, uint64_t values_len, int64_t *work, uint64_t work_len, uint64_t *out,
                                     uint64_t out_len) {
    uint64_t number = __real_larsavim_load_tree(file, file_len, words, words_len, which, tree, side, held, held_len, other, other_len, questions, questions_len, patterns, patterns_len, trees,
                                                  trees_len, records, records_len, values, values_len, work, work_len, out, out_len);
    touch("load_tree.file", file, file_len);
    touch("load_tree.words", words, 8 * words_len);
    touch("load_tree.held", held, 8 * held_len);
    touch("load_tree.other", other, 8 * other_len);
    touch("load_tree.questions", questions, 8 * questions_len);
    touch("load_tree.patterns", patterns, 8 * patterns_len);
    touch("load_tree.trees", trees, 8 * trees_len);
    touch("load_tree.records", records, 8 * records_len);
    touch("load_tree.values", values, 8 * values_len);
    touch("load_tree.work", work, 8 * work_len);
    touch("load_tree.out", out, 8 * out_len);
    return number;
}

uint64_t __wrap_larsavim_house(const uint8_t *file, uint64_t file_len, uint64_t *words, uint64_t words_len, uint64_t side, uint64_t *held, uint64_t held_len, const uint64_t *other,
                               uint64_t other_len, uint64_t *questions, uint64_t questions_len, uint64_t *patterns, uint64_t patterns_len, uint64_t *trees, uint64_t trees_len,
                               uint64_t *records, uint64_t records_len, uint64_t *values, uint64_t values_len, int64_t *work, uint64_t work_len, uint64_t *out, uint64_t out_len) {
    uint64_t number = __real_larsavim_house(file, file_len, words, words_len, side, held, held_len, other, other_len, questions, questions_len, patterns, patterns_len, trees, trees_len,
                                            records, records_len, values, values_len, work, work_len, out, out_len);
    touch("house.file", file, file_len);
    touch("house.words", words, 8 * words_len);
    touch("house.held", held, 8 * held_len);
    touch("house.other", other, 8 * other_len);
    touch("house.questions", questions, 8 * questions_len);
    touch("house.patterns", patterns, 8 * patterns_len);
    touch("house.trees", trees, 8 * trees_len);
    touch("house.records", records, 8 * records_len);
    touch("house.values", values, 8 * values_len);
    touch("house.work", work, 8 * work_len);
    touch("house.out", out, 8 * out_len);
    return number;
}

uint64_t __wrap_larsavim_unload(uint64_t side, uint64_t *held, uint64_t held_len, const uint64_t *other, uint64_t other_len, uint64_t *questions, uint64_t questions_len, uint64_t *patterns,
                                uint64_t patterns_len, uint64_t *trees, uint64_t trees_len, uint64_t *records, uint64_t records_len, uint64_t *values, uint64_t values_len) {
    uint64_t number = __real_larsavim_unload(side, held, held_len, other, other_len, questions, questions_len, patterns, patterns_len, trees, trees_len, records, records_len, values, values_len);
    touch("unload.held", held, 8 * held_len);
    touch("unload.other", other, 8 * other_len);
    touch("unload.questions", questions, 8 * questions_len);
    touch("unload.patterns", patterns, 8 * patterns_len);
    touch("unload.trees", trees, 8 * trees_len);
    touch("unload.records", records, 8 * records_len);
    touch("unload.values", values, 8 * values_len);
    return number;
}

uint64_t __wrap_larsavim_walk(const uint64_t *trees, uint64_t trees_len, const uint64_t *records, uint64_t records_len, uint64_t tree, const uint8_t *answers, uint64_t answers_len,
                              uint64_t limit, uint64_t *out, uint64_t out_len) {
    uint64_t number = __real_larsavim_walk(trees, trees_len, records, records_len, tree, answers, answers_len, limit, out, out_len);
    touch("walk.trees", trees, 8 * trees_len);
    touch("walk.records", records, 8 * records_len);
    touch("walk.answers", answers, answers_len);
    touch("walk.out", out, 8 * out_len);
    return number;
}

void __wrap_larsavim_walk_jobs(const uint64_t *trees, uint64_t trees_len, const uint64_t *records, uint64_t records_len, const uint8_t *answers, uint64_t answers_len,
                               struct larsavim_job *jobs, uint64_t jobs_len) {
    __real_larsavim_walk_jobs(trees, trees_len, records, records_len, answers, answers_len, jobs, jobs_len);
    touch("walk_jobs.trees", trees, 8 * trees_len);
    touch("walk_jobs.records", records, 8 * records_len);
    touch("walk_jobs.answers", answers, answers_len);
    touch("walk_jobs.jobs", jobs, sizeof *jobs * jobs_len);
}

uint64_t __wrap_larsavim_leaves(const uint64_t *questions, uint64_t questions_len, const uint64_t *trees, uint64_t trees_len, const uint64_t *records, uint64_t records_len,
                                const uint64_t *values, uint64_t values_len, uint64_t width) {
    uint64_t yes = __real_larsavim_leaves(questions, questions_len, trees, trees_len, records, records_len, values, values_len, width);
    touch("leaves.questions", questions, 8 * questions_len);
    touch("leaves.trees", trees, 8 * trees_len);
    touch("leaves.records", records, 8 * records_len);
    touch("leaves.values", values, 8 * values_len);
    return yes;
}

uint64_t __wrap_larsavim_answers(const uint8_t *label, uint64_t label_len, const uint64_t *questions, uint64_t questions_len, const uint64_t *patterns, uint64_t patterns_len,
                                 const uint8_t *data, uint64_t data_len, uint8_t *answers, uint64_t answers_len) {
    uint64_t number = __real_larsavim_answers(label, label_len, questions, questions_len, patterns, patterns_len, data, data_len, answers, answers_len);
    touch("answers.label", label, label_len);
    touch("answers.questions", questions, 8 * questions_len);
    touch("answers.patterns", patterns, 8 * patterns_len);
    touch("answers.data", data, data_len);
    touch("answers.answers", answers, answers_len);
    return number;
}

uint64_t __wrap_larsavim_depth(const uint64_t *trees, uint64_t trees_len, const uint64_t *records, uint64_t records_len, uint64_t tree, int64_t *work, uint64_t work_len, uint64_t *out,
                               uint64_t out_len) {
    uint64_t number = __real_larsavim_depth(trees, trees_len, records, records_len, tree, work, work_len, out, out_len);
    touch("depth.trees", trees, 8 * trees_len);
    touch("depth.records", records, 8 * records_len);
    touch("depth.work", work, 8 * work_len);
    touch("depth.out", out, 8 * out_len);
    return number;
}

uint64_t __wrap_larsavim_bare_walk(const uint8_t *text, uint64_t text_len, uint64_t tree, const uint8_t *answers, uint64_t answers_len, uint64_t limit, uint64_t *out, uint64_t out_len) {
    uint64_t number = __real_larsavim_bare_walk(text, text_len, tree, answers, answers_len, limit, out, out_len);
    touch("bare_walk.text", text, text_len);
    touch("bare_walk.answers", answers, answers_len);
    touch("bare_walk.out", out, 8 * out_len);
    return number;
}

uint64_t __wrap_larsavim_accepts(const uint8_t *text, uint64_t text_len, uint64_t tree, const uint64_t *records, uint64_t records_len, uint64_t *out, uint64_t out_len) {
    uint64_t number = __real_larsavim_accepts(text, text_len, tree, records, records_len, out, out_len);
    touch("accepts.text", text, text_len);
    touch("accepts.records", records, 8 * records_len);
    touch("accepts.out", out, 8 * out_len);
    return number;
}

uint64_t __wrap_larsavim_trailer(const uint8_t *file, uint64_t file_len, uint64_t *words, uint64_t words_len, uint8_t *trailer, uint64_t trailer_len, uint64_t *out, uint64_t out_len) {
    uint64_t number = __real_larsavim_trailer(file, file_len, words, words_len, trailer, trailer_len, out, out_len);
    touch("trailer.file", file, file_len);
    touch("trailer.words", words, 8 * words_len);
    touch("trailer.trailer", trailer, trailer_len);
    touch("trailer.out", out, 8 * out_len);
    return number;
}

uint64_t __wrap_larsavim_trailed(const uint8_t *file, uint64_t file_len, uint64_t *words, uint64_t words_len, uint64_t *out, uint64_t out_len) {
    uint64_t number = __real_larsavim_trailed(file, file_len, words, words_len, out, out_len);
    touch("trailed.file", file, file_len);
    touch("trailed.words", words, 8 * words_len);
    touch("trailed.out", out, 8 * out_len);
    return number;
}

uint64_t __wrap_larsavim_write_needs(const uint8_t *data, uint64_t data_len, const uint64_t *questions, uint64_t questions_len, const uint64_t *patterns, uint64_t patterns_len,
                                     const uint64_t *trees, uint64_t trees_len, const uint64_t *records, uint64_t records_len, uint64_t *out, uint64_t out_len) {
    uint64_t number = __real_larsavim_write_needs(data, data_len, questions, questions_len, patterns, patterns_len, trees, trees_len, records, records_len, out, out_len);
    touch("write_needs.data", data, data_len);
    touch("write_needs.questions", questions, 8 * questions_len);
    touch("write_needs.patterns", patterns, 8 * patterns_len);
    touch("write_needs.trees", trees, 8 * trees_len);
    touch("write_needs.records", records, 8 * records_len);
    touch("write_needs.out", out, 8 * out_len);
    return number;
}

uint64_t __wrap_larsavim_write(const uint8_t *data, uint64_t data_len, const uint64_t *questions, uint64_t questions_len, const uint64_t *patterns, uint64_t patterns_len,
                               const uint64_t *trees, uint64_t trees_len, const uint64_t *records, uint64_t records_len, uint8_t *buffer, uint64_t buffer_len, uint64_t *out,
                               uint64_t out_len) {
    uint64_t number = __real_larsavim_write(data, data_len, questions, questions_len, patterns, patterns_len, trees, trees_len, records, records_len, buffer, buffer_len, out, out_len);
    touch("write.data", data, data_len);
    touch("write.questions", questions, 8 * questions_len);
    touch("write.patterns", patterns, 8 * patterns_len);
    touch("write.trees", trees, 8 * trees_len);
    touch("write.records", records, 8 * records_len);
    touch("write.buffer", buffer, buffer_len);
    touch("write.out", out, 8 * out_len);
    return number;
}
