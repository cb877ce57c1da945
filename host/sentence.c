/* sentence.c: the walks of a sentence in one call: the jobs are read from standard input, a line each, and walked all at once. */
#include <stdlib.h>
#include <string.h>

#include "host.h"

/* The jobs read so far. */
struct sentence {
    struct larsavim_job *job;
    uint64_t jobs, room;
};

static void grow(struct sentence *s) {
    struct larsavim_job *more;
    s->room = 2 * s->room + 64;
    more = realloc(s->job, (size_t)s->room * sizeof *more);
    if (more == NULL)
        stop("there is not enough memory for the jobs");
    s->job = more;
}

/* Reads one job, or says what is wrong with its line. */
static const char *read_job(char *line, void *with) {
    struct sentence *s = with;
    struct larsavim_job *job;
    char *words[3];
    if (cut(line, words, 3) != 3)
        return "is not TREE LIMIT START, parted by single spaces";
    if (s->jobs == s->room)
        grow(s);
    job = &s->job[s->jobs];
    job->number = job->pdf = job->asked = UNTOUCHED;
    if (!read_number(words[0], &job->tree) || !read_number(words[1], &job->limit) || !read_number(words[2], &job->start))
        return "has a word that is no decimal number from 0 to 18446744073709551615";
    s->jobs++;
    return NULL;
}

/* One call for all, and a line for each. What was asked for must still stand there. */
static int walk_all(const struct larsavim_model *m, struct bytes answers, const struct sentence *s) {
    uint64_t size = s->jobs * sizeof *s->job;
    struct larsavim_job *lent = lend(size);
    int status = ALL_WELL;
    if (size > 0)
        memcpy(lent, s->job, (size_t)size);
    walk_jobs_model(m, answers, lent, s->jobs);
    for (uint64_t i = 0; i < s->jobs; i++) {
        const uint64_t out[LARSAVIM_WALK_OUT] = {lent[i].number, lent[i].pdf, lent[i].asked};
        if (lent[i].tree != s->job[i].tree || lent[i].limit != s->job[i].limit || lent[i].start != s->job[i].start)
            stop("the library changed what a job asks for");
        put_walk(out);
        if (out[OUT_NUMBER] != LARSAVIM_SUCCESS)
            status = REFUSED;
    }
    give_back(lent, size);
    return status;
}

/* The voice is opened and the model loaded before a line is read: where one is refused, there is nothing to walk. */
static int walk_sentence(struct bytes file, uint64_t which, struct bytes answers) {
    struct sentence s = {NULL, 0, 0};
    struct voice v;
    struct larsavim_model m;
    int status = REFUSED;
    open_voice(&v, file);
    if (v.number != LARSAVIM_SUCCESS) {
        explain_open(stderr, &v);
        fputc('\n', stderr);
        close_voice(&v);
        return REFUSED;
    }
    load_model(&v, which, 0, &m);
    if (m.loaded[OUT_NUMBER] != LARSAVIM_SUCCESS) {
        explain_load(stderr, &v, which, m.loaded);
        fputc('\n', stderr);
    } else {
        status = answer_lines("sentence", read_job, &s);
        if (status == ALL_WELL)
            status = walk_all(&m, answers, &s);
    }
    free(s.job);
    free_model(&m);
    close_voice(&v);
    return status;
}

/* The words are FILE MODEL ANSWERS. */
int sentence(char **words) {
    struct bytes file, answers;
    uint64_t which;
    int status = TROUBLE;
    if (!read_number(words[1], &which)) {
        fprintf(stderr, "larsavim: sentence: MODEL is '%s', and should be %s\n", words[1], walk_wanted[0]);
        return TROUBLE;
    }
    if (!read_answers(words[2], &answers)) {
        fprintf(stderr, "larsavim: sentence: ANSWERS is '%s', and should be 0 and 1 alone, or - for none\n", words[2]);
        return TROUBLE;
    }
    if (map_file(words[0], &file)) {
        status = walk_sentence(file, which, answers);
        unmap_file(file);
    }
    give_back(answers.at, answers.len);
    return status;
}
