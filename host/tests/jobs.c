/* jobs.c: the layout of a job, the worked cases of docs/READINGS.md, and random jobs over random tables: each ends as a single walk over the answers from its start, what it asks for stays, and the
 * jobs beside the slice are untouched. Compiles as C and as C++. Prints what differs, and how many checks passed and failed. */
#include <stddef.h>
#include <stdio.h>
#include <string.h>

#include "larsavim.h"

enum { MOST_TREES = 3, MOST_RECORDS = 8, MOST_ANSWERS = 9, MOST_JOBS = 40, ROUNDS = 20000 };

static unsigned passed, failed;

static void expect(int holds, const char *name) {
    if (holds) {
        passed++;
        return;
    }
    failed++;
    printf("jobs: %s\n", name);
}

static void layout(void) {
    expect(sizeof(struct larsavim_job) == 48, "a job is 48 bytes");
    expect(offsetof(struct larsavim_job, tree) == 0 && offsetof(struct larsavim_job, limit) == 8 && offsetof(struct larsavim_job, start) == 16, "what is asked comes first");
    expect(offsetof(struct larsavim_job, number) == 24 && offsetof(struct larsavim_job, pdf) == 32 && offsetof(struct larsavim_job, asked) == 40, "then the room");
}

/* A tree row: state, first record, records, lines; whatever else a row has is 0. */
static void put_tree(uint64_t *trees, uint64_t t, uint64_t state, uint64_t first, uint64_t records, uint64_t lines) {
    uint64_t *row = trees + LARSAVIM_TREE_ROW * t;
    memset(row, 0, 8 * LARSAVIM_TREE_ROW);
    row[0] = state;
    row[1] = first;
    row[2] = records;
    row[3] = lines;
}

static void worked_cases(void) {
    static const uint64_t records[] = {0, 1, 1, 2, 1, 5, 0, 0, 1, 6, 0, 0};
    static const uint8_t answers[] = {0, 1, 1, 0};
    static const struct larsavim_job want[] = {{0, 9, 0, 0, 5, 1}, {0, 9, 2, 0, 6, 1}, {0, 9, 3, 24, 0, 0}, {1, 0, 4, 0, 5, 0},
                                               {1, 0, 5, 24, 0, 0}, {0, 0, 0, 25, 0, 0}, {2, 9, 0, 24, 0, 0}, {0, 9, 4, 24, 0, 0}};
    enum { CASES = sizeof want / sizeof want[0] };
    struct larsavim_job jobs[CASES];
    uint64_t trees[2 * LARSAVIM_TREE_ROW];
    put_tree(trees, 0, 2, 0, 3, 1);
    put_tree(trees, 1, 3, 1, 1, 0);
    for (int i = 0; i < CASES; i++) {
        jobs[i] = want[i];
        jobs[i].number = jobs[i].pdf = jobs[i].asked = 77;
    }
    larsavim_walk_jobs(trees, 2 * LARSAVIM_TREE_ROW, records, 12, answers, 4, jobs, CASES);
    for (int i = 0; i < CASES; i++)
        expect(memcmp(&jobs[i], &want[i], sizeof want[i]) == 0, "a worked case");
    larsavim_walk_jobs(NULL, 0, NULL, 0, NULL, 0, NULL, 0);
    expect(1, "no jobs");
}

/* The same numbers in every run. */
static uint64_t drawn(uint64_t below) {
    static uint64_t state = 1;
    state = state * UINT64_C(6364136223846793005) + UINT64_C(1442695040888963407);
    return (state >> 33) % below;
}

/* Mostly small, now and then far outside. */
static uint64_t some(uint64_t below) {
    return drawn(40) == 0 ? UINT64_MAX - drawn(2) : drawn(below);
}

struct tables {
    uint64_t trees[MOST_TREES * LARSAVIM_TREE_ROW], records[MOST_RECORDS * LARSAVIM_RECORD_ROW];
    uint8_t answers[MOST_ANSWERS];
    uint64_t tree_count, record_count, answer_count;
};

static void draw_tables(struct tables *t) {
    t->tree_count = drawn(MOST_TREES + 1);
    t->record_count = drawn(MOST_RECORDS + 1);
    t->answer_count = drawn(MOST_ANSWERS + 1);
    for (uint64_t i = 0; i < MOST_TREES; i++)
        put_tree(t->trees, i, 2, some(3), some(MOST_RECORDS + 1), 0);
    for (uint64_t i = 0; i < MOST_RECORDS; i++) {
        t->records[4 * i] = drawn(20) == 0 ? 2 : drawn(3) / 2;
        for (int k = 1; k < 4; k++)
            t->records[4 * i + (uint64_t)k] = some(6);
    }
    for (int i = 0; i < MOST_ANSWERS; i++)
        t->answers[i] = (uint8_t)drawn(2);
}

static void single(const struct tables *t, struct larsavim_job *job) {
    uint64_t out[LARSAVIM_WALK_OUT] = {24, 0, 0};
    if (job->start <= t->answer_count)
        larsavim_walk(t->trees, t->tree_count * LARSAVIM_TREE_ROW, t->records, t->record_count * LARSAVIM_RECORD_ROW, job->tree, t->answers + job->start, t->answer_count - job->start,
                      job->limit, out, LARSAVIM_WALK_OUT);
    job->number = out[0];
    job->pdf = out[1];
    job->asked = out[2];
}

static void random_jobs(void) {
    struct larsavim_job jobs[MOST_JOBS + 2], want[MOST_JOBS + 2];
    struct tables t;
    for (int round = 0; round < ROUNDS; round++) {
        uint64_t count = drawn(MOST_JOBS + 1);
        draw_tables(&t);
        for (int i = 0; i < MOST_JOBS + 2; i++) {
            struct larsavim_job job = {some(MOST_TREES + 1), some(6), some(MOST_ANSWERS + 2), 77, 77, 77};
            jobs[i] = want[i] = job;
        }
        for (uint64_t i = 1; i <= count; i++)
            single(&t, &want[i]);
        larsavim_walk_jobs(t.trees, t.tree_count * LARSAVIM_TREE_ROW, t.records, t.record_count * LARSAVIM_RECORD_ROW, t.answers, t.answer_count, jobs + 1, count);
        expect(memcmp(jobs, want, sizeof jobs) == 0, "jobs that end otherwise than single walks, or that touch another");
    }
}

int main(void) {
    layout();
    worked_cases();
    random_jobs();
    printf("%u passed, %u failed\n", passed, failed);
    return failed != 0;
}
