/* dump.c: everything that the library says of a voice, one fact a line, for comparing. The lines are exact; judge/readings/reading.py prints the same. */
#include <inttypes.h>

#include "host.h"

/* ---- the header -------------------------------------------------------------------------------------------------------------- */

static void put_string_line(const struct voice *v, const char *key, uint64_t field) {
    printf("%s ", key);
    put_quoted(stdout, string_of(v, field));
    putchar('\n');
}

static void put_number_line(const struct voice *v, const char *key, uint64_t field) {
    printf("%s %" PRIu64 "\n", key, number_of(v, field));
}

static void put_strings(const struct voice *v, uint64_t field, uint64_t count) {
    putchar('[');
    for (uint64_t i = 0; i < count; i++) {
        if (i > 0)
            putchar(',');
        put_quoted(stdout, string_of(v, field + 2 * i));
    }
    putchar(']');
}

static void put_strings_line(const struct voice *v, const char *key, uint64_t field, uint64_t count_field) {
    printf("%s ", key);
    put_strings(v, field, number_of(v, count_field));
    putchar('\n');
}

static void put_range(const struct voice *v, uint64_t field) {
    struct pair r = pair_of(v, field);
    printf("%" PRIu64 "-%" PRIu64, r.first, r.second);
}

static void put_range_line(const struct voice *v, const char *key, uint64_t field) {
    printf("%s ", key);
    put_range(v, field);
    putchar('\n');
}

static void put_perhaps(const struct voice *v, const char *key, uint64_t field, uint64_t flag) {
    printf(" %s=", key);
    if (number_of(v, flag) == 1)
        put_range(v, field);
    else
        fputs("absent", stdout);
}

static void put_global(const struct voice *v) {
    put_string_line(v, "HTS_VOICE_VERSION", LARSAVIM_HTS_VOICE_VERSION);
    put_number_line(v, "SAMPLING_FREQUENCY", LARSAVIM_SAMPLING_FREQUENCY);
    put_number_line(v, "FRAME_PERIOD", LARSAVIM_FRAME_PERIOD);
    put_number_line(v, "NUM_STATES", LARSAVIM_NUM_STATES);
    put_number_line(v, "NUM_STREAMS", LARSAVIM_NUM_STREAMS);
    put_strings_line(v, "STREAM_TYPE", LARSAVIM_STREAM_TYPE, LARSAVIM_STREAM_TYPE_COUNT);
    put_string_line(v, "FULLCONTEXT_FORMAT", LARSAVIM_FULLCONTEXT_FORMAT);
    put_string_line(v, "FULLCONTEXT_VERSION", LARSAVIM_FULLCONTEXT_VERSION);
    put_strings_line(v, "GV_OFF_CONTEXT", LARSAVIM_GV_OFF_CONTEXT, LARSAVIM_GV_OFF_CONTEXT_COUNT);
    if (number_of(v, LARSAVIM_HAS_COMMENT) == 1)
        put_string_line(v, "COMMENT", LARSAVIM_COMMENT);
    else
        puts("COMMENT absent");
}

static void put_stream(const struct voice *v, uint64_t group) {
    fputs("STREAM ", stdout);
    put_quoted(stdout, string_of(v, group + LARSAVIM_STREAM_NAME));
    printf(" VECTOR_LENGTH=%" PRIu64 " NUM_WINDOWS=%" PRIu64 " IS_MSD=%" PRIu64 " USE_GV=%" PRIu64 " OPTION=", number_of(v, group + LARSAVIM_VECTOR_LENGTH),
           number_of(v, group + LARSAVIM_NUM_WINDOWS), number_of(v, group + LARSAVIM_IS_MSD), number_of(v, group + LARSAVIM_USE_GV));
    put_strings(v, group + LARSAVIM_OPTION, number_of(v, group + LARSAVIM_OPTION_COUNT));
    putchar('\n');
}

static void put_windows(const struct voice *v, uint64_t group) {
    uint64_t count = number_of(v, group + LARSAVIM_STREAM_WIN_COUNT);
    fputs(" STREAM_WIN=[", stdout);
    for (uint64_t i = 0; i < count; i++) {
        if (i > 0)
            putchar(',');
        put_range(v, group + LARSAVIM_STREAM_WIN + 2 * i);
    }
    putchar(']');
}

static void put_position(const struct voice *v, uint64_t group) {
    fputs("POSITION ", stdout);
    put_quoted(stdout, string_of(v, group + LARSAVIM_POSITION_NAME));
    put_windows(v, group);
    fputs(" STREAM_PDF=", stdout);
    put_range(v, group + LARSAVIM_STREAM_PDF);
    fputs(" STREAM_TREE=", stdout);
    put_range(v, group + LARSAVIM_STREAM_TREE);
    put_perhaps(v, "GV_PDF", group + LARSAVIM_GV_PDF, group + LARSAVIM_HAS_GV_PDF);
    put_perhaps(v, "GV_TREE", group + LARSAVIM_GV_TREE, group + LARSAVIM_HAS_GV_TREE);
    putchar('\n');
}

static void put_header(const struct voice *v) {
    uint64_t streams = number_of(v, LARSAVIM_STREAM_COUNT), positions = number_of(v, LARSAVIM_POSITION_COUNT);
    put_global(v);
    put_range_line(v, "DURATION_PDF", LARSAVIM_DURATION_PDF);
    put_range_line(v, "DURATION_TREE", LARSAVIM_DURATION_TREE);
    for (uint64_t i = 0; i < streams; i++)
        put_stream(v, LARSAVIM_STREAM(i));
    for (uint64_t i = 0; i < positions; i++)
        put_position(v, LARSAVIM_POSITION(i));
    printf("DATA %" PRIu64 " %" PRIu64 "\n", number_of(v, LARSAVIM_DATA_START), number_of(v, LARSAVIM_DATA_LEN));
}

/* ---- what a load left in the lent tables -------------------------------------------------------------------------------------- */

static int all_are(const uint64_t *at, uint64_t from, uint64_t to, uint64_t value) {
    for (uint64_t i = from; i < to; i++)
        if (at[i] != value)
            return 0;
    return 1;
}

static int work_is(const struct larsavim_model *m, uint64_t value) {
    for (uint64_t i = 0; i < m->work_lent; i++)
        if ((uint64_t)m->work[i] != value)
            return 0;
    return 1;
}

/* Whether the rows that the model needs, and what is behind them, hold one value in every table. The needs are 0 where the file is refused. */
static int needed_are(const struct larsavim_model *m, uint64_t value) {
    for (int t = 0; t < TABLES; t++)
        if (!all_are(m->table[t], 0, m->needs[OUT_ROWS + t] * row_width[t], value))
            return 0;
    return 1;
}

static int beyond_are(const struct larsavim_model *m, uint64_t value) {
    for (int t = 0; t < TABLES; t++)
        if (!all_are(m->table[t], m->needs[OUT_ROWS + t] * row_width[t], m->lent[t], value))
            return 0;
    return 1;
}

/* 21 to 23 zero the rows needed and leave what is behind them (02, Wish 9). */
static const char *after(const struct larsavim_model *m) {
    if (!beyond_are(m, UNTOUCHED))
        return "changed";
    if (m->loaded[OUT_NUMBER] == LARSAVIM_SUCCESS)
        return work_is(m, 0) ? "filled" : "changed";
    if (m->loaded[OUT_NUMBER] <= LARSAVIM_ROOM)
        return needed_are(m, UNTOUCHED) && work_is(m, UNTOUCHED) ? "kept" : "changed";
    return needed_are(m, 0) && work_is(m, 0) ? "zero" : "changed";
}

/* ---- the rows ----------------------------------------------------------------------------------------------------------------- */

static void put_question(const struct larsavim_model *m, struct bytes data, uint64_t i) {
    const uint64_t *q = row_of(m, QUESTIONS, i);
    printf("Q %" PRIu64 " ", i);
    put_quoted(stdout, part(data, q[LARSAVIM_QUESTION_START], q[LARSAVIM_QUESTION_LEN]));
    fputs(" [", stdout);
    for (uint64_t k = 0; k < q[LARSAVIM_QUESTION_PATTERNS] && q[LARSAVIM_QUESTION_FIRST] + k < rows_of(m, PATTERNS); k++) {
        const uint64_t *p = row_of(m, PATTERNS, q[LARSAVIM_QUESTION_FIRST] + k);
        if (k > 0)
            putchar(',');
        put_quoted(stdout, part(data, p[LARSAVIM_PATTERN_START], p[LARSAVIM_PATTERN_LEN]));
    }
    puts("]");
}

static void put_rows(const struct larsavim_model *m, char letter, int table) {
    for (uint64_t i = 0; i < rows_of(m, table); i++) {
        const uint64_t *row = row_of(m, table, i);
        printf("%c %" PRIu64, letter, i);
        for (uint64_t k = 0; k < row_width[table]; k++)
            printf(" %" PRIu64, row[k]);
        putchar('\n');
    }
}

static void put_values(const struct larsavim_model *m) {
    uint64_t width = width_of(m), entries = width == 0 ? 0 : rows_of(m, VALUES) / width;
    for (uint64_t i = 0; i < entries; i++) {
        printf("V %" PRIu64, i);
        for (uint64_t k = 0; k < width; k++)
            printf(" %016" PRIx64, m->table[VALUES][width * i + k]);
        putchar('\n');
    }
}

void put_tables(const struct voice *v, const struct larsavim_model *m) {
    struct bytes data = data_of(v);
    for (uint64_t i = 0; i < rows_of(m, QUESTIONS); i++)
        put_question(m, data, i);
    put_rows(m, 'T', TREES);
    put_rows(m, 'R', RECORDS);
    put_values(m);
    printf("LEAVES %s\n", leaves_fit(m) ? "yes" : "no");
}

static void put_model(const struct voice *v, uint64_t which) {
    struct larsavim_model m;
    printf("MODEL %" PRIu64 "\nLOAD", which);
    load_model(v, which, 1, &m);
    for (int i = 0; i < LARSAVIM_LOAD_OUT; i++)
        printf(" %" PRIu64, m.loaded[i]);
    printf("\nAFTER %s\n", after(&m));
    if (m.loaded[OUT_NUMBER] == LARSAVIM_SUCCESS) {
        cut_tables(&m);
        put_tables(v, &m);
    }
    free_model(&m);
}

void dump_voice(struct bytes file) {
    struct voice v;
    uint64_t models;
    open_voice(&v, file);
    printf("OPEN %" PRIu64 " %" PRIu64 "\n", v.number, v.place);
    if (v.number == LARSAVIM_SUCCESS)
        put_header(&v);
    models = v.number == LARSAVIM_SUCCESS ? models_of(&v) : 0;
    for (uint64_t which = 0; which < models; which++)
        put_model(&v, which);
    close_voice(&v);
}

int dump(const char *path) {
    struct bytes file;
    if (!map_file(path, &file))
        return TROUBLE;
    dump_voice(file);
    unmap_file(file);
    return ALL_WELL;
}
