/* inspect.c: a voice in a form that people read, and whether it is in order. */
#include <inttypes.h>
#include <string.h>

#include "host.h"

/* ---- the header -------------------------------------------------------------------------------------------------------------- */

static void show_string(const struct voice *v, const char *key, uint64_t field) {
    printf("  %-20s ", key);
    put_quoted(stdout, string_of(v, field));
    putchar('\n');
}

static void show_number(const struct voice *v, const char *key, uint64_t field) {
    printf("  %-20s %" PRIu64 "\n", key, number_of(v, field));
}

static void show_strings(const struct voice *v, const char *key, uint64_t field, uint64_t count) {
    printf("  %-20s", key);
    for (uint64_t i = 0; i < count; i++) {
        putchar(' ');
        put_quoted(stdout, string_of(v, field + 2 * i));
    }
    puts(count == 0 ? " none" : "");
}

/* The library is asked for the comment as the display would ask, with a text of the caller's own to fall back on. */
static void show_comment(const struct voice *v) {
    static const char fallback[] = "(no COMMENT)";
    uint64_t *out = answer_slice(LARSAVIM_COMMENT_OUT);
    if (larsavim_comment(v->file.len, v->words, LARSAVIM_WORDS, sizeof fallback - 1, out, LARSAVIM_COMMENT_OUT) != LARSAVIM_SUCCESS)
        stop("the library refuses the record that it opened");
    printf("  %-20s ", "COMMENT");
    if (out[LARSAVIM_COMMENT_SLICE] == 0)
        put_quoted(stdout, part(v->file, out[LARSAVIM_COMMENT_START], out[LARSAVIM_COMMENT_LENGTH]));
    else
        fputs(fallback, stdout);
    putchar('\n');
}

static void show_stream(const struct voice *v, uint64_t g) {
    uint64_t options = number_of(v, g + LARSAVIM_OPTION_COUNT);
    printf("  stream ");
    put_quoted(stdout, string_of(v, g + LARSAVIM_STREAM_NAME));
    printf(": vectors of %" PRIu64 ", %" PRIu64 " windows, %s, %s", number_of(v, g + LARSAVIM_VECTOR_LENGTH), number_of(v, g + LARSAVIM_NUM_WINDOWS),
           number_of(v, g + LARSAVIM_IS_MSD) ? "MSD" : "no MSD", number_of(v, g + LARSAVIM_USE_GV) ? "GV" : "no GV");
    for (uint64_t i = 0; i < options; i++) {
        fputs(i == 0 ? ", options " : " ", stdout);
        put_quoted(stdout, string_of(v, g + LARSAVIM_OPTION + 2 * i));
    }
    putchar('\n');
}

static void show_header(const struct voice *v) {
    uint64_t streams = number_of(v, LARSAVIM_STREAM_COUNT);
    show_string(v, "HTS_VOICE_VERSION", LARSAVIM_HTS_VOICE_VERSION);
    show_number(v, "SAMPLING_FREQUENCY", LARSAVIM_SAMPLING_FREQUENCY);
    show_number(v, "FRAME_PERIOD", LARSAVIM_FRAME_PERIOD);
    show_number(v, "NUM_STATES", LARSAVIM_NUM_STATES);
    show_number(v, "NUM_STREAMS", LARSAVIM_NUM_STREAMS);
    show_strings(v, "STREAM_TYPE", LARSAVIM_STREAM_TYPE, number_of(v, LARSAVIM_STREAM_TYPE_COUNT));
    show_string(v, "FULLCONTEXT_FORMAT", LARSAVIM_FULLCONTEXT_FORMAT);
    show_string(v, "FULLCONTEXT_VERSION", LARSAVIM_FULLCONTEXT_VERSION);
    show_strings(v, "GV_OFF_CONTEXT", LARSAVIM_GV_OFF_CONTEXT, number_of(v, LARSAVIM_GV_OFF_CONTEXT_COUNT));
    show_comment(v);
    for (uint64_t i = 0; i < streams; i++)
        show_stream(v, LARSAVIM_STREAM(i));
    printf("  data: %" PRIu64 " bytes from byte %" PRIu64 " on\n", number_of(v, LARSAVIM_DATA_LEN), number_of(v, LARSAVIM_DATA_START));
}

/* ---- models ------------------------------------------------------------------------------------------------------------------- */

/* Bytes of tables that the loaded models need together, and of work, which they can share. */
struct memory {
    uint64_t tables, work;
};

static uint64_t table_bytes(const struct larsavim_model *m, int table) {
    return rows_of(m, table) * row_width[table] * 8;
}

static void show_sizes(const struct larsavim_model *m, struct memory *sum) {
    uint64_t work = m->needs[OUT_WORK] * 8, tables = 0, width = width_of(m);
    for (int t = 0; t < TABLES; t++) {
        printf("    %-10s %10" PRIu64 " %10" PRIu64 " bytes\n", table_name[t], rows_of(m, t), table_bytes(m, t));
        tables += table_bytes(m, t);
    }
    printf("    %-10s %10" PRIu64 " %10" PRIu64 " bytes\n", "work", m->needs[OUT_WORK], work);
    printf("    together              %10" PRIu64 " bytes\n", tables + work);
    printf("    %" PRIu64 " entries of %" PRIu64 " values\n", width == 0 ? 0 : rows_of(m, VALUES) / width, width);
    sum->tables += tables;
    if (sum->work < work)
        sum->work = work;
}

/* 1 if the model is in order. */
static int show_model(const struct voice *v, uint64_t which, struct memory *sum) {
    struct larsavim_model m;
    int good;
    printf("\nmodel %" PRIu64 ", ", which);
    put_model_name(stdout, v, which);
    load_model(v, which, 0, &m);
    good = m.loaded[OUT_NUMBER] == LARSAVIM_SUCCESS;
    if (!good) {
        fputs(": ", stdout);
        explain_load(stdout, v, which, m.loaded);
        puts(is_unasked_gv(v, which) ? " (as the header says)" : "");
        good = is_unasked_gv(v, which);
    } else {
        puts(": loaded");
        show_sizes(&m, sum);
        good = leaves_fit(&m);
        puts(good ? "    leaf check: passed" : "    leaf check: FAILED, a leaf's number is 0 or past the entries of its tree");
        show_depth(&m);
    }
    free_model(&m);
    return good;
}

static int show_models(const struct voice *v) {
    struct memory sum = {0, 0};
    uint64_t models = models_of(v);
    int good = 1;
    for (uint64_t which = 0; which < models; which++)
        good &= show_model(v, which, &sum);
    printf("\nall loaded models at once: %" PRIu64 " bytes of tables, and %" PRIu64 " bytes of work that they can share\n", sum.tables, sum.work);
    puts(good ? "the voice is in order" : "the voice is NOT in order");
    return good;
}

static int inspect_voice(const char *path, struct bytes file) {
    struct voice v;
    int good = 0;
    printf("%s: %" PRIu64 " bytes\n", path, file.len);
    open_voice(&v, file);
    if (v.number == LARSAVIM_SUCCESS) {
        show_header(&v);
        good = show_models(&v);
    } else {
        explain_open(stdout, &v);
        putchar('\n');
    }
    close_voice(&v);
    return good ? ALL_WELL : REFUSED;
}

int inspect(const char *path) {
    struct bytes file;
    int status;
    if (!map_file(path, &file))
        return TROUBLE;
    status = inspect_voice(path, file);
    unmap_file(file);
    return status;
}
