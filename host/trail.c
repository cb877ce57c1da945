/* trail.c: a voice with its trailer, and the trailer that a voice ends in (02, Wish 7). The library writes and judges; what is read here again is for the wording of a
 * message alone. */
#include <inttypes.h>
#include <string.h>

#include "host.h"

enum { LAST = 12 }; /* the bytes of the three numbers at the very end */

/* A file and the words lent for its record. */
struct lent_file {
    struct bytes file;
    uint64_t *words;
};

static struct lent_file lend_file(struct bytes file) {
    struct lent_file l;
    l.file = lend_copy(file);
    l.words = lend(8 * LARSAVIM_WORDS);
    return l;
}

static void end_file(struct lent_file l) {
    give_back(l.words, 8 * LARSAVIM_WORDS);
    give_back(l.file.at, l.file.len);
}

static void trailer_of(struct bytes file, uint8_t *trailer, uint64_t len, uint64_t out[LARSAVIM_TRAILER_OUT]) {
    struct lent_file l = lend_file(file);
    uint64_t *told = answer_slice(LARSAVIM_TRAILER_OUT);
    larsavim_trailer(l.file.at, l.file.len, l.words, LARSAVIM_WORDS, trailer, len, told, LARSAVIM_TRAILER_OUT);
    memcpy(out, told, 8 * LARSAVIM_TRAILER_OUT);
    end_file(l);
}

static void trailed(struct bytes file, uint64_t out[LARSAVIM_TRAILED_OUT]) {
    struct lent_file l = lend_file(file);
    uint64_t *told = answer_slice(LARSAVIM_TRAILED_OUT);
    larsavim_trailed(l.file.at, l.file.len, l.words, LARSAVIM_WORDS, told, LARSAVIM_TRAILED_OUT);
    memcpy(out, told, 8 * LARSAVIM_TRAILED_OUT);
    end_file(l);
}

static uint64_t word_at(struct bytes file, uint64_t at) {
    uint64_t n = 0;
    for (int i = 4; i-- > 0;)
        n = 256 * n + file.at[at + (uint64_t)i];
    return n;
}

/* ---- why not --------------------------------------------------------------------------------------------------------------------- */

/* The first model whose text is refused so; a load may refuse it earlier, by its width. */
static void explain_text(FILE *to, const struct voice *v, uint64_t number, uint64_t place) {
    for (uint64_t which = 0; which < models_of(v); which++) {
        struct larsavim_model m;
        uint64_t told;
        if (is_unasked_gv(v, which))
            continue;
        load_model(v, which, 0, &m);
        told = m.needs[OUT_NUMBER];
        if (told == number && m.needs[OUT_PLACE] == place) {
            put_model_name(to, v, which);
            fputs(": ", to);
            explain_load(to, v, which, m.needs);
        }
        free_model(&m);
        if (told == number)
            return;
    }
    fprintf(to, "refused (%" PRIu64 "): a model's tree text", number);
}

static uint64_t sum_of(struct bytes file, uint64_t end) {
    uint32_t sum = 0;
    for (uint64_t i = 0; i < end; i++)
        sum += file.at[i];
    return sum;
}

/* What row i says, and what it should say: `right` are the rows of a trailer that the library writes now. */
static void explain_row(FILE *to, const struct voice *v, struct bytes right, uint64_t i, int k, uint64_t says, uint64_t is) {
    uint64_t which = word_at(right, LARSAVIM_TRAILER_ROW * i), tree = 0;
    for (uint64_t j = 0; j < i; j++)
        tree += word_at(right, LARSAVIM_TRAILER_ROW * j) == which;
    if (k == 0) {
        fprintf(to, "row %" PRIu64 " is of model %" PRIu64 ", and should be of model %" PRIu64, i, says, is);
        return;
    }
    fprintf(to, "row %" PRIu64 " says that tree %" PRIu64 " of the model ", i, tree);
    put_model_name(to, v, which);
    if (k == 1)
        fprintf(to, " stands at %" PRIu64 ", and it stands at %" PRIu64, says, is);
    else
        fprintf(to, " has %" PRIu64 " lines, and it has %" PRIu64, says, is);
}

static void explain_rows(FILE *to, const struct voice *v) {
    struct bytes file = v->file;
    uint64_t end = file.len - LAST, count = word_at(file, end), begin = word_at(file, end + 4), out[LARSAVIM_TRAILER_OUT], trees;
    struct bytes right;
    uint8_t *written;
    trailer_of(file, NULL, 0, out);
    trees = (out[LARSAVIM_TRAILER_BYTES] - LAST) / LARSAVIM_TRAILER_ROW;
    if (count != trees) {
        fprintf(to, "the trailer has %" PRIu64 " rows, and the texts have %" PRIu64 " trees", count, trees);
        return;
    }
    if (begin > end || end - begin != LARSAVIM_TRAILER_ROW * count) {
        fprintf(to, "the trailer's rows begin at byte %" PRIu64 ", and %" PRIu64 " rows end at byte %" PRIu64 " only if they begin at byte %" PRIu64, begin, count, end,
                end - LARSAVIM_TRAILER_ROW * count);
        return;
    }
    right.len = out[LARSAVIM_TRAILER_BYTES];
    right.at = written = lend(right.len);
    trailer_of(file, written, right.len, out);
    for (uint64_t i = 0; i < count && out[0] == LARSAVIM_SUCCESS; i++)
        for (int k = 0; k < 3; k++) {
            uint64_t says = word_at(file, begin + LARSAVIM_TRAILER_ROW * i + 4 * (uint64_t)k), is = word_at(right, LARSAVIM_TRAILER_ROW * i + 4 * (uint64_t)k);
            if (says != is) {
                explain_row(to, v, right, i, k, says, is);
                give_back(right.at, right.len);
                return;
            }
        }
    give_back(right.at, right.len);
    fputs("the trailer's rows are not the text's", to);
}

static void explain_trail(FILE *to, struct bytes file, uint64_t number, uint64_t place, uint64_t bytes) {
    struct voice v;
    open_voice(&v, file);
    if (v.number != LARSAVIM_SUCCESS) {
        explain_open(to, &v);
    } else if (number == LARSAVIM_TRAILER) {
        fprintf(to, "refused (%" PRIu64 "): ", number);
        if (bytes > 0)
            fprintf(to, "the file with its trailer would have %" PRIu64 " bytes, %" PRIu64 " more than a voice may have", file.len + bytes, file.len + bytes - LARSAVIM_FILE_LIMIT);
        else
            fprintf(to, "the data has %" PRIu64 " bytes: there is no trailer", data_of(&v).len);
    } else if (number == LARSAVIM_SUM) {
        fprintf(to, "refused (%" PRIu64 "): the bytes of the file add up to %" PRIu64 ", and its trailer says %" PRIu64 ": the file was changed after its trailer was written, or it has none", number,
                sum_of(file, file.len - 4), word_at(file, file.len - 4));
    } else if (number == LARSAVIM_TRAILER_ROWS) {
        fprintf(to, "refused (%" PRIu64 "): ", number);
        explain_rows(to, &v);
    } else {
        explain_text(to, &v, number, place);
    }
    close_voice(&v);
}

static int refuse(const char *path, struct bytes file, uint64_t number, uint64_t place, uint64_t bytes) {
    fprintf(stderr, "larsavim: %s: ", path);
    explain_trail(stderr, file, number, place, bytes);
    fputc('\n', stderr);
    return REFUSED;
}

/* ---- trail FILE OUT --------------------------------------------------------------------------------------------------------------- */

/* The file up to where a good trailer begins. */
static struct bytes untrailed(struct bytes file) {
    uint64_t out[LARSAVIM_TRAILED_OUT];
    trailed(file, out);
    return out[0] == LARSAVIM_SUCCESS ? part(file, 0, out[LARSAVIM_TRAILED_BEGIN]) : file;
}

static int trail_voice(const char *path, struct bytes file, const char *to) {
    uint64_t out[LARSAVIM_TRAILER_OUT], room;
    uint8_t *both;
    int status;
    trailer_of(file, NULL, 0, out);
    room = out[LARSAVIM_TRAILER_BYTES];
    if (out[0] != LARSAVIM_TRAILER || file.len + room > LARSAVIM_FILE_LIMIT)
        return refuse(path, file, out[0], out[LARSAVIM_TRAILER_PLACE], room);
    both = lend(room);
    trailer_of(file, both, room, out);
    if (out[0] != LARSAVIM_SUCCESS)
        stop("the library refuses a trailer that it measured");
    status = write_file(to, file, (struct bytes){both, room});
    give_back(both, room);
    return status;
}

/* The words are FILE OUT. */
int trail(char **words) {
    struct bytes file;
    int status;
    if (same_file(words[0], words[1])) {
        fprintf(stderr, "larsavim: trail: OUT is FILE itself\n");
        return TROUBLE;
    }
    if (!map_file(words[0], &file))
        return TROUBLE;
    status = trail_voice(words[0], untrailed(file), words[1]);
    unmap_file(file);
    return status;
}

/* ---- trailer FILE ------------------------------------------------------------------------------------------------------------------ */

static void put_trailer_rows(struct bytes file, uint64_t rows, uint64_t begin) {
    for (uint64_t i = 0; i < rows; i++) {
        uint64_t at = begin + LARSAVIM_TRAILER_ROW * i;
        printf("ROW %" PRIu64 " %" PRIu64 " %" PRIu64 "\n", word_at(file, at), word_at(file, at + 4), word_at(file, at + 8));
    }
}

int trailer(const char *path) {
    struct bytes file;
    uint64_t out[LARSAVIM_TRAILED_OUT];
    int status = ALL_WELL;
    if (!map_file(path, &file))
        return TROUBLE;
    trailed(file, out);
    if (out[0] == LARSAVIM_SUCCESS) {
        printf("READ 0 %" PRIu64 " %" PRIu64 "\n", out[LARSAVIM_TRAILED_ROWS], out[LARSAVIM_TRAILED_BEGIN]);
        put_trailer_rows(file, out[LARSAVIM_TRAILED_ROWS], out[LARSAVIM_TRAILED_BEGIN]);
    } else {
        printf("REFUSED %" PRIu64 " %" PRIu64 "\n", out[0], out[LARSAVIM_TRAILED_PLACE]);
        status = refuse(path, file, out[0], out[LARSAVIM_TRAILED_PLACE], 0);
    }
    unmap_file(file);
    return status;
}
