/* voice.c: an opened voice: its record's fields, and which parts of the header belong to which model. */
#include "host.h"

void open_voice(struct voice *v, struct bytes file) {
    uint64_t *out = answer_slice(LARSAVIM_OPEN_OUT);
    v->file = file;
    v->words = lend(8 * LARSAVIM_WORDS);
    larsavim_open(file.at, file.len, v->words, LARSAVIM_WORDS, out, LARSAVIM_OPEN_OUT);
    v->number = out[OUT_NUMBER];
    v->place = out[LARSAVIM_OPEN_PLACE];
}

void close_voice(struct voice *v) {
    give_back(v->words, 8 * LARSAVIM_WORDS);
}

uint64_t number_of(const struct voice *v, uint64_t field) {
    uint64_t *out = answer_slice(LARSAVIM_GET_OUT);
    if (larsavim_get(v->words, LARSAVIM_WORDS, field, out, LARSAVIM_GET_OUT) != LARSAVIM_SUCCESS)
        stop("the library has no such field in the record that it opened");
    return out[LARSAVIM_GET_VALUE];
}

struct pair pair_of(const struct voice *v, uint64_t field) {
    uint64_t *out = answer_slice(LARSAVIM_PAIR_OUT);
    struct pair p;
    if (larsavim_pair(v->words, LARSAVIM_WORDS, field, out, LARSAVIM_PAIR_OUT) != LARSAVIM_SUCCESS)
        stop("the library has no such pair in the record that it opened");
    p.first = out[LARSAVIM_PAIR_FIRST];
    p.second = out[LARSAVIM_PAIR_SECOND];
    return p;
}

struct bytes string_of(const struct voice *v, uint64_t field) {
    struct pair p = pair_of(v, field);
    return part(v->file, p.first, p.second);
}

struct bytes data_of(const struct voice *v) {
    return part(v->file, number_of(v, LARSAVIM_DATA_START), number_of(v, LARSAVIM_DATA_LEN));
}

uint64_t models_of(const struct voice *v) {
    return 2 * number_of(v, LARSAVIM_STREAM_TYPE_COUNT) + 1;
}

int is_gv(uint64_t which) {
    return which > 0 && which % 2 == 0;
}

/* Of no stream that there is: empty. */
struct bytes stream_name(const struct voice *v, uint64_t which) {
    uint64_t i = (which - 1) / 2;
    if (which == LARSAVIM_DURATION || i >= number_of(v, LARSAVIM_STREAM_TYPE_COUNT))
        return part(v->file, 0, 0);
    return string_of(v, LARSAVIM_STREAM_TYPE + 2 * i);
}

void put_model_name(FILE *to, const struct voice *v, uint64_t which) {
    if (which == LARSAVIM_DURATION) {
        fputs("duration", to);
        return;
    }
    fputs(is_gv(which) ? "GV of " : "stream ", to);
    put_quoted(to, stream_name(v, which));
}

uint64_t stream_group(const struct voice *v, uint64_t which) {
    struct bytes name = stream_name(v, which);
    for (uint64_t i = number_of(v, LARSAVIM_STREAM_COUNT); i-- > 0;)
        if (same(string_of(v, LARSAVIM_STREAM(i) + LARSAVIM_STREAM_NAME), name))
            return LARSAVIM_STREAM(i);
    return 0;
}

uint64_t position_group(const struct voice *v, uint64_t which) {
    struct bytes name = stream_name(v, which);
    for (uint64_t i = number_of(v, LARSAVIM_POSITION_COUNT); i-- > 0;)
        if (same(string_of(v, LARSAVIM_POSITION(i) + LARSAVIM_POSITION_NAME), name))
            return LARSAVIM_POSITION(i);
    return 0;
}

int tree_range(const struct voice *v, uint64_t which, struct pair *range) {
    uint64_t p = which == LARSAVIM_DURATION ? 0 : position_group(v, which);
    if (which == LARSAVIM_DURATION)
        *range = pair_of(v, LARSAVIM_DURATION_TREE);
    else if (p == 0 || (is_gv(which) && number_of(v, p + LARSAVIM_HAS_GV_TREE) == 0))
        return 0;
    else
        *range = pair_of(v, p + (is_gv(which) ? LARSAVIM_GV_TREE : LARSAVIM_STREAM_TREE));
    return 1;
}

int pdf_range(const struct voice *v, uint64_t which, struct pair *range) {
    uint64_t p = which == LARSAVIM_DURATION ? 0 : position_group(v, which);
    if (which == LARSAVIM_DURATION)
        *range = pair_of(v, LARSAVIM_DURATION_PDF);
    else if (p == 0 || (is_gv(which) && number_of(v, p + LARSAVIM_HAS_GV_PDF) == 0))
        return 0;
    else
        *range = pair_of(v, p + (is_gv(which) ? LARSAVIM_GV_PDF : LARSAVIM_STREAM_PDF));
    return 1;
}

struct bytes tree_text_of(const struct voice *v, uint64_t which) {
    struct pair r;
    struct bytes data = data_of(v);
    if (!tree_range(v, which, &r) || r.second >= data.len || r.first > r.second)
        return part(data, 0, 0);
    return part(data, r.first, r.second - r.first + 1);
}

int is_unasked_gv(const struct voice *v, uint64_t which) {
    uint64_t s = is_gv(which) ? stream_group(v, which) : 0;
    return s != 0 && position_group(v, which) != 0 && number_of(v, s + LARSAVIM_USE_GV) == 0;
}
