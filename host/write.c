/* write.c: the tree text of a model, out of the tables that it was loaded into. */
#include <inttypes.h>
#include <string.h>

#include "host.h"

/* The text of a loaded model, or `REFUSED n` and why, to `why`, if there is a place for it. 1 if there is a text. */
int text_of_model(const struct voice *v, uint64_t which, FILE *why, struct bytes *text, uint64_t *number) {
    struct larsavim_model m;
    *number = v->number;
    if (*number != LARSAVIM_SUCCESS) {
        if (why != NULL)
            explain_open(why, v);
        return 0;
    }
    load_model(v, which, 0, &m);
    *number = m.loaded[OUT_NUMBER];
    if (*number == LARSAVIM_SUCCESS)
        *text = write_model(&m, data_of(v));
    else if (why != NULL)
        explain_load(why, v, which, m.loaded);
    free_model(&m);
    return *number == LARSAVIM_SUCCESS;
}

void put_text_hex(struct bytes file, uint64_t which) {
    struct voice v;
    struct bytes text;
    uint64_t number;
    open_voice(&v, file);
    if (text_of_model(&v, which, NULL, &text, &number)) {
        fputs("TEXT ", stdout);
        for (uint64_t i = 0; i < text.len; i++)
            printf("%02x", (unsigned)text.at[i]);
        putchar('\n');
        give_back(text.at, text.len);
    } else {
        printf("REFUSED %" PRIu64 "\n", number);
    }
    close_voice(&v);
}

/* Whether the header has such a model; others are the library's to refuse, and have no name. */
static int is_named(const struct voice *v, uint64_t which) {
    return v->number == LARSAVIM_SUCCESS && which < models_of(v);
}

void complain_model(const char *path, const struct voice *v, uint64_t which) {
    fprintf(stderr, "larsavim: %s: ", path);
    if (!is_named(v, which))
        return;
    fprintf(stderr, "model %" PRIu64 ", ", which);
    put_model_name(stderr, v, which);
    fputs(": ", stderr);
}

static int write_voice(const char *path, struct bytes file, uint64_t which) {
    struct voice v;
    struct bytes text;
    uint64_t number;
    int done;
    open_voice(&v, file);
    done = text_of_model(&v, which, NULL, &text, &number);
    if (done) {
        fwrite(text.at, 1, (size_t)text.len, stdout);
        give_back(text.at, text.len);
    } else {
        complain_model(path, &v, which);
        text_of_model(&v, which, stderr, &text, &number);
        fputc('\n', stderr);
    }
    close_voice(&v);
    return done ? ALL_WELL : REFUSED;
}

/* The words are FILE MODEL. */
int write_text(char **words) {
    struct bytes file;
    uint64_t which;
    int status;
    if (!read_number(words[1], &which)) {
        fprintf(stderr, "larsavim: write: MODEL is '%s', and should be a decimal number from 0 to 18446744073709551615\n", words[1]);
        return TROUBLE;
    }
    if (!map_file(words[0], &file))
        return TROUBLE;
    status = write_voice(words[0], file, which);
    unmap_file(file);
    return status;
}
