/* explain.c: why a file was not opened, and a walk refused, as a sentence: what is wrong, and where. */
#include <inttypes.h>
#include <string.h>

#include "host.h"

/* ---- where in the header ------------------------------------------------------------------------------------------------------ */

enum { GLOBAL, STREAM, POSITION, DATA, SECTIONS };

static const char *const heading[SECTIONS] = {"[GLOBAL]", "[STREAM]", "[POSITION]", "[DATA]"};

/* The texts of the sections as far as they are found, and where the next heading was looked for. */
struct sections {
    struct bytes text[SECTIONS];
    uint64_t start[SECTIONS];
    int found;
    uint64_t at;
};

static struct bytes rest_of(struct bytes file, uint64_t at) {
    return part(file, at, file.len - at);
}

static uint64_t past_newlines(struct bytes file, uint64_t at) {
    while (at < file.len && file.at[at] == '\n')
        at++;
    return at;
}

/* Where a section's text ends: at the next newline with a `[` behind it; at the file's end if there is none. */
static uint64_t section_end(struct bytes file, uint64_t at) {
    for (; at + 1 < file.len; at++)
        if (file.at[at] == '\n' && file.at[at + 1] == '[')
            return at;
    return file.len;
}

static int heading_at(struct bytes file, uint64_t at, int which) {
    struct bytes rest = rest_of(file, at);
    uint64_t len = strlen(heading[which]);
    return starts_with(rest, heading[which]) && rest.len > len && rest.at[len] == '\n';
}

static struct sections sections_of(struct bytes file) {
    struct sections s;
    memset(&s, 0, sizeof s);
    for (; s.found < SECTIONS; s.found++) {
        uint64_t start, end;
        s.at = past_newlines(file, s.at);
        if (!heading_at(file, s.at, s.found))
            break;
        start = s.at + strlen(heading[s.found]) + 1;
        end = s.found == DATA ? file.len : section_end(file, start);
        s.start[s.found] = start;
        s.text[s.found] = part(file, start, end - start);
        s.at = end;
    }
    return s;
}

struct bytes position_section(struct bytes file) {
    return sections_of(file).text[POSITION];
}

static void put_place(FILE *to, struct bytes file, uint64_t at) {
    fprintf(to, "byte %" PRIu64 " (line %" PRIu64 ", column %" PRIu64 ")", at, line_of(file, at), column_of(file, at));
}

static void put_section(FILE *to, struct bytes file, uint64_t at) {
    struct sections s = sections_of(file);
    for (int i = GLOBAL; i < DATA && i < s.found; i++)
        if (at >= s.start[i] && at <= s.start[i] + s.text[i].len)
            fprintf(to, "%s, ", heading[i]);
}

static void explain_split(FILE *to, struct bytes file) {
    struct sections s = sections_of(file);
    fputs("the file doesn't split into [GLOBAL], [STREAM], [POSITION] and [DATA]: ", to);
    if (s.found == SECTIONS) {
        fputs("a section has no text", to);
        return;
    }
    fprintf(to, "%s on a line of its own was looked for at ", heading[s.found]);
    put_place(to, file, s.at);
    if (s.at == file.len)
        fputs(", where the file ends", to);
}

/* ---- which field (9 has no place): by a plain look at the lines, as a reader of the file would take ----------------------------- */

struct known {
    int section;
    const char *field;
    int required, grouped;
};

static const struct known known[] = {
    {GLOBAL, "HTS_VOICE_VERSION", 1, 0},   {GLOBAL, "SAMPLING_FREQUENCY", 1, 0}, {GLOBAL, "FRAME_PERIOD", 1, 0},
    {GLOBAL, "NUM_STATES", 1, 0},          {GLOBAL, "NUM_STREAMS", 1, 0},        {GLOBAL, "STREAM_TYPE", 1, 0},
    {GLOBAL, "FULLCONTEXT_FORMAT", 1, 0},  {GLOBAL, "FULLCONTEXT_VERSION", 1, 0}, {GLOBAL, "GV_OFF_CONTEXT", 0, 0},
    {GLOBAL, "COMMENT", 0, 0},             {STREAM, "VECTOR_LENGTH", 1, 1},      {STREAM, "NUM_WINDOWS", 1, 1},
    {STREAM, "IS_MSD", 1, 1},              {STREAM, "USE_GV", 0, 1},             {STREAM, "OPTION", 0, 1},
    {POSITION, "DURATION_PDF", 1, 0},      {POSITION, "DURATION_TREE", 1, 0},    {POSITION, "STREAM_WIN", 1, 1},
    {POSITION, "STREAM_PDF", 1, 1},        {POSITION, "STREAM_TREE", 1, 1},      {POSITION, "GV_PDF", 0, 1},
    {POSITION, "GV_TREE", 0, 1},
};

/* The line at `at`, without its newline; moves past it. */
static int next_text_line(struct bytes text, uint64_t *at, struct bytes *line) {
    uint64_t end = *at;
    if (*at >= text.len)
        return 0;
    while (end < text.len && text.at[end] != '\n')
        end++;
    *line = part(text, *at, end - *at);
    *at = end + 1;
    return 1;
}

/* Whether a line's key is the field, in the group if there is one (its brackets included). */
static int has_key(struct bytes line, const char *field, struct bytes group) {
    uint64_t len = strlen(field);
    if (!starts_with(line, field) || line.len < len + group.len + 1)
        return 0;
    return same(part(line, len, group.len), group) && line.at[len + group.len] == ':';
}

static unsigned lines_with(struct bytes text, const char *field, struct bytes group) {
    struct bytes line;
    unsigned n = 0;
    for (uint64_t at = 0; next_text_line(text, &at, &line);)
        n += has_key(line, field, group) ? 1u : 0u;
    return n;
}

/* The group that a line's key names, with its brackets; empty if it names none. */
static struct bytes group_of(struct bytes line) {
    uint64_t first = 0, colon = 0;
    while (colon < line.len && line.at[colon] != ':')
        colon++;
    while (first < colon && line.at[first] != '[')
        first++;
    if (first == colon || line.at[colon - 1] != ']')
        return part(line, 0, 0);
    return part(line, first, colon - first);
}

static int put_if_wrong(FILE *to, const struct known *k, struct bytes text, struct bytes group) {
    unsigned n = lines_with(text, k->field, group);
    if (n == 1 || (n == 0 && !k->required))
        return 0;
    fprintf(to, "%s %s in %s", k->field, n == 0 ? "is missing" : "stands more than once", heading[k->section]);
    if (group.len > 0) {
        fputs(", group ", to);
        put_quoted(to, group);
    }
    return 1;
}

static int put_wrong_in_groups(FILE *to, const struct known *k, struct bytes text) {
    struct bytes line;
    for (uint64_t at = 0; next_text_line(text, &at, &line);) {
        struct bytes group = group_of(line);
        if (group.len > 0 && put_if_wrong(to, k, text, group))
            return 1;
    }
    return 0;
}

static void explain_field(FILE *to, struct bytes file) {
    struct sections s = sections_of(file);
    struct bytes none = part(file, 0, 0);
    for (size_t i = 0; i < sizeof known / sizeof known[0]; i++) {
        const struct known *k = &known[i];
        if (k->grouped ? put_wrong_in_groups(to, k, s.text[k->section]) : put_if_wrong(to, k, s.text[k->section], none))
            return;
    }
    fputs("a field is missing or stands twice, or a range has fewer than two numbers (DURATION_PDF, DURATION_TREE, STREAM_WIN, STREAM_PDF, STREAM_TREE, GV_PDF, GV_TREE)", to);
}

/* ---- sentences ---------------------------------------------------------------------------------------------------------------- */

static const char *expected(uint64_t number) {
    switch (number) {
    case LARSAVIM_UTF8: return "no UTF-8 character begins here";
    case LARSAVIM_EOF: return "the text ends where a value or a colon should still come";
    case LARSAVIM_BOOL: return "a 0 or a 1 was expected";
    case LARSAVIM_INTEGER: return "a number was expected";
    case LARSAVIM_COMMA: return "a comma, or the - of a range, was expected";
    case LARSAVIM_COLON: return "a colon was expected behind the key";
    case LARSAVIM_NEWLINE: return "the end of the line was expected";
    case LARSAVIM_NUMBER: return "this number is 2^64 or more";
    default: return NULL;
    }
}

static void put_limits(FILE *to, struct bytes file) {
    fprintf(to, "a limit is exceeded: %" PRIu64 " bytes (at most %d), or more than %d names in STREAM_TYPE, %d groups in [STREAM] or in [POSITION], %d ranges in a STREAM_WIN, "
            "%d items in an OPTION or %d in GV_OFF_CONTEXT", file.len, LARSAVIM_FILE_LIMIT, LARSAVIM_STREAM_LIMIT, LARSAVIM_STREAM_LIMIT, LARSAVIM_WINDOW_LIMIT,
            LARSAVIM_OPTION_LIMIT, LARSAVIM_GV_OFF_CONTEXT_LIMIT);
}

static void explain_other(FILE *to, const struct voice *v) {
    switch (v->number) {
    case LARSAVIM_SPLIT: explain_split(to, v->file); break;
    case LARSAVIM_FIELD: explain_field(to, v->file); break;
    case LARSAVIM_LIMIT: put_limits(to, v->file); break;
    default: fputs("the library gave a number that its header doesn't have for an opening", to); break;
    }
}

void explain_open(FILE *to, const struct voice *v) {
    const char *sentence = expected(v->number);
    fprintf(to, "refused (%" PRIu64 "): ", v->number);
    if (sentence == NULL) {
        explain_other(to, v);
        return;
    }
    put_section(to, v->file, v->place);
    put_place(to, v->file, v->place);
    fprintf(to, ": %s", sentence);
}

void explain_walk(FILE *to, uint64_t number) {
    fprintf(to, "refused (%" PRIu64 "): ", number);
    if (number == LARSAVIM_STEPS)
        fputs("another question would pass the limit", to);
    else
        fputs("there is no such tree, no record in it, or no answer was given for a question that it asks", to);
}
