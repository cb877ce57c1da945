/* host.h: what the parts of the program `larsavim` share. The program shows what the library behind larsavim.h says of a voice file;
 * it decides nothing about a file by itself. Where it reads a file's text again, that is for the wording of a message alone. */
#ifndef LARSAVIM_HOST_H
#define LARSAVIM_HOST_H

#include <stdint.h>
#include <stdio.h>

#include "larsavim.h"
#include "larsavim_model.h"

/* Exit statuses. */
enum {
    ALL_WELL = 0, /* what was asked for was done, and nothing was refused */
    REFUSED = 1,  /* the library refused the voice, a model or a walk, or a leaf check failed */
    TROUBLE = 2   /* wrong arguments, a file that can't be read, no memory */
};

/* ---- bytes (bytes.c) ---------------------------------------------------------------------------------------------------------- */

struct bytes {
    const uint8_t *at;
    uint64_t len;
};

/* A part of some bytes; empty where it doesn't lie inside them. */
struct bytes part(struct bytes whole, uint64_t start, uint64_t len);
int same(struct bytes a, struct bytes b);
int same_text(struct bytes a, const char *text);
int starts_with(struct bytes a, const char *text);

/* In `"`, with \n \t \r \" \\ and \xHH for bytes outside 0x20 to 0x7e. */
void put_quoted(FILE *to, struct bytes s);

/* A decimal number of 0 to 2^64 - 1 and nothing else: 1 and the number, or 0. */
int read_number(const char *text, uint64_t *number);

/* A sentence on standard error, and exit status 2. For what is nobody's input: no memory, a library that contradicts itself. */
void stop(const char *sentence);

/* ---- memory to lend (lend.c) -------------------------------------------------------------------------------------------------- */

/* Everything that a call of the library reads or writes is lent by these. */
void *lend(uint64_t len); /* bytes */
void give_back(const void *slice, uint64_t len);
struct bytes lend_copy(struct bytes s); /* a copy of some bytes */

/* The slice for answers of so many numbers: one for all calls, so that an answer stands there until the next call. */
uint64_t *answer_slice(uint64_t numbers);

/* ---- lines (lines.c) ---------------------------------------------------------------------------------------------------------- */

/* Cuts a line into words at single spaces, at most `most` of them; how many there are, or 0 for more. */
int cut(char *line, char **words, int most);

/* Hands each line of standard input, without its newline, to `answer`, which prints or says what is wrong with the line (`is no ..`, `has a ..`).
 * A wrong line ends it, with a sentence that has the line's number: exit status 2. */
int answer_lines(const char *verb, const char *(*answer)(char *line, void *with), void *with);

/* ---- files (files.c) ---------------------------------------------------------------------------------------------------------- */

/* Maps a whole file. 1; or 0 after a sentence on standard error: unreadable, no ordinary file, empty, over the limit. */
int map_file(const char *path, struct bytes *file);
void unmap_file(struct bytes file);

/* Writes a file of two parts, whole or not at all. ALL_WELL, or TROUBLE after a sentence. */
int write_file(const char *path, struct bytes first, struct bytes second);

/* Whether two paths lead to one file. */
int same_file(const char *a, const char *b);

/* ---- voices (voice.c) --------------------------------------------------------------------------------------------------------- */

struct pair {
    uint64_t first, second;
};

/* A file that the library opened, or refused with a number and a place. */
struct voice {
    struct bytes file;
    uint64_t number, place;
    uint64_t *words;
};

void open_voice(struct voice *v, struct bytes file);
void close_voice(struct voice *v);

/* Fields of an opened voice, by the constants of larsavim.h. */
uint64_t number_of(const struct voice *v, uint64_t field);
struct pair pair_of(const struct voice *v, uint64_t field);
struct bytes string_of(const struct voice *v, uint64_t field);
struct bytes data_of(const struct voice *v);

/* Models are counted as in larsavim.h: 0 duration, 2i + 1 stream i, 2i + 2 its GV. */
uint64_t models_of(const struct voice *v);
int is_gv(uint64_t which);
struct bytes stream_name(const struct voice *v, uint64_t which);
void put_model_name(FILE *to, const struct voice *v, uint64_t which);

/* The field at which the [STREAM] or [POSITION] group of a model's stream starts: the last of that name. 0: there is none. */
uint64_t stream_group(const struct voice *v, uint64_t which);
uint64_t position_group(const struct voice *v, uint64_t which);

/* The ranges of a model's tree text and PDF block. 1 and the range, or 0 where the header has none. */
int tree_range(const struct voice *v, uint64_t which, struct pair *range);
int pdf_range(const struct voice *v, uint64_t which, struct pair *range);
struct bytes tree_text_of(const struct voice *v, uint64_t which);

/* A GV that USE_GV doesn't ask for: no part of the voice, though it is refused (15) if one asks. */
int is_unasked_gv(const struct voice *v, uint64_t which);

/* ---- models (model.c) --------------------------------------------------------------------------------------------------------- */

/* A model and the tables lent for it are a struct larsavim_model. */
enum {
    QUESTIONS = LARSAVIM_QUESTIONS,
    PATTERNS = LARSAVIM_PATTERNS,
    TREES = LARSAVIM_TREES,
    RECORDS = LARSAVIM_RECORDS,
    VALUES = LARSAVIM_VALUES,
    TABLES = LARSAVIM_TABLES
};

/* Where the answers of larsavim_needs and larsavim_load have what. */
enum {
    OUT_NUMBER = LARSAVIM_OUT_NUMBER,
    OUT_PLACE = LARSAVIM_LOAD_PLACE,
    OUT_LINE = LARSAVIM_LOAD_LINE,
    OUT_ROWS = LARSAVIM_LOAD_QUESTIONS,
    OUT_WORK = LARSAVIM_NEEDS_WORK,
    OUT_WIDTH = LARSAVIM_NEEDS_WIDTH
};

extern const uint64_t row_width[TABLES]; /* numbers in a row; 1 for values */
extern const char *const table_name[TABLES];

#define UNTOUCHED UINT64_C(0x5a5a5a5a5a5a5a5a) /* what tables and work hold before a load */

/* Loads a model into tables of the rows that it needs and so many more, and as many lines of work more. Its number is loaded[0]. */
void load_model(const struct voice *v, uint64_t which, uint64_t spare, struct larsavim_model *m);
void free_model(struct larsavim_model *m);

/* Later calls take the tables cut to the rows that the load returned: moves each to memory of just that length. */
void cut_tables(struct larsavim_model *m);

uint64_t rows_of(const struct larsavim_model *m, int table);
uint64_t width_of(const struct larsavim_model *m);
const uint64_t *row_of(const struct larsavim_model *m, int table, uint64_t i);
int leaves_fit(const struct larsavim_model *m);

/* A walk over a loaded model's tables; out: number, PDF number, questions asked. */
void walk_model(const struct larsavim_model *m, uint64_t tree, struct bytes answers, uint64_t limit, uint64_t out[LARSAVIM_WALK_OUT]);

/* The tree text of a loaded model, out of its tables, in lent memory of just its length. */
struct bytes write_model(const struct larsavim_model *m, struct bytes data);

/* The walks of a sentence, filled where they stand. */
void walk_jobs_model(const struct larsavim_model *m, struct bytes answers, struct larsavim_job *jobs, uint64_t count);

/* The answer bytes of a loaded model's questions to a label, lent; the library's number. */
uint64_t answer_model(const struct voice *v, const struct larsavim_model *m, struct bytes label, struct bytes *answers);

/* How many questions a walk of a loaded tree can ask; out: number, 1 or 0, questions. The work is seen to be zero afterwards. */
void depth_model(const struct larsavim_model *m, uint64_t tree, uint64_t out[LARSAVIM_DEPTH_OUT]);

/* ---- tree text, read again for messages (treetext.c) -------------------------------------------------------------------------- */

/* Only texts in the grammar are read: the library has said so before. Any other bytes give some answer, and harm nothing. */
struct reader {
    struct bytes text;
    uint64_t at;
};

struct written_line {
    struct bytes whole, id, question, no, yes;
    uint64_t start; /* in the text */
};

struct written_tree {
    struct bytes state, lone; /* lone: the one reference of a tree without braces */
    int braced;
    uint64_t start;
};

struct reader trees_of(struct bytes text);
int next_tree(struct reader *r, struct written_tree *t);
int next_line(struct reader *r, struct written_line *l); /* of the braced tree just read; 0 behind the last */
int find_tree(struct bytes text, uint64_t tree, struct reader *r, struct written_tree *t);
int find_line(struct bytes text, uint64_t tree, uint64_t line, struct written_line *l);
int node_id(struct bytes reference, int64_t *id); /* 1 where the reference is a node, and its id */
int bears_id(struct bytes text, uint64_t tree, int64_t id);
int has_question(struct bytes text, struct bytes name);
uint64_t last_question_row(struct bytes text, struct bytes name); /* the last question of a name, counted from 0 */

struct items {
    uint64_t questions, trees;
};

struct items items_before(struct bytes text, uint64_t at);                 /* of a text that is in the grammar up to there */
uint64_t odd_pattern_byte(struct bytes text, uint64_t question);           /* the first byte of the question there that no pattern can have; the text's length if there is none */
uint64_t line_of(struct bytes text, uint64_t at);   /* counted from 1 */
uint64_t column_of(struct bytes text, uint64_t at); /* in bytes, counted from 1 */

/* ---- ways through a loaded tree (ways.c) ------------------------------------------------------------------------------------------ */

#define NOT_MET UINT64_MAX

/* For each record of a tree the one before it on a shortest way from the first record, or NOT_MET. To be freed. */
uint64_t *ways_from_first(const struct larsavim_model *m, uint64_t tree);

/* ---- what a voice builder should look at (warn.c) --------------------------------------------------------------------------------- */

enum warning_kind { DOUBLED_ID, DOUBLED_QUESTION, UNASKED_QUESTION, UNREACHED_LINE };

struct warning {
    enum warning_kind kind;
    uint64_t which, tree, state; /* the model; of a line its tree, and that one's state */
    uint64_t item, offset;       /* the line in its tree or the question, counted from 0, and its byte of the file */
    uint64_t other, other_offset; /* the one before it that bears the same id or name */
    int64_t id;                  /* of a line */
    struct bytes name;           /* of a question */
};

/* Tells everything odd about a model that is loaded: questions, then lines, as they stand in the text. */
void warn_model(const struct voice *v, const struct larsavim_model *m, void (*tell)(const struct warning *w, void *with), void *with);

/* A line of a loaded tree. */
struct seen_line {
    struct written_line written;
    uint64_t offset, twin; /* its byte of the file; the line before it that bears its id, or NOT_MET */
    int64_t id;
    int doubled, reached;
};

/* The lines of the braced tree whose head the reader has just read, as many as its row has; to be freed. */
uint64_t tree_lines(const struct voice *v, const struct larsavim_model *m, uint64_t tree, struct reader *r, struct seen_line **lines);

/* ---- a tree as a picture (draw.c, draw_words.c) ------------------------------------------------------------------------------------- */

struct asked_drawing {
    const char *path;
    uint64_t which, tree;
    int svg;
    struct bytes answers, label; /* lent, or null: the walk whose way is marked */
};

int picture(const struct asked_drawing *a);

enum { NOT_SO = -1 }; /* the words aren't what the verb takes */

int draw_words(int n, char **words);

/* ---- strings for machines (json.c), and how far long work is (progress.c) ---------------------------------------------------------- */

void put_json(FILE *to, struct bytes s);

/* `larsavim: file 3 of 20` on a terminal; nothing elsewhere, and nothing of one alone. */
void show_progress(const char *what, uint64_t at, uint64_t all);
void hide_progress(void);

/* ---- refusals in words (explain.c, explain_load.c) ---------------------------------------------------------------------------- */

void explain_open(FILE *to, const struct voice *v);
void explain_load(FILE *to, const struct voice *v, uint64_t which, const uint64_t *out);
void explain_walk(FILE *to, uint64_t number);

/* The text of [POSITION], where it stands in a file that opens. */
struct bytes position_section(struct bytes file);

/* ---- walks in words (walk.c) --------------------------------------------------------------------------------------------------- */

enum { WALK_WORDS = 4 };

extern const char *const walk_word[WALK_WORDS];   /* MODEL TREE ANSWERS LIMIT */
extern const char *const walk_wanted[WALK_WORDS]; /* what each should be */

struct asked_walk {
    uint64_t which, tree, limit;
    struct bytes answers; /* lent, where all four words are good */
};

/* Answer bytes out of a word of 0 and 1 (`-` is none), lent. 0 where it is empty or has anything else. */
int read_answers(const char *word, struct bytes *answers);

/* Reads the four words; says which of them is wrong, or WALK_WORDS for none. */
int read_walk(char **words, struct asked_walk *w);

/* A line PDF n ASKED k, or REFUSED n. */
void put_walk(const uint64_t out[LARSAVIM_WALK_OUT]);

/* A walk over a file, the line of its answer, and the reason of a refusal to `why`, if there is a place for it. */
int walk_line(struct bytes file, const struct asked_walk *w, FILE *why);

/* ---- tables back to text (write.c) ---------------------------------------------------------------------------------------------- */

/* The tree text of a model, lent; or the number of the refusal, and why to `why`, if there is a place for it. 1 if there is a text. */
int text_of_model(const struct voice *v, uint64_t which, FILE *why, struct bytes *text, uint64_t *number);

/* `TEXT hex`, or `REFUSED n`. */
void put_text_hex(struct bytes file, uint64_t which);

/* `larsavim: FILE: model 1, stream "MCP": ` on standard error. */
void complain_model(const char *path, const struct voice *v, uint64_t which);

/* ---- two tasks in the same tables (shared.c, pair.c) ------------------------------------------------------------------------------ */

enum { SIDES = 2 };
extern const char *const side_name[SIDES];

/* Tables that two tasks share, and each task's bounds. */
struct shared {
    uint64_t *table[TABLES];
    uint64_t lent[TABLES]; /* numbers of each table */
    int64_t *work;
    uint64_t work_lent;
    uint64_t *held[2];
};

/* Tables and work of so many numbers, each UNTOUCHED; both tasks hold nothing. */
void lend_shared(struct shared *s, const uint64_t numbers[TABLES], uint64_t work);
void free_shared(struct shared *s);

/* The library's number; out as larsavim_load's. */
uint64_t load_shared(struct shared *s, const struct voice *v, uint64_t which, uint64_t side, uint64_t out[LARSAVIM_LOAD_OUT]);
uint64_t unload_shared(struct shared *s, uint64_t side);

/* A whole voice by the house's rules, likewise; out as larsavim_house's. */
uint64_t house_shared(struct shared *s, struct bytes file, uint64_t side, uint64_t out[LARSAVIM_HOUSE_OUT]);

/* One tree of a model through the file's trailer, likewise (tree.c); and the line of a load. */
uint64_t load_tree(struct shared *s, const struct voice *v, uint64_t which, uint64_t tree, uint64_t side, uint64_t out[LARSAVIM_LOAD_OUT]);
void put_loaded(const uint64_t out[LARSAVIM_LOAD_OUT]);

/* A task's rows, cut out into memory of just their length; 0 where its bounds pass a table. To be freed as a model; its width is not set. */
int own_rows(const struct shared *s, uint64_t side, struct larsavim_model *m);

int read_side(const char *word, uint64_t *side); /* `bottom` or `top` */

/* Why a task's call was refused with 20, 24 or 29, of a model that needs so much. */
void explain_shared(FILE *to, const struct shared *s, uint64_t side, const uint64_t *needs, uint64_t number);

/* The bytes of a word of hex, in lent memory (rig/hex.c). 0 where it is none. */
int bytes_of_hex(const char *word, struct bytes *out);

/* ---- house voices (house.c) ------------------------------------------------------------------------------------------------------ */

/* A voice by the house's rules, in tables of just the rows that its largest model needs; one that doesn't open has the opening's number and place. */
void judge_house(const struct voice *v, uint64_t out[LARSAVIM_HOUSE_OUT]);

/* Whether a rule was broken (30 to 36), and which, as a sentence. */
int breaks_rule(const uint64_t out[LARSAVIM_HOUSE_OUT]);
void explain_rule(FILE *to, const struct voice *v, const uint64_t out[LARSAVIM_HOUSE_OUT]);

/* ---- the verbs ---------------------------------------------------------------------------------------------------------------- */

int inspect(const char *path);      /* inspect.c */
int check(int json, int strict, int files, char **paths); /* check.c */
int tables(int files, char **paths); /* tables.c */
int dump(const char *path);         /* dump.c */
void dump_voice(struct bytes file); /* dump.c */
void put_tables(const struct voice *v, const struct larsavim_model *m); /* dump.c: the rows of a loaded model */
int walk(char **words);             /* walk.c */
int sentence(char **words);         /* sentence.c */
int write_text(char **words);       /* write.c */
int save(char **words);             /* save.c */
int demo(const char *path);         /* demo.c */
int answers(char **words);          /* label.c */
int say(char **words);              /* label.c */
int depth(int n, char **words);     /* depth.c */
int pair_up(char **words);          /* pair.c */
int accept_rows(char **words);      /* accept.c */
int trail(char **words);            /* trail.c */
int trailer(const char *path);      /* trail.c */
int one_tree(char **words);         /* tree.c */
void explain_text_refusal(FILE *to, const struct voice *v, uint64_t which, const uint64_t *out); /* accept.c */
int bare(char **words);             /* bare.c */
int house(int files, char **paths); /* house.c */
void show_depth(const struct larsavim_model *m); /* depth.c: of `inspect` */

/* ---- the test rig (rig/), or nothing (plain.c) ----------------------------------------------------------------------------------- */

/* Whether lent memory stands between guards: LARSAVIM_GUARD in the environment. */
int guarded(void);
void *lend_between(uint64_t len); /* NULL: there is not enough memory */
void take_between(uint8_t *slice, uint64_t len);

/* Runs one of the rig's verbs; NOT_SO where there is none of that name. And what its help says of them. */
int rig_verb(const char *verb, int n, char **words);
const char *rig_usage(void);
int hex(void);               /* rig/hex.c */
int walks(const char *path); /* rig/walks.c */
int share(void);             /* rig/share.c */

#endif
