/* larsavim.h: a loader for HTS voice files (.htsvoice) that takes no memory of its own and trusts no byte of its input.
 *
 * This header is all that a program needs. Behind it stands a static library (crate `larsavim`) whose calls are proved to answer as
 * is written here, for any bytes, any words, any numbers and any lengths. Two things no call can check, and the caller sees to them:
 *
 *   1. each pointer is good for its length: that many bytes, 8-byte numbers or jobs can be read there (and written, where the parameter
 *      is not const), at an address that suits their type, and nobody else writes them until the call returns. A length of 0 asks
 *      nothing of its pointer, which may be null;
 *   2. nothing that is lent for writing (`words` of the calls that open a file, the tables and the work of larsavim_load, the tables, the
 *      work and `held` of the calls of a task, the work of larsavim_depth, the answers of larsavim_answers, the jobs, the buffer of
 *      larsavim_write, every `out`) overlaps another slice of the same call.
 *
 * Numbers are 64 bits wide; a slice is a pointer and, behind it, how many bytes, numbers or jobs it has. No call keeps a pointer.
 * 01 is docs/01-scope.md, whose words are used here; docs/INTEGRATION.md shows the calls at work.
 */
#ifndef LARSAVIM_H
#define LARSAVIM_H

#include <stdint.h>

#ifdef __cplusplus
extern "C" {
#endif

/* Of this header and the library that it came with; CHANGELOG.md says what each version changed. The number is 10000 * major + 100 * minor + patch, for #if. */
#define LARSAVIM_VERSION "1.0.0"
#define LARSAVIM_VERSION_NUMBER 10000

/* ---- Numbers the loader gives ------------------------------------------------------------------------------------------------ */

#define LARSAVIM_SUCCESS 0
#define LARSAVIM_SPLIT 1      /* the file doesn't split into [GLOBAL], [STREAM], [POSITION] and [DATA] */
#define LARSAVIM_UTF8 2       /* a header section is no UTF-8; place: the start of the first bad sequence */
#define LARSAVIM_EOF 3        /* unexpected end of input; place: the end of the section or group value */
#define LARSAVIM_BOOL 4       /* expected bool (0 or 1); place, as in 5 to 8: the first byte not accepted */
#define LARSAVIM_INTEGER 5    /* expected integer value */
#define LARSAVIM_COMMA 6      /* expected comma as an array delimiter */
#define LARSAVIM_COLON 7      /* expected colon as map delimiter */
#define LARSAVIM_NEWLINE 8    /* expected newline as map delimiter */
#define LARSAVIM_FIELD 9      /* a field is missing or stands twice, or a pair has fewer than two numbers */
#define LARSAVIM_NUMBER 10    /* a header number is 2^64 or more; place: its first digit */
/* 11 is never given: a header section is read to its last byte or refused by another number. */
#define LARSAVIM_LIMIT 12     /* a limit below is exceeded */
#define LARSAVIM_NOPOS 13     /* a STREAM_TYPE name has no entry in [POSITION], or there is no such stream number */
#define LARSAVIM_NOSTREAM 14  /* a STREAM_TYPE name has no entry in [STREAM] */
#define LARSAVIM_USEGV 15     /* GV is asked for, and USE_GV is 0 or GV_TREE or GV_PDF is absent */
#define LARSAVIM_RANGE 16     /* a range isn't inside the data, or the record doesn't fit its limits or the file; or words that are no record */
#define LARSAVIM_TEXT 17      /* tree text outside the grammar; place: where it breaks, counted from the first data byte. Of larsavim_write: rows that no text
                               * reads back to */
#define LARSAVIM_STATE 18     /* tree text in the grammar, but a state is negative */
#define LARSAVIM_BLOCK 19     /* the length of a PDF block is wrong */
#define LARSAVIM_ROOM 20      /* a lent table, the work, the words or the answer's slice is smaller than needed */
#define LARSAVIM_NODEREF 21   /* a line refers to an id that no line bears; place: the tree; line: the line */
#define LARSAVIM_QUESTREF 22  /* a line asks a question that isn't there; place and line as in 21. Of larsavim_write: a byte that no name or pattern can have */
#define LARSAVIM_LONENODE 23  /* a tree's one reference is a node; place and line as in 21 */
#define LARSAVIM_WALKTABLE 24 /* no such tree or no record in it, a record met outside its tree, the tables or the kinds, or no answer for its question.
                               * Of larsavim_answers: a pattern outside its table or the data. Of larsavim_write: a row points outside its table or the data.
                               * Of larsavim_load_shared, larsavim_load_tree, larsavim_house and larsavim_unload: the two tasks' bounds overlap or pass a
                               * table, or there is no such side; of larsavim_load_tree also: the model has no such row in the trailer */
#define LARSAVIM_STEPS 25     /* another question would pass the walk's limit */
#define LARSAVIM_TRAILER 26   /* the buffer is too short for a trailer, the file with it would pass the limit, or there are fewer than 12 data bytes */
#define LARSAVIM_SUM 27       /* the trailer's sum isn't that of the bytes before it */
#define LARSAVIM_TRAILER_ROWS 28 /* the trailer's rows don't end where its last three numbers begin, or aren't the text's */
#define LARSAVIM_HELD 29      /* the task already holds a model */
#define LARSAVIM_STREAM_NUMBER 30 /* 30 to 36 of larsavim_house alone. NUM_STREAMS isn't the number of names in STREAM_TYPE */
#define LARSAVIM_STREAM_TWICE 31 /* a name stands twice in STREAM_TYPE */
#define LARSAVIM_IDS 32       /* a tree's ids aren't 0, -1, -2, .. in line order */
#define LARSAVIM_NAME_TWICE 33 /* a question name stands twice */
#define LARSAVIM_LEAF 34      /* a leaf is 0 or past its tree's entries */
#define LARSAVIM_MEAN 35      /* a mean isn't finite */
#define LARSAVIM_VARIANCE 36  /* a variance isn't finite and above zero */
#define LARSAVIM_OTHER_ROWS 37 /* record rows that don't belong to the tree */

/* A place is a file offset, counted from 0, for 2 to 8 and 10; for 17 of a load an offset from the first data byte (LARSAVIM_DATA_START): the
 * first byte of the question or tree that doesn't fit, of other text after a tree, or the end of the range where no tree stands; the tree,
 * counted from 0, for 21 to 23; otherwise 0. A line is counted from 0 within its tree, for 21 to 23; otherwise 0. */

/* ---- Limits ------------------------------------------------------------------------------------------------------------------- */

#define LARSAVIM_FILE_LIMIT 16777216      /* bytes of a file */
#define LARSAVIM_STREAM_LIMIT 8           /* names in STREAM_TYPE; bracketed names in [STREAM]; and in [POSITION] */
#define LARSAVIM_WINDOW_LIMIT 8           /* ranges in STREAM_WIN */
#define LARSAVIM_OPTION_LIMIT 16          /* items of OPTION */
#define LARSAVIM_GV_OFF_CONTEXT_LIMIT 32  /* items of GV_OFF_CONTEXT */
#define LARSAVIM_WIDTH_LIMIT 4096         /* values in an entry of a PDF block */

/* ---- Answers -------------------------------------------------------------------------------------------------------------------
 * A call with an `out` writes its answer there, so many numbers as its constant says, all of them in every case, and returns the
 * first one, which is 0 or why it refuses. Numbers of `out` beyond the answer are unchanged. Where `out` is shorter, the call
 * returns 20 before it looks at anything else, and writes nothing anywhere. */

#define LARSAVIM_OPEN_OUT 2     /* number, place */
#define LARSAVIM_COMMENT_OUT 4  /* number, slice, start, length */
#define LARSAVIM_GET_OUT 2      /* number, value */
#define LARSAVIM_PAIR_OUT 3     /* number, first, second */
#define LARSAVIM_NEEDS_OUT 10   /* number, place, line, questions, patterns, trees, records, values, work, width */
#define LARSAVIM_LOAD_OUT 8     /* number, place, line, questions, patterns, trees, records, values */
#define LARSAVIM_WALK_OUT 3     /* number, PDF number, questions asked */
#define LARSAVIM_WRITE_NEEDS_OUT 2 /* number, length */
#define LARSAVIM_WRITE_OUT 2    /* number, length */
#define LARSAVIM_DEPTH_OUT 3    /* number, 1 or 0, questions */
#define LARSAVIM_ACCEPTS_OUT 3  /* number, place, line */
#define LARSAVIM_TRAILER_OUT 3  /* number, place, bytes of the trailer */
#define LARSAVIM_TRAILED_OUT 4  /* number, place, rows, file offset of the first row */
#define LARSAVIM_BARE_OUT 6     /* number, place, line, PDF number, questions asked, lines read */
#define LARSAVIM_HOUSE_OUT 4    /* number, place, line, model */

/* Where an answer has what: the number comes first in all of them. */
#define LARSAVIM_OUT_NUMBER 0
#define LARSAVIM_OPEN_PLACE 1
#define LARSAVIM_COMMENT_SLICE 1
#define LARSAVIM_COMMENT_START 2
#define LARSAVIM_COMMENT_LENGTH 3
#define LARSAVIM_GET_VALUE 1
#define LARSAVIM_PAIR_FIRST 1
#define LARSAVIM_PAIR_SECOND 2
#define LARSAVIM_NEEDS_PLACE 1
#define LARSAVIM_NEEDS_LINE 2
#define LARSAVIM_NEEDS_QUESTIONS 3
#define LARSAVIM_NEEDS_PATTERNS 4
#define LARSAVIM_NEEDS_TREES 5
#define LARSAVIM_NEEDS_RECORDS 6
#define LARSAVIM_NEEDS_VALUES 7
#define LARSAVIM_NEEDS_WORK 8
#define LARSAVIM_NEEDS_WIDTH 9
#define LARSAVIM_LOAD_PLACE 1
#define LARSAVIM_LOAD_LINE 2
#define LARSAVIM_LOAD_QUESTIONS 3
#define LARSAVIM_LOAD_PATTERNS 4
#define LARSAVIM_LOAD_TREES 5
#define LARSAVIM_LOAD_RECORDS 6
#define LARSAVIM_LOAD_VALUES 7
#define LARSAVIM_WALK_PDF 1
#define LARSAVIM_WALK_ASKED 2
#define LARSAVIM_WRITE_NEEDS_LENGTH 1
#define LARSAVIM_WRITE_LENGTH 1
#define LARSAVIM_DEPTH_ENDS 1      /* 1: every walk of the tree ends by itself */
#define LARSAVIM_DEPTH_QUESTIONS 2
#define LARSAVIM_ACCEPTS_PLACE 1
#define LARSAVIM_ACCEPTS_LINE 2
#define LARSAVIM_TRAILER_PLACE 1
#define LARSAVIM_TRAILER_BYTES 2   /* told with 0 and 26 */
#define LARSAVIM_TRAILED_PLACE 1
#define LARSAVIM_TRAILED_ROWS 2
#define LARSAVIM_TRAILED_BEGIN 3
#define LARSAVIM_BARE_PLACE 1
#define LARSAVIM_BARE_LINE 2
#define LARSAVIM_BARE_PDF 3
#define LARSAVIM_BARE_ASKED 4
#define LARSAVIM_BARE_READ 5
#define LARSAVIM_HOUSE_PLACE 1
#define LARSAVIM_HOUSE_LINE 2
#define LARSAVIM_HOUSE_MODEL 3

/* ---- Opening -------------------------------------------------------------------------------------------------------------------
 * The header record crosses as words: LARSAVIM_WORDS numbers that an opening writes and later calls take back. Words that no
 * opening wrote are judged like any record. Every call that takes words says 20 where there are fewer than LARSAVIM_WORDS (before
 * all else but a short `out`), then 16 where a flag is neither 0 nor 1; words beyond LARSAVIM_WORDS are neither read nor written. */

#define LARSAVIM_WORDS 647

/* Opens a file. out: number (0, 1 to 10, 12, 20), place. On 0 the words hold the record. A refused opening leaves the words unchanged;
 * fewer words than LARSAVIM_WORDS is 20, after every refusal of the file. */
uint64_t larsavim_open(const uint8_t *file, uint64_t file_len, uint64_t *words, uint64_t words_len, uint64_t *out, uint64_t out_len);

/* The value of COMMENT. out: number (0, 16, 20), slice, start, length: `length` bytes from `start` on, without quotes, of the file
 * (slice 0), or of the caller's own fallback text of `fallback_len` bytes, whole (slice 1, start 0), where the key is missing. A
 * record that points past the file counts as missing, an empty value doesn't. Refused: slice, start and length are 0. */
uint64_t larsavim_comment(uint64_t file_len, const uint64_t *words, uint64_t words_len, uint64_t fallback_len, uint64_t *out, uint64_t out_len);

/* ---- The record ----------------------------------------------------------------------------------------------------------------
 * A field is named by a constant below. larsavim_get reads a number, a count or a flag, out: number (0, 16, 20), value.
 * larsavim_pair reads a string or a range, out: number (0, 16, 20), first, second: of a string its start, counted from the file's
 * first byte, and its length, without quotes; of a range its first and its last byte, counted from the first data byte, the last
 * one included: 5-5 is one byte, 5-4 is none. A field that the record doesn't have is 16; refused, the values are 0. What stands
 * past a list's count or beside a flag of 0 is 0 in words that an opening wrote. */

uint64_t larsavim_get(const uint64_t *words, uint64_t words_len, uint64_t field, uint64_t *out, uint64_t out_len);
uint64_t larsavim_pair(const uint64_t *words, uint64_t words_len, uint64_t field, uint64_t *out, uint64_t out_len);

/* [GLOBAL] */
#define LARSAVIM_HTS_VOICE_VERSION 0         /* string */
#define LARSAVIM_SAMPLING_FREQUENCY 2        /* number */
#define LARSAVIM_FRAME_PERIOD 3              /* number */
#define LARSAVIM_NUM_STATES 4                /* number */
#define LARSAVIM_NUM_STREAMS 5               /* number */
#define LARSAVIM_STREAM_TYPE 6               /* strings: k-th at + 2 * k */
#define LARSAVIM_STREAM_TYPE_COUNT 22        /* count */
#define LARSAVIM_FULLCONTEXT_FORMAT 23       /* string */
#define LARSAVIM_FULLCONTEXT_VERSION 25      /* string */
#define LARSAVIM_GV_OFF_CONTEXT 27           /* strings: k-th at + 2 * k */
#define LARSAVIM_GV_OFF_CONTEXT_COUNT 91     /* count */
#define LARSAVIM_COMMENT 92                  /* string, where HAS_COMMENT is 1 */
#define LARSAVIM_HAS_COMMENT 94              /* flag */

/* [STREAM]: group i, by first appearance, at LARSAVIM_STREAM(i) + .. */
#define LARSAVIM_STREAMS 95
#define LARSAVIM_STREAM_WORDS 39
#define LARSAVIM_STREAM(i) (LARSAVIM_STREAMS + LARSAVIM_STREAM_WORDS * (uint64_t)(i))
#define LARSAVIM_STREAM_NAME 0               /* string, in brackets in the file */
#define LARSAVIM_VECTOR_LENGTH 2             /* number */
#define LARSAVIM_NUM_WINDOWS 3               /* number */
#define LARSAVIM_IS_MSD 4                    /* flag */
#define LARSAVIM_USE_GV 5                    /* flag */
#define LARSAVIM_OPTION 6                    /* strings: k-th at + 2 * k */
#define LARSAVIM_OPTION_COUNT 38             /* count */
#define LARSAVIM_STREAM_COUNT 407            /* count of groups */

/* [POSITION] */
#define LARSAVIM_DURATION_PDF 408            /* range */
#define LARSAVIM_DURATION_TREE 410           /* range */

/* [POSITION]: group i, by first appearance, at LARSAVIM_POSITION(i) + .. */
#define LARSAVIM_POSITIONS 412
#define LARSAVIM_POSITION_WORDS 29
#define LARSAVIM_POSITION(i) (LARSAVIM_POSITIONS + LARSAVIM_POSITION_WORDS * (uint64_t)(i))
#define LARSAVIM_POSITION_NAME 0             /* string, in brackets in the file */
#define LARSAVIM_STREAM_WIN 2                /* ranges: k-th at + 2 * k */
#define LARSAVIM_STREAM_WIN_COUNT 18         /* count */
#define LARSAVIM_STREAM_PDF 19               /* range */
#define LARSAVIM_STREAM_TREE 21              /* range */
#define LARSAVIM_GV_PDF 23                   /* range, where HAS_GV_PDF is 1 */
#define LARSAVIM_HAS_GV_PDF 25               /* flag */
#define LARSAVIM_GV_TREE 26                  /* range, where HAS_GV_TREE is 1 */
#define LARSAVIM_HAS_GV_TREE 28              /* flag */
#define LARSAVIM_POSITION_COUNT 644          /* count of groups */

/* [DATA], in the file */
#define LARSAVIM_DATA_START 645              /* number */
#define LARSAVIM_DATA_LEN 646                /* number; both as a string at LARSAVIM_DATA_START */

/* ---- Loading a model -----------------------------------------------------------------------------------------------------------
 * `which` names a model: the duration model, or the model or GV model of the i-th name in STREAM_TYPE. */

#define LARSAVIM_DURATION 0
#define LARSAVIM_STREAM_MODEL(i) (2 * (uint64_t)(i) + 1)
#define LARSAVIM_GV_MODEL(i) (2 * (uint64_t)(i) + 2)

/* Tables are rows of so many numbers, row i from the (width * i)-th on. A table has length div width rows; a rest is never read.
 *   question  name start, name length, first pattern, patterns
 *   pattern   start, length
 *   tree      state, first record, records, lines, first value, entries
 *   record    0, question, yes, no   (a line: yes and no count from the tree's first record)
 *             1, PDF number, 0, 0    (a leaf)
 * String starts count from the first data byte. Values are binary64 bit patterns: each entry of a tree as mean, variance, mean,
 * variance, .., and msd where the width is odd. Entries count from 1: entry n of tree t has the width's number of values, from
 * trees[LARSAVIM_TREE_ROW * t + LARSAVIM_TREE_VALUE] + (n - 1) * width on. */
#define LARSAVIM_QUESTION_ROW 4
#define LARSAVIM_PATTERN_ROW 2
#define LARSAVIM_TREE_ROW 6
#define LARSAVIM_RECORD_ROW 4
#define LARSAVIM_WORK_A_LINE 6  /* numbers of work for each line of the longest tree */
#define LARSAVIM_WORK_A_RECORD 4 /* numbers of work of larsavim_depth for each record of the tree */

/* Where a row has what. */
#define LARSAVIM_QUESTION_START 0     /* of its name */
#define LARSAVIM_QUESTION_LEN 1
#define LARSAVIM_QUESTION_FIRST 2     /* pattern */
#define LARSAVIM_QUESTION_PATTERNS 3
#define LARSAVIM_PATTERN_START 0
#define LARSAVIM_PATTERN_LEN 1
#define LARSAVIM_TREE_STATE 0
#define LARSAVIM_TREE_FIRST 1         /* record */
#define LARSAVIM_TREE_RECORDS 2
#define LARSAVIM_TREE_LINES 3
#define LARSAVIM_TREE_VALUE 4         /* the first */
#define LARSAVIM_TREE_ENTRIES 5
#define LARSAVIM_RECORD_KIND 0        /* 0 a line, 1 a leaf */
#define LARSAVIM_RECORD_QUESTION 1    /* of a line, as yes and no */
#define LARSAVIM_RECORD_YES 2
#define LARSAVIM_RECORD_NO 3
#define LARSAVIM_RECORD_PDF 1         /* of a leaf */

/* What a model needs, without tables. out: number (0, 12 to 19, 20), place, line, then rows of questions, patterns, trees and
 * records, values, numbers of work, and the width (values in an entry). Refused: all but the number are 0. */
uint64_t larsavim_needs(const uint8_t *file, uint64_t file_len, const uint64_t *words, uint64_t words_len, uint64_t which, uint64_t *out, uint64_t out_len);

/* Loads a model into the lent tables. out: number (0, 12 to 23), place, line, then rows needed of questions, patterns, trees and
 * records, and values; these five are 0 when refused. Order: 20 for `out` and words, 16 for the record, 13, 14, 15, the
 * width's limit (12), tree 16, 17, 18, PDF 16, 19, room 20, then linking, 21 to 23.
 * Success: the rows stand at the front of each table, what is beyond them is unchanged, the work is zero over its whole length.
 * Refused up to 20: everything lent but `out` is unchanged. 21 to 23: in each table the rows that the model needs (larsavim_needs) are zero,
 * what is beyond them is unchanged, and the work is zero over its whole length.
 * Later calls take the tables cut to the rows that the load returned. */
uint64_t larsavim_load(const uint8_t *file, uint64_t file_len, const uint64_t *words, uint64_t words_len, uint64_t which,
                       uint64_t *questions, uint64_t questions_len, uint64_t *patterns, uint64_t patterns_len,
                       uint64_t *trees, uint64_t trees_len, uint64_t *records, uint64_t records_len,
                       uint64_t *values, uint64_t values_len, int64_t *work, uint64_t work_len, uint64_t *out, uint64_t out_len);

/* ---- Two tasks in the same tables ------------------------------------------------------------------------------------------------
 * Two tasks can hold a model each in one set of tables: the rows of the bottom task are the first of each table, those of the top task the last
 * whole ones, in their order; what is left over behind the last whole row is nobody's. Each task keeps its own bounds, LARSAVIM_BOUNDS
 * numbers that begin as 0 and that these calls write; the other's are only read. Every reference of a row counts from the task's own first row of that
 * table, so that its rows, cut out by LARSAVIM_FIRST, are those of a load into tables of its own, and all other calls take them so. Nothing that a task does changes
 * the other's rows or bounds; the other is seen in one thing alone, whether there is room (20). The work belongs to one call. The two take turns: rule 1. */

#define LARSAVIM_BOTTOM 0
#define LARSAVIM_TOP 1
#define LARSAVIM_BOUNDS 5       /* rows held of questions, patterns, trees, records; values. All 0: the task holds nothing */

/* The first number of a task's `rows` rows, in a table of `len` numbers whose rows have `row` numbers: they are the row * rows numbers from there on. */
#define LARSAVIM_FIRST(side, len, row, rows) ((side) == LARSAVIM_TOP ? (row) * ((len) / (row) - (rows)) : 0)

/* Loads a model into one task's rows. out: as larsavim_load; number (0, 12 to 24, 29). held: the task's own bounds, written on 0 alone; other: the other task's.
 * Order: 20 for out, held and other; 29 where a number of `held` is not 0; 24 where side is neither 0 nor 1, or the other's rows pass a table; then as larsavim_load, where a
 * table's room is what the other's rows leave. Success: the task's rows are the model's. 21 to 23: the rows that it would have had are zero, and the task holds
 * nothing. Nothing else differs, but for `out` and the work, which is as after larsavim_load. */
uint64_t larsavim_load_shared(const uint8_t *file, uint64_t file_len, const uint64_t *words, uint64_t words_len, uint64_t which, uint64_t side,
                              uint64_t *held, uint64_t held_len, const uint64_t *other, uint64_t other_len,
                              uint64_t *questions, uint64_t questions_len, uint64_t *patterns, uint64_t patterns_len,
                              uint64_t *trees, uint64_t trees_len, uint64_t *records, uint64_t records_len,
                              uint64_t *values, uint64_t values_len, int64_t *work, uint64_t work_len, uint64_t *out, uint64_t out_len);

/* Loads one tree of a model through the trailer behind the data, into one task's rows: all questions and patterns of the model, one tree row, its records and the values of its
 * entries. Only the last 12 bytes, the trailer's rows, the questions, that tree and the block are read. tree: counted from 0 among the model's rows. out: as larsavim_load, with 1
 * tree; number (0, 12 to 24, 26, 28, 29). Order: 20, 29 and 24 for bounds, as larsavim_load_shared; 16 for the record; 26 for fewer than 12 data bytes; 28 where the rows don't
 * end where the last three numbers begin; 13 to 15, 12; 16 for the tree text; 24 where the model has no such row; 17 and 18 for the questions and that tree, which stands where
 * its row says; 16 and 19 for the block, of as many trees as the model has rows; 20; 21 to 23 for that tree, with its number as the place. Success: the tree's row is
 * (state, 0, records, lines, 0, entries). 21 to 23: as larsavim_load_shared. Of a file that ends in its trailer, the rows are those that a full load has for that tree. */
uint64_t larsavim_load_tree(const uint8_t *file, uint64_t file_len, const uint64_t *words, uint64_t words_len, uint64_t which, uint64_t tree, uint64_t side,
                            uint64_t *held, uint64_t held_len, const uint64_t *other, uint64_t other_len,
                            uint64_t *questions, uint64_t questions_len, uint64_t *patterns, uint64_t patterns_len,
                            uint64_t *trees, uint64_t trees_len, uint64_t *records, uint64_t records_len,
                            uint64_t *values, uint64_t values_len, int64_t *work, uint64_t work_len, uint64_t *out, uint64_t out_len);

/* Judges a voice by the house's rules, which promise more than the format, model after model in one task's rows: the duration model, then each stream of STREAM_TYPE and, unless its
 * USE_GV is 0, its GV; each is unloaded before the next is loaded. 0 exactly where every model loads and no rule is broken. The rules: NUM_STREAMS is the number of names in STREAM_TYPE
 * (30), none of which stands twice (31); of each model, the ids of every tree in braces are 0, -1, -2, .. in line order (32; a lone reference has none), no question name stands twice
 * (33), every leaf is one of its tree's entries, which count from 1 (34), every mean is finite (35), every variance finite and above zero (36); msd is free. out: number (0, 1 to 10, 12
 * to 24, 29 to 36), place, line, model: the model that is refused or breaks the rule, 0 for all other numbers. Order: 20, 29 and 24 for bounds, as larsavim_load_shared; those of opening,
 * with the record into the words as larsavim_open has it; of each model in turn 12 to 23, as larsavim_load_shared; only then 30, 31, and 32 to 36 of the first model that breaks one, the
 * first rule that it breaks. 29, 24 and the refusals of opening change nothing but `out`. 0 and 30 to 36: the task's rows are the last model's, and `held` are its bounds. 12 to 23: what
 * the model's own load leaves, where the rows of the models before it are zero; the task holds nothing. The other's rows are as before in every case. */
uint64_t larsavim_house(const uint8_t *file, uint64_t file_len, uint64_t *words, uint64_t words_len, uint64_t side,
                        uint64_t *held, uint64_t held_len, const uint64_t *other, uint64_t other_len,
                        uint64_t *questions, uint64_t questions_len, uint64_t *patterns, uint64_t patterns_len,
                        uint64_t *trees, uint64_t trees_len, uint64_t *records, uint64_t records_len,
                        uint64_t *values, uint64_t values_len, int64_t *work, uint64_t work_len, uint64_t *out, uint64_t out_len);

/* Zeroes a task's rows and its bounds; of a task that holds nothing it changes nothing. Returns 0; 20 where bounds have fewer than LARSAVIM_BOUNDS numbers; 24 where side is
 * neither 0 nor 1, or the two tasks' rows overlap or pass a table. Refused, nothing is written. */
uint64_t larsavim_unload(uint64_t side, uint64_t *held, uint64_t held_len, const uint64_t *other, uint64_t other_len,
                         uint64_t *questions, uint64_t questions_len, uint64_t *patterns, uint64_t patterns_len,
                         uint64_t *trees, uint64_t trees_len, uint64_t *records, uint64_t records_len,
                         uint64_t *values, uint64_t values_len);

/* ---- Loaded tables -------------------------------------------------------------------------------------------------------------- */

/* The answers of all questions to one label: one byte a question row, 1 where any of its patterns matches the whole label, else 0; bytes beyond are
 * unchanged. In a pattern `*` stands for any run of bytes, empty too, `?` for exactly one byte, everything else for itself. `data` is the file from DATA_START on,
 * DATA_LEN bytes. Returns 0; 24 where a pattern of a row isn't in its table or its bytes aren't in the data; then 20 where `answers` has fewer bytes than there
 * are question rows. Refused, nothing is written. */
uint64_t larsavim_answers(const uint8_t *label, uint64_t label_len, const uint64_t *questions, uint64_t questions_len, const uint64_t *patterns,
                          uint64_t patterns_len, const uint8_t *data, uint64_t data_len, uint8_t *answers, uint64_t answers_len);

/* Walks one tree from its first record on, with one answer byte a question (0 is no, any other is yes) and a limit on the
 * questions asked. out: number (0, 20, 24, 25), PDF number, questions asked; both are 0 when refused. Only records met are judged:
 * inside the tree's records and the table, kind, answer byte (24), then the limit (25). */
uint64_t larsavim_walk(const uint64_t *trees, uint64_t trees_len, const uint64_t *records, uint64_t records_len, uint64_t tree,
                       const uint8_t *answers, uint64_t answers_len, uint64_t limit, uint64_t *out, uint64_t out_len);

/* How many questions a walk of one tree can ask, whatever the answers. out: number (0, 20, 24), 1 or 0, questions. 1: no path of references from the first record
 * meets a record twice, each branch taken freely, and `questions` is the greatest number of questions on any path; no walk of the tree asks more, and with a limit of
 * that many none is ended by it (25). 0: some path does, and only the limit ends a walk that goes round; `questions` is 0. Order: 20 for `out`, then 20 where the
 * work has fewer than LARSAVIM_WORK_A_RECORD numbers for each record of the tree's row, then 24 as in larsavim_walk, answers aside, of any record that a path can meet. The
 * work may hold anything before; afterwards it is zero over its whole length, but unchanged after 20. */
uint64_t larsavim_depth(const uint64_t *trees, uint64_t trees_len, const uint64_t *records, uint64_t records_len, uint64_t tree, int64_t *work,
                        uint64_t work_len, uint64_t *out, uint64_t out_len);

/* One walk of a sentence. larsavim_walk_jobs fills number, pdf and asked; tree, limit and start stay. */
struct larsavim_job {
    uint64_t tree;   /* as in larsavim_walk */
    uint64_t limit;  /* as in larsavim_walk */
    uint64_t start;  /* its first answer byte, in the shared slice */
    uint64_t number; /* 0, 24 or 25 */
    uint64_t pdf;    /* PDF number; 0 when refused */
    uint64_t asked;  /* questions asked; 0 when refused */
};

/* Walks for each job, as larsavim_walk does with the answers from the job's start to the slice's end. A start past the slice is 24; one
 * at its end has no answers. A refused job doesn't end the call, and no job touches another. `jobs_len` counts jobs. */
void larsavim_walk_jobs(const uint64_t *trees, uint64_t trees_len, const uint64_t *records, uint64_t records_len, const uint8_t *answers,
                        uint64_t answers_len, struct larsavim_job *jobs, uint64_t jobs_len);

/* The leaf check: 1 where, for each tree, its records, their questions and its values at the width given stand inside their tables,
 * each yes and no inside its records, kinds are 0 or 1, and every leaf's number is one of its tree's entries, from 1 to their count;
 * otherwise 0. */
uint64_t larsavim_leaves(const uint64_t *questions, uint64_t questions_len, const uint64_t *trees, uint64_t trees_len,
                         const uint64_t *records, uint64_t records_len, const uint64_t *values, uint64_t values_len, uint64_t width);

/* ---- Tree text by itself ---------------------------------------------------------------------------------------------------------- */

/* Whether record rows that somebody else linked belong to a tree of a tree text (the bytes of a STREAM_TREE, DURATION_TREE or GV_TREE range): then every walk over
 * them ends as the text says. `records` are the tree's rows, from its first on. They belong to it exactly where the lines come first, in order, with the right
 * question rows (those that a load of the text writes), every reference to an id goes to the last line bearing it, every PDF reference to a leaf of that number, and
 * every row after the lines is a leaf (1, number, 0, 0); a bare leaf is one leaf of its number, empty braces have no rows. out: number (0, 17, 18, 20 to 24, 37), place,
 * line. Order: 20 for `out`, 17 (place: from the text's first byte on), 18, 24 for no such tree, 21 to 23 of this tree alone (place and line: tree and line), 37. */
uint64_t larsavim_accepts(const uint8_t *text, uint64_t text_len, uint64_t tree, const uint64_t *records, uint64_t records_len, uint64_t *out, uint64_t out_len);

/* Walks one tree straight over a tree text, without tables or work: each line is found again by reading. For a text whose model loads, larsavim_walk over its tables
 * gives the same number, PDF number and questions asked, for every tree number, all answers (also too few) and every limit. Answer byte i is that of the text's i-th
 * question, counted from 0. out: number (0, 17, 18, 20 to 25), place, line, PDF number, questions asked, and the lines of that tree that the walk read, the checks
 * before it left out: the first line, and all lines of the tree for each question but the last; 0 of a lone reference; at most the tree's lines times one more than
 * the questions asked. Where it were more than 2^64 - 1 (no text below 4 GiB comes near), that number stands there. Refused: PDF number, questions and lines are 0.
 * Order: 20 for `out`, 17 (place: from the text's first byte on), 18, 24 for no such tree, 21 to 23 of this tree alone (place and line: tree and line), 24 and 25. */
uint64_t larsavim_bare_walk(const uint8_t *text, uint64_t text_len, uint64_t tree, const uint8_t *answers, uint64_t answers_len, uint64_t limit, uint64_t *out, uint64_t out_len);

/* ---- A trailer behind the data ----------------------------------------------------------------------------------------------------
 * One row a tree, of three 32-bit little-endian numbers: the model (as `which` of larsavim_load; none where USE_GV is 0), the offset of the tree's {*} from the first
 * data byte, the lines of its row. Rows stand in text order, model by model; behind them their count, the file offset where they begin, and the sum of every earlier
 * byte of the file, with wrap-around at 2^32. To a call that knows nothing of it a trailer is data: a voice that loaded before loads the same with it. Neither call
 * looks at blocks, widths or links. Both open the file themselves, with the record into the words as larsavim_open has it, refusals and 20 too. */

#define LARSAVIM_TRAILER_ROW 12 /* bytes of a row */

/* Writes the trailer of a file to the front of `trailer`; put it behind the file. Bytes beyond it are unchanged. out: number (0, 1 to 10, 12 to 18, 20, 26), place, bytes of
 * the trailer. Order: 20 for `out`, those of opening; of each model in turn 13, 14, 15, 16 for its tree range, 17, 18; then 26 where the buffer is shorter than the trailer
 * or the file with it longer than LARSAVIM_FILE_LIMIT: the bytes that it would have are told, so that a call without a buffer sizes one. A refusal leaves the buffer unchanged. */
uint64_t larsavim_trailer(const uint8_t *file, uint64_t file_len, uint64_t *words, uint64_t words_len, uint8_t *trailer, uint64_t trailer_len, uint64_t *out, uint64_t out_len);

/* Whether a file ends in its trailer. Reads every byte: once for a voice, when it comes. out: number (0, 1 to 10, 12 to 18, 20, 26 to 28), place, rows, file offset of the
 * first; 0 when refused. Order: 20 for `out`, those of opening, 26 for fewer than 12 data bytes, 27, of each model 13 to 18 as above, 28. Of a file with two trailers the last is read. */
uint64_t larsavim_trailed(const uint8_t *file, uint64_t file_len, uint64_t *words, uint64_t words_len, uint64_t *out, uint64_t out_len);

/* ---- Tables back to text ---------------------------------------------------------------------------------------------------------
 * The tree text that the rows of loaded tables say: questions in row order, trees in row order with the ids 0, -1, -2 and on, a bare leaf
 * as a lone reference, PDF references as "p_3". `data` are the bytes that string starts count in: of a loaded model the file's, from
 * LARSAVIM_DATA_START on, LARSAVIM_DATA_LEN of them. The tables are cut to the rows that the load returned; all rows are judged. Reading the
 * text back gives the same rows but for string starts, and writing those again the same bytes.
 * Refused, each over all rows before the next: 24, a row points outside its table or the data; 22, a name has a byte from 128 up, a space or
 * a newline, or a pattern a byte of no class; 17, rows that no text reads back to; 20, the buffer is shorter than the text. Tables that a load
 * has filled are never 24, 22 or 17. */

/* How many bytes the text has. out: number (0, 17, 20, 22, 24), length; 0 when refused, 2^64 - 1 where it is no number of 64 bits. 20 is for `out` alone. */
uint64_t larsavim_write_needs(const uint8_t *data, uint64_t data_len, const uint64_t *questions, uint64_t questions_len,
                              const uint64_t *patterns, uint64_t patterns_len, const uint64_t *trees, uint64_t trees_len,
                              const uint64_t *records, uint64_t records_len, uint64_t *out, uint64_t out_len);

/* Writes it to the front of `buffer`; what is behind it is unchanged. out: number (0, 17, 20, 22, 24), length; 0 when refused, and the buffer unchanged. */
uint64_t larsavim_write(const uint8_t *data, uint64_t data_len, const uint64_t *questions, uint64_t questions_len,
                        const uint64_t *patterns, uint64_t patterns_len, const uint64_t *trees, uint64_t trees_len,
                        const uint64_t *records, uint64_t records_len, uint8_t *buffer, uint64_t buffer_len, uint64_t *out, uint64_t out_len);

#ifdef __cplusplus
}
#endif

#endif
