/* larsavim_selftest.c: the self-test of the library for a board. `int larsavim_selftest(void)` returns 0 if every call answers about a small voice what it must, or else the number of the
 * first check that failed. It runs what no proof covers: the code that a compiler's back end made for this core, and the linker and the memory behind it.
 *
 * It needs larsavim.h, the library, and nothing of a C library but what the library itself wants: memcpy and memset. Its memory is static: less than 16 KiB with code and arrays.
 * Made by host/selftest/make.py; the answers are those of a second reading of the format's document, and the library had no part in them. Don't change it by hand. */
#include "larsavim.h"

int larsavim_selftest(void);

enum {
    VOICE_LEN = 1265,
    QUESTIONS = 5,
    PATTERNS = 7,
    TREES = 2,
    RECORDS = 16,
    VALUES = 14,
    WORK = 60,
    TEXT = 255,
    TABLES = 5
};

#define COUNT(a) (sizeof(a) / sizeof(a)[0])

/* ---- the voice, and what must be answered ------------------------------------------------------------------------------------------ */

static const uint8_t voice[VOICE_LEN] = {
    91, 71, 76, 79, 66, 65, 76, 93, 10, 72, 84, 83, 95, 86, 79, 73, 67, 69, 95, 86, 69, 82, 83, 73,
    79, 78, 58, 49, 46, 48, 10, 83, 65, 77, 80, 76, 73, 78, 71, 95, 70, 82, 69, 81, 85, 69, 78, 67,
    89, 58, 52, 56, 48, 48, 48, 10, 70, 82, 65, 77, 69, 95, 80, 69, 82, 73, 79, 68, 58, 49, 56, 52,
    52, 54, 55, 52, 52, 48, 55, 51, 55, 48, 57, 53, 53, 49, 54, 49, 53, 10, 78, 85, 77, 95, 83, 84,
    65, 84, 69, 83, 58, 50, 10, 78, 85, 77, 95, 83, 84, 82, 69, 65, 77, 83, 58, 50, 10, 83, 84, 82,
    69, 65, 77, 95, 84, 89, 80, 69, 58, 77, 44, 34, 76, 34, 10, 70, 85, 76, 76, 67, 79, 78, 84, 69,
    88, 84, 95, 70, 79, 82, 77, 65, 84, 58, 34, 72, 84, 83, 95, 84, 84, 83, 95, 74, 80, 78, 34, 10,
    70, 85, 76, 76, 67, 79, 78, 84, 69, 88, 84, 95, 86, 69, 82, 83, 73, 79, 78, 58, 49, 46, 48, 10,
    71, 86, 95, 79, 70, 70, 95, 67, 79, 78, 84, 69, 88, 84, 58, 34, 42, 45, 115, 105, 108, 43, 42, 34,
    44, 34, 42, 45, 112, 97, 117, 43, 42, 34, 10, 67, 79, 77, 77, 69, 78, 84, 58, 195, 169, 32, 227, 129,
    130, 32, 240, 159, 148, 138, 10, 91, 83, 84, 82, 69, 65, 77, 93, 10, 86, 69, 67, 84, 79, 82, 95, 76,
    69, 78, 71, 84, 72, 91, 77, 93, 58, 49, 10, 86, 69, 67, 84, 79, 82, 95, 76, 69, 78, 71, 84, 72,
    91, 76, 93, 58, 49, 10, 78, 85, 77, 95, 87, 73, 78, 68, 79, 87, 83, 91, 77, 93, 58, 49, 10, 78,
    85, 77, 95, 87, 73, 78, 68, 79, 87, 83, 91, 76, 93, 58, 49, 10, 73, 83, 95, 77, 83, 68, 91, 77,
    93, 58, 48, 10, 73, 83, 95, 77, 83, 68, 91, 76, 93, 58, 49, 10, 85, 83, 69, 95, 71, 86, 91, 77,
    93, 58, 49, 10, 85, 83, 69, 95, 71, 86, 91, 76, 93, 58, 48, 10, 79, 80, 84, 73, 79, 78, 91, 77,
    93, 58, 65, 76, 80, 72, 65, 61, 48, 46, 53, 44, 71, 65, 77, 77, 65, 61, 48, 10, 91, 80, 79, 83,
    73, 84, 73, 79, 78, 93, 10, 68, 85, 82, 65, 84, 73, 79, 78, 95, 80, 68, 70, 58, 54, 45, 53, 55,
    10, 68, 85, 82, 65, 84, 73, 79, 78, 95, 84, 82, 69, 69, 58, 53, 56, 45, 49, 52, 52, 10, 83, 84,
    82, 69, 65, 77, 95, 87, 73, 78, 91, 77, 93, 58, 48, 45, 53, 10, 83, 84, 82, 69, 65, 77, 95, 87,
    73, 78, 91, 76, 93, 58, 48, 45, 53, 10, 83, 84, 82, 69, 65, 77, 95, 80, 68, 70, 91, 77, 93, 58,
    49, 52, 53, 45, 50, 48, 56, 10, 83, 84, 82, 69, 65, 77, 95, 80, 68, 70, 91, 76, 93, 58, 52, 57,
    50, 45, 53, 49, 57, 10, 83, 84, 82, 69, 65, 77, 95, 84, 82, 69, 69, 91, 77, 93, 58, 50, 48, 57,
    45, 52, 54, 54, 10, 83, 84, 82, 69, 65, 77, 95, 84, 82, 69, 69, 91, 76, 93, 58, 53, 50, 48, 45,
    53, 54, 56, 10, 71, 86, 95, 80, 68, 70, 91, 77, 93, 58, 52, 54, 55, 45, 52, 55, 56, 10, 71, 86,
    95, 84, 82, 69, 69, 91, 77, 93, 58, 52, 55, 57, 45, 52, 57, 49, 10, 91, 68, 65, 84, 65, 93, 10,
    49, 32, 49, 46, 48, 10, 3, 0, 0, 0, 0, 0, 0, 0, 0, 0, 128, 0, 121, 233, 246, 66, 1, 0,
    0, 128, 69, 35, 1, 0, 255, 255, 127, 0, 171, 170, 170, 62, 1, 0, 0, 0, 0, 0, 192, 127, 0, 0,
    0, 191, 0, 0, 128, 255, 0, 0, 128, 63, 81, 83, 32, 83, 105, 108, 32, 123, 32, 34, 42, 45, 115, 105,
    108, 43, 42, 34, 44, 34, 42, 45, 112, 97, 117, 43, 42, 34, 32, 125, 10, 81, 83, 32, 73, 32, 123, 32,
    34, 42, 45, 105, 43, 42, 34, 32, 125, 10, 123, 42, 125, 91, 50, 93, 10, 123, 10, 32, 48, 32, 83, 105,
    108, 32, 45, 49, 32, 100, 95, 49, 10, 32, 45, 49, 32, 73, 32, 100, 95, 50, 32, 100, 95, 51, 10, 125,
    10, 6, 0, 0, 0, 1, 0, 0, 0, 0, 0, 0, 128, 255, 255, 127, 127, 0, 0, 0, 0, 0, 0, 128,
    0, 121, 233, 246, 66, 1, 0, 0, 128, 69, 35, 1, 0, 255, 255, 127, 0, 171, 170, 170, 62, 1, 0, 0,
    0, 0, 0, 192, 127, 0, 0, 0, 191, 0, 0, 128, 255, 0, 0, 128, 63, 81, 83, 32, 83, 105, 108, 32,
    123, 32, 34, 42, 45, 115, 105, 108, 43, 42, 34, 44, 34, 42, 45, 112, 97, 117, 43, 42, 34, 32, 125, 10,
    81, 83, 32, 73, 32, 123, 32, 34, 42, 45, 105, 43, 42, 34, 32, 125, 10, 81, 83, 32, 76, 83, 104, 32,
    123, 32, 34, 42, 94, 115, 104, 45, 42, 34, 32, 125, 10, 81, 83, 32, 82, 67, 104, 32, 123, 32, 34, 42,
    43, 99, 104, 61, 42, 34, 44, 34, 63, 94, 63, 45, 42, 34, 32, 125, 10, 81, 83, 32, 65, 51, 32, 123,
    32, 34, 42, 47, 65, 58, 51, 43, 42, 34, 32, 125, 10, 123, 42, 125, 91, 50, 93, 10, 123, 10, 32, 48,
    32, 83, 105, 108, 32, 45, 53, 32, 34, 109, 95, 49, 34, 10, 32, 45, 53, 32, 73, 32, 45, 50, 32, 45,
    51, 10, 32, 45, 50, 32, 82, 67, 104, 32, 34, 109, 95, 50, 34, 32, 34, 109, 95, 51, 34, 10, 32, 45,
    51, 32, 65, 51, 32, 45, 52, 32, 34, 109, 95, 51, 34, 10, 32, 45, 52, 32, 82, 67, 104, 32, 34, 109,
    95, 53, 34, 32, 45, 50, 10, 32, 45, 50, 32, 76, 83, 104, 32, 34, 109, 95, 52, 34, 32, 45, 49, 10,
    32, 45, 49, 32, 83, 105, 108, 32, 34, 109, 95, 50, 34, 32, 34, 109, 95, 54, 34, 10, 125, 10, 123, 42,
    125, 91, 51, 93, 10, 34, 109, 95, 49, 34, 10, 1, 0, 0, 0, 0, 0, 128, 63, 0, 0, 128, 127, 123,
    42, 125, 91, 50, 93, 32, 34, 103, 118, 95, 49, 34, 2, 0, 0, 0, 0, 0, 0, 191, 0, 0, 128, 255,
    0, 0, 128, 63, 0, 0, 128, 127, 0, 0, 0, 128, 255, 255, 127, 127, 81, 83, 32, 83, 105, 108, 32, 123,
    32, 34, 42, 45, 115, 105, 108, 43, 42, 34, 32, 125, 10, 123, 42, 125, 91, 50, 93, 10, 123, 32, 48, 32,
    83, 105, 108, 32, 34, 108, 95, 50, 34, 32, 34, 108, 95, 49, 34, 32, 125, 0, 0, 0, 0, 106, 0, 0,
    0, 2, 0, 0, 0, 1, 0, 0, 0, 69, 1, 0, 0, 7, 0, 0, 0, 1, 0, 0, 0, 198, 1, 0,
    0, 0, 0, 0, 0, 2, 0, 0, 0, 223, 1, 0, 0, 0, 0, 0, 0, 3, 0, 0, 0, 29, 2, 0,
    0, 1, 0, 0, 0, 5, 0, 0, 0, 169, 4, 0, 0, 60, 55, 1, 0
};

static const struct {
    uint8_t len;
    uint8_t at[18];
} labels[] = {
    {0, {0}},
    {13, {115, 105, 108, 94, 115, 104, 45, 105, 43, 99, 104, 61, 105}},
    {18, {120, 94, 105, 45, 99, 104, 43, 105, 61, 115, 105, 108, 47, 65, 58, 51, 43, 50}},
    {14, {120, 120, 94, 115, 105, 108, 45, 112, 97, 117, 43, 97, 61, 98}},
    {5, {42, 45, 105, 43, 42}},
    {11, {227, 129, 130, 94, 227, 129, 132, 45, 227, 129, 134}}
};

/* Models 0 to 3: what is needed; each table, mixed to one number; the answers to all labels; the text that is written back, and its length; depths; the model's walks. */
static const struct {
    uint16_t needs[TABLES + 2];
    uint64_t table[TABLES], answers;
    uint16_t text_len;
    uint64_t text, depths;
    uint16_t first_walk, walk_count;
} models[] = {
    {{2, 3, 1, 5, 12, 12, 4}, {UINT64_C(0xc2c32cfac4861539), UINT64_C(0x2af415d68205d0d9), UINT64_C(0x5fd976364ca4569d), UINT64_C(0x9bf8f7430e727103), UINT64_C(0x2230c42ddd106495)}, UINT64_C(0x94ea44af717f3610), 93, UINT64_C(0x3dc70fe9cc82b94b), UINT64_C(0xaf63bf4c8601bb45), 0, 12},
    {{5, 7, 2, 16, 14, 42, 2}, {UINT64_C(0x1cbd5183c02f6c8a), UINT64_C(0x869ade1199b633cc), UINT64_C(0xf2dc166ba8f1b1cb), UINT64_C(0x299adfa01766ab42), UINT64_C(0x0ebc152459fa3add)}, UINT64_C(0x04bcda6cfd81c938), 255, UINT64_C(0x8256e2eed4662c33), UINT64_C(0x082bbc07b4e5a99b), 12, 18},
    {{0, 0, 1, 1, 2, 0, 2}, {UINT64_C(0xcbf29ce484222325), UINT64_C(0xcbf29ce484222325), UINT64_C(0xf1171a57af4b42d1), UINT64_C(0xb5d445774c80560f), UINT64_C(0xd2328807b4eb6fed)}, UINT64_C(0xcbf29ce484222325), 14, UINT64_C(0xb72cd47fcbab96e3), UINT64_C(0xaf63bd4c8601b7df), 30, 6},
    {{1, 1, 1, 3, 6, 6, 3}, {UINT64_C(0xeef3f61e355092b0), UINT64_C(0x01a3b107af5911b6), UINT64_C(0xb9cb3e4707c7ca0d), UINT64_C(0x4ae73c18c87764f3), UINT64_C(0xdd0da0e1099d713d)}, UINT64_C(0xd7e4fcfa299d713d), 51, UINT64_C(0x0d611ddd02c0ed6c), UINT64_C(0xaf63bc4c8601b62c), 36, 12}
};

static const struct {
    uint8_t tree, label, limit, number, pdf, asked;
} walks[] = {
    {0, 0, 99, 0, 2, 2},
    {0, 0, 1, 25, 0, 0},
    {0, 1, 99, 0, 3, 2},
    {0, 1, 1, 25, 0, 0},
    {0, 2, 99, 0, 2, 2},
    {0, 2, 1, 25, 0, 0},
    {0, 3, 99, 0, 1, 1},
    {0, 3, 0, 25, 0, 0},
    {0, 4, 99, 0, 3, 2},
    {0, 4, 1, 25, 0, 0},
    {0, 5, 99, 0, 2, 2},
    {0, 5, 1, 25, 0, 0},
    {0, 0, 99, 0, 4, 3},
    {0, 0, 2, 25, 0, 0},
    {0, 1, 99, 0, 2, 6},
    {0, 1, 5, 25, 0, 0},
    {0, 2, 99, 0, 4, 3},
    {0, 2, 2, 25, 0, 0},
    {0, 3, 99, 0, 1, 1},
    {0, 3, 0, 25, 0, 0},
    {0, 4, 99, 0, 5, 4},
    {0, 4, 3, 25, 0, 0},
    {0, 5, 99, 0, 4, 3},
    {0, 5, 2, 25, 0, 0},
    {1, 0, 99, 0, 1, 0},
    {1, 1, 99, 0, 1, 0},
    {1, 2, 99, 0, 1, 0},
    {1, 3, 99, 0, 1, 0},
    {1, 4, 99, 0, 1, 0},
    {1, 5, 99, 0, 1, 0},
    {0, 0, 99, 0, 1, 0},
    {0, 1, 99, 0, 1, 0},
    {0, 2, 99, 0, 1, 0},
    {0, 3, 99, 0, 1, 0},
    {0, 4, 99, 0, 1, 0},
    {0, 5, 99, 0, 1, 0},
    {0, 0, 99, 0, 2, 1},
    {0, 0, 0, 25, 0, 0},
    {0, 1, 99, 0, 2, 1},
    {0, 1, 0, 25, 0, 0},
    {0, 2, 99, 0, 2, 1},
    {0, 2, 0, 25, 0, 0},
    {0, 3, 99, 0, 2, 1},
    {0, 3, 0, 25, 0, 0},
    {0, 4, 99, 0, 2, 1},
    {0, 4, 0, 25, 0, 0},
    {0, 5, 99, 0, 2, 1},
    {0, 5, 0, 25, 0, 0}
};

/* Each tree of each model, loaded through the trailer: its rows, and each table. */
static const struct {
    uint8_t model, tree;
    uint16_t rows[TABLES];
    uint64_t table[TABLES];
} one_trees[] = {
    {0, 0, {2, 3, 1, 5, 12}, {UINT64_C(0xc2c32cfac4861539), UINT64_C(0x2af415d68205d0d9), UINT64_C(0x5fd976364ca4569d), UINT64_C(0x9bf8f7430e727103), UINT64_C(0x2230c42ddd106495)}},
    {1, 0, {5, 7, 1, 15, 12}, {UINT64_C(0x1cbd5183c02f6c8a), UINT64_C(0x869ade1199b633cc), UINT64_C(0x6e0407e31ab2ddab), UINT64_C(0x2c7635443050359c), UINT64_C(0xae49b8fa7d106495)}},
    {1, 1, {5, 7, 1, 1, 2}, {UINT64_C(0x1cbd5183c02f6c8a), UINT64_C(0x869ade1199b633cc), UINT64_C(0x54760c356dc4f254), UINT64_C(0xb5d445774c80560f), UINT64_C(0xd2328807b4eb6fed)}},
    {2, 0, {0, 0, 1, 1, 2}, {UINT64_C(0xcbf29ce484222325), UINT64_C(0xcbf29ce484222325), UINT64_C(0xf1171a57af4b42d1), UINT64_C(0xb5d445774c80560f), UINT64_C(0xd2328807b4eb6fed)}},
    {3, 0, {1, 1, 1, 3, 6}, {UINT64_C(0xeef3f61e355092b0), UINT64_C(0x01a3b107af5911b6), UINT64_C(0xb9cb3e4707c7ca0d), UINT64_C(0x4ae73c18c87764f3), UINT64_C(0xdd0da0e1099d713d)}}
};

/* One byte of the voice changed: where, to what; then the opening (model -1) or the load of a model is refused so. */
static const struct {
    uint16_t at;
    uint8_t byte;
    int8_t model;
    uint8_t number;
    uint16_t place;
    uint8_t line;
} changes[] = {
    {275, 245, -1, 2, 275, 0},
    {241, 128, -1, 2, 241, 0},
    {192, 128, -1, 2, 192, 0},
    {129, 57, 1, 13, 0, 0},
    {129, 44, 1, 13, 0, 0},
    {129, 44, 1, 13, 0, 0},
    {129, 57, 2, 13, 0, 0},
    {920, 128, 1, 17, 277, 0},
    {1015, 224, 1, 17, 325, 0},
    {1025, 125, 1, 17, 325, 0},
    {58, 123, -1, 9, 0, 0},
    {18, 123, -1, 9, 0, 0},
    {443, 125, -1, 9, 0, 0},
    {886, 10, 1, 22, 0, 5},
    {961, 32, 1, 22, 0, 0},
    {1028, 49, 1, 22, 0, 4},
    {62, 10, -1, 7, 62, 0},
    {170, 10, -1, 7, 170, 0},
    {576, 10, -1, 7, 579, 0},
    {983, 49, 1, 21, 0, 1},
    {1023, 10, 1, 21, 0, 3},
    {980, 49, 1, 21, 0, 1},
    {354, 93, 2, 15, 0, 0},
    {631, 245, 0, 19, 0, 0},
    {630, 42, 0, 19, 0, 0},
    {630, 125, 0, 19, 0, 0},
    {1184, 123, 3, 17, 541, 0},
    {1105, 224, 2, 17, 479, 0},
    {1149, 48, 3, 22, 0, 0},
    {409, 255, -1, 1, 0, 0},
    {252, 255, -1, 1, 0, 0},
    {410, 57, -1, 1, 0, 0},
    {730, 125, 0, 17, 106, 0},
    {708, 10, 0, 17, 58, 0},
    {710, 45, 0, 17, 58, 0},
    {470, 58, -1, 5, 470, 0},
    {594, 34, -1, 5, 594, 0},
    {428, 125, -1, 5, 428, 0},
    {611, 44, -1, 6, 611, 0},
    {610, 58, -1, 6, 610, 0},
    {449, 32, -1, 6, 449, 0},
    {774, 48, 1, 19, 0, 0},
    {776, 224, 1, 19, 0, 0},
    {774, 34, 1, 19, 0, 0},
    {82, 34, -1, 8, 82, 0},
    {167, 57, -1, 8, 167, 0},
    {166, 57, -1, 8, 208, 0},
    {234, 42, -1, 3, 246, 0},
    {364, 34, -1, 3, 403, 0},
    {389, 10, -1, 3, 403, 0},
    {595, 93, 2, 16, 0, 0},
    {131, 42, 3, 13, 0, 0},
    {530, 57, 3, 16, 0, 0},
    {1116, 65, 3, 19, 0, 0},
    {508, 57, 1, 16, 0, 0},
    {553, 57, 1, 16, 0, 0},
    {510, 125, 1, 16, 0, 0},
    {1092, 91, 2, 19, 0, 0},
    {687, 91, 0, 22, 0, 0},
    {744, 10, 0, 22, 0, 0},
    {687, 44, 0, 22, 0, 0},
    {374, 42, -1, 4, 374, 0},
    {338, 57, -1, 4, 338, 0},
    {350, 93, -1, 4, 350, 0},
    {75, 57, -1, 10, 69, 0}
};

/* One byte of the voice changed (the first row: none): then the house's rules say so, and where all models load, the last one has the rows of one of the models above; -1 where it isn't held. */
static const struct {
    uint16_t at, told[LARSAVIM_HOUSE_OUT];
    uint8_t byte;
    int8_t last;
} houses[] = {
    {0, {35, 0, 0, 0}, 91, 3},
    {115, {30, 0, 0, 0}, 51, 3},
    {132, {31, 0, 0, 0}, 77, 2},
    {740, {32, 0, 0, 0}, 49, 3},
    {765, {34, 0, 0, 0}, 52, 3},
    {761, {34, 0, 0, 0}, 48, 3},
    {374, {15, 0, 0, 4}, 49, -1},
    {1177, {22, 0, 0, 3}, 120, -1},
    {1183, {17, 541, 0, 3}, 59, -1},
    {101, {5, 101, 0, 0}, 120, -1}
};

/* ---- memory ------------------------------------------------------------------------------------------------------------------------ */

static uint8_t file[VOICE_LEN], answers[QUESTIONS + 1], text[TEXT];
static uint64_t words[LARSAVIM_WORDS], out[LARSAVIM_NEEDS_OUT];
static uint64_t questions[LARSAVIM_QUESTION_ROW * QUESTIONS], patterns[LARSAVIM_PATTERN_ROW * PATTERNS], trees[LARSAVIM_TREE_ROW * TREES], records[LARSAVIM_RECORD_ROW * RECORDS],
    values[VALUES];
static int64_t work[WORK];

static uint64_t *const table[TABLES] = {questions, patterns, trees, records, values};
static const uint16_t room[TABLES] = {COUNT(questions), COUNT(patterns), COUNT(trees), COUNT(records), COUNT(values)};
static const uint8_t width[TABLES] = {LARSAVIM_QUESTION_ROW, LARSAVIM_PATTERN_ROW, LARSAVIM_TREE_ROW, LARSAVIM_RECORD_ROW, 1};

/* Which check it is, and whether all were met so far. */
static int check;

static int holds(int met) {
    check++;
    return met;
}

/* ---- many numbers as one ----------------------------------------------------------------------------------------------------------- */

static uint64_t mix(uint64_t sum, uint64_t number) {
    return (sum ^ number) * UINT64_C(0x100000001b3);
}

static uint64_t mixed(const uint64_t *at, uint64_t len) {
    uint64_t sum = UINT64_C(0xcbf29ce484222325);
    for (uint64_t i = 0; i < len; i++)
        sum = mix(sum, at[i]);
    return sum;
}

static uint64_t mixed_bytes(uint64_t sum, const uint8_t *at, uint64_t len) {
    for (uint64_t i = 0; i < len; i++)
        sum = mix(sum, at[i]);
    return sum;
}

/* ---- the calls --------------------------------------------------------------------------------------------------------------------- */

static uint64_t rows(int k, int t) {
    return models[k].needs[t];
}

static uint64_t used(int k, int t) {
    return rows(k, t) * width[t];
}

static const uint8_t *data(void) {
    return file + words[LARSAVIM_DATA_START];
}

static uint64_t open_file(void) {
    return larsavim_open(file, VOICE_LEN, words, LARSAVIM_WORDS, out, LARSAVIM_OPEN_OUT);
}

static uint64_t load(uint64_t which) {
    return larsavim_load(file, VOICE_LEN, words, LARSAVIM_WORDS, which, questions, room[0], patterns, room[1], trees, room[2], records, room[3], values, room[4], work, WORK, out,
                         LARSAVIM_LOAD_OUT);
}

static uint64_t walk(int k, uint64_t tree, uint64_t limit) {
    return larsavim_walk(trees, used(k, 2), records, used(k, 3), tree, answers, rows(k, 0), limit, out, LARSAVIM_WALK_OUT);
}

/* The record, read back by its fields. */
static int header_holds(void) {
    if (!holds(open_file() == LARSAVIM_SUCCESS && out[LARSAVIM_OPEN_PLACE] == 0))
        return 0;
    if (!holds(mixed(words, LARSAVIM_WORDS) == UINT64_C(0xcafb2a8d41b0c178)))
        return 0;
    if (!holds(larsavim_get(words, LARSAVIM_WORDS, LARSAVIM_FRAME_PERIOD, out, LARSAVIM_GET_OUT) == LARSAVIM_SUCCESS && out[LARSAVIM_GET_VALUE] == UINT64_MAX))
        return 0;
    if (!holds(larsavim_pair(words, LARSAVIM_WORDS, LARSAVIM_STREAM_TYPE + 2, out, LARSAVIM_PAIR_OUT) == LARSAVIM_SUCCESS && out[LARSAVIM_PAIR_SECOND] == 1 &&
               file[out[LARSAVIM_PAIR_FIRST]] == 'L'))
        return 0;
    return holds(larsavim_comment(VOICE_LEN, words, LARSAVIM_WORDS, 9, out, LARSAVIM_COMMENT_OUT) == LARSAVIM_SUCCESS && out[LARSAVIM_COMMENT_SLICE] == 0 &&
                 out[LARSAVIM_COMMENT_LENGTH] == 11);
}

static int needs_hold(int k) {
    if (larsavim_needs(file, VOICE_LEN, words, LARSAVIM_WORDS, (uint64_t)k, out, LARSAVIM_NEEDS_OUT) != LARSAVIM_SUCCESS)
        return 0;
    for (int i = 0; i < TABLES + 2; i++)
        if (out[LARSAVIM_NEEDS_QUESTIONS + i] != models[k].needs[i])
            return 0;
    return 1;
}

/* Every number of every row, and zero in the work. */
static int tables_hold(int k) {
    if (load((uint64_t)k) != LARSAVIM_SUCCESS)
        return 0;
    for (int t = 0; t < TABLES; t++)
        if (out[LARSAVIM_LOAD_QUESTIONS + t] != rows(k, t) || mixed(table[t], used(k, t)) != models[k].table[t])
            return 0;
    for (int i = 0; i < WORK; i++)
        if (work[i] != 0)
            return 0;
    return larsavim_leaves(questions, used(k, 0), trees, used(k, 2), records, used(k, 3), values, used(k, 4), models[k].needs[TABLES + 1]) == 1;
}

static int answer(int k, int label) {
    return larsavim_answers(labels[label].at, labels[label].len, questions, used(k, 0), patterns, used(k, 1), data(), words[LARSAVIM_DATA_LEN], answers, COUNT(answers)) == LARSAVIM_SUCCESS;
}

static int answers_hold(int k) {
    uint64_t sum = UINT64_C(0xcbf29ce484222325);
    for (int i = 0; i < (int)COUNT(labels); i++) {
        if (!answer(k, i))
            return 0;
        sum = mixed_bytes(sum, answers, rows(k, 0));
    }
    return sum == models[k].answers;
}

/* Each walk alone, and as a job. */
static int walks_hold(int k) {
    for (int i = models[k].first_walk; i < models[k].first_walk + models[k].walk_count; i++) {
        struct larsavim_job job = {walks[i].tree, walks[i].limit, 0, 77, 77, 77};
        if (!answer(k, walks[i].label) || walk(k, walks[i].tree, walks[i].limit) != walks[i].number || out[LARSAVIM_WALK_PDF] != walks[i].pdf || out[LARSAVIM_WALK_ASKED] != walks[i].asked)
            return 0;
        larsavim_walk_jobs(trees, used(k, 2), records, used(k, 3), answers, rows(k, 0), &job, 1);
        if (job.number != walks[i].number || job.pdf != walks[i].pdf || job.asked != walks[i].asked || job.tree != walks[i].tree)
            return 0;
    }
    return walk(k, rows(k, 2), 99) == LARSAVIM_WALKTABLE;
}

static int depths_hold(int k) {
    uint64_t sum = UINT64_C(0xcbf29ce484222325);
    for (uint64_t t = 0; t < rows(k, 2); t++) {
        if (larsavim_depth(trees, used(k, 2), records, used(k, 3), t, work, WORK, out, LARSAVIM_DEPTH_OUT) != LARSAVIM_SUCCESS || out[LARSAVIM_DEPTH_ENDS] != 1)
            return 0;
        sum = mix(sum, out[LARSAVIM_DEPTH_QUESTIONS]);
    }
    return sum == models[k].depths;
}

static int text_holds(int k) {
    if (larsavim_write_needs(data(), words[LARSAVIM_DATA_LEN], questions, used(k, 0), patterns, used(k, 1), trees, used(k, 2), records, used(k, 3), out, LARSAVIM_WRITE_NEEDS_OUT) !=
            LARSAVIM_SUCCESS ||
        out[LARSAVIM_WRITE_NEEDS_LENGTH] != models[k].text_len)
        return 0;
    return larsavim_write(data(), words[LARSAVIM_DATA_LEN], questions, used(k, 0), patterns, used(k, 1), trees, used(k, 2), records, used(k, 3), text, TEXT, out, LARSAVIM_WRITE_OUT) ==
               LARSAVIM_SUCCESS &&
           mixed_bytes(UINT64_C(0xcbf29ce484222325), text, models[k].text_len) == models[k].text;
}

/* Each walk straight over the text that was just written. */
static int bare_holds(int k) {
    for (int i = models[k].first_walk; i < models[k].first_walk + models[k].walk_count; i++) {
        uint64_t number[LARSAVIM_BARE_OUT];
        if (!answer(k, walks[i].label))
            return 0;
        larsavim_bare_walk(text, models[k].text_len, walks[i].tree, answers, rows(k, 0), walks[i].limit, number, LARSAVIM_BARE_OUT);
        if (number[0] != walks[i].number || number[LARSAVIM_BARE_PDF] != walks[i].pdf || number[LARSAVIM_BARE_ASKED] != walks[i].asked)
            return 0;
    }
    return larsavim_bare_walk(text, models[k].text_len, rows(k, 2), answers, rows(k, 0), 99, out, LARSAVIM_BARE_OUT) == LARSAVIM_WALKTABLE;
}

static int model_holds(int k) {
    return holds(needs_hold(k)) && holds(tables_hold(k)) && holds(answers_hold(k)) && holds(walks_hold(k)) && holds(depths_hold(k)) && holds(text_holds(k)) && holds(bare_holds(k));
}

/* ---- two tasks in the same tables ---------------------------------------------------------------------------------------------------- */

static uint64_t held[2][LARSAVIM_BOUNDS];

static uint64_t load_shared(uint64_t which, uint64_t side) {
    return larsavim_load_shared(file, VOICE_LEN, words, LARSAVIM_WORDS, which, side, held[side], LARSAVIM_BOUNDS, held[1 - side], LARSAVIM_BOUNDS, questions, room[0], patterns, room[1],
                                trees, room[2], records, room[3], values, room[4], work, WORK, out, LARSAVIM_LOAD_OUT);
}

static uint64_t unload(uint64_t side) {
    return larsavim_unload(side, held[side], LARSAVIM_BOUNDS, held[1 - side], LARSAVIM_BOUNDS, questions, room[0], patterns, room[1], trees, room[2], records, room[3], values, room[4]);
}

/* A task's rows are those of a load alone. */
static int task_holds(int k, uint64_t side) {
    for (int t = 0; t < TABLES; t++)
        if (held[side][t] != rows(k, t) || mixed(table[t] + LARSAVIM_FIRST(side, room[t], width[t], held[side][t]), used(k, t)) != models[k].table[t])
            return 0;
    return 1;
}

/* The top task holds model 2 throughout; the bottom task 3, then 0, then there is no room for 1. */
static int tasks_hold(void) {
    for (int i = 0; i < LARSAVIM_BOUNDS; i++)
        held[0][i] = held[1][i] = 0;
    return open_file() == LARSAVIM_SUCCESS && load_shared(2, LARSAVIM_TOP) == LARSAVIM_SUCCESS && load_shared(3, LARSAVIM_BOTTOM) == LARSAVIM_SUCCESS && task_holds(2, LARSAVIM_TOP) &&
           task_holds(3, LARSAVIM_BOTTOM) && load_shared(0, LARSAVIM_BOTTOM) == LARSAVIM_HELD && unload(LARSAVIM_BOTTOM) == LARSAVIM_SUCCESS && task_holds(2, LARSAVIM_TOP) &&
           load_shared(0, LARSAVIM_BOTTOM) == LARSAVIM_SUCCESS && task_holds(0, LARSAVIM_BOTTOM) && unload(LARSAVIM_BOTTOM) == LARSAVIM_SUCCESS &&
           load_shared(1, LARSAVIM_BOTTOM) == LARSAVIM_ROOM && task_holds(2, LARSAVIM_TOP);
}

/* A tree by itself, through the trailer, for the top task; one that has no row is refused. */
static int one_tree_holds(int i) {
    uint64_t number, tree = one_trees[i].tree;
    for (int k = 0; k < 2; k++, tree += 99) {
        number = larsavim_load_tree(file, VOICE_LEN, words, LARSAVIM_WORDS, one_trees[i].model, tree, LARSAVIM_TOP, held[LARSAVIM_TOP], LARSAVIM_BOUNDS, held[LARSAVIM_BOTTOM],
                                    LARSAVIM_BOUNDS, questions, room[0], patterns, room[1], trees, room[2], records, room[3], values, room[4], work, WORK, out, LARSAVIM_LOAD_OUT);
        if (number != (k == 0 ? LARSAVIM_SUCCESS : LARSAVIM_WALKTABLE))
            return 0;
        for (int t = 0; t < TABLES && k == 0; t++)
            if (held[LARSAVIM_TOP][t] != one_trees[i].rows[t] ||
                mixed(table[t] + LARSAVIM_FIRST(LARSAVIM_TOP, room[t], width[t], held[LARSAVIM_TOP][t]), width[t] * held[LARSAVIM_TOP][t]) != one_trees[i].table[t])
                return 0;
        if (unload(LARSAVIM_TOP) != LARSAVIM_SUCCESS)
            return 0;
    }
    return 1;
}

/* The whole voice by the house's rules, for either task; the last model stays. */
static int house_holds(int i) {
    uint64_t side = (uint64_t)i % 2;
    file[houses[i].at] = houses[i].byte;
    larsavim_house(file, VOICE_LEN, words, LARSAVIM_WORDS, side, held[side], LARSAVIM_BOUNDS, held[1 - side], LARSAVIM_BOUNDS, questions, room[0], patterns, room[1], trees, room[2], records,
                   room[3], values, room[4], work, WORK, out, LARSAVIM_HOUSE_OUT);
    file[houses[i].at] = voice[houses[i].at];
    for (int k = 0; k < LARSAVIM_HOUSE_OUT; k++)
        if (out[k] != houses[i].told[k])
            return 0;
    return (houses[i].last < 0 || task_holds(houses[i].last, side)) && unload(side) == LARSAVIM_SUCCESS;
}

/* The refusal of one changed byte; up to 20 no table is changed. */
static int change_holds(int i) {
    uint64_t before[TABLES], number, line = 0;
    int kept = 1;
    file[changes[i].at] = changes[i].byte;
    number = open_file();
    if (changes[i].model >= 0) {
        for (int t = 0; t < TABLES; t++)
            before[t] = mixed(table[t], room[t]);
        kept = number == LARSAVIM_SUCCESS;
        number = load((uint64_t)changes[i].model);
        line = out[LARSAVIM_LOAD_LINE];
        for (int t = 0; t < TABLES && number <= LARSAVIM_ROOM; t++)
            kept &= before[t] == mixed(table[t], room[t]);
    }
    file[changes[i].at] = voice[changes[i].at];
    return kept && number == changes[i].number && out[LARSAVIM_LOAD_PLACE] == changes[i].place && line == changes[i].line;
}

int larsavim_selftest(void) {
    check = 0;
    for (int i = 0; i < VOICE_LEN; i++)
        file[i] = voice[i];
    if (!header_holds())
        return check;
    for (int k = 0; k < (int)COUNT(models); k++)
        if (!model_holds(k))
            return check;
    if (!holds(load(4) == LARSAVIM_USEGV && load(5) == LARSAVIM_NOPOS))
        return check;
    for (int i = 0; i < (int)COUNT(changes); i++)
        if (!holds(change_holds(i)))
            return check;
    if (!holds(tasks_hold()))
        return check;
    if (!holds(unload(LARSAVIM_TOP) == LARSAVIM_SUCCESS))
        return check;
    for (int i = 0; i < (int)COUNT(one_trees); i++)
        if (!holds(one_tree_holds(i)))
            return check;
    for (int i = 0; i < (int)COUNT(houses); i++)
        if (!holds(house_holds(i)))
            return check;
    return 0;
}
