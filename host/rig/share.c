/* share.c: two tasks in the same tables, call by call: a script on standard input, an answer a line, for comparing the library with another reader.
 *
 *   tables Q P T R V W             so many numbers in each table and in the work, each 5a5a5a5a5a5a5a5a; both tasks hold nothing
 *   load SIDE MODEL HEX            LOAD number place line questions patterns trees records values
 *   tree SIDE MODEL TREE HEX       the same of one tree, through the file's trailer
 *   house SIDE HEX                 HOUSE number place line model: a whole voice by the house's rules, model after model
 *   unload SIDE                    UNLOAD number
 *   held SIDE Q P T R V            bounds that no call handed back; no answer
 *   walk SIDE TREE ANSWERS LIMIT   WALK number PDF asked, over the task's own rows
 *   leaves SIDE WIDTH              LEAVES yes or no, of the task's own rows
 *   show                           HELD bottom .., HELD top .., then the numbers of each table and of the work, a line each
 *
 * SIDE is `bottom` or `top`. A file that doesn't open has the opening's number and place. Rows that pass a table are 24 of a walk, and no of a check. */
#include <ctype.h>
#include <inttypes.h>
#include <string.h>

#include "../host.h"

enum { SHARE_WORDS = 7 };

struct script {
    struct shared s;
    int begun, refused;
};

static void put_numbers(const char *name, const uint64_t *at, uint64_t len) {
    for (const char *c = name; *c != '\0'; c++)
        putchar(toupper((unsigned char)*c));
    for (uint64_t i = 0; i < len; i++)
        printf(" %" PRIu64, at[i]);
    putchar('\n');
}

static void show(const struct shared *s) {
    for (int x = 0; x < SIDES; x++) {
        printf("HELD %s", side_name[x]);
        for (int k = 0; k < LARSAVIM_BOUNDS; k++)
            printf(" %" PRIu64, s->held[x][k]);
        putchar('\n');
    }
    for (int t = 0; t < TABLES; t++)
        put_numbers(table_name[t], s->table[t], s->lent[t]);
    put_numbers("work", (const uint64_t *)s->work, s->work_lent);
}

/* The whole model, or one tree of it. */
static void put_load(struct script *c, uint64_t side, uint64_t which, const uint64_t *tree, struct bytes file) {
    struct voice v;
    uint64_t out[LARSAVIM_LOAD_OUT] = {0};
    open_voice(&v, file);
    out[OUT_NUMBER] = v.number;
    out[OUT_PLACE] = v.place;
    if (v.number == LARSAVIM_SUCCESS)
        tree == NULL ? load_shared(&c->s, &v, which, side, out) : load_tree(&c->s, &v, which, *tree, side, out);
    close_voice(&v);
    put_loaded(out);
    c->refused |= out[OUT_NUMBER] != LARSAVIM_SUCCESS;
}

static void put_own_walk(struct script *c, uint64_t side, uint64_t tree, struct bytes answers, uint64_t limit) {
    struct larsavim_model m;
    uint64_t out[LARSAVIM_WALK_OUT] = {LARSAVIM_WALKTABLE, 0, 0};
    if (own_rows(&c->s, side, &m)) {
        walk_model(&m, tree, answers, limit, out);
        free_model(&m);
    }
    printf("WALK %" PRIu64 " %" PRIu64 " %" PRIu64 "\n", out[0], out[1], out[2]);
    c->refused |= out[0] != LARSAVIM_SUCCESS;
}

static void put_leaves(struct script *c, uint64_t side, uint64_t width) {
    struct larsavim_model m;
    int fit = 0;
    if (own_rows(&c->s, side, &m)) {
        m.needs[OUT_WIDTH] = width;
        fit = leaves_fit(&m);
        free_model(&m);
    }
    printf("LEAVES %s\n", fit ? "yes" : "no");
    c->refused |= !fit;
}

static const char *answer_tables(struct script *c, char **words) {
    uint64_t numbers[TABLES], work;
    for (int t = 0; t < TABLES; t++)
        if (!read_number(words[1 + t], &numbers[t]))
            return "has a wrong number of numbers";
    if (!read_number(words[1 + TABLES], &work))
        return "has a wrong number of numbers";
    if (c->begun)
        free_shared(&c->s);
    lend_shared(&c->s, numbers, work);
    c->begun = 1;
    return NULL;
}

static const char *answer_held(struct script *c, char **words, uint64_t side) {
    uint64_t numbers[LARSAVIM_BOUNDS];
    for (int k = 0; k < LARSAVIM_BOUNDS; k++)
        if (!read_number(words[2 + k], &numbers[k]))
            return "has a wrong bound";
    memcpy(c->s.held[side], numbers, sizeof numbers);
    return NULL;
}

static const char *answer_load(struct script *c, char **words, uint64_t side, int one) {
    uint64_t which, tree;
    struct bytes file;
    if (!read_number(words[2], &which))
        return "has a wrong MODEL";
    if (one && !read_number(words[3], &tree))
        return "has a wrong TREE";
    if (!bytes_of_hex(words[3 + one], &file))
        return "has a file that is no hex";
    put_load(c, side, which, one ? &tree : NULL, file);
    give_back(file.at, file.len);
    return NULL;
}

static const char *answer_walk(struct script *c, char **words, uint64_t side) {
    uint64_t tree, limit;
    struct bytes answers;
    if (!read_number(words[2], &tree) || !read_number(words[4], &limit))
        return "has a wrong TREE or LIMIT";
    if (!read_answers(words[3], &answers))
        return "has wrong ANSWERS";
    put_own_walk(c, side, tree, answers, limit);
    give_back(answers.at, answers.len);
    return NULL;
}

static const char *answer_leaves(struct script *c, char **words, uint64_t side) {
    uint64_t width;
    if (!read_number(words[2], &width))
        return "has a wrong WIDTH";
    put_leaves(c, side, width);
    return NULL;
}

static const char *answer_house(struct script *c, char **words, uint64_t side) {
    uint64_t out[LARSAVIM_HOUSE_OUT];
    struct bytes file;
    if (!bytes_of_hex(words[2], &file))
        return "has a file that is no hex";
    house_shared(&c->s, file, side, out);
    printf("HOUSE %" PRIu64 " %" PRIu64 " %" PRIu64 " %" PRIu64 "\n", out[OUT_NUMBER], out[LARSAVIM_HOUSE_PLACE], out[LARSAVIM_HOUSE_LINE], out[LARSAVIM_HOUSE_MODEL]);
    give_back(file.at, file.len);
    c->refused |= out[OUT_NUMBER] != LARSAVIM_SUCCESS;
    return NULL;
}

/* A line of a task: its verb, a side and more. */
static const char *answer_task(struct script *c, char **words, int n) {
    uint64_t side;
    if (n < 2 || !read_side(words[1], &side))
        return "has no SIDE, which is `bottom` or `top`";
    if (strcmp(words[0], "load") == 0 && n == 4)
        return answer_load(c, words, side, 0);
    if (strcmp(words[0], "tree") == 0 && n == 5)
        return answer_load(c, words, side, 1);
    if (strcmp(words[0], "house") == 0 && n == 3)
        return answer_house(c, words, side);
    if (strcmp(words[0], "held") == 0 && n == 2 + LARSAVIM_BOUNDS)
        return answer_held(c, words, side);
    if (strcmp(words[0], "walk") == 0 && n == 5)
        return answer_walk(c, words, side);
    if (strcmp(words[0], "leaves") == 0 && n == 3)
        return answer_leaves(c, words, side);
    if (strcmp(words[0], "unload") == 0 && n == 2) {
        uint64_t number = unload_shared(&c->s, side);
        printf("UNLOAD %" PRIu64 "\n", number);
        c->refused |= number != LARSAVIM_SUCCESS;
        return NULL;
    }
    return "is no load, tree, house, unload, held, walk or leaves with its words";
}

static const char *answer(char *line, void *with) {
    struct script *c = with;
    char *words[SHARE_WORDS];
    int n = cut(line, words, SHARE_WORDS);
    if (n == 2 + TABLES && strcmp(words[0], "tables") == 0)
        return answer_tables(c, words);
    if (!c->begun)
        return "comes before `tables`";
    if (n == 1 && strcmp(words[0], "show") == 0) {
        show(&c->s);
        return NULL;
    }
    return answer_task(c, words, n);
}

int share(void) {
    struct script c;
    int status;
    memset(&c, 0, sizeof c);
    status = answer_lines("share", answer, &c);
    if (c.begun)
        free_shared(&c.s);
    return status == ALL_WELL && c.refused ? REFUSED : status;
}
