/* larsavim.c: a program that shows what the library says of voice files, and the one place that knows the command line. */
#include <string.h>

#include "host.h"

static const char usage[] =
    "usage: larsavim inspect FILE                          the header, what each model needs, and what is wrong\n"
    "       larsavim check [--strict] [--json] FILE..      status 0 if every model of every file loads and passes the leaf check; warns of\n"
    "                                                      two lines with one id, names that stand twice, what nobody asks or reaches, and\n"
    "                                                      of a voice that is none of the house's\n"
    "       larsavim house FILE..                          status 0 if every file is a house voice: ids 0, -1, -2, .., names once, leaves, means\n"
    "                                                      and variances good; else a line with the first rule that it breaks\n"
    "       larsavim draw FILE MODEL TREE                  the tree as a picture, in Graphviz's language; --svg: as SVG, by its program dot;\n"
    "                                                      --answers ANSWERS or --label LABEL: the way of that walk in it\n"
    "       larsavim tables FILE..                         the sizes of the tables that voices need, as a C header; the greatest of several\n"
    "       larsavim walk FILE MODEL TREE ANSWERS LIMIT    one walk; ANSWERS is a 0 or 1 for each question, - for none\n"
    "       larsavim sentence FILE MODEL ANSWERS           the walks of a sentence in one call: lines TREE LIMIT START on standard input\n"
    "       larsavim answers FILE MODEL LABEL              the answers of a model's questions to a label, as walk takes them\n"
    "       larsavim say FILE LABEL                        where a label leads in every tree of every model\n"
    "       larsavim write FILE MODEL                      the tree text of a model, out of its tables: one id a line, blanks made even\n"
    "       larsavim save FILE OUT                         the voice with every tree text so written, in another file\n"
    "       larsavim depth FILE [MODEL]                    how many questions a walk of each tree can ask, whatever the answers\n"
    "       larsavim pair DAY NIGHT                        what the models of two voices need in the same tables, and whether each walks there as alone\n"
    "       larsavim accept FILE MODEL TREE ROWS           whether record rows that somebody else linked belong to a tree; ROWS is a file, - standard input\n"
    "       larsavim trail FILE OUT                        the voice with its trailer, one row a tree, in another file; a trailer that is there is replaced\n"
    "       larsavim trailer FILE                          whether the voice ends in its trailer, and the rows: model, where the tree stands, lines\n"
    "       larsavim tree FILE MODEL TREE                  one tree, loaded through the trailer behind the data: its rows and values, as dump has them\n"
    "       larsavim bare FILE MODEL TREE ANSWERS LIMIT    a walk straight over the tree text, without tables, and how many lines it read\n"
    "       larsavim dump FILE                             everything, one fact a line, for comparing\n"
    "       larsavim demo FILE                             a voice in which two lines bear one id, and which of them wins\n"
    "MODEL counts from 0: duration, then each stream of STREAM_TYPE and its GV in turn. TREE counts from 0.\n"
    "--strict: a warning is status 1 too. --json: one object a line, and a verdict for each file, for machines.\n"
    "version, --version: the version. help, --help: this.\n"
    "Exit status: 0 nothing was refused, 1 something was, 2 wrong arguments or a file that can't be read.\n";

static int wrong(const char *sentence, const char *word) {
    fprintf(stderr, "larsavim: %s%s%s\n%s", sentence, word == NULL ? "" : ": ", word == NULL ? "" : word, usage);
    fputs(rig_usage(), stderr);
    return TROUBLE;
}

/* Takes an option from the front, if it stands there. */
static int option(const char *name, int *n, char ***words) {
    if (*n == 0 || strcmp(**words, name) != 0)
        return 0;
    --*n;
    ++*words;
    return 1;
}

static int check_words(int n, char **words) {
    int json = 0, strict = 0;
    for (;;) {
        if (option("--json", &n, &words))
            json = 1;
        else if (option("--strict", &n, &words))
            strict = 1;
        else
            break;
    }
    if (!option("--", &n, &words) && n > 0 && strncmp(words[0], "--", 2) == 0)
        return wrong("check has no such option", words[0]);
    return n >= 1 ? check(json, strict, n, words) : wrong("check takes one FILE or more", NULL);
}

/* Runs a verb with `n` words behind it. */
static int run(const char *verb, int n, char **words) {
    if (strcmp(verb, "inspect") == 0)
        return n == 1 ? inspect(words[0]) : wrong("inspect takes one FILE", NULL);
    if (strcmp(verb, "check") == 0)
        return check_words(n, words);
    if (strcmp(verb, "house") == 0)
        return n >= 1 ? house(n, words) : wrong("house takes one FILE or more", NULL);
    if (strcmp(verb, "draw") == 0) {
        int status = draw_words(n, words);
        return status != NOT_SO ? status : wrong("draw takes FILE MODEL TREE, and perhaps --svg, and --answers ANSWERS or --label LABEL", NULL);
    }
    if (strcmp(verb, "tables") == 0)
        return n >= 1 ? tables(n, words) : wrong("tables takes one FILE or more", NULL);
    if (strcmp(verb, "walk") == 0)
        return n == 5 ? walk(words) : wrong("walk takes FILE MODEL TREE ANSWERS LIMIT", NULL);
    if (strcmp(verb, "sentence") == 0)
        return n == 3 ? sentence(words) : wrong("sentence takes FILE MODEL ANSWERS; its lines stand on standard input", NULL);
    if (strcmp(verb, "answers") == 0)
        return n == 3 ? answers(words) : wrong("answers takes FILE MODEL LABEL", NULL);
    if (strcmp(verb, "say") == 0)
        return n == 2 ? say(words) : wrong("say takes FILE LABEL", NULL);
    if (strcmp(verb, "write") == 0)
        return n == 2 ? write_text(words) : wrong("write takes FILE MODEL", NULL);
    if (strcmp(verb, "save") == 0)
        return n == 2 ? save(words) : wrong("save takes FILE OUT", NULL);
    if (strcmp(verb, "depth") == 0)
        return n == 1 || n == 2 ? depth(n, words) : wrong("depth takes FILE and perhaps MODEL", NULL);
    if (strcmp(verb, "pair") == 0)
        return n == 2 ? pair_up(words) : wrong("pair takes DAY NIGHT, two files", NULL);
    if (strcmp(verb, "accept") == 0)
        return n == 4 ? accept_rows(words) : wrong("accept takes FILE MODEL TREE ROWS", NULL);
    if (strcmp(verb, "trail") == 0)
        return n == 2 ? trail(words) : wrong("trail takes FILE OUT", NULL);
    if (strcmp(verb, "trailer") == 0)
        return n == 1 ? trailer(words[0]) : wrong("trailer takes one FILE", NULL);
    if (strcmp(verb, "tree") == 0)
        return n == 3 ? one_tree(words) : wrong("tree takes FILE MODEL TREE", NULL);
    if (strcmp(verb, "bare") == 0)
        return n == 5 ? bare(words) : wrong("bare takes FILE MODEL TREE ANSWERS LIMIT", NULL);
    if (strcmp(verb, "dump") == 0)
        return n == 1 ? dump(words[0]) : wrong("dump takes one FILE", NULL);
    if (strcmp(verb, "demo") == 0)
        return n == 1 ? demo(words[0]) : wrong("demo takes one FILE", NULL);
    {
        int status = rig_verb(verb, n, words);
        return status != NOT_SO ? status : wrong("there is no such command", verb);
    }
}

/* A pipe that is closed or a disk that is full must not pass for a good answer. */
static int output_failed(void) {
    if (fflush(stdout) == 0 && !ferror(stdout))
        return 0;
    fputs("larsavim: standard output can't be written\n", stderr);
    return 1;
}

int main(int argc, char **argv) {
    int status;
    if (argc < 2)
        return wrong("what is to be done?", NULL);
    if (strcmp(argv[1], "help") == 0 || strcmp(argv[1], "--help") == 0 || strcmp(argv[1], "-h") == 0) {
        fputs(usage, stdout);
        fputs(rig_usage(), stdout);
        return output_failed() ? TROUBLE : ALL_WELL;
    }
    if (strcmp(argv[1], "version") == 0 || strcmp(argv[1], "--version") == 0) {
        puts("larsavim " LARSAVIM_VERSION);
        return output_failed() ? TROUBLE : ALL_WELL;
    }
    status = run(argv[1], argc - 2, argv + 2);
    return output_failed() ? TROUBLE : status;
}
