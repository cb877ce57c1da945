/* progress.c: how far long work is: a line on a terminal, which is taken away again; nothing in a pipe or a file. */
#include <inttypes.h>
#include <unistd.h>

#include "host.h"

static int shown;

void show_progress(const char *what, uint64_t at, uint64_t all) {
    if (all < 2 || !isatty(STDERR_FILENO))
        return;
    fprintf(stderr, "\r\033[Klarsavim: %s %" PRIu64 " of %" PRIu64, what, at, all);
    fflush(stderr);
    shown = 1;
}

void hide_progress(void) {
    if (!shown)
        return;
    fputs("\r\033[K", stderr);
    fflush(stderr);
    shown = 0;
}
