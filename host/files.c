/* files.c: a file's bytes by mmap, as the display has them: nothing is copied, and the library reads the file where it lies. */
#include <errno.h>
#include <fcntl.h>
#include <inttypes.h>
#include <signal.h>
#include <stdlib.h>
#include <string.h>
#include <sys/mman.h>
#include <sys/stat.h>
#include <unistd.h>

#include "host.h"

static int complain(const char *path, const char *what) {
    fflush(stdout);
    fprintf(stderr, "larsavim: %s: %s\n", path, what);
    return 0;
}

/* Somebody shortened the file under the mapping: the bytes that are gone can't be read any more, and nothing can be said of them. */
static void file_shrank(int signal) {
    static const char sentence[] = "larsavim: the file became shorter while it was read\n";
    ssize_t said = write(STDERR_FILENO, sentence, sizeof sentence - 1);
    (void)signal;
    (void)said;
    _exit(TROUBLE);
}

static void watch_for_shrinking(void) {
    struct sigaction action;
    memset(&action, 0, sizeof action);
    action.sa_handler = file_shrank;
    sigaction(SIGBUS, &action, NULL);
}

static void unmap(struct bytes file) {
    union {
        const uint8_t *lent;
        void *own;
    } at;
    at.lent = file.at; /* munmap takes a pointer that isn't const, though it writes nothing */
    munmap(at.own, (size_t)file.len);
}

/* Whether an opened file is one that the library can be asked about, and its length. */
static int suits(const char *path, int fd, uint64_t *len) {
    struct stat s;
    if (fstat(fd, &s) != 0)
        return complain(path, strerror(errno));
    if (S_ISDIR(s.st_mode))
        return complain(path, "this is a directory, not a voice file");
    if (!S_ISREG(s.st_mode))
        return complain(path, "this is no ordinary file");
    if (s.st_size == 0)
        return complain(path, "the file is empty");
    *len = (uint64_t)s.st_size;
    if (*len > LARSAVIM_FILE_LIMIT) {
        fflush(stdout);
        fprintf(stderr, "larsavim: %s: the file has %" PRIu64 " bytes, and a voice may have %d at most (refusal %d)\n", path, *len, LARSAVIM_FILE_LIMIT,
                LARSAVIM_LIMIT);
        return 0;
    }
    return 1;
}

/* Between guards the file is a copy: a mapping ends where its last page does, and not where the file does. */
static void place_between_guards(struct bytes *file) {
    uint8_t *copy = lend(file->len);
    memcpy(copy, file->at, (size_t)file->len);
    unmap(*file);
    file->at = copy;
}

int map_file(const char *path, struct bytes *file) {
    int fd = open(path, O_RDONLY | O_NONBLOCK); /* a named pipe must not keep us waiting */
    void *at;
    if (fd < 0)
        return complain(path, strerror(errno));
    if (!suits(path, fd, &file->len)) {
        close(fd);
        return 0;
    }
    at = mmap(NULL, (size_t)file->len, PROT_READ, MAP_PRIVATE, fd, 0);
    close(fd);
    if (at == MAP_FAILED)
        return complain(path, strerror(errno));
    watch_for_shrinking();
    file->at = at;
    if (guarded())
        place_between_guards(file);
    return 1;
}

void unmap_file(struct bytes file) {
    if (guarded())
        give_back(file.at, file.len);
    else
        unmap(file);
}

int same_file(const char *a, const char *b) {
    struct stat x, y;
    return stat(a, &x) == 0 && stat(b, &y) == 0 && x.st_dev == y.st_dev && x.st_ino == y.st_ino;
}

static int write_bytes(FILE *to, struct bytes s) {
    return s.len == 0 || fwrite(s.at, 1, (size_t)s.len, to) == s.len;
}

/* To another name first: the file is whole or what it was. */
int write_file(const char *path, struct bytes first, struct bytes second) {
    char *new = malloc(strlen(path) + 5);
    FILE *to;
    int done;
    if (new == NULL)
        stop("there is not enough memory for a file's name");
    strcpy(new, path);
    strcat(new, ".new");
    to = fopen(new, "wb");
    done = to != NULL && write_bytes(to, first) && write_bytes(to, second);
    done = to != NULL && fclose(to) == 0 && done && rename(new, path) == 0;
    if (!done) {
        fprintf(stderr, "larsavim: %s: %s\n", path, strerror(errno));
        if (to != NULL)
            remove(new);
    }
    free(new);
    return done ? ALL_WELL : TROUBLE;
}
