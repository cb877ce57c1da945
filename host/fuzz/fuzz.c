/* fuzz.c: the program's verbs over any bytes, for libFuzzer: inspect, check (in words and as JSON), house, dump, tables, and a picture of each tree. The library is linked as it is proved; what is
 * instrumented, and looked at by the sanitizers, is the program around it. What `stop` ends, a library and a program that contradict each other, is a finding too. */
#define _POSIX_C_SOURCE 200809L
#include <fcntl.h>
#include <stdlib.h>
#include <string.h>
#include <unistd.h>

#include "host.h"

int LLVMFuzzerTestOneInput(const uint8_t *data, size_t size);

/* One file for all inputs, in memory where the system has such a folder; a verb takes a path. */
static const char *path_of(const uint8_t *data, size_t size) {
    static char path[64];
    static int fd = -1;
    size_t done = 0;
    if (fd < 0) {
        snprintf(path, sizeof path, "%s/larsavim-fuzz-%ld", access("/dev/shm", W_OK) == 0 ? "/dev/shm" : "/tmp", (long)getpid());
        fd = open(path, O_RDWR | O_CREAT | O_TRUNC, 0600);
        if (fd < 0)
            abort();
    }
    if (ftruncate(fd, 0) != 0 || lseek(fd, 0, SEEK_SET) != 0)
        abort();
    while (done < size) {
        ssize_t n = write(fd, data + done, size - done);
        if (n <= 0)
            abort();
        done += (size_t)n;
    }
    return path;
}

static void pictures(const char *path) {
    for (uint64_t which = 0; which < 5; which++)
        for (uint64_t tree = 0; tree < 4; tree++) {
            struct asked_drawing a = {path, which, tree, 0, {(const uint8_t *)"\1\0\1\0\1\1\0\0", 8}, {NULL, 0}};
            picture(&a);
        }
}

int LLVMFuzzerTestOneInput(const uint8_t *data, size_t size) {
    char path[64], *paths[1];
    if (size == 0)
        return 0;
    strcpy(path, path_of(data, size));
    paths[0] = path;
    inspect(path);
    check(0, 0, 1, paths);
    check(1, 1, 1, paths);
    house(1, paths);
    dump(path);
    tables(1, paths);
    pictures(path);
    return 0;
}
