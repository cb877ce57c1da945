/* hts.c: how long hts_engine takes:  hts FILE REPETITIONS     HTS_Engine_load of a voice, best of so many repetitions; it takes a file's name, no memory.
 * hts FILE -REPETITIONS doesn't give the memory back, for counting instructions.
 * Times are of the processor, in nanoseconds. Prints lines of a name and numbers; bench/time reads them. */
#include <malloc.h>
#include <stdint.h>
#include <stdio.h>
#include <stdlib.h>
#include <time.h>

#include <HTS_engine.h>

/* Nanoseconds of this thread on the processor. */
static uint64_t now(void) {
    struct timespec t;
    clock_gettime(CLOCK_THREAD_CPUTIME_ID, &t);
    return (uint64_t)t.tv_sec * 1000000000 + (uint64_t)t.tv_nsec;
}

static uint64_t held(void) {
    struct mallinfo2 m = mallinfo2();
    return m.uordblks + m.hblkhd;
}

int main(int argc, char **argv) {
    uint64_t best = UINT64_MAX, bytes = 0;
    if (argc != 3)
        return 2;
    for (int i = 0; i < abs(atoi(argv[2])); i++) {
        HTS_Engine engine;
        uint64_t start, before = held();
        HTS_Engine_initialize(&engine);
        start = now();
        if (!HTS_Engine_load(&engine, &argv[1], 1)) {
            puts("refused 1");
            return 0;
        }
        start = now() - start;
        bytes = held() - before;
        if (start < best)
            best = start;
        if (atoi(argv[2]) > 0)
            HTS_Engine_clear(&engine);
    }
    printf("load %llu\nheld %llu\n", (unsigned long long)best, (unsigned long long)bytes);
    return 0;
}
