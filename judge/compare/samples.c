/* samples.c: what hts_engine makes of a voice and labels:  samples VOICE < LABELS     a label a line.
 * Prints the state durations and a sum over the bytes of every sample, so that two voices can be compared by what is heard. */
#include <stdint.h>
#include <stdio.h>
#include <stdlib.h>
#include <string.h>

#include <HTS_engine.h>

int main(int argc, char **argv) {
    static char *labels[1000];
    static char line[1000][4096];
    size_t n = 0;
    HTS_Engine engine;
    uint64_t sum = 14695981039346656037u;
    while (n < 1000 && fgets(line[n], sizeof line[n], stdin) != NULL) {
        line[n][strcspn(line[n], "\n")] = 0;
        labels[n] = line[n];
        n++;
    }
    HTS_Engine_initialize(&engine);
    if (argc != 2 || !HTS_Engine_load(&engine, &argv[1], 1)) {
        puts("refused");
        return 1;
    }
    if (!HTS_Engine_synthesize_from_strings(&engine, labels, n)) {
        puts("no samples");
        return 1;
    }
    for (size_t i = 0; i < HTS_Engine_get_nsamples(&engine); i++) {
        double sample = HTS_Engine_get_generated_speech(&engine, i);
        uint8_t bytes[sizeof sample];
        memcpy(bytes, &sample, sizeof sample);
        for (size_t k = 0; k < sizeof sample; k++)
            sum = (sum ^ bytes[k]) * 1099511628211u;
    }
    printf("%zu labels, %zu states, %zu frames, %zu samples, sum %016llx\n", n, HTS_Engine_get_total_state(&engine), HTS_Engine_get_total_frame(&engine), HTS_Engine_get_nsamples(&engine),
           (unsigned long long)sum);
    HTS_Engine_clear(&engine);
    return 0;
}
