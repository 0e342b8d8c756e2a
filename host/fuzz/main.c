/* The harness without a fuzzer: on files, or on random inputs.
 *
 *     replay FILE..
 *     replay --random INPUTS SEED
 */
#include "harness.h"
#include <signal.h>
#include <stdio.h>
#include <stdlib.h>
#include <string.h>

enum { MOST = 1 << 16 };

static char current[256];

static void died(int number)
{
    fprintf(stderr, "signal %d in %s\n", number, current);
    _Exit(1);
}

static void file(const char *name)
{
    static uint8_t data[MOST];
    FILE *f = fopen(name, "rb");
    if (!f) {
        perror(name);
        exit(1);
    }
    snprintf(current, sizeof current, "%s", name);
    LLVMFuzzerTestOneInput(data, fread(data, 1, sizeof data, f));
    fclose(f);
}

static void random_inputs(unsigned long count, uint64_t seed)
{
    uint8_t data[16];
    unsigned long n;
    size_t i;
    for (n = 0; n < count; n++) {
        snprintf(current, sizeof current, "random input %lu", n);
        for (i = 0; i < sizeof data; i++) {
            seed = seed * UINT64_C(6364136223846793005) + UINT64_C(1442695040888963407);
            data[i] = (uint8_t)(seed >> 56);
        }
        LLVMFuzzerTestOneInput(data, sizeof data);
    }
}

int main(int count, char **arguments)
{
    int i;
    signal(SIGSEGV, died);
    signal(SIGBUS, died);
    signal(SIGABRT, died);
    if (count == 4 && strcmp(arguments[1], "--random") == 0) {
        random_inputs(strtoul(arguments[2], NULL, 10), strtoull(arguments[3], NULL, 10));
        return 0;
    }
    for (i = 1; i < count; i++)
        file(arguments[i]);
    return 0;
}
