/* What libFuzzer is told of the archive, whose code is not instrumented. A trap stands at the beginning of every basic block that
   FUZZ_BLOCKS lists; the first time that a block is reached, the trap is taken away and counts as a find. So it is with each
   call's statuses and with how much it wrote, in every run. */
#define _GNU_SOURCE
#include "harness.h"
#include <signal.h>
#include <stdio.h>
#include <stdlib.h>
#include <sys/mman.h>
#include <ucontext.h>

enum { PAGE = 4096, MOST_BLOCKS = 1 << 13, FEATURES = 1 << 12, TRAP = 0xCC };

/* libFuzzer finds them by the section's name. */
__attribute__((section("__libfuzzer_extra_counters"), used))
static uint8_t counters[FEATURES + MOST_BLOCKS];

static struct { uint8_t *at, code; } blocks[MOST_BLOCKS];
static size_t listed, reached;

size_t blocks_listed(void)
{
    return listed;
}

size_t blocks_reached(void)
{
    return reached;
}

/* The blocks that were not reached, to the file FUZZ_UNREACHED. */
void list_unreached(void)
{
    const char *name = getenv("FUZZ_UNREACHED");
    FILE *file = name ? fopen(name, "w") : NULL;
    size_t i;
    if (!file)
        return;
    for (i = 0; i < listed; i++)
        if (*blocks[i].at == TRAP)
            fprintf(file, "%lx\n", (unsigned long)blocks[i].at);
    fclose(file);
}

void feedback(size_t feature)
{
    counters[feature % FEATURES] = 1;
}

/* The blocks are in the order of their addresses. */
static void trapped(int number, siginfo_t *info, void *context)
{
    greg_t *at = &((ucontext_t *)context)->uc_mcontext.gregs[REG_RIP];
    uint8_t *code = (uint8_t *)(*at - 1);
    size_t low = 0, high = listed;
    (void)number;
    (void)info;
    while (low < high) {
        size_t middle = (low + high) / 2;
        if (blocks[middle].at < code)
            low = middle + 1;
        else
            high = middle;
    }
    if (low == listed || blocks[low].at != code)
        abort();
    *code = blocks[low].code;
    *at -= 1;
    counters[FEATURES + low] = 1;
    reached++;
}

static void set_traps(void)
{
    uintptr_t from = (uintptr_t)blocks[0].at & ~(uintptr_t)(PAGE - 1), to = (uintptr_t)blocks[listed - 1].at + PAGE;
    size_t i;
    if (mprotect((void *)from, (to - from + PAGE - 1) & ~(uintptr_t)(PAGE - 1), PROT_READ | PROT_WRITE | PROT_EXEC) != 0)
        abort();
    for (i = 0; i < listed; i++) {
        blocks[i].code = *blocks[i].at;
        *blocks[i].at = TRAP;
    }
}

void begin_feedback(void)
{
    struct sigaction action = {0};
    const char *name = getenv("FUZZ_BLOCKS");
    FILE *file = name ? fopen(name, "r") : NULL;
    unsigned long address;
    if (!file)
        return;
    while (listed < MOST_BLOCKS && fscanf(file, "%lx", &address) == 1)
        blocks[listed++].at = (uint8_t *)address;
    fclose(file);
    action.sa_sigaction = trapped;
    action.sa_flags = SA_SIGINFO | SA_NODEFER;
    if (sigaction(SIGTRAP, &action, NULL) != 0 || listed == 0)
        abort();
    set_traps();
}
