/* One input is one call or some, each held to what its answer promises of the lent lists. */
#include "harness.h"
#include <stdio.h>
#include <stdlib.h>
#include <string.h>

static uint64_t bits(const void *of, size_t bytes)
{
    const uint8_t *at = of;
    uint64_t sum = 0;
    while (bytes--)
        sum = sum * 31 + *at++;
    return sum;
}

#include "calls.h"

enum { COUNT = sizeof CALLS / sizeof *CALLS, STATUSES = 17, NEVER = OPENRDSON_ODD_CROSSINGS, DEEP = 16 };

typedef char calls_have_room[(int)COUNT < (int)MOST_CALLS ? 1 : -1];

static unsigned long answers[COUNT][STATUSES], diagnostics[STATUSES], inputs;

static void require(bool holds, const char *what, const struct call *c, int place)
{
    if (holds)
        return;
    fprintf(stderr, "%s: %s: %s\n", c->name, place < 0 ? "the call" : c->parameters[place].name, what);
    abort();
}

static bool refusal(uint64_t status)
{
    return status < STATUSES && status != NEVER;
}

static void require_diagnostics(const struct call *c, const struct argument *a)
{
    int place = parameter(c, "diagnostics", WRITE), rows = parameter(c, "row_kinds", READ);
    const uint32_t *list;
    size_t i;
    if (place < 0)
        return;
    list = a[place].list;
    for (i = 0; i < a[rows].length; i++) {
        require(refusal(list[i]), "no number of a refusal", c, place);
        diagnostics[list[i]]++;
        feedback((COUNT + 1) * 64 + list[i]);
    }
}

/* What is read stays as it was; what is written too, where the call was refused, and elsewhere past what was filled. */
static void require_lists(const struct call *c, const struct argument *a, uint64_t answer, bool refused)
{
    int i;
    for (i = 0; i < c->count; i++) {
        const struct parameter *p = &c->parameters[i];
        size_t from = 0, to = 0;
        if (p->lent == VALUE)
            continue;
        if (p->lent != READ && !refused)
            require(changed(c, i, a, answer, &from, &to), "a count that does not fit the lists", c, i);
        require(kept(i, from, to), refused ? "changed by a refused call" : "changed outside what is filled", c, i);
        if (p->lent == OUT && p->type == BOOL && !refused)
            require(*(const uint8_t *)a[i].list < 2, "no bool", c, i);
    }
}

/* How much was written, as a power of two. */
static unsigned size_class(const struct call *c, const struct argument *a, uint64_t answer)
{
    size_t from, to, most = 0;
    unsigned size = 0;
    int i;
    for (i = 0; i < c->count; i++)
        if (c->parameters[i].lent == WRITE && changed(c, i, a, answer, &from, &to) && to - from > most)
            most = to - from;
    for (; most; most /= 2)
        size++;
    return size;
}

static void one_call(const struct call *c, bool chained)
{
    struct argument a[MOST_PARAMETERS];
    uint64_t answer;
    bool refused;
    int i;
    memset(a, 0, sizeof a);
    begin_call(c, chained);
    for (i = 0; i < c->count; i++)
        draw(c, i, &a[i]);
    answer = c->call(a);
    refused = c->gives == U32 && answer != OPENRDSON_ACCEPTED;
    require(c->gives != U32 || refusal(answer), "no number of a refusal", c, -1);
    require_lists(c, a, answer, refused);
    answers[c - CALLS][c->gives == U32 ? answer : 0]++;
    feedback((size_t)(c - CALLS) * 64 + (c->gives == U32 ? answer : 0));
    if (!refused) {
        feedback((size_t)(c - CALLS) * 64 + STATUSES + size_class(c, a, answer));
        require_diagnostics(c, a);
        keep(c, a);
    }
    for (i = 0; i < c->count; i++)
        if (c->parameters[i].lent != VALUE)
            give_back(i);
}

static const struct call *call_of(const char *name)
{
    int i;
    for (i = 0; i < COUNT; i++)
        if (strcmp(CALLS[i].name + strlen("openrdson_"), name) == 0)
            return &CALLS[i];
    fprintf(stderr, "no call %s\n", name);
    exit(1);
}

/* Calls with the longest ways through the archive are drawn more often. */
static const struct call *draw_call(void)
{
    static const char *const deep[DEEP] = {
        "assemble_stack", "assemble_stack", "mesh_model", "mesh_model", "mesh_model_with_options", "weld_nodes", "weld_nodes",
        "mesh_volume", "mesh_prism", "mesh_prism", "mesh_prism_region", "mesh_box", "triangulate_polygon", "triangulate_polygon",
        "dedup_ring", "total_volume",
    };
    static const struct call *found[DEEP];
    unsigned b = byte(), i = b % DEEP;
    if (!found[i])
        found[i] = call_of(deep[i]);
    return b < 2 * COUNT ? &CALLS[b % COUNT] : found[i];
}

/* What stacking wrote is meshed, welded and measured. */
static void chain(void)
{
    static const char *const steps[4][5] = {
        {"assemble_stack", "mesh_model", "weld_nodes", "mesh_volume", NULL},
        {"assemble_stack", "total_volume", "mesh_model_with_options", "mesh_model", "mesh_volume"},
        {"mesh_box", "mesh_prism", "mesh_box_region", "weld_nodes", "mesh_volume"},
        {"mesh_prism_region", "mesh_prism", "weld_nodes", "weld_nodes", "mesh_volume"},
    };
    static const struct call *found[4][5];
    unsigned which = pick(4);
    int i;
    for (i = 0; i < 5 && steps[which][i]; i++) {
        if (!found[which][i])
            found[which][i] = call_of(steps[which][i]);
        one_call(found[which][i], true);
    }
}

static void report(void)
{
    int i, j;
    printf("inputs: %lu\n", inputs);
    if (blocks_listed())
        printf("basic blocks of the archive: %zu of %zu reached\n", blocks_reached(), blocks_listed());
    for (i = 0; i < COUNT; i++) {
        printf("%s:", CALLS[i].name);
        for (j = 0; j < STATUSES; j++)
            if (answers[i][j])
                printf(" %d: %lu", j, answers[i][j]);
        printf("\n");
    }
    printf("diagnostics of models:");
    for (j = 0; j < STATUSES; j++)
        if (diagnostics[j])
            printf(" %d: %lu", j, diagnostics[j]);
    printf("\n");
    fflush(stdout);
    list_unreached();
}

int LLVMFuzzerTestOneInput(const uint8_t *data, size_t size)
{
    unsigned plan;
    if (inputs++ == 0) {
        begin_feedback();
        atexit(report);
    }
    begin_input(data, size);
    forget();
    plan = byte();
    if (plan >= 192) {
        chain();
        return 0;
    }
    for (plan /= 64; plan < 3; plan++)
        one_call(draw_call(), false);
    return 0;
}
