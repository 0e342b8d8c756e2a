/* Lists that are lent so that an access outside them shows. */
#define _GNU_SOURCE
#include "harness.h"
#include <stdlib.h>
#include <string.h>
#include <sys/mman.h>

enum { PAGE = 4096, MARGIN = 64, MARK = 0xA5 };

struct list {
    uint8_t *at;
    size_t bytes, set;
    bool front, zeros;
};

static struct list lists[MOST_PARAMETERS];
static uint8_t befores[MOST_PARAMETERS][ROOM + SPARE];

/* libFuzzer watches memcmp and makes inputs of what is compared. */
static bool same(const uint8_t *one, const uint8_t *other, size_t bytes)
{
    uint8_t difference = 0;
    size_t i;
    for (i = 0; i < bytes; i++)
        difference |= one[i] ^ other[i];
    return difference == 0;
}

uint8_t *before(int place)
{
    return befores[place];
}

#ifdef MEMCHECK

void *lend(int place, size_t bytes, size_t set, bool front)
{
    struct list *l = &lists[place];
    (void)front;
    *l = (struct list){malloc(bytes), bytes, set, false, false};
    if (set)
        memcpy(l->at, befores[place], set);
    return l->at;
}

void *lend_zeros(int place, size_t bytes)
{
    lists[place] = (struct list){calloc(bytes, 1), bytes, bytes, false, true};
    return lists[place].at;
}

/* A list that is not set cannot be compared. */
bool kept(int place, size_t from, size_t to)
{
    struct list *l = &lists[place];
    if (l->zeros || l->set < l->bytes)
        return true;
    return same(l->at, befores[place], from) && same(l->at + to, befores[place] + to, l->bytes - to);
}

void give_back(int place)
{
    free(lists[place].at);
    lists[place].at = NULL;
}

#else

/* Memory between two pages that cannot be accessed. */
static uint8_t *guarded(size_t bytes, int access)
{
    uint8_t *whole = mmap(NULL, bytes + 2 * PAGE, PROT_NONE, MAP_PRIVATE | MAP_ANONYMOUS | MAP_NORESERVE, -1, 0);
    if (whole == MAP_FAILED || mprotect(whole + PAGE, bytes, access) != 0)
        abort();
    return whole + PAGE;
}

static uint8_t *room(int place)
{
    static uint8_t *rooms[MOST_PARAMETERS];
    if (!rooms[place])
        rooms[place] = guarded(ROOM, PROT_READ | PROT_WRITE);
    return rooms[place];
}

/* The bytes on the open side of a list, as many as are marked. */
static size_t margin(const struct list *l)
{
    return l->bytes + MARGIN <= ROOM ? MARGIN : ROOM - l->bytes;
}

static uint8_t *open_side(const struct list *l)
{
    return l->front ? l->at + l->bytes : l->at - margin(l);
}

void *lend(int place, size_t bytes, size_t set, bool front)
{
    struct list *l = &lists[place];
    uint8_t *at = room(place);
    *l = (struct list){front ? at : at + ROOM - bytes, bytes, set, front, false};
    memcpy(l->at, befores[place], bytes);
    memset(open_side(l), MARK, margin(l));
    return l->at;
}

void *lend_zeros(int place, size_t bytes)
{
    static uint8_t *zeros;
    if (!zeros)
        zeros = guarded(MOST_ZEROS, PROT_READ);
    lists[place] = (struct list){zeros + MOST_ZEROS - bytes, bytes, bytes, false, true};
    return lists[place].at;
}

bool kept(int place, size_t from, size_t to)
{
    struct list *l = &lists[place];
    const uint8_t *was = befores[place], *side;
    size_t i;
    if (l->zeros)
        return true;
    side = open_side(l);
    for (i = 0; i < margin(l); i++)
        if (side[i] != MARK)
            return false;
    return same(l->at, was, from) && same(l->at + to, was + to, l->bytes - to);
}

void give_back(int place)
{
    (void)place;
}

#endif
