/* Name blocks: sound ones on a few names, so that these meet, and damaged ones. */
#include "shapes.h"
#include "harness.h"
#include <stdio.h>
#include <string.h>

enum { CELL = OPENRDSON_NAME_BYTES };

/* Layers and their logical names; then what these are called in the stack. */
static const char *const logical[] = {
    "m1", "m2", "v1", "poly", "net_a", "d", "seed_x", "BLOCK_1", "x_prop", "a marker", "drawing2", "seed", "BLOCK", "_pro",
    "\xff\xfe", "abcdefghijklmnopqrstuvwxyz012345",
};
static const char *const physical[] = {"M1", "M2", "V1", "V2", "D1", "P", "\xc3\x28", "ABCDEFGHIJKLMNOPQRSTUVWXYZ012345"};

static void cell(uint8_t *at, const char *name)
{
    size_t length = strlen(name);
    memset(at, 0, CELL);
    memcpy(at, name, length < CELL ? length : CELL);
}

static void numbered_cell(uint8_t *at, size_t number)
{
    char name[CELL];
    snprintf(name, sizeof name, "n%zu", number);
    cell(at, name);
}

/* The first bytes of the longest name: names that agree as far as they go. */
static void shortened_cell(uint8_t *at, const char *longest, size_t length)
{
    memset(at, 0, CELL);
    memcpy(at, longest, 1 + length % CELL);
}

static void physical_cell(uint8_t *at)
{
    unsigned b = byte();
    b < 192 ? cell(at, physical[b % 8]) : shortened_cell(at, physical[7], b);
}

static void figures(uint8_t *at)
{
    double figure[2] = {coordinate(-4, 4), coordinate(1, 4)};
    unsigned flags = strange() ? byte() : pick(8) ? 3 : pick(4);
    memset(at, 0, 17);
    at[0] = (uint8_t)flags;
    if (flags & 1)
        memcpy(at + 1, &figure[0], 8);
    if (flags & 2)
        memcpy(at + 9, &figure[1], 8);
}

static void via_ends(uint8_t *at)
{
    memset(at, 0, 2 * CELL);
    if (pick(8))
        physical_cell(at);
    if (pick(8))
        physical_cell(at + CELL);
}

static void row(enum block kind, uint8_t *first, uint8_t *second, size_t i, size_t rows, unsigned turn)
{
    if (kind == NAMES) {
        first[0] = (uint8_t)(i % 256);
        first[1] = (uint8_t)(i / 256);
        turn % 2 ? cell(second, logical[pick(16)]) : shortened_cell(second, logical[15], byte());
    } else if (kind == MAP) {
        if (rows > 16)
            numbered_cell(first, i);
        else if (turn % 2)
            cell(first, logical[(i + turn) % 16]);
        else
            shortened_cell(first, logical[15], i * 3 + turn);
        physical_cell(second);
    } else {
        physical_cell(first);
        kind == FIGURES ? figures(second) : via_ends(second);
    }
}

static size_t damaged(uint8_t *block, size_t length)
{
    size_t at = (byte() * 256u + byte()) % (length + 1);
    switch (pick(7)) {
    case 0: return at;
    case 1: return length + 1;
    case 2: block[0]++; return length;
    case 3: block[at ? at - 1 : 0] = 0; return length;
    case 4: block[at ? at - 1 : 0] ^= (uint8_t)(1 << pick(8)); return length;
    case 5: block[at ? at - 1 : 0] = (uint8_t)byte(); return length;
    default:
        if (length > 2 + 2 * CELL)
            memcpy(block + 2 + CELL, block + 2, CELL);
        return length;
    }
}

size_t draw_block(enum block kind, uint8_t *block)
{
    static const size_t firsts[] = {2, CELL, CELL, CELL}, seconds[] = {CELL, CELL, 17, 2 * CELL};
    size_t first = firsts[kind], second = seconds[kind], i, rows, length;
    unsigned b = byte(), turn = byte();
    rows = b < 240 ? b % 9 : b < 252 ? b % 17 : b % 2 ? OPENRDSON_MOST_ROWS : OPENRDSON_MOST_ROWS + 1;
    length = 2 + rows * (first + second);
    memset(block, 0, length + 1);
    block[0] = (uint8_t)(rows % 256);
    block[1] = (uint8_t)(rows / 256);
    for (i = 0; i < rows; i++)
        row(kind, block + 2 + i * first, block + 2 + rows * first + i * second, i, rows, turn);
    return strange() || pick(16) == 0 ? damaged(block, length) : length;
}

size_t draw_name(uint8_t *name)
{
    unsigned b = byte();
    const char *of = b % 2 ? logical[b / 2 % 16] : physical[b / 2 % 8];
    size_t i, length = strlen(of);
    if (length == CELL && b >= 64)
        length = 1 + pick(CELL);
    memcpy(name, of, length);
    if (!strange())
        return length;
    length = pick(80);
    for (i = 0; i < length; i++)
        name[i] = (uint8_t)byte();
    return length;
}

int16_t draw_layer(void)
{
    return (int16_t)(strange() ? hard_whole() : pick(10));
}
