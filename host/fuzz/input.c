/* The input as a source of choices. */
#include "harness.h"
#include <float.h>
#include <math.h>
#include <string.h>

static const uint8_t *next;
static size_t left;
static uint64_t state;
static unsigned rate;

void begin_input(const uint8_t *data, size_t size)
{
    size_t i;
    state = UINT64_C(0x9E3779B97F4A7C15);
    for (i = 0; i < 4 && i < size; i++)
        state = (state ^ data[i]) * UINT64_C(0xD6E8FEB86659FD93) + i;
    next = data + i;
    left = size - i;
}

unsigned byte(void)
{
    if (left) {
        left--;
        return *next++;
    }
    state = state * UINT64_C(6364136223846793005) + UINT64_C(1442695040888963407);
    return (unsigned)(state >> 56);
}

unsigned pick(unsigned below)
{
    return byte() % below;
}

void strange_rate(unsigned of)
{
    rate = of;
}

bool strange(void)
{
    return rate && byte() < rate;
}

/* Floats about which a rule changes, and any eight bytes. */
double hard_number(void)
{
    static const double hard[] = {
        0.0, -0.0, 1.0, -1.0, NAN, INFINITY, -INFINITY, 0x1p20, -0x1p20, 0x1.0000000000001p20, 0x1.fffffffffffffp19, 0x1p19,
        -0x1p19, 0x1.0000000000001p19, 0x1p21, 0x1.0000000000001p21, 0x1p-52, 0x1.fffffffffffffp-53, -0x1p-53, 1.5e-16,
        0x1p-1074, -0x1p-1074, DBL_MIN, 0x0.fffffffffffffp-1022, DBL_MAX, -DBL_MAX, 1e-6, 0.1e-6, 1e-9, 1e-12, 1e-15, 1e-30,
        0.5, -0.5, 0x1.fffffffffffffp-2, 1.5, 2.5, 4096.0, 4097.0, 0x1p52, 0x1p53, 0x1p62, 0x1p63, -0x1p63, 0x1p64, 0x1p-43,
        0x1.0000000000001p0, 0x1.fffffffffffffp-1, 1e-300, 1e300,
    };
    unsigned b = byte();
    uint64_t bits = 0;
    double number;
    int i;
    if (b < 192)
        return hard[b % (sizeof hard / sizeof *hard)];
    for (i = 0; i < 8; i++)
        bits = bits << 8 | byte();
    memcpy(&number, &bits, sizeof number);
    return number;
}

uint32_t hard_whole(void)
{
    static const uint32_t hard[] = {
        0, 1, 2, 3, 511, 512, 513, 768, 769, 4095, 4096, 4097, 1048575, 1048576, 1048577, 2097152, 2097153, INT32_MAX,
        UINT32_C(1) << 31, UINT32_MAX - 1, UINT32_MAX,
    };
    unsigned b = byte();
    uint32_t whole = 0;
    int i;
    if (b < 192)
        return hard[b % (sizeof hard / sizeof *hard)];
    for (i = 0; i < 4; i++)
        whole = whole << 8 | byte();
    return whole;
}
