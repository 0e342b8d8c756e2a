/* Numbers on a grid, and rings on it. */
#include "shapes.h"
#include "harness.h"
#include <string.h>

enum { MOST_RINGS = 8 };

static double step, origin;
static struct { size_t start, count; } rings[MOST_RINGS];
static size_t ring_total;
static unsigned salt;

void begin_grid(void)
{
    static const double steps[] = {
        1, 1, 1, 0.5, 1e-6, 1e-6, 0.1, 1.0 / 3, 1e-9, 1024, 0x1p15, 0x1p-52, 0x1p-54, 1e-16, 1e-30, 0x1p-1074,
    };
    static const double origins[] = {0, 0, 0, 0, 0, 1, 0x1p19, -0x1p19};
    step = steps[pick(16)];
    origin = origins[pick(8)];
    salt = byte();
}

static double neighbour(double x, unsigned far)
{
    uint64_t bits;
    memcpy(&bits, &x, sizeof bits);
    bits += far;
    memcpy(&x, &bits, sizeof bits);
    return x;
}

double coordinate(int from, int to)
{
    double x;
    if (strange())
        return hard_number();
    x = origin + step * (from + (int)pick((unsigned)(to - from + 1)));
    return strange() ? neighbour(x, pick(8)) : x;
}

double cell_size(void)
{
    static const double cells[] = {1, 3, 4, 8, 8, 16, 16, 32};
    if (strange())
        return hard_number();
    return step * cells[pick(8)];
}

/* Corners along the axes: up by stairs and down at the side, or teeth. */
static void rectilinear(double *xs, double *ys, size_t count, int teeth)
{
    size_t i;
    double x = coordinate(-8, 0), y = coordinate(-8, 0), base = y;
    for (i = 0; i + 1 < count; i++) {
        xs[i] = x;
        ys[i] = y;
        if (i % 2 == 0)
            x += step * (1 + pick(3));
        else if (teeth)
            y = i % 4 == 1 ? base + step * (1 + pick(6)) : base + step * pick(2);
        else
            y += step * (1 + pick(3));
    }
    if (count) {
        xs[i] = i ? xs[0] : x;
        ys[i] = i ? ys[i - 1] : y;
    }
}

/* Points about a middle, in the order of their directions. */
static void star(double *xs, double *ys, size_t count)
{
    static const int along[16] = {4, 4, 3, 2, 0, -2, -3, -4, -4, -4, -3, -2, 0, 2, 3, 4};
    static const int across[16] = {0, 2, 3, 4, 4, 4, 3, 2, 0, -2, -3, -4, -4, -4, -3, -2};
    size_t i;
    for (i = 0; i < count; i++) {
        size_t direction = count <= 16 ? i * 16 / count : i * 16 / count % 16;
        double far = step * (1 + pick(4)) + (count > 16 ? step * (double)(i % 37) / 8 : 0);
        xs[i] = origin + far * along[direction];
        ys[i] = origin + far * across[direction];
    }
}

static void zigzag(double *xs, double *ys, size_t count)
{
    size_t i, half = count / 2;
    for (i = 0; i < count; i++) {
        size_t up = i < half ? i : count - 1 - i;
        xs[i] = origin + step * (double)((up % 2) * 4 + (i < half ? 2 + pick(2) : 0));
        ys[i] = origin + step * (double)up;
    }
}

static void rectangle(double *xs, double *ys, size_t count)
{
    double x[2], y[2];
    size_t i, turn = pick(4);
    x[0] = coordinate(-8, 3);
    x[1] = coordinate(4, 15);
    y[0] = coordinate(-8, 3);
    y[1] = coordinate(4, 15);
    for (i = 0; i < count; i++) {
        size_t corner = (i * 4 / count + turn) % 4;
        xs[i] = x[corner == 1 || corner == 2];
        ys[i] = y[corner >= 2];
    }
}

/* A rectangle, and then a star: a ring that crosses itself. */
static void crossing(double *xs, double *ys, size_t count)
{
    rectangle(xs, ys, count < 4 ? count : 4);
    if (count > 4)
        star(xs + 4, ys + 4, count - 4);
}

static void scattered(double *xs, double *ys, size_t count)
{
    size_t i;
    for (i = 0; i < count; i++) {
        xs[i] = coordinate(-8, 15);
        ys[i] = coordinate(-8, 15);
    }
}

/* A ring that loses its last point when it is cleaned, and another when it is cleaned again. */
static void twice_cleaned(double *xs, double *ys, size_t count)
{
    xs[0] = ys[0] = ys[count - 2] = ys[count - 1] = 0;
    xs[count - 2] = -1.5e-16;
    xs[count - 1] = 1.5e-16;
}

/* Changes that a sound ring may get: turned round, points that repeat or nearly do, zeros of the other sign, strange numbers. */
static void worn(double *xs, double *ys, size_t count)
{
    size_t i, at = pick((unsigned)(count < 255 ? count : 255) + 1);
    unsigned how = byte();
    if (how < 64)
        for (i = 0; i < count / 2; i++) {
            double x = xs[i], y = ys[i];
            xs[i] = xs[count - 1 - i];
            ys[i] = ys[count - 1 - i];
            xs[count - 1 - i] = x;
            ys[count - 1 - i] = y;
        }
    if (how % 8 == 0 && at > 0 && at < count) {
        xs[at] = neighbour(xs[at - 1], pick(3));
        ys[at] = neighbour(ys[at - 1], pick(3));
    }
    if (how % 8 == 1 && at < count) {
        xs[count - 1] = xs[at] + (how % 16 == 1 ? 0 : 1.5e-16);
        ys[count - 1] = ys[at];
    }
    if (how % 8 == 2 && at < count)
        ys[at] = ys[at] == 0 ? -ys[at] : ys[at] + 1e-10;
    if (how % 8 == 3 && count > 4)
        twice_cleaned(xs, ys, count);
    for (i = 0; i < count; i++)
        if (strange())
            xs[i] = hard_number();
}

static size_t ring_length(int single)
{
    unsigned b = byte();
    if (b < 200)
        return 3 + b % 10;
    if (b < 224)
        return b % 3;
    if (b < 250)
        return 13 + b % 28;
    if (b < 252 || !single)
        return 64 + b % 8 * 8;
    return b % 2 ? OPENRDSON_MOST_RING_POINTS : OPENRDSON_MOST_RING_POINTS + 1;
}

static void draw_ring(double *xs, double *ys, size_t count)
{
    switch (pick(7)) {
    case 0: rectangle(xs, ys, count); break;
    case 1: rectilinear(xs, ys, count, 0); break;
    case 2: rectilinear(xs, ys, count, 1); break;
    case 3: star(xs, ys, count); break;
    case 4: zigzag(xs, ys, count); break;
    case 5: scattered(xs, ys, count); break;
    default: crossing(xs, ys, count); break;
    }
    if (count)
        worn(xs, ys, count);
}

size_t draw_rings(double *xs, double *ys, size_t most, int parts)
{
    size_t points = 0, wanted = parts ? 1 + pick(parts > MOST_RINGS ? MOST_RINGS : (unsigned)parts) : 1;
    for (ring_total = 0; ring_total < wanted; ring_total++) {
        size_t count = ring_length(ring_total == 0);
        if (points + count > most)
            break;
        draw_ring(xs + points, ys + points, count);
        rings[ring_total].start = points;
        rings[ring_total].count = count;
        points += count;
    }
    return points;
}

void rings_of(size_t points)
{
    ring_total = 1;
    rings[0].start = 0;
    rings[0].count = points;
}

static size_t ring_of(size_t row)
{
    return ring_total ? (row * 7 + salt) % ring_total : 0;
}

uint32_t ring_start(size_t row)
{
    return (uint32_t)rings[ring_of(row)].start + (strange() ? hard_whole() : 0);
}

uint32_t ring_count(size_t row)
{
    return (uint32_t)rings[ring_of(row)].count + (strange() ? (byte() % 2 ? 1 : hard_whole()) : 0);
}
