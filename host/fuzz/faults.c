/* Functions of the archive with a fault, one of which faults.sh links in their place (--wrap): each must be caught. */
#include <openrdson.h>

#define RING const double *xs, size_t xs_len, const double *ys, size_t ys_len
#define GIVEN xs, xs_len, ys, ys_len

uint32_t __real_openrdson_polygon_area(RING, double *area);
uint32_t __real_openrdson_polygon_signed_area(RING, double *area);
uint32_t __real_openrdson_is_ccw(RING, bool *ccw);
uint32_t __real_openrdson_is_axis_aligned_rectangle(RING, bool *rectangle);
uint32_t __real_openrdson_bbox_from_points(RING, double *min_x, double *min_y, double *max_x, double *max_y);
uint32_t __real_openrdson_dedup_ring(RING, double *out_x, size_t out_x_len, double *out_y, size_t out_y_len, size_t *points);
uint32_t __real_openrdson_cell_count(double extent, double cell, size_t *cells);
uint32_t __real_openrdson_layer_name(const uint8_t *names, size_t names_len, int16_t layer, size_t *start, size_t *length);

static volatile double read_here;
static volatile uint8_t read_byte;

/* Gives a value although it refuses. */
uint32_t __wrap_openrdson_polygon_area(RING, double *area)
{
    uint32_t status = __real_openrdson_polygon_area(GIVEN, area);
    if (status)
        *area = 0;
    return status;
}

/* Reads one entry past a list. */
uint32_t __wrap_openrdson_polygon_signed_area(RING, double *area)
{
    read_here = ys[ys_len];
    return __real_openrdson_polygon_signed_area(GIVEN, area);
}

/* Reads one entry before a list. */
uint32_t __wrap_openrdson_is_ccw(RING, bool *ccw)
{
    read_here = xs[-1];
    return __real_openrdson_is_ccw(GIVEN, ccw);
}

/* Changes a list that is only read, back to what it is but for the sign of a zero. */
uint32_t __wrap_openrdson_is_axis_aligned_rectangle(RING, bool *rectangle)
{
    if (xs_len && xs[0] == 0)
        ((double *)xs)[0] = -xs[0];
    return __real_openrdson_is_axis_aligned_rectangle(GIVEN, rectangle);
}

/* Writes one entry past those that it fills, inside the list. */
uint32_t __wrap_openrdson_dedup_ring(RING, double *out_x, size_t out_x_len, double *out_y, size_t out_y_len, size_t *points)
{
    uint32_t status = __real_openrdson_dedup_ring(GIVEN, out_x, out_x_len, out_y, out_y_len, points);
    if (!status && *points < out_x_len)
        out_x[*points] = 0;
    return status;
}

/* Refuses with a number that is none. */
uint32_t __wrap_openrdson_cell_count(double extent, double cell, size_t *cells)
{
    uint32_t status = __real_openrdson_cell_count(extent, cell, cells);
    return status == OPENRDSON_DEGENERATE_BOX ? OPENRDSON_ODD_CROSSINGS : status;
}

/* Reads the byte past a block that is counted too long. */
uint32_t __wrap_openrdson_layer_name(const uint8_t *names, size_t names_len, int16_t layer, size_t *start, size_t *length)
{
    if (names_len > 2 && names_len < 2 + (size_t)names[0] * 34)
        read_byte = names[names_len];
    return __real_openrdson_layer_name(names, names_len, layer, start, length);
}

/* Looks at what it is to write. */
uint32_t __wrap_openrdson_bbox_from_points(RING, double *min_x, double *min_y, double *max_x, double *max_y)
{
    if (*max_y == 1)
        read_here = 1;
    return __real_openrdson_bbox_from_points(GIVEN, min_x, min_y, max_x, max_y);
}
