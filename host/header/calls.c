/* Calls through include/openrdson.h, as a C program makes them: worked shapes, refusals, and the limits that the header
   names, on both sides of each. */
#include <openrdson.h>
#include <stdio.h>
#include <stdlib.h>
#include <string.h>

static int asked, failed;

#define EXPECT(holds) expect((holds), #holds, __LINE__)

static void expect(bool holds, const char *what, int line)
{
    asked++;
    if (!holds) {
        failed++;
        printf("calls.c:%d: %s\n", line, what);
    }
}

enum { NODES = 64, ELEMENTS = 16 };

/* A mesh with room for some nodes and elements. */
struct mesh {
    double xs[NODES], ys[NODES], zs[NODES];
    uint8_t kinds[ELEMENTS];
    uint32_t places[ELEMENTS * OPENRDSON_NODE_PLACES], regions[ELEMENTS];
    size_t nodes, elements;
};

/* The lists of a mesh as parameters: all that there is room for, or those that it has. */
#define ROOM(m) \
    (m).xs, NODES, (m).ys, NODES, (m).zs, NODES, (m).kinds, ELEMENTS, (m).places, ELEMENTS * OPENRDSON_NODE_PLACES, \
    (m).regions, ELEMENTS
#define WHOLE(m) \
    (m).xs, (m).nodes, (m).ys, (m).nodes, (m).zs, (m).nodes, (m).kinds, (m).elements, (m).places, \
    (m).elements * OPENRDSON_NODE_PLACES, (m).regions, (m).elements

static bool has(const uint32_t *entries, const uint32_t *expected, size_t count)
{
    return memcmp(entries, expected, count * sizeof *entries) == 0;
}

static void rings(void)
{
    static const double xs[] = {0, 2, 2, 0}, ys[] = {0, 0, 2, 2}, line[] = {0, 1, 2, 3};
    static const uint32_t clipped[] = {3, 0, 1, 1, 2, 3};
    double area = -1, out_x[4], out_y[4];
    uint32_t corners[12];
    size_t vertices = 0, triangles = 0;
    bool rectangle = false;
    EXPECT(openrdson_polygon_signed_area(xs, 4, ys, 4, &area) == OPENRDSON_ACCEPTED && area == 4);
    EXPECT(openrdson_is_axis_aligned_rectangle(xs, 4, ys, 4, &rectangle) == OPENRDSON_ACCEPTED && rectangle);
    EXPECT(openrdson_triangulate_polygon(xs, 4, ys, 4, out_x, 4, out_y, 4, corners, 12, &vertices, &triangles) == 0);
    EXPECT(vertices == 4 && triangles == 2 && has(corners, clipped, 6));
    EXPECT(openrdson_triangulate_polygon(xs, 2, ys, 2, out_x, 4, out_y, 4, corners, 12, &vertices, &triangles)
           == OPENRDSON_TOO_FEW_VERTICES);
    EXPECT(openrdson_triangulate_polygon(line, 4, line, 4, out_x, 4, out_y, 4, corners, 12, &vertices, &triangles)
           == OPENRDSON_CLIPPING_STALLED);
    EXPECT(openrdson_polygon_area(xs, 4, ys, 3, &area) == OPENRDSON_UNEQUAL_LISTS && area == 4);
    EXPECT(vertices == 4 && triangles == 2);
}

static void bounds(void)
{
    openrdson_bbox b = openrdson_bbox_empty(), other = {3, -1, 5, 2};
    openrdson_point p = {1, 2}, middle;
    EXPECT(openrdson_bbox_is_empty(b) && openrdson_bbox_width(b) == 0);
    b = openrdson_bbox_extend_point(b, p);
    b = openrdson_bbox_union(b, other);
    middle = openrdson_bbox_center(b);
    EXPECT(b.min_x == 1 && b.min_y == -1 && b.max_x == 5 && b.max_y == 2);
    EXPECT(middle.x == 3 && middle.y == 0.5 && openrdson_bbox_width(b) == 4 && openrdson_bbox_height(b) == 3);
}

/* Two boxes with a face in common, welded; then an L after them. */
static void meshes(void)
{
    static const uint32_t hexes[] = {0, 1, 4, 3, 6, 7, 10, 9, 1, 2, 5, 4, 7, 8, 11, 10};
    static const uint32_t prism[] = {12, 13, 14, 16, 17, 18, OPENRDSON_UNUSED, OPENRDSON_UNUSED};
    static const double xs[] = {0, 2, 2, 1, 1, 0}, ys[] = {0, 0, 1, 1, 2, 2};
    static struct mesh m, two, w;
    openrdson_bbox b = {0, 0, 2, 1}, left = {0, 0, 1, 1}, right = {1, 0, 2, 1};
    double volume = -1;
    EXPECT(openrdson_mesh_box(b, 0, 1, 1, 7, 1, 1, ROOM(m), &m.nodes, &m.elements) == OPENRDSON_ACCEPTED);
    EXPECT(m.nodes == 12 && m.elements == 2 && m.kinds[0] == OPENRDSON_HEX && m.regions[1] == 7);
    EXPECT(has(m.places, hexes, 16));
    EXPECT(openrdson_mesh_volume(WHOLE(m), &volume) == OPENRDSON_ACCEPTED && volume == 2);
    EXPECT(openrdson_mesh_prism(xs, 6, ys, 6, 0, 1, 0, 6, 1, 8, ROOM(m), &m.nodes, &m.elements) == OPENRDSON_ACCEPTED);
    EXPECT(m.nodes == 28 && m.elements == 6 && m.kinds[2] == OPENRDSON_PRISM && m.regions[2] == 8);
    EXPECT(has(m.places + 16, prism, 8));
    EXPECT(openrdson_mesh_volume(WHOLE(m), &volume) == OPENRDSON_ACCEPTED && volume == 5);
    EXPECT(openrdson_mesh_prism(xs, 6, ys, 6, 1, 1, 0, 6, 1, 8, ROOM(m), &m.nodes, &m.elements)
           == OPENRDSON_DEGENERATE_PRISM);
    EXPECT(openrdson_mesh_box(b, 0, 1, 1, 7, 0.25, 1, ROOM(m), &m.nodes, &m.elements) == OPENRDSON_OUTPUT_TOO_SHORT);
    EXPECT(m.nodes == 28 && m.elements == 6);

    EXPECT(openrdson_mesh_box(left, 0, 1, 1, 0, 1, 1, ROOM(two), &two.nodes, &two.elements) == OPENRDSON_ACCEPTED);
    EXPECT(openrdson_mesh_box(right, 0, 1, 1, 1, 1, 1, ROOM(two), &two.nodes, &two.elements) == OPENRDSON_ACCEPTED);
    EXPECT(two.nodes == 16 && two.elements == 2);
    EXPECT(openrdson_weld_nodes(WHOLE(two), 1e-9, ROOM(w), &w.nodes, &w.elements) == OPENRDSON_ACCEPTED);
    EXPECT(w.nodes == 12 && w.elements == 2 && w.regions[1] == 1);
    two.places[0] = 16;
    EXPECT(openrdson_weld_nodes(WHOLE(two), 1e-9, ROOM(w), &w.nodes, &w.elements) == OPENRDSON_NODE_OUTSIDE_MESH);
}

/* A box, a prism without a trapezoid and a row of no kind, in one model. */
static void models(void)
{
    static const uint8_t kinds[] = {OPENRDSON_BOX_SOLID, OPENRDSON_PRISM_SOLID, 9};
    static const double x0[3], y0[3], x1[] = {1, 0, 0}, y1[] = {1, 0, 0}, z0[3], z1[] = {1, 1, 1};
    static const uint32_t starts[3], counts[] = {0, 3, 0}, materials[] = {1, 2, 3}, nets[3];
    static const uint32_t polygons[] = {OPENRDSON_NO_POLYGON, OPENRDSON_NO_POLYGON, OPENRDSON_NO_POLYGON};
    static const double xs[3], ys[] = {0, 1, 2}, half[] = {0.5};
    static const uint32_t one[] = {1}, refused[] = {0, OPENRDSON_NO_TRAPEZOID, OPENRDSON_OUTSIDE_LIST};
    static struct mesh m;
    uint32_t diagnostics[3];
    EXPECT(openrdson_mesh_model(kinds, 3, x0, 3, y0, 3, x1, 3, y1, 3, z0, 3, z1, 3, starts, 3, counts, 3, materials, 3,
                                nets, 3, polygons, 3, xs, 3, ys, 3, 1, 1, ROOM(m), diagnostics, 3, &m.nodes, &m.elements)
           == OPENRDSON_ACCEPTED);
    EXPECT(m.nodes == 8 && m.elements == 1 && has(diagnostics, refused, 3));
    EXPECT(openrdson_mesh_model_with_options(kinds, 3, x0, 3, y0, 3, x1, 3, y1, 3, z0, 3, z1, 3, starts, 3, counts, 3,
                                             materials, 3, nets, 3, polygons, 3, xs, 3, ys, 3, one, 1, half, 1, half, 1, 1,
                                             1, ROOM(m), diagnostics, 3, &m.nodes, &m.elements)
           == OPENRDSON_ACCEPTED);
    EXPECT(m.nodes == 8 + 27 && m.elements == 1 + 8 && has(diagnostics, refused, 3));
}

/* A layer 5 that is called m1, goes to the conductor M1, and lies from 1 to 3. */
static void stacks(void)
{
    static uint8_t names[2 + 2 + 32] = {1, 0, 5, 0, 'm', '1'};
    static uint8_t map[2 + 32 + 32] = {1, 0, 'm', '1'};
    static uint8_t conductors[2 + 32 + 17] = {1, 0, 'M', '1'};
    static const uint8_t none[2];
    static const int16_t layers[] = {5, 6};
    static const uint32_t nets[] = {3, 0}, starts[2], counts[] = {4, 4};
    static const double xs[] = {0, 2, 2, 0}, ys[] = {0, 0, 2, 2}, figures[] = {1, 2};
    uint8_t kinds[2], outcomes[2], copy[OPENRDSON_NAME_BYTES];
    double x0[2], y0[2], x1[2], y1[2], z0[2], z1[2], height = 0, thickness = 0;
    uint32_t s[2], c[2], material[2], net[2], polygon[2], number = 0;
    bool found = false, has_height = false, has_thickness = false;
    size_t regions = 0;
    uint32_t block = 9;
    size_t start = 0, length = 0;
    memcpy(map + 2 + 32, "M1", 2);
    conductors[2 + 32] = 3;
    /* Binary64 and little-endian, as on every machine that the archive is for. */
    memcpy(conductors + 2 + 32 + 1, figures, sizeof figures);
    EXPECT(openrdson_check_blocks(names, sizeof names, map, sizeof map, none, 2, conductors, sizeof conductors, none, 2,
                                  none, 2)
           == OPENRDSON_ACCEPTED);
    EXPECT(openrdson_look_up(map, sizeof map, none, 2, (const uint8_t *)"m1", 2, &found) == 0 && found);
    EXPECT(openrdson_physical_name(map, sizeof map, none, 2, (const uint8_t *)"m1", 2, &block, &start, &length) == 0);
    EXPECT(block == OPENRDSON_CONDUCTING_MAP && length == 2 && memcmp(map + start, "M1", 2) == 0);
    EXPECT(openrdson_copy_physical_name(map, sizeof map, none, 2, (const uint8_t *)"m1", 2, copy, sizeof copy) == 2);
    EXPECT(openrdson_stack_layer(conductors, sizeof conductors, (const uint8_t *)"M1", 2, &found, &has_height, &height,
                                 &has_thickness, &thickness)
           == OPENRDSON_ACCEPTED);
    EXPECT(found && has_height && height == 1 && has_thickness && thickness == 2);
    EXPECT(openrdson_material_number(conductors, sizeof conductors, none, 2, none, 2, (const uint8_t *)"M1", 2, &number)
               == OPENRDSON_ACCEPTED
           && number == 1);
    EXPECT(openrdson_assemble_stack(names, sizeof names, map, sizeof map, none, 2, conductors, sizeof conductors, none, 2,
                                    none, 2, layers, 2, nets, 2, starts, 2, counts, 2, xs, 4, ys, 4, kinds, 2, x0, 2, y0, 2,
                                    x1, 2, y1, 2, z0, 2, z1, 2, s, 2, c, 2, material, 2, net, 2, polygon, 2, outcomes, 2,
                                    &regions)
           == OPENRDSON_ACCEPTED);
    EXPECT(regions == 1 && outcomes[0] == OPENRDSON_BOX_OUTCOME && outcomes[1] == OPENRDSON_UNNAMED_LAYER);
    EXPECT(kinds[0] == OPENRDSON_BOX_SOLID && x1[0] == 2 && y1[0] == 2 && z0[0] == 1 && z1[0] == 3);
    EXPECT(material[0] == 1 && net[0] == 3 && polygon[0] == 0);
    EXPECT(openrdson_look_up(map, sizeof map - 1, none, 2, (const uint8_t *)"m1", 2, &found) == OPENRDSON_BLOCK_DAMAGED);
}

/* The limits, on both sides. */
static void limits(void)
{
    static double zeros[OPENRDSON_MOST_POINTS + 1];
    openrdson_bbox b = {0, 0, 1, 1};
    double area = -1, volume = -1;
    size_t cells = 0;
    uint8_t kind;
    double x0, y0, x1, y1, z0, z1;
    uint32_t start, count, material, net, polygon;
    double xs[] = {0, 1, 0}, ys[] = {0, 0, 1};
    EXPECT(openrdson_polygon_area(zeros, OPENRDSON_MOST_RING_POINTS, zeros, OPENRDSON_MOST_RING_POINTS, &area) == 0);
    EXPECT(openrdson_polygon_area(zeros, OPENRDSON_MOST_RING_POINTS + 1, zeros, OPENRDSON_MOST_RING_POINTS + 1, &area)
           == OPENRDSON_LIST_TOO_LONG);
    EXPECT(openrdson_box_volume(0, 0, 1, 1, 0, 1, zeros, OPENRDSON_MOST_POINTS, zeros, OPENRDSON_MOST_POINTS, &volume) == 0);
    EXPECT(openrdson_box_volume(0, 0, 1, 1, 0, 1, zeros, OPENRDSON_MOST_POINTS + 1, zeros, OPENRDSON_MOST_POINTS + 1, &volume)
           == OPENRDSON_LIST_TOO_LONG);
    EXPECT(openrdson_cell_count(OPENRDSON_MOST_CELLS, 1, &cells) == 0 && cells == OPENRDSON_MOST_CELLS);
    EXPECT(openrdson_cell_count(OPENRDSON_MOST_CELLS + 1, 1, &cells) == OPENRDSON_TOO_MANY_CELLS);
    EXPECT(openrdson_cell_count(OPENRDSON_LARGEST_EXTENT, 1024, &cells) == 0 && cells == 2048);
    EXPECT(openrdson_cell_count(OPENRDSON_LARGEST_EXTENT + 1, 1024, &cells) == OPENRDSON_NUMBER_OUT_OF_RANGE);
    xs[1] = OPENRDSON_LARGEST_COORDINATE;
    EXPECT(openrdson_polygon_area(xs, 3, ys, 3, &area) == 0 && area == OPENRDSON_LARGEST_COORDINATE / 2);
    xs[1] = OPENRDSON_LARGEST_COORDINATE + 1;
    EXPECT(openrdson_polygon_area(xs, 3, ys, 3, &area) == OPENRDSON_NUMBER_OUT_OF_RANGE);
    EXPECT(openrdson_figure_in_range(OPENRDSON_LARGEST_FIGURE) && !openrdson_figure_in_range(OPENRDSON_LARGEST_FIGURE + 1));
    EXPECT(openrdson_extrude_box(b, 0, 1, OPENRDSON_LARGEST_MATERIAL, 0, &kind, &x0, &y0, &x1, &y1, &z0, &z1, &start, &count,
                                 &material, &net, &polygon)
               == 0
           && polygon == OPENRDSON_NO_POLYGON);
    EXPECT(openrdson_extrude_box(b, 0, 1, OPENRDSON_LARGEST_MATERIAL + 1, 0, &kind, &x0, &y0, &x1, &y1, &z0, &z1, &start,
                                 &count, &material, &net, &polygon)
           == OPENRDSON_OUTSIDE_LIST);
    EXPECT(openrdson_sqrt(2.25) == 1.5 && openrdson_nearest_capped(-2.5) == -3 && openrdson_ceil_capped(2.25) == 3);
}

/* As many regions, nodes and elements as there may be, and one more. */
static void long_lists(void)
{
    enum { MORE = OPENRDSON_MOST_NODES + 1 };
    static uint8_t kinds[MORE];
    static uint32_t numbers[8];
    uint32_t *words = calloc(MORE, OPENRDSON_NODE_PLACES * sizeof *words);
    double *zeros = calloc(MORE, sizeof *zeros), volume = -1;
    size_t n;
    if (!words || !zeros) {
        EXPECT(!"no memory");
        return;
    }
    for (n = OPENRDSON_MOST_REGIONS; n <= OPENRDSON_MOST_REGIONS + 1; n++)
        EXPECT(openrdson_total_volume(kinds, n, zeros, n, zeros, n, zeros, n, zeros, n, zeros, n, zeros, n, words, n, words, n,
                                      words, n, words, n, words, n, zeros, 0, zeros, 0, &volume)
               == (n > OPENRDSON_MOST_REGIONS ? OPENRDSON_LIST_TOO_LONG : OPENRDSON_ACCEPTED));
    for (n = OPENRDSON_MOST_NODES; n <= MORE; n++)
        EXPECT(openrdson_mesh_volume(zeros, n, zeros, n, zeros, n, kinds, 0, numbers, 0, numbers, 0, &volume)
               == (n > OPENRDSON_MOST_NODES ? OPENRDSON_LIST_TOO_LONG : OPENRDSON_ACCEPTED));
    memset(kinds, OPENRDSON_HEX, sizeof kinds);
    for (n = OPENRDSON_MOST_ELEMENTS; n <= OPENRDSON_MOST_ELEMENTS + 1; n++)
        EXPECT(openrdson_mesh_volume(zeros, 1, zeros, 1, zeros, 1, kinds, n, words, n * OPENRDSON_NODE_PLACES, words, n, &volume)
               == (n > OPENRDSON_MOST_ELEMENTS ? OPENRDSON_LIST_TOO_LONG : OPENRDSON_ACCEPTED));
    free(words);
    free(zeros);
}

/* As many overrides, polygons and rows of a block as there may be, and one more; and a name as long as a cell. */
static void long_jobs(void)
{
    enum { MORE = OPENRDSON_MOST_OVERRIDES + 1, ROW = 2 + OPENRDSON_NAME_BYTES, ROWS = OPENRDSON_MOST_ROWS + 1 };
    static double zeros[MORE];
    static uint32_t ones[MORE], words[MORE];
    static int16_t layers[MORE];
    static uint8_t outcomes[MORE], block[2 + ROWS * ROW];
    static const uint8_t none[2];
    static struct mesh m;
    uint8_t kind;
    double x;
    uint32_t number;
    size_t n, i, regions = 9, start = 0, length = 0;
    for (i = 0; i < MORE; i++)
        ones[i] = 1;
    for (n = OPENRDSON_MOST_OVERRIDES; n <= OPENRDSON_MOST_OVERRIDES + 1; n++)
        EXPECT(openrdson_mesh_model_with_options(&kind, 0, &x, 0, &x, 0, &x, 0, &x, 0, &x, 0, &x, 0, words, 0, words, 0, words, 0,
                                                 words, 0, words, 0, zeros, 0, zeros, 0, ones, n, zeros, n, zeros, n, 1, 1,
                                                 ROOM(m), &number, 0, &m.nodes, &m.elements)
               == (n > OPENRDSON_MOST_OVERRIDES ? OPENRDSON_LIST_TOO_LONG : OPENRDSON_ACCEPTED));
    for (n = OPENRDSON_MOST_POLYGONS; n <= OPENRDSON_MOST_POLYGONS + 1; n++)
        EXPECT(openrdson_assemble_stack(none, 2, none, 2, none, 2, none, 2, none, 2, none, 2, layers, n, words, n, words, n, words,
                                        n, zeros, 0, zeros, 0, &kind, 0, &x, 0, &x, 0, &x, 0, &x, 0, &x, 0, &x, 0, &number, 0,
                                        &number, 0, &number, 0, &number, 0, &number, 0, outcomes, n, &regions)
               == (n > OPENRDSON_MOST_POLYGONS ? OPENRDSON_LIST_TOO_LONG : OPENRDSON_ACCEPTED));
    EXPECT(regions == 0 && outcomes[OPENRDSON_MOST_POLYGONS - 1] == OPENRDSON_UNNAMED_LAYER);
    for (n = OPENRDSON_MOST_ROWS; n <= OPENRDSON_MOST_ROWS + 1; n++) {
        block[0] = (uint8_t)(n % 256);
        block[1] = (uint8_t)(n / 256);
        for (i = 0; i < n; i++) {
            block[2 + 2 * i] = (uint8_t)(i % 256);
            block[2 + 2 * i + 1] = (uint8_t)(i / 256);
        }
        memset(block + 2 + 2 * n, 'a', n * OPENRDSON_NAME_BYTES);
        EXPECT(openrdson_layer_name(block, 2 + n * ROW, 7, &start, &length)
               == (n > OPENRDSON_MOST_ROWS ? OPENRDSON_BLOCK_DAMAGED : OPENRDSON_ACCEPTED));
    }
    EXPECT(length == OPENRDSON_NAME_BYTES && start == 2 + 2 * OPENRDSON_MOST_ROWS + 7 * OPENRDSON_NAME_BYTES);
}

int main(void)
{
    rings();
    bounds();
    meshes();
    models();
    stacks();
    limits();
    long_lists();
    long_jobs();
    printf("%d expectations of C calls, %d failed\n", asked, failed);
    return failed != 0;
}
