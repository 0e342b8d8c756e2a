/*
 * The mesh step of OpenRdson, proved: the functions of the archive libc_api.a, which host/archive.sh makes.
 *
 * A function that can be refused returns OPENRDSON_ACCEPTED, or the number of the first refusal that applies, and gives
 * its value through pointers. A refusal writes nothing; an accepted call keeps the list entries past those it fills.
 * Above each function stand its refusals in the order in which they are tried.
 *
 * A list is its first entry's address and its length. No pointer may be null, also where a length is 0, and what is
 * written must not overlap anything else that is lent. No memory is kept, asked for or given back, and every call ends.
 *
 * host/header holds this file to the sources.
 */
#ifndef OPENRDSON_H
#define OPENRDSON_H

#include <stdbool.h>
#include <stddef.h>
#include <stdint.h>

#ifdef __cplusplus
extern "C" {
#endif

/* ---- numbers ---- */

enum openrdson_refusal {
    OPENRDSON_ACCEPTED = 0,
    OPENRDSON_NUMBER_OUT_OF_RANGE = 1,    /* number not finite or too large */
    OPENRDSON_LIST_TOO_LONG = 2,          /* list too long */
    OPENRDSON_TOO_FEW_VERTICES = 3,       /* under three vertices after cleaning */
    OPENRDSON_CLIPPING_STALLED = 4,       /* clipping stalled */
    OPENRDSON_DEGENERATE_BOX = 5,         /* degenerate box: an extent not above zero */
    OPENRDSON_CELL_SIZE_NOT_POSITIVE = 6, /* cell size not positive */
    OPENRDSON_TOO_MANY_CELLS = 7,         /* over 4,096 cells on an axis */
    OPENRDSON_DEGENERATE_PRISM = 8,       /* degenerate prism: top not above bottom */
    OPENRDSON_DEGENERATE_Y_EXTENT = 9,    /* y extent degenerate: fewer than two y values left */
    OPENRDSON_ODD_CROSSINGS = 10,         /* odd crossings */
    OPENRDSON_NO_TRAPEZOID = 11,          /* no trapezoid */
    OPENRDSON_OUTPUT_TOO_SHORT = 12,      /* output list too short, or the result above a mesh's most */
    OPENRDSON_NODE_OUTSIDE_MESH = 13,     /* node number outside the mesh */
    OPENRDSON_BLOCK_DAMAGED = 14,         /* block damaged */
    OPENRDSON_OUTSIDE_LIST = 15,          /* kind, part, count, place or material outside its list, or an unused node place filled */
    OPENRDSON_UNEQUAL_LISTS = 16          /* parallel lists of unequal length, or node places not eight times the kinds */
};

/* Kinds of elements, with 4, 8, 6 and 5 nodes. */
enum openrdson_element {
    OPENRDSON_TET = 0,
    OPENRDSON_HEX = 1,
    OPENRDSON_PRISM = 2,
    OPENRDSON_PYRAMID = 3
};

/* Kinds of regions. */
enum openrdson_solid {
    OPENRDSON_BOX_SOLID = 0,
    OPENRDSON_PRISM_SOLID = 1
};

/* What stacking makes of a polygon. */
enum openrdson_outcome {
    OPENRDSON_BOX_OUTCOME = 0,
    OPENRDSON_PRISM_OUTCOME = 1,
    OPENRDSON_UNNAMED_LAYER = 2,
    OPENRDSON_MARKER = 3,
    OPENRDSON_UNMATCHED = 4,
    OPENRDSON_NO_Z_RANGE = 5
};

/* The block that openrdson_physical_name found a name in. */
enum openrdson_map {
    OPENRDSON_NO_MAP = 0,
    OPENRDSON_CONDUCTING_MAP = 1,
    OPENRDSON_VIA_MAP = 2
};

/* What is lent is at most this long. */
#define OPENRDSON_MOST_RING_POINTS 512
#define OPENRDSON_MOST_POLYGONS 4096
#define OPENRDSON_MOST_REGIONS 4096
#define OPENRDSON_MOST_OVERRIDES 4096
#define OPENRDSON_MOST_POINTS 2097152
#define OPENRDSON_MOST_NODES 1048576
#define OPENRDSON_MOST_ELEMENTS 1048576
#define OPENRDSON_MOST_CELLS 4096
#define OPENRDSON_MOST_ROWS 256
#define OPENRDSON_NAME_BYTES 32

/* What is lent is finite and at most this large: 2^20; a cell count's extent 2^21; a stack figure 2^19. */
#define OPENRDSON_LARGEST_COORDINATE 1048576.0
#define OPENRDSON_LARGEST_EXTENT 2097152.0
#define OPENRDSON_LARGEST_FIGURE 524288.0

/* Materials count from 1, and 0 is "unassigned". */
#define OPENRDSON_UNASSIGNED 0
#define OPENRDSON_LARGEST_MATERIAL UINT32_C(768)

/* Node places of an element, and what stands in those that its kind does not use. */
#define OPENRDSON_NODE_PLACES 8
#define OPENRDSON_UNUSED UINT32_C(4294967295)

/* The polygon number of a region that came from none. */
#define OPENRDSON_NO_POLYGON UINT32_C(4294967295)

/* The default cell sizes. */
#define OPENRDSON_LATERAL_CELL 1e-6
#define OPENRDSON_Z_CELL 0.1e-6

typedef struct openrdson_point {
    double x;
    double y;
} openrdson_point;

typedef struct openrdson_bbox {
    double min_x;
    double min_y;
    double max_x;
    double max_y;
} openrdson_bbox;

/* ---- rings: xs and ys, equally long ---- */

/* The shoelace area, above zero counter-clockwise; 0 below three points. 16, 2, 1. */
uint32_t openrdson_polygon_signed_area(
    const double *xs, size_t xs_len, const double *ys, size_t ys_len, double *area);

/* Its size. 16, 2, 1. */
uint32_t openrdson_polygon_area(
    const double *xs, size_t xs_len, const double *ys, size_t ys_len, double *area);

/* Whether the signed area is above zero. 16, 2, 1. */
uint32_t openrdson_is_ccw(const double *xs, size_t xs_len, const double *ys, size_t ys_len, bool *ccw);

/* Whether every point lies on a corner of the bounding box, and each corner has one. 16, 2, 1. */
uint32_t openrdson_is_axis_aligned_rectangle(
    const double *xs, size_t xs_len, const double *ys, size_t ys_len, bool *rectangle);

/* The bounding box; of no point, openrdson_bbox_empty's. 16, 2, 1. */
uint32_t openrdson_bbox_from_points(
    const double *xs, size_t xs_len, const double *ys, size_t ys_len, double *min_x, double *min_y,
    double *max_x, double *max_y);

/* The ring without points that are within 2^-52 of the one before, and without a last one that is within it of the first.
   Written: the points that are left, and their number. 16, 2, 1, 12. */
uint32_t openrdson_dedup_ring(
    const double *xs, size_t xs_len, const double *ys, size_t ys_len, double *out_x, size_t out_x_len,
    double *out_y, size_t out_y_len, size_t *points);

/* Ear clipping. Written: the cleaned ring, and three corners a triangle, places in that ring; their numbers. There are two
   triangles fewer than vertices, so that 3 * xs_len corners are room enough. 16, 2, 1, 3, 4, 12. */
uint32_t openrdson_triangulate_polygon(
    const double *xs, size_t xs_len, const double *ys, size_t ys_len, double *out_x, size_t out_x_len,
    double *out_y, size_t out_y_len, uint32_t *corners, size_t corners_len, size_t *vertices,
    size_t *triangles);

/* ---- bounding boxes, never refused ---- */

/* The empty box, from infinity to minus infinity: extended by a point, it is that point's box. */
openrdson_bbox openrdson_bbox_empty(void);

/* Whether a minimum is above its maximum. */
bool openrdson_bbox_is_empty(openrdson_bbox b);

/* Extended so that it has the point. */
openrdson_bbox openrdson_bbox_extend_point(openrdson_bbox b, openrdson_point p);

/* Extended by another box, unless that one is empty. */
openrdson_bbox openrdson_bbox_extend(openrdson_bbox b, openrdson_bbox other);

/* The same. */
openrdson_bbox openrdson_bbox_union(openrdson_bbox b, openrdson_bbox other);

/* Maximum less minimum of x; 0 if empty. */
double openrdson_bbox_width(openrdson_bbox b);

/* The same of y. */
double openrdson_bbox_height(openrdson_bbox b);

/* The middles of x and y, also if empty. */
openrdson_point openrdson_bbox_center(openrdson_bbox b);

/* ---- solids: a box, or a prism on the part of xs and ys that has this start and count ---- */

/* The size of width times depth times height. A box looks at no point, but at the lengths of their lists. 16, 2, 1. */
uint32_t openrdson_box_volume(
    double min_x, double min_y, double max_x, double max_y, double z_bottom, double z_top,
    const double *xs, size_t xs_len, const double *ys, size_t ys_len, double *volume);

/* Area times height. 16, 15 for the part, 2, 1. */
uint32_t openrdson_prism_volume(
    double z_bottom, double z_top, uint32_t start, uint32_t count, const double *xs, size_t xs_len,
    const double *ys, size_t ys_len, double *volume);

/* openrdson_box_volume of a region; its material, net and polygon are not looked at. 16, 2, 1. */
uint32_t openrdson_box_region_volume(
    uint32_t material, uint32_t net, uint32_t polygon, double min_x, double min_y, double max_x, double max_y,
    double z_bottom, double z_top, const double *xs, size_t xs_len, const double *ys, size_t ys_len,
    double *volume);

/* openrdson_prism_volume of a region; its material, net and polygon are not looked at. 16, 15 for the part, 2, 1. */
uint32_t openrdson_prism_region_volume(
    uint32_t material, uint32_t net, uint32_t polygon, double z_bottom, double z_top, uint32_t start,
    uint32_t count, const double *xs, size_t xs_len, const double *ys, size_t ys_len, double *volume);

/* The bounding box of the footprint: the four bounds. 16, 2, 1. */
uint32_t openrdson_box_footprint_bbox(
    double min_x, double min_y, double max_x, double max_y, double z_bottom, double z_top,
    const double *xs, size_t xs_len, const double *ys, size_t ys_len, double *out_min_x, double *out_min_y,
    double *out_max_x, double *out_max_y);

/* The bounding box of the footprint. 16, 15 for the part, 2, 1. */
uint32_t openrdson_prism_footprint_bbox(
    double z_bottom, double z_top, uint32_t start, uint32_t count, const double *xs, size_t xs_len,
    const double *ys, size_t ys_len, double *min_x, double *min_y, double *max_x, double *max_y);

/* A box's lower height, never refused. */
double openrdson_box_z_bottom(
    double min_x, double min_y, double max_x, double max_y, double z_bottom, double z_top);

/* Its upper height. */
double openrdson_box_z_top(
    double min_x, double min_y, double max_x, double max_y, double z_bottom, double z_top);

/* A prism's lower height, never refused. */
double openrdson_prism_z_bottom(double z_bottom, double z_top, uint32_t start, uint32_t count);

/* Its upper height. */
double openrdson_prism_z_top(double z_bottom, double z_top, uint32_t start, uint32_t count);

/* ---- regions: a row of a region list ----
   A prism's first four bounds and a box's start and count are written as zero and not looked at when read. */

/* A box exactly if the ring is an axis-aligned rectangle, else a prism with start 0 and the ring's count; of no polygon.
   16, 2, 1, heights last, 15 for the material. */
uint32_t openrdson_extrude_polygon(
    const double *xs, size_t xs_len, const double *ys, size_t ys_len, double z_bottom, double z_top,
    uint32_t material, uint32_t net, uint8_t *kind, double *min_x, double *min_y, double *max_x,
    double *max_y, double *out_z_bottom, double *out_z_top, uint32_t *start, uint32_t *count,
    uint32_t *out_material, uint32_t *out_net, uint32_t *polygon);

/* A box with these sides, of no polygon. 1, 15 for the material. */
uint32_t openrdson_extrude_box(
    openrdson_bbox sides, double z_bottom, double z_top, uint32_t material, uint32_t net, uint8_t *kind,
    double *min_x, double *min_y, double *max_x, double *max_y, double *out_z_bottom, double *out_z_top,
    uint32_t *start, uint32_t *count, uint32_t *out_material, uint32_t *out_net, uint32_t *polygon);

/* The sum of the volumes; +0 of no region. 16, 2 for the regions and the points, then region by region 15 for kind, part or
   material, 2, 1. */
uint32_t openrdson_total_volume(
    const uint8_t *kinds, size_t kinds_len, const double *min_x, size_t min_x_len,
    const double *min_y, size_t min_y_len, const double *max_x, size_t max_x_len,
    const double *max_y, size_t max_y_len, const double *z_bottom, size_t z_bottom_len,
    const double *z_top, size_t z_top_len, const uint32_t *starts, size_t starts_len,
    const uint32_t *counts, size_t counts_len, const uint32_t *materials, size_t materials_len,
    const uint32_t *nets, size_t nets_len, const uint32_t *polygons, size_t polygons_len,
    const double *xs, size_t xs_len, const double *ys, size_t ys_len, double *volume);

/* ---- stacking ---- */

/* Stacks polygons, each of which has a layer, a net and a part of xs and ys, into regions. The six blocks are layer names,
   conducting map, via map, conductors, diffusions, vias. Written: a row a region, in the polygons' order; an outcome a
   polygon; the number of regions, at most that of the polygons.
   14 in the order of the blocks, 1 for stack figures, 16, 2, then polygon by polygon 15, 2, 1; then 12. */
uint32_t openrdson_assemble_stack(
    const uint8_t *names, size_t names_len, const uint8_t *conducting, size_t conducting_len,
    const uint8_t *via, size_t via_len, const uint8_t *conductors, size_t conductors_len,
    const uint8_t *diffusions, size_t diffusions_len, const uint8_t *vias, size_t vias_len,
    const int16_t *layers, size_t layers_len, const uint32_t *nets, size_t nets_len,
    const uint32_t *starts, size_t starts_len, const uint32_t *counts, size_t counts_len,
    const double *xs, size_t xs_len, const double *ys, size_t ys_len, uint8_t *kinds, size_t kinds_len,
    double *min_x, size_t min_x_len, double *min_y, size_t min_y_len, double *max_x, size_t max_x_len,
    double *max_y, size_t max_y_len, double *z_bottom, size_t z_bottom_len, double *z_top, size_t z_top_len,
    uint32_t *region_starts, size_t region_starts_len, uint32_t *region_counts, size_t region_counts_len,
    uint32_t *materials, size_t materials_len, uint32_t *region_nets, size_t region_nets_len,
    uint32_t *polygons, size_t polygons_len, uint8_t *outcomes, size_t outcomes_len, size_t *regions);

/* ---- name blocks ----
   A count (two bytes, little-endian, at most 256), then two parallel arrays. A name cell is 32 bytes: 1 to 32 that are not
   zero, then zeros. Layer names: numbers (two bytes, signed, little-endian); name cells. A map: logical cells; physical
   cells. Conductors and diffusions: name cells; 17-byte entries of a flag byte (bit 0 height, bit 1 thickness present),
   height and thickness (little-endian binary64, zeros if absent). Vias: name cells; 64-byte entries of bottom cell, top cell
   (all zero: absent). A name that is asked for has no padding. */

/* Whether stacking takes the six blocks. 14 in their order, 1 for stack figures. */
uint32_t openrdson_check_blocks(
    const uint8_t *names, size_t names_len, const uint8_t *conducting, size_t conducting_len,
    const uint8_t *via, size_t via_len, const uint8_t *conductors, size_t conductors_len,
    const uint8_t *diffusions, size_t diffusions_len, const uint8_t *vias, size_t vias_len);

/* Whether a logical name is a marker's. Never refused. */
bool openrdson_is_marker(const uint8_t *name, size_t name_len);

/* The logical name of a layer, as a part of the block; 0 and 0 if it has none. 14. */
uint32_t openrdson_layer_name(
    const uint8_t *names, size_t names_len, int16_t layer, size_t *start, size_t *length);

/* Whether a logical name has a physical one. 14 in conducting, then via. */
uint32_t openrdson_look_up(
    const uint8_t *conducting, size_t conducting_len, const uint8_t *via, size_t via_len,
    const uint8_t *name, size_t name_len, bool *found);

/* That name, as a part of one of the two blocks (enum openrdson_map); 0, 0 and 0 if there is none. 14 in conducting, then
   via. */
uint32_t openrdson_physical_name(
    const uint8_t *conducting, size_t conducting_len, const uint8_t *via, size_t via_len,
    const uint8_t *name, size_t name_len, uint32_t *block, size_t *start, size_t *length);

/* That name's bytes, as many as fit; returns how many there are, 0 unless it is found. */
size_t openrdson_copy_physical_name(
    const uint8_t *conducting, size_t conducting_len, const uint8_t *via, size_t via_len,
    const uint8_t *name, size_t name_len, uint8_t *copy, size_t copy_len);

/* The figures of a conductor or diffusion; absent ones are 0. 14, 1. */
uint32_t openrdson_stack_layer(
    const uint8_t *block, size_t block_len, const uint8_t *name, size_t name_len, bool *found,
    bool *has_height, double *height, bool *has_thickness, double *thickness);

/* The names of a via's two layers, as parts of the block; 0 and 0 if absent. 14. */
uint32_t openrdson_via_layers(
    const uint8_t *vias, size_t vias_len, const uint8_t *name, size_t name_len, bool *found,
    size_t *bottom_start, size_t *bottom_length, size_t *top_start, size_t *top_length);

/* A name's first place among conductors, diffusions and vias, plus 1; 0 if it has none. 14 in this order. */
uint32_t openrdson_material_number(
    const uint8_t *conductors, size_t conductors_len, const uint8_t *diffusions, size_t diffusions_len,
    const uint8_t *vias, size_t vias_len, const uint8_t *name, size_t name_len, uint32_t *material);

/* ---- meshing ----
   A mesh is nodes (xs, ys, zs) and elements (kinds, eight node places each, regions). The call appends after the first
   *nodes nodes and the first *elements elements of the lists, raises its node numbers by *nodes, and gives the two counts
   of the whole through the same pointers. */

/* Cells on an axis: extent / cell, times (1 - 1e-12), rounded up, at least 1. 1, 5, 6, 7. */
uint32_t openrdson_cell_count(double extent, double cell, size_t *cells);

/* The coordinate of this place on an axis, 0 to the cell count. 1, 5, 6, 7, 15 for the place. */
uint32_t openrdson_axis_coordinate(double min, double max, double cell, size_t place, double *coordinate);

/* A grid of hexes: with a, b and c cells it has (a + 1) * (b + 1) * (c + 1) nodes and a * b * c elements, which carry
   `region`. 16, 15 for the counts or the material, 1 for the bounds, 5, 1 for the cell sizes, 6, 7, 12. */
uint32_t openrdson_mesh_box(
    openrdson_bbox bounds, double z_bottom, double z_top, uint32_t material, uint32_t region,
    double lateral_cell, double z_cell, double *xs, size_t xs_len, double *ys, size_t ys_len,
    double *zs, size_t zs_len, uint8_t *kinds, size_t kinds_len, uint32_t *places, size_t places_len,
    uint32_t *regions, size_t regions_len, size_t *nodes, size_t *elements);

/* Prisms on triangles, which carry `region`. On n points it has at most 8 * (n - 1) * (n / 2) nodes and 2 * (n - 1) * (n / 2)
   elements. 16, 15 for the counts, the material or the part, 2, 1, 8, 3, 9, 10, 1 for a crossing, 11, 1 for a node, 12. */
uint32_t openrdson_mesh_prism(
    const double *point_x, size_t point_x_len, const double *point_y, size_t point_y_len, double z_bottom,
    double z_top, uint32_t start, uint32_t count, uint32_t material, uint32_t region,
    double *xs, size_t xs_len, double *ys, size_t ys_len, double *zs, size_t zs_len,
    uint8_t *kinds, size_t kinds_len, uint32_t *places, size_t places_len,
    uint32_t *regions, size_t regions_len, size_t *nodes, size_t *elements);

/* openrdson_mesh_box of a region, whose elements carry `number`. Its net and polygon are not looked at, and of the points
   only whether they are parallel, which is 16 too. */
uint32_t openrdson_mesh_box_region(
    openrdson_bbox bounds, double z_bottom, double z_top, uint32_t material, uint32_t net, uint32_t polygon,
    const double *point_x, size_t point_x_len, const double *point_y, size_t point_y_len, uint32_t number,
    double lateral_cell, double z_cell, double *xs, size_t xs_len, double *ys, size_t ys_len,
    double *zs, size_t zs_len, uint8_t *kinds, size_t kinds_len, uint32_t *places, size_t places_len,
    uint32_t *regions, size_t regions_len, size_t *nodes, size_t *elements);

/* openrdson_mesh_prism of a region, whose elements carry `number`. Its net, its polygon and the cell sizes are not looked
   at. */
uint32_t openrdson_mesh_prism_region(
    double z_bottom, double z_top, uint32_t start, uint32_t count, uint32_t material, uint32_t net,
    uint32_t polygon, const double *point_x, size_t point_x_len, const double *point_y, size_t point_y_len,
    uint32_t number, double lateral_cell, double z_cell, double *xs, size_t xs_len, double *ys, size_t ys_len,
    double *zs, size_t zs_len, uint8_t *kinds, size_t kinds_len, uint32_t *places, size_t places_len,
    uint32_t *regions, size_t regions_len, size_t *nodes, size_t *elements);

/* Every region of a list, each after those before it; the elements carry the region's place from 0. Written too: a
   diagnostic a region, 0 or its refusal. 16, 2 for the regions and the points, 15 for the counts, 12 if the diagnostics are
   fewer than the regions. */
uint32_t openrdson_mesh_model(
    const uint8_t *row_kinds, size_t row_kinds_len, const double *min_x, size_t min_x_len,
    const double *min_y, size_t min_y_len, const double *max_x, size_t max_x_len,
    const double *max_y, size_t max_y_len, const double *z_bottom, size_t z_bottom_len,
    const double *z_top, size_t z_top_len, const uint32_t *starts, size_t starts_len,
    const uint32_t *row_counts, size_t row_counts_len,
    const uint32_t *row_materials, size_t row_materials_len, const uint32_t *nets, size_t nets_len,
    const uint32_t *polygons, size_t polygons_len, const double *point_x, size_t point_x_len,
    const double *point_y, size_t point_y_len, double lateral_cell, double z_cell, double *xs, size_t xs_len,
    double *ys, size_t ys_len, double *zs, size_t zs_len, uint8_t *kinds, size_t kinds_len,
    uint32_t *places, size_t places_len, uint32_t *regions, size_t regions_len,
    uint32_t *diagnostics, size_t diagnostics_len, size_t *nodes, size_t *elements);

/* The same with cell sizes by material, the later of two winning; a box looks at those that it uses.
   16, 2 for the regions, the points and the overrides, 15 for the counts and for an override's material, 12 for the
   diagnostics. */
uint32_t openrdson_mesh_model_with_options(
    const uint8_t *row_kinds, size_t row_kinds_len, const double *min_x, size_t min_x_len,
    const double *min_y, size_t min_y_len, const double *max_x, size_t max_x_len,
    const double *max_y, size_t max_y_len, const double *z_bottom, size_t z_bottom_len,
    const double *z_top, size_t z_top_len, const uint32_t *starts, size_t starts_len,
    const uint32_t *row_counts, size_t row_counts_len,
    const uint32_t *row_materials, size_t row_materials_len, const uint32_t *nets, size_t nets_len,
    const uint32_t *polygons, size_t polygons_len, const double *point_x, size_t point_x_len,
    const double *point_y, size_t point_y_len, const uint32_t *materials, size_t materials_len,
    const double *laterals, size_t laterals_len, const double *verticals, size_t verticals_len,
    double lateral_cell, double z_cell, double *xs, size_t xs_len, double *ys, size_t ys_len,
    double *zs, size_t zs_len, uint8_t *kinds, size_t kinds_len, uint32_t *places, size_t places_len,
    uint32_t *regions, size_t regions_len, uint32_t *diagnostics, size_t diagnostics_len, size_t *nodes,
    size_t *elements);

/* ---- a whole mesh: its lists hold it and nothing past it ---- */

/* Keeps the first node of each key: each coordinate divided by the tolerance, rounded with halves away from zero. Written: the
   welded mesh from the beginning of its own lists, and its counts, which are at most those of the mesh. 16, 2, 1, 15, 13, 12. */
uint32_t openrdson_weld_nodes(
    const double *xs, size_t xs_len, const double *ys, size_t ys_len, const double *zs, size_t zs_len,
    const uint8_t *kinds, size_t kinds_len, const uint32_t *places, size_t places_len,
    const uint32_t *regions, size_t regions_len, double tolerance, double *out_x, size_t out_x_len,
    double *out_y, size_t out_y_len, double *out_z, size_t out_z_len,
    uint8_t *out_kinds, size_t out_kinds_len, uint32_t *out_places, size_t out_places_len,
    uint32_t *out_regions, size_t out_regions_len, size_t *nodes, size_t *elements);

/* The sum of the volumes of the elements: a prism's triangle times its mean height, another's bounding box. 16, 2, 1, 15, 13. */
uint32_t openrdson_mesh_volume(
    const double *xs, size_t xs_len, const double *ys, size_t ys_len, const double *zs, size_t zs_len,
    const uint8_t *kinds, size_t kinds_len, const uint32_t *places, size_t places_len,
    const uint32_t *regions, size_t regions_len, double *volume);

/* ---- floating point, never refused ---- */

/* The correctly rounded root. */
double openrdson_sqrt(double x);

/* The size. */
double openrdson_abs(double x);

/* Rounded up, capped to 0 and 2^64 - 1; 0 of not-a-number. */
uint64_t openrdson_ceil_capped(double x);

/* Rounded with halves away from zero, capped to -2^63 and 2^63 - 1; 0 of not-a-number. */
int64_t openrdson_nearest_capped(double x);

/* Whether a number is finite and at most OPENRDSON_LARGEST_COORDINATE in size. */
bool openrdson_coordinate_in_range(double x);

/* The same of OPENRDSON_LARGEST_EXTENT. */
bool openrdson_extent_in_range(double x);

/* The same of OPENRDSON_LARGEST_FIGURE. */
bool openrdson_figure_in_range(double x);

#ifdef __cplusplus
}
#endif

#endif
