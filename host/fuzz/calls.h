/* The C functions of crates/c_api, all of them, as a table. Written by `host/header --table`, and held to it. */

static uint64_t call_openrdson_check_blocks(const struct argument *a)
{
    return openrdson_check_blocks(
        a[0].list, a[0].length, a[1].list, a[1].length, a[2].list, a[2].length, a[3].list, a[3].length,
        a[4].list, a[4].length, a[5].list, a[5].length);
}

static uint64_t call_openrdson_is_marker(const struct argument *a)
{
    bool answer = openrdson_is_marker(
        a[0].list, a[0].length);
    return bits(&answer, sizeof answer);
}

static uint64_t call_openrdson_look_up(const struct argument *a)
{
    return openrdson_look_up(
        a[0].list, a[0].length, a[1].list, a[1].length, a[2].list, a[2].length, a[3].list);
}

static uint64_t call_openrdson_material_number(const struct argument *a)
{
    return openrdson_material_number(
        a[0].list, a[0].length, a[1].list, a[1].length, a[2].list, a[2].length, a[3].list, a[3].length, a[4].list);
}

static uint64_t call_openrdson_physical_name(const struct argument *a)
{
    return openrdson_physical_name(
        a[0].list, a[0].length, a[1].list, a[1].length, a[2].list, a[2].length, a[3].list, a[4].list, a[5].list);
}

static uint64_t call_openrdson_copy_physical_name(const struct argument *a)
{
    return openrdson_copy_physical_name(
        a[0].list, a[0].length, a[1].list, a[1].length, a[2].list, a[2].length, a[3].list, a[3].length);
}

static uint64_t call_openrdson_stack_layer(const struct argument *a)
{
    return openrdson_stack_layer(
        a[0].list, a[0].length, a[1].list, a[1].length, a[2].list, a[3].list, a[4].list, a[5].list, a[6].list);
}

static uint64_t call_openrdson_via_layers(const struct argument *a)
{
    return openrdson_via_layers(
        a[0].list, a[0].length, a[1].list, a[1].length, a[2].list, a[3].list, a[4].list, a[5].list, a[6].list);
}

static uint64_t call_openrdson_layer_name(const struct argument *a)
{
    return openrdson_layer_name(
        a[0].list, a[0].length, (int16_t)a[1].whole, a[2].list, a[3].list);
}

static uint64_t call_openrdson_cell_count(const struct argument *a)
{
    return openrdson_cell_count(
        a[0].number, a[1].number, a[2].list);
}

static uint64_t call_openrdson_axis_coordinate(const struct argument *a)
{
    return openrdson_axis_coordinate(
        a[0].number, a[1].number, a[2].number, (size_t)a[3].whole, a[4].list);
}

static uint64_t call_openrdson_mesh_box(const struct argument *a)
{
    return openrdson_mesh_box(
        a[0].box, a[1].number, a[2].number, (uint32_t)a[3].whole, (uint32_t)a[4].whole, a[5].number, a[6].number,
        a[7].list, a[7].length, a[8].list, a[8].length, a[9].list, a[9].length, a[10].list, a[10].length,
        a[11].list, a[11].length, a[12].list, a[12].length, a[13].list, a[14].list);
}

static uint64_t call_openrdson_mesh_model_with_options(const struct argument *a)
{
    return openrdson_mesh_model_with_options(
        a[0].list, a[0].length, a[1].list, a[1].length, a[2].list, a[2].length, a[3].list, a[3].length,
        a[4].list, a[4].length, a[5].list, a[5].length, a[6].list, a[6].length, a[7].list, a[7].length,
        a[8].list, a[8].length, a[9].list, a[9].length, a[10].list, a[10].length, a[11].list, a[11].length,
        a[12].list, a[12].length, a[13].list, a[13].length, a[14].list, a[14].length, a[15].list, a[15].length,
        a[16].list, a[16].length, a[17].number, a[18].number, a[19].list, a[19].length, a[20].list, a[20].length,
        a[21].list, a[21].length, a[22].list, a[22].length, a[23].list, a[23].length, a[24].list, a[24].length,
        a[25].list, a[25].length, a[26].list, a[27].list);
}

static uint64_t call_openrdson_mesh_model(const struct argument *a)
{
    return openrdson_mesh_model(
        a[0].list, a[0].length, a[1].list, a[1].length, a[2].list, a[2].length, a[3].list, a[3].length,
        a[4].list, a[4].length, a[5].list, a[5].length, a[6].list, a[6].length, a[7].list, a[7].length,
        a[8].list, a[8].length, a[9].list, a[9].length, a[10].list, a[10].length, a[11].list, a[11].length,
        a[12].list, a[12].length, a[13].list, a[13].length, a[14].number, a[15].number, a[16].list, a[16].length,
        a[17].list, a[17].length, a[18].list, a[18].length, a[19].list, a[19].length, a[20].list, a[20].length,
        a[21].list, a[21].length, a[22].list, a[22].length, a[23].list, a[24].list);
}

static uint64_t call_openrdson_sqrt(const struct argument *a)
{
    double answer = openrdson_sqrt(
        a[0].number);
    return bits(&answer, sizeof answer);
}

static uint64_t call_openrdson_abs(const struct argument *a)
{
    double answer = openrdson_abs(
        a[0].number);
    return bits(&answer, sizeof answer);
}

static uint64_t call_openrdson_ceil_capped(const struct argument *a)
{
    uint64_t answer = openrdson_ceil_capped(
        a[0].number);
    return bits(&answer, sizeof answer);
}

static uint64_t call_openrdson_nearest_capped(const struct argument *a)
{
    int64_t answer = openrdson_nearest_capped(
        a[0].number);
    return bits(&answer, sizeof answer);
}

static uint64_t call_openrdson_coordinate_in_range(const struct argument *a)
{
    bool answer = openrdson_coordinate_in_range(
        a[0].number);
    return bits(&answer, sizeof answer);
}

static uint64_t call_openrdson_extent_in_range(const struct argument *a)
{
    bool answer = openrdson_extent_in_range(
        a[0].number);
    return bits(&answer, sizeof answer);
}

static uint64_t call_openrdson_figure_in_range(const struct argument *a)
{
    bool answer = openrdson_figure_in_range(
        a[0].number);
    return bits(&answer, sizeof answer);
}

static uint64_t call_openrdson_dedup_ring(const struct argument *a)
{
    return openrdson_dedup_ring(
        a[0].list, a[0].length, a[1].list, a[1].length, a[2].list, a[2].length, a[3].list, a[3].length, a[4].list);
}

static uint64_t call_openrdson_triangulate_polygon(const struct argument *a)
{
    return openrdson_triangulate_polygon(
        a[0].list, a[0].length, a[1].list, a[1].length, a[2].list, a[2].length, a[3].list, a[3].length,
        a[4].list, a[4].length, a[5].list, a[6].list);
}

static uint64_t call_openrdson_mesh_prism(const struct argument *a)
{
    return openrdson_mesh_prism(
        a[0].list, a[0].length, a[1].list, a[1].length, a[2].number, a[3].number, (uint32_t)a[4].whole,
        (uint32_t)a[5].whole, (uint32_t)a[6].whole, (uint32_t)a[7].whole, a[8].list, a[8].length,
        a[9].list, a[9].length, a[10].list, a[10].length, a[11].list, a[11].length, a[12].list, a[12].length,
        a[13].list, a[13].length, a[14].list, a[15].list);
}

static uint64_t call_openrdson_mesh_box_region(const struct argument *a)
{
    return openrdson_mesh_box_region(
        a[0].box, a[1].number, a[2].number, (uint32_t)a[3].whole, (uint32_t)a[4].whole, (uint32_t)a[5].whole,
        a[6].list, a[6].length, a[7].list, a[7].length, (uint32_t)a[8].whole, a[9].number, a[10].number,
        a[11].list, a[11].length, a[12].list, a[12].length, a[13].list, a[13].length, a[14].list, a[14].length,
        a[15].list, a[15].length, a[16].list, a[16].length, a[17].list, a[18].list);
}

static uint64_t call_openrdson_mesh_prism_region(const struct argument *a)
{
    return openrdson_mesh_prism_region(
        a[0].number, a[1].number, (uint32_t)a[2].whole, (uint32_t)a[3].whole, (uint32_t)a[4].whole,
        (uint32_t)a[5].whole, (uint32_t)a[6].whole, a[7].list, a[7].length, a[8].list, a[8].length,
        (uint32_t)a[9].whole, a[10].number, a[11].number, a[12].list, a[12].length, a[13].list, a[13].length,
        a[14].list, a[14].length, a[15].list, a[15].length, a[16].list, a[16].length, a[17].list, a[17].length,
        a[18].list, a[19].list);
}

static uint64_t call_openrdson_extrude_polygon(const struct argument *a)
{
    return openrdson_extrude_polygon(
        a[0].list, a[0].length, a[1].list, a[1].length, a[2].number, a[3].number, (uint32_t)a[4].whole,
        (uint32_t)a[5].whole, a[6].list, a[7].list, a[8].list, a[9].list, a[10].list, a[11].list, a[12].list,
        a[13].list, a[14].list, a[15].list, a[16].list, a[17].list);
}

static uint64_t call_openrdson_extrude_box(const struct argument *a)
{
    return openrdson_extrude_box(
        a[0].box, a[1].number, a[2].number, (uint32_t)a[3].whole, (uint32_t)a[4].whole, a[5].list, a[6].list, a[7].list,
        a[8].list, a[9].list, a[10].list, a[11].list, a[12].list, a[13].list, a[14].list, a[15].list, a[16].list);
}

static uint64_t call_openrdson_total_volume(const struct argument *a)
{
    return openrdson_total_volume(
        a[0].list, a[0].length, a[1].list, a[1].length, a[2].list, a[2].length, a[3].list, a[3].length,
        a[4].list, a[4].length, a[5].list, a[5].length, a[6].list, a[6].length, a[7].list, a[7].length,
        a[8].list, a[8].length, a[9].list, a[9].length, a[10].list, a[10].length, a[11].list, a[11].length,
        a[12].list, a[12].length, a[13].list, a[13].length, a[14].list);
}

static uint64_t call_openrdson_polygon_signed_area(const struct argument *a)
{
    return openrdson_polygon_signed_area(
        a[0].list, a[0].length, a[1].list, a[1].length, a[2].list);
}

static uint64_t call_openrdson_polygon_area(const struct argument *a)
{
    return openrdson_polygon_area(
        a[0].list, a[0].length, a[1].list, a[1].length, a[2].list);
}

static uint64_t call_openrdson_is_ccw(const struct argument *a)
{
    return openrdson_is_ccw(
        a[0].list, a[0].length, a[1].list, a[1].length, a[2].list);
}

static uint64_t call_openrdson_is_axis_aligned_rectangle(const struct argument *a)
{
    return openrdson_is_axis_aligned_rectangle(
        a[0].list, a[0].length, a[1].list, a[1].length, a[2].list);
}

static uint64_t call_openrdson_bbox_from_points(const struct argument *a)
{
    return openrdson_bbox_from_points(
        a[0].list, a[0].length, a[1].list, a[1].length, a[2].list, a[3].list, a[4].list, a[5].list);
}

static uint64_t call_openrdson_bbox_empty(const struct argument *a)
{
    (void)a;
    openrdson_bbox answer = openrdson_bbox_empty();
    return bits(&answer, sizeof answer);
}

static uint64_t call_openrdson_bbox_is_empty(const struct argument *a)
{
    bool answer = openrdson_bbox_is_empty(
        a[0].box);
    return bits(&answer, sizeof answer);
}

static uint64_t call_openrdson_bbox_extend_point(const struct argument *a)
{
    openrdson_bbox answer = openrdson_bbox_extend_point(
        a[0].box, a[1].point);
    return bits(&answer, sizeof answer);
}

static uint64_t call_openrdson_bbox_extend(const struct argument *a)
{
    openrdson_bbox answer = openrdson_bbox_extend(
        a[0].box, a[1].box);
    return bits(&answer, sizeof answer);
}

static uint64_t call_openrdson_bbox_union(const struct argument *a)
{
    openrdson_bbox answer = openrdson_bbox_union(
        a[0].box, a[1].box);
    return bits(&answer, sizeof answer);
}

static uint64_t call_openrdson_bbox_width(const struct argument *a)
{
    double answer = openrdson_bbox_width(
        a[0].box);
    return bits(&answer, sizeof answer);
}

static uint64_t call_openrdson_bbox_height(const struct argument *a)
{
    double answer = openrdson_bbox_height(
        a[0].box);
    return bits(&answer, sizeof answer);
}

static uint64_t call_openrdson_bbox_center(const struct argument *a)
{
    openrdson_point answer = openrdson_bbox_center(
        a[0].box);
    return bits(&answer, sizeof answer);
}

static uint64_t call_openrdson_box_volume(const struct argument *a)
{
    return openrdson_box_volume(
        a[0].number, a[1].number, a[2].number, a[3].number, a[4].number, a[5].number, a[6].list, a[6].length,
        a[7].list, a[7].length, a[8].list);
}

static uint64_t call_openrdson_prism_volume(const struct argument *a)
{
    return openrdson_prism_volume(
        a[0].number, a[1].number, (uint32_t)a[2].whole, (uint32_t)a[3].whole, a[4].list, a[4].length,
        a[5].list, a[5].length, a[6].list);
}

static uint64_t call_openrdson_box_region_volume(const struct argument *a)
{
    return openrdson_box_region_volume(
        (uint32_t)a[0].whole, (uint32_t)a[1].whole, (uint32_t)a[2].whole, a[3].number, a[4].number, a[5].number,
        a[6].number, a[7].number, a[8].number, a[9].list, a[9].length, a[10].list, a[10].length, a[11].list);
}

static uint64_t call_openrdson_prism_region_volume(const struct argument *a)
{
    return openrdson_prism_region_volume(
        (uint32_t)a[0].whole, (uint32_t)a[1].whole, (uint32_t)a[2].whole, a[3].number, a[4].number,
        (uint32_t)a[5].whole, (uint32_t)a[6].whole, a[7].list, a[7].length, a[8].list, a[8].length, a[9].list);
}

static uint64_t call_openrdson_box_footprint_bbox(const struct argument *a)
{
    return openrdson_box_footprint_bbox(
        a[0].number, a[1].number, a[2].number, a[3].number, a[4].number, a[5].number, a[6].list, a[6].length,
        a[7].list, a[7].length, a[8].list, a[9].list, a[10].list, a[11].list);
}

static uint64_t call_openrdson_prism_footprint_bbox(const struct argument *a)
{
    return openrdson_prism_footprint_bbox(
        a[0].number, a[1].number, (uint32_t)a[2].whole, (uint32_t)a[3].whole, a[4].list, a[4].length,
        a[5].list, a[5].length, a[6].list, a[7].list, a[8].list, a[9].list);
}

static uint64_t call_openrdson_box_z_bottom(const struct argument *a)
{
    double answer = openrdson_box_z_bottom(
        a[0].number, a[1].number, a[2].number, a[3].number, a[4].number, a[5].number);
    return bits(&answer, sizeof answer);
}

static uint64_t call_openrdson_box_z_top(const struct argument *a)
{
    double answer = openrdson_box_z_top(
        a[0].number, a[1].number, a[2].number, a[3].number, a[4].number, a[5].number);
    return bits(&answer, sizeof answer);
}

static uint64_t call_openrdson_prism_z_bottom(const struct argument *a)
{
    double answer = openrdson_prism_z_bottom(
        a[0].number, a[1].number, (uint32_t)a[2].whole, (uint32_t)a[3].whole);
    return bits(&answer, sizeof answer);
}

static uint64_t call_openrdson_prism_z_top(const struct argument *a)
{
    double answer = openrdson_prism_z_top(
        a[0].number, a[1].number, (uint32_t)a[2].whole, (uint32_t)a[3].whole);
    return bits(&answer, sizeof answer);
}

static uint64_t call_openrdson_assemble_stack(const struct argument *a)
{
    return openrdson_assemble_stack(
        a[0].list, a[0].length, a[1].list, a[1].length, a[2].list, a[2].length, a[3].list, a[3].length,
        a[4].list, a[4].length, a[5].list, a[5].length, a[6].list, a[6].length, a[7].list, a[7].length,
        a[8].list, a[8].length, a[9].list, a[9].length, a[10].list, a[10].length, a[11].list, a[11].length,
        a[12].list, a[12].length, a[13].list, a[13].length, a[14].list, a[14].length, a[15].list, a[15].length,
        a[16].list, a[16].length, a[17].list, a[17].length, a[18].list, a[18].length, a[19].list, a[19].length,
        a[20].list, a[20].length, a[21].list, a[21].length, a[22].list, a[22].length, a[23].list, a[23].length,
        a[24].list, a[24].length, a[25].list);
}

static uint64_t call_openrdson_weld_nodes(const struct argument *a)
{
    return openrdson_weld_nodes(
        a[0].list, a[0].length, a[1].list, a[1].length, a[2].list, a[2].length, a[3].list, a[3].length,
        a[4].list, a[4].length, a[5].list, a[5].length, a[6].number, a[7].list, a[7].length, a[8].list, a[8].length,
        a[9].list, a[9].length, a[10].list, a[10].length, a[11].list, a[11].length, a[12].list, a[12].length,
        a[13].list, a[14].list);
}

static uint64_t call_openrdson_mesh_volume(const struct argument *a)
{
    return openrdson_mesh_volume(
        a[0].list, a[0].length, a[1].list, a[1].length, a[2].list, a[2].length, a[3].list, a[3].length,
        a[4].list, a[4].length, a[5].list, a[5].length, a[6].list);
}

static const struct call CALLS[] = {
    {"openrdson_check_blocks", call_openrdson_check_blocks, U32, 6, {
        {"names", READ, U8, sizeof(uint8_t)}, {"conducting", READ, U8, sizeof(uint8_t)},
        {"via", READ, U8, sizeof(uint8_t)}, {"conductors", READ, U8, sizeof(uint8_t)},
        {"diffusions", READ, U8, sizeof(uint8_t)}, {"vias", READ, U8, sizeof(uint8_t)}}},
    {"openrdson_is_marker", call_openrdson_is_marker, BOOL, 1, {
        {"name", READ, U8, sizeof(uint8_t)}}},
    {"openrdson_look_up", call_openrdson_look_up, U32, 4, {
        {"conducting", READ, U8, sizeof(uint8_t)}, {"via", READ, U8, sizeof(uint8_t)},
        {"name", READ, U8, sizeof(uint8_t)}, {"found", OUT, BOOL, sizeof(bool)}}},
    {"openrdson_material_number", call_openrdson_material_number, U32, 5, {
        {"conductors", READ, U8, sizeof(uint8_t)}, {"diffusions", READ, U8, sizeof(uint8_t)},
        {"vias", READ, U8, sizeof(uint8_t)}, {"name", READ, U8, sizeof(uint8_t)},
        {"material", OUT, U32, sizeof(uint32_t)}}},
    {"openrdson_physical_name", call_openrdson_physical_name, U32, 6, {
        {"conducting", READ, U8, sizeof(uint8_t)}, {"via", READ, U8, sizeof(uint8_t)},
        {"name", READ, U8, sizeof(uint8_t)}, {"block", OUT, U32, sizeof(uint32_t)},
        {"start", OUT, USIZE, sizeof(size_t)}, {"length", OUT, USIZE, sizeof(size_t)}}},
    {"openrdson_copy_physical_name", call_openrdson_copy_physical_name, USIZE, 4, {
        {"conducting", READ, U8, sizeof(uint8_t)}, {"via", READ, U8, sizeof(uint8_t)},
        {"name", READ, U8, sizeof(uint8_t)}, {"copy", WRITE, U8, sizeof(uint8_t)}}},
    {"openrdson_stack_layer", call_openrdson_stack_layer, U32, 7, {
        {"block", READ, U8, sizeof(uint8_t)}, {"name", READ, U8, sizeof(uint8_t)}, {"found", OUT, BOOL, sizeof(bool)},
        {"has_height", OUT, BOOL, sizeof(bool)}, {"height", OUT, F64, sizeof(double)},
        {"has_thickness", OUT, BOOL, sizeof(bool)}, {"thickness", OUT, F64, sizeof(double)}}},
    {"openrdson_via_layers", call_openrdson_via_layers, U32, 7, {
        {"vias", READ, U8, sizeof(uint8_t)}, {"name", READ, U8, sizeof(uint8_t)}, {"found", OUT, BOOL, sizeof(bool)},
        {"bottom_start", OUT, USIZE, sizeof(size_t)}, {"bottom_length", OUT, USIZE, sizeof(size_t)},
        {"top_start", OUT, USIZE, sizeof(size_t)}, {"top_length", OUT, USIZE, sizeof(size_t)}}},
    {"openrdson_layer_name", call_openrdson_layer_name, U32, 4, {
        {"names", READ, U8, sizeof(uint8_t)}, {"layer", VALUE, I16, sizeof(int16_t)},
        {"start", OUT, USIZE, sizeof(size_t)}, {"length", OUT, USIZE, sizeof(size_t)}}},
    {"openrdson_cell_count", call_openrdson_cell_count, U32, 3, {
        {"extent", VALUE, F64, sizeof(double)}, {"cell", VALUE, F64, sizeof(double)},
        {"cells", OUT, USIZE, sizeof(size_t)}}},
    {"openrdson_axis_coordinate", call_openrdson_axis_coordinate, U32, 5, {
        {"min", VALUE, F64, sizeof(double)}, {"max", VALUE, F64, sizeof(double)}, {"cell", VALUE, F64, sizeof(double)},
        {"place", VALUE, USIZE, sizeof(size_t)}, {"coordinate", OUT, F64, sizeof(double)}}},
    {"openrdson_mesh_box", call_openrdson_mesh_box, U32, 15, {
        {"bounds", VALUE, BBOX, sizeof(openrdson_bbox)}, {"z_bottom", VALUE, F64, sizeof(double)},
        {"z_top", VALUE, F64, sizeof(double)}, {"material", VALUE, U32, sizeof(uint32_t)},
        {"region", VALUE, U32, sizeof(uint32_t)}, {"lateral_cell", VALUE, F64, sizeof(double)},
        {"z_cell", VALUE, F64, sizeof(double)}, {"xs", WRITE, F64, sizeof(double)}, {"ys", WRITE, F64, sizeof(double)},
        {"zs", WRITE, F64, sizeof(double)}, {"kinds", WRITE, U8, sizeof(uint8_t)},
        {"places", WRITE, U32, sizeof(uint32_t)}, {"regions", WRITE, U32, sizeof(uint32_t)},
        {"nodes", OUT, USIZE, sizeof(size_t)}, {"elements", OUT, USIZE, sizeof(size_t)}}},
    {"openrdson_mesh_model_with_options", call_openrdson_mesh_model_with_options, U32, 28, {
        {"row_kinds", READ, U8, sizeof(uint8_t)}, {"min_x", READ, F64, sizeof(double)},
        {"min_y", READ, F64, sizeof(double)}, {"max_x", READ, F64, sizeof(double)},
        {"max_y", READ, F64, sizeof(double)}, {"z_bottom", READ, F64, sizeof(double)},
        {"z_top", READ, F64, sizeof(double)}, {"starts", READ, U32, sizeof(uint32_t)},
        {"row_counts", READ, U32, sizeof(uint32_t)}, {"row_materials", READ, U32, sizeof(uint32_t)},
        {"nets", READ, U32, sizeof(uint32_t)}, {"polygons", READ, U32, sizeof(uint32_t)},
        {"point_x", READ, F64, sizeof(double)}, {"point_y", READ, F64, sizeof(double)},
        {"materials", READ, U32, sizeof(uint32_t)}, {"laterals", READ, F64, sizeof(double)},
        {"verticals", READ, F64, sizeof(double)}, {"lateral_cell", VALUE, F64, sizeof(double)},
        {"z_cell", VALUE, F64, sizeof(double)}, {"xs", WRITE, F64, sizeof(double)}, {"ys", WRITE, F64, sizeof(double)},
        {"zs", WRITE, F64, sizeof(double)}, {"kinds", WRITE, U8, sizeof(uint8_t)},
        {"places", WRITE, U32, sizeof(uint32_t)}, {"regions", WRITE, U32, sizeof(uint32_t)},
        {"diagnostics", WRITE, U32, sizeof(uint32_t)}, {"nodes", OUT, USIZE, sizeof(size_t)},
        {"elements", OUT, USIZE, sizeof(size_t)}}},
    {"openrdson_mesh_model", call_openrdson_mesh_model, U32, 25, {
        {"row_kinds", READ, U8, sizeof(uint8_t)}, {"min_x", READ, F64, sizeof(double)},
        {"min_y", READ, F64, sizeof(double)}, {"max_x", READ, F64, sizeof(double)},
        {"max_y", READ, F64, sizeof(double)}, {"z_bottom", READ, F64, sizeof(double)},
        {"z_top", READ, F64, sizeof(double)}, {"starts", READ, U32, sizeof(uint32_t)},
        {"row_counts", READ, U32, sizeof(uint32_t)}, {"row_materials", READ, U32, sizeof(uint32_t)},
        {"nets", READ, U32, sizeof(uint32_t)}, {"polygons", READ, U32, sizeof(uint32_t)},
        {"point_x", READ, F64, sizeof(double)}, {"point_y", READ, F64, sizeof(double)},
        {"lateral_cell", VALUE, F64, sizeof(double)}, {"z_cell", VALUE, F64, sizeof(double)},
        {"xs", WRITE, F64, sizeof(double)}, {"ys", WRITE, F64, sizeof(double)}, {"zs", WRITE, F64, sizeof(double)},
        {"kinds", WRITE, U8, sizeof(uint8_t)}, {"places", WRITE, U32, sizeof(uint32_t)},
        {"regions", WRITE, U32, sizeof(uint32_t)}, {"diagnostics", WRITE, U32, sizeof(uint32_t)},
        {"nodes", OUT, USIZE, sizeof(size_t)}, {"elements", OUT, USIZE, sizeof(size_t)}}},
    {"openrdson_sqrt", call_openrdson_sqrt, F64, 1, {
        {"x", VALUE, F64, sizeof(double)}}},
    {"openrdson_abs", call_openrdson_abs, F64, 1, {
        {"x", VALUE, F64, sizeof(double)}}},
    {"openrdson_ceil_capped", call_openrdson_ceil_capped, U64, 1, {
        {"x", VALUE, F64, sizeof(double)}}},
    {"openrdson_nearest_capped", call_openrdson_nearest_capped, I64, 1, {
        {"x", VALUE, F64, sizeof(double)}}},
    {"openrdson_coordinate_in_range", call_openrdson_coordinate_in_range, BOOL, 1, {
        {"x", VALUE, F64, sizeof(double)}}},
    {"openrdson_extent_in_range", call_openrdson_extent_in_range, BOOL, 1, {
        {"x", VALUE, F64, sizeof(double)}}},
    {"openrdson_figure_in_range", call_openrdson_figure_in_range, BOOL, 1, {
        {"x", VALUE, F64, sizeof(double)}}},
    {"openrdson_dedup_ring", call_openrdson_dedup_ring, U32, 5, {
        {"xs", READ, F64, sizeof(double)}, {"ys", READ, F64, sizeof(double)}, {"out_x", WRITE, F64, sizeof(double)},
        {"out_y", WRITE, F64, sizeof(double)}, {"points", OUT, USIZE, sizeof(size_t)}}},
    {"openrdson_triangulate_polygon", call_openrdson_triangulate_polygon, U32, 7, {
        {"xs", READ, F64, sizeof(double)}, {"ys", READ, F64, sizeof(double)}, {"out_x", WRITE, F64, sizeof(double)},
        {"out_y", WRITE, F64, sizeof(double)}, {"corners", WRITE, U32, sizeof(uint32_t)},
        {"vertices", OUT, USIZE, sizeof(size_t)}, {"triangles", OUT, USIZE, sizeof(size_t)}}},
    {"openrdson_mesh_prism", call_openrdson_mesh_prism, U32, 16, {
        {"point_x", READ, F64, sizeof(double)}, {"point_y", READ, F64, sizeof(double)},
        {"z_bottom", VALUE, F64, sizeof(double)}, {"z_top", VALUE, F64, sizeof(double)},
        {"start", VALUE, U32, sizeof(uint32_t)}, {"count", VALUE, U32, sizeof(uint32_t)},
        {"material", VALUE, U32, sizeof(uint32_t)}, {"region", VALUE, U32, sizeof(uint32_t)},
        {"xs", WRITE, F64, sizeof(double)}, {"ys", WRITE, F64, sizeof(double)}, {"zs", WRITE, F64, sizeof(double)},
        {"kinds", WRITE, U8, sizeof(uint8_t)}, {"places", WRITE, U32, sizeof(uint32_t)},
        {"regions", WRITE, U32, sizeof(uint32_t)}, {"nodes", OUT, USIZE, sizeof(size_t)},
        {"elements", OUT, USIZE, sizeof(size_t)}}},
    {"openrdson_mesh_box_region", call_openrdson_mesh_box_region, U32, 19, {
        {"bounds", VALUE, BBOX, sizeof(openrdson_bbox)}, {"z_bottom", VALUE, F64, sizeof(double)},
        {"z_top", VALUE, F64, sizeof(double)}, {"material", VALUE, U32, sizeof(uint32_t)},
        {"net", VALUE, U32, sizeof(uint32_t)}, {"polygon", VALUE, U32, sizeof(uint32_t)},
        {"point_x", READ, F64, sizeof(double)}, {"point_y", READ, F64, sizeof(double)},
        {"number", VALUE, U32, sizeof(uint32_t)}, {"lateral_cell", VALUE, F64, sizeof(double)},
        {"z_cell", VALUE, F64, sizeof(double)}, {"xs", WRITE, F64, sizeof(double)}, {"ys", WRITE, F64, sizeof(double)},
        {"zs", WRITE, F64, sizeof(double)}, {"kinds", WRITE, U8, sizeof(uint8_t)},
        {"places", WRITE, U32, sizeof(uint32_t)}, {"regions", WRITE, U32, sizeof(uint32_t)},
        {"nodes", OUT, USIZE, sizeof(size_t)}, {"elements", OUT, USIZE, sizeof(size_t)}}},
    {"openrdson_mesh_prism_region", call_openrdson_mesh_prism_region, U32, 20, {
        {"z_bottom", VALUE, F64, sizeof(double)}, {"z_top", VALUE, F64, sizeof(double)},
        {"start", VALUE, U32, sizeof(uint32_t)}, {"count", VALUE, U32, sizeof(uint32_t)},
        {"material", VALUE, U32, sizeof(uint32_t)}, {"net", VALUE, U32, sizeof(uint32_t)},
        {"polygon", VALUE, U32, sizeof(uint32_t)}, {"point_x", READ, F64, sizeof(double)},
        {"point_y", READ, F64, sizeof(double)}, {"number", VALUE, U32, sizeof(uint32_t)},
        {"lateral_cell", VALUE, F64, sizeof(double)}, {"z_cell", VALUE, F64, sizeof(double)},
        {"xs", WRITE, F64, sizeof(double)}, {"ys", WRITE, F64, sizeof(double)}, {"zs", WRITE, F64, sizeof(double)},
        {"kinds", WRITE, U8, sizeof(uint8_t)}, {"places", WRITE, U32, sizeof(uint32_t)},
        {"regions", WRITE, U32, sizeof(uint32_t)}, {"nodes", OUT, USIZE, sizeof(size_t)},
        {"elements", OUT, USIZE, sizeof(size_t)}}},
    {"openrdson_extrude_polygon", call_openrdson_extrude_polygon, U32, 18, {
        {"xs", READ, F64, sizeof(double)}, {"ys", READ, F64, sizeof(double)}, {"z_bottom", VALUE, F64, sizeof(double)},
        {"z_top", VALUE, F64, sizeof(double)}, {"material", VALUE, U32, sizeof(uint32_t)},
        {"net", VALUE, U32, sizeof(uint32_t)}, {"kind", OUT, U8, sizeof(uint8_t)}, {"min_x", OUT, F64, sizeof(double)},
        {"min_y", OUT, F64, sizeof(double)}, {"max_x", OUT, F64, sizeof(double)}, {"max_y", OUT, F64, sizeof(double)},
        {"out_z_bottom", OUT, F64, sizeof(double)}, {"out_z_top", OUT, F64, sizeof(double)},
        {"start", OUT, U32, sizeof(uint32_t)}, {"count", OUT, U32, sizeof(uint32_t)},
        {"out_material", OUT, U32, sizeof(uint32_t)}, {"out_net", OUT, U32, sizeof(uint32_t)},
        {"polygon", OUT, U32, sizeof(uint32_t)}}},
    {"openrdson_extrude_box", call_openrdson_extrude_box, U32, 17, {
        {"sides", VALUE, BBOX, sizeof(openrdson_bbox)}, {"z_bottom", VALUE, F64, sizeof(double)},
        {"z_top", VALUE, F64, sizeof(double)}, {"material", VALUE, U32, sizeof(uint32_t)},
        {"net", VALUE, U32, sizeof(uint32_t)}, {"kind", OUT, U8, sizeof(uint8_t)}, {"min_x", OUT, F64, sizeof(double)},
        {"min_y", OUT, F64, sizeof(double)}, {"max_x", OUT, F64, sizeof(double)}, {"max_y", OUT, F64, sizeof(double)},
        {"out_z_bottom", OUT, F64, sizeof(double)}, {"out_z_top", OUT, F64, sizeof(double)},
        {"start", OUT, U32, sizeof(uint32_t)}, {"count", OUT, U32, sizeof(uint32_t)},
        {"out_material", OUT, U32, sizeof(uint32_t)}, {"out_net", OUT, U32, sizeof(uint32_t)},
        {"polygon", OUT, U32, sizeof(uint32_t)}}},
    {"openrdson_total_volume", call_openrdson_total_volume, U32, 15, {
        {"kinds", READ, U8, sizeof(uint8_t)}, {"min_x", READ, F64, sizeof(double)},
        {"min_y", READ, F64, sizeof(double)}, {"max_x", READ, F64, sizeof(double)},
        {"max_y", READ, F64, sizeof(double)}, {"z_bottom", READ, F64, sizeof(double)},
        {"z_top", READ, F64, sizeof(double)}, {"starts", READ, U32, sizeof(uint32_t)},
        {"counts", READ, U32, sizeof(uint32_t)}, {"materials", READ, U32, sizeof(uint32_t)},
        {"nets", READ, U32, sizeof(uint32_t)}, {"polygons", READ, U32, sizeof(uint32_t)},
        {"xs", READ, F64, sizeof(double)}, {"ys", READ, F64, sizeof(double)}, {"volume", OUT, F64, sizeof(double)}}},
    {"openrdson_polygon_signed_area", call_openrdson_polygon_signed_area, U32, 3, {
        {"xs", READ, F64, sizeof(double)}, {"ys", READ, F64, sizeof(double)}, {"area", OUT, F64, sizeof(double)}}},
    {"openrdson_polygon_area", call_openrdson_polygon_area, U32, 3, {
        {"xs", READ, F64, sizeof(double)}, {"ys", READ, F64, sizeof(double)}, {"area", OUT, F64, sizeof(double)}}},
    {"openrdson_is_ccw", call_openrdson_is_ccw, U32, 3, {
        {"xs", READ, F64, sizeof(double)}, {"ys", READ, F64, sizeof(double)}, {"ccw", OUT, BOOL, sizeof(bool)}}},
    {"openrdson_is_axis_aligned_rectangle", call_openrdson_is_axis_aligned_rectangle, U32, 3, {
        {"xs", READ, F64, sizeof(double)}, {"ys", READ, F64, sizeof(double)}, {"rectangle", OUT, BOOL, sizeof(bool)}}},
    {"openrdson_bbox_from_points", call_openrdson_bbox_from_points, U32, 6, {
        {"xs", READ, F64, sizeof(double)}, {"ys", READ, F64, sizeof(double)}, {"min_x", OUT, F64, sizeof(double)},
        {"min_y", OUT, F64, sizeof(double)}, {"max_x", OUT, F64, sizeof(double)}, {"max_y", OUT, F64, sizeof(double)}}},
    {"openrdson_bbox_empty", call_openrdson_bbox_empty, BBOX, 0, {{0}}},
    {"openrdson_bbox_is_empty", call_openrdson_bbox_is_empty, BOOL, 1, {
        {"b", VALUE, BBOX, sizeof(openrdson_bbox)}}},
    {"openrdson_bbox_extend_point", call_openrdson_bbox_extend_point, BBOX, 2, {
        {"b", VALUE, BBOX, sizeof(openrdson_bbox)}, {"p", VALUE, POINT, sizeof(openrdson_point)}}},
    {"openrdson_bbox_extend", call_openrdson_bbox_extend, BBOX, 2, {
        {"b", VALUE, BBOX, sizeof(openrdson_bbox)}, {"other", VALUE, BBOX, sizeof(openrdson_bbox)}}},
    {"openrdson_bbox_union", call_openrdson_bbox_union, BBOX, 2, {
        {"b", VALUE, BBOX, sizeof(openrdson_bbox)}, {"other", VALUE, BBOX, sizeof(openrdson_bbox)}}},
    {"openrdson_bbox_width", call_openrdson_bbox_width, F64, 1, {
        {"b", VALUE, BBOX, sizeof(openrdson_bbox)}}},
    {"openrdson_bbox_height", call_openrdson_bbox_height, F64, 1, {
        {"b", VALUE, BBOX, sizeof(openrdson_bbox)}}},
    {"openrdson_bbox_center", call_openrdson_bbox_center, POINT, 1, {
        {"b", VALUE, BBOX, sizeof(openrdson_bbox)}}},
    {"openrdson_box_volume", call_openrdson_box_volume, U32, 9, {
        {"min_x", VALUE, F64, sizeof(double)}, {"min_y", VALUE, F64, sizeof(double)},
        {"max_x", VALUE, F64, sizeof(double)}, {"max_y", VALUE, F64, sizeof(double)},
        {"z_bottom", VALUE, F64, sizeof(double)}, {"z_top", VALUE, F64, sizeof(double)},
        {"xs", READ, F64, sizeof(double)}, {"ys", READ, F64, sizeof(double)}, {"volume", OUT, F64, sizeof(double)}}},
    {"openrdson_prism_volume", call_openrdson_prism_volume, U32, 7, {
        {"z_bottom", VALUE, F64, sizeof(double)}, {"z_top", VALUE, F64, sizeof(double)},
        {"start", VALUE, U32, sizeof(uint32_t)}, {"count", VALUE, U32, sizeof(uint32_t)},
        {"xs", READ, F64, sizeof(double)}, {"ys", READ, F64, sizeof(double)}, {"volume", OUT, F64, sizeof(double)}}},
    {"openrdson_box_region_volume", call_openrdson_box_region_volume, U32, 12, {
        {"material", VALUE, U32, sizeof(uint32_t)}, {"net", VALUE, U32, sizeof(uint32_t)},
        {"polygon", VALUE, U32, sizeof(uint32_t)}, {"min_x", VALUE, F64, sizeof(double)},
        {"min_y", VALUE, F64, sizeof(double)}, {"max_x", VALUE, F64, sizeof(double)},
        {"max_y", VALUE, F64, sizeof(double)}, {"z_bottom", VALUE, F64, sizeof(double)},
        {"z_top", VALUE, F64, sizeof(double)}, {"xs", READ, F64, sizeof(double)}, {"ys", READ, F64, sizeof(double)},
        {"volume", OUT, F64, sizeof(double)}}},
    {"openrdson_prism_region_volume", call_openrdson_prism_region_volume, U32, 10, {
        {"material", VALUE, U32, sizeof(uint32_t)}, {"net", VALUE, U32, sizeof(uint32_t)},
        {"polygon", VALUE, U32, sizeof(uint32_t)}, {"z_bottom", VALUE, F64, sizeof(double)},
        {"z_top", VALUE, F64, sizeof(double)}, {"start", VALUE, U32, sizeof(uint32_t)},
        {"count", VALUE, U32, sizeof(uint32_t)}, {"xs", READ, F64, sizeof(double)}, {"ys", READ, F64, sizeof(double)},
        {"volume", OUT, F64, sizeof(double)}}},
    {"openrdson_box_footprint_bbox", call_openrdson_box_footprint_bbox, U32, 12, {
        {"min_x", VALUE, F64, sizeof(double)}, {"min_y", VALUE, F64, sizeof(double)},
        {"max_x", VALUE, F64, sizeof(double)}, {"max_y", VALUE, F64, sizeof(double)},
        {"z_bottom", VALUE, F64, sizeof(double)}, {"z_top", VALUE, F64, sizeof(double)},
        {"xs", READ, F64, sizeof(double)}, {"ys", READ, F64, sizeof(double)}, {"out_min_x", OUT, F64, sizeof(double)},
        {"out_min_y", OUT, F64, sizeof(double)}, {"out_max_x", OUT, F64, sizeof(double)},
        {"out_max_y", OUT, F64, sizeof(double)}}},
    {"openrdson_prism_footprint_bbox", call_openrdson_prism_footprint_bbox, U32, 10, {
        {"z_bottom", VALUE, F64, sizeof(double)}, {"z_top", VALUE, F64, sizeof(double)},
        {"start", VALUE, U32, sizeof(uint32_t)}, {"count", VALUE, U32, sizeof(uint32_t)},
        {"xs", READ, F64, sizeof(double)}, {"ys", READ, F64, sizeof(double)}, {"min_x", OUT, F64, sizeof(double)},
        {"min_y", OUT, F64, sizeof(double)}, {"max_x", OUT, F64, sizeof(double)}, {"max_y", OUT, F64, sizeof(double)}}},
    {"openrdson_box_z_bottom", call_openrdson_box_z_bottom, F64, 6, {
        {"min_x", VALUE, F64, sizeof(double)}, {"min_y", VALUE, F64, sizeof(double)},
        {"max_x", VALUE, F64, sizeof(double)}, {"max_y", VALUE, F64, sizeof(double)},
        {"z_bottom", VALUE, F64, sizeof(double)}, {"z_top", VALUE, F64, sizeof(double)}}},
    {"openrdson_box_z_top", call_openrdson_box_z_top, F64, 6, {
        {"min_x", VALUE, F64, sizeof(double)}, {"min_y", VALUE, F64, sizeof(double)},
        {"max_x", VALUE, F64, sizeof(double)}, {"max_y", VALUE, F64, sizeof(double)},
        {"z_bottom", VALUE, F64, sizeof(double)}, {"z_top", VALUE, F64, sizeof(double)}}},
    {"openrdson_prism_z_bottom", call_openrdson_prism_z_bottom, F64, 4, {
        {"z_bottom", VALUE, F64, sizeof(double)}, {"z_top", VALUE, F64, sizeof(double)},
        {"start", VALUE, U32, sizeof(uint32_t)}, {"count", VALUE, U32, sizeof(uint32_t)}}},
    {"openrdson_prism_z_top", call_openrdson_prism_z_top, F64, 4, {
        {"z_bottom", VALUE, F64, sizeof(double)}, {"z_top", VALUE, F64, sizeof(double)},
        {"start", VALUE, U32, sizeof(uint32_t)}, {"count", VALUE, U32, sizeof(uint32_t)}}},
    {"openrdson_assemble_stack", call_openrdson_assemble_stack, U32, 26, {
        {"names", READ, U8, sizeof(uint8_t)}, {"conducting", READ, U8, sizeof(uint8_t)},
        {"via", READ, U8, sizeof(uint8_t)}, {"conductors", READ, U8, sizeof(uint8_t)},
        {"diffusions", READ, U8, sizeof(uint8_t)}, {"vias", READ, U8, sizeof(uint8_t)},
        {"layers", READ, I16, sizeof(int16_t)}, {"nets", READ, U32, sizeof(uint32_t)},
        {"starts", READ, U32, sizeof(uint32_t)}, {"counts", READ, U32, sizeof(uint32_t)},
        {"xs", READ, F64, sizeof(double)}, {"ys", READ, F64, sizeof(double)}, {"kinds", WRITE, U8, sizeof(uint8_t)},
        {"min_x", WRITE, F64, sizeof(double)}, {"min_y", WRITE, F64, sizeof(double)},
        {"max_x", WRITE, F64, sizeof(double)}, {"max_y", WRITE, F64, sizeof(double)},
        {"z_bottom", WRITE, F64, sizeof(double)}, {"z_top", WRITE, F64, sizeof(double)},
        {"region_starts", WRITE, U32, sizeof(uint32_t)}, {"region_counts", WRITE, U32, sizeof(uint32_t)},
        {"materials", WRITE, U32, sizeof(uint32_t)}, {"region_nets", WRITE, U32, sizeof(uint32_t)},
        {"polygons", WRITE, U32, sizeof(uint32_t)}, {"outcomes", WRITE, U8, sizeof(uint8_t)},
        {"regions", OUT, USIZE, sizeof(size_t)}}},
    {"openrdson_weld_nodes", call_openrdson_weld_nodes, U32, 15, {
        {"xs", READ, F64, sizeof(double)}, {"ys", READ, F64, sizeof(double)}, {"zs", READ, F64, sizeof(double)},
        {"kinds", READ, U8, sizeof(uint8_t)}, {"places", READ, U32, sizeof(uint32_t)},
        {"regions", READ, U32, sizeof(uint32_t)}, {"tolerance", VALUE, F64, sizeof(double)},
        {"out_x", WRITE, F64, sizeof(double)}, {"out_y", WRITE, F64, sizeof(double)},
        {"out_z", WRITE, F64, sizeof(double)}, {"out_kinds", WRITE, U8, sizeof(uint8_t)},
        {"out_places", WRITE, U32, sizeof(uint32_t)}, {"out_regions", WRITE, U32, sizeof(uint32_t)},
        {"nodes", OUT, USIZE, sizeof(size_t)}, {"elements", OUT, USIZE, sizeof(size_t)}}},
    {"openrdson_mesh_volume", call_openrdson_mesh_volume, U32, 7, {
        {"xs", READ, F64, sizeof(double)}, {"ys", READ, F64, sizeof(double)}, {"zs", READ, F64, sizeof(double)},
        {"kinds", READ, U8, sizeof(uint8_t)}, {"places", READ, U32, sizeof(uint32_t)},
        {"regions", READ, U32, sizeof(uint32_t)}, {"volume", OUT, F64, sizeof(double)}}},
};
