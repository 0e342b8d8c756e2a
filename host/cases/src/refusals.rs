//! The refusals of each call, by the rules.

/// The calls, by their exported names without `openrdson_`, and the numbers that they can give, each once, in the order in which they are tried. 10 is left
/// out: a closed ring crosses every height an even number of times.
const REFUSALS: [(&[&str], &[u32]); 21] = [
    // "Cleaning, area, rectangle: 16, 2, 1; cleaning then 12."
    (&["polygon_signed_area", "polygon_area", "is_ccw", "is_axis_aligned_rectangle", "bbox_from_points"], &[16, 2, 1]),
    (&["dedup_ring"], &[16, 2, 1, 12]),
    // "Extruding: 16, 2, 1, heights last, 15 for material; `extrude_box` 1, 15."
    (&["extrude_polygon"], &[16, 2, 1, 15]),
    (&["extrude_box"], &[1, 15]),
    // "Solid volume: 16, 15 for a part, 2, 1"; a box has no part.
    (&["box_volume", "box_footprint_bbox", "box_region_volume"], &[16, 2, 1]),
    (&["prism_volume", "prism_footprint_bbox", "prism_region_volume"], &[16, 15, 2, 1]),
    // "a total: 16, 2 for the regions and the points, then region by region 15 for kind, part or material, 2, 1"
    (&["total_volume"], &[16, 2, 15, 1]),
    // "Triangulating: 16, 2, 1, 3, 4, 12."
    (&["triangulate_polygon"], &[16, 2, 1, 3, 4, 12]),
    // "Name lookup: 14 in conducting, then via."
    (&["look_up", "physical_name", "layer_name", "via_layers", "material_number"], &[14]),
    // The same of blocks with figures, as stacking has it: "14 in the order [..]; 1 for stack figures".
    (&["check_blocks", "stack_layer"], &[14, 1]),
    // "14 [..]; 1 for stack figures; 16; 2; then polygon by polygon 15, 2, 1; then 12"; past stacking nothing is refused on the way from a layout to a volume.
    (&["assemble_stack", "layout_to_volume"], &[14, 1, 16, 2, 15, 12]),
    // "Cell count [..], axis coordinate [..]: 1; then 5 for extent, 6, 7; a place past the last, 15."
    (&["cell_count"], &[1, 5, 6, 7]),
    (&["axis_coordinate"], &[1, 5, 6, 7, 15]),
    // "Meshing a box region: 16, 15 for counts or material; 1 for bounds; 5; 1 for cell sizes; 6; 7; 12."
    (&["mesh_box", "mesh_box_region"], &[16, 15, 1, 5, 6, 7, 12]),
    // "Meshing a prism region: 16, 15, 2, 1, 8, then the scanline's 3, 9, 10, 1 for a crossing, 11, 1 for a node; then 12."
    (&["mesh_prism", "mesh_prism_region"], &[16, 15, 2, 1, 8, 3, 9, 11, 12]),
    // "Meshing a model: 16, 2 for regions, points and overrides, 15 for counts, then for an override's material, 12 if the diagnostic list is short"
    (&["mesh_model", "mesh_model_with_options"], &[16, 2, 15, 12]),
    // "then region by region, each diagnostic 0 or its refusal": a box's and a prism's, but for 16, which the whole call has given.
    (&[DIAGNOSTICS], &[15, 1, 5, 6, 7, 2, 8, 3, 9, 11, 12]),
    // "Weld, mesh volume [..]: 16, 2, 1, 15, 13; weld then 12."
    (&["weld_nodes"], &[16, 2, 1, 15, 13, 12]),
    (&["mesh_volume"], &[16, 2, 1, 15, 13]),
    // These answer whatever they are given.
    (&["is_marker", "copy_physical_name", "sqrt", "abs", "ceil_capped", "nearest_capped", "coordinate_in_range", "extent_in_range", "figure_in_range"], &[]),
    (
        &[
            "bbox_empty", "bbox_is_empty", "bbox_extend_point", "bbox_extend", "bbox_union", "bbox_width", "bbox_height", "bbox_center",
            "box_z_bottom", "box_z_top", "prism_z_bottom", "prism_z_top",
        ],
        &[],
    ),
];

/// The diagnostics of a model's regions.
pub const DIAGNOSTICS: &str = "diagnostics";

/// Those of a call.
pub fn of(call: &str) -> &'static [u32] {
    let row = REFUSALS.iter().find(|row| row.0.contains(&call));
    row.unwrap_or_else(|| panic!("{call} has no row in the table of refusals")).1
}
