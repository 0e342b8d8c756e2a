//! The C functions of crates/c_api, all of them. Written by `host/header --bindings`, and held to it.
pub use crate::core::geometry::{Bbox, Point};

extern "C" {
    pub fn openrdson_check_blocks(
        names: *const u8, names_len: usize,
        conducting: *const u8, conducting_len: usize,
        via: *const u8, via_len: usize,
        conductors: *const u8, conductors_len: usize,
        diffusions: *const u8, diffusions_len: usize,
        vias: *const u8, vias_len: usize,
    ) -> u32;
    pub fn openrdson_is_marker(
        name: *const u8, name_len: usize,
    ) -> bool;
    pub fn openrdson_look_up(
        conducting: *const u8, conducting_len: usize,
        via: *const u8, via_len: usize,
        name: *const u8, name_len: usize,
        found: *mut bool,
    ) -> u32;
    pub fn openrdson_material_number(
        conductors: *const u8, conductors_len: usize,
        diffusions: *const u8, diffusions_len: usize,
        vias: *const u8, vias_len: usize,
        name: *const u8, name_len: usize,
        material: *mut u32,
    ) -> u32;
    pub fn openrdson_physical_name(
        conducting: *const u8, conducting_len: usize,
        via: *const u8, via_len: usize,
        name: *const u8, name_len: usize,
        block: *mut u32,
        start: *mut usize,
        length: *mut usize,
    ) -> u32;
    pub fn openrdson_copy_physical_name(
        conducting: *const u8, conducting_len: usize,
        via: *const u8, via_len: usize,
        name: *const u8, name_len: usize,
        copy: *mut u8, copy_len: usize,
    ) -> usize;
    pub fn openrdson_stack_layer(
        block: *const u8, block_len: usize,
        name: *const u8, name_len: usize,
        found: *mut bool,
        has_height: *mut bool,
        height: *mut f64,
        has_thickness: *mut bool,
        thickness: *mut f64,
    ) -> u32;
    pub fn openrdson_via_layers(
        vias: *const u8, vias_len: usize,
        name: *const u8, name_len: usize,
        found: *mut bool,
        bottom_start: *mut usize,
        bottom_length: *mut usize,
        top_start: *mut usize,
        top_length: *mut usize,
    ) -> u32;
    pub fn openrdson_layer_name(
        names: *const u8, names_len: usize,
        layer: i16,
        start: *mut usize,
        length: *mut usize,
    ) -> u32;
    pub fn openrdson_cell_count(
        extent: f64,
        cell: f64,
        cells: *mut usize,
    ) -> u32;
    pub fn openrdson_axis_coordinate(
        min: f64,
        max: f64,
        cell: f64,
        place: usize,
        coordinate: *mut f64,
    ) -> u32;
    pub fn openrdson_mesh_box(
        bounds: Bbox,
        z_bottom: f64,
        z_top: f64,
        material: u32,
        region: u32,
        lateral_cell: f64,
        z_cell: f64,
        xs: *mut f64, xs_len: usize,
        ys: *mut f64, ys_len: usize,
        zs: *mut f64, zs_len: usize,
        kinds: *mut u8, kinds_len: usize,
        places: *mut u32, places_len: usize,
        regions: *mut u32, regions_len: usize,
        nodes: *mut usize,
        elements: *mut usize,
    ) -> u32;
    pub fn openrdson_mesh_model_with_options(
        row_kinds: *const u8, row_kinds_len: usize,
        min_x: *const f64, min_x_len: usize,
        min_y: *const f64, min_y_len: usize,
        max_x: *const f64, max_x_len: usize,
        max_y: *const f64, max_y_len: usize,
        z_bottom: *const f64, z_bottom_len: usize,
        z_top: *const f64, z_top_len: usize,
        starts: *const u32, starts_len: usize,
        row_counts: *const u32, row_counts_len: usize,
        row_materials: *const u32, row_materials_len: usize,
        nets: *const u32, nets_len: usize,
        polygons: *const u32, polygons_len: usize,
        point_x: *const f64, point_x_len: usize,
        point_y: *const f64, point_y_len: usize,
        materials: *const u32, materials_len: usize,
        laterals: *const f64, laterals_len: usize,
        verticals: *const f64, verticals_len: usize,
        lateral_cell: f64,
        z_cell: f64,
        xs: *mut f64, xs_len: usize,
        ys: *mut f64, ys_len: usize,
        zs: *mut f64, zs_len: usize,
        kinds: *mut u8, kinds_len: usize,
        places: *mut u32, places_len: usize,
        regions: *mut u32, regions_len: usize,
        diagnostics: *mut u32, diagnostics_len: usize,
        nodes: *mut usize,
        elements: *mut usize,
    ) -> u32;
    pub fn openrdson_mesh_model(
        row_kinds: *const u8, row_kinds_len: usize,
        min_x: *const f64, min_x_len: usize,
        min_y: *const f64, min_y_len: usize,
        max_x: *const f64, max_x_len: usize,
        max_y: *const f64, max_y_len: usize,
        z_bottom: *const f64, z_bottom_len: usize,
        z_top: *const f64, z_top_len: usize,
        starts: *const u32, starts_len: usize,
        row_counts: *const u32, row_counts_len: usize,
        row_materials: *const u32, row_materials_len: usize,
        nets: *const u32, nets_len: usize,
        polygons: *const u32, polygons_len: usize,
        point_x: *const f64, point_x_len: usize,
        point_y: *const f64, point_y_len: usize,
        lateral_cell: f64,
        z_cell: f64,
        xs: *mut f64, xs_len: usize,
        ys: *mut f64, ys_len: usize,
        zs: *mut f64, zs_len: usize,
        kinds: *mut u8, kinds_len: usize,
        places: *mut u32, places_len: usize,
        regions: *mut u32, regions_len: usize,
        diagnostics: *mut u32, diagnostics_len: usize,
        nodes: *mut usize,
        elements: *mut usize,
    ) -> u32;
    pub fn openrdson_sqrt(
        x: f64,
    ) -> f64;
    pub fn openrdson_abs(
        x: f64,
    ) -> f64;
    pub fn openrdson_ceil_capped(
        x: f64,
    ) -> u64;
    pub fn openrdson_nearest_capped(
        x: f64,
    ) -> i64;
    pub fn openrdson_coordinate_in_range(
        x: f64,
    ) -> bool;
    pub fn openrdson_extent_in_range(
        x: f64,
    ) -> bool;
    pub fn openrdson_figure_in_range(
        x: f64,
    ) -> bool;
    pub fn openrdson_dedup_ring(
        xs: *const f64, xs_len: usize,
        ys: *const f64, ys_len: usize,
        out_x: *mut f64, out_x_len: usize,
        out_y: *mut f64, out_y_len: usize,
        points: *mut usize,
    ) -> u32;
    pub fn openrdson_triangulate_polygon(
        xs: *const f64, xs_len: usize,
        ys: *const f64, ys_len: usize,
        out_x: *mut f64, out_x_len: usize,
        out_y: *mut f64, out_y_len: usize,
        corners: *mut u32, corners_len: usize,
        vertices: *mut usize,
        triangles: *mut usize,
    ) -> u32;
    pub fn openrdson_mesh_prism(
        point_x: *const f64, point_x_len: usize,
        point_y: *const f64, point_y_len: usize,
        z_bottom: f64,
        z_top: f64,
        start: u32,
        count: u32,
        material: u32,
        region: u32,
        xs: *mut f64, xs_len: usize,
        ys: *mut f64, ys_len: usize,
        zs: *mut f64, zs_len: usize,
        kinds: *mut u8, kinds_len: usize,
        places: *mut u32, places_len: usize,
        regions: *mut u32, regions_len: usize,
        nodes: *mut usize,
        elements: *mut usize,
    ) -> u32;
    pub fn openrdson_mesh_box_region(
        bounds: Bbox,
        z_bottom: f64,
        z_top: f64,
        material: u32,
        net: u32,
        polygon: u32,
        point_x: *const f64, point_x_len: usize,
        point_y: *const f64, point_y_len: usize,
        number: u32,
        lateral_cell: f64,
        z_cell: f64,
        xs: *mut f64, xs_len: usize,
        ys: *mut f64, ys_len: usize,
        zs: *mut f64, zs_len: usize,
        kinds: *mut u8, kinds_len: usize,
        places: *mut u32, places_len: usize,
        regions: *mut u32, regions_len: usize,
        nodes: *mut usize,
        elements: *mut usize,
    ) -> u32;
    pub fn openrdson_mesh_prism_region(
        z_bottom: f64,
        z_top: f64,
        start: u32,
        count: u32,
        material: u32,
        net: u32,
        polygon: u32,
        point_x: *const f64, point_x_len: usize,
        point_y: *const f64, point_y_len: usize,
        number: u32,
        lateral_cell: f64,
        z_cell: f64,
        xs: *mut f64, xs_len: usize,
        ys: *mut f64, ys_len: usize,
        zs: *mut f64, zs_len: usize,
        kinds: *mut u8, kinds_len: usize,
        places: *mut u32, places_len: usize,
        regions: *mut u32, regions_len: usize,
        nodes: *mut usize,
        elements: *mut usize,
    ) -> u32;
    pub fn openrdson_extrude_polygon(
        xs: *const f64, xs_len: usize,
        ys: *const f64, ys_len: usize,
        z_bottom: f64,
        z_top: f64,
        material: u32,
        net: u32,
        kind: *mut u8,
        min_x: *mut f64,
        min_y: *mut f64,
        max_x: *mut f64,
        max_y: *mut f64,
        out_z_bottom: *mut f64,
        out_z_top: *mut f64,
        start: *mut u32,
        count: *mut u32,
        out_material: *mut u32,
        out_net: *mut u32,
        polygon: *mut u32,
    ) -> u32;
    pub fn openrdson_extrude_box(
        sides: Bbox,
        z_bottom: f64,
        z_top: f64,
        material: u32,
        net: u32,
        kind: *mut u8,
        min_x: *mut f64,
        min_y: *mut f64,
        max_x: *mut f64,
        max_y: *mut f64,
        out_z_bottom: *mut f64,
        out_z_top: *mut f64,
        start: *mut u32,
        count: *mut u32,
        out_material: *mut u32,
        out_net: *mut u32,
        polygon: *mut u32,
    ) -> u32;
    pub fn openrdson_total_volume(
        kinds: *const u8, kinds_len: usize,
        min_x: *const f64, min_x_len: usize,
        min_y: *const f64, min_y_len: usize,
        max_x: *const f64, max_x_len: usize,
        max_y: *const f64, max_y_len: usize,
        z_bottom: *const f64, z_bottom_len: usize,
        z_top: *const f64, z_top_len: usize,
        starts: *const u32, starts_len: usize,
        counts: *const u32, counts_len: usize,
        materials: *const u32, materials_len: usize,
        nets: *const u32, nets_len: usize,
        polygons: *const u32, polygons_len: usize,
        xs: *const f64, xs_len: usize,
        ys: *const f64, ys_len: usize,
        volume: *mut f64,
    ) -> u32;
    pub fn openrdson_polygon_signed_area(
        xs: *const f64, xs_len: usize,
        ys: *const f64, ys_len: usize,
        area: *mut f64,
    ) -> u32;
    pub fn openrdson_polygon_area(
        xs: *const f64, xs_len: usize,
        ys: *const f64, ys_len: usize,
        area: *mut f64,
    ) -> u32;
    pub fn openrdson_is_ccw(
        xs: *const f64, xs_len: usize,
        ys: *const f64, ys_len: usize,
        ccw: *mut bool,
    ) -> u32;
    pub fn openrdson_is_axis_aligned_rectangle(
        xs: *const f64, xs_len: usize,
        ys: *const f64, ys_len: usize,
        rectangle: *mut bool,
    ) -> u32;
    pub fn openrdson_bbox_from_points(
        xs: *const f64, xs_len: usize,
        ys: *const f64, ys_len: usize,
        min_x: *mut f64,
        min_y: *mut f64,
        max_x: *mut f64,
        max_y: *mut f64,
    ) -> u32;
    pub fn openrdson_bbox_empty() -> Bbox;
    pub fn openrdson_bbox_is_empty(
        b: Bbox,
    ) -> bool;
    pub fn openrdson_bbox_extend_point(
        b: Bbox,
        p: Point,
    ) -> Bbox;
    pub fn openrdson_bbox_extend(
        b: Bbox,
        other: Bbox,
    ) -> Bbox;
    pub fn openrdson_bbox_union(
        b: Bbox,
        other: Bbox,
    ) -> Bbox;
    pub fn openrdson_bbox_width(
        b: Bbox,
    ) -> f64;
    pub fn openrdson_bbox_height(
        b: Bbox,
    ) -> f64;
    pub fn openrdson_bbox_center(
        b: Bbox,
    ) -> Point;
    pub fn openrdson_box_volume(
        min_x: f64,
        min_y: f64,
        max_x: f64,
        max_y: f64,
        z_bottom: f64,
        z_top: f64,
        xs: *const f64, xs_len: usize,
        ys: *const f64, ys_len: usize,
        volume: *mut f64,
    ) -> u32;
    pub fn openrdson_prism_volume(
        z_bottom: f64,
        z_top: f64,
        start: u32,
        count: u32,
        xs: *const f64, xs_len: usize,
        ys: *const f64, ys_len: usize,
        volume: *mut f64,
    ) -> u32;
    pub fn openrdson_box_region_volume(
        material: u32,
        net: u32,
        polygon: u32,
        min_x: f64,
        min_y: f64,
        max_x: f64,
        max_y: f64,
        z_bottom: f64,
        z_top: f64,
        xs: *const f64, xs_len: usize,
        ys: *const f64, ys_len: usize,
        volume: *mut f64,
    ) -> u32;
    pub fn openrdson_prism_region_volume(
        material: u32,
        net: u32,
        polygon: u32,
        z_bottom: f64,
        z_top: f64,
        start: u32,
        count: u32,
        xs: *const f64, xs_len: usize,
        ys: *const f64, ys_len: usize,
        volume: *mut f64,
    ) -> u32;
    pub fn openrdson_box_footprint_bbox(
        min_x: f64,
        min_y: f64,
        max_x: f64,
        max_y: f64,
        z_bottom: f64,
        z_top: f64,
        xs: *const f64, xs_len: usize,
        ys: *const f64, ys_len: usize,
        out_min_x: *mut f64,
        out_min_y: *mut f64,
        out_max_x: *mut f64,
        out_max_y: *mut f64,
    ) -> u32;
    pub fn openrdson_prism_footprint_bbox(
        z_bottom: f64,
        z_top: f64,
        start: u32,
        count: u32,
        xs: *const f64, xs_len: usize,
        ys: *const f64, ys_len: usize,
        min_x: *mut f64,
        min_y: *mut f64,
        max_x: *mut f64,
        max_y: *mut f64,
    ) -> u32;
    pub fn openrdson_box_z_bottom(
        min_x: f64,
        min_y: f64,
        max_x: f64,
        max_y: f64,
        z_bottom: f64,
        z_top: f64,
    ) -> f64;
    pub fn openrdson_box_z_top(
        min_x: f64,
        min_y: f64,
        max_x: f64,
        max_y: f64,
        z_bottom: f64,
        z_top: f64,
    ) -> f64;
    pub fn openrdson_prism_z_bottom(
        z_bottom: f64,
        z_top: f64,
        start: u32,
        count: u32,
    ) -> f64;
    pub fn openrdson_prism_z_top(
        z_bottom: f64,
        z_top: f64,
        start: u32,
        count: u32,
    ) -> f64;
    pub fn openrdson_assemble_stack(
        names: *const u8, names_len: usize,
        conducting: *const u8, conducting_len: usize,
        via: *const u8, via_len: usize,
        conductors: *const u8, conductors_len: usize,
        diffusions: *const u8, diffusions_len: usize,
        vias: *const u8, vias_len: usize,
        layers: *const i16, layers_len: usize,
        nets: *const u32, nets_len: usize,
        starts: *const u32, starts_len: usize,
        counts: *const u32, counts_len: usize,
        xs: *const f64, xs_len: usize,
        ys: *const f64, ys_len: usize,
        kinds: *mut u8, kinds_len: usize,
        min_x: *mut f64, min_x_len: usize,
        min_y: *mut f64, min_y_len: usize,
        max_x: *mut f64, max_x_len: usize,
        max_y: *mut f64, max_y_len: usize,
        z_bottom: *mut f64, z_bottom_len: usize,
        z_top: *mut f64, z_top_len: usize,
        region_starts: *mut u32, region_starts_len: usize,
        region_counts: *mut u32, region_counts_len: usize,
        materials: *mut u32, materials_len: usize,
        region_nets: *mut u32, region_nets_len: usize,
        polygons: *mut u32, polygons_len: usize,
        outcomes: *mut u8, outcomes_len: usize,
        regions: *mut usize,
    ) -> u32;
    pub fn openrdson_weld_nodes(
        xs: *const f64, xs_len: usize,
        ys: *const f64, ys_len: usize,
        zs: *const f64, zs_len: usize,
        kinds: *const u8, kinds_len: usize,
        places: *const u32, places_len: usize,
        regions: *const u32, regions_len: usize,
        tolerance: f64,
        out_x: *mut f64, out_x_len: usize,
        out_y: *mut f64, out_y_len: usize,
        out_z: *mut f64, out_z_len: usize,
        out_kinds: *mut u8, out_kinds_len: usize,
        out_places: *mut u32, out_places_len: usize,
        out_regions: *mut u32, out_regions_len: usize,
        nodes: *mut usize,
        elements: *mut usize,
    ) -> u32;
    pub fn openrdson_mesh_volume(
        xs: *const f64, xs_len: usize,
        ys: *const f64, ys_len: usize,
        zs: *const f64, zs_len: usize,
        kinds: *const u8, kinds_len: usize,
        places: *const u32, places_len: usize,
        regions: *const u32, regions_len: usize,
        volume: *mut f64,
    ) -> u32;
}
