//! The calls, and the only `unsafe`. Each lends lists by their addresses and lengths, and places that are written; a list
//! that is written is lent once. The archive keeps none of them, and does not write past a list's length: it is proved.
#![allow(unsafe_code)]

pub mod raw;

use crate::core::geometry::{Bbox, Point};
use crate::geometry::blocks::Blocks;
use crate::geometry::Polygons;
use crate::lists::{MeshLists, Points, Row, Rows};
use crate::meshing::{MeshConfig, Overrides};
use crate::Refusal;

/// A call: `read` and `write` a list, which go as an address and a length, `out` a place that is written, `by` a value.
macro_rules! call {
    ($name:ident $($lent:tt)*) => { call!(@ $name [] $($lent)*) };
    (@ $name:ident [$($done:expr),*]) => { unsafe { raw::$name($($done),*) } };
    (@ $name:ident [$($done:expr),*], by $value:expr $(, $($rest:tt)*)?) => {
        call!(@ $name [$($done,)* $value] $(, $($rest)*)?)
    };
    (@ $name:ident [$($done:expr),*], out $place:expr $(, $($rest:tt)*)?) => {
        call!(@ $name [$($done,)* &mut $place] $(, $($rest)*)?)
    };
    (@ $name:ident [$($done:expr),*], read $list:expr $(, $($rest:tt)*)?) => {
        call!(@ $name [$($done,)* $list.as_ptr(), $list.len()] $(, $($rest)*)?)
    };
    (@ $name:ident [$($done:expr),*], write $list:expr $(, $($rest:tt)*)?) => {
        call!(@ $name [$($done,)* $list.as_mut_ptr(), $list.len()] $(, $($rest)*)?)
    };
}

/// The value, or the refusal that the status is.
fn given<T>(status: u32, value: T) -> Result<T, Refusal> {
    match Refusal::from_number(status) {
        Some(refusal) => Err(refusal),
        None => {
            assert_eq!(status, 0, "no such status");
            Ok(value)
        }
    }
}

// ---- rings

pub fn polygon_signed_area(ring: &Points) -> Result<f64, Refusal> {
    let mut area = 0.0;
    let status = call!(openrdson_polygon_signed_area, read ring.xs, read ring.ys, out area);
    given(status, area)
}

pub fn polygon_area(ring: &Points) -> Result<f64, Refusal> {
    let mut area = 0.0;
    let status = call!(openrdson_polygon_area, read ring.xs, read ring.ys, out area);
    given(status, area)
}

pub fn is_ccw(ring: &Points) -> Result<bool, Refusal> {
    let mut ccw = false;
    let status = call!(openrdson_is_ccw, read ring.xs, read ring.ys, out ccw);
    given(status, ccw)
}

pub fn is_axis_aligned_rectangle(ring: &Points) -> Result<bool, Refusal> {
    let mut rectangle = false;
    let status = call!(openrdson_is_axis_aligned_rectangle, read ring.xs, read ring.ys, out rectangle);
    given(status, rectangle)
}

pub fn dedup_ring(ring: &Points, cleaned: &mut Points) -> Result<usize, Refusal> {
    let mut points = 0;
    let status = call!(openrdson_dedup_ring, read ring.xs, read ring.ys, write cleaned.xs, write cleaned.ys, out points);
    given(status, points)
}

/// The numbers of vertices and of triangles.
pub fn triangulate_polygon(ring: &Points, cleaned: &mut Points, corners: &mut [u32]) -> Result<(usize, usize), Refusal> {
    let (mut vertices, mut triangles) = (0, 0);
    let status = call!(
        openrdson_triangulate_polygon, read ring.xs, read ring.ys, write cleaned.xs, write cleaned.ys, write corners,
        out vertices, out triangles
    );
    given(status, (vertices, triangles))
}

// ---- bounding boxes

pub fn bbox_from_points(ring: &Points) -> Result<Bbox, Refusal> {
    let mut b = bbox_empty();
    let status = call!(
        openrdson_bbox_from_points, read ring.xs, read ring.ys, out b.min_x, out b.min_y, out b.max_x, out b.max_y
    );
    given(status, b)
}

pub fn bbox_empty() -> Bbox {
    call!(openrdson_bbox_empty)
}

pub fn bbox_is_empty(b: Bbox) -> bool {
    call!(openrdson_bbox_is_empty, by b)
}

pub fn bbox_extend_point(b: Bbox, p: Point) -> Bbox {
    call!(openrdson_bbox_extend_point, by b, by p)
}

pub fn bbox_extend(b: Bbox, other: Bbox) -> Bbox {
    call!(openrdson_bbox_extend, by b, by other)
}

pub fn bbox_union(b: Bbox, other: Bbox) -> Bbox {
    call!(openrdson_bbox_union, by b, by other)
}

pub fn bbox_width(b: Bbox) -> f64 {
    call!(openrdson_bbox_width, by b)
}

pub fn bbox_height(b: Bbox) -> f64 {
    call!(openrdson_bbox_height, by b)
}

pub fn bbox_center(b: Bbox) -> Point {
    call!(openrdson_bbox_center, by b)
}

// ---- solids; a box has no points, and a prism has all of its lists

pub fn box_volume(b: Bbox, z_bottom: f64, z_top: f64) -> Result<f64, Refusal> {
    let (none, mut volume) = (Points::default(), 0.0);
    let status = call!(
        openrdson_box_volume, by b.min_x, by b.min_y, by b.max_x, by b.max_y, by z_bottom, by z_top,
        read none.xs, read none.ys, out volume
    );
    given(status, volume)
}

pub fn prism_volume(ring: &Points, z_bottom: f64, z_top: f64) -> Result<f64, Refusal> {
    let mut volume = 0.0;
    let count = crate::lists::narrow(ring.xs.len());
    let status = call!(
        openrdson_prism_volume, by z_bottom, by z_top, by 0, by count, read ring.xs, read ring.ys, out volume
    );
    given(status, volume)
}

pub fn box_footprint_bbox(b: Bbox, z_bottom: f64, z_top: f64) -> Result<Bbox, Refusal> {
    let (none, mut footprint) = (Points::default(), bbox_empty());
    let status = call!(
        openrdson_box_footprint_bbox, by b.min_x, by b.min_y, by b.max_x, by b.max_y, by z_bottom, by z_top,
        read none.xs, read none.ys, out footprint.min_x, out footprint.min_y, out footprint.max_x, out footprint.max_y
    );
    given(status, footprint)
}

pub fn prism_footprint_bbox(ring: &Points, z_bottom: f64, z_top: f64) -> Result<Bbox, Refusal> {
    let mut footprint = bbox_empty();
    let count = crate::lists::narrow(ring.xs.len());
    let status = call!(
        openrdson_prism_footprint_bbox, by z_bottom, by z_top, by 0, by count, read ring.xs, read ring.ys,
        out footprint.min_x, out footprint.min_y, out footprint.max_x, out footprint.max_y
    );
    given(status, footprint)
}

// ---- regions

pub fn extrude_polygon(ring: &Points, z_bottom: f64, z_top: f64, material: u32) -> Result<Row, Refusal> {
    let mut row = Row::default();
    let status = call!(
        openrdson_extrude_polygon, read ring.xs, read ring.ys, by z_bottom, by z_top, by material, by 0,
        out row.kind, out row.min_x, out row.min_y, out row.max_x, out row.max_y, out row.z_bottom, out row.z_top,
        out row.start, out row.count, out row.material, out row.net, out row.polygon
    );
    given(status, row)
}

pub fn extrude_box(sides: Bbox, z_bottom: f64, z_top: f64, material: u32) -> Result<Row, Refusal> {
    let mut row = Row::default();
    let status = call!(
        openrdson_extrude_box, by sides, by z_bottom, by z_top, by material, by 0,
        out row.kind, out row.min_x, out row.min_y, out row.max_x, out row.max_y, out row.z_bottom, out row.z_top,
        out row.start, out row.count, out row.material, out row.net, out row.polygon
    );
    given(status, row)
}

pub fn total_volume(rows: &Rows, points: &Points) -> Result<f64, Refusal> {
    let mut volume = 0.0;
    let status = call!(
        openrdson_total_volume, read rows.kinds, read rows.min_x, read rows.min_y, read rows.max_x, read rows.max_y,
        read rows.z_bottom, read rows.z_top, read rows.starts, read rows.counts, read rows.materials, read rows.nets,
        read rows.polygons, read points.xs, read points.ys, out volume
    );
    given(status, volume)
}

/// The number of regions.
pub fn assemble_stack(blocks: &Blocks, polygons: &Polygons, rows: &mut Rows, outcomes: &mut [u8]) -> Result<usize, Refusal> {
    let mut regions = 0;
    let status = call!(
        openrdson_assemble_stack, read blocks.names, read blocks.conducting, read blocks.via, read blocks.conductors,
        read blocks.diffusions, read blocks.vias, read polygons.layers, read polygons.nets, read polygons.starts,
        read polygons.counts, read polygons.points.xs, read polygons.points.ys, write rows.kinds, write rows.min_x,
        write rows.min_y, write rows.max_x, write rows.max_y, write rows.z_bottom, write rows.z_top, write rows.starts,
        write rows.counts, write rows.materials, write rows.nets, write rows.polygons, write outcomes, out regions
    );
    given(status, regions)
}

// ---- axes and meshes

pub fn cell_count(extent: f64, cell: f64) -> Result<usize, Refusal> {
    let mut cells = 0;
    let status = call!(openrdson_cell_count, by extent, by cell, out cells);
    given(status, cells)
}

pub fn axis_coordinate(min: f64, max: f64, cell: f64, place: usize) -> Result<f64, Refusal> {
    let mut coordinate = 0.0;
    let status = call!(openrdson_axis_coordinate, by min, by max, by cell, by place, out coordinate);
    given(status, coordinate)
}

pub fn mesh_box(sides: Bbox, z_bottom: f64, z_top: f64, material: u32, cfg: &MeshConfig, m: &mut MeshLists) -> Result<(), Refusal> {
    let status = call!(
        openrdson_mesh_box, by sides, by z_bottom, by z_top, by material, by 0, by cfg.lateral_cell, by cfg.z_cell,
        write m.xs, write m.ys, write m.zs, write m.kinds, write m.places, write m.regions, out m.nodes, out m.elements
    );
    given(status, ())
}

pub fn mesh_prism(ring: &Points, z_bottom: f64, z_top: f64, material: u32, m: &mut MeshLists) -> Result<(), Refusal> {
    let count = crate::lists::narrow(ring.xs.len());
    let status = call!(
        openrdson_mesh_prism, read ring.xs, read ring.ys, by z_bottom, by z_top, by 0, by count, by material, by 0,
        write m.xs, write m.ys, write m.zs, write m.kinds, write m.places, write m.regions, out m.nodes, out m.elements
    );
    given(status, ())
}

pub fn mesh_model(
    rows: &Rows, points: &Points, cfg: &MeshConfig, m: &mut MeshLists, diagnostics: &mut [u32],
) -> Result<(), Refusal> {
    let status = call!(
        openrdson_mesh_model, read rows.kinds, read rows.min_x, read rows.min_y, read rows.max_x, read rows.max_y,
        read rows.z_bottom, read rows.z_top, read rows.starts, read rows.counts, read rows.materials, read rows.nets,
        read rows.polygons, read points.xs, read points.ys, by cfg.lateral_cell, by cfg.z_cell,
        write m.xs, write m.ys, write m.zs, write m.kinds, write m.places, write m.regions, write diagnostics,
        out m.nodes, out m.elements
    );
    given(status, ())
}

pub fn mesh_model_with_options(
    rows: &Rows, points: &Points, overrides: &Overrides, cfg: &MeshConfig, m: &mut MeshLists, diagnostics: &mut [u32],
) -> Result<(), Refusal> {
    let status = call!(
        openrdson_mesh_model_with_options, read rows.kinds, read rows.min_x, read rows.min_y, read rows.max_x,
        read rows.max_y, read rows.z_bottom, read rows.z_top, read rows.starts, read rows.counts, read rows.materials,
        read rows.nets, read rows.polygons, read points.xs, read points.ys, read overrides.materials,
        read overrides.laterals, read overrides.verticals, by cfg.lateral_cell, by cfg.z_cell,
        write m.xs, write m.ys, write m.zs, write m.kinds, write m.places, write m.regions, write diagnostics,
        out m.nodes, out m.elements
    );
    given(status, ())
}

pub fn weld_nodes(m: &MeshLists, tolerance: f64, w: &mut MeshLists) -> Result<(), Refusal> {
    let status = call!(
        openrdson_weld_nodes, read m.xs, read m.ys, read m.zs, read m.kinds, read m.places, read m.regions, by tolerance,
        write w.xs, write w.ys, write w.zs, write w.kinds, write w.places, write w.regions, out w.nodes, out w.elements
    );
    given(status, ())
}

pub fn mesh_volume(m: &MeshLists) -> Result<f64, Refusal> {
    let mut volume = 0.0;
    let status = call!(
        openrdson_mesh_volume, read m.xs, read m.ys, read m.zs, read m.kinds, read m.places, read m.regions, out volume
    );
    given(status, volume)
}
