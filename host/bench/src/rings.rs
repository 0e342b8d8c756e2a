//! Area, rectangle test and bounding box of 512 points.
use crate::inputs::{circle, on_four_corners, Ring};
use crate::row::{plain, Row, Sides, SHORT};
use oracle::core::geometry::{is_axis_aligned_rectangle, polygon_signed_area, Bbox};
use rattle::raw::*;
use std::hint::black_box;

pub fn rows() -> Vec<Row> {
    let round = "circle of 512 points, radius 10 µm";
    vec![
        Row::new("polygon_signed_area", round, SHORT, || area(circle(512, 1e-5))),
        Row::new("polygon_signed_area", "circle of 512 points, radius 100 m", SHORT, || area(circle(512, 100.0))),
        Row::new("is_axis_aligned_rectangle", round, SHORT, || rectangle(circle(512, 1e-5))),
        Row::new("is_axis_aligned_rectangle", "circle of 512 points, radius 100 m", SHORT, || rectangle(circle(512, 100.0))),
        Row::new("is_axis_aligned_rectangle", "512 points on four corners", SHORT, || rectangle(on_four_corners(512))),
        Row::new("Bbox::from_points", round, SHORT, || bounding_box(circle(512, 1e-5))),
    ]
}

fn area(ring: Ring) -> Sides {
    let rust = |ring: &Ring| {
        black_box(polygon_signed_area(black_box(&ring.points)));
    };
    let rattle = |ring: &Ring| {
        let (xs, ys) = black_box((&ring.xs, &ring.ys));
        let mut area = 0.0;
        unsafe { openrdson_polygon_signed_area(xs.as_ptr(), xs.len(), ys.as_ptr(), ys.len(), &mut area) };
        black_box(area);
    };
    plain(ring, rust, rattle)
}

fn rectangle(ring: Ring) -> Sides {
    let rust = |ring: &Ring| {
        black_box(is_axis_aligned_rectangle(black_box(&ring.points)));
    };
    let rattle = |ring: &Ring| {
        let (xs, ys) = black_box((&ring.xs, &ring.ys));
        let mut is = false;
        unsafe { openrdson_is_axis_aligned_rectangle(xs.as_ptr(), xs.len(), ys.as_ptr(), ys.len(), &mut is) };
        black_box(is);
    };
    plain(ring, rust, rattle)
}

fn bounding_box(ring: Ring) -> Sides {
    let rust = |ring: &Ring| {
        black_box(Bbox::from_points(black_box(&ring.points)));
    };
    let rattle = |ring: &Ring| {
        let (xs, ys) = black_box((&ring.xs, &ring.ys));
        let (nx, ny) = (xs.len(), ys.len());
        let [mut a, mut b, mut c, mut d] = [0.0; 4];
        unsafe { openrdson_bbox_from_points(xs.as_ptr(), nx, ys.as_ptr(), ny, &mut a, &mut b, &mut c, &mut d) };
        black_box([a, b, c, d]);
    };
    plain(ring, rust, rattle)
}
