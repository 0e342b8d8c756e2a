//! Extruding, and the total volume of a region list.
use crate::inputs::{circle, on_four_corners, Ring};
use crate::row::{effort, plain, Row, Sides, SHORT};
use cases::regions::{Regions, Row as RegionRow, NO_POLYGON};
use oracle::core::geometry::{Point, Solid, SolidRegion};
use oracle::geometry::{extrude_polygon, total_volume};
use rattle::raw::*;
use std::hint::black_box;

/// The most regions of a job.
const REGIONS: usize = 4096;

pub fn rows() -> Vec<Row> {
    let extruded = |size, ring: fn() -> Ring| Row::new("extrude_polygon", size, SHORT, move || extruded(ring()));
    vec![
        extruded("circle of 8 points", || circle(8, 100.0)),
        extruded("circle of 512 points", || circle(512, 100.0)),
        extruded("8 points on four corners", || on_four_corners(8)),
        extruded("512 points on four corners", || on_four_corners(512)),
        Row::new("total_volume", "2,048 boxes and 2,048 prisms of 8 points", effort(1000, 5), || total(model())),
    ]
}

fn extruded(ring: Ring) -> Sides {
    let rust = |ring: &Ring| {
        black_box(extrude_polygon(black_box(&ring.points), 0.0, 1.0, 1, None, None, None));
    };
    let rattle = |ring: &Ring| {
        let (xs, ys) = black_box((&ring.xs, &ring.ys));
        let mut kind = 0;
        let [mut x0, mut y0, mut x1, mut y1, mut z0, mut z1] = [0.0; 6];
        let [mut start, mut count, mut material, mut net, mut polygon] = [0; 5];
        let status = unsafe {
            openrdson_extrude_polygon(
                xs.as_ptr(), xs.len(), ys.as_ptr(), ys.len(), 0.0, 1.0, 1, 0,
                &mut kind, &mut x0, &mut y0, &mut x1, &mut y1, &mut z0, &mut z1,
                &mut start, &mut count, &mut material, &mut net, &mut polygon,
            )
        };
        assert!(black_box((status, kind, x0, y0, x1, y1, z0, z1, start, count, material, net, polygon)).0 == 0);
    };
    plain(ring, rust, rattle)
}

/// The same regions in the form of each side.
struct Model {
    regions: Vec<SolidRegion>,
    lists: Regions,
    xs: Vec<f64>,
    ys: Vec<f64>,
}

/// A box and a prism of eight points of its own in turns.
fn model() -> Model {
    let (mut regions, mut rows, mut xs, mut ys) = (vec![], vec![], vec![], vec![]);
    let ring = circle(8, 100.0);
    for i in 0..REGIONS {
        let at = i as f64 / 8.0;
        let [min_x, min_y, max_x, max_y, z_bottom, z_top] = [at, at + 1.0, at + 2.5, at + 2.0, 0.25, 0.75];
        let solid = if i % 2 == 0 {
            let bounds = [min_x, min_y, max_x, max_y, z_bottom, z_top];
            rows.push(RegionRow { kind: 0, bounds, numbers: [0, 0, 1, 0, NO_POLYGON] });
            Solid::Box { min_x, min_y, max_x, max_y, z_bottom, z_top }
        } else {
            let footprint: Vec<Point> = ring.points.iter().map(|p| Point::new(p.x + at, p.y)).collect();
            let bounds = [0.0, 0.0, 0.0, 0.0, z_bottom, z_top];
            rows.push(RegionRow { kind: 1, bounds, numbers: [xs.len() as u32, 8, 1, 0, NO_POLYGON] });
            xs.extend(footprint.iter().map(|p| p.x));
            ys.extend(footprint.iter().map(|p| p.y));
            Solid::Prism { footprint, z_bottom, z_top }
        };
        regions.push(SolidRegion { material_id: 1, net: None, layer: None, device_ref: None, source_polygon: None, solid });
    }
    Model { regions, lists: Regions::of(&rows), xs, ys }
}

fn total(model: Model) -> Sides {
    let expected = total_volume(&model.regions);
    let rust = |model: &Model| {
        black_box(total_volume(black_box(&model.regions)));
    };
    plain(model, rust, move |model| assert!(black_box(volume_of(black_box(model))) == expected))
}

fn volume_of(model: &Model) -> f64 {
    let (kinds, xs, ys) = (&model.lists.kinds, &model.xs, &model.ys);
    let [x0, y0, x1, y1, z0, z1] = model.lists.bounds.each_ref().map(|list| (list.as_ptr(), list.len()));
    let [s, n, m, t, p] = model.lists.numbers.each_ref().map(|list| (list.as_ptr(), list.len()));
    let mut volume = 0.0;
    let status = unsafe {
        openrdson_total_volume(
            kinds.as_ptr(), kinds.len(), x0.0, x0.1, y0.0, y0.1, x1.0, x1.1, y1.0, y1.1, z0.0, z0.1, z1.0, z1.1,
            s.0, s.1, n.0, n.1, m.0, m.1, t.0, t.1, p.0, p.1, xs.as_ptr(), xs.len(), ys.as_ptr(), ys.len(), &mut volume,
        )
    };
    assert!(status == 0);
    volume
}
