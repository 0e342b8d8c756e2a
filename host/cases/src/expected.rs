//! What is expected of a case: a refusal by the rules (`rules`), or else what the unchanged Rust answers. Of a call on name
//! blocks it is the answer by the rules, held to the Rust's.
pub mod layouts;
mod lookups;
pub mod meshes;
pub mod models;
pub mod polygons;
mod regions;
pub mod stacks;
pub mod welds;

use crate::call::Call::*;
use crate::case::{Answer, Case};
use crate::rules;
use oracle::core::geometry::*;
use oracle::meshing::reach::{cells_for, linspace};

pub fn answer(case: &Case) -> Answer {
    if case.call.blocks().is_empty() && !case.call.asks_name() {
        return of_numbers(case);
    }
    let answer = rules::blocks::answer(case);
    if lookups::differs(case, &answer) {
        let bytes: Vec<_> = case.lent.iter().map(|lent| &lent.bytes).collect();
        panic!("the rules and the Rust differ: {} {bytes:x?} layer {}: {answer:?}", case.call.name(), case.layer());
    }
    answer
}

/// The place of an answer among its call's kinds, if it has one.
pub fn kind(case: &Case, answer: &Answer) -> Option<usize> {
    match case.call {
        CheckBlocks => rules::blocks::checked(answer.status, case.block(3)),
        _ if answer.status != 0 || case.call.kinds().is_empty() => None,
        LayerName => Some((answer.values[1] != 0) as usize),
        CopyPhysicalName => Some((answer.values[0] != 0) as usize),
        CellCount => Some(if answer.values[0] == 1 { 0 } else if answer.values[0] < 4096 { 1 } else { 2 }),
        AxisCoordinate => Some(axis_kind(case)),
        TotalVolume => Some(!case.regions.kinds.is_empty() as usize),
        MaterialNumber => Some(rules::blocks::material_kind(answer.values[0], case.block(0), case.block(1))),
        _ => Some(answer.values[0] as usize),
    }
}

/// Where on its axis a place is: its coordinate is one of a neighbour too; the last; the first, of -0 or not; between.
fn axis_kind(case: &Case) -> usize {
    let (axis, place) = (axis(case), case.place() as usize);
    let near = &axis[place.saturating_sub(1)..(place + 2).min(axis.len())];
    match place {
        _ if near.windows(2).any(|two| two[0] == two[1]) => 0,
        _ if place == axis.len() - 1 => 1,
        0 if case.float(0).to_bits() == (-0.0f64).to_bits() => 2,
        0 => 3,
        _ => 4,
    }
}

fn of_numbers(case: &Case) -> Answer {
    match rules::status(case) {
        0 => of_the_rust(case),
        status => Answer::refused(status),
    }
}

/// The Rust's answer to a case that is not refused.
fn of_the_rust(case: &Case) -> Answer {
    let x = case.float(0);
    match case.call {
        PolygonSignedArea => Answer::floats(&[polygon_signed_area(&ring(case))]),
        PolygonArea => Answer::floats(&[polygon_area(&ring(case))]),
        IsCcw => truth(is_ccw(&ring(case))),
        IsAxisAlignedRectangle => truth(is_axis_aligned_rectangle(&ring(case))),
        BboxFromPoints => bounds(Bbox::from_points(&ring(case))),
        BoxVolume => Answer::floats(&[boxed(case).volume()]),
        PrismVolume => Answer::floats(&[prism(case).volume()]),
        BoxFootprintBbox => bounds(boxed(case).footprint_bbox()),
        PrismFootprintBbox => bounds(prism(case).footprint_bbox()),
        Sqrt => Answer::floats(&[x.sqrt()]),
        Abs => Answer::floats(&[x.abs()]),
        CeilCapped => Answer::whole(x.ceil() as u64),
        NearestCapped => Answer::whole(x.round() as i64 as u64),
        CoordinateInRange => truth(x.is_finite() && x.abs() <= 1_048_576.0),
        ExtentInRange => truth(x.is_finite() && x.abs() <= 2_097_152.0),
        FigureInRange => truth(x.is_finite() && x.abs() <= 524_288.0),
        BboxEmpty => bounds(Bbox::empty()),
        BboxIsEmpty => truth(bbox(case, 0).is_empty()),
        BboxExtendPoint => {
            let mut b = bbox(case, 0);
            b.extend_point(Point::new(case.float(4), case.float(5)));
            bounds(b)
        }
        BboxExtend => {
            let mut b = bbox(case, 0);
            b.extend(&bbox(case, 4));
            bounds(b)
        }
        BboxUnion => bounds(bbox(case, 0).union(&bbox(case, 4))),
        BboxWidth => Answer::floats(&[bbox(case, 0).width()]),
        BboxHeight => Answer::floats(&[bbox(case, 0).height()]),
        BboxCenter => {
            let p = bbox(case, 0).center();
            Answer::floats(&[p.x, p.y])
        }
        BoxZBottom => Answer::floats(&[boxed(case).z_bottom()]),
        BoxZTop => Answer::floats(&[boxed(case).z_top()]),
        PrismZBottom => Answer::floats(&[flat_prism(case).z_bottom()]),
        PrismZTop => Answer::floats(&[flat_prism(case).z_top()]),
        BoxRegionVolume => Answer::floats(&[region(case, boxed(case)).volume()]),
        PrismRegionVolume => Answer::floats(&[region(case, prism(case)).volume()]),
        ExtrudePolygon => regions::polygon(case),
        ExtrudeBox => regions::boxed(case),
        TotalVolume => regions::total(case),
        CellCount => Answer::whole(cells_for(x, case.float(1)) as u64),
        AxisCoordinate => Answer::floats(&[axis(case)[case.place() as usize]]),
        _ => unreachable!("{} is not a call on numbers", case.call.name()),
    }
}

/// Every coordinate of an axis.
fn axis(case: &Case) -> Vec<f64> {
    let [min, max, cell] = case.floats();
    linspace(min, max, cells_for(max - min, cell))
}

fn truth(value: bool) -> Answer {
    Answer::whole(value as u64)
}

fn bounds(b: Bbox) -> Answer {
    Answer::floats(&[b.min_x, b.min_y, b.max_x, b.max_y])
}

fn points(xs: &[f64], ys: &[f64]) -> Vec<Point> {
    xs.iter().zip(ys).map(|(x, y)| Point::new(*x, *y)).collect()
}

fn ring(case: &Case) -> Vec<Point> {
    points(&case.xs, &case.ys)
}

fn bbox(case: &Case, at: usize) -> Bbox {
    Bbox { min_x: case.float(at), min_y: case.float(at + 1), max_x: case.float(at + 2), max_y: case.float(at + 3) }
}

fn boxed(case: &Case) -> Solid {
    let [min_x, min_y, max_x, max_y, z_bottom, z_top] = case.floats();
    Solid::Box { min_x, min_y, max_x, max_y, z_bottom, z_top }
}

fn prism(case: &Case) -> Solid {
    let part = case.start() as usize..case.start() as usize + case.count() as usize;
    let footprint = points(&case.xs[part.clone()], &case.ys[part]);
    Solid::Prism { footprint, z_bottom: case.float(0), z_top: case.float(1) }
}

fn region(case: &Case, solid: Solid) -> SolidRegion {
    let [material_id, net, polygon] = case.region;
    SolidRegion {
        material_id,
        net: (net != 0).then(|| net.to_string()),
        layer: None,
        device_ref: None,
        source_polygon: (polygon != u32::MAX).then_some(polygon as usize),
        solid,
    }
}

/// A prism of whose footprint nothing is asked.
fn flat_prism(case: &Case) -> Solid {
    Solid::Prism { footprint: vec![], z_bottom: case.float(0), z_top: case.float(1) }
}
