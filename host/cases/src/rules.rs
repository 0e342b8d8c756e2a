//! The rules, transcribed: of each call the first refusal that applies, or 0. Calls on name blocks are answered whole. A comment in quotation marks is the
//! rule that the code below it follows; docs/PROOFS.md goes through all of them.
pub mod blocks;
pub mod cells;
pub mod meshes;
pub mod models;
pub mod polygons;
mod regions;
pub mod stacks;
pub mod welds;

use crate::call::Call::*;
use crate::case::Case;

const RING_MOST: usize = 512;
const POINTS_MOST: usize = 2_097_152;
const SIZE_MOST: f64 = 1_048_576.0;

pub fn status(case: &Case) -> u32 {
    match case.call {
        PolygonSignedArea | PolygonArea | IsCcw | IsAxisAlignedRectangle | BboxFromPoints => ring(&case.xs, &case.ys),
        BoxVolume | BoxFootprintBbox | BoxRegionVolume => boxed(case),
        PrismVolume | PrismFootprintBbox | PrismRegionVolume => prism(case),
        ExtrudePolygon => regions::extruded_polygon(case),
        ExtrudeBox => regions::extruded_box(case),
        CellCount => cells::count(case),
        AxisCoordinate => cells::coordinate(case),
        TotalVolume => regions::total(&case.regions, &case.xs, &case.ys),
        _ => 0,
    }
}

/// "finite and at most 2^20 in size"
fn admitted(x: &f64) -> bool {
    x.is_finite() && x.abs() <= SIZE_MOST
}

/// "Cleaning, area, rectangle: 16, 2, 1"
fn ring(xs: &[f64], ys: &[f64]) -> u32 {
    if xs.len() != ys.len() {
        return 16;
    }
    if xs.len() > RING_MOST {
        return 2;
    }
    if !xs.iter().chain(ys).all(admitted) {
        return 1;
    }
    0
}

/// "Solid volume: 16, 15 for a part, 2, 1"; a box has no part and looks at no point.
fn boxed(case: &Case) -> u32 {
    if case.xs.len() != case.ys.len() {
        return 16;
    }
    if case.xs.len() > POINTS_MOST {
        return 2;
    }
    if !case.floats::<6>().iter().all(admitted) {
        return 1;
    }
    0
}

/// The same of a prism; points outside its part are not looked at.
fn prism(case: &Case) -> u32 {
    if case.xs.len() != case.ys.len() {
        return 16;
    }
    if case.start() as u64 + case.count() as u64 > case.xs.len() as u64 {
        return 15;
    }
    if case.count() as usize > RING_MOST || case.xs.len() > POINTS_MOST {
        return 2;
    }
    let part = case.start() as usize..case.start() as usize + case.count() as usize;
    let heights = case.floats::<2>();
    if !heights.iter().chain(&case.xs[part.clone()]).chain(&case.ys[part]).all(admitted) {
        return 1;
    }
    0
}
