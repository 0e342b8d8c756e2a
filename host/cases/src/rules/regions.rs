//! Extruding, and the total volume of a region list.
use super::{admitted, ring, POINTS_MOST, RING_MOST};
use crate::case::Case;
use crate::regions::{Regions, Row};

pub const REGIONS_MOST: usize = 4096;
pub const MATERIAL_MOST: u32 = 768;

/// "Extruding: 16, 2, 1, heights last, 15 for material"
pub fn extruded_polygon(case: &Case) -> u32 {
    match ring(&case.xs, &case.ys) {
        0 => heights_and_material(&case.floats::<2>(), case.region[0]),
        refusal => refusal,
    }
}

/// "`extrude_box` 1, 15"
pub fn extruded_box(case: &Case) -> u32 {
    heights_and_material(&case.floats::<6>(), case.region[0])
}

fn heights_and_material(numbers: &[f64], material: u32) -> u32 {
    if !numbers.iter().all(admitted) {
        return 1;
    }
    if material > MATERIAL_MOST {
        return 15;
    }
    0
}

/// "a total: 16, 2 for the regions and the points, then region by region 15 for kind, part or material, 2, 1"
pub fn total(regions: &Regions, xs: &[f64], ys: &[f64]) -> u32 {
    let n = regions.kinds.len();
    if regions.lengths().iter().any(|length| *length != n) || xs.len() != ys.len() {
        return 16;
    }
    if n > REGIONS_MOST || xs.len() > POINTS_MOST {
        return 2;
    }
    regions.rows().map(|region| row(&region, xs, ys)).find(|refusal| *refusal != 0).unwrap_or(0)
}

/// "A prism's first four bounds and a box's start and count are [..] not looked at"
fn row(region: &Row, xs: &[f64], ys: &[f64]) -> u32 {
    if region.kind > 1 || region.material() > MATERIAL_MOST {
        return 15;
    }
    if region.kind == 0 {
        return if region.bounds.iter().all(admitted) { 0 } else { 1 };
    }
    if region.start() + region.count() > xs.len() {
        return 15;
    }
    if region.count() > RING_MOST {
        return 2;
    }
    let points = xs[region.part()].iter().chain(&ys[region.part()]);
    if !region.heights().iter().chain(points).all(admitted) {
        return 1;
    }
    0
}
