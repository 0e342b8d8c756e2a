//! Polygons and boxes to extrude.
use crate::call::Call;
use crate::case::Case;
use crate::numbers;
use crate::random::Random;
use crate::rings::{self, Ring};
use crate::solids;

/// The largest material number.
const MATERIAL_MOST: u32 = 768;

pub fn polygon(r: &mut Random, number: u64) -> Case {
    let (xs, ys) = if number >= rings::BY_HAND as u64 && r.one_in(8) {
        thin(r).into_iter().unzip()
    } else {
        rings::lists(r, number)
    };
    let mut heights = solids::heights(r);
    if r.one_in(10) {
        heights[r.below(2)] = numbers::outside(r);
    }
    let mut case = Case::of_numbers(Call::ExtrudePolygon, &heights);
    (case.xs, case.ys) = (xs.into(), ys.into());
    case.region = labels(r);
    case
}

pub fn boxed(r: &mut Random) -> Case {
    let mut bounds = solids::bounds(r);
    if r.one_in(6) {
        bounds[r.below(6)] = numbers::outside(r);
    }
    let mut case = Case::of_numbers(Call::ExtrudeBox, &bounds);
    case.region = labels(r);
    case
}

/// A rectangle whose sides are one float wide, or one of them is.
fn thin(r: &mut Random) -> Ring {
    let low = [numbers::coordinate(r) / 2.0, numbers::coordinate(r) / 2.0];
    let wide = r.below(3);
    let step = |r: &mut Random, i: usize| if wide == i { low[i] + r.unit() } else { numbers::nudge(low[i], 1) };
    let high = [step(r, 0), step(r, 1)];
    let mut corners = [(low[0], low[1]), (high[0], low[1]), (high[0], high[1]), (low[0], high[1])];
    if r.one_in(3) {
        r.shuffle(&mut corners);
    }
    corners.to_vec()
}

/// A material, a net and nothing.
fn labels(r: &mut Random) -> [u32; 3] {
    [material(r), if r.one_in(2) { r.pick(&[0, 1, u32::MAX]) } else { r.word() as u32 }, 0]
}

/// Mostly one that there may be.
pub fn material(r: &mut Random) -> u32 {
    match r.below(12) {
        0 => r.pick(&[MATERIAL_MOST + 1, u32::MAX, 1024, 1 << 31]),
        1 => r.word() as u32,
        2..=5 => r.pick(&[0, 1, MATERIAL_MOST - 1, MATERIAL_MOST]),
        _ => r.below(MATERIAL_MOST as usize + 1) as u32,
    }
}
