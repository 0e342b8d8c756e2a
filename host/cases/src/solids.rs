//! Boxes with point lists that they do not look at, and prisms with a part of them.
use crate::call::Call;
use crate::case::{Case, List};
use crate::numbers::{self, MOST};
use crate::random::Random;
use crate::rings;
use std::sync::OnceLock;

/// The longest point list that is admitted.
pub const POINTS_MOST: usize = 2_097_152;

/// A list longer than any that is admitted, made once; it has numbers that are not admitted. So many entries from this place on.
pub fn long(from: usize, len: usize) -> List {
    static LONG: OnceLock<Vec<f64>> = OnceLock::new();
    let all = LONG.get_or_init(|| {
        let r = &mut Random::of_case(0, 0, 0);
        let number = |place| if place % 1000 == 0 { numbers::outside(r) } else { r.unit() };
        (0..POINTS_MOST + 3).map(number).collect()
    });
    List::Borrowed(&all[from..from + len])
}

/// Two lists of about the most entries, mostly equally long.
pub fn long_pair(r: &mut Random) -> (List, List) {
    let len = POINTS_MOST + r.below(2);
    let other = if r.one_in(6) { len + 1 } else { len };
    (long(0, len), long(1, other))
}

pub fn boxed(call: Call, r: &mut Random) -> Case {
    let mut bounds = bounds(r);
    if r.one_in(6) {
        bounds[r.below(6)] = numbers::outside(r);
    }
    let (xs, ys) = if r.one_in(60) {
        long_pair(r)
    } else {
        let n = r.below(6);
        let (mut xs, mut ys) = (noise(r, n), noise(r, n));
        if r.one_in(10) {
            rings::unequal(r, &mut xs, &mut ys);
        }
        (xs.into(), ys.into())
    };
    Case { xs, ys, ..Case::of_numbers(call, &bounds) }
}

pub fn bounds(r: &mut Random) -> [f64; 6] {
    match r.below(5) {
        0 => std::array::from_fn(|_| r.between(-3, 3) as f64),
        1 => std::array::from_fn(|_| r.pick(&[0.0, -0.0, 1.0, -1.0, 5e-324, MOST, -MOST])),
        2 => std::array::from_fn(|_| numbers::coordinate(r)),
        3 => std::array::from_fn(|_| (r.unit() - 0.5) * 100.0),
        _ => {
            let scale = r.pick(&[1.0, 1e-6, 1e-100, MOST / 2.0]);
            let low: [f64; 3] = std::array::from_fn(|_| (r.unit() - 0.5) * scale);
            let high: [f64; 3] = std::array::from_fn(|i| low[i] + r.unit() * scale);
            [low[0], low[1], high[0], high[1], low[2], high[2]]
        }
    }
}

pub fn prism(call: Call, r: &mut Random, number: u64) -> Case {
    let mut heights = heights(r);
    if r.one_in(12) {
        heights[r.below(2)] = numbers::outside(r);
    }
    if r.one_in(60) {
        return long_prism(call, r, heights);
    }
    let (mut part_xs, mut part_ys): (Vec<f64>, Vec<f64>) = rings::ring(r, number).into_iter().unzip();
    if r.one_in(40) {
        let n = r.between(512, 513) as usize;
        part_xs.resize(n, 0.5);
        part_ys.resize(n, 0.25);
    }
    if r.one_in(8) {
        rings::spoil(r, &mut part_xs, &mut part_ys);
    }
    let (before, after) = (r.below(4), r.below(3));
    let count = part_xs.len();
    let mut xs = [noise(r, before), part_xs, noise(r, after)].concat();
    let mut ys = [noise(r, before), part_ys, noise(r, after)].concat();
    if r.one_in(12) {
        rings::unequal(r, &mut xs, &mut ys);
    }
    let (start, count) = if r.one_in(8) { other_part(r, xs.len()) } else { (before as u32, count as u32) };
    of(call, heights, start, count, xs.into(), ys.into())
}

fn of(call: Call, heights: [f64; 2], start: u32, count: u32, xs: List, ys: List) -> Case {
    let params = [heights[0].to_bits(), heights[1].to_bits(), start as u64, count as u64, 0, 0, 0, 0];
    Case { xs, ys, params, ..Case::of_numbers(call, &[]) }
}

pub fn heights(r: &mut Random) -> [f64; 2] {
    match r.below(4) {
        0 => [r.between(-2, 2) as f64, r.between(-2, 2) as f64],
        1 => [r.pick(&[0.0, -0.0, 1.0]), r.pick(&[0.0, -0.0, MOST, -MOST, 5e-324])],
        2 => [numbers::coordinate(r), numbers::coordinate(r)],
        _ => [r.unit(), r.unit()],
    }
}

/// A box or a prism with a material, a net and a polygon, on which nothing depends.
pub fn region(call: Call, r: &mut Random, number: u64) -> Case {
    let mut case = if call == Call::BoxRegionVolume { boxed(call, r) } else { prism(call, r, number) };
    case.region = std::array::from_fn(|_| if r.one_in(3) { r.word() as u32 } else { r.pick(&[0, 1, 768, 769, u32::MAX]) });
    case
}

/// Parts at the end of a list, past it, and those whose end is past the largest u32.
pub fn other_part(r: &mut Random, len: usize) -> (u32, u32) {
    let len = len as u32;
    let some = r.below(5) as u32;
    match r.below(7) {
        0 => (len.saturating_sub(some), some.min(len)),
        1 => (len.saturating_sub(some), some + 1),
        2 => (len + some, 0),
        3 => (0, len + some),
        4 => (u32::MAX - some, some + 1 + r.below(6) as u32),
        5 => (r.below(6) as u32, u32::MAX - some),
        _ => (r.word() as u32, r.word() as u32),
    }
}

/// A part at the end of the longest lists, or near to it.
fn long_prism(call: Call, r: &mut Random, heights: [f64; 2]) -> Case {
    let (xs, ys) = long_pair(r);
    let count = r.pick(&[0, 1, 3, 4, 100, 512, 513]);
    let start = xs.len() - count as usize + r.pick(&[0, 0, 0, 1]) - r.pick(&[0, 0, 3]);
    of(call, heights, start as u32, count, xs, ys)
}

/// Numbers that no call looks at.
pub fn noise(r: &mut Random, n: usize) -> Vec<f64> {
    (0..n).map(|_| numbers::any(r)).collect()
}
