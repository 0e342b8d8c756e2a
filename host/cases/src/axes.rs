//! Axes: an extent or two ends, and a cell size, of about so many cells.
use crate::call::Call;
use crate::case::Case;
use crate::numbers::{self, MOST};
use crate::rules::cells::cells;
use crate::random::Random;

/// The most cells on an axis.
pub const CELLS_MOST: i64 = 4096;

/// The largest extents that are 1, 2 and 4,096 cells of 1.
const LARGEST: [u64; 3] = [0x3ff0000000001198, 0x4000000000001198, 0x40b0000000001198];

/// 2^-40.
pub const SLIGHT: f64 = 1.0 / (1u64 << 40) as f64;

/// Extents and cell sizes by hand.
const COUNTS: [(f64, f64); 28] = [
    (2.0 + SLIGHT, 1.0), (2.0 + 4.0 * SLIGHT, 1.0), (4096.0, 1.0), (4097.0, 1.0),
    (f64::from_bits(LARGEST[0]), 1.0), (f64::from_bits(LARGEST[0] + 1), 1.0),
    (f64::from_bits(LARGEST[1]), 1.0), (f64::from_bits(LARGEST[1] + 1), 1.0),
    (f64::from_bits(LARGEST[2]), 1.0), (f64::from_bits(LARGEST[2] + 1), 1.0),
    (2.0 * MOST, MOST), (2.0 * MOST, 512.0), (2.0 * MOST, 511.0), (f64::from_bits(0x4140000000000001), MOST),
    (2.0 * MOST, 5e-324), (1.0, 5e-324), (5e-324, 5e-324), (5e-324, MOST),
    (0.0, 1.0), (-0.0, 1.0), (-1.0, 1.0), (1.0, 0.0), (1.0, -0.0), (1.0, -1.0), (0.0, 0.0),
    (0.0, f64::NAN), (f64::NAN, 0.0), (f64::INFINITY, f64::INFINITY),
];

/// Ends, cell sizes and places by hand: zeros of both signs, and an axis of one float in two cells.
const COORDINATES: [(f64, f64, f64, u64); 12] = [
    (-0.0, 1.0, 1.0, 0), (-0.0, 1.0, 0.5, 0), (-0.0, 1.0, 0.5, 1), (0.0, 1.0, 1.0, 0),
    (-1.0, -0.0, 1.0, 1), (-1.0, -0.0, 0.5, 1), (-1.0, -0.0, 0.5, 2), (-1.0, 0.0, 1.0, 1),
    (f64::from_bits(0x412fffffffffffff), MOST, 5.9e-11, 1), (f64::from_bits(0x412fffffffffffff), MOST, 5.9e-11, 2),
    (0.0, 4096.0, 1.0, 4096), (0.0, 4096.0, 1.0, 4097),
];

pub fn count(r: &mut Random, number: u64) -> Case {
    let of = |(extent, cell): (f64, f64)| Case::of_numbers(Call::CellCount, &[extent, cell]);
    if let Some(by_hand) = COUNTS.get(number as usize) {
        return of(*by_hand);
    }
    let (n, size) = (many(r), cell(r));
    let (mut extent, mut cell) = match r.below(8) {
        0 => (size, part(r, size, n)),
        1 => (numbers::coordinate(r), size),
        2 => (numbers::any(r), numbers::any(r)),
        _ => (multiple(r, size, n), size),
    };
    if r.one_in(12) {
        extent = bad_extent(r);
    }
    if r.one_in(10) {
        cell = bad_cell(r);
    }
    of((extent, cell))
}

pub fn coordinate(r: &mut Random, number: u64) -> Case {
    let of = |(min, max, cell, place)| {
        let mut case = Case::of_numbers(Call::AxisCoordinate, &[min, max, cell]);
        case.params[3] = place;
        case
    };
    if let Some(by_hand) = COORDINATES.get(number as usize) {
        return of(*by_hand);
    }
    let n = many(r);
    let [mut min, mut max, mut size] = axis(r, n);
    let last = cells(max - min, size) as u64;
    if r.one_in(12) {
        [min, max] = bad_ends(r, min, max);
    }
    if r.one_in(12) {
        size = bad_cell(r);
    }
    let place = match r.below(10) {
        0 | 1 => 0,
        2 => last,
        3 => last.saturating_add(1),
        4 => r.pick(&[1, last.saturating_sub(1), u64::MAX, 1 << 32, 1 << 63]),
        5 => r.word(),
        _ => r.below(last.min(CELLS_MOST as u64) as usize + 1) as u64,
    };
    of((min, max, size, place))
}

/// How many cells: few, any, or about the most.
fn many(r: &mut Random) -> i64 {
    match r.below(8) {
        0 => 1,
        1 => r.between(CELLS_MOST - 2, CELLS_MOST + 2),
        2 | 3 => r.between(1, CELLS_MOST + 4),
        _ => r.between(1, 20),
    }
}

/// A cell size that is admitted and above zero.
pub fn cell(r: &mut Random) -> f64 {
    match r.below(6) {
        0 => r.pick(&[1.0, 0.5, 0.1, 3.0, 512.0, MOST, 1e-6, 0.1e-6, 0.25e-6, 5e-324, f64::MIN_POSITIVE]),
        1 => {
            let power = r.between(-1023, 19);
            numbers::of_power(r, power)
        }
        _ => {
            let power = r.between(-30, 8);
            numbers::of_power(r, power)
        }
    }
}

/// A cell size that is not admitted, or not above zero, or so small that a quotient may be infinite.
pub fn bad_cell(r: &mut Random) -> f64 {
    match r.below(4) {
        0 => numbers::outside(r),
        1 => r.pick(&[0.0, -0.0]),
        2 => -cell(r),
        _ => r.pick(&[5e-324, 1e-323, 1e-310, f64::MIN_POSITIVE]),
    }
}

fn bad_extent(r: &mut Random) -> f64 {
    match r.below(3) {
        0 => numbers::outside(r),
        1 => r.pick(&[0.0, -0.0, -1.0, -5e-324]),
        _ => {
            let steps = r.between(-2, 2);
            let extent = numbers::nudge(2.0 * MOST, steps);
            numbers::signed(r, extent)
        }
    }
}

/// Two ends of which one is not admitted, or that have nothing between them.
pub fn bad_ends(r: &mut Random, low: f64, high: f64) -> [f64; 2] {
    match r.below(6) {
        0 => [numbers::outside(r), high],
        1 => [low, numbers::outside(r)],
        2 => [low, low],
        3 => [high, low],
        4 => [low, numbers::nudge(low, -1)],
        _ => r.pick(&[[0.0, -0.0], [-0.0, 0.0], [0.0, 0.0], [-0.0, -0.0]]),
    }
}

/// So many cells of this size: exactly, or more or less by some floats, or by about the 1e-12 that is not counted.
fn multiple(r: &mut Random, cell: f64, n: i64) -> f64 {
    let exact = cell * n as f64;
    let steps = r.between(-3, 3);
    match r.below(6) {
        0 | 1 => exact,
        2 => numbers::nudge(exact, steps),
        3 => numbers::nudge(exact / (1.0 - 1e-12), steps),
        4 => exact * (1.0 + (r.unit() - 0.5) * 4e-12),
        _ => exact * (1.0 - r.unit() / n as f64),
    }
}

/// The cell size of so many cells, or one of the next floats.
fn part(r: &mut Random, extent: f64, n: i64) -> f64 {
    let steps = r.between(-2, 2);
    numbers::nudge(extent / n as f64, steps)
}

/// Two ends and a cell size, all admitted. Of some the ends are so few floats apart that coordinates repeat.
pub fn axis(r: &mut Random, n: i64) -> [f64; 3] {
    if r.one_in(8) {
        let low = numbers::coordinate(r).clamp(-MOST, MOST.next_down());
        let floats = r.between(1, n.min(40));
        let high = numbers::nudge(low, floats).min(MOST);
        let size = part(r, high - low, n);
        return [low, high, size];
    }
    let size = cell(r);
    let [low, high] = ends(r, size, n);
    [low, high, size]
}

/// Two ends with so many cells of this size between them, but for the rounding.
pub fn ends(r: &mut Random, cell: f64, n: i64) -> [f64; 2] {
    let wide = multiple(r, cell, n);
    let low = match r.below(6) {
        0 => r.pick(&[0.0, -0.0]),
        1 => return [(-wide).max(-MOST), r.pick(&[0.0, -0.0])],
        2 => -wide / 2.0,
        3 => (r.unit() - 0.5) * wide * 8.0,
        4 => numbers::coordinate(r),
        _ => (r.unit() - 0.5) * wide * (1u64 << r.between(0, 50)) as f64,
    };
    [low, low + wide].map(|x| x.clamp(-MOST, MOST))
}
