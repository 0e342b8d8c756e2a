//! Rings: shapes written by hand first, then drawn ones, admitted or damaged.
use crate::numbers::{self, MOST};
use crate::random::Random;
use crate::rectangles;

pub type Ring = Vec<(f64, f64)>;

/// The two lists of a ring call.
pub fn lists(r: &mut Random, number: u64) -> (Vec<f64>, Vec<f64>) {
    let mut ring = ring(r, number);
    let by_hand = number < BY_HAND as u64;
    if !by_hand && r.one_in(12) {
        lengthen(r, &mut ring);
    }
    let (mut xs, mut ys): (Vec<f64>, Vec<f64>) = ring.into_iter().unzip();
    if !by_hand && r.one_in(8) {
        spoil(r, &mut xs, &mut ys);
    }
    if !by_hand && r.one_in(12) {
        unequal(r, &mut xs, &mut ys);
    }
    (xs, ys)
}

/// A ring of admitted coordinates.
pub fn ring(r: &mut Random, number: u64) -> Ring {
    if number < BY_HAND as u64 {
        return by_hand(number as usize);
    }
    if r.one_in(3) { rectangles::draw(r) } else { drawn(r) }
}

/// Past 512 points, mostly by one.
pub fn lengthen(r: &mut Random, ring: &mut Ring) {
    let count = if r.one_in(50) { 65_539 } else { r.pick(&[513, 513, 514, 1000]) };
    ring.resize(count, (1.0, 0.0));
}

/// One number, or two, that is not admitted.
pub fn spoil(r: &mut Random, xs: &mut [f64], ys: &mut [f64]) {
    for _ in 0..r.between(1, 2) {
        let list = if r.one_in(2) { &mut *xs } else { &mut *ys };
        if list.is_empty() {
            continue;
        }
        let place = match r.below(3) {
            0 => 0,
            1 => list.len() - 1,
            _ => r.below(list.len()),
        };
        list[place] = numbers::outside(r);
    }
}

/// One of the lists gets longer or shorter.
pub fn unequal(r: &mut Random, xs: &mut Vec<f64>, ys: &mut Vec<f64>) {
    let list = if r.one_in(2) { xs } else { ys };
    match r.below(4) {
        0 => list.truncate(0),
        1 => list.truncate(list.len().saturating_sub(1)),
        2 => list.push(numbers::any(r)),
        _ => list.extend((0..r.below(600)).map(|k| k as f64)),
    }
}

pub fn count(r: &mut Random) -> usize {
    match r.below(40) {
        0..=2 => r.below(3),
        3..=12 => 3,
        13..=20 => 4,
        21..=34 => r.between(5, 12) as usize,
        35..=37 => r.between(13, 64) as usize,
        38 => r.between(65, 510) as usize,
        _ => r.between(511, 512) as usize,
    }
}

fn drawn(r: &mut Random) -> Ring {
    let n = count(r);
    match r.below(10) {
        0 => points(n, || r.between(-3, 3) as f64),
        1 => {
            let scale = r.pick(&[1.0, 1e-6, 1e-150, 1e-160, 1000.0, MOST]);
            points(n, || (r.unit() - 0.5) * 2.0 * scale)
        }
        2 => points(n, || numbers::coordinate(r)),
        3 => points(n, || numbers::admitted_special(r)),
        // Sums of few last digits, so that halving rounds.
        4 => points(n, || r.pick(&[0.0, 0.0, 1.0, 2.0, -1.0, 5e-324, -5e-324, 1.5e-323])),
        5 => points(n, || {
            let steps = r.between(-3, 0);
            let x = numbers::nudge(MOST, steps);
            numbers::signed(r, x)
        }),
        6 => circle(r, n),
        7 => line(r, n),
        8 => there_and_back(r, n),
        _ => points(n, || r.between(-MOST as i64, MOST as i64) as f64 / 7.0),
    }
}

fn points(n: usize, mut number: impl FnMut() -> f64) -> Ring {
    (0..n).map(|_| (number(), number())).collect()
}

/// Points on a circle, in one direction or the other; no step but those that IEEE 754 rounds correctly.
fn circle(r: &mut Random, n: usize) -> Ring {
    let (radius, x0, y0) = (r.unit() * 1000.0, numbers::coordinate(r) / 2.0, r.between(-3, 3) as f64);
    let mut ring: Ring = (0..n)
        .map(|i| {
            let t = (2 * i + 1) as f64 / n as f64 - 1.0;
            let t = t / (1.0 - t * t);
            (x0 + radius * (1.0 - t * t) / (1.0 + t * t), y0 + radius * 2.0 * t / (1.0 + t * t))
        })
        .collect();
    if r.one_in(2) {
        ring.reverse();
    }
    ring
}

/// Points on a line, but for the rounding.
fn line(r: &mut Random, n: usize) -> Ring {
    let (x0, y0, dx, dy) = (r.unit() - 0.5, r.unit() - 0.5, r.unit() - 0.5, r.unit() - 0.5);
    let step = r.pick(&[0.1, 1.0, 0.3]);
    (0..n).map(|i| (x0 + dx * (i as f64 * step), y0 + dy * (i as f64 * step))).collect()
}

/// The second half goes back along the first half, so that the area is zero but for the rounding.
fn there_and_back(r: &mut Random, n: usize) -> Ring {
    let mut ring = points(n / 2, || (r.unit() - 0.5) * 100.0);
    ring.extend(ring.clone().iter().rev());
    ring
}

const SHAPES: [&[(f64, f64)]; 20] = [
    &[],
    &[(1.0, 2.0)],
    &[(0.0, 0.0), (1e-10, 1.0)],
    &[(0.0, 0.0), (2.0, 0.0), (2.0, 2.0), (0.0, 2.0)],
    &[(0.0, 0.0), (4.0, 0.0), (1.0, 1.0), (0.0, 4.0)],
    &[(0.0, 0.0), (0.0, 1.0), (1.0, 0.0)],
    &[(0.0, 0.0), (1.0, 1.0), (2.0, 2.0), (3.0, 3.0)],
    &[(0.0, 0.0), (1.0, 1.0), (2.0, 2.0)],
    // A bow-tie.
    &[(0.0, 0.0), (1.0, 1.0), (1.0, 0.0), (0.0, 1.0)],
    &[(0.0, 0.0), (0.0, 1.0), (0.0, 2.0)],
    &[(0.0, 0.0), (2.0, 0.0), (2.0, 1.0), (1.0, 1.0), (1.0, 2.0), (0.0, 2.0)],
    // The area is -0.0, and +0.0 the other way around.
    &[(0.0, 0.0), (0.0, 1.0), (5e-324, 2.0)],
    &[(5e-324, 2.0), (0.0, 1.0), (0.0, 0.0)],
    // A thin triangle that is a rectangle.
    &[(0.0, 0.0), (1e-10, 0.0), (0.0, 1.0)],
    // The bounds carry the sign of the first zero.
    &[(0.0, 0.0), (1.0, 0.0), (1.0, 1.0), (-0.0, 1.0)],
    &[(-0.0, 0.0), (1.0, -0.0), (1.0, 1.0), (0.0, 1.0)],
    // A corner off by the tolerance, and by one float more.
    &[(0.0, 0.0), (1.0, 0.0), (1.0, 1.0), (1e-9, 1.0)],
    &[(0.0, 0.0), (1.0, 0.0), (1.0, 1.0), (1e-9_f64.next_up(), 1.0)],
    // The largest area.
    &[(-MOST, -MOST), (MOST, -MOST), (MOST, MOST), (-MOST, MOST)],
    &[(0.0, 0.0), (2.0, 1.0), (1.0, 2.0), (-1.5e-16, 0.0), (1.5e-16, 0.0)],
];

/// The shapes above, and rings of 511, 512 and 513 points.
pub const BY_HAND: usize = SHAPES.len() + 3;

fn by_hand(number: usize) -> Ring {
    match SHAPES.get(number) {
        Some(shape) => shape.to_vec(),
        None => (0..511 + number - SHAPES.len()).map(|i| (i as f64, (i * i) as f64)).collect(),
    }
}
