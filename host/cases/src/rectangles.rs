//! Rings on the corners of a rectangle, and near them.
use crate::numbers::{self, MOST};
use crate::random::Random;
use crate::rings::Ring;

struct Sides {
    low: [f64; 2],
    high: [f64; 2],
}

pub fn draw(r: &mut Random) -> Ring {
    let sides = sides(r);
    let [x0, y0] = sides.low;
    let [x1, y1] = sides.high;
    let corners = [(x0, y0), (x1, y0), (x1, y1), (x0, y1)];
    let mut ring: Ring = order(r).into_iter().map(|corner| corners[corner]).collect();
    if r.one_in(2) && !ring.is_empty() {
        for _ in 0..r.between(1, 3) {
            let place = r.below(ring.len());
            ring[place] = moved(r, &sides, ring[place]);
        }
    }
    if r.one_in(4) {
        for (x, y) in &mut ring {
            *x = with_zero_signed(r, *x);
            *y = with_zero_signed(r, *y);
        }
    }
    ring
}

fn with_zero_signed(r: &mut Random, x: f64) -> f64 {
    if x == 0.0 { numbers::signed(r, x) } else { x }
}

fn sides(r: &mut Random) -> Sides {
    let (low, size) = match r.below(7) {
        0 => ([r.between(-3, 3) as f64, r.between(-3, 3) as f64], [r.between(1, 4) as f64, r.between(1, 4) as f64]),
        1 => ([0.0, 0.0], [r.unit(), r.unit() * r.pick(&[1.0, 1e-3, 1e3])]),
        2 => ([r.unit() * 100.0, -r.unit() * 100.0], [r.unit(), r.unit()]),
        // One side about as wide as the tolerance.
        3 => {
            let steps = r.between(-1, 1);
            let thin = numbers::nudge(r.pick(&[1e-9, 1e-9, 1e-10, 2e-9, 1e-12, 5e-324]), steps);
            let long = r.pick(&[1.0, 1.0, 2.0, 0.7]);
            let size = if r.one_in(2) { [thin * long, long] } else { [long, thin * long] };
            ([r.pick(&[0.0, 0.0, 1.0]), 0.0], size)
        }
        // No width, or no height.
        4 => ([r.between(-1, 1) as f64, 0.0], [r.pick(&[0.0, 1.0]), r.pick(&[0.0, 2.0])]),
        // The tolerance is zero or a few of the smallest float.
        5 => ([0.0, 0.0], [f64::from_bits(r.word() >> 30), f64::from_bits(r.word() >> r.pick(&[30, 60]))]),
        _ => ([-MOST, -MOST], [2.0 * MOST, r.pick(&[2.0 * MOST, 1.0])]),
    };
    Sides { low, high: [low[0] + size[0], low[1] + size[1]] }
}

/// Which corner each point is.
fn order(r: &mut Random) -> Vec<usize> {
    let mut order = vec![0, 1, 2, 3];
    match r.below(6) {
        0 => order.rotate_left(r.below(4)),
        1 => order.reverse(),
        2 => r.shuffle(&mut order),
        // Repeated corners.
        3 => order = order.into_iter().flat_map(|corner| vec![corner; r.between(1, 3) as usize]).collect(),
        4 => {
            let n = if r.one_in(12) { r.between(511, 512) } else { r.between(3, 24) };
            order = (0..n).map(|_| r.below(4)).collect();
        }
        // Three corners, or two.
        _ => {
            r.shuffle(&mut order);
            order.truncate(r.between(2, 3) as usize);
        }
    }
    order
}

/// The point, moved in x, in y or in both.
fn moved(r: &mut Random, sides: &Sides, (x, y): (f64, f64)) -> (f64, f64) {
    let tolerance = 1e-9 * (sides.high[0] - sides.low[0]).max(sides.high[1] - sides.low[1]);
    let which = r.below(3);
    let x = if which != 1 { moved_number(r, tolerance, x, x == sides.low[0]) } else { x };
    let y = if which != 0 { moved_number(r, tolerance, y, y == sides.low[1]) } else { y };
    (x.clamp(-MOST, MOST), y.clamp(-MOST, MOST))
}

fn moved_number(r: &mut Random, tolerance: f64, x: f64, low: bool) -> f64 {
    let steps = r.between(-1, 1);
    let distance = match r.below(8) {
        0 => return numbers::nudge(x, steps),
        1 => tolerance * r.pick(&[0.5, 1.5, 2.0]),
        _ => numbers::nudge(tolerance, steps),
    };
    // Inward mostly: the bounding box stays as it is.
    let inward = !r.one_in(4);
    let moved = if low == inward { x + distance } else { x - distance };
    let more = r.pick(&[0, 0, 0, -1, 1]);
    numbers::nudge(moved, more)
}
