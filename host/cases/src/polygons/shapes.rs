//! Shapes of so many points; no step but those that IEEE 754 rounds correctly.
use crate::random::Random;
use crate::rings::Ring;

/// The i-th of n points on the unit circle, counter-clockwise.
pub fn direction(i: usize, n: usize) -> (f64, f64) {
    let t = (2 * i + 1) as f64 / n as f64 - 1.0;
    let t = t / (1.0 - t * t);
    ((1.0 - t * t) / (1.0 + t * t), 2.0 * t / (1.0 + t * t))
}

/// The n points on their rays, each at its distance from the centre.
pub fn around(n: usize, mut distance: impl FnMut(usize) -> f64) -> Ring {
    (0..n)
        .map(|i| {
            let ((x, y), d) = (direction(i, n), distance(i));
            (x * d, y * d)
        })
        .collect()
}

pub fn circle(n: usize) -> Ring {
    around(n, |_| 1.0)
}

/// Every second point is nearer.
pub fn star(n: usize) -> Ring {
    around(n, |i| if i % 2 == 0 { 1.0 } else { 0.4 })
}

/// Square teeth from left to right over a straight back, which has the points that are no tooth's.
pub fn comb(n: usize) -> Ring {
    let teeth = n.saturating_sub(2) / 4;
    let mut ring: Ring = (0..teeth)
        .flat_map(|i| {
            let (left, right) = (2.0 * i as f64, 2.0 * i as f64 + 1.0);
            [(left, 1.0), (left, 3.0), (right, 3.0), (right, 1.0)]
        })
        .collect();
    let back = n - ring.len();
    ring.extend((0..back).map(|i| ((back - 1 - i) as f64 * (2 * teeth) as f64 / back as f64, 0.0)));
    ring
}

/// Teeth of these heights from left to right on a bar, all along the axes; the bar's lower side has the points that are no tooth's. At least one tooth.
pub fn teeth(n: usize, mut height: impl FnMut(usize) -> f64) -> Ring {
    let teeth = (n.saturating_sub(2) / 4).max(1);
    let ring = (0..teeth).flat_map(|i| {
        let (left, right, y) = (2.0 * i as f64, 2.0 * i as f64 + 1.0, height(i));
        [(left, 0.0), (left, y), (right, y), (right, 0.0)]
    });
    ring.chain(back(n.max(6) - 4 * teeth, (2 * teeth - 1) as f64, -1.0)).collect()
}

/// Points from this x to 0, at this height.
fn back(n: usize, x: f64, y: f64) -> impl Iterator<Item = (f64, f64)> {
    (0..n).rev().map(move |i| (x * i as f64 / (n - 1) as f64, y))
}

pub fn square_comb(n: usize) -> Ring {
    teeth(n, |_| 1.0)
}

/// Each tooth is higher than the one before.
pub fn dense_comb(n: usize) -> Ring {
    teeth(n, |i| 1.0 + i as f64)
}

/// Left becomes right.
pub fn mirrored(ring: Ring) -> Ring {
    ring.into_iter().map(|(x, y)| (-x, y)).collect()
}

/// Up and down, farther each time, with these xs: every edge crosses the middle, and no two points are at one height.
pub fn zigzag(n: usize, mut x: impl FnMut(usize) -> f64) -> Ring {
    (0..n)
        .map(|i| {
            let y = 1.0 + i as f64 / 1024.0;
            (x(i), if i % 2 == 0 { -y } else { y })
        })
        .collect()
}

/// Steps to the right and up, all along the axes; the points that are no step's are on the way back. At least one step.
pub fn staircase(n: usize) -> Ring {
    let steps = (n.saturating_sub(2) / 2).max(1);
    let ring = (0..steps).flat_map(|i| [(i as f64, i as f64), ((i + 1) as f64, i as f64)]);
    ring.chain(back(n.max(4) - 2 * steps, steps as f64, steps as f64)).collect()
}

/// A circle with a circle cut out, joined by a doubled edge; of twice as many points and two.
pub fn round_keyhole(n: usize) -> Ring {
    let circle = |i: usize, d: f64| {
        let (x, y) = direction(i % n, n);
        (x * d, y * d)
    };
    (0..=n).map(|i| circle(i, 10.0)).chain((0..=n).rev().map(|i| circle(i, 5.0))).collect()
}

/// Points anywhere in a square; always the same.
pub fn scattered(n: usize) -> Ring {
    let r = &mut Random::of_case(0, 0, 0);
    (0..n).map(|_| (r.unit(), r.unit())).collect()
}

pub const L: [(f64, f64); 6] = [(0.0, 0.0), (2.0, 0.0), (2.0, 1.0), (1.0, 1.0), (1.0, 2.0), (0.0, 2.0)];

pub const DART: [(f64, f64); 4] = [(0.0, 0.0), (4.0, 0.0), (1.0, 1.0), (0.0, 4.0)];

/// A square with a square cut out.
pub const KEYHOLE: [(f64, f64); 12] = [
    (0.0, 0.0), (10.0, 0.0), (10.0, 10.0), (0.0, 10.0), (0.0, 5.0), (3.0, 5.0),
    (3.0, 7.0), (7.0, 7.0), (7.0, 3.0), (3.0, 3.0), (3.0, 5.0), (0.0, 5.0),
];

/// A path along the axes that crosses itself.
pub const CROSSED: [(f64, f64); 16] = [
    (0.0, 0.0), (7.0, 0.0), (7.0, 5.0), (2.0, 5.0), (2.0, 2.0), (8.0, 2.0), (8.0, 8.0), (1.0, 8.0),
    (1.0, 3.0), (5.0, 3.0), (5.0, 7.0), (3.0, 7.0), (3.0, 1.0), (6.0, 1.0), (6.0, 4.0), (0.0, 4.0),
];

/// A corridor outwards, with this many points a turn: one wall out, the other back.
pub fn spiral(n: usize, a_turn: usize) -> Ring {
    let out = n.div_ceil(2);
    let at = |i: usize, wall: f64| {
        let (x, y) = direction(i % a_turn, a_turn);
        let d = 1.0 + i as f64 / a_turn as f64 + wall;
        (x * d, y * d)
    };
    (0..out).map(|i| at(i, 0.0)).chain((0..n - out).rev().map(|i| at(i, 0.5))).collect()
}

/// Each ray is joined to the one so many places on, so that most edges cross.
pub fn crossing(n: usize, step: usize) -> Ring {
    (0..n).map(|i| direction(i * step % n, n)).collect()
}

/// A square with a smaller one cut out, or several: each hole is reached and left by the same edge.
pub fn keyholes(holes: usize) -> Ring {
    let wide = 3.0 * holes as f64 + 1.0;
    let mut ring = vec![(0.0, 0.0)];
    for i in 0..holes {
        let x = 1.0 + 3.0 * i as f64;
        let hole = [(x, 1.0), (x, 2.0), (x + 2.0, 2.0), (x + 2.0, 1.0), (x, 1.0)];
        ring.push((x, 0.0));
        ring.extend(hole);
        ring.push((x, 0.0));
    }
    ring.extend([(wide, 0.0), (wide, 3.0), (0.0, 3.0)]);
    ring
}
