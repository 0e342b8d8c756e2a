//! Pairs of bounding boxes, of any numbers; a point is the beginning of the second.
use crate::numbers;
use crate::random::Random;
use std::f64::{INFINITY, NAN, NEG_INFINITY};

pub fn pair(r: &mut Random) -> [f64; 8] {
    let (a, b) = (bounds(r), bounds(r));
    let mut both = [a[0], a[1], a[2], a[3], b[0], b[1], b[2], b[3]];
    // Equal numbers in both.
    if r.one_in(4) {
        both[4 + r.below(4)] = both[r.below(4)];
    }
    if r.one_in(4) {
        both[r.below(8)] = numbers::any(r);
    }
    both
}

fn bounds(r: &mut Random) -> [f64; 4] {
    match r.below(7) {
        0 => [INFINITY, INFINITY, NEG_INFINITY, NEG_INFINITY],
        1 => ordered(std::array::from_fn(|_| r.between(-3, 3) as f64)),
        2 => ordered(std::array::from_fn(|_| numbers::coordinate(r))),
        3 => std::array::from_fn(|_| r.between(-3, 3) as f64),
        4 => std::array::from_fn(|_| r.pick(&[0.0, -0.0, 1.0, -1.0, INFINITY, NEG_INFINITY, NAN])),
        5 => ordered(std::array::from_fn(|_| f64::from_bits(r.word()))),
        _ => std::array::from_fn(|_| numbers::any(r)),
    }
}

/// The lower of each two first.
fn ordered([a, b, c, d]: [f64; 4]) -> [f64; 4] {
    [a.min(c), b.min(d), a.max(c), b.max(d)]
}
