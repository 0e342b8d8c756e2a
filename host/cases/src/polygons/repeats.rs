//! Points that repeat, or nearly: about 2^-52 from another in x, in y or in both.
use crate::numbers;
use crate::random::Random;
use crate::rings::Ring;

/// How far a point is from the other: at 2^-52 it stays, below it goes.
const NEAR: [f64; 9] = [
    0.0, 1.5e-16, f64::EPSILON, f64::EPSILON / 2.0, 3e-16, 1e-17, 5e-324,
    f64::from_bits(0x3cafffffffffffff), f64::from_bits(0x3cb0000000000001),
];

fn near(r: &mut Random) -> f64 {
    let size = r.pick(&NEAR);
    numbers::signed(r, size)
}

fn beside(r: &mut Random, (x, y): (f64, f64)) -> (f64, f64) {
    match r.below(4) {
        0 => (x, y),
        1 => (x + near(r), y),
        2 => (x, y + near(r)),
        _ => (x + near(r), y + near(r)),
    }
}

/// Some points get one beside them.
pub fn anywhere(r: &mut Random, ring: &mut Ring) {
    for _ in 0..r.between(1, 4) {
        if ring.is_empty() {
            return;
        }
        let place = r.below(ring.len());
        let point = beside(r, ring[place]);
        let to = if r.one_in(4) { ring.len() } else { place + 1 };
        ring.insert(to, point);
    }
}

/// The ring is moved so that its first point is the origin, and ends with points beside it.
pub fn at_origin(r: &mut Random, ring: &mut Ring) {
    let Some(&(x0, y0)) = ring.first() else { return };
    ring.iter_mut().for_each(|(x, y)| (*x, *y) = (*x - x0, *y - y0));
    for _ in 0..r.between(1, 4) {
        let origin = (numbers::signed(r, 0.0), numbers::signed(r, 0.0));
        let point = if r.one_in(2) { (numbers::signed(r, 1.5e-16), 0.0) } else { beside(r, origin) };
        ring.push(point);
    }
}
