//! Numbers to take the square root of. Of twelve cases ten are random bits, one is special,
//! and one has its root near the middle of two floats.
use crate::numbers;
use crate::random::Random;

pub fn draw(r: &mut Random, number: u64) -> f64 {
    match number % 12 {
        0 => near_halfway(r),
        1 => special(r),
        _ => f64::from_bits(r.word() >> r.pick(&[0, 1, 1, 1])),
    }
}

fn special(r: &mut Random) -> f64 {
    let steps = r.between(-1, 1);
    match r.below(4) {
        0 => numbers::any(r),
        1 => f64::from_bits(r.word() >> 12 >> r.below(52)),
        // Squares of floats, and their neighbours.
        2 => {
            let root = (r.word() >> r.between(38, 63)) as f64;
            numbers::nudge(root * root, steps)
        }
        _ => {
            let power = r.between(-1023, 1023);
            numbers::nudge(f64::from_bits(((power + 1023) as u64) << 52), steps)
        }
    }
}

/// The square of an odd whole number m of 54 digits lies in the middle between the squares of two floats.
/// The float nearest to it, or a neighbour, times a power of four.
fn near_halfway(r: &mut Random) -> f64 {
    let m = if r.one_in(2) { r.word() >> 11 | 1 } else { square_near_a_float(r) };
    let m = (m & (1 << 53) - 1) | 1 << 53;
    let square = m as u128 * m as u128;
    let steps = r.pick(&[-1, 0, 0, 1]);
    let x = numbers::nudge(square as f64, steps);
    // x is 2^106 up to 2^108: the power of two added keeps it a normal float.
    let fours = r.between(-564, 457);
    f64::from_bits((x.to_bits() as i64 + ((2 * fours) << 52)) as u64)
}

/// A whole number whose square is a multiple of 2^54 and a small rest: the root comes nearest to a middle.
fn square_near_a_float(r: &mut Random) -> u64 {
    let rest = (1 + 8 * r.between(-1000, 1000)) as u64;
    let mut m = 1u64;
    // m * m agrees with the rest in its last digits, one more each time.
    for digits in 3..54 {
        if m.wrapping_mul(m).wrapping_sub(rest) >> digits & 1 == 1 {
            m += 1 << (digits - 1);
        }
    }
    if r.one_in(2) { m.wrapping_neg() } else { m }
}
