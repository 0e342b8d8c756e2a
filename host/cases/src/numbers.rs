//! Single numbers: coordinates that are admitted, those that are not, and numbers of any kind.
use crate::random::Random;

/// 2^20, the largest size of a coordinate.
pub const MOST: f64 = 1_048_576.0;

const ADMITTED: [f64; 26] = [
    0.0, -0.0, 5e-324, -5e-324, 1e-323, 1.5e-323, f64::MIN_POSITIVE, -f64::MIN_POSITIVE,
    f64::MIN_POSITIVE.next_down(), 1.0, -1.0, 0.5, -0.5, 1e-9, -1e-9, 1e-10, 1e-15, 1e-30, 1e-300, 0.1,
    MOST, -MOST, MOST.next_down(), -MOST.next_down(), MOST - 1.0, 1.0 - MOST,
];

const OUTSIDE: [f64; 12] = [
    f64::NAN, -f64::NAN, f64::from_bits(0x7ff0000000000001), f64::from_bits(0xffffffffffffffff),
    f64::INFINITY, f64::NEG_INFINITY, f64::MAX, f64::MIN,
    MOST.next_up(), -MOST.next_up(), 2.0 * MOST, -2.0 * MOST,
];

/// So many steps up among the floats, or down.
pub fn nudge(mut x: f64, steps: i64) -> f64 {
    for _ in 0..steps.abs() {
        x = if steps < 0 { x.next_down() } else { x.next_up() };
    }
    x
}

/// A random float of this power of two, or of the subnormals (-1023).
pub fn of_power(r: &mut Random, power: i64) -> f64 {
    f64::from_bits(r.word() >> 12 | ((power + 1023) as u64) << 52)
}

pub fn signed(r: &mut Random, x: f64) -> f64 {
    if r.one_in(2) { -x } else { x }
}

pub fn admitted_special(r: &mut Random) -> f64 {
    r.pick(&ADMITTED)
}

/// An admitted coordinate of any size.
pub fn coordinate(r: &mut Random) -> f64 {
    match r.below(5) {
        0 => r.between(-4, 4) as f64,
        1 => admitted_special(r),
        2 => {
            let power = r.between(-1023, 19);
            let x = of_power(r, power);
            signed(r, x)
        }
        3 => (r.unit() - 0.5) * 2.0 * MOST,
        _ => (r.unit() - 0.5) * 10.0,
    }
}

/// A number that is not finite or too large.
pub fn outside(r: &mut Random) -> f64 {
    r.pick(&OUTSIDE)
}

/// Any number at all.
pub fn any(r: &mut Random) -> f64 {
    match r.below(5) {
        0 => f64::from_bits(r.word()),
        1 => outside(r),
        2 => admitted_special(r),
        3 => coordinate(r),
        _ => r.between(-2, 2) as f64,
    }
}

/// Numbers to be rounded: halves, whole numbers, those where the floats get as wide as 1, and the casts' caps.
pub fn to_round(r: &mut Random) -> f64 {
    let x = match r.below(6) {
        0 => r.between(0, 20) as f64 / 2.0,
        1 => (r.word() >> r.between(1, 63)) as f64 / 2.0,
        2 => {
            let power = r.pick(&[-1, 0, 31, 32, 50, 51, 52, 53, 54, 62, 63, 64, 65]);
            f64::from_bits(((power + 1023) as u64) << 52)
        }
        3 => {
            let power = r.between(-3, 66);
            of_power(r, power)
        }
        4 => {
            let power = r.between(49, 53);
            of_power(r, power)
        }
        _ => any(r),
    };
    let steps = r.between(-2, 2);
    signed(r, nudge(x, steps))
}

/// Numbers about the limits 2^19, 2^20 and 2^21.
pub fn to_range(r: &mut Random) -> f64 {
    let x = match r.below(3) {
        0 => any(r),
        1 => {
            let power = r.between(18, 21);
            of_power(r, power)
        }
        _ => r.pick(&[MOST / 2.0, MOST, MOST * 2.0]),
    };
    let steps = r.between(-1, 1);
    signed(r, nudge(x, steps))
}

/// 2^19, the largest size of a stack figure.
const FIGURE_MOST: f64 = 524_288.0;

/// An admitted stack figure.
pub fn figure(r: &mut Random) -> f64 {
    match r.below(4) {
        0 => r.pick(&[0.0, -0.0, 5e-324, FIGURE_MOST, -FIGURE_MOST, FIGURE_MOST.next_down(), -FIGURE_MOST.next_down()]),
        1 => r.unit() * 1e-6,
        _ => coordinate(r) / 2.0,
    }
}

/// A stack figure that is not finite or too large.
pub fn outside_figure(r: &mut Random) -> f64 {
    if r.one_in(2) {
        return outside(r);
    }
    let power = r.between(19, 21);
    let x = of_power(r, power);
    let x = r.pick(&[FIGURE_MOST.next_up(), MOST, x.next_up()]);
    signed(r, x)
}
