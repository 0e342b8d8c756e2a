//! Rings that the scanline meshes, or clipping, of admitted coordinates: along the axes, of many crossings, with heights that nearly repeat.
use crate::numbers::{self, MOST};
use crate::polygons::{draw, repeats, shapes};
use crate::random::Random;
use crate::rings::Ring;

pub fn draw(r: &mut Random) -> Ring {
    let n = count(r);
    let mut ring = match r.below(12) {
        0 | 1 => return draw::ring(r, u64::MAX),
        2 | 3 => along_axes(r, n),
        4 => shape(r, n),
        5 => scattered(r, n),
        6 => zigzag(r, n),
        7 | 8 => thin_bands(r, n),
        9 => neighbours(r, n),
        10 => zeros(r, n),
        _ => return nearly_closed(r),
    };
    turn(r, &mut ring);
    match r.below(10) {
        0 => repeats::anywhere(r, &mut ring),
        1 => repeats::at_origin(r, &mut ring),
        _ => {}
    }
    ring.truncate(512);
    draw::clamp(&mut ring);
    ring
}

fn count(r: &mut Random) -> usize {
    match r.below(400) {
        0..=3 => r.below(3),
        4..=59 => 3,
        60..=119 => 4,
        120..=319 => r.between(5, 16) as usize,
        320..=369 => r.between(17, 40) as usize,
        370..=389 => r.between(41, 120) as usize,
        390..=395 => r.between(121, 510) as usize,
        _ => r.between(511, 512) as usize,
    }
}

/// Points by turns on a line along x and one along y, on a lattice or anywhere; some are off by about the tolerance.
fn along_axes(r: &mut Random, n: usize) -> Ring {
    let wide = r.between(2, 12);
    let whole = !r.one_in(4);
    let number = |r: &mut Random| if whole { r.between(0, wide) as f64 } else { r.unit() * wide as f64 };
    let (mut x, mut y) = (number(r), number(r));
    let (x0, y0) = (x, y);
    let mut ring = vec![(x, y)];
    while ring.len() + 1 < n {
        if ring.len() % 2 == 0 { y = number(r) } else { x = number(r) }
        ring.push((x, y));
    }
    // The last closes the ring, mostly.
    if r.one_in(8) {
        ring.push((number(r), number(r)));
    } else {
        ring.push(if ring.len() % 2 == 0 { (x, y0) } else { (x0, y) });
    }
    if r.one_in(4) {
        draw::fit(r, &mut ring);
    }
    if r.one_in(5) {
        let size = ring.iter().fold(1.0, |most: f64, (x, y)| most.max(x.abs()).max(y.abs()));
        let (place, steps) = (r.below(ring.len()), r.between(-2, 2));
        let by = numbers::nudge(1e-9 * size, steps);
        ring[place].0 += numbers::signed(r, by);
        ring[place].1 += numbers::signed(r, by);
    }
    ring
}

fn shape(r: &mut Random, n: usize) -> Ring {
    let mut ring = match r.below(6) {
        0 => shapes::square_comb(n),
        1 => shapes::dense_comb(n),
        2 => shapes::teeth(n, |_| 1.0 + r.between(0, 6) as f64),
        3 => shapes::staircase(n),
        4 => shapes::keyholes((n / 7).max(1).min(72)),
        _ => shapes::round_keyhole((n / 2).max(3).min(255)),
    };
    if r.one_in(2) {
        draw::fit(r, &mut ring);
    }
    ring
}

fn scattered(r: &mut Random, n: usize) -> Ring {
    let how = r.below(3);
    let mut ring: Ring = (0..n)
        .map(|_| match how {
            0 => (r.unit(), r.unit()),
            1 => (r.between(0, 6) as f64, r.between(0, 6) as f64),
            _ => (numbers::coordinate(r), numbers::coordinate(r)),
        })
        .collect();
    if how < 2 {
        draw::fit(r, &mut ring);
    }
    ring
}

fn zigzag(r: &mut Random, n: usize) -> Ring {
    let mut ring = match r.below(3) {
        0 => shapes::zigzag(n, |i| i as f64),
        1 => shapes::zigzag(n, |_| r.unit() * 100.0),
        _ => shapes::zigzag(n, |_| r.between(0, 4) as f64),
    };
    if r.one_in(3) {
        draw::fit(r, &mut ring);
    }
    ring
}

/// Heights a few 1e-16 apart, or less, about zero or not, with some that are far from these.
fn thin_bands(r: &mut Random, n: usize) -> Ring {
    let about = r.pick(&[0.0, 0.0, 0.0, 0.25, 1.0, -3.0]);
    let unit = r.pick(&[1e-16, 2.5e-16, 5e-16, 1e-15, 1e-15_f64.next_down(), 7e-16]);
    let x_unit = r.pick(&[1.0, 1.0, 0.1, 1e-9, 1.5e-16, MOST / 8.0, MOST / 8.0]);
    let far = if r.one_in(2) { 0 } else { r.between(2, 6) };
    (0..n)
        .map(|i| {
            let x = r.between(-8, 8) as f64 * x_unit;
            let y = match r.below(8) {
                _ if far > 0 && i as i64 % far == 0 => r.between(-3, 3) as f64,
                0 => r.pick(&[1e-30, 1e-22, 1e-21, 5e-324, 1e-300, 2e-301, -1e-30, -1e-24]),
                _ => about + r.between(-4, 4) as f64 * unit,
            };
            (x, y)
        })
        .collect()
}

/// Heights that are neighbours among the floats.
fn neighbours(r: &mut Random, n: usize) -> Ring {
    let from = r.pick(&[8.0, 8.0, 4.0, 4.5, 9.0, 1000.25, -8.0, -100.0, 524_288.0]);
    let (wide, how) = (r.between(1, 5), r.below(3));
    (0..n)
        .map(|_| {
            let steps = r.between(0, wide);
            let x = match how {
                0 => r.between(-3, 3) as f64,
                1 => r.unit(),
                _ => numbers::nudge(from, steps),
            };
            let steps = r.between(0, wide);
            (x, numbers::nudge(from, steps))
        })
        .collect()
}

/// Zeros of both signs, and small whole numbers.
fn zeros(r: &mut Random, n: usize) -> Ring {
    if r.one_in(2) {
        return (0..n).map(|_| (r.pick(&[0.0, -0.0, 1.0, -1.0]), r.pick(&[0.0, -0.0, 1.0, -1.0]))).collect();
    }
    let mut ring = along_axes(r, n);
    let zero = |r: &mut Random, x: f64| if x.abs() < 1.5 { numbers::signed(r, 0.0) } else { x };
    ring.iter_mut().for_each(|(x, y)| (*x, *y) = (zero(r, *x), zero(r, *y)));
    ring
}

/// Two to four points, then some by turns on both sides of the first, each close to it and no two to each other: cleaning drops the last, and again the next.
fn nearly_closed(r: &mut Random) -> Ring {
    let n = r.between(2, 4) as usize;
    let mut ring = scattered(r, n);
    turn(r, &mut ring);
    let first = ring[0];
    ring.iter_mut().for_each(|(x, y)| (*x, *y) = (*x - first.0, *y - first.1));
    let mut near = numbers::signed(r, 1.5e-16);
    let off = r.pick(&[0.0, 0.0, 1e-16, -0.0]);
    for _ in 0..r.between(1, 3) {
        ring.push(if r.one_in(8) { (off, near) } else { (near, off) });
        near = -near;
    }
    ring
}

/// From another point on, in the other direction, left and right exchanged, x and y exchanged.
fn turn(r: &mut Random, ring: &mut Ring) {
    if !ring.is_empty() && r.one_in(2) {
        let first = r.below(ring.len());
        ring.rotate_left(first);
    }
    if r.one_in(2) {
        ring.reverse();
    }
    if r.one_in(2) {
        ring.iter_mut().for_each(|point| point.0 = -point.0);
    }
    if r.one_in(6) {
        ring.iter_mut().for_each(|point| *point = (point.1, point.0));
    }
}
