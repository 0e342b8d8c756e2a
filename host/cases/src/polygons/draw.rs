//! Rings of every shape, direction, size and place; some are written by hand, some are damaged.
use super::{repeats, room, shapes, simple, Call, Job};
use crate::expected::polygons::kept;
use crate::numbers::{self, MOST};
use crate::random::Random;
use crate::rings::{self, Ring};

/// Their own numbers among the calls, so that no other call draws the same.
const STREAMS: u64 = 1001;

const SHAPES: [&[(f64, f64)]; 8] = [
    // The computed difference is 2^-52, the exact one below it.
    &[(f64::EPSILON, 0.0), (1.232595164407831e-32, 0.0)],
    &[(0.0, 0.0), (f64::EPSILON, 0.0), (0.0, f64::EPSILON), (-0.0, 1.5e-16)],
    // Cleaned once it has three points, cleaned again two.
    &[(0.0, 0.0), (0.5, 1.0), (-1.5e-16, 0.0), (1.5e-16, 0.0)],
    // Each point is close to the one before it, and the last is far from the first.
    &[(0.0, 0.0), (1.5e-16, 0.0), (3e-16, 0.0), (4.5e-16, 0.0), (6e-16, 0.0)],
    &[(1.0, 1.0), (1.0, 1.0)],
    &[(1.0, 1.0), (1.0, 1.0), (1.0, 1.0), (2.0, 2.0), (1.0, 1.0), (1.0, 1.0)],
    // A triangle gone round twice, and an eight through one point.
    &[(0.0, 0.0), (1.0, 0.0), (0.0, 1.0), (0.0, 0.0), (1.0, 0.0), (0.0, 1.0)],
    &[(0.0, 0.0), (2.0, 0.0), (1.0, 1.0), (2.0, 2.0), (0.0, 2.0), (1.0, 1.0)],
];

/// Those of `rings`, those above, and large ones.
const BY_HAND: usize = rings::BY_HAND + SHAPES.len() + LARGE;

pub fn job(call: Call, seed: u64, number: u64) -> Job {
    let r = &mut Random::of_case(seed, STREAMS + call as u64, number);
    let is_by_hand = number < BY_HAND as u64;
    let (xs, ys) = if is_by_hand { by_hand(r, number as usize).into_iter().unzip() } else { lists(r, number) };
    let points = kept(&xs, &ys);
    let corners = match call {
        Call::DedupRing => 0,
        Call::TriangulatePolygon => 3 * points.saturating_sub(2),
    };
    if is_by_hand {
        return Job { call, xs, ys, room: [points; 2], corners };
    }
    let room = room::ring(r, points);
    let corners = if corners == 0 { 0 } else { room::list(r, corners) };
    Job { call, xs, ys, room, corners }
}

fn by_hand(r: &mut Random, number: usize) -> Ring {
    if number < rings::BY_HAND {
        return rings::ring(r, number as u64);
    }
    let place = number - rings::BY_HAND;
    SHAPES.get(place).map_or_else(|| large(place - SHAPES.len()), |shape| shape.to_vec())
}

const LARGE: usize = 6;

/// Rings of about 512 points.
fn large(place: usize) -> Ring {
    match place {
        0 => shapes::circle(512),
        1 => shapes::star(512),
        2 => shapes::comb(512),
        3 => shapes::spiral(512, 16),
        4 => shapes::crossing(512, 3),
        _ => shapes::keyholes(72),
    }
}

/// The two lists of a ring, some of them damaged.
fn lists(r: &mut Random, number: u64) -> (Vec<f64>, Vec<f64>) {
    let mut ring = ring(r, number);
    if r.one_in(40) {
        rings::lengthen(r, &mut ring);
    }
    let (mut xs, mut ys): (Vec<f64>, Vec<f64>) = ring.into_iter().unzip();
    if r.one_in(20) {
        rings::spoil(r, &mut xs, &mut ys);
    }
    if r.one_in(30) {
        rings::unequal(r, &mut xs, &mut ys);
    }
    (xs, ys)
}

/// A ring of admitted coordinates.
pub fn ring(r: &mut Random, number: u64) -> Ring {
    let n = count(r);
    let mut ring = match r.below(5) {
        0 => rings::ring(r, number),
        1 => shape(r, n),
        _ => simple::draw(r, n),
    };
    if r.one_in(8) {
        on_edges(r, &mut ring);
    }
    if !ring.is_empty() {
        let first = r.below(ring.len());
        ring.rotate_left(first);
    }
    if r.one_in(2) {
        ring.reverse();
    }
    fit(r, &mut ring);
    match r.below(6) {
        0 => repeats::anywhere(r, &mut ring),
        1 => repeats::at_origin(r, &mut ring),
        _ => {}
    }
    ring.truncate(512);
    clamp(&mut ring);
    ring
}

pub fn clamp(ring: &mut Ring) {
    ring.iter_mut().for_each(|(x, y)| (*x, *y) = (x.clamp(-MOST, MOST), y.clamp(-MOST, MOST)));
}

fn count(r: &mut Random) -> usize {
    match r.below(200) {
        0..=9 => r.below(3),
        10..=39 => 3,
        40..=69 => 4,
        70..=169 => r.between(5, 16) as usize,
        170..=194 => r.between(17, 64) as usize,
        195..=197 => r.between(65, 510) as usize,
        _ => r.between(511, 512) as usize,
    }
}

fn shape(r: &mut Random, n: usize) -> Ring {
    match r.below(8) {
        0 => shapes::circle(n),
        1 => shapes::star(n),
        2 => shapes::comb(n),
        3 => {
            let a_turn = r.pick(&[4, 8, 16]);
            shapes::spiral(n, a_turn)
        }
        4 => shapes::crossing(n.max(5), r.between(2, 4) as usize),
        5 => shapes::keyholes((n / 7).max(1).min(72)),
        6 => crossed(r, n),
        _ => around_a_hole(r, n),
    }
}

/// A simple polygon of which two points are exchanged.
fn crossed(r: &mut Random, n: usize) -> Ring {
    let mut ring = simple::draw(r, n);
    if !ring.is_empty() {
        let [a, b] = [r.below(ring.len()), r.below(ring.len())];
        ring.swap(a, b);
    }
    ring
}

/// A star with a star cut out, joined by a doubled edge, or by two that leave a slit, or cross.
fn around_a_hole(r: &mut Random, n: usize) -> Ring {
    let slit = r.pick(&[0.0, 0.0, 1e-16, 1e-15, 1e-9, 0.01]);
    let slit = numbers::signed(r, slit);
    let mut ring = shapes::around((n / 2).max(3), |_| 1.0 + r.unit());
    let mut hole = shapes::around((n / 2).max(3), |_| 0.1 + 0.3 * r.unit());
    hole.reverse();
    let (outer, inner) = (ring[0], hole[0]);
    ring.push((outer.0, outer.1 + slit));
    hole[0].1 += slit;
    ring.extend(hole);
    ring.push(inner);
    ring
}

/// Some edges get their middle as a point.
fn on_edges(r: &mut Random, ring: &mut Ring) {
    for _ in 0..r.between(1, 4) {
        if ring.is_empty() {
            return;
        }
        let i = r.below(ring.len());
        let (a, b) = (ring[i], ring[(i + 1) % ring.len()]);
        ring.insert(i + 1, ((a.0 + b.0) / 2.0, (a.1 + b.1) / 2.0));
    }
}

/// As drawn, or of a size from 1e-18 to 2^20; about the origin, or so far from it that only the last digits differ.
pub fn fit(r: &mut Random, ring: &mut Ring) {
    if r.one_in(3) {
        return;
    }
    let widest = ring.iter().fold(0.0, |most: f64, (x, y)| most.max(x.abs()).max(y.abs()));
    if widest == 0.0 {
        return;
    }
    let size = match r.below(4) {
        0 => r.pick(&[MOST, MOST, 1000.0, 1.0, 1e-6, 1e-9]),
        1 => r.pick(&[1e-18, 1e-16, f64::EPSILON, 4e-16, 7e-16, 1e-15, 3e-15, 1e-14, 1e-13, 1e-12]),
        _ => {
            let power = r.between(-59, 19);
            numbers::of_power(r, power)
        }
    };
    let far = if r.one_in(4) { size * (1u64 << r.between(0, 50)) as f64 } else { 0.0 };
    let less = far * r.unit();
    let (x0, y0) = (numbers::signed(r, far), numbers::signed(r, less));
    ring.iter_mut().for_each(|(x, y)| (*x, *y) = (*x / widest * size + x0, *y / widest * size + y0));
}
