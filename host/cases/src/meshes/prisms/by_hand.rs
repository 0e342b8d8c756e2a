//! Prisms at the limits.
use super::{filled, filling};
use crate::meshes::{lengths, Call, Job, Solid};
use crate::numbers::MOST;
use crate::polygons::shapes::{self, CROSSED, DART, KEYHOLE, L};
use crate::rings::Ring;
use crate::solids::{self, POINTS_MOST};

/// The next floats after 8, each more than 1e-15 from the one before.
const NEAR_8: [f64; 3] = [8.0_f64.next_up(), 8.0_f64.next_up().next_up(), 8.0_f64.next_up().next_up().next_up()];

/// 1e-15, the float below it, and the one above its half.
const GAP: f64 = 1e-15;
const BELOW_GAP: f64 = GAP.next_down();
const ABOVE_HALF: f64 = (GAP / 2.0).next_up();

/// Each with lists that it fills.
const RINGS: [&[(f64, f64)]; 44] = [
    &[],
    &[(1.0, 2.0)],
    &[(0.0, 0.0), (1.0, 1.0)],
    &[(0.0, 0.0), (2.0, 0.0), (2.0, 2.0), (0.0, 2.0)],
    &DART,
    &L,
    &KEYHOLE,
    &CROSSED,
    &[(0.0, 0.0), (0.0, 1.0), (1.0, 0.0)],
    &[(0.0, 0.0), (1.0, 1.0), (2.0, 2.0)],
    &[(0.0, 0.0), (1.0, 1.0), (2.0, 2.0), (3.0, 3.0)],
    &[(0.0, 0.0), (1.0, 1.0), (1.0, 0.0), (0.0, 1.0)],
    &[(0.0, 0.0), (0.0, 1.0), (0.0, 2.0)],
    &[(0.0, 0.0), (1.0, 0.0), (2.0, 0.0)],
    // Cleaned once it has one point more than cleaned again: clipped, and by the scanline, since two are left.
    &[(0.0, 0.0), (2.0, 1.0), (1.0, 2.0), (-1.5e-16, 0.0), (1.5e-16, 0.0)],
    &[(0.0, 0.0), (0.5, 1.0), (-1.5e-16, 0.0), (1.5e-16, 0.0)],
    // Cleaned once, two are left.
    &[(0.0, 0.0), (0.5, 1.0), (-1.5e-16, 0.0)],
    // An edge that ends within a band of 1e-15 is extended to its ends: the two of docs/DIFFERENCES.md; each other corner past 2^20; nodes at 2^20, one
    // float past it and at -2^20.
    &[(0.0, 0.0), (524289.0, 5e-16), (0.0, 1e-15)],
    &[(1.0, 5e-16), (1.0, 1e-30), (0.0, 0.0), (0.0, -5e-16)],
    &[(0.0, 0.0), (-524289.0, 5e-16), (0.0, 1e-15)],
    &[(0.0, 0.0), (524289.0, ABOVE_HALF), (0.0, GAP)],
    &[(0.0, 0.0), (-524289.0, ABOVE_HALF), (0.0, GAP)],
    &[(0.0, 0.0), (MOST / 2.0, GAP / 2.0), (0.0, GAP)],
    &[(0.0, 0.0), ((MOST / 2.0).next_up(), GAP / 2.0), (0.0, GAP)],
    &[(0.0, 0.0), (0.0, GAP), (-MOST / 2.0, GAP / 2.0)],
    // Levels 1e-15 apart, and a float less.
    &[(0.0, 0.0), (1.0, 0.0), (1.0, GAP), (0.0, GAP)],
    &[(0.0, 0.0), (1.0, 0.0), (1.0, BELOW_GAP), (0.0, BELOW_GAP)],
    &[(0.0, 0.0), (1.0, 0.0), (1.0, BELOW_GAP), (0.0, 2.0 * BELOW_GAP)],
    // The middle is the band's high end, and its low end; a point is there.
    &[(0.0, NEAR_8[0]), (1.0, NEAR_8[0]), (1.0, NEAR_8[1]), (0.0, NEAR_8[1])],
    &[(0.0, 8.0), (1.0, 8.0), (1.0, NEAR_8[0]), (0.0, NEAR_8[0])],
    &[(0.0, 8.0), (1.0, NEAR_8[0]), (2.0, NEAR_8[1]), (1.0, NEAR_8[2])],
    &[(0.0, -5e-16), (1.0, 0.0), (2.0, -5e-16), (1.0, 5e-16), (0.5, 5e-324)],
    &[(0.0, -5e-16), (1.0, 5e-324), (1.0, 0.0), (2.0, 5e-16), (0.0, 5e-16)],
    // Zeros of both signs; the first of two is kept.
    &[(-0.0, 0.0), (1.0, -0.0), (1.0, 1.0), (-0.0, 1.0)],
    &[(-0.0, -0.0), (1.0, 0.0), (1.0, 1.0), (0.0, 1.0), (-0.0, 0.5)],
    &[(-1.0, -1.0), (-0.0, -1.0), (-0.0, -0.0), (-1.0, 0.0)],
    // A slit of no width, and quads that are flat.
    &[(0.0, 0.0), (2.0, 0.0), (2.0, 1.0), (1.0, 1.0), (1.0, 0.5), (1.0, 1.0), (0.0, 1.0)],
    &[(0.0, 0.0), (1e-15, 0.0), (1e-15, 1e-15), (0.0, 1e-15)],
    &[(0.0, 0.0), (1.1e-15, 0.0), (1.1e-15, 1e-15), (0.0, 1e-15)],
    // As wide as may be, and slanted by the tolerance and by more.
    &[(-MOST, -MOST), (MOST, -MOST), (MOST, MOST), (0.0, MOST), (0.0, 0.0), (-MOST, 0.0)],
    &[(-MOST, -MOST), (MOST, -MOST), (0.0, MOST)],
    &[(0.0, 0.0), (1.0, 1e-9), (1.0, 1.0), (0.0, 1.0)],
    &[(0.0, 0.0), (1.0, 1.1e-9), (1.0, 1.0), (0.0, 1.0)],
    // A triangle gone round twice.
    &[(0.0, 0.0), (1.0, 0.0), (0.0, 1.0), (0.0, 0.0), (1.0, 0.0), (0.0, 1.0)],
];

const LARGE: usize = 13;

/// Rings of about 512 points.
fn large(place: usize) -> Ring {
    match place {
        0 => shapes::square_comb(512),
        1 => shapes::mirrored(shapes::square_comb(512)),
        2 => shapes::dense_comb(512),
        3 => shapes::mirrored(shapes::dense_comb(512)),
        4 => shapes::zigzag(512, |i| i as f64),
        5 => shapes::zigzag(512, |i| -(i as f64)),
        6 => shapes::zigzag(512, |i| i as f64 * 201.0 % 512.0),
        7 => shapes::round_keyhole(250),
        8 => shapes::staircase(512),
        9 => shapes::keyholes(72),
        10 => shapes::circle(512),
        11 => shapes::scattered(512),
        _ => shapes::square_comb(513),
    }
}

/// Counts about a mesh's most, and the room for nodes and for elements; the L adds 16 nodes and 4 elements.
const COUNTS: [([usize; 2], [usize; 2]); 10] = [
    ([1_048_560, 0], [1_048_576, 4]),
    ([1_048_561, 0], [1_048_600, 4]),
    ([1_048_561, 0], [1_048_576, 4]),
    ([1_048_577, 0], [1_048_600, 4]),
    ([0, 1_048_572], [16, 1_048_576]),
    ([0, 1_048_573], [16, 1_048_600]),
    ([0, 1_048_573], [16, 1_048_576]),
    ([0, 1_048_577], [16, 1_048_600]),
    ([usize::MAX, 0], [16, 4]),
    ([0, usize::MAX], [16, 4]),
];

/// The heights of the L.
const HEIGHTS: [[f64; 2]; 12] = [
    [0.0, 5e-324], [-5e-324, 0.0], [-0.0, 5e-324], [-MOST, MOST], [0.0, -0.0], [-0.0, 0.0], [1.0, 1.0], [2.0, 1.0],
    [0.0, MOST.next_up()], [f64::NEG_INFINITY, 0.0], [0.0, f64::NAN], [f64::NAN, 0.0],
];

/// Lengths of the point lists, and where a part of three points starts; the last ends past them.
const LONG: [(usize, u32); 4] = [
    (POINTS_MOST, 1), (POINTS_MOST + 1, 1), (POINTS_MOST, POINTS_MOST as u32 - 3), (POINTS_MOST, POINTS_MOST as u32 - 2),
];

pub fn job(call: Call, number: u64) -> Option<Job> {
    let place = number as usize;
    if let Some(ring) = RINGS.get(place) {
        return Some(filling(call, ring));
    }
    let place = place - RINGS.len();
    if place < LARGE {
        return Some(filling(call, &large(place)));
    }
    let place = place - LARGE;
    if let Some((counts, [nodes, kinds])) = COUNTS.get(place) {
        return Some(Job { counts: *counts, lengths: lengths(*nodes, *kinds), ..filling(call, &L) });
    }
    let place = place - COUNTS.len();
    if let Some(heights) = HEIGHTS.get(place) {
        return Some(filled(Job { solid: Solid::Prism { heights: *heights, start: 0, count: 6 }, ..filling(call, &L) }));
    }
    let (length, start) = LONG.get(place - HEIGHTS.len())?;
    let solid = Solid::Prism { heights: [0.0, 1.0], start: *start, count: 3 };
    let (xs, ys) = (solids::long(0, *length), solids::long(1, *length));
    Some(filled(Job { solid, xs, ys, ..filling(call, &[]) }))
}
