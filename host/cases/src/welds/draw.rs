//! Meshes of few coordinates, so that keys join, of random elements; and meshes that the Rust made. Some are damaged.
use super::{made, spoil, used, Call, Job, Mesh};
use crate::meshes::lists;
use crate::numbers::{self, MOST};
use crate::rules::welds::kept;
use crate::random::Random;

/// Their own numbers among the calls, so that no other call draws the same.
const STREAMS: u64 = 1401;

/// 2^-43: 2^20 has the quotient 2^63, one more than the largest key.
const OF_CAP: f64 = 1.0 / (1u64 << 43) as f64;

const USUAL: [f64; 10] = [1.0, 1.0, 0.5, 0.25, 3.0, 0.1, 1e-3, 1e-6, 1e-9, 1e-12];
const RARE: [f64; 11] = [
    5e-324, 1e-323, 1e-300, 1e-310, f64::MIN_POSITIVE, 1e-15, OF_CAP, OF_CAP / 2.0, OF_CAP * 3.0, MOST, MOST.next_down(),
];

/// Sizes of coordinates; at the last four the squares of an area lose bits, or are nothing.
const SIZES: [f64; 10] = [1.0, 1.0, 1e-6, 1e-9, 512.0, MOST, 1e-77, 1e-80, 2e-81, 1e-90];

pub fn job(call: Call, seed: u64, number: u64) -> Job {
    let r = &mut Random::of_case(seed, STREAMS + call as u64, number);
    let mut tolerance = tolerance(r);
    let is_made = r.one_in(5);
    let mesh = if is_made {
        let (mesh, size) = made::mesh(r, call);
        if !r.one_in(4) {
            tolerance = size * r.pick(&[1.0, 0.5, 0.7, 2.0, 0.1, 1e-3, 1e-9, -1.0]);
        }
        mesh
    } else {
        random(r, call, tolerance)
    };
    let mut job = Job { call, mesh, is_made, tolerance, lengths: [0; 6] };
    if call.writes() {
        job.lengths = lists::room(r, [0; 2], Some([kept(&job.mesh, tolerance).len(), job.mesh.kinds.len()]));
    }
    let odds = if r.one_in(6) { 4 } else { 60 };
    spoil::job(r, &mut job, odds);
    job
}

fn tolerance(r: &mut Random) -> f64 {
    let x = match r.below(10) {
        0 => numbers::coordinate(r),
        1 => r.pick(&[0.0, -0.0]),
        2 | 3 => r.pick(&RARE),
        _ => r.pick(&USUAL),
    };
    if r.one_in(8) { -x } else { x }
}

fn random(r: &mut Random, call: Call, tolerance: f64) -> Mesh {
    let axes: [Vec<f64>; 3] = std::array::from_fn(|_| if call.writes() { about(r, tolerance) } else { sized(r) });
    let mut mesh = Mesh::default();
    for _ in 0..nodes(r) {
        mesh.push_node(axes.each_ref().map(|axis| r.pick(axis)));
    }
    if mesh.sizes()[0] > 0 {
        let kind = if r.one_in(3) { Some(r.below(4) as u8) } else { None };
        for _ in 0..elements(r) {
            let kind = kind.unwrap_or(r.below(4) as u8);
            element(r, &mut mesh, kind);
        }
    }
    mesh
}

fn nodes(r: &mut Random) -> usize {
    match r.below(1200) {
        0 => r.between(1000, 4000) as usize,
        1..=30 => 0,
        31..=60 => 1,
        61..=900 => r.between(2, 24) as usize,
        901..=1150 => r.between(25, 90) as usize,
        _ => r.between(91, 200) as usize,
    }
}

fn elements(r: &mut Random) -> usize {
    match r.below(20) {
        0 => 0,
        1 | 2 => 1,
        3..=15 => r.between(2, 8) as usize,
        _ => r.between(9, 60) as usize,
    }
}

/// An element at random nodes: all near each other in the list, some twice, or anywhere.
fn element(r: &mut Random, mesh: &mut Mesh, kind: u8) {
    let n = mesh.sizes()[0];
    let (from, among) = if r.one_in(2) { (r.below(n), r.between(1, 12) as usize) } else { (0, n) };
    let places: Vec<u32> = (0..used(kind).unwrap()).map(|_| ((from + r.below(among)) % n) as u32).collect();
    mesh.push_element(kind, &places, lists::region(r));
}

/// Few coordinates about multiples of the tolerance and about their halves.
fn about(r: &mut Random, tolerance: f64) -> Vec<f64> {
    let far = if r.one_in(6) { (r.word() >> r.between(12, 60)) as f64 } else { r.between(-4, 4) as f64 };
    (0..r.between(1, 6)).map(|_| beside(r, tolerance, far)).collect()
}

/// A coordinate about a multiple near this one.
fn beside(r: &mut Random, tolerance: f64, far: f64) -> f64 {
    let near = far + r.between(-1, 1) as f64;
    let x = match r.below(8) {
        0 => numbers::coordinate(r),
        1 => r.pick(&[0.0, -0.0, MOST, -MOST, MOST.next_down(), -MOST.next_down()]),
        2 => near * tolerance,
        3..=5 => (near + 0.5) * tolerance,
        _ => (near + r.pick(&[0.4, 0.6, -0.4, 0.25, 0.499, 0.501])) * tolerance,
    };
    let steps = if r.one_in(2) { 0 } else { r.between(-2, 2) };
    let x = numbers::nudge(x, steps);
    if x.abs() <= MOST { x } else { r.between(-4, 4) as f64 }
}

/// Coordinates of one size, few or many; some of any.
fn sized(r: &mut Random) -> Vec<f64> {
    let size = r.pick(&SIZES);
    let count = r.pick(&[2, 3, 6, 40]);
    let one = |r: &mut Random| match r.below(12) {
        0 => numbers::coordinate(r),
        1 => r.pick(&[0.0, -0.0, size, -size]),
        2..=4 => size * (r.between(-4, 4) as f64 / 4.0),
        _ => size * (2.0 * r.unit() - 1.0),
    };
    (0..count).map(|_| one(r)).collect()
}
