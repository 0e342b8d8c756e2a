//! Boxes of random shape, size and place, in meshes with room or without; some are damaged.
use super::job_of;
use crate::axes;
use crate::case::List;
use crate::meshes::{lists, Call, Job, Solid};
use crate::numbers;
use crate::rules::meshes::boxes::{self as rules, sizes};
use crate::random::Random;
use crate::rings;
use crate::solids;

/// Their own numbers among the calls, so that no other call draws the same.
const STREAMS: u64 = 1101;

/// A box with more nodes gets no room, but for the large ones.
const NODES: f64 = 40_000.0;
const LARGE: f64 = 1_200_000.0;

pub fn job(call: Call, seed: u64, number: u64) -> Job {
    let r = &mut Random::of_case(seed, STREAMS + call as u64, number);
    let large = r.one_in(1000);
    let [nx, ny, nz] = if large { std::array::from_fn(|_| r.between(20, 120)) } else { cells(r) };
    let ([min_x, max_x, across], [z_bottom, z_top, up]) = (axes::axis(r, nx), axes::axis(r, nz));
    let [min_y, max_y] = axes::ends(r, across, ny);
    let (mut bounds, mut cells) = ([min_x, min_y, max_x, max_y, z_bottom, z_top], [across, up]);
    let mut job = Job { material: r.below(769) as u32, region: lists::region(r), counts: lists::counts(r), ..job_of(call, bounds, cells) };
    let nodes: f64 = rules::axes(&bounds, &cells).iter().map(|n| n + 1.0).product();
    let most = if large { LARGE } else { NODES };
    job.lengths = lists::room(r, job.counts, (nodes <= most).then(|| sizes(&bounds, &cells)));
    if r.one_in(1500) && nodes <= NODES {
        lists::near_most(r, &mut job.counts, &mut job.lengths, sizes(&bounds, &cells));
    }
    let odds = if r.one_in(8) { 3 } else { 24 };
    lists::spoil(r, &mut job, odds);
    spoil(r, &mut bounds, &mut cells, odds);
    let mut job = Job { solid: Solid::Box(bounds), cells, ..job };
    if call == Call::MeshBoxRegion {
        job.labels = lists::labels(r);
        (job.xs, job.ys) = points(r, odds);
    }
    job
}

/// How many cells on each axis: mostly few; or many on one of them.
fn cells(r: &mut Random) -> [i64; 3] {
    let mut cells = match r.below(20) {
        0 | 1 => return [1; 3],
        2..=14 => std::array::from_fn(|_| r.between(1, 5)),
        15..=17 => std::array::from_fn(|_| r.between(1, 14)),
        _ => std::array::from_fn(|_| r.between(1, 2)),
    };
    match r.below(40) {
        0 => cells[r.below(3)] = r.between(axes::CELLS_MOST - 1, axes::CELLS_MOST + 1),
        1 => cells[r.below(3)] = r.between(1, 600),
        _ => {}
    }
    cells
}

/// Each damage with these odds.
fn spoil(r: &mut Random, bounds: &mut [f64; 6], cells: &mut [f64; 2], odds: usize) {
    if r.one_in(odds) {
        // x, y, z.
        let (low, high) = r.pick(&[(0, 2), (1, 3), (4, 5)]);
        [bounds[low], bounds[high]] = axes::bad_ends(r, bounds[low], bounds[high]);
    }
    if r.one_in(odds) {
        bounds[r.below(6)] = numbers::outside(r);
    }
    if r.one_in(odds) {
        cells[r.below(2)] = axes::bad_cell(r);
    }
}

/// Point lists that are not looked at, but for their lengths.
fn points(r: &mut Random, odds: usize) -> (List, List) {
    if r.one_in(60) {
        return solids::long_pair(r);
    }
    let n = r.below(6);
    let (mut xs, mut ys) = (solids::noise(r, n), solids::noise(r, n));
    if r.one_in(odds) {
        rings::unequal(r, &mut xs, &mut ys);
    }
    (xs.into(), ys.into())
}
