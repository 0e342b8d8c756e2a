//! Prisms on random rings, in meshes with room or without; some are damaged.
use super::{filling, rings};
use crate::expected::meshes::prism_sizes;
use crate::meshes::{lists, Call, Job, Solid};
use crate::numbers::{self, MOST};
use crate::random::Random;
use crate::rings as all_rings;
use crate::solids;

/// Their own numbers among the calls, so that no other call draws the same.
const STREAMS: u64 = 1201;

pub fn job(call: Call, seed: u64, number: u64) -> Job {
    let r = &mut Random::of_case(seed, STREAMS + call as u64, number);
    let odds = if r.one_in(8) { 4 } else { 40 };
    let mut job = if r.one_in(300) { on_long_lists(r, call) } else { on_ring(r, call, odds) };
    let more = prism_sizes(&job);
    (job.material, job.region, job.counts) = (r.below(769) as u32, lists::region(r), lists::counts(r));
    job.lengths = lists::room(r, job.counts, more);
    match more {
        Some(more) if r.one_in(1500) => lists::near_most(r, &mut job.counts, &mut job.lengths, more),
        _ => {}
    }
    lists::spoil(r, &mut job, odds);
    if call.is_on_region() {
        job.labels = lists::labels(r);
        job.cells = [numbers::any(r), numbers::any(r)];
    }
    job
}

/// A ring amid numbers that are not looked at, each damage with these odds.
fn on_ring(r: &mut Random, call: Call, odds: usize) -> Job {
    let mut ring = rings::draw(r);
    if r.one_in(odds) {
        all_rings::lengthen(r, &mut ring);
    }
    let (mut part_xs, mut part_ys): (Vec<f64>, Vec<f64>) = ring.into_iter().unzip();
    if r.one_in(odds) {
        all_rings::spoil(r, &mut part_xs, &mut part_ys);
    }
    let (before, after, count) = (r.below(4), r.below(3), part_xs.len());
    let mut xs = [solids::noise(r, before), part_xs, solids::noise(r, after)].concat();
    let mut ys = [solids::noise(r, before), part_ys, solids::noise(r, after)].concat();
    if r.one_in(odds) {
        all_rings::unequal(r, &mut xs, &mut ys);
    }
    let (start, count) = if r.one_in(odds) { solids::other_part(r, xs.len()) } else { (before as u32, count as u32) };
    let solid = Solid::Prism { heights: heights(r, odds), start, count };
    Job { solid, xs: xs.into(), ys: ys.into(), ..filling(call, &[]) }
}

/// A part of the longest lists.
fn on_long_lists(r: &mut Random, call: Call) -> Job {
    let (xs, ys) = solids::long_pair(r);
    let count = r.pick(&[3, 4, 5, 100, 512, 513]);
    let start = r.pick(&[1, 400_001, xs.len() as u32 - 900, xs.len() as u32 - count]);
    Job { solid: Solid::Prism { heights: [0.0, 1.0], start, count }, xs, ys, ..filling(call, &[]) }
}

/// The top is above the bottom, but for the damage.
pub fn heights(r: &mut Random, odds: usize) -> [f64; 2] {
    let [a, b] = solids::heights(r);
    let mut heights = if a < b { [a, b] } else if b < a { [b, a] } else { [a, (a + 1.0).min(MOST)] };
    if r.one_in(odds) {
        heights = r.pick(&[[a, a], [heights[1], heights[0]], [0.0, -0.0], [-0.0, 0.0], [a, b]]);
    }
    if r.one_in(odds) {
        heights[r.below(2)] = numbers::outside(r);
    }
    heights
}
