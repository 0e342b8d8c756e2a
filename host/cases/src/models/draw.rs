//! Models of random regions, in meshes with room or without; some are damaged.
use super::{rows, spoil, Call, Job, Overrides};
use crate::axes;
use crate::expected::models::sizes;
use crate::meshes::lists;
use crate::numbers;
use crate::polygons::room;
use crate::random::Random;
use crate::regions::{Regions, Row};
use crate::solids;

/// Their own numbers among the calls, so that no other call draws the same.
const STREAMS: u64 = 1301;

/// A model while its regions are drawn.
pub struct Sketch {
    /// Those of its regions.
    pub materials: Vec<u32>,
    pub overrides: Overrides,
    pub cells: [f64; 2],
    pub xs: Vec<f64>,
    pub ys: Vec<f64>,
    /// The rings in the point lists.
    pub parts: Vec<(u32, u32)>,
}

impl Sketch {
    /// The cell sizes of a material.
    pub fn cells_of(&self, material: u32) -> [f64; 2] {
        self.overrides.of(material).last().unwrap_or(self.cells)
    }
}

pub fn job(call: Call, seed: u64, number: u64) -> Job {
    let r = &mut Random::of_case(seed, STREAMS + call as u64, number);
    let mut sketch = sketch(r, call);
    let rows = regions(r, &mut sketch);
    let n = rows.len();
    let (xs, ys) = if r.one_in(400) { solids::long_pair(r) } else { (sketch.xs.into(), sketch.ys.into()) };
    let mut job = Job {
        call,
        regions: Regions::of(&rows),
        xs,
        ys,
        overrides: sketch.overrides,
        cells: sketch.cells,
        counts: [0; 2],
        lengths: [0; 6],
        diagnostics: if r.one_in(2) { n } else { room::list(r, n).max(n) },
    };
    lend(r, &mut job);
    if r.one_in(5) {
        spoil::job(r, &mut job);
    }
    job
}

/// Materials, among them 0 and the largest, and cell sizes for some of them.
fn sketch(r: &mut Random, call: Call) -> Sketch {
    let any = 1 + r.below(768) as u32;
    let mut materials = vec![0, 1, 2, 768, any];
    r.shuffle(&mut materials);
    materials.truncate(1 + r.below(5));
    let odds = if r.one_in(5) { 3 } else { 60 };
    let sizes = cells(r, odds);
    let mut overrides = Overrides::default();
    if call.has_overrides() {
        let many = if r.one_in(200) { r.pick(&[300, 4095, 4096]) } else { r.below(7) };
        for _ in 0..many {
            // Often the same material again; or one that no region has.
            let material = if r.one_in(4) { 1 + r.below(768) as u32 } else { r.pick(&materials).max(1) };
            overrides.push(material, cells(r, odds));
        }
    }
    Sketch { materials, overrides, cells: sizes, xs: vec![], ys: vec![], parts: vec![] }
}

/// Two cell sizes, each bad with these odds.
fn cells(r: &mut Random, odds: usize) -> [f64; 2] {
    std::array::from_fn(|_| match r.below(4) {
        _ if r.one_in(odds) => axes::bad_cell(r),
        0 => axes::cell(r),
        1 => r.pick(&[1e-6, 0.1e-6]),
        _ => r.pick(&[1.0, 0.5, 0.25, 0.1, 2.0]),
    })
}

fn count(r: &mut Random) -> usize {
    match r.below(2000) {
        0 => r.between(4095, 4097) as usize,
        1..=8 => r.between(100, 700) as usize,
        9..=60 => 0,
        61..=300 => 1,
        301..=1500 => r.between(2, 8) as usize,
        _ => r.between(9, 24) as usize,
    }
}

/// The regions; in most models the Rust knows why each refused one is refused.
fn regions(r: &mut Random, sketch: &mut Sketch) -> Vec<Row> {
    let n = count(r);
    let flat = if r.one_in(3) { Some(r.pick(&[2, 6, n.max(1)])) } else { None };
    let odds = if r.one_in(5) { Some(r.pick(&[2, 6, 20, n.max(1)])) } else { None };
    let mut rows = vec![];
    for _ in 0..n {
        let mut row = rows::row(r, sketch, n);
        if flat.is_some_and(|odds| r.one_in(odds)) {
            spoil::flat(r, &mut row);
        }
        if odds.is_some_and(|odds| r.one_in(odds)) {
            spoil::row(r, &mut row, sketch);
        }
        rows.push(row);
    }
    if r.one_in(3) {
        sketch.xs.push(numbers::any(r));
        sketch.ys.push(numbers::any(r));
    }
    rows
}

/// Counts, mostly none, and lists of the mesh that are exactly full then, or longer, or full in the middle; some are damaged.
fn lend(r: &mut Random, job: &mut Job) {
    let more = sizes(job);
    if r.one_in(6) {
        job.counts = lists::counts(r);
    }
    job.lengths = lists::room(r, job.counts, Some(more));
    if r.one_in(800) {
        lists::near_most(r, &mut job.counts, &mut job.lengths, more.map(|n| n.max(1)));
    }
    let odds = if r.one_in(8) { 4 } else { 60 };
    lists::spoil_mesh(r, &mut job.counts, &mut job.lengths, odds);
}
