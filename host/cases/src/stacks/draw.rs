//! Random layouts over random stacks and maps; some jobs are written by hand.
use super::{layers, spoil, Job};
use crate::blocks::{Lent, Rows};
use crate::case::List;
use crate::numbers;
use crate::rules;
use crate::random::Random;
use crate::rings;
use crate::rows;
use crate::solids::{long, POINTS_MOST};

/// The most polygons of a job.
pub const POLYGONS_MOST: usize = 4096;

/// Jobs of 4,096 and 4,097 polygons, and of point lists of 2,097,152 and 2,097,153 entries.
const BY_HAND: u64 = 8;

/// Its own number among the calls, so that no other call draws the same.
const STREAM: u64 = 1000;

/// A job before it is lent; the blocks by their rows.
pub struct Sketch {
    pub blocks: Vec<Rows>,
    pub layers: Vec<i16>,
    pub polygons: [Vec<u32>; 3],
    pub xs: Vec<f64>,
    pub ys: Vec<f64>,
}

pub fn job(seed: u64, number: u64) -> Job {
    let r = &mut Random::of_case(seed, STREAM, number);
    let by_hand = number < BY_HAND;
    let is_long = number % 4 == 1 && by_hand || r.one_in(300);
    let mut sketch = Sketch {
        blocks: layers::draw(r, is_long),
        layers: vec![],
        polygons: Default::default(),
        xs: vec![],
        ys: vec![],
    };
    polygons(r, number, &mut sketch);
    let spoils = !by_hand && r.one_in(3);
    if spoils && r.one_in(3) {
        let stack = r.between(3, 4) as usize;
        rows::spoil_figure(r, &mut sketch.blocks[stack]);
    }
    let mut job = lent(r, number, sketch);
    if spoils {
        for _ in 0..r.between(1, 2) {
            spoil::job(r, &mut job);
        }
    }
    job
}

fn polygons(r: &mut Random, number: u64, sketch: &mut Sketch) {
    let count = match number {
        0 | 1 => POLYGONS_MOST,
        2 => POLYGONS_MOST + 1,
        _ => count(r),
    };
    for i in 0..count {
        sketch.layers.push(layer(r, &sketch.blocks[0]));
        sketch.polygons[0].push(if r.one_in(2) { r.pick(&[0, 1, 7, u32::MAX]) } else { r.word() as u32 });
        let (start, points) = part(r, i as u64, sketch);
        sketch.polygons[1].push(start);
        sketch.polygons[2].push(points);
    }
    for _ in 0..r.below(3) {
        sketch.xs.push(numbers::any(r));
        sketch.ys.push(numbers::any(r));
    }
}

fn count(r: &mut Random) -> usize {
    match r.below(3000) {
        0 => r.between(POLYGONS_MOST as i64 - 1, POLYGONS_MOST as i64 + 1) as usize,
        1..=100 => 0,
        101..=1500 => r.between(1, 6) as usize,
        _ => r.between(7, 24) as usize,
    }
}

/// A layer with a name mostly.
fn layer(r: &mut Random, names: &Rows) -> i16 {
    if r.one_in(8) { rows::layer_asked(r, names) } else { named_layer(r, names) }
}

fn named_layer(r: &mut Random, names: &Rows) -> i16 {
    match names {
        Rows::LayerNames(rows) if !rows.is_empty() => rows[r.below(rows.len())].0,
        _ => r.between(-2, 5) as i16,
    }
}

/// A ring of its own behind those that there are, or a part that overlaps with them.
fn part(r: &mut Random, i: u64, sketch: &mut Sketch) -> (u32, u32) {
    let len = sketch.xs.len();
    if len > 0 && r.one_in(6) {
        return earlier(r, sketch);
    }
    if r.one_in(6) {
        sketch.xs.push(numbers::any(r));
        sketch.ys.push(numbers::any(r));
    }
    let start = sketch.xs.len() as u32;
    // Past a hundred polygons the rings are short.
    let mut ring = rings::ring(r, rings::BY_HAND as u64 + i);
    if i > 100 {
        ring.truncate(8);
    }
    let count = ring.len() as u32;
    for (x, y) in ring {
        sketch.xs.push(x);
        sketch.ys.push(y);
    }
    (start, count)
}

/// The part of an earlier polygon, whole or without its first point.
fn earlier(r: &mut Random, sketch: &Sketch) -> (u32, u32) {
    let [_, starts, counts] = &sketch.polygons;
    let i = r.below(starts.len());
    match counts[i] {
        n if n > 0 && r.one_in(2) => (starts[i] + 1, n - 1),
        n => (starts[i], n),
    }
}

/// The job with room for all that it gives, or for just as much.
fn lent(r: &mut Random, number: u64, sketch: Sketch) -> Job {
    let n = sketch.layers.len();
    let (xs, ys) = match number {
        3 | 4 => (lengthened(&sketch.xs, POINTS_MOST), lengthened(&sketch.ys, POINTS_MOST)),
        5 => (lengthened(&sketch.xs, POINTS_MOST + 1), lengthened(&sketch.ys, POINTS_MOST + 1)),
        _ => (sketch.xs.into(), sketch.ys.into()),
    };
    let blocks = sketch.blocks.into_iter().map(Lent::block).collect();
    let mut job = Job { blocks, layers: sketch.layers, polygons: sketch.polygons, xs, ys, regions: [n; 12], outcomes: n };
    let rows = rules::stacks::answer(&job).map_or(n, |given| given.rows.len());
    match r.below(3) {
        0 => {}
        1 => job.regions = [rows; 12],
        _ => {
            job.regions = [rows + r.below(4); 12];
            job.outcomes += r.below(4);
        }
    }
    job
}

/// The list, and behind it numbers that no call looks at, up to this length.
fn lengthened(list: &[f64], length: usize) -> List {
    let mut all = list.to_vec();
    all.extend_from_slice(&long(0, length - list.len()));
    all.into()
}
