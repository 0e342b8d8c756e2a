//! The regions of a model: boxes of some cells of the sizes that they get, and prisms on rings that stand in the point lists.
use super::draw::Sketch;
use crate::axes;
use crate::meshes::prisms::{draw::heights, rings};
use crate::numbers;
use crate::rules::meshes::boxes::axes as cells_of;
use crate::random::Random;
use crate::regions::Row;
use crate::rings::Ring;
use crate::solids;

/// A box with more nodes is one of one cell instead, and so is a flat one mostly.
const NODES: f64 = 3000.0;

/// In a model of more regions than this, they are small.
const SOME: usize = 60;

/// The odds of a prism's heights that are damaged here: that is done elsewhere.
const RARELY: usize = 100_000;

/// A region of so many, before any damage.
pub fn row(r: &mut Random, sketch: &mut Sketch, n: usize) -> Row {
    let material = r.pick(&sketch.materials);
    let (net, polygon) = (r.word() as u32, r.pick(&[0, 1, u32::MAX]));
    let mut row = if r.one_in(2) { boxed(r, sketch, material, n) } else { prism(r, sketch, n) };
    [row.numbers[2], row.numbers[3], row.numbers[4]] = [material, net, polygon];
    row
}

/// With any start and count.
fn boxed(r: &mut Random, sketch: &Sketch, material: u32, n: usize) -> Row {
    let [across, up] = sketch.cells_of(material).map(|size| if size > 0.0 && size <= numbers::MOST { size } else { 1.0 });
    let [nx, ny, nz] = cells(r, n);
    let ([min_x, max_x], [min_y, max_y]) = (axes::ends(r, across, nx), axes::ends(r, across, ny));
    let [z_bottom, z_top] = axes::ends(r, up, nz);
    let mut bounds = [min_x, min_y, max_x, max_y, z_bottom, z_top];
    let nodes: f64 = cells_of(&bounds, &[across, up]).iter().map(|n| n + 1.0).product();
    let is_flat = max_x <= min_x || max_y <= min_y || z_top <= z_bottom;
    if nodes > NODES && nx.max(ny).max(nz) < axes::CELLS_MOST - 1 || is_flat && !r.one_in(8) {
        bounds = [0.0, 0.0, across, across, 0.0, up];
    }
    let wild = [0, 1, 513, sketch.xs.len() as u32 + 1, u32::MAX];
    Row { kind: 0, bounds, numbers: [r.pick(&wild), r.pick(&wild), 0, 0, 0] }
}

/// How many cells on each axis: few; rarely about the most on one of them.
fn cells(r: &mut Random, n: usize) -> [i64; 3] {
    if n > SOME {
        return std::array::from_fn(|_| r.between(1, 2));
    }
    if r.one_in(400) {
        let mut cells = [1; 3];
        cells[r.below(3)] = r.between(axes::CELLS_MOST - 1, axes::CELLS_MOST + 1);
        return cells;
    }
    if r.one_in(5) { [1; 3] } else { std::array::from_fn(|_| r.between(1, 4)) }
}

/// With any numbers for its first four bounds, on a ring of its own or on that of an earlier prism.
fn prism(r: &mut Random, sketch: &mut Sketch, n: usize) -> Row {
    let (start, count) = if !sketch.parts.is_empty() && r.one_in(6) { earlier(r, sketch) } else { new_part(r, sketch, n) };
    let [z_bottom, z_top] = heights(r, RARELY);
    let [a, b, c, d] = std::array::from_fn(|_| numbers::any(r));
    Row { kind: 1, bounds: [a, b, c, d, z_bottom, z_top], numbers: [start, count, 0, 0, 0] }
}

/// The part of an earlier prism, whole or without its first point.
fn earlier(r: &mut Random, sketch: &Sketch) -> (u32, u32) {
    match r.pick(&sketch.parts) {
        (start, count) if count > 0 && r.one_in(2) => (start + 1, count - 1),
        whole => whole,
    }
}

/// A ring behind those that there are; some numbers that are not looked at stand between.
fn new_part(r: &mut Random, sketch: &mut Sketch, n: usize) -> (u32, u32) {
    if r.one_in(4) {
        let some = r.below(4);
        sketch.xs.extend(solids::noise(r, some));
        sketch.ys.extend(solids::noise(r, some));
    }
    let ring = ring(r, n);
    let part = (sketch.xs.len() as u32, ring.len() as u32);
    sketch.xs.extend(ring.iter().map(|point| point.0));
    sketch.ys.extend(ring.iter().map(|point| point.1));
    sketch.parts.push(part);
    part
}

/// Mostly short, since `mesh_prism` gets the long ones.
fn ring(r: &mut Random, n: usize) -> Ring {
    let mut ring = rings::draw(r);
    let most = if n > SOME { 6 } else { 40 };
    if n > SOME || !r.one_in(20) {
        ring.truncate(most);
    }
    ring
}
