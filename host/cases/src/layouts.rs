//! Layouts that are stacked, meshed, welded and measured: the region lists that `assemble_stack` writes are handed to `mesh_model`, the mesh that it writes to
//! `weld_nodes`, and the welded one to `mesh_volume`.
use crate::expected::models::sizes;
use crate::meshes::lengths;
use crate::models::{self, Overrides};
use crate::rules::stacks;
use crate::random::Random;
use crate::regions::{Regions, Row};
use crate::stacks::Job as Stack;
use crate::welds::{self, Mesh};

/// Its own number among the calls, so that no other call draws the same; and its own layouts.
const STREAM: u64 = 1401;
const SEEDS: u64 = 0x6c61_796f_7574;

/// So many layouts are drawn, of which most have no region.
const LAYOUTS: u64 = 4;

/// A mesh of more nodes than `MANY`, in one layout of 50 than `MORE`, is not welded: the time of a weld grows with the square of its nodes.
const MANY: usize = 600;
const MORE: usize = 3000;

#[derive(Clone)]
pub struct Job {
    pub stack: Stack,
    /// Across, and in height.
    pub cells: [f64; 2],
    /// The room for nodes and elements beside those of the mesh.
    pub spare: usize,
    /// The weld's.
    pub tolerance: f64,
    /// The most nodes that are welded.
    pub most: usize,
}

impl Job {
    /// The job of this number; it depends on nothing else.
    pub fn draw(seed: u64, number: u64) -> Job {
        let r = &mut Random::of_case(seed, STREAM, number);
        let (stack, rows) = stack(seed ^ SEEDS, number);
        let (cells, spare) = (cells(r, &rows), if r.one_in(2) { 0 } else { r.below(20) });
        Job { stack, cells, spare, tolerance: tolerance(r, cells), most: if r.one_in(50) { MORE } else { MANY } }
    }

    /// The model of these regions, in an empty mesh.
    pub fn model(&self, regions: Regions) -> models::Job {
        let diagnostics = regions.kinds.len() + self.spare;
        let (xs, ys, overrides) = (self.stack.xs.clone(), self.stack.ys.clone(), Overrides::default());
        let (call, cells) = (models::Call::MeshModel, self.cells);
        let job = models::Job { call, regions, xs, ys, overrides, cells, counts: [0; 2], lengths: [0; 6], diagnostics };
        let [nodes, elements] = sizes(&job);
        models::Job { lengths: lengths(nodes + self.spare, elements + self.spare), ..job }
    }

    /// The weld of this mesh, if it has few nodes.
    pub fn weld(&self, mesh: Mesh) -> Option<welds::Job> {
        let [nodes, elements] = mesh.sizes();
        let lengths = lengths(nodes + self.spare, elements + self.spare);
        let job = welds::Job { call: welds::Call::WeldNodes, mesh, is_made: true, tolerance: self.tolerance, lengths };
        (nodes <= self.most).then_some(job)
    }

    /// The volume of this one.
    pub fn measure(&self, mesh: Mesh) -> welds::Job {
        welds::Job { call: welds::Call::MeshVolume, mesh, is_made: true, tolerance: 0.0, lengths: [0; 6] }
    }
}

/// Of some layouts the first that has a region, or else the last.
fn stack(seed: u64, number: u64) -> (Stack, Vec<Row>) {
    let drawn = |i: u64| {
        let stack = Stack::draw(seed + i, number);
        let rows = stacks::answer(&stack).map_or(vec![], |given| given.rows);
        (stack, rows)
    };
    (0..LAYOUTS).map(drawn).find(|drawn| !drawn.1.is_empty()).unwrap_or_else(|| drawn(LAYOUTS))
}

/// Such that the largest box has a few cells.
fn cells(r: &mut Random, rows: &[Row]) -> [f64; 2] {
    if r.one_in(20) {
        return [1e-6, 0.1e-6];
    }
    let most = if rows.len() > 100 { 2 } else { 5 };
    [[(0, 2), (1, 3)].as_slice(), &[(4, 5)]].map(|ends| {
        let extents = rows.iter().filter(|row| row.kind == 0).flat_map(|row| ends.iter().map(|(low, high)| row.bounds[*high] - row.bounds[*low]));
        let largest = extents.fold(0.0, f64::max);
        let cell = largest / r.between(1, most) as f64;
        if cell > 0.0 { cell.min(1_048_576.0) } else { 1.0 }
    })
}

/// Below a cell, so that only nodes in one place are joined; of about a cell; or far above one.
fn tolerance(r: &mut Random, [across, up]: [f64; 2]) -> f64 {
    match r.below(8) {
        0..=2 => across.min(up) * r.pick(&[1e-9, 1e-6, 1e-3, 0.1]),
        3 => (across * r.pick(&[0.5, 1.0, 1.5])).min(1_048_576.0),
        4 => up * r.pick(&[-1.0, 0.5, 1.0]),
        5 => r.pick(&[1e-12, 1e-9, 1e-6, 1.0, 1000.0]),
        6 => r.pick(&[262_144.0, 1_048_576.0]),
        _ => r.pick(&[0.0, -0.0, 5e-324, 1.0]),
    }
}
