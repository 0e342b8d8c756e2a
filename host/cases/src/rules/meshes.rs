//! The refusals of meshing a region.
pub mod boxes;
pub mod prisms;
pub mod scanline;

use super::regions::MATERIAL_MOST;
use crate::meshes::Fault::{self, *};
use crate::meshes::Job;

/// "a mesh at most 1,048,576 nodes and as many elements"
pub const MESH_MOST: usize = 1_048_576;

/// The first test that fails.
fn hold(tests: impl IntoIterator<Item = (Fault, bool)>) -> Result<(), Fault> {
    match tests.into_iter().find(|test| !test.1) {
        Some((fault, _)) => Err(fault),
        None => Ok(()),
    }
}

/// "16 parallel lists of unequal length, or node places not eight times the kinds", of these lengths.
pub fn is_parallel([xs, ys, zs, kinds, places, regions]: &[usize; 6]) -> bool {
    xs == ys && xs == zs && kinds == regions && *places == 8 * kinds
}

/// "16, 15 for counts or material"; 16 speaks of the point lists too.
fn lists(job: &Job) -> Result<(), Fault> {
    let [nodes, elements] = job.counts;
    hold([
        (Lists, is_parallel(&job.lengths)),
        (PointLists, job.xs.len() == job.ys.len()),
        (NodeCount, nodes <= job.lengths[0]),
        (ElementCount, elements <= job.lengths[3]),
        (Material, job.material <= MATERIAL_MOST),
    ])
}

/// "12 output list too short, or the result above a mesh's most", for so many nodes and elements more.
pub fn room(job: &Job, [more_nodes, more_elements]: [usize; 2]) -> Result<(), Fault> {
    let [nodes, elements] = [job.counts[0] + more_nodes, job.counts[1] + more_elements];
    hold([
        (NodesMost, nodes <= MESH_MOST),
        (NodeRoom, nodes <= job.lengths[0]),
        (ElementsMost, elements <= MESH_MOST),
        (ElementRoom, elements <= job.lengths[3]),
    ])
}
