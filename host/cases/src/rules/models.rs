//! The refusals of meshing a model, and the cell sizes of its regions.
use super::meshes::is_parallel;
use super::regions::{MATERIAL_MOST, REGIONS_MOST};
use super::POINTS_MOST;
use crate::models::Fault::{self, *};
use crate::models::Job;

/// "An override list has at most 4,096 rows"
const OVERRIDES_MOST: usize = 4096;

/// "Meshing a model: 16, 2 for regions, points and overrides, 15 for counts, then for an override's material, 12 if the diagnostic list is short"
pub fn judged(job: &Job) -> Result<(), Fault> {
    let n = job.regions.kinds.len();
    let overrides = &job.overrides.materials;
    let [nodes, elements] = job.counts;
    let tests = [
        (RegionLists, job.regions.lengths().iter().all(|length| *length == n)),
        (PointLists, job.xs.len() == job.ys.len()),
        (OverrideLists, job.overrides.sizes.iter().all(|list| list.len() == overrides.len())),
        (MeshLists, is_parallel(&job.lengths)),
        (ManyRegions, n <= REGIONS_MOST),
        (LongPoints, job.xs.len() <= POINTS_MOST),
        (ManyOverrides, overrides.len() <= OVERRIDES_MOST),
        (NodeCount, nodes <= job.lengths[0]),
        (ElementCount, elements <= job.lengths[3]),
        // "an override names 1 to 768"
        (OverrideMaterial, overrides.iter().all(|material| (1..=MATERIAL_MOST).contains(material))),
        (Diagnostics, n <= job.diagnostics),
    ];
    match tests.into_iter().find(|test| !test.1) {
        Some((fault, _)) => Err(fault),
        None => Ok(()),
    }
}

/// "Overrides go by material number, the later of two winning"; where none names the material, the default sizes.
pub fn cells(job: &Job, material: u32) -> [f64; 2] {
    job.overrides.of(material).last().unwrap_or(job.cells)
}
