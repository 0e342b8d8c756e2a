//! The Rust's mesh of a box.
use super::{is_minus_zero, region, sizes_of, true_of};
use crate::meshes::Kind::*;
use crate::meshes::{Fault, Job, Kind};
use crate::rules::meshes::boxes as rules;
use oracle::core::mesh::Mesh;
use oracle::meshing::reach::linspace;
use oracle::meshing::{mesh_region, MeshConfig};

pub fn meshed(job: &Job, bounds: &[f64; 6]) -> Result<(Mesh, Vec<Kind>), Fault> {
    let judged = rules::judged(job, bounds);
    if !matches!(judged, Ok(()) | Err(Fault::Extent | Fault::NotPositive)) {
        judged?;
    }
    let [lateral_cell, z_cell] = job.cells;
    let rust = mesh_region(&region(job), &MeshConfig { lateral_cell, z_cell }).map_err(|why| fault_of(&why));
    assert_eq!(rust.as_ref().err(), judged.as_ref().err(), "the rules and the Rust differ: {bounds:?} {:?}", job.cells);
    let mesh = rust?;
    assert_eq!(sizes_of(&mesh), rules::sizes(bounds, &job.cells));
    Ok((mesh, said(job, bounds)))
}

/// The refusal that the Rust's text stands for.
pub fn fault_of(why: &str) -> Fault {
    match why {
        _ if why.contains("degenerate box") => Fault::Extent,
        _ if why.contains("must be positive") => Fault::NotPositive,
        _ => panic!("the Rust says of a box: {why}"),
    }
}

/// What is counted of a box that is meshed.
fn said(job: &Job, bounds: &[f64; 6]) -> Vec<Kind> {
    let [min_x, min_y, max_x, max_y, z_bottom, z_top] = *bounds;
    let axes = rules::axes(bounds, &job.cells);
    let ends = [(min_x, max_x), (min_y, max_y), (z_bottom, z_top)];
    let repeats = |((low, high), n): (&(f64, f64), &f64)| linspace(*low, *high, *n as usize).windows(2).any(|two| two[0] == two[1]);
    let kinds = [
        (OneCell, axes == [1.0; 3]),
        (MostCells, axes.contains(&4096.0)),
        (Repeated, ends.iter().zip(&axes).any(repeats)),
        (LowMinusZero, ends.iter().any(|end| is_minus_zero(end.0))),
        (HighMinusZero, ends.iter().any(|end| is_minus_zero(end.1))),
    ];
    true_of(kinds).collect()
}
