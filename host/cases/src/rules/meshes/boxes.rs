//! The refusals of meshing a box region.
use super::{hold, lists, room};
use crate::meshes::Fault::{self, *};
use crate::meshes::Job;
use crate::rules::admitted;
use crate::rules::cells::{cells, CELLS_MOST};

/// "Meshing a box region: 16, 15 for counts or material; 1 for bounds; 5; 1 for cell sizes; 6; 7; 12."
pub fn judged(job: &Job, bounds: &[f64; 6]) -> Result<(), Fault> {
    lists(job)?;
    hold([
        (Bounds, bounds.iter().all(admitted)),
        (Extent, extents(bounds).iter().all(|extent| *extent > 0.0)),
        (CellSize, job.cells.iter().all(admitted)),
        (NotPositive, job.cells.iter().all(|cell| *cell > 0.0)),
        (TooMany, axes(bounds, &job.cells).iter().all(|n| *n <= CELLS_MOST)),
    ])?;
    room(job, sizes(bounds, &job.cells))
}

/// How wide, how deep and how high the box is.
fn extents(bounds: &[f64; 6]) -> [f64; 3] {
    let [min_x, min_y, max_x, max_y, z_bottom, z_top] = bounds;
    [max_x - min_x, max_y - min_y, z_top - z_bottom]
}

/// The cells on each axis; infinite where a quotient is.
pub fn axes(bounds: &[f64; 6], sizes: &[f64; 2]) -> [f64; 3] {
    let [dx, dy, dz] = extents(bounds);
    let [across, up] = *sizes;
    [cells(dx, across), cells(dy, across), cells(dz, up)]
}

/// How many nodes and how many elements a box has, which has at most 4,096 cells on each axis.
pub fn sizes(bounds: &[f64; 6], cells: &[f64; 2]) -> [usize; 2] {
    let n = axes(bounds, cells).map(|n| n as usize);
    [n.map(|n| n + 1).iter().product(), n.iter().product()]
}
