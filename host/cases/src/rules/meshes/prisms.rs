//! The refusals of meshing a prism region that ask for no mesh.
use super::{hold, lists};
use crate::meshes::Fault::{self, *};
use crate::meshes::{Job, Solid};
use crate::rules::{admitted, POINTS_MOST, RING_MOST};

/// "Meshing a prism region: 16, 15, 2, 1, 8"; points outside the part and cell sizes are not looked at.
pub fn judged(job: &Job) -> Result<(), Fault> {
    lists(job)?;
    let Solid::Prism { heights: [z_bottom, z_top], start, count } = job.solid else { unreachable!() };
    hold([(Part, start as u64 + count as u64 <= job.xs.len() as u64)])?;
    let (xs, ys) = part(job);
    hold([
        (LongLists, job.xs.len() <= POINTS_MOST),
        (LongPart, xs.len() <= RING_MOST),
        (Coordinate, xs.iter().chain(ys).all(admitted)),
        (Height, admitted(&z_bottom) && admitted(&z_top)),
        (Upside, z_top > z_bottom),
    ])
}

/// A prism's part of the point lists, which is in them.
pub fn part(job: &Job) -> (&[f64], &[f64]) {
    let Solid::Prism { start, count, .. } = job.solid else { unreachable!() };
    let part = start as usize..start as usize + count as usize;
    (&job.xs[part.clone()], &job.ys[part])
}
