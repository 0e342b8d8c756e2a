//! The calls on a whole mesh.
use super::lists::{all, cut, entries, leave_out, lengths, plainer};
use super::{Simpler, Tries};
use crate::welds::{Job, Mesh, UNUSED};
use std::ops::Range;

/// Past so many nodes a tolerance stays as it is: where few nodes share a key, a weld takes a time that grows with the square of the nodes.
const FEW: usize = 4096;

impl Simpler for Job {
    fn simpler(&self) -> Tries<'_, Job> {
        let longest = |lists: &[usize]| lists.iter().copied().max().unwrap_or(0);
        let now = self.mesh.lengths();
        let elements = cut(self, longest(&[now[3], now[4] / 8, now[5]]), |copy, part| leave_elements_out(&mut copy.mesh, part));
        let nodes = cut(self, longest(&now[..3]), |copy, part| leave_nodes_out(&mut copy.mesh, part));
        all([elements, nodes, lengths(self, self.lengths, |copy, plain| copy.lengths = plain), tolerance(self), mesh_plainer(self)])
    }
}

fn leave_elements_out(mesh: &mut Mesh, part: &Range<usize>) {
    leave_out(&mut mesh.kinds, part);
    leave_out(&mut mesh.regions, part);
    leave_out(&mut mesh.places, &(8 * part.start..8 * part.end));
}

/// An element at a node that is left out is at the one before.
fn leave_nodes_out(mesh: &mut Mesh, part: &Range<usize>) {
    mesh.coordinates.iter_mut().for_each(|list| leave_out(list, part));
    for place in mesh.places.iter_mut().filter(|place| **place != UNUSED) {
        let now = *place as usize;
        *place = match now {
            _ if now >= part.end => now - part.len(),
            _ if now >= part.start => part.start.saturating_sub(1),
            _ => now,
        } as u32;
    }
}

fn tolerance(job: &Job) -> Tries<'_, Job> {
    if job.mesh.sizes()[0] > FEW {
        return Box::new(std::iter::empty());
    }
    plainer(job, job.tolerance, |copy, plain| copy.tolerance = plain)
}

fn mesh_plainer(job: &Job) -> Tries<'_, Job> {
    let mesh = &job.mesh;
    let coordinates = (0..3).map(move |axis| {
        entries(job, &mesh.coordinates[axis], move |copy, place, plain| copy.mesh.coordinates[axis][place] = plain)
    });
    let elements = [
        entries(job, &mesh.kinds, |copy, place, plain| copy.mesh.kinds[place] = plain),
        entries(job, &mesh.places, |copy, place, plain| copy.mesh.places[place] = plain),
        entries(job, &mesh.regions, |copy, place, plain| copy.mesh.regions[place] = plain),
    ];
    all(coordinates.chain(elements))
}
