//! The mesh's lists: how long they are, and what is there already.
use super::Job;
use crate::extrusions;
use crate::rules::meshes::MESH_MOST;
use crate::polygons::room;
use crate::random::Random;

/// The lengths of the lists of a mesh with room for so many nodes and elements.
pub fn lengths(nodes: usize, elements: usize) -> [usize; 6] {
    [nodes, nodes, nodes, elements, 8 * elements, elements]
}

/// The nodes and elements that are there already.
pub fn counts(r: &mut Random) -> [usize; 2] {
    match r.below(4) {
        0 => [0; 2],
        1 => [r.below(20), 0],
        2 => [r.below(2000), r.below(500)],
        _ => [r.below(40), r.below(20)],
    }
}

/// The lengths of the lists, for these nodes and elements more; or some, where it is not known how many there are.
pub fn room(r: &mut Random, [nodes, elements]: [usize; 2], more: Option<[usize; 2]>) -> [usize; 6] {
    match more {
        Some([more_nodes, more_elements]) => {
            lengths(room::list(r, nodes + more_nodes), room::list(r, elements + more_elements))
        }
        None => lengths(nodes + r.below(100), elements + r.below(100)),
    }
}

/// The mesh has about as many nodes, or elements, as leave room for these, and its lists end about there.
pub fn near_most(r: &mut Random, counts: &mut [usize; 2], lists: &mut [usize; 6], more: [usize; 2]) {
    let place = r.below(2);
    counts[place] = MESH_MOST - more[place] + r.below(3) - 1;
    let mut room = [lists[0], lists[3]];
    room[place] = MESH_MOST + r.below(3) - 1;
    *lists = lengths(room[0], room[1]);
}

/// Each damage with these odds: of the lists, the counts and the material.
pub fn spoil(r: &mut Random, job: &mut Job, odds: usize) {
    spoil_mesh(r, &mut job.counts, &mut job.lengths, odds);
    if r.one_in(odds) {
        job.material = extrusions::material(r).max(r.pick(&[0, 768, 769]));
    }
}

/// The same of the lists and the counts.
pub fn spoil_mesh(r: &mut Random, counts: &mut [usize; 2], lists: &mut [usize; 6], odds: usize) {
    if r.one_in(odds) {
        unequal(r, lists);
    }
    if r.one_in(odds) {
        let place = r.below(2);
        let length = lists[3 * place];
        counts[place] = r.pick(&[length, length + 1, length + 8, usize::MAX, 1 << 63, 1 << 32]);
    }
}

/// One list is longer or shorter than it ought to be.
pub fn unequal(r: &mut Random, lengths: &mut [usize; 6]) {
    let place = r.below(6);
    let by = if place == 4 { r.pick(&[1, 4, 7, 8, 16]) } else { r.pick(&[1, 1, 2, 9]) };
    lengths[place] = if r.one_in(2) { lengths[place] + by } else { lengths[place].saturating_sub(by) };
}

/// A region's number.
pub fn region(r: &mut Random) -> u32 {
    if r.one_in(4) { r.word() as u32 } else { r.below(4096) as u32 }
}

/// A net and a polygon.
pub fn labels(r: &mut Random) -> [u32; 2] {
    std::array::from_fn(|_| if r.one_in(2) { r.word() as u32 } else { r.pick(&[0, 1, u32::MAX]) })
}
