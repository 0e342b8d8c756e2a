//! Damage to a mesh, to the tolerance, and to the lists that are written.
use super::{used, Job, Mesh};
use crate::meshes::lists::unequal;
use crate::numbers;
use crate::random::Random;

/// Each damage with these odds.
pub fn job(r: &mut Random, job: &mut Job, odds: usize) {
    let mesh = &mut job.mesh;
    let [nodes, elements] = mesh.sizes();
    if nodes > 0 && r.one_in(odds) {
        mesh.coordinates[r.below(3)][r.below(nodes)] = numbers::outside(r);
    }
    if elements > 0 {
        for damage in [no_node, filled, no_kind] {
            if r.one_in(odds) {
                damage(r, mesh, nodes, elements);
            }
        }
    }
    if r.one_in(odds) {
        let mut lengths = mesh.lengths();
        unequal(r, &mut lengths);
        mesh.resize(lengths);
    }
    if job.call.writes() && r.one_in(odds) {
        job.tolerance = numbers::outside(r);
    }
    if job.call.writes() && r.one_in(odds) {
        unequal(r, &mut job.lengths);
    }
}

/// A place that an element uses is none of the nodes.
fn no_node(r: &mut Random, mesh: &mut Mesh, nodes: usize, elements: usize) {
    let element = r.below(elements);
    let place = r.below(used(mesh.kinds[element]).unwrap());
    mesh.places[8 * element + place] = r.pick(&[nodes as u32, nodes as u32, nodes as u32 + 1, 1 << 20, 1 << 31, u32::MAX - 1, u32::MAX]);
}

/// A place that an element does not use is filled; a hex has none.
fn filled(r: &mut Random, mesh: &mut Mesh, nodes: usize, elements: usize) {
    let element = r.below(elements);
    let used = used(mesh.kinds[element]).unwrap();
    if used < 8 {
        mesh.places[8 * element + used + r.below(8 - used)] = r.pick(&[0, nodes.saturating_sub(1) as u32, nodes as u32, 1 << 31, u32::MAX - 1]);
    }
}

fn no_kind(r: &mut Random, mesh: &mut Mesh, _: usize, elements: usize) {
    mesh.kinds[r.below(elements)] = r.pick(&[4, 4, 5, 6, 8, 127, 128, 254, 255]);
}
