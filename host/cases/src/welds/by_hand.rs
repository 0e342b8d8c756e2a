//! Meshes at the limits.
use super::{Call, Job, Mesh};
use crate::meshes::lengths;
use crate::numbers::MOST;
use crate::rules::meshes::MESH_MOST;
use crate::rules::welds::kept;
use std::f64::{INFINITY, NAN, NEG_INFINITY};

/// 2^-43: 2^20 has the quotient 2^63.
const OF_CAP: f64 = 1.0 / (1u64 << 43) as f64;

const ENDS: [f64; 7] = [MOST, -MOST, MOST.next_down(), -MOST.next_down(), MOST / 2.0, -MOST / 2.0, 0.0];

const ZEROS: [f64; 8] = [0.0, 1.0, -0.0, 5e-324, MOST, -1.0, -5e-324, -MOST];

const HALVES: [f64; 18] = [
    0.5, 1.5, 2.5, 3.5, -0.5, -1.5, -2.5, -3.5, 0.0, 1.0, 2.0, 3.0, 4.0, -1.0, -2.0, -3.0, -4.0, 4.5,
];

const NEAR_HALVES: [f64; 12] = [
    0.5_f64.next_down(), 0.0, 0.5, 0.5_f64.next_up(), -0.5_f64.next_down(), -0.5, 1.0, -1.0, 1.5_f64.next_down(), 1.5, 2.0,
    2.5_f64.next_down(),
];

/// A tolerance, and the xs of nodes with y 0 and z the x negated.
const LINES: [(f64, &[f64]); 26] = [
    (1.0, &[0.4, 0.6]),
    (1.0, &[-0.4, 0.4]),
    (1.0, &[0.0, -0.0]),
    (1.0, &[-0.0, 0.0]),
    // The first of them is kept.
    (1.0, &[1.4, 0.6, 1.0, 0.4, -0.4]),
    (1.0, &HALVES),
    (-1.0, &HALVES),
    (0.25, &HALVES),
    (1.0, &NEAR_HALVES),
    (-1.0, &NEAR_HALVES),
    (0.0, &ZEROS),
    (-0.0, &ZEROS),
    (5e-324, &[5e-324, 1e-323, 0.0, 1.0, -1.0, 1.5e-323, -5e-324, f64::MIN_POSITIVE, MOST, -0.0]),
    (1e-300, &[1e-300, 1.5e-300, 2e-300, 1.0, 2.0, 1e-290, 1e-280, -1.0, -MOST, 0.0]),
    (OF_CAP, &ENDS),
    (-OF_CAP, &ENDS),
    (OF_CAP / 2.0, &ENDS),
    (MOST, &ENDS),
    (-MOST, &ENDS),
    (1e-9, &[1e-9, 0.5e-9, 1.5e-9, 2.5e-9, 0.0, 0.4e-9, 0.6e-9, 1.0, 1.0 + 0.4e-9, 1.0 + 0.6e-9]),
    (1.0, &[]),
    (0.0, &[0.0]),
    (NAN, &[0.0]),
    (INFINITY, &[0.0]),
    (NEG_INFINITY, &[]),
    (MOST.next_up(), &[0.0]),
];

/// A place that is not used.
const N: u32 = super::UNUSED;

/// So many of the nodes below, and elements on them: their kinds and places.
const ON_NODES: [(usize, &[(u8, [u32; 8])]); 22] = [
    (14, &[(2, [0, 1, 2, 3, 4, 5, N, N])]),
    (14, &[(1, [6, 7, 8, 9, 10, 11, 12, 13])]),
    (14, &[(0, [6, 7, 9, 10, N, N, N, N]), (3, [6, 7, 8, 9, 10, N, N, N])]),
    // Upside down, and each at one node.
    (14, &[(2, [3, 4, 5, 0, 1, 2, N, N])]),
    (14, &[(0, [0, 0, 0, 0, N, N, N, N]), (1, [1; 8]), (2, [2, 2, 2, 2, 2, 2, N, N]), (3, [3, 3, 3, 3, 3, N, N, N])]),
    // A used place past the nodes, in each kind.
    (0, &[(0, [0, 0, 0, 0, N, N, N, N])]),
    (4, &[(0, [0, 1, 2, 4, N, N, N, N])]),
    (4, &[(0, [0, 1, 2, N, N, N, N, N])]),
    (7, &[(1, [0, 1, 2, 3, 4, 5, 6, 7])]),
    (5, &[(2, [0, 1, 2, 3, 4, 5, N, N])]),
    (4, &[(3, [0, 1, 2, 3, 4, N, N, N])]),
    // An unused place that is filled, the first and the last of each kind.
    (14, &[(0, [0, 1, 2, 3, 4, N, N, N])]),
    (14, &[(0, [0, 1, 2, 3, N, N, N, 4])]),
    (14, &[(2, [0, 1, 2, 3, 4, 5, 6, N])]),
    (14, &[(2, [0, 1, 2, 3, 4, 5, N, N - 1])]),
    (14, &[(3, [0, 1, 2, 3, 4, 5, N, N])]),
    (14, &[(3, [0, 1, 2, 3, 4, N, N, 0])]),
    // No kind, and 15 in any element before 13 in any.
    (0, &[(4, [N; 8])]),
    (4, &[(0, [0, 1, 2, 9, N, N, N, N]), (255, [0, 1, 2, 3, N, N, N, N])]),
    (4, &[(0, [0, 1, 2, 9, N, N, N, N]), (0, [0, 1, 2, 3, N, N, 0, N])]),
    (4, &[(0, [0, 1, 2, 9, 9, N, N, N])]),
    (4, &[(3, [0, 1, 2, 3, 3, N, N, 3]), (0, [0, 1, 2, 9, N, N, N, N])]),
];

/// A prism of volume 3 whose triangle lies in the plane x = 0, and a box of 2 by 1 by 0.5.
const NODES: [[f64; 3]; 14] = [
    [0.0, 0.0, 0.0], [0.0, 2.0, 0.0], [0.0, 0.0, 3.0], [1.0, 0.0, 1.0], [1.0, 2.0, 1.0], [1.0, 0.0, 4.0],
    [0.0, 0.0, 0.0], [2.0, 0.0, 0.0], [2.0, 1.0, 0.0], [0.0, 1.0, 0.0], [0.0, 0.0, 0.5], [2.0, 0.0, 0.5], [2.0, 1.0, 0.5], [0.0, 1.0, 0.5],
];

/// The mesh with lists that its weld fills.
fn filling(call: Call, mesh: Mesh, tolerance: f64) -> Job {
    let lengths = if call.writes() { lengths(kept(&mesh, tolerance).len(), mesh.kinds.len()) } else { [0; 6] };
    Job { call, mesh, is_made: false, tolerance, lengths }
}

/// Nodes on a line, and a tet at each place and those after it.
fn line(call: Call, tolerance: f64, xs: &[f64]) -> Job {
    let mut mesh = Mesh::default();
    xs.iter().for_each(|x| mesh.push_node([*x, 0.0, -x]));
    let n = xs.len() as u32;
    for i in 0..n {
        mesh.push_element(0, &std::array::from_fn::<u32, 4, _>(|k| (i + k as u32) % n), 4096 + i);
    }
    filling(call, mesh, tolerance)
}

fn on_nodes(call: Call, nodes: usize, elements: &[(u8, [u32; 8])]) -> Job {
    let mut mesh = Mesh::default();
    NODES[..nodes].iter().for_each(|node| mesh.push_node(*node));
    elements.iter().for_each(|(kind, places)| mesh.push_element(*kind, places, u32::MAX));
    filling(call, mesh, 0.5)
}

/// So many nodes, all with one key, and tets at the last of them.
fn large(call: Call, nodes: usize, elements: usize) -> Job {
    let mut mesh = Mesh { coordinates: std::array::from_fn(|_| vec![0.25; nodes]), ..Mesh::default() };
    (0..elements).for_each(|i| mesh.push_element(0, &[nodes as u32 - 1; 4], i as u32));
    filling(call, mesh, 1.0)
}

/// With another first coordinate.
fn with(mut job: Job, x: f64) -> Job {
    job.mesh.coordinates[0][0] = x;
    job
}

pub fn job(call: Call, number: u64) -> Option<Job> {
    let number = number as usize;
    if let Some((tolerance, xs)) = LINES.get(number) {
        return Some(line(call, *tolerance, xs));
    }
    let number = number - LINES.len();
    if let Some((nodes, elements)) = ON_NODES.get(number) {
        return Some(on_nodes(call, *nodes, elements));
    }
    let of = |nodes: usize, elements: usize| large(call, nodes, elements);
    Some(match number - ON_NODES.len() {
        0 => of(MESH_MOST, 1),
        1 => of(MESH_MOST + 1, 1),
        2 => of(1, MESH_MOST),
        3 => of(1, MESH_MOST + 1),
        // 2 comes before 1, and 16 before 2.
        4 => with(of(MESH_MOST + 1, 0), NAN),
        5 => {
            let mut job = of(1, MESH_MOST + 1);
            job.mesh.regions.pop();
            job
        }
        // The lists that are written may be longer than a mesh.
        6 => Job { lengths: lengths(MESH_MOST + 1, MESH_MOST + 1), ..of(2, 2) },
        // 16 of the written lists comes before 2, too.
        7 => Job { lengths: [3, 3, 3, 2, 16, 1], ..of(MESH_MOST + 1, 0) },
        // No room at all, none for the element, none for the node.
        8 => Job { lengths: [0; 6], ..of(1, 1) },
        9 => Job { lengths: lengths(1, 0), ..of(1, 1) },
        10 => Job { lengths: lengths(0, 1), ..of(1, 1) },
        _ => return None,
    })
}
