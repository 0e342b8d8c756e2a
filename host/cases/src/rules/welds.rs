//! The refusals of the calls on a whole mesh, its weld and its volume.
use super::admitted;
use super::meshes::MESH_MOST;
use crate::welds::Fault::{self, *};
use crate::welds::{used, Job, Mesh, UNUSED};

/// The first test that fails.
fn hold(tests: impl IntoIterator<Item = (Fault, bool)>) -> Result<(), Fault> {
    match tests.into_iter().find(|test| !test.1) {
        Some((fault, _)) => Err(fault),
        None => Ok(()),
    }
}

/// "Weld, mesh volume (their lists hold the mesh and nothing past it): 16, 2, 1, 15, 13; weld then 12."
pub fn judged(job: &Job) -> Result<(), Fault> {
    let (mesh, writes) = (&job.mesh, job.call.writes());
    let [nodes, elements] = mesh.sizes();
    hold(parallel([NodeLists, PlaceList, RegionList], mesh.lengths()))?;
    if writes {
        hold(parallel([OutNodeLists, OutPlaceList, OutRegionList], job.lengths))?;
    }
    hold([
        (ManyNodes, nodes <= MESH_MOST),
        (ManyElements, elements <= MESH_MOST),
        (Coordinate, mesh.coordinates.iter().flatten().all(admitted)),
        (Tolerance, !writes || admitted(&job.tolerance)),
    ])?;
    all_elements(mesh)?;
    if writes {
        hold([(NodeRoom, kept(mesh, job.tolerance).len() <= job.lengths[0]), (ElementRoom, elements <= job.lengths[3])])?;
    }
    Ok(())
}

/// "16 parallel lists of unequal length, or node places not eight times the kinds"
fn parallel([a, b, c]: [Fault; 3], [xs, ys, zs, kinds, places, regions]: [usize; 6]) -> [(Fault, bool); 3] {
    [(a, xs == ys && xs == zs), (b, places == 8 * kinds), (c, kinds == regions)]
}

/// 15 of any element comes before 13 of any.
fn all_elements(mesh: &Mesh) -> Result<(), Fault> {
    let mut is_missing = false;
    for element in 0..mesh.kinds.len() {
        let Some(used) = used(mesh.kinds[element]) else {
            return Err(if is_missing { NoKindBehind } else { NoKind });
        };
        let (places, rest) = mesh.places_of(element).split_at(used);
        is_missing |= places.iter().any(|place| *place as usize >= mesh.sizes()[0]);
        if rest.iter().any(|place| *place != UNUSED) {
            return Err(if is_missing { FilledBehind } else { Filled });
        }
    }
    hold([(NoNode, !is_missing)])
}

/// 2^63, one more than the largest i64.
pub const CAP: f64 = 9_223_372_036_854_775_808.0;

/// "each coordinate divided by the tolerance, rounded with halves away from zero, capped to i64; not-a-number gives 0"
pub fn key(x: f64, tolerance: f64) -> i64 {
    let quotient = x / tolerance;
    // Both are exact.
    let whole = quotient.trunc();
    let rounded = if (quotient - whole).abs() >= 0.5 { whole + quotient.signum() } else { whole };
    match rounded {
        _ if quotient.is_nan() => 0,
        _ if rounded >= CAP => i64::MAX,
        _ if rounded <= -CAP => i64::MIN,
        _ => rounded as i64,
    }
}

/// "The first node of each key is kept, in order": the places of those, and for each node which of them it becomes.
pub fn welded(mesh: &Mesh, tolerance: f64) -> (Vec<usize>, Vec<u32>) {
    let (mut keys, mut kept, mut becomes) = (vec![], vec![], vec![]);
    for (place, node) in mesh.nodes().enumerate() {
        let own = node.map(|x| key(x, tolerance));
        let first = keys.iter().position(|key| *key == own).unwrap_or(keys.len());
        if first == keys.len() {
            keys.push(own);
            kept.push(place);
        }
        becomes.push(first as u32);
    }
    (kept, becomes)
}

/// The places of the nodes that are kept.
pub fn kept(mesh: &Mesh, tolerance: f64) -> Vec<usize> {
    welded(mesh, tolerance).0
}

/// The volume of each element: "Prism volume uses `triangle_area` [..]; other kinds use their bounding box."
pub fn volumes(mesh: &Mesh) -> impl Iterator<Item = f64> + '_ {
    (0..mesh.kinds.len()).map(|element| {
        let nodes: Vec<[f64; 3]> = mesh.used(element).iter().map(|place| mesh.node(*place as usize)).collect();
        if mesh.kinds[element] == 2 { area(&nodes) * height(&nodes) } else { bounds(&nodes) }
    })
}

/// "Totals start from +0."
pub fn total(volumes: impl Iterator<Item = f64>) -> f64 {
    volumes.fold(0.0, |total, volume| total + volume)
}

/// The product of two edges of the first triangle, each operation rounded once.
pub fn cross(nodes: &[[f64; 3]]) -> [f64; 3] {
    let edge = |to: usize| -> [f64; 3] { std::array::from_fn(|axis| nodes[to][axis] - nodes[0][axis]) };
    let (u, v) = (edge(1), edge(2));
    [(1, 2), (2, 0), (0, 1)].map(|(a, b)| u[a] * v[b] - u[b] * v[a])
}

/// Half the root of the sum of its squares.
pub fn area(nodes: &[[f64; 3]]) -> f64 {
    let [x, y, z] = cross(nodes).map(|side| side * side);
    0.5 * (x + y + z).sqrt()
}

/// The mean of three heights.
fn height(nodes: &[[f64; 3]]) -> f64 {
    let [a, b, c] = heights(nodes).map(f64::abs);
    (a + b + c) / 3.0
}

/// How far the second triangle's nodes are above the first's.
pub fn heights(nodes: &[[f64; 3]]) -> [f64; 3] {
    std::array::from_fn(|i| nodes[i + 3][2] - nodes[i][2])
}

fn bounds(nodes: &[[f64; 3]]) -> f64 {
    let extent = |axis: usize| {
        let along = nodes.iter().map(|node| node[axis]);
        along.clone().fold(f64::NEG_INFINITY, f64::max) - along.fold(f64::INFINITY, f64::min)
    };
    extent(0) * extent(1) * extent(2)
}
