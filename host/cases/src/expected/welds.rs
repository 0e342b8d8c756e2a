//! What is expected of a call on a whole mesh: a refusal by the rules (`rules`), or else what the unchanged Rust answers. The weld and the volume are also
//! worked out by the rules, and the two must be the same.
use super::meshes::{given, is_minus_zero, true_of};
use crate::meshes;
use crate::rules::meshes::MESH_MOST;
use crate::rules::welds as rules;
use crate::welds::Kind::*;
use crate::welds::{Call, Fault, Given, Job, Kind, Mesh};
use oracle::core::mesh::{self as rust, Element, ElementType, Point3};
use oracle::meshing::{mesh_volume, weld_nodes};

/// Pairs of nodes are looked at in meshes of so few.
const PAIRS: usize = 100;

pub fn answer(job: &Job) -> Result<(Given, Vec<Kind>), Fault> {
    rules::judged(job)?;
    let mesh = of_the_rust(&job.mesh);
    Ok(match job.call {
        Call::WeldNodes => welded(job, &weld_nodes(&mesh, job.tolerance)),
        Call::MeshVolume => measured(job, mesh_volume(&mesh)),
    })
}

/// The Rust's mesh, whose elements carry their region's number as the material.
pub fn of_the_rust(mesh: &Mesh) -> rust::Mesh {
    let nodes = mesh.nodes().map(|[x, y, z]| Point3::new(x, y, z)).collect();
    let elements = (0..mesh.kinds.len()).map(|i| element(mesh, i)).collect();
    rust::Mesh { nodes, elements, sets: Default::default() }
}

fn element(mesh: &Mesh, i: usize) -> Element {
    let kinds = [ElementType::Tet, ElementType::Hex, ElementType::Prism, ElementType::Pyramid];
    Element {
        kind: kinds[mesh.kinds[i] as usize],
        nodes: mesh.used(i).to_vec(),
        material_id: mesh.regions[i],
        net: None,
        layer: None,
        device_ref: None,
        source_polygon: None,
    }
}

/// The lists of a mesh of the Rust's.
pub fn lists_of(mesh: &rust::Mesh, regions: Vec<u32>) -> Mesh {
    let meshes::Given { nodes, kinds, places, .. } = given(mesh, 0);
    let coordinates = std::array::from_fn(|axis| nodes.iter().map(|node| node[axis]).collect());
    Mesh { coordinates, kinds, places, regions }
}

/// The materials, which are the regions' numbers.
fn regions_of(mesh: &rust::Mesh) -> Vec<u32> {
    mesh.elements.iter().map(|element| element.material_id).collect()
}

fn welded(job: &Job, rust: &rust::Mesh) -> (Given, Vec<Kind>) {
    let (mesh, regions) = (given(rust, 0), regions_of(rust));
    let (kept, becomes) = rules::welded(&job.mesh, job.tolerance);
    assert!(mesh.same(&by_rules(&job.mesh, &kept, &becomes)), "the rules and the Rust weld a mesh differently: {}", job.tolerance);
    assert!(regions == job.mesh.regions, "the rules and the Rust differ in an element's region");
    let said = true_of(of_mesh(job).into_iter().chain(of_joins(job, &kept, &becomes)).chain(of_keys(job)).chain(of_room(job, &kept)));
    (Given::Welded { mesh, regions }, said.collect())
}

/// The nodes that are kept; the places "renumbered", where one is used.
fn by_rules(mesh: &Mesh, kept: &[usize], becomes: &[u32]) -> meshes::Given {
    let renumbered = |place: &u32| becomes.get(*place as usize).copied().unwrap_or(*place);
    meshes::Given {
        nodes: kept.iter().map(|place| mesh.node(*place)).collect(),
        kinds: mesh.kinds.clone(),
        places: mesh.places.iter().map(renumbered).collect(),
        said: vec![],
    }
}

fn measured(job: &Job, rust: f64) -> (Given, Vec<Kind>) {
    let volumes: Vec<f64> = rules::volumes(&job.mesh).collect();
    let total = rules::total(volumes.iter().copied());
    assert!(total.to_bits() == rust.to_bits(), "the rules and the Rust differ in a volume: {total} {rust}");
    let of_volume = [(Flat, !volumes.is_empty() && total == 0.0), (OrderShows, rules::total(volumes.into_iter().rev()) != total)];
    let said = true_of(of_mesh(job).into_iter().chain(of_volume).chain(of_prisms(&job.mesh)));
    (Given::Volume(rust), said.collect())
}

/// What is counted of a mesh, by its lists.
fn of_mesh(job: &Job) -> [(Kind, bool); 12] {
    let mesh = &job.mesh;
    let [nodes, elements] = mesh.sizes();
    let mut is_used = vec![false; nodes];
    (0..elements).flat_map(|i| mesh.used(i)).for_each(|place| is_used[*place as usize] = true);
    let is_twice = |places: &[u32]| (1..places.len()).any(|i| places[..i].contains(&places[i]));
    [
        (Made, job.is_made),
        (NoNodes, nodes == 0),
        (NoElements, nodes > 0 && elements == 0),
        (Spare, elements > 0 && is_used.contains(&false)),
        (Tets, mesh.kinds.contains(&0)),
        (Hexes, mesh.kinds.contains(&1)),
        (Prisms, mesh.kinds.contains(&2)),
        (Pyramids, mesh.kinds.contains(&3)),
        (Repeated, (0..elements).any(|i| is_twice(mesh.used(i)))),
        (MinusZero, mesh.nodes().flatten().any(is_minus_zero)),
        (MostNodes, nodes == MESH_MOST),
        (MostElements, elements == MESH_MOST),
    ]
}

/// By the nodes that are joined, and by those that are not.
fn of_joins(job: &Job, kept: &[usize], becomes: &[u32]) -> [(Kind, bool); 7] {
    let (mesh, n) = (&job.mesh, becomes.len());
    let joined = || mesh.nodes().zip(becomes).map(|(node, first)| (node, mesh.node(kept[*first as usize])));
    let is_any = |test: &dyn Fn(f64, f64) -> bool| joined().any(|(a, b)| (0..3).any(|axis| test(a[axis], b[axis])));
    let size = job.tolerance.abs();
    [
        (NoneJoined, n > 1 && kept.len() == n),
        (Joined, kept.len() < n),
        (AllJoined, n > 1 && kept.len() == 1),
        (Unlike, is_any(&|x, first| x != first)),
        (AcrossZero, is_any(&|x, first| x * first < 0.0)),
        (FarJoined, is_any(&|x, first| (x - first).abs() > size)),
        (NearApart, n <= PAIRS && has_near(mesh, kept, size)),
    ]
}

/// Whether two of these nodes are nearer than this on each axis.
fn has_near(mesh: &Mesh, kept: &[usize], size: f64) -> bool {
    let is_near = |a: &usize, b: &usize| mesh.node(*a).iter().zip(mesh.node(*b)).all(|(x, y)| (x - y).abs() < size);
    (1..kept.len()).any(|i| kept[..i].iter().any(|other| is_near(other, &kept[i])))
}

/// By the quotients and the tolerance.
fn of_keys(job: &Job) -> Vec<(Kind, bool)> {
    let tolerance = job.tolerance;
    let quotients: Vec<f64> = job.mesh.nodes().flatten().map(|x| x / tolerance).collect();
    let is_any = |test: &dyn Fn(f64) -> bool| quotients.iter().any(|q| test(*q));
    let is_half = |q: f64| q.fract().abs() == 0.5;
    vec![
        (Half, is_any(&|q| is_half(q) && q.round() != q.round_ties_even())),
        (NearHalf, is_any(&|q| is_half(q.next_up()) || is_half(q.next_down()))),
        (NotANumber, is_any(&f64::is_nan)),
        (Infinite, is_any(&f64::is_infinite)),
        (CappedHigh, is_any(&|q| q >= rules::CAP)),
        (CappedLow, is_any(&|q| q < -rules::CAP)),
        (AtCap, is_any(&|q| q.abs() == rules::CAP)),
        (ToleranceZero, tolerance.to_bits() == 0),
        (ToleranceMinusZero, is_minus_zero(tolerance)),
        (ToleranceNegative, tolerance < 0.0),
        (ToleranceSubnormal, tolerance.is_subnormal()),
        (ToleranceMost, tolerance.abs() == 1_048_576.0),
    ]
}

fn of_room(job: &Job, kept: &[usize]) -> [(Kind, bool); 3] {
    let (room, filled) = ([job.lengths[0], job.lengths[3]], [kept.len(), job.mesh.kinds.len()]);
    [
        (ExactlyFull, filled[0] > 0 && room == filled),
        (RoomLeft, room[0] > filled[0] && room[1] > filled[1]),
        (LongRoom, room[0] > MESH_MOST && room[1] > MESH_MOST),
    ]
}

/// By the prisms.
fn of_prisms(mesh: &Mesh) -> [(Kind, bool); 4] {
    let of = |i: usize| mesh.used(i).iter().map(|place| mesh.node(*place as usize)).collect::<Vec<_>>();
    let prisms: Vec<_> = (0..mesh.kinds.len()).filter(|i| mesh.kinds[*i] == 2).map(of).collect();
    let is_any = |test: &dyn Fn([f64; 3], [f64; 3], f64) -> bool| {
        prisms.iter().any(|nodes| test(rules::cross(nodes), rules::heights(nodes), rules::area(nodes)))
    };
    [
        (Tilted, is_any(&|cross, _, _| cross.iter().all(|side| *side != 0.0))),
        (Uneven, is_any(&|_, [a, b, c], _| a != b && b != c && a != c)),
        (Upside, is_any(&|_, heights, _| heights.iter().any(|height| *height < 0.0))),
        (Vanished, is_any(&|cross, _, area| area == 0.0 && cross != [0.0; 3])),
    ]
}
