//! The volume of a mesh, and its weld. The Rust is handed a mesh that was made before.
use crate::row::{effort, lent, Effort, Row, Sides};
use cases::expected::meshes::region;
use cases::expected::welds::{lists_of, of_the_rust};
use cases::meshes::{boxes, lengths, Call::MeshBox};
use cases::welds::{Call, Job, Mesh};
use oracle::core::mesh;
use oracle::meshing::{mesh_region, mesh_volume, weld_nodes, MeshConfig};
use rattle::meshes;
use rattle::welds::{call, Left};
use std::hint::black_box;

const TOLERANCE: f64 = 1e-9;

/// The Rust's rounds of a weld that takes Rattle seconds.
const ONCE: Effort = Effort { is_slow: true, ..effort(20, 1) };

pub fn rows() -> Vec<Row> {
    vec![
        Row::new("mesh_volume", "a million hexes", effort(15, 1), || volume(grid([100, 100, 100]))),
        Row::new("mesh_volume", "a million prisms", effort(15, 1), || volume(halved(&grid([100, 100, 50])))),
        Row::new("weld_nodes", "10,000 nodes of one box", effort(2, 1), || weld(grid([9, 9, 99]))),
        Row::new("weld_nodes", "10,000 nodes of 1,250 boxes", effort(5, 1), || weld(side_by_side(25, 50))),
        Row::new("weld_nodes", "20,000 nodes of one box", ONCE, || weld(grid([9, 19, 99]))),
        Row::new("weld_nodes", "100,000 nodes of one box", ONCE, || weld(grid([9, 99, 99]))),
        Row::new("weld_nodes", "100,000 nodes of 12,500 boxes", ONCE, || weld(side_by_side(100, 125))),
    ]
}

fn volume(mesh: Mesh) -> Sides {
    let expected = mesh_volume(&of_the_rust(&mesh));
    let rust = move |mesh: &mesh::Mesh| assert!(black_box(mesh_volume(black_box(mesh))) == expected);
    sides(Call::MeshVolume, mesh, [0; 6], rust, move |left| left.volume == expected)
}

fn weld(mesh: Mesh) -> Sides {
    let kept = weld_nodes(&of_the_rust(&mesh), TOLERANCE).nodes.len();
    let elements = mesh.kinds.len();
    let rust = move |mesh: &mesh::Mesh| assert!(black_box(weld_nodes(black_box(mesh), TOLERANCE)).nodes.len() == kept);
    sides(Call::WeldNodes, mesh, lengths(kept, elements), rust, move |left| left.mesh.counts == [kept, elements])
}

/// The lists that are read are there before, those of these lengths are lent.
fn sides(
    of: Call, mesh: Mesh, lengths: [usize; 6], rust: impl Fn(&mesh::Mesh) + Send + 'static, is_right: impl Fn(&Left) -> bool + Send + 'static,
) -> Sides {
    let of_rust = of_the_rust(&mesh);
    let job = Job { call: of, mesh, is_made: true, tolerance: TOLERANCE, lengths: [0; 6] };
    let before = Left::before(&job);
    let lists = move |_: &mesh::Mesh| Left { mesh: meshes::Left::of([0; 2], lengths), ..before };
    let rattle = move |_: &mesh::Mesh, lists: &mut Left| {
        call(black_box(&job), lists);
        assert!(black_box(&*lists).mesh.status == 0 && is_right(lists));
    };
    lent(of_rust, rust, lists, rattle)
}

/// The mesh of a box with so many cells on each axis.
fn grid(cells: [usize; 3]) -> Mesh {
    let [x, y, z] = cells.map(|n| n as f64);
    let job = boxes::filling(MeshBox, [0.0, 0.0, x, y, 0.0, z], [1.0; 2]);
    let mesh = mesh_region(&region(&job), &MeshConfig { lateral_cell: 1.0, z_cell: 1.0 }).expect("a box");
    let elements = mesh.elements.len();
    lists_of(&mesh, vec![0; elements])
}

/// Two prisms for each hex.
fn halved(hexes: &Mesh) -> Mesh {
    let mut mesh = Mesh { coordinates: hexes.coordinates.clone(), ..Mesh::default() };
    for hex in 0..hexes.kinds.len() {
        for corners in [[0, 1, 2, 4, 5, 6], [0, 2, 3, 4, 6, 7]] {
            mesh.push_element(2, &corners.map(|corner| hexes.places_of(hex)[corner]), 0);
        }
    }
    mesh
}

/// Boxes of one cell, each with eight nodes of its own.
fn side_by_side(wide: usize, deep: usize) -> Mesh {
    let mut mesh = Mesh::default();
    for at in 0..wide * deep {
        let (x, y, first) = ((at % wide) as f64, (at / wide) as f64, mesh.sizes()[0] as u32);
        for z in [0.0, 1.0] {
            [[x, y, z], [x + 1.0, y, z], [x + 1.0, y + 1.0, z], [x, y + 1.0, z]].into_iter().for_each(|node| mesh.push_node(node));
        }
        mesh.push_element(1, &std::array::from_fn::<u32, 8, _>(|corner| first + corner as u32), at as u32);
    }
    mesh
}
