//! Holds the unchanged Rust to what docs/DIFFERENCES.md says of it: the inputs that it accepts, or panics on, and that are
//! refused here.
use oracle::core::geometry::*;
use oracle::core::mesh::{Element, ElementType, Mesh};
use oracle::geometry::{extrude_box, total_volume};
use oracle::meshing::reach::cells_for;
use oracle::meshing::{mesh_region, mesh_volume, weld_nodes, MeshConfig};
use std::panic;
use std::process::ExitCode;

const CELLS: MeshConfig = MeshConfig { lateral_cell: 1.0, z_cell: 1.0 };

fn main() -> ExitCode {
    panic::set_hook(Box::new(|_| {}));
    let lines = [
        ("the total volume of no regions is -0", is_minus_zero(total_volume(&[]))),
        ("4,097 regions have a total volume", total_volume(&vec![boxed(1); 4097]) == 4097.0),
        ("a box of material 769 is extruded", boxed(769).material_id == 769),
        ("513 points have an area", polygon_signed_area(&vec![Point::new(0.0, 0.0); 513]) == 0.0),
        ("an area with a not-a-number is not a number", polygon_signed_area(&points(&[(f64::NAN, 0.0), (1.0, 0.0), (0.0, 1.0)])).is_nan()),
        ("a coordinate above 2^20 has an area", polygon_signed_area(&points(&[(0.0, 0.0), (1048577.0, 0.0), (0.0, 1.0)])) == 524288.5),
        ("bounds pass over a not-a-number", Bbox::from_points(&points(&[(f64::NAN, 0.0)])).max_y == 0.0),
        ("a prism with a not-a-number panics in a sort", panics(|| mesh_region(&prism(&[(0.0, f64::NAN), (1.0, 0.0), (1.0, 1.0)]), &CELLS).is_ok())),
        ("a cell size that is not a number gives one cell", cells_for(1.0, f64::NAN) == 1),
        ("4,097 cells are accepted", cells_for(4097.0, 1.0) == 4097),
        ("1 / 5e-324 is usize::MAX cells", cells_for(1.0, 5e-324) == usize::MAX),
        ("a volume reads past the nodes and panics", panics(|| mesh_volume(&dangling()))),
        ("a weld reads past the nodes and panics", panics(|| weld_nodes(&dangling(), 1.0).nodes.len())),
        ("a scanline node lies at 2^20 + 2", reaches(&[(0.0, 0.0), (524289.0, 5e-16), (0.0, 1e-15)], 1048578.0)),
        ("a scanline node lies at 5e14", reaches(&[(1.0, 5e-16), (1.0, 1e-30), (0.0, 0.0), (0.0, -5e-16)], 5e14)),
    ];
    for (line, holds) in lines {
        if !holds {
            println!("differences: the Rust does otherwise: {line}");
        }
    }
    let failed = lines.iter().filter(|line| !line.1).count();
    println!("{} differences held to the Rust, {failed} failed", lines.len());
    if failed == 0 { ExitCode::SUCCESS } else { ExitCode::FAILURE }
}

fn points(at: &[(f64, f64)]) -> Vec<Point> {
    at.iter().map(|&(x, y)| Point::new(x, y)).collect()
}

fn is_minus_zero(x: f64) -> bool {
    x == 0.0 && x.is_sign_negative()
}

fn panics<T>(job: impl FnOnce() -> T + panic::UnwindSafe) -> bool {
    panic::catch_unwind(job).is_err()
}

/// A box of volume 1.
fn boxed(material: u32) -> SolidRegion {
    extrude_box(Bbox { min_x: 0.0, min_y: 0.0, max_x: 1.0, max_y: 1.0 }, 0.0, 1.0, material, None, None, None)
}

fn prism(footprint: &[(f64, f64)]) -> SolidRegion {
    SolidRegion {
        material_id: 1,
        net: None,
        layer: None,
        device_ref: None,
        source_polygon: None,
        solid: Solid::Prism { footprint: points(footprint), z_bottom: 0.0, z_top: 1.0 },
    }
}

/// No node, and an element that names four times node 0.
fn dangling() -> Mesh {
    let element = Element {
        kind: ElementType::Tet,
        nodes: vec![0; 4],
        material_id: 0,
        net: None,
        layer: None,
        device_ref: None,
        source_polygon: None,
    };
    Mesh { elements: vec![element], ..Mesh::default() }
}

/// Whether a node of the prism is this far from the y axis, and none is farther.
fn reaches(footprint: &[(f64, f64)], far: f64) -> bool {
    let farthest = |mesh: Mesh| mesh.nodes.iter().fold(0.0, |most: f64, node| most.max(node.x.abs()));
    mesh_region(&prism(footprint), &CELLS).is_ok_and(|mesh| farthest(mesh) == far)
}
