//! What is expected of a call that meshes a region: a refusal by the rules (`rules`), or else the unchanged Rust's mesh, after the nodes and
//! elements that are there. Where the Rust has a text for a refusal, the two must be the same.
mod boxes;
mod prisms;

pub use prisms::sizes as prism_sizes;

use super::points;
use crate::meshes::Kind::*;
use crate::meshes::{Fault, Given, Job, Solid};
use crate::rules::meshes::prisms::part;
use oracle::core::geometry::{self, SolidRegion};
use oracle::core::mesh::{Element, ElementType, Mesh};

pub fn answer(job: &Job) -> Result<Given, Fault> {
    let (mesh, said) = match &job.solid {
        Solid::Box(bounds) => boxes::meshed(job, bounds)?,
        Solid::Prism { .. } => prisms::meshed(job)?,
    };
    let [nodes, elements] = sizes_of(&mesh);
    let full = [job.counts[0] + nodes, job.counts[1] + elements] == [job.lengths[0], job.lengths[3]];
    let everywhere =
        [(Appended, job.counts[0] > 0 && job.counts[1] > 0), (ExactlyFull, full), (Large, nodes > 100_000)];
    Ok(Given { said: said.into_iter().chain(true_of(everywhere)).collect(), ..given(&mesh, job.counts[0]) })
}

/// The Rust's mesh, after so many nodes that are there.
pub fn given(mesh: &Mesh, base: usize) -> Given {
    Given {
        nodes: mesh.nodes.iter().map(|p| [p.x, p.y, p.z]).collect(),
        kinds: mesh.elements.iter().map(kind).collect(),
        places: mesh.elements.iter().flat_map(|element| places(element, base as u32)).collect(),
        said: vec![],
    }
}

/// The refusal that the Rust's text on a box or on a prism stands for.
pub fn fault_of(is_box: bool, why: &str) -> Fault {
    if is_box { boxes::fault_of(why) } else { prisms::fault_of(why) }
}

/// Whether the Rust has a text for the refusal: it refuses these and no other.
pub fn is_known_to_the_rust(fault: Fault) -> bool {
    use Fault::*;
    matches!(fault, Extent | NotPositive | Upside | TooFew | OneLevel | NoTrapezoid)
}

/// The kinds that are true.
pub fn true_of<K>(kinds: impl IntoIterator<Item = (K, bool)>) -> impl Iterator<Item = K> {
    kinds.into_iter().filter(|kind| kind.1).map(|kind| kind.0)
}

fn sizes_of(mesh: &Mesh) -> [usize; 2] {
    [mesh.nodes.len(), mesh.elements.len()]
}

/// The Rust's region; no entry of the lists depends on its net and its polygon.
pub fn region(job: &Job) -> SolidRegion {
    let solid = match job.solid {
        Solid::Box([min_x, min_y, max_x, max_y, z_bottom, z_top]) => {
            geometry::Solid::Box { min_x, min_y, max_x, max_y, z_bottom, z_top }
        }
        Solid::Prism { heights: [z_bottom, z_top], .. } => {
            let (xs, ys) = part(job);
            geometry::Solid::Prism { footprint: points(xs, ys), z_bottom, z_top }
        }
    };
    SolidRegion { material_id: job.material, net: None, layer: None, device_ref: None, source_polygon: None, solid }
}

/// "a kind (0 tet, 1 hex, 2 prism, 3 pyramid, with 4, 8, 6, 5 nodes)"
fn kind(element: &Element) -> u8 {
    match element.kind {
        ElementType::Tet if element.nodes.len() == 4 => 0,
        ElementType::Hex if element.nodes.len() == 8 => 1,
        ElementType::Prism if element.nodes.len() == 6 => 2,
        ElementType::Pyramid if element.nodes.len() == 5 => 3,
        _ => panic!("an element of no kind"),
    }
}

/// "eight node places (u32, unused ones 4,294,967,295)", where the mesh has so many nodes already.
fn places(element: &Element, base: u32) -> impl Iterator<Item = u32> + '_ {
    element.nodes.iter().map(move |node| node + base).chain(std::iter::repeat(u32::MAX)).take(8)
}

pub fn is_minus_zero(x: f64) -> bool {
    x.to_bits() == (-0.0f64).to_bits()
}
