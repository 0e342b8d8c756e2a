//! The Rust's mesh of a prism.
use super::{is_minus_zero, region, sizes_of, true_of};
use crate::meshes::Kind::*;
use crate::meshes::{Fault, Job, Kind, Solid};
use crate::rules::meshes::prisms as rules;
use crate::rules::meshes::room;
use crate::rules::meshes::scanline::{scanned, Scanned};
use oracle::core::geometry::Point;
use oracle::core::mesh::Mesh;
use oracle::meshing::reach::{dedup_ring, ring_is_rectilinear};
use oracle::meshing::{mesh_region, triangulate_polygon, MeshConfig};

/// "Cell sizes aren't looked at."
const CELLS: MeshConfig = MeshConfig { lateral_cell: f64::NAN, z_cell: f64::NAN };

pub fn meshed(job: &Job) -> Result<(Mesh, Vec<Kind>), Fault> {
    let judged = rules::judged(job);
    if !matches!(judged, Ok(()) | Err(Fault::Upside)) {
        judged?;
    }
    let rust = mesh_region(&region(job), &CELLS).map_err(|why| fault_of(&why));
    if judged.is_err() {
        assert_eq!(rust.as_ref().err(), judged.as_ref().err(), "the rules and the Rust differ: {:?}", rules::part(job));
        judged?;
    }
    let ring = Footprint::of(job);
    let scanned = ring.is_scanned().then(|| scanned(&ring.once));
    let mesh = ring.held(rust, scanned.as_ref())?;
    // "1 for a node"
    if mesh.nodes.iter().any(|node| !(node.x.abs() <= 1_048_576.0)) {
        return Err(Fault::FarNode);
    }
    room(job, sizes_of(&mesh))?;
    let said = ring.said(job, scanned.as_ref(), &mesh);
    Ok((mesh, said))
}

/// How many nodes and elements the Rust's mesh has; none where the rules refuse the prism, whatever the mesh's lists are.
pub fn sizes(job: &Job) -> Option<[usize; 2]> {
    rules::judged(job).ok()?;
    mesh_region(&region(job), &CELLS).ok().map(|mesh| sizes_of(&mesh))
}

/// The refusal that the Rust's text stands for; "odd crossing count" is none of these.
pub fn fault_of(why: &str) -> Fault {
    match why {
        _ if why.contains("degenerate prism") => Fault::Upside,
        _ if why.contains("fewer than 3") => Fault::TooFew,
        _ if why.contains("degenerate y") => Fault::OneLevel,
        _ if why.contains("no interior trapezoids") => Fault::NoTrapezoid,
        _ => panic!("the Rust says of a prism: {why}"),
    }
}

/// A ring, and how it is meshed.
struct Footprint {
    points: usize,
    once: Vec<(f64, f64)>,
    twice: usize,
    way: Kind,
}

impl Footprint {
    fn of(job: &Job) -> Footprint {
        let (xs, ys) = rules::part(job);
        let once = dedup_ring(&super::points(xs, ys));
        let way = match () {
            _ if ring_is_rectilinear(&once) => Rectilinear,
            _ if triangulate_polygon(&once).is_ok() => Clipped,
            _ => Stalled,
        };
        let points = |ring: &[Point]| ring.iter().map(|p| (p.x, p.y)).collect();
        Footprint { points: xs.len(), twice: dedup_ring(&once).len(), once: points(&once), way }
    }

    fn is_scanned(&self) -> bool {
        !matches!(self.way, Clipped)
    }

    /// The Rust's mesh, or the scanline's refusal by the rules; where the Rust has it too, the two must be the same.
    fn held(&self, rust: Result<Mesh, Fault>, scanned: Option<&Scanned>) -> Result<Mesh, Fault> {
        let Some(scanned) = scanned else {
            return Ok(rust.expect("a ring that is clipped has a mesh"));
        };
        let judged = scanned.judged(&self.once);
        match (judged, &rust) {
            // The Rust knows no such refusal.
            (Err(Fault::Crossing), _) => {}
            (Err(fault), _) => assert_eq!(rust.as_ref().err(), Some(&fault), "{:?}", self.once),
            (Ok(()), Err(fault)) => assert_eq!(*fault, Fault::NoTrapezoid, "{:?}", self.once),
            (Ok(()), Ok(_)) => {}
        }
        judged?;
        rust
    }

    /// What is counted of a prism that is meshed.
    fn said(&self, job: &Job, scanned: Option<&Scanned>, mesh: &Mesh) -> Vec<Kind> {
        let Solid::Prism { start, .. } = job.solid else { unreachable!() };
        let is_amid = start > 0 && start as usize + self.points < job.xs.len();
        let n = self.once.len();
        let kinds = [
            (self.way, true),
            (Cleaned, n < self.points),
            (CleanedAgain, self.twice < n),
            (AgainTooFew, self.twice < 3),
            (MinusZero, mesh.nodes.iter().any(|p| [p.x, p.y, p.z].into_iter().any(is_minus_zero))),
            (Amid, is_amid),
            (MostPoints, self.points == 512),
        ];
        let of_levels = scanned.map_or(vec![], |scanned| scanned_said(scanned, mesh));
        true_of(kinds.into_iter().chain(of_levels)).collect()
    }
}

/// What is counted of a scanline.
fn scanned_said(scanned: &Scanned, mesh: &Mesh) -> Vec<(Kind, bool)> {
    vec![
        (LevelDropped, scanned.is_level_moved),
        (ThinBand, scanned.levels.windows(2).any(|band| band[1] - band[0] < 2e-15)),
        (EndOnMiddle, scanned.is_end_on_middle),
        (FlatQuad, mesh.elements.len() < 2 * scanned.pairs),
    ]
}
