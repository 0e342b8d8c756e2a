//! Jobs of the calls that mesh a model: what is lent, and what is given.
mod by_hand;
mod draw;
mod rows;
mod spoil;

use crate::case::List;
use crate::meshes;
use crate::regions::Regions;

#[derive(Clone, Copy, PartialEq)]
pub enum Call {
    MeshModel,
    MeshModelWithOptions,
}

#[derive(Clone)]
pub struct Job {
    pub call: Call,
    pub regions: Regions,
    pub xs: List,
    pub ys: List,
    /// `mesh_model` has none.
    pub overrides: Overrides,
    /// The default cell sizes, across and in height.
    pub cells: [f64; 2],
    /// The nodes and elements that the mesh has already.
    pub counts: [usize; 2],
    /// The lengths of xs, ys, zs, kinds, node places and regions.
    pub lengths: [usize; 6],
    pub diagnostics: usize,
}

/// A material a row, and its cell sizes.
#[derive(Clone, Default)]
pub struct Overrides {
    pub materials: Vec<u32>,
    /// Across, and in height.
    pub sizes: [Vec<f64>; 2],
}

/// What an accepted call writes: the nodes and elements of all regions, the place of its region for each element, and a diagnostic a region.
/// What is said of the model, and whether the Rust's own model call was asked, are only counted.
pub struct Given {
    pub mesh: meshes::Given,
    pub regions: Vec<u32>,
    pub tried: Vec<Option<meshes::Fault>>,
    pub said: Vec<Kind>,
    pub asked: bool,
}

/// Why a model is not meshed, in the order in which it is tried.
#[derive(Clone, Copy, PartialEq, Debug)]
pub enum Fault {
    RegionLists,
    PointLists,
    OverrideLists,
    MeshLists,
    ManyRegions,
    LongPoints,
    ManyOverrides,
    NodeCount,
    ElementCount,
    OverrideMaterial,
    Diagnostics,
}

/// What is counted of a model; several may be true of it.
#[derive(Clone, Copy, PartialEq)]
pub enum Kind {
    NoRegion,
    /// More than a hundred regions, and 4,096.
    Hundreds,
    MostRegions,
    /// A box and a prism are meshed.
    Mixed,
    AllMeshed,
    AllRefused,
    /// A region is meshed after one that is refused; after one that does not fit.
    MeshedAfterRefused,
    MeshedAfterFull,
    /// A box of material 0 is meshed; one of 768.
    Unassigned,
    LargestMaterial,
    /// A box is meshed whose start and count are no part; a prism whose first bounds are not admitted.
    BoxPartUnread,
    PrismBoundsUnread,
    /// A box is meshed with the sizes of an override; of the last of two that differ; with those, where the default is bad.
    Overridden,
    LaterWins,
    DefaultBad,
    /// A region is meshed although an override that it does not use is bad; a prism although that of its material is.
    OtherBad,
    PrismWithBad,
    MostOverrides,
    /// Beside nodes and elements that were there.
    Appended,
    /// No entry of the mesh's lists is left; no diagnostic is.
    ExactlyFull,
    DiagnosticsFull,
    DiagnosticsLeft,
    /// The mesh is as large as may be.
    MostNodes,
}

use Fault::*;
use Kind::*;

pub const FAULTS: [(Fault, u32, &str); 11] = [
    (RegionLists, 16, "region lists"),
    (PointLists, 16, "point lists"),
    (OverrideLists, 16, "override lists"),
    (MeshLists, 16, "mesh lists"),
    (ManyRegions, 2, "many regions"),
    (LongPoints, 2, "long point lists"),
    (ManyOverrides, 2, "many overrides"),
    (NodeCount, 15, "count of nodes"),
    (ElementCount, 15, "count of elements"),
    (OverrideMaterial, 15, "an override's material"),
    (Diagnostics, 12, "diagnostics"),
];

pub const KINDS: [(Kind, &str); 23] = [
    (NoRegion, "no region"),
    (Hundreds, "hundreds"),
    (MostRegions, "4,096 regions"),
    (Mixed, "boxes and prisms"),
    (AllMeshed, "all meshed"),
    (AllRefused, "all refused"),
    (MeshedAfterRefused, "meshed after a refused one"),
    (MeshedAfterFull, "meshed after one that does not fit"),
    (Unassigned, "material 0"),
    (LargestMaterial, "material 768"),
    (BoxPartUnread, "a box's part unread"),
    (PrismBoundsUnread, "a prism's bounds unread"),
    (Overridden, "overridden"),
    (LaterWins, "the later wins"),
    (DefaultBad, "overridden bad default"),
    (OtherBad, "bad override unused"),
    (PrismWithBad, "bad override of a prism"),
    (MostOverrides, "4,096 overrides"),
    (Appended, "appended"),
    (ExactlyFull, "exactly full"),
    (DiagnosticsFull, "diagnostics full"),
    (DiagnosticsLeft, "diagnostics left"),
    (MostNodes, "1,048,576 nodes"),
];

/// Those of a call with overrides.
const OF_OVERRIDES: [Kind; 6] = [Overridden, LaterWins, DefaultBad, OtherBad, PrismWithBad, MostOverrides];

/// Why a region of a model may be refused, in the order in which it is tried: a box, then a prism.
pub const REGION_FAULTS: [meshes::Fault; 21] = {
    use meshes::Fault::*;
    [
        NoKind, Material, Part, Bounds, Extent, CellSize, NotPositive, TooMany, LongPart, Coordinate, Height, Upside, TooFew,
        OneLevel, Crossing, NoTrapezoid, FarNode, NodesMost, NodeRoom, ElementsMost, ElementRoom,
    ]
};

/// What is counted of the meshed regions.
pub const REGION_KINDS: [meshes::Kind; 6] = {
    use meshes::Kind::*;
    [OneCell, MostCells, Rectilinear, Clipped, Stalled, Cleaned]
};

impl Fault {
    /// The refusal's number.
    pub fn status(self) -> u32 {
        FAULTS[self as usize].1
    }
}

impl Call {
    /// The exported name without `openrdson_`.
    pub fn name(self) -> &'static str {
        match self {
            Call::MeshModel => "mesh_model",
            Call::MeshModelWithOptions => "mesh_model_with_options",
        }
    }

    /// The reasons that it has, in the order in which they are tried.
    pub fn faults(self) -> impl Iterator<Item = Fault> {
        let is_its = move |fault: &Fault| self.has_overrides() || !matches!(fault, OverrideLists | ManyOverrides | OverrideMaterial);
        FAULTS.iter().map(|fault| fault.0).filter(is_its)
    }

    /// The kinds of models that are counted; each must be drawn.
    pub fn kinds(self) -> impl Iterator<Item = Kind> {
        KINDS.iter().map(|kind| kind.0).filter(move |kind| self.has_overrides() || !OF_OVERRIDES.contains(kind))
    }

    pub fn has_overrides(self) -> bool {
        self == Call::MeshModelWithOptions
    }
}

impl Overrides {
    pub fn push(&mut self, material: u32, cells: [f64; 2]) {
        self.materials.push(material);
        self.sizes.iter_mut().zip(cells).for_each(|(list, size)| list.push(size));
    }

    /// The cell sizes of those that name a material, in order.
    pub fn of(&self, material: u32) -> impl Iterator<Item = [f64; 2]> + '_ {
        let named = self.materials.iter().enumerate().filter(move |(_, named)| **named == material);
        named.map(|(i, _)| [self.sizes[0][i], self.sizes[1][i]])
    }

    fn same(&self, other: &Overrides) -> bool {
        self.materials == other.materials && self.sizes.iter().zip(&other.sizes).all(|(a, b)| same_bits(a, b))
    }
}

impl Given {
    /// "each diagnostic 0 or its refusal"
    pub fn diagnostics(&self) -> impl Iterator<Item = u32> + '_ {
        self.tried.iter().map(|fault| fault.map_or(0, meshes::Fault::status))
    }
}

fn same_bits(a: &[f64], b: &[f64]) -> bool {
    a.iter().map(|x| x.to_bits()).eq(b.iter().map(|x| x.to_bits()))
}

impl Job {
    /// Whether the lists that no call may write to are the same, floats by their bits.
    pub fn same_lists(&self, other: &Job) -> bool {
        let (rows, others) = (&self.regions, &other.regions);
        rows.kinds == others.kinds
            && rows.bounds.iter().zip(&others.bounds).all(|(a, b)| same_bits(a, b))
            && rows.numbers == others.numbers
            && same_bits(&self.xs, &other.xs)
            && same_bits(&self.ys, &other.ys)
            && self.overrides.same(&other.overrides)
    }

    /// The job of this number; it depends on nothing else.
    pub fn draw(call: Call, seed: u64, number: u64) -> Job {
        by_hand::job(call, number).unwrap_or_else(|| draw::job(call, seed, number))
    }

    /// Region i as the job of a region call, but for the cell sizes and the mesh. A prism is lent its part of the point lists alone, since no other point
    /// is looked at; one whose part is not in the lists is lent none.
    pub fn region(&self, i: usize) -> Result<meshes::Job, meshes::Fault> {
        let row = self.regions.row(i);
        let [_, _, material, net, polygon] = row.numbers;
        let (mut xs, mut ys) = (vec![], vec![]);
        let (call, solid) = match row.kind {
            0 => (meshes::Call::MeshBoxRegion, meshes::Solid::Box(row.bounds)),
            1 => {
                let mut start = row.numbers[0];
                if row.part().end <= self.xs.len() {
                    (xs, ys, start) = (self.xs[row.part()].to_vec(), self.ys[row.part()].to_vec(), 0);
                }
                (meshes::Call::MeshPrismRegion, meshes::Solid::Prism { heights: row.heights(), start, count: row.numbers[1] })
            }
            _ => return Err(meshes::Fault::NoKind),
        };
        let (xs, ys, region, labels) = (xs.into(), ys.into(), i as u32, [net, polygon]);
        Ok(meshes::Job { call, solid, xs, ys, material, region, labels, cells: [0.0; 2], counts: [0; 2], lengths: [0; 6] })
    }
}
