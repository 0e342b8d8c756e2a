//! Jobs of the calls that mesh a region: what is lent, and what is given.
pub mod boxes;
pub mod lists;
pub mod prisms;

pub use lists::lengths;

use crate::case::List;

#[derive(Clone, Copy, PartialEq)]
pub enum Call {
    MeshBox,
    MeshPrism,
    MeshBoxRegion,
    MeshPrismRegion,
}

#[derive(Clone)]
pub struct Job {
    pub call: Call,
    pub solid: Solid,
    /// The point lists; `mesh_box` has none.
    pub xs: List,
    pub ys: List,
    pub material: u32,
    /// The number that its elements carry.
    pub region: u32,
    /// A net and a polygon, which only the calls on a region are given, and nothing depends on.
    pub labels: [u32; 2],
    /// Across, and in height; a prism's are not looked at, and `mesh_prism` has none.
    pub cells: [f64; 2],
    /// The nodes and elements that the mesh has already.
    pub counts: [usize; 2],
    /// The lengths of xs, ys, zs, kinds, node places and regions.
    pub lengths: [usize; 6],
}

#[derive(Clone)]
pub enum Solid {
    /// min_x, min_y, max_x, max_y, z_bottom, z_top.
    Box([f64; 6]),
    /// z_bottom and z_top, and a part of the point lists.
    Prism { heights: [f64; 2], start: u32, count: u32 },
}

/// The nodes and elements of a region; eight places an element, which are numbers in the whole mesh.
pub struct Given {
    pub nodes: Vec<[f64; 3]>,
    pub kinds: Vec<u8>,
    pub places: Vec<u32>,
    pub said: Vec<Kind>,
}

/// Why a region is not meshed; of each call in the order in which it is tried.
#[derive(Clone, Copy, PartialEq, Debug)]
pub enum Fault {
    Lists,
    PointLists,
    NodeCount,
    ElementCount,
    /// Of a model's region, which is neither a box nor a prism.
    NoKind,
    Material,
    Bounds,
    Extent,
    CellSize,
    NotPositive,
    TooMany,
    Part,
    LongLists,
    LongPart,
    Coordinate,
    Height,
    Upside,
    /// The scanline's.
    TooFew,
    OneLevel,
    Crossing,
    NoTrapezoid,
    FarNode,
    /// The mesh would have more than it may; the list is too short.
    NodesMost,
    NodeRoom,
    ElementsMost,
    ElementRoom,
}

/// What is counted of a mesh; several may be true of it.
#[derive(Clone, Copy)]
pub enum Kind {
    OneCell,
    /// An axis of 4,096 cells.
    MostCells,
    /// Two neighbours on an axis have the same coordinate.
    Repeated,
    /// A lower end of -0, whose node is at +0; an upper one, whose node is at -0.
    LowMinusZero,
    HighMinusZero,
    /// By the scanline, since it is rectilinear; by its triangles; by the scanline, since clipping refuses.
    Rectilinear,
    Clipped,
    Stalled,
    /// Cleaning drops a point; cleaning again drops one more; and leaves fewer than three.
    Cleaned,
    CleanedAgain,
    AgainTooFew,
    /// A height is not that of the level that it counts with; two levels are less than 2e-15 apart.
    LevelDropped,
    ThinBand,
    /// A point is at the height of a band's middle.
    EndOnMiddle,
    /// Two neighbouring crossings give no quad.
    FlatQuad,
    /// A node has a coordinate -0.
    MinusZero,
    /// The part has points before it and after it.
    Amid,
    MostPoints,
    /// Beside nodes and elements that were there.
    Appended,
    /// No entry is left in any list.
    ExactlyFull,
    /// More than 100,000 nodes.
    Large,
}

use Fault::*;
use Kind::*;

pub const FAULTS: [(Fault, u32, &str); 26] = [
    (Lists, 16, "lists"),
    (PointLists, 16, "point lists"),
    (NodeCount, 15, "count of nodes"),
    (ElementCount, 15, "count of elements"),
    (NoKind, 15, "kind"),
    (Material, 15, "material"),
    (Bounds, 1, "bounds"),
    (Extent, 5, "extent"),
    (CellSize, 1, "cell size"),
    (NotPositive, 6, "not positive"),
    (TooMany, 7, "too many cells"),
    (Part, 15, "part"),
    (LongLists, 2, "long point lists"),
    (LongPart, 2, "long part"),
    (Coordinate, 1, "coordinate"),
    (Height, 1, "height"),
    (Upside, 8, "top not above bottom"),
    (TooFew, 3, "under three"),
    (OneLevel, 9, "one level"),
    (Crossing, 1, "crossing"),
    (NoTrapezoid, 11, "no trapezoid"),
    (FarNode, 1, "node"),
    (NodesMost, 12, "above a mesh's nodes"),
    (NodeRoom, 12, "no room for nodes"),
    (ElementsMost, 12, "above a mesh's elements"),
    (ElementRoom, 12, "no room for elements"),
];

/// A crossing lies between the ends of its edge, but for the rounding: no ring is known that has one past 2^20.
pub const NOT_KNOWN: Fault = Crossing;

pub const KINDS: [(Kind, &str); 21] = [
    (OneCell, "one cell"),
    (MostCells, "4,096 cells"),
    (Repeated, "repeated coordinate"),
    (LowMinusZero, "low -0"),
    (HighMinusZero, "high -0"),
    (Rectilinear, "rectilinear"),
    (Clipped, "clipped"),
    (Stalled, "stalled"),
    (Cleaned, "cleaned"),
    (CleanedAgain, "cleaned again"),
    (AgainTooFew, "again under three"),
    (LevelDropped, "level dropped"),
    (ThinBand, "thin band"),
    (EndOnMiddle, "end on a middle"),
    (FlatQuad, "flat quad"),
    (MinusZero, "-0"),
    (Amid, "amid other points"),
    (MostPoints, "512 points"),
    (Appended, "appended"),
    (ExactlyFull, "exactly full"),
    (Large, "large"),
];

const BOX_FAULTS: [Fault; 14] = [
    Lists, PointLists, NodeCount, ElementCount, Material, Bounds, Extent, CellSize, NotPositive, TooMany,
    NodesMost, NodeRoom, ElementsMost, ElementRoom,
];

const PRISM_FAULTS: [Fault; 20] = [
    Lists, PointLists, NodeCount, ElementCount, Material, Part, LongLists, LongPart, Coordinate, Height, Upside,
    TooFew, OneLevel, Crossing, NoTrapezoid, FarNode, NodesMost, NodeRoom, ElementsMost, ElementRoom,
];

const BOX_KINDS: [Kind; 8] =
    [OneCell, MostCells, Appended, ExactlyFull, Repeated, LowMinusZero, HighMinusZero, Large];

const PRISM_KINDS: [Kind; 16] = [
    Rectilinear, Clipped, Stalled, Cleaned, CleanedAgain, AgainTooFew, LevelDropped, ThinBand, EndOnMiddle, FlatQuad,
    MinusZero, Amid, MostPoints, Appended, ExactlyFull, Large,
];

impl Given {
    /// Whether the nodes and elements are the same, floats by their bits.
    pub fn same(&self, other: &Given) -> bool {
        let bits = |nodes: &[[f64; 3]]| nodes.iter().map(|node| node.map(f64::to_bits)).collect::<Vec<_>>();
        self.kinds == other.kinds && self.places == other.places && bits(&self.nodes) == bits(&other.nodes)
    }
}

impl Fault {
    /// The refusal's number.
    pub fn status(self) -> u32 {
        FAULTS[self as usize].1
    }
}

impl Call {
    /// The exported name without `openrdson_`.
    pub fn name(self) -> &'static str {
        match self {
            Call::MeshBox => "mesh_box",
            Call::MeshPrism => "mesh_prism",
            Call::MeshBoxRegion => "mesh_box_region",
            Call::MeshPrismRegion => "mesh_prism_region",
        }
    }

    /// The reasons that it has, in the order in which they are tried.
    pub fn faults(self) -> impl Iterator<Item = Fault> {
        let all: &[Fault] = if self.is_on_box() { &BOX_FAULTS } else { &PRISM_FAULTS };
        all.iter().copied().filter(move |fault| self != Call::MeshBox || *fault != PointLists)
    }

    /// The kinds of meshes that are counted; each must be drawn.
    pub fn kinds(self) -> &'static [Kind] {
        if self.is_on_box() { &BOX_KINDS } else { &PRISM_KINDS }
    }

    fn is_on_box(self) -> bool {
        matches!(self, Call::MeshBox | Call::MeshBoxRegion)
    }

    fn is_on_region(self) -> bool {
        matches!(self, Call::MeshBoxRegion | Call::MeshPrismRegion)
    }
}

impl Job {
    /// The job of this number; it depends on nothing else.
    pub fn draw(call: Call, seed: u64, number: u64) -> Job {
        if call.is_on_box() {
            boxes::job(call, seed, number)
        } else {
            prisms::job(call, seed, number)
        }
    }
}
