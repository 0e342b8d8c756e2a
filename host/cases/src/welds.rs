//! Jobs of the calls on a whole mesh, `weld_nodes` and `mesh_volume`: what is lent, and what is given.
mod by_hand;
mod draw;
mod made;
mod spoil;

use crate::meshes;

#[derive(Clone, Copy, PartialEq)]
pub enum Call {
    WeldNodes,
    MeshVolume,
}

/// The lists of a mesh, which hold nothing past it.
#[derive(Clone, Default)]
pub struct Mesh {
    pub coordinates: [Vec<f64>; 3],
    pub kinds: Vec<u8>,
    pub places: Vec<u32>,
    pub regions: Vec<u32>,
}

#[derive(Clone)]
pub struct Job {
    pub call: Call,
    pub mesh: Mesh,
    /// Whether the Rust made the mesh, before any damage.
    pub is_made: bool,
    /// The weld's, and the lengths of the lists that it writes: xs, ys, zs, kinds, node places and regions.
    pub tolerance: f64,
    pub lengths: [usize; 6],
}

/// What an accepted call gives.
pub enum Given {
    Welded { mesh: meshes::Given, regions: Vec<u32> },
    Volume(f64),
}

/// Why a mesh is refused, in the order in which it is tried.
#[derive(Clone, Copy, PartialEq, Debug)]
pub enum Fault {
    NodeLists,
    PlaceList,
    RegionList,
    OutNodeLists,
    OutPlaceList,
    OutRegionList,
    ManyNodes,
    ManyElements,
    Coordinate,
    Tolerance,
    /// An element of no kind; an unused place that is filled; each although a place before it is no node.
    NoKind,
    Filled,
    NoKindBehind,
    FilledBehind,
    NoNode,
    NodeRoom,
    ElementRoom,
}

/// What is counted of an accepted mesh; several may be true of it.
#[derive(Clone, Copy, PartialEq)]
pub enum Kind {
    Made,
    NoNodes,
    NoElements,
    /// A node that no element uses.
    Spare,
    Tets,
    Hexes,
    Prisms,
    Pyramids,
    /// An element names a node twice.
    Repeated,
    MinusZero,
    MostNodes,
    MostElements,
    /// Every node is kept, of some; some are joined; all are one.
    NoneJoined,
    Joined,
    AllJoined,
    /// Joined to a node that is not at its place; to one on the other side of zero; to one that is farther than the tolerance.
    Unlike,
    AcrossZero,
    FarJoined,
    /// Two that are kept are nearer than the tolerance on each axis.
    NearApart,
    /// A quotient is a half that rounding to the even neighbour takes elsewhere; one float from a half.
    Half,
    NearHalf,
    /// A quotient is not a number; is infinite; its key is capped, above and below; it is 2^63 in size.
    NotANumber,
    Infinite,
    CappedHigh,
    CappedLow,
    AtCap,
    ToleranceZero,
    ToleranceMinusZero,
    ToleranceNegative,
    ToleranceSubnormal,
    ToleranceMost,
    /// No entry is left in any list that is written; some are; the lists are longer than a mesh may be.
    ExactlyFull,
    RoomLeft,
    LongRoom,
    /// Elements, and no volume.
    Flat,
    /// Of a prism: its first triangle is not level; its heights differ; its top is below its bottom; its area is nothing, since the squares are.
    Tilted,
    Uneven,
    Upside,
    Vanished,
    /// Added up in the other order, the volume is another.
    OrderShows,
}

use Fault::*;
use Kind::*;

pub const FAULTS: [(Fault, u32, &str); 17] = [
    (NodeLists, 16, "node lists"),
    (PlaceList, 16, "node places"),
    (RegionList, 16, "regions"),
    (OutNodeLists, 16, "written node lists"),
    (OutPlaceList, 16, "written node places"),
    (OutRegionList, 16, "written regions"),
    (ManyNodes, 2, "many nodes"),
    (ManyElements, 2, "many elements"),
    (Coordinate, 1, "coordinate"),
    (Tolerance, 1, "tolerance"),
    (NoKind, 15, "kind"),
    (Filled, 15, "unused place filled"),
    (NoKindBehind, 15, "kind, behind no node"),
    (FilledBehind, 15, "unused place filled, behind no node"),
    (NoNode, 13, "no node"),
    (NodeRoom, 12, "no room for nodes"),
    (ElementRoom, 12, "no room for elements"),
];

pub const KINDS: [(Kind, &str); 40] = [
    (Made, "made by the Rust"),
    (NoNodes, "no node"),
    (NoElements, "no element"),
    (Spare, "a node unused"),
    (Tets, "tets"),
    (Hexes, "hexes"),
    (Prisms, "prisms"),
    (Pyramids, "pyramids"),
    (Repeated, "a node twice"),
    (MinusZero, "-0"),
    (MostNodes, "1,048,576 nodes"),
    (MostElements, "1,048,576 elements"),
    (NoneJoined, "none joined"),
    (Joined, "joined"),
    (AllJoined, "all joined"),
    (Unlike, "joined unlike"),
    (AcrossZero, "joined across zero"),
    (FarJoined, "joined from afar"),
    (NearApart, "near and apart"),
    (Half, "half"),
    (NearHalf, "near a half"),
    (NotANumber, "0/0"),
    (Infinite, "infinite"),
    (CappedHigh, "capped above"),
    (CappedLow, "capped below"),
    (AtCap, "2^63"),
    (ToleranceZero, "tolerance 0"),
    (ToleranceMinusZero, "tolerance -0"),
    (ToleranceNegative, "negative"),
    (ToleranceSubnormal, "subnormal"),
    (ToleranceMost, "2^20"),
    (ExactlyFull, "exactly full"),
    (RoomLeft, "room left"),
    (LongRoom, "long room"),
    (Flat, "flat"),
    (Tilted, "tilted"),
    (Uneven, "uneven"),
    (Upside, "upside down"),
    (Vanished, "vanished"),
    (OrderShows, "order shows"),
];

/// Those of each call alone begin here.
const OF_WELD: usize = NoneJoined as usize;
const OF_VOLUME: usize = Flat as usize;

impl Fault {
    /// The refusal's number.
    pub fn status(self) -> u32 {
        FAULTS[self as usize].1
    }
}

impl Call {
    /// The exported name without `openrdson_`.
    pub fn name(self) -> &'static str {
        match self {
            Call::WeldNodes => "weld_nodes",
            Call::MeshVolume => "mesh_volume",
        }
    }

    /// The reasons that it has, in the order in which they are tried.
    pub fn faults(self) -> impl Iterator<Item = Fault> {
        let of_weld = [OutNodeLists, OutPlaceList, OutRegionList, Tolerance, NodeRoom, ElementRoom];
        FAULTS.iter().map(|fault| fault.0).filter(move |fault| self.writes() || !of_weld.contains(fault))
    }

    /// The kinds of meshes that are counted; each must be drawn.
    pub fn kinds(self) -> impl Iterator<Item = Kind> {
        let own = if self.writes() { OF_WELD..OF_VOLUME } else { OF_VOLUME..KINDS.len() };
        (0..OF_WELD).chain(own).map(|place| KINDS[place].0)
    }

    /// Whether it writes lists, and is given a tolerance.
    pub fn writes(self) -> bool {
        self == Call::WeldNodes
    }
}

impl Mesh {
    /// The lengths of xs, ys, zs, kinds, node places and regions.
    pub fn lengths(&self) -> [usize; 6] {
        let [xs, ys, zs] = self.coordinates.each_ref().map(Vec::len);
        [xs, ys, zs, self.kinds.len(), self.places.len(), self.regions.len()]
    }

    /// How many nodes and elements there are, if the lists are parallel.
    pub fn sizes(&self) -> [usize; 2] {
        [self.coordinates[0].len(), self.kinds.len()]
    }

    /// Whether every entry is the same, floats by their bits.
    pub fn same(&self, other: &Mesh) -> bool {
        let bits = |mesh: &Mesh| mesh.coordinates.each_ref().map(|list| list.iter().map(|x| x.to_bits()).collect::<Vec<_>>());
        bits(self) == bits(other) && self.kinds == other.kinds && self.places == other.places && self.regions == other.regions
    }

    pub fn node(&self, place: usize) -> [f64; 3] {
        self.coordinates.each_ref().map(|list| list[place])
    }

    pub fn nodes(&self) -> impl Iterator<Item = [f64; 3]> + '_ {
        (0..self.coordinates[0].len()).map(|place| self.node(place))
    }

    pub fn push_node(&mut self, node: [f64; 3]) {
        self.coordinates.iter_mut().zip(node).for_each(|(list, x)| list.push(x));
    }

    /// An element at these places, the unused ones behind them.
    pub fn push_element(&mut self, kind: u8, places: &[u32], region: u32) {
        self.kinds.push(kind);
        self.places.extend(places.iter().copied().chain(std::iter::repeat(UNUSED)).take(8));
        self.regions.push(region);
    }

    /// The eight places of an element.
    pub fn places_of(&self, element: usize) -> &[u32] {
        &self.places[8 * element..8 * element + 8]
    }

    /// Those that it uses, if its kind is one.
    pub fn used(&self, element: usize) -> &[u32] {
        &self.places_of(element)[..used(self.kinds[element]).unwrap_or(0)]
    }

    /// Gives each list this length; entries that are added are admitted.
    pub fn resize(&mut self, [xs, ys, zs, kinds, places, regions]: [usize; 6]) {
        self.coordinates.iter_mut().zip([xs, ys, zs]).for_each(|(list, length)| list.resize(length, 1.0));
        self.kinds.resize(kinds, 0);
        self.places.resize(places, UNUSED);
        self.regions.resize(regions, 1);
    }
}

/// "unused ones 4,294,967,295"
pub const UNUSED: u32 = u32::MAX;

/// "0 tet, 1 hex, 2 prism, 3 pyramid, with 4, 8, 6, 5 nodes"
pub fn used(kind: u8) -> Option<usize> {
    [4, 8, 6, 5].get(kind as usize).copied()
}

impl Job {
    /// The job of this number; it depends on nothing else.
    pub fn draw(call: Call, seed: u64, number: u64) -> Job {
        by_hand::job(call, number).unwrap_or_else(|| draw::job(call, seed, number))
    }
}
