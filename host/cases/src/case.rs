//! One case of a call, and one answer to it, in the words of the recorded answers.
use crate::blocks::Lent;
use crate::call::Call;
use crate::call::Call::*;
use crate::random::Random;
use crate::regions::Regions;
use crate::{axes, boxes, extrusions, lookups, numbers, rings, roots, solids, totals};
use std::borrow::Cow;

/// A list of coordinates; the longest ones are made once and lent.
pub type List = Cow<'static, [f64]>;

/// What a call is given. Parameters are floats by their bits, or whole numbers:
/// a box its six bounds; a prism z_bottom, z_top, start, count; a method of Bbox the four bounds,
/// then the other box's or the point; a call on one number, that number; `layer_name`, the layer's number; `copy_physical_name`, the room.
/// The cell count has an extent and a cell size, the axis coordinate two ends, a cell size and a place.
/// A region has its material, net and polygon too; what is extruded, z_bottom and z_top, or six bounds, with a material and a net. Lent are the call's
/// blocks, then the name asked for.
#[derive(Clone)]
pub struct Case {
    pub call: Call,
    pub xs: List,
    pub ys: List,
    pub params: [u64; 8],
    pub region: [u32; 3],
    pub regions: Regions,
    pub lent: Vec<Lent>,
}

/// A name is copied to the beginning of so many bytes at most; before the call each is the one below.
pub const COPY: usize = 40;
pub const BEFORE: u8 = 0xa5;

/// The most values that a call gives.
pub const VALUES: usize = 12;

/// A status, and the values: floats by their bits, truths as 0 or 1, whole numbers as they are, then zeros.
#[derive(Clone, Copy, PartialEq, Debug)]
pub struct Answer {
    pub status: u32,
    pub values: [u64; VALUES],
}

/// A float by its bits; every NaN is the same.
pub fn word(x: f64) -> u64 {
    if x.is_nan() { 0x7ff8000000000000 } else { x.to_bits() }
}

impl Answer {
    pub fn refused(status: u32) -> Self {
        Answer { status, values: [0; VALUES] }
    }

    pub fn accepted(given: &[u64]) -> Self {
        let mut values = [0; VALUES];
        values[..given.len()].copy_from_slice(given);
        Answer { status: 0, values }
    }

    pub fn floats(given: &[f64]) -> Self {
        let words: Vec<u64> = given.iter().map(|x| word(*x)).collect();
        Answer::accepted(&words)
    }

    /// A name's length, and the bytes that it was copied to.
    pub fn copied(length: usize, copy: &[u8; COPY]) -> Self {
        let words = copy.chunks(8).map(|bytes| u64::from_le_bytes(bytes.try_into().unwrap()));
        let values: Vec<u64> = std::iter::once(length as u64).chain(words).collect();
        Answer::accepted(&values)
    }

    pub fn whole(value: u64) -> Self {
        Answer::accepted(&[value])
    }
}

impl Case {
    /// The case of this number; it depends on nothing else.
    pub fn draw(call: Call, seed: u64, number: u64) -> Case {
        let r = &mut Random::of_case(seed, call.number(), number);
        match call {
            PolygonSignedArea | PolygonArea | IsCcw | IsAxisAlignedRectangle | BboxFromPoints => {
                let (xs, ys) = rings::lists(r, number);
                Case { xs: xs.into(), ys: ys.into(), ..Case::of_numbers(call, &[]) }
            }
            BoxVolume | BoxFootprintBbox => solids::boxed(call, r),
            PrismVolume | PrismFootprintBbox => solids::prism(call, r, number),
            BoxRegionVolume | PrismRegionVolume => solids::region(call, r, number),
            ExtrudePolygon => extrusions::polygon(r, number),
            ExtrudeBox => extrusions::boxed(r),
            TotalVolume => totals::draw(r, number),
            CellCount => axes::count(r, number),
            AxisCoordinate => axes::coordinate(r, number),
            Sqrt => Case::of_numbers(call, &[roots::draw(r, number)]),
            Abs => Case::of_numbers(call, &[numbers::any(r)]),
            CheckBlocks | LookUp | PhysicalName | CopyPhysicalName | LayerName | StackLayer | ViaLayers
            | MaterialNumber | IsMarker => {
                let (lent, layer) = lookups::draw(call, seed, number);
                let mut case = Case::of_numbers(call, &[]);
                case.params[0] = layer as u64;
                if call == CopyPhysicalName {
                    case.params[0] = if r.one_in(2) { COPY } else { r.below(COPY + 1) } as u64;
                }
                case.lent = lent;
                case
            }
            CeilCapped | NearestCapped => Case::of_numbers(call, &[numbers::to_round(r)]),
            CoordinateInRange | ExtentInRange | FigureInRange => Case::of_numbers(call, &[numbers::to_range(r)]),
            BboxEmpty | BboxIsEmpty | BboxExtendPoint | BboxExtend | BboxUnion | BboxWidth | BboxHeight
            | BboxCenter => Case::of_numbers(call, &boxes::pair(r)),
            BoxZBottom | BoxZTop => {
                let bounds: [f64; 6] = std::array::from_fn(|_| numbers::any(r));
                Case::of_numbers(call, &bounds)
            }
            PrismZBottom | PrismZTop => {
                let mut case = Case::of_numbers(call, &[numbers::any(r), numbers::any(r)]);
                case.params[2] = r.word() as u32 as u64;
                case.params[3] = r.word() as u32 as u64;
                case
            }
        }
    }

    /// A case with no list.
    pub fn of_numbers(call: Call, numbers: &[f64]) -> Case {
        let mut params = [0; 8];
        for (param, x) in params.iter_mut().zip(numbers) {
            *param = x.to_bits();
        }
        let (xs, ys) = (List::Borrowed(&[][..]), List::Borrowed(&[][..]));
        Case { call, xs, ys, params, region: [0; 3], regions: Regions::default(), lent: vec![] }
    }

    pub fn float(&self, place: usize) -> f64 {
        f64::from_bits(self.params[place])
    }

    /// The first parameters as floats.
    pub fn floats<const N: usize>(&self) -> [f64; N] {
        std::array::from_fn(|place| self.float(place))
    }

    /// A prism's start.
    pub fn start(&self) -> u32 {
        self.params[2] as u32
    }

    /// A prism's count.
    pub fn count(&self) -> u32 {
        self.params[3] as u32
    }

    /// The place on an axis.
    pub fn place(&self) -> u64 {
        self.params[3]
    }

    /// How many bytes a name is copied to.
    pub fn room(&self) -> usize {
        self.params[0] as usize
    }

    /// The layer's number.
    pub fn layer(&self) -> i16 {
        self.params[0] as i16
    }

    /// The bytes of a block, by its place among the call's blocks.
    pub fn block(&self, place: usize) -> &[u8] {
        &self.lent[place].bytes
    }

    /// The name asked for.
    pub fn name(&self) -> &[u8] {
        self.block(self.call.blocks().len())
    }
}
