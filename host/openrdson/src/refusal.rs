//! Why a call is turned down.
use std::error::Error;
use std::fmt;

/// A case for each refusal's number, from 1 to 16.
#[derive(Debug, Clone, Copy, PartialEq, Eq, PartialOrd, Ord, Hash)]
#[repr(u32)]
pub enum Refusal {
    NumberOutOfRange = 1,
    ListTooLong = 2,
    TooFewVertices = 3,
    ClippingStalled = 4,
    DegenerateBox = 5,
    CellSizeNotPositive = 6,
    TooManyCells = 7,
    DegeneratePrism = 8,
    DegenerateYExtent = 9,
    OddCrossings = 10,
    NoTrapezoid = 11,
    OutputTooShort = 12,
    NodeOutsideMesh = 13,
    BlockDamaged = 14,
    OutsideList = 15,
    UnequalLists = 16,
}

use Refusal::*;

impl Refusal {
    /// In the order of their numbers.
    pub const ALL: [Refusal; 16] = [
        NumberOutOfRange,
        ListTooLong,
        TooFewVertices,
        ClippingStalled,
        DegenerateBox,
        CellSizeNotPositive,
        TooManyCells,
        DegeneratePrism,
        DegenerateYExtent,
        OddCrossings,
        NoTrapezoid,
        OutputTooShort,
        NodeOutsideMesh,
        BlockDamaged,
        OutsideList,
        UnequalLists,
    ];

    /// The number that the C functions return.
    pub fn number(self) -> u32 {
        self as u32
    }

    /// The refusal of a number; 0 is none.
    pub fn from_number(number: u32) -> Option<Refusal> {
        Refusal::ALL.into_iter().find(|refusal| refusal.number() == number)
    }

    /// What is wrong, in words.
    pub fn words(self) -> &'static str {
        match self {
            NumberOutOfRange => "number not finite or too large",
            ListTooLong => "list too long",
            TooFewVertices => "under three vertices after cleaning",
            ClippingStalled => "clipping stalled",
            DegenerateBox => "degenerate box: an extent not above zero",
            CellSizeNotPositive => "cell size not positive",
            TooManyCells => "over 4,096 cells on an axis",
            DegeneratePrism => "degenerate prism: top not above bottom",
            DegenerateYExtent => "y extent degenerate: fewer than two y values left",
            OddCrossings => "odd crossings",
            NoTrapezoid => "no trapezoid",
            OutputTooShort => "output list too short, or the result above a mesh's most",
            NodeOutsideMesh => "node number outside the mesh",
            BlockDamaged => "block damaged",
            OutsideList => "kind, part, count, place or material outside its list, or an unused node place filled",
            UnequalLists => "parallel lists of unequal length, or node places not eight times the kinds",
        }
    }
}

impl fmt::Display for Refusal {
    fn fmt(&self, f: &mut fmt::Formatter<'_>) -> fmt::Result {
        write!(f, "{} (refusal {})", self.words(), self.number())
    }
}

impl Error for Refusal {}

/// For a program that has texts where the original had them.
impl From<Refusal> for String {
    fn from(refusal: Refusal) -> String {
        refusal.to_string()
    }
}
