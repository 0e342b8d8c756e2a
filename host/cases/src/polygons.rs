//! Jobs of the calls on a ring that write lists: what is lent, and what is given.
pub(crate) mod draw;
pub(crate) mod repeats;
pub(crate) mod room;
pub mod shapes;
mod simple;

use crate::refusals;

#[derive(Clone, Copy, PartialEq)]
pub enum Call {
    DedupRing,
    TriangulatePolygon,
}

/// A ring, and the lengths of the lists that are written: two for the cleaned ring, one for the corners, which cleaning is not lent.
#[derive(Clone)]
pub struct Job {
    pub call: Call,
    pub xs: Vec<f64>,
    pub ys: Vec<f64>,
    pub room: [usize; 2],
    pub corners: usize,
}

/// The cleaned ring, and three corners a triangle.
pub struct Given {
    pub ring: Vec<(f64, f64)>,
    pub corners: Vec<u32>,
    pub kinds: Vec<Kind>,
}

/// What became of a ring; several may be true of it.
#[derive(Clone, Copy)]
pub enum Kind {
    NoPoint,
    AllKept,
    /// A point was close to the one kept before it.
    Dropped,
    /// The last one kept was close to the first.
    LastDropped,
    /// The cleaned ring, cleaned again, would lose a point.
    AgainDropped,
    /// No ear was cut.
    OneTriangle,
    /// Ears were cut in the ring's direction, since its area is above zero; against it; in it, since it has no area.
    Forward,
    Reversed,
    NoArea,
    /// After an ear or more, the last three, taken untested, lie on a line, or turn the wrong way.
    LastFlat,
    LastTurned,
}

use Kind::*;

pub const KINDS: usize = LastTurned as usize + 1;

impl Kind {
    pub fn name(self) -> &'static str {
        match self {
            NoPoint => "no point",
            AllKept => "all kept",
            Dropped => "dropped",
            LastDropped => "last dropped",
            AgainDropped => "again dropped",
            OneTriangle => "one triangle",
            Forward => "forward",
            Reversed => "reversed",
            NoArea => "no area",
            LastFlat => "last flat",
            LastTurned => "last turned",
        }
    }
}

impl Call {
    /// The exported name without `openrdson_`.
    pub fn name(self) -> &'static str {
        match self {
            Call::DedupRing => "dedup_ring",
            Call::TriangulatePolygon => "triangulate_polygon",
        }
    }

    /// The refusals that it has, in the order in which they are tried.
    pub fn refusals(self) -> &'static [u32] {
        refusals::of(self.name())
    }

    /// The kinds of answers that are counted; each must be drawn.
    pub fn kinds(self) -> &'static [Kind] {
        match self {
            Call::DedupRing => &[NoPoint, AllKept, Dropped, LastDropped, AgainDropped],
            Call::TriangulatePolygon => {
                &[AllKept, Dropped, LastDropped, AgainDropped, OneTriangle, Forward, Reversed, NoArea, LastFlat, LastTurned]
            }
        }
    }
}

impl Job {
    /// The job of this number; it depends on nothing else.
    pub fn draw(call: Call, seed: u64, number: u64) -> Job {
        draw::job(call, seed, number)
    }
}
