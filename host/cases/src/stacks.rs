//! Jobs of `assemble_stack`: what is lent, and what is given.
mod draw;
mod layers;
mod spoil;

use crate::blocks::{Kind, Lent};
use crate::case::List;
use crate::regions::Row;

/// The six blocks, in order: layer names, conducting, via, conductors, diffusions, vias.
pub const BLOCKS: [Kind; 6] = [Kind::LayerNames, Kind::Map, Kind::Map, Kind::Stack, Kind::Stack, Kind::Vias];

#[derive(Clone)]
pub struct Job {
    pub blocks: Vec<Lent>,
    pub layers: Vec<i16>,
    /// Nets, starts and counts.
    pub polygons: [Vec<u32>; 3],
    pub xs: List,
    pub ys: List,
    /// The lengths of the twelve region lists, and of the outcomes.
    pub regions: [usize; 12],
    pub outcomes: usize,
}

/// What an accepted call writes: the regions, and an outcome a polygon. The ways, and whether the Rust was asked, are only counted.
pub struct Given {
    pub rows: Vec<Row>,
    pub outcomes: Vec<u8>,
    pub ways: Vec<Way>,
    pub asked: bool,
}

/// How a polygon came to its outcome.
#[derive(Clone, Copy, PartialEq, Debug)]
pub enum Way {
    /// Extruded: between the heights of a conductor, of a diffusion, or of a via's layers.
    Conductor,
    Diffusion,
    Via,
    Unnamed,
    Marker,
    Unmatched,
    /// No z range: a via names no layer at an end, or one without a range.
    ViaEndAbsent,
    ViaEndWithoutRange,
    /// A conductor lacks a figure, and the diffusion of its name has both.
    ConductorEndsSearch,
    FigureMissing,
    NotInStack,
    /// The top is the bottom, or below it.
    Flat,
    Inverted,
}

use Way::*;

pub const WAYS: [(Way, &str); 13] = [
    (Conductor, "conductor"),
    (Diffusion, "diffusion"),
    (Via, "via"),
    (Unnamed, "unnamed"),
    (Marker, "marker"),
    (Unmatched, "unmatched"),
    (ViaEndAbsent, "via end absent"),
    (ViaEndWithoutRange, "via end without range"),
    (ConductorEndsSearch, "conductor ends search"),
    (FigureMissing, "figure missing"),
    (NotInStack, "not in stack"),
    (Flat, "flat"),
    (Inverted, "inverted"),
];

/// The exported name without `openrdson_`.
pub const NAME: &str = "assemble_stack";

impl Job {
    /// The job of this number; it depends on nothing else.
    pub fn draw(seed: u64, number: u64) -> Job {
        draw::job(seed, number)
    }

    pub fn nets(&self) -> &[u32] {
        &self.polygons[0]
    }

    pub fn starts(&self) -> &[u32] {
        &self.polygons[1]
    }

    pub fn counts(&self) -> &[u32] {
        &self.polygons[2]
    }

    /// Where the points of a polygon stand.
    pub fn part(&self, i: usize) -> std::ops::Range<usize> {
        let start = self.starts()[i] as usize;
        start..start + self.counts()[i] as usize
    }
}
