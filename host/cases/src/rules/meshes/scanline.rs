//! The scanline of a ring that has been cleaned once, up to the crossings of its bands' middles.
use crate::meshes::Fault::{self, *};
use crate::rules::SIZE_MOST;

type Point = (f64, f64);

/// What there is of a ring.
pub struct Scanned {
    /// "ys sorted stably, a y within 1e-15 of the last kept dropped"
    pub levels: Vec<f64>,
    /// Whether a y that is dropped is not that of its level.
    pub is_level_moved: bool,
    /// Whether a point is at the height of a band's middle.
    pub is_end_on_middle: bool,
    /// Whether a crossing is past 2^20.
    is_far: bool,
    /// "consecutive pairs" of crossings.
    pub pairs: usize,
}

pub fn scanned(ring: &[Point]) -> Scanned {
    let mut ys: Vec<f64> = ring.iter().map(|point| point.1).collect();
    ys.sort_by(|a, b| a.partial_cmp(b).unwrap());
    let mut found = Scanned { levels: vec![], is_level_moved: false, is_end_on_middle: false, is_far: false, pairs: 0 };
    for y in ys {
        match found.levels.last() {
            Some(last) if (y - last).abs() < 1e-15 => found.is_level_moved |= y != *last,
            _ => found.levels.push(y),
        }
    }
    let middles: Vec<f64> = found.levels.windows(2).map(|band| 0.5 * (band[0] + band[1])).collect();
    for middle in middles {
        found.cross(ring, middle);
    }
    found
}

impl Scanned {
    /// "crossings at each band's middle by the even-odd rule (an end on the middle counts with one side, the Rust's"
    fn cross(&mut self, ring: &[Point], middle: f64) {
        self.is_end_on_middle |= ring.iter().any(|point| point.1 == middle);
        let ends = ring.iter().zip(ring.iter().cycle().skip(1));
        let crossed = ends.filter(|(a, b)| (a.1 <= middle) != (b.1 <= middle));
        let xs: Vec<f64> = crossed.map(|(a, b)| line_at(a, b, middle)).collect();
        self.is_far |= xs.iter().any(|x| !(x.abs() <= SIZE_MOST));
        self.pairs += xs.len() / 2;
    }

    /// "the scanline's 3, 9, 10, 1 for a crossing"; a closed ring crosses a height an even number of times.
    pub fn judged(&self, ring: &[Point]) -> Result<(), Fault> {
        super::hold([(TooFew, ring.len() >= 3), (OneLevel, self.levels.len() >= 2), (Crossing, !self.is_far)])
    }
}

/// Where the line from a to b is at this height, as the Rust works it out.
fn line_at(a: &Point, b: &Point, y: f64) -> f64 {
    if (b.1 - a.1).abs() < 1e-300 {
        return a.0;
    }
    a.0 + (y - a.1) / (b.1 - a.1) * (b.0 - a.0)
}
