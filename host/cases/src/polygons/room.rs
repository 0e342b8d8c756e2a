//! The lengths of the lists that are written to.
use crate::random::Random;

/// For so many entries: mostly exactly full, or some more; or too short, mostly by one.
pub fn list(r: &mut Random, entries: usize) -> usize {
    match r.below(24) {
        0..=11 => entries,
        12..=19 => entries + r.between(1, 5) as usize,
        20..=21 => entries + 512,
        22 => entries.saturating_sub(1),
        _ => r.below(entries + 1),
    }
}

/// The two lists of a ring of so many points, mostly equally long.
pub fn ring(r: &mut Random, points: usize) -> [usize; 2] {
    let room = list(r, points);
    match r.below(48) {
        0 => [room, room + 1],
        1 => [room + 1, room],
        2 => [room, list(r, points)],
        _ => [room, room],
    }
}
