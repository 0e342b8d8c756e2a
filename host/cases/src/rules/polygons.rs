//! Cleaning a ring, and the refusals of cleaning and of triangulating that ask for no triangle.
use super::ring;
use crate::polygons::{Job, Kind};
use Kind::*;

/// "Cleaning, area, rectangle: 16, 2, 1", and so triangulating; the lists that are written are of equal length too.
pub fn fault(job: &Job) -> u32 {
    if job.room[0] != job.room[1] {
        return 16;
    }
    ring(&job.xs, &job.ys)
}

/// "12 output list too short": three corners a triangle.
pub fn has_room(job: &Job, points: usize, triangles: usize) -> bool {
    points <= job.room[0] && 3 * triangles <= job.corners
}

/// "differ from the last kept by less than 2^-52"
fn close(a: &(f64, f64), b: &(f64, f64)) -> bool {
    (a.0 - b.0).abs() < f64::EPSILON && (a.1 - b.1).abs() < f64::EPSILON
}

/// The cleaned ring, and what became of it but for cleaning it again.
pub fn cleaned(points: &[(f64, f64)]) -> (Vec<(f64, f64)>, Vec<Kind>) {
    let (mut ring, mut kinds) = (vec![], vec![]);
    for point in points {
        if !ring.last().is_some_and(|last| close(last, point)) {
            ring.push(*point);
        }
    }
    if ring.len() < points.len() {
        kinds.push(Dropped);
    }
    if ring.len() > 1 && close(&ring[0], &ring[ring.len() - 1]) {
        ring.pop();
        kinds.push(LastDropped);
    }
    if points.is_empty() {
        kinds.push(NoPoint);
    } else if kinds.is_empty() {
        kinds.push(AllKept);
    }
    (ring, kinds)
}
