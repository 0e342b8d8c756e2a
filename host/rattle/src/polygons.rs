//! The calls on a ring that write lists, and what they left in those that they were lent.
use crate::raw::*;
use cases::polygons::{Call, Given, Job};

/// What is in every entry before the call, and past the end of each list.
const NUMBER: u32 = 0xa5a5_a5a5;
const WORD: u64 = 0xa5a5_a5a5_a5a5_a5a5;

/// Entries past the end of each list, which the call is not lent.
const PAST: usize = 2;

/// The status, and what was written to, after the call; cleaning gives no triangles.
pub struct Left {
    pub status: u32,
    pub points: usize,
    pub triangles: usize,
    pub lists: [Vec<f64>; 2],
    pub corners: Vec<u32>,
}

impl Left {
    /// Before the call.
    pub fn before(job: &Job) -> Left {
        Left {
            status: 0,
            points: WORD as usize,
            triangles: WORD as usize,
            lists: job.room.map(|room| vec![f64::from_bits(WORD); room + PAST]),
            corners: vec![NUMBER; job.corners + PAST],
        }
    }

    /// What is expected: a refusal leaves everything, an accepted call writes at the beginning of its lists and leaves the rest.
    pub fn expected(job: &Job, answer: &Result<Given, u32>) -> Left {
        let mut after = Left::before(job);
        let given = match answer {
            Ok(given) => given,
            Err(refusal) => {
                after.status = *refusal;
                return after;
            }
        };
        after.points = given.ring.len();
        for (i, (x, y)) in given.ring.iter().enumerate() {
            after.lists[0][i] = *x;
            after.lists[1][i] = *y;
        }
        if job.call == Call::TriangulatePolygon {
            after.triangles = given.corners.len() / 3;
            after.corners[..given.corners.len()].copy_from_slice(&given.corners);
        }
        after
    }

    /// Whether every entry is the same, floats by their bits.
    pub fn same(&self, other: &Left) -> bool {
        let same_bits = |a: &[f64], b: &[f64]| a.iter().map(|x| x.to_bits()).eq(b.iter().map(|x| x.to_bits()));
        (self.status, self.points, self.triangles) == (other.status, other.points, other.triangles)
            && self.corners == other.corners
            && self.lists.iter().zip(&other.lists).all(|(a, b)| same_bits(a, b))
    }
}

pub fn answer(job: &Job) -> Left {
    let mut after = Left::before(job);
    call(job, &mut after);
    after
}

/// The call on these lists.
pub fn call(job: &Job, after: &mut Left) {
    let [x, y] = after.lists.each_mut().map(|list| (list.as_mut_ptr(), list.len() - PAST));
    let corners = (after.corners.as_mut_ptr(), after.corners.len() - PAST);
    let (xs, nx, ys, ny) = (job.xs.as_ptr(), job.xs.len(), job.ys.as_ptr(), job.ys.len());
    after.status = unsafe {
        match job.call {
            Call::DedupRing => openrdson_dedup_ring(xs, nx, ys, ny, x.0, x.1, y.0, y.1, &mut after.points),
            Call::TriangulatePolygon => openrdson_triangulate_polygon(
                xs, nx, ys, ny, x.0, x.1, y.0, y.1, corners.0, corners.1, &mut after.points, &mut after.triangles,
            ),
        }
    };
}
