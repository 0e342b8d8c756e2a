//! What is expected of a call on a ring that writes lists: a refusal by the rules (`rules`), or else what the unchanged Rust answers. The cleaned ring is also
//! worked out by the rules, and the two must be the same.
use super::points;
use crate::rules::polygons as rules;
use crate::polygons::Kind::*;
use crate::polygons::{Call, Given, Job, Kind};
use oracle::core::geometry::{polygon_signed_area, Point};
use oracle::meshing::reach::dedup_ring;
use oracle::meshing::triangulate_polygon;

pub fn answer(job: &Job) -> Result<Given, u32> {
    match rules::fault(job) {
        0 => {}
        status => return Err(status),
    }
    let asked = points(&job.xs, &job.ys);
    let (rust, triangles) = match job.call {
        Call::DedupRing => (dedup_ring(&asked), vec![]),
        Call::TriangulatePolygon => triangulated(&asked)?,
    };
    if !rules::has_room(job, rust.len(), triangles.len()) {
        return Err(12);
    }
    let (ring, mut kinds) = rules::cleaned(&asked.iter().map(|p| (p.x, p.y)).collect::<Vec<_>>());
    assert!(same(&ring, &rust), "the rules and the Rust clean a ring differently: {asked:?}");
    if dedup_ring(&rust).len() < rust.len() {
        kinds.push(AgainDropped);
    }
    if let Some(last) = triangles.last() {
        kinds.extend(clipped(&rust, &last.map(|corner| rust[corner])));
    }
    let corners = triangles.iter().flatten().map(|corner| *corner as u32).collect();
    Ok(Given { ring, corners, kinds })
}

/// How many points the Rust keeps.
pub fn kept(xs: &[f64], ys: &[f64]) -> usize {
    dedup_ring(&points(xs, ys)).len()
}

/// The Rust's cleaned ring and its triangles, or the refusal that its text stands for.
fn triangulated(asked: &[Point]) -> Result<(Vec<Point>, Vec<[usize; 3]>), u32> {
    triangulate_polygon(asked).map_err(|why| match why {
        _ if why.contains("fewer than 3") => 3,
        _ if why.contains("stalled") => 4,
        _ => panic!("the Rust says of {asked:?}: {why}"),
    })
}

/// What became of a ring whose last triangle is this.
fn clipped(ring: &[Point], last: &[Point]) -> Vec<Kind> {
    if ring.len() == 3 {
        return vec![OneTriangle];
    }
    let [area, end] = [polygon_signed_area(ring), polygon_signed_area(last)];
    let way = if area > 0.0 { Forward } else if area < 0.0 { Reversed } else { NoArea };
    let last = [(LastFlat, end == 0.0), (LastTurned, end < 0.0)];
    [(way, true)].into_iter().chain(last).filter(|kind| kind.1).map(|kind| kind.0).collect()
}

fn same(ring: &[(f64, f64)], rust: &[Point]) -> bool {
    let bits = |x: f64, y: f64| (x.to_bits(), y.to_bits());
    ring.iter().map(|p| bits(p.0, p.1)).eq(rust.iter().map(|p| bits(p.x, p.y)))
}
