//! Cleaning and triangulating rings of 512 points. The Rust is handed a list of points that was made before.
use crate::inputs::{circle, of, Ring};
use crate::row::{effort, lent, Row, Sides, SHORT};
use cases::expected::polygons::answer;
use cases::polygons::{shapes, Call, Job};
use oracle::meshing::reach::dedup_ring;
use oracle::meshing::triangulate_polygon;
use rattle::polygons::{call, Left};
use std::hint::black_box;

pub fn rows() -> Vec<Row> {
    let triangulated = |shape: &str, rounds, ring: fn() -> Ring| {
        let size = format!("{shape} of 512 points");
        Row::new("triangulate_polygon", &size, effort(rounds, 1), move || sides(Call::TriangulatePolygon, ring()))
    };
    vec![
        Row::new("dedup_ring", "circle of 512 points", SHORT, || sides(Call::DedupRing, circle(512, 100.0))).with_stack(),
        triangulated("circle", 400, || circle(512, 100.0)).with_stack(),
        triangulated("star", 400, || of(shapes::star(512))),
        triangulated("comb", 400, || of(shapes::comb(512))),
        triangulated("spiral", 40, || of(shapes::spiral(512, 16))),
    ]
}

/// The lists that are lent have just the room for the answer.
fn sides(of: Call, ring: Ring) -> Sides {
    let n = ring.points.len();
    let corners = if of == Call::TriangulatePolygon { 3 * n - 6 } else { 0 };
    let job = Job { call: of, xs: ring.xs, ys: ring.ys, room: [n; 2], corners };
    assert!(answer(&job).is_ok_and(|given| given.ring.len() == n));
    let points = ring.points;
    let rust = move |_: &Job| match of {
        Call::DedupRing => assert!(black_box(dedup_ring(black_box(&points))).len() == n),
        Call::TriangulatePolygon => assert!(black_box(triangulate_polygon(black_box(&points))).is_ok()),
    };
    let rattle = move |job: &Job, lists: &mut Left| {
        call(black_box(job), lists);
        assert!(black_box((lists.status, lists.points)) == (0, n));
    };
    lent(job, rust, Left::before, rattle)
}
