//! Meshing boxes and prisms. The Rust is handed a region that was made before.
use crate::row::{effort, lent, side, Effort, Row, Sides};
use cases::expected::meshes::{answer, region};
use cases::meshes::{boxes, prisms, Call, Job};
use cases::polygons::shapes;
use oracle::core::geometry::SolidRegion;
use oracle::meshing::{mesh_region, MeshConfig};
use rattle::meshes::{call, Left};
use std::hint::black_box;
use std::sync::Arc;

const LONG: Effort = effort(40, 1);
const SOME: Effort = effort(300, 1);
const FEW: Effort = effort(1000, 100);

pub fn rows() -> Vec<Row> {
    let mut rows = vec![
        Row::new("mesh_box", "1,000 nodes", effort(400, 20), || beside_the_rust(cube(9))),
        Row::new("mesh_box (Rust: plain filling of its lists)", "1,000 nodes", effort(400, 20), || beside_filling(cube(9))),
        Row::new("mesh_box", "a million nodes", effort(15, 1), || beside_the_rust(cube(99))),
        Row::new("mesh_box (Rust: plain filling of its lists)", "a million nodes", effort(100, 1), || beside_filling(cube(99))),
    ];
    let prism = |(size, effort, ring): Prism| {
        Row::new("mesh_prism", size, effort, move || beside_the_rust(prisms::filling(Call::MeshPrism, &ring())))
    };
    rows.extend(PRISMS.into_iter().map(prism));
    rows
}

type Prism = (&'static str, Effort, fn() -> Vec<(f64, f64)>);

/// A stalled one is meshed by the scanline after clipping has refused it.
const PRISMS: [Prism; 15] = [
    ("L (rectilinear)", FEW, || shapes::L.to_vec()),
    ("dart (clipped)", FEW, || shapes::DART.to_vec()),
    ("keyhole of 12 (rectilinear)", FEW, || shapes::KEYHOLE.to_vec()),
    ("16 points (rectilinear)", FEW, || shapes::CROSSED.to_vec()),
    ("circle of 512 (clipped)", SOME, || shapes::circle(512)),
    ("round keyhole of 502 (stalled)", SOME, || shapes::round_keyhole(250)),
    ("staircase of 512 (rectilinear)", SOME, || shapes::staircase(512)),
    ("square comb of 512, right (rectilinear)", SOME, || shapes::square_comb(512)),
    ("square comb of 512, left (rectilinear)", SOME, || shapes::mirrored(shapes::square_comb(512))),
    ("dense comb of 512, right (rectilinear)", SOME, || shapes::dense_comb(512)),
    ("dense comb of 512, left (rectilinear)", SOME, || shapes::mirrored(shapes::dense_comb(512))),
    ("zigzag of 512, right (stalled), 524,288 nodes", LONG, || shapes::zigzag(512, |i| i as f64)),
    ("zigzag of 512, left (stalled)", LONG, || shapes::zigzag(512, |i| -(i as f64))),
    ("zigzag of 512, random x (stalled)", LONG, random_zigzag),
    ("512 random points (stalled)", LONG, || shapes::scattered(512)),
];

fn random_zigzag() -> Vec<(f64, f64)> {
    let mut numbers = shapes::scattered(512).into_iter();
    shapes::zigzag(512, |_| numbers.next().unwrap().0)
}

/// A cube of so many cells on each axis.
fn cube(cells: usize) -> Job {
    let wide = cells as f64;
    boxes::filling(Call::MeshBox, [0.0, 0.0, wide, wide, 0.0, wide], [1.0; 2])
}

/// A job that fills the lists of an empty mesh, in the form of each side.
struct Input {
    job: Job,
    region: SolidRegion,
}

impl Input {
    fn of(job: Job) -> Input {
        assert!(answer(&job).is_ok_and(|given| [given.nodes.len(), given.kinds.len()] == [job.lengths[0], job.lengths[3]]));
        Input { region: region(&job), job }
    }

    fn lists(&self) -> Left {
        Left::before(&self.job)
    }

    fn rust(&self) {
        let config = MeshConfig { lateral_cell: 1.0, z_cell: 1.0 };
        assert!(black_box(mesh_region(black_box(&self.region), &config)).is_ok());
    }

    fn rattle(&self, lists: &mut Left) {
        lists.counts = self.job.counts;
        call(black_box(&self.job), lists);
        assert!(black_box((lists.status, lists.counts)) == (0, [self.job.lengths[0], self.job.lengths[3]]));
    }
}

fn beside_the_rust(job: Job) -> Sides {
    lent(Input::of(job), Input::rust, Input::lists, Input::rattle)
}

fn beside_filling(job: Job) -> Sides {
    let input = Arc::new(Input::of(job));
    [side(&input, Input::lists, |_, lists| fill(lists)), side(&input, Input::lists, Input::rattle)]
}

/// Every entry of the six lists gets a number that the compiler does not know.
fn fill(lists: &mut Left) {
    let (x, kind, number) = black_box((1.5, 1, 7));
    lists.coordinates.iter_mut().for_each(|list| list.fill(x));
    lists.kinds.fill(kind);
    lists.places.fill(number);
    lists.regions.fill(number);
    black_box(lists);
}
