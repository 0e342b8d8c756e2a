//! Meshes that the Rust made: of boxes and prisms of one cell size, many with a face in common.
use super::{Call, Mesh};
use crate::expected::models::{model, options, regions_of};
use crate::expected::welds::lists_of;
use crate::meshes::prisms::rings;
use crate::models;
use crate::polygons::shapes::{CROSSED, DART, KEYHOLE, L};
use crate::random::Random;
use crate::regions::{Regions, Row};
use crate::rings::Ring;
use oracle::meshing::{mesh_model_with_options, weld_nodes};

const CELLS: [f64; 6] = [1.0, 1.0, 0.1, 1e-6, 0.3e-6, 512.0];

/// The mesh of up to five regions, and its cell size. A volume is asked of a welded one too.
pub fn mesh(r: &mut Random, call: Call) -> (Mesh, f64) {
    let size = r.pick(&CELLS);
    let job = regions(r, size);
    let (mut mesh, _) = mesh_model_with_options(&model(&job), &options(&job));
    if !call.writes() && r.one_in(3) {
        mesh = weld_nodes(&mesh, size * r.pick(&[1e-3, 1.0, 4.0]));
    }
    let regions = regions_of(&mesh);
    (lists_of(&mesh, regions), size)
}

fn regions(r: &mut Random, size: f64) -> models::Job {
    let (mut rows, mut xs, mut ys) = (vec![], vec![], vec![]);
    for _ in 0..r.between(1, 5) {
        // Corners and heights are multiples of the cell size, so that many regions touch.
        let [x, y, z] = std::array::from_fn(|_| r.between(-2, 2) as f64);
        let [wide, deep, high] = std::array::from_fn(|_| r.between(1, 2) as f64);
        let mut row = Row { kind: r.below(2) as u8, bounds: [x, y, x + wide, y + deep, z, z + high].map(|end| end * size), ..Row::default() };
        if row.kind == 1 {
            let ring = ring(r);
            [row.numbers[0], row.numbers[1]] = [xs.len() as u32, ring.len() as u32];
            xs.extend(ring.iter().map(|point| (point.0 + x) * size));
            ys.extend(ring.iter().map(|point| (point.1 + y) * size));
        }
        rows.push(row);
    }
    models::Job {
        call: models::Call::MeshModelWithOptions,
        regions: Regions::of(&rows),
        xs: xs.into(),
        ys: ys.into(),
        overrides: models::Overrides::default(),
        cells: [size; 2],
        counts: [0; 2],
        lengths: [0; 6],
        diagnostics: 0,
    }
}

/// Mostly with corners at whole numbers.
fn ring(r: &mut Random) -> Ring {
    if !r.one_in(3) {
        return r.pick(&[&L[..], &DART, &KEYHOLE, &CROSSED]).to_vec();
    }
    let mut ring = rings::draw(r);
    ring.truncate(10);
    ring
}
