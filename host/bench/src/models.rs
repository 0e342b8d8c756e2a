//! Meshing a model. The Rust is handed a model that was made before.
use crate::row::{effort, lent, Row, Sides};
use cases::expected::models::{answer, model, options, sizes};
use cases::meshes::lengths;
use cases::models::{Call, Job, Overrides};
use cases::polygons::shapes;
use cases::regions::{Regions, Row as RegionRow, NO_POLYGON};
use oracle::core::geometry::SolidModel;
use oracle::meshing::{mesh_model, mesh_model_with_options, MeshOptions};
use rattle::models::{call, Left};
use std::hint::black_box;

const REGIONS: usize = 4000;

pub fn rows() -> Vec<Row> {
    vec![
        Row::new("mesh_model", "4,000 mixed regions", effort(40, 1), || sides(mixed(Call::MeshModel, REGIONS))),
        Row::new("mesh_model_with_options", "4,000 mixed regions", effort(40, 1), || sides(mixed(Call::MeshModelWithOptions, REGIONS))).with_stack(),
        Row::new("mesh_model_with_options", "60 mixed regions, 4 of about 512 points", effort(20, 1), || sides(with_long_rings())).with_stack(),
    ]
}

/// The same job in the form of each side.
struct Input {
    job: Job,
    model: SolidModel,
    options: MeshOptions,
}

/// The regions fill the lists of an empty mesh, and all of them are meshed.
fn sides(job: Job) -> Sides {
    let [nodes, elements] = sizes(&job);
    let job = Job { lengths: lengths(nodes, elements), ..job };
    assert!(answer(&job).is_ok_and(|given| given.asked && given.tried.iter().all(Option::is_none)));
    let rust = |input: &Input| {
        let (model, options) = black_box((&input.model, &input.options));
        let meshed = match input.job.call {
            Call::MeshModel => mesh_model(model, &options.default),
            Call::MeshModelWithOptions => mesh_model_with_options(model, options),
        };
        assert!(black_box(meshed).1.is_empty());
    };
    let rattle = move |input: &Input, lists: &mut Left| {
        lists.mesh.counts = [0; 2];
        call(black_box(&input.job), lists);
        assert!(black_box((lists.mesh.status, lists.mesh.counts)) == (0, [nodes, elements]));
    };
    lent(Input { model: model(&job), options: options(&job), job }, rust, |input| Left::before(&input.job), rattle)
}

/// So many regions of eight materials in turns: boxes of 24 cells and of 64; an L and a rectilinear ring of 16; a dart and a circle of 24, which are clipped.
fn mixed(call: Call, n: usize) -> Job {
    let circle = shapes::circle(24);
    let rings: [&[(f64, f64)]; 4] = [&shapes::L, &shapes::CROSSED, &shapes::DART, &circle];
    let (mut rows, mut xs, mut ys) = (vec![], vec![], vec![]);
    for i in 0..n {
        let at = i as f64 / 4.0;
        let [start, material] = [xs.len() as u32, 1 + i as u32 % 8];
        let (kind, bounds, count) = match i % 6 {
            0 => (0, [at, 0.0, at + 4.0, 3.0, 0.0, 2.0], 0),
            1 => (0, [at, 1.0, at + 8.0, 9.0, 0.5, 1.5], 0),
            place => {
                let ring = rings[place - 2];
                xs.extend(ring.iter().map(|point| point.0 + at));
                ys.extend(ring.iter().map(|point| point.1));
                (1, [0.0, 0.0, 0.0, 0.0, 0.25, 0.75], ring.len() as u32)
            }
        };
        rows.push(RegionRow { kind, bounds, numbers: [start, count, material, 0, NO_POLYGON] });
    }
    let mut overrides = Overrides::default();
    if call.has_overrides() {
        (1..=8).for_each(|material| overrides.push(material, [1.0; 2]));
    }
    let (regions, xs, ys) = (Regions::of(&rows), xs.into(), ys.into());
    Job { call, regions, xs, ys, overrides, cells: [1.0; 2], counts: [0; 2], lengths: [0; 6], diagnostics: n }
}

/// Each side's largest need: rings of about 512 points, of which two stall clipping.
fn with_long_rings() -> Job {
    let all = mixed(Call::MeshModelWithOptions, 60);
    let mut rows: Vec<RegionRow> = all.regions.rows().collect();
    let (mut xs, mut ys) = (all.xs.to_vec(), all.ys.to_vec());
    for ring in [shapes::circle(512), shapes::square_comb(512), shapes::round_keyhole(250), shapes::zigzag(512, |i| i as f64)] {
        let numbers = [xs.len() as u32, ring.len() as u32, 1, 0, NO_POLYGON];
        rows.push(RegionRow { kind: 1, bounds: [0.0, 0.0, 0.0, 0.0, 0.0, 1.0], numbers });
        xs.extend(ring.iter().map(|point| point.0));
        ys.extend(ring.iter().map(|point| point.1));
    }
    Job { regions: Regions::of(&rows), xs: xs.into(), ys: ys.into(), diagnostics: rows.len(), ..all }
}
