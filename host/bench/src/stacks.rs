//! Stacking a layout of 4,096 polygons. Half are rectangles, half circles of eight points, in turns over the layers.
use crate::blocks::{layers, Layers};
use crate::inputs::{circle, on_four_corners};
use crate::row::{effort, lent, Row, Sides};
use cases::blocks::Lent;
use cases::expected::stacks::answer;
use cases::stacks::Job;
use oracle::core::geometry::LayerKey;
use oracle::core::layout::LayoutPolygon;
use oracle::geometry::assemble_stack;
use rattle::stacks::{call, Stacked};
use std::hint::black_box;

const POLYGONS: usize = 4096;

pub fn rows() -> Vec<Row> {
    let stacked = |size, rows| Row::new("assemble_stack", size, effort(50, 1), move || sides(input(rows))).with_stack();
    vec![stacked("4,096 polygons, blocks of 16 rows", 16), stacked("4,096 polygons, blocks of 256 rows", 256)]
}

/// The same job in the form of each side.
struct Input {
    layers: Layers,
    job: Job,
}

/// So many rows in each block.
fn input(n: usize) -> Input {
    let mut layers = layers(n);
    let [round, square] = [circle(8, 100.0), on_four_corners(4)];
    let rings: Vec<_> = (0..POLYGONS).map(|i| if i % 2 == 0 { &square } else { &round }).collect();
    let numbers: Vec<i16> = (0..POLYGONS).map(|i| layers.numbers[i / 2 % n]).collect();
    let polygon = |i: usize| LayoutPolygon {
        layer: LayerKey::new(numbers[i], 0),
        net: None,
        points: rings[i].points.clone(),
        props: vec![],
    };
    layers.layout.polygons = (0..POLYGONS).map(polygon).collect();
    let counts: Vec<u32> = rings.iter().map(|ring| ring.xs.len() as u32).collect();
    let starts = counts.iter().scan(0, |at, count| Some(std::mem::replace(at, *at + count))).collect();
    let job = Job {
        blocks: layers.blocks.iter().map(|bytes| Lent::damaged(bytes.clone())).collect(),
        layers: numbers.clone(),
        polygons: [vec![0; POLYGONS], starts, counts],
        xs: rings.iter().flat_map(|ring| ring.xs.iter().copied()).collect(),
        ys: rings.iter().flat_map(|ring| ring.ys.iter().copied()).collect(),
        regions: [POLYGONS; 12],
        outcomes: POLYGONS,
    };
    Input { layers, job }
}

fn sides(input: Input) -> Sides {
    let Layers { layout, stack, map, .. } = &input.layers;
    assert!(assemble_stack(layout, stack, map).0.regions.len() == POLYGONS);
    assert!(answer(&input.job).is_ok_and(|given| given.rows.len() == POLYGONS));
    let rust = |input: &Input| {
        let Layers { layout, stack, map, .. } = black_box(&input.layers);
        black_box(assemble_stack(layout, stack, map));
    };
    let rattle = |input: &Input, lists: &mut Stacked| {
        call(black_box(&input.job), lists);
        assert!(black_box((lists.status, lists.regions)) == (0, POLYGONS));
    };
    lent(input, rust, |input| Stacked::before(&input.job), rattle)
}
