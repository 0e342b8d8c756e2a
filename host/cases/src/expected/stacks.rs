//! What is expected of a stacking job: its answer by the rules (`rules`). Where it is accepted and every name is UTF-8, it is held to the Rust's: every region,
//! and the report, whose counts are rebuilt from the outcomes.
use super::lookups::{layer_names, map, stack};
use super::points;
use super::regions::{net_name, row};
use crate::blocks::Rows;
use crate::rules;
use crate::stacks::{Given, Job};
use oracle::core::geometry::{LayerKey, SolidModel};
use oracle::core::layout::{LayoutIR, LayoutPolygon};
use oracle::core::tech::{LayerMap, TechStack};
use oracle::geometry::{assemble_stack, StackAssemblyReport};
use std::collections::BTreeMap;

pub fn answer(job: &Job) -> Result<Given, u32> {
    let mut given = rules::stacks::answer(job)?;
    if let Some(inputs) = inputs(job) {
        let (model, report) = assemble_stack(&inputs.layout, &inputs.stack, &inputs.map);
        assert!(same_regions(&inputs, job, &given, &model), "the rules and the Rust differ in a region");
        assert!(same_report(&inputs, job, &given, &report), "the rules and the Rust's report differ");
        given.asked = true;
    }
    Ok(given)
}

/// What the Rust is given.
pub struct Inputs {
    pub layout: LayoutIR,
    pub stack: TechStack,
    pub map: LayerMap,
}

/// Of a job that is accepted; none where a block was made by damage, or a name is not UTF-8.
pub fn inputs(job: &Job) -> Option<Inputs> {
    let blocks: Vec<&Rows> = job.blocks.iter().map(|lent| lent.rows.as_ref()).collect::<Option<_>>()?;
    let polygon = |i: usize| LayoutPolygon {
        layer: LayerKey::new(job.layers[i], 0),
        net: net_name(job.nets()[i]),
        points: points(&job.xs[job.part(i)], &job.ys[job.part(i)]),
        props: vec![],
    };
    let layout = LayoutIR {
        polygons: (0..job.layers.len()).map(polygon).collect(),
        layer_names: layer_names(blocks[0])?,
        ..LayoutIR::default()
    };
    Some(Inputs { layout, stack: stack(&blocks[3..])?, map: LayerMap { conducting: map(blocks[1])?, via: map(blocks[2])? } })
}

/// Every field of every region, in order.
fn same_regions(inputs: &Inputs, job: &Job, given: &Given, model: &SolidModel) -> bool {
    let rust = model.regions.iter().map(|region| {
        let polygon = region.source_polygon.unwrap();
        row(region, &inputs.layout.polygons[polygon].points, job.starts()[polygon]).words()
    });
    rust.eq(given.rows.iter().map(|row| row.words()))
}

/// The counts of the Rust's report, rebuilt from the outcomes. A layer without a name is entered and not counted there.
fn same_report(inputs: &Inputs, job: &Job, given: &Given, report: &StackAssemblyReport) -> bool {
    let tally = |outcome: u8| given.outcomes.iter().filter(|told| **told == outcome).count();
    let [mut unmatched, mut markers, mut no_range] = [(); 3].map(|_| BTreeMap::<String, usize>::new());
    for (layer, outcome) in job.layers.iter().zip(&given.outcomes) {
        let logical = inputs.layout.layer_name(*layer).unwrap_or("");
        let physical = inputs.map.conducting.get(logical).or_else(|| inputs.map.via.get(logical));
        match outcome {
            2 => {
                unmatched.entry(format!("layer:{layer}")).or_insert(0);
            }
            3 => *markers.entry(logical.into()).or_insert(0) += 1,
            4 => *unmatched.entry(logical.into()).or_insert(0) += 1,
            5 => *no_range.entry(physical.unwrap().clone()).or_insert(0) += 1,
            _ => {}
        }
    }
    let counts = [report.regions, report.boxes, report.prisms] == [tally(0) + tally(1), tally(0), tally(1)];
    let maps = report.unmatched_layers == unmatched && report.skipped_markers == markers && report.no_z_range == no_range;
    counts && maps && given.outcomes.len() == job.layers.len()
}
