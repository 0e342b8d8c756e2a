//! Jobs on a box.
mod by_hand;
mod draw;

use super::{lengths, Call, Job, Solid};
use crate::rules::meshes::boxes::{axes, sizes};

pub fn job(call: Call, seed: u64, number: u64) -> Job {
    by_hand::job(call, number).unwrap_or_else(|| draw::job(call, seed, number))
}

/// The box in an empty mesh whose lists it fills, or that has none.
pub fn filling(call: Call, bounds: [f64; 6], cells: [f64; 2]) -> Job {
    let is_admitted = axes(&bounds, &cells).iter().all(|n| *n <= 4096.0);
    let [nodes, elements] = if is_admitted { sizes(&bounds, &cells) } else { [0; 2] };
    Job { lengths: lengths(nodes, elements), ..job_of(call, bounds, cells) }
}

/// An empty mesh without lists, and no point.
fn job_of(call: Call, bounds: [f64; 6], cells: [f64; 2]) -> Job {
    Job {
        call,
        solid: Solid::Box(bounds),
        xs: vec![].into(),
        ys: vec![].into(),
        material: 768,
        region: u32::MAX,
        labels: [0; 2],
        cells,
        counts: [0; 2],
        lengths: [0; 6],
    }
}
