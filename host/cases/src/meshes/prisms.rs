//! Jobs on a prism.
mod by_hand;
pub mod draw;
pub mod rings;

use super::{lengths, Call, Job, Solid};
use crate::expected::meshes::prism_sizes;

pub fn job(call: Call, seed: u64, number: u64) -> Job {
    by_hand::job(call, number).unwrap_or_else(|| draw::job(call, seed, number))
}

/// The prism on a ring, in an empty mesh whose lists it fills, or that has none.
pub fn filling(call: Call, ring: &[(f64, f64)]) -> Job {
    let (xs, ys): (Vec<f64>, Vec<f64>) = ring.iter().copied().unzip();
    let solid = Solid::Prism { heights: [0.5, 2.0], start: 0, count: ring.len() as u32 };
    filled(Job {
        call,
        solid,
        xs: xs.into(),
        ys: ys.into(),
        material: 768,
        region: u32::MAX,
        labels: [0; 2],
        cells: [f64::NAN, 0.0],
        counts: [0; 2],
        lengths: [0; 6],
    })
}

/// The same prism with lists that it fills.
fn filled(job: Job) -> Job {
    let [nodes, elements] = prism_sizes(&job).unwrap_or([0; 2]);
    Job { lengths: lengths(nodes, elements), ..job }
}
