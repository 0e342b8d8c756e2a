//! The square root. The Rust's is the processor's.
use crate::inputs::values;
use crate::row::{effort, plain, Effort, Row, Sides};
use rattle::raw::openrdson_sqrt;
use std::hint::black_box;

pub fn rows() -> Vec<Row> {
    let job = "sqrt (Rust: the processor's)";
    vec![
        Row::new(job, "each of 512 numbers", Effort { answers: 512, ..effort(1000, 20) }, || roots(values(512))),
        Row::new(job, "each of a million numbers", Effort { answers: 1_000_000, ..effort(20, 1) }, || roots(values(1_000_000))),
    ]
}

/// A call, as the other side's is.
#[inline(never)]
fn hardware_root(x: f64) -> f64 {
    x.sqrt()
}

fn roots(values: Vec<f64>) -> Sides {
    let rust = |values: &Vec<f64>| {
        for x in black_box(values) {
            black_box(hardware_root(*x));
        }
    };
    let rattle = |values: &Vec<f64>| {
        for x in black_box(values) {
            black_box(unsafe { openrdson_sqrt(*x) });
        }
    };
    plain(values, rust, rattle)
}
