//! Boxes at the limits.
use super::filling;
use crate::axes::SLIGHT;
use crate::meshes::{lengths, Call, Job};
use crate::numbers::MOST;

/// min_x, max_x, min_y, max_y, z_bottom, z_top, and the two cell sizes.
type Numbers = [f64; 8];

const BELOW_MOST: f64 = MOST.next_down();

/// Each with lists that it fills.
const BOXES: [Numbers; 26] = [
    [0.0, 2.0, 0.0, 1.0, 0.0, 1.0, 1.0, 1.0],
    // The most cells on each axis, and one more.
    [0.0, 4096.0, 0.0, 1.0, 0.0, 1.0, 1.0, 1.0],
    [0.0, 4097.0, 0.0, 1.0, 0.0, 1.0, 1.0, 1.0],
    [0.0, 1.0, 0.0, 4096.0, 0.0, 1.0, 1.0, 1.0],
    [0.0, 1.0, 0.0, 4097.0, 0.0, 1.0, 1.0, 1.0],
    [0.0, 1.0, 0.0, 1.0, 0.0, 4096.0, 1.0, 1.0],
    [0.0, 1.0, 0.0, 1.0, 0.0, 4097.0, 1.0, 1.0],
    // 2 + 2^-40 and 2 + 2^-38: 2 cells, and 3.
    [0.0, 2.0 + SLIGHT, 0.0, 2.0 + 4.0 * SLIGHT, 0.0, 2.0 + SLIGHT, 1.0, 1.0],
    // A quotient that is infinite, and one that is zero.
    [0.0, 1.0, 0.0, 1.0, 0.0, 1.0, 5e-324, 1.0],
    [0.0, 1.0, 0.0, 1.0, 0.0, 1.0, 1.0, 5e-324],
    [0.0, 5e-324, 0.0, 5e-324, 0.0, 5e-324, MOST, MOST],
    [0.0, 5e-324, 0.0, 5e-324, 0.0, 5e-324, 5e-324, 5e-324],
    // Zeros of both signs.
    [-0.0, 1.0, -0.0, 1.0, -0.0, 1.0, 0.5, 0.5],
    [-0.0, 1.0, -0.0, 1.0, -0.0, 1.0, 1.0, 1.0],
    [-1.0, -0.0, -1.0, -0.0, -1.0, -0.0, 0.5, 0.5],
    [-1.0, 0.0, -1.0, 0.0, -1.0, 0.0, 1.0, 1.0],
    [-0.0, 0.0, 0.0, 1.0, 0.0, 1.0, 1.0, 1.0],
    [0.0, 1.0, 0.0, -0.0, 0.0, 1.0, 1.0, 1.0],
    // One float wide in two cells, and in more.
    [BELOW_MOST, MOST, BELOW_MOST, MOST, BELOW_MOST, MOST, 1e-10, 1e-10],
    [BELOW_MOST, MOST, BELOW_MOST, MOST, BELOW_MOST, MOST, 1e-11, 1e-10],
    // As wide as may be.
    [-MOST, MOST, -MOST, MOST, -MOST, MOST, MOST, MOST],
    [-MOST, MOST, -1.0, 1.0, -1.0, 1.0, 512.0, MOST],
    [-MOST, MOST, -1.0, 1.0, -1.0, 1.0, 511.0, MOST],
    // 1,048,576 nodes; 1,040,638; 1,064,960, which are too many.
    [0.0, 127.0, 0.0, 127.0, 0.0, 63.0, 1.0, 1.0],
    [0.0, 4096.0, 0.0, 126.0, 0.0, 1.0, 1.0, 1.0],
    [0.0, 127.0, 0.0, 127.0, 0.0, 64.0, 1.0, 1.0],
];

/// Counts about a mesh's most, the room for nodes and for elements, and the cells of the box in a row.
const COUNTS: [([usize; 2], [usize; 2], f64); 10] = [
    ([1_048_568, 0], [1_048_576, 1], 1.0),
    ([1_048_568, 0], [1_048_600, 2], 2.0),
    ([1_048_569, 0], [1_048_600, 1], 1.0),
    ([1_048_577, 0], [1_048_600, 1], 1.0),
    ([0, 1_048_575], [8, 1_048_576], 1.0),
    ([0, 1_048_575], [12, 1_048_600], 2.0),
    ([0, 1_048_576], [8, 1_048_600], 1.0),
    ([0, 1_048_577], [8, 1_048_600], 1.0),
    ([usize::MAX, 0], [8, 1], 1.0),
    ([0, usize::MAX], [8, 1], 1.0),
];

pub fn job(call: Call, number: u64) -> Option<Job> {
    let number = number as usize;
    if let Some(numbers) = BOXES.get(number) {
        return Some(of(call, numbers));
    }
    let (counts, [nodes, kinds], long) = COUNTS.get(number - BOXES.len())?;
    let cells = of(call, &[0.0, *long, 0.0, 1.0, 0.0, 1.0, 1.0, 1.0]);
    Some(Job { counts: *counts, lengths: lengths(*nodes, *kinds), ..cells })
}

fn of(call: Call, numbers: &Numbers) -> Job {
    let [min_x, max_x, min_y, max_y, z_bottom, z_top, across, up] = *numbers;
    filling(call, [min_x, min_y, max_x, max_y, z_bottom, z_top], [across, up])
}
