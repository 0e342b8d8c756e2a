//! Cells on an axis, and the refusals of the cell count and of the axis coordinate.
use super::{admitted, SIZE_MOST};
use crate::case::Case;

/// "7 over 4,096 cells on an axis"
pub const CELLS_MOST: f64 = 4096.0;

/// "extent / cell, times (1 − 1e-12), rounded up, at least 1"; it may be infinite.
pub fn cells(extent: f64, cell: f64) -> f64 {
    (extent / cell * (1.0 - 1e-12)).ceil().max(1.0)
}

/// "1; then 5 for extent, 6, 7"
pub fn count(case: &Case) -> u32 {
    let [extent, cell] = case.floats();
    // "the cell count's extent at most 2^21"
    if !(extent.is_finite() && extent.abs() <= 2.0 * SIZE_MOST && admitted(&cell)) {
        return 1;
    }
    axis(extent, cell)
}

/// The same; "a place past the last, 15"
pub fn coordinate(case: &Case) -> u32 {
    let [min, max, cell] = case.floats();
    if ![min, max, cell].iter().all(admitted) {
        return 1;
    }
    match axis(max - min, cell) {
        0 if case.place() as f64 > cells(max - min, cell) => 15,
        status => status,
    }
}

fn axis(extent: f64, cell: f64) -> u32 {
    if !(extent > 0.0) {
        return 5;
    }
    if !(cell > 0.0) {
        return 6;
    }
    if cells(extent, cell) > CELLS_MOST {
        return 7;
    }
    0
}
