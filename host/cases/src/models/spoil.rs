//! Damage to a model: to a region, so that this one is refused; to a list, so that the job is.
use super::draw::Sketch;
use super::{Job, Overrides};
use crate::numbers::{self, MOST};
use crate::random::Random;
use crate::regions::Row;
use crate::rings;
use crate::solids;

/// One thing of a region that the Rust refuses too: nothing between two ends.
pub fn flat(r: &mut Random, row: &mut Row) {
    let (low, high) = if row.kind == 0 { r.pick(&[(0, 2), (1, 3), (4, 5)]) } else { (4, 5) };
    let end = row.bounds[low];
    row.bounds[high] = if r.one_in(3) { numbers::nudge(end, -1).max(-MOST) } else { end };
}

/// One thing of a region that the Rust does not know.
pub fn row(r: &mut Random, row: &mut Row, sketch: &mut Sketch) {
    match r.below(8) {
        0 => row.kind = r.pick(&[2, 3, 127, 128, 254, 255]),
        1 => row.numbers[2] = r.pick(&[769, 770, 1 << 16, 1 << 31, u32::MAX]),
        2 => [row.numbers[0], row.numbers[1]] = solids::other_part(r, sketch.xs.len()).into(),
        // Not looked at where the other kind has it.
        3 => row.bounds[r.below(6)] = numbers::outside(r),
        4 => row.bounds[r.between(4, 5) as usize] = numbers::outside(r),
        5 => many_cells(r, row, sketch),
        6 => long_part(r, row, sketch),
        _ => point(r, row, sketch),
    }
}

/// A box of about 4,096 cells, or of far more, in one direction.
fn many_cells(r: &mut Random, row: &mut Row, sketch: &Sketch) {
    let [across, up] = sketch.cells_of(row.material());
    let (low, high, size) = r.pick(&[(0, 2, across), (1, 3, across), (4, 5, up)]);
    row.bounds[low] = 0.0;
    row.bounds[high] = (size * r.pick(&[4096.0, 4097.0, 5000.0, 1e9])).min(MOST);
}

/// A part of 512 or 513 points, inside the lists.
fn long_part(r: &mut Random, row: &mut Row, sketch: &mut Sketch) {
    let count = r.pick(&[512, 513, 513]);
    [row.numbers[0], row.numbers[1]] = [sketch.xs.len() as u32, count];
    sketch.xs.extend((0..count).map(f64::from));
    sketch.ys.extend((0..count).map(|k| f64::from(k % 5)));
}

/// A number of a prism's part that is not admitted; others may have it too.
fn point(r: &mut Random, row: &Row, sketch: &mut Sketch) {
    let part = row.part();
    if row.kind != 1 || part.is_empty() || part.end > sketch.xs.len() {
        return;
    }
    let place = part.start + r.below(part.len());
    let list = if r.one_in(2) { &mut sketch.xs } else { &mut sketch.ys };
    list[place] = numbers::outside(r);
}

/// One thing of the job's lists; the mesh's lists and its counts are damaged elsewhere.
pub fn job(r: &mut Random, job: &mut Job) {
    let n = job.regions.kinds.len();
    match r.below(5) {
        0 => job.regions.resize(r.below(12), r.pick(&[0, n.saturating_sub(1), n + 1, n + 1, 2 * n + 1, 4097])),
        1 => rings::unequal(r, job.xs.to_mut(), job.ys.to_mut()),
        2 => job.diagnostics = r.pick(&[0, n.saturating_sub(1), n.saturating_sub(1), n / 2]),
        _ if !job.call.has_overrides() => {}
        3 => overrides(r, &mut job.overrides),
        _ => unequal_overrides(r, &mut job.overrides),
    }
}

/// Too many overrides; or one that names what is no material.
fn overrides(r: &mut Random, overrides: &mut Overrides) {
    if r.one_in(8) {
        let many = r.pick(&[4096, 4097, 4097, 5000]);
        while overrides.materials.len() < many {
            overrides.push(1 + r.below(768) as u32, [1.0; 2]);
        }
        return;
    }
    overrides.push(1, [1.0; 2]);
    let place = r.below(overrides.materials.len());
    overrides.materials[place] = r.pick(&[0, 769, 770, 1 << 31, u32::MAX]);
}

/// One of the three lists gets longer or shorter.
fn unequal_overrides(r: &mut Random, overrides: &mut Overrides) {
    let n = overrides.materials.len();
    let length = r.pick(&[0, n.saturating_sub(1), n + 1, n + 1, 4097]);
    match r.below(3) {
        0 => overrides.materials.resize(length, 1),
        list => overrides.sizes[list - 1].resize(length, 1.0),
    }
}
