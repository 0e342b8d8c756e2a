//! Region lists whose volume is asked: boxes and prisms over shared point lists, admitted or damaged.
use crate::call::Call;
use crate::case::{Case, List};
use crate::numbers;
use crate::random::Random;
use crate::regions::{Regions, Row};
use crate::rings;
use crate::solids::{self, POINTS_MOST};

/// The most regions of a job.
const REGIONS_MOST: usize = 4096;

/// Cases written by hand: no region; 4,096 and 4,097 of them; point lists of 2,097,152 and 2,097,153 entries, and one of each.
const BY_HAND: u64 = 6;

/// Point lists, and the parts of them that are rings.
struct Points {
    xs: List,
    ys: List,
    parts: Vec<(u32, u32)>,
}

pub fn draw(r: &mut Random, number: u64) -> Case {
    let mut points = match number {
        3 => long_points(POINTS_MOST, POINTS_MOST),
        4 => long_points(POINTS_MOST + 1, POINTS_MOST + 1),
        5 => long_points(POINTS_MOST + 1, POINTS_MOST),
        _ if r.one_in(300) => long_points(POINTS_MOST, POINTS_MOST),
        _ => points(r, number),
    };
    let count = match number {
        0 => 0,
        1 => REGIONS_MOST,
        2 => REGIONS_MOST + 1,
        _ => count(r),
    };
    let mut rows: Vec<Row> = (0..count).map(|_| row(r, &points)).collect();
    if number >= BY_HAND && r.one_in(2) {
        for _ in 0..r.between(1, 2) {
            spoil(r, &mut rows, &mut points);
        }
    }
    let mut regions = Regions::of(&rows);
    if number >= BY_HAND && r.one_in(10) {
        unequal(r, &mut regions, &mut points);
    }
    Case { xs: points.xs, ys: points.ys, regions, ..Case::of_numbers(Call::TotalVolume, &[]) }
}

/// The longest lists; their parts stand at the end, among admitted numbers.
fn long_points(nx: usize, ny: usize) -> Points {
    let parts = [0, 3, 4, 50].map(|count| ((POINTS_MOST - count) as u32, count as u32));
    Points { xs: solids::long(0, nx), ys: solids::long(1, ny), parts: parts.to_vec() }
}

fn count(r: &mut Random) -> usize {
    match r.below(400) {
        0 => r.between(REGIONS_MOST as i64 - 1, REGIONS_MOST as i64 + 1) as usize,
        1..=40 => 0,
        41..=300 => r.between(1, 5) as usize,
        _ => r.between(6, 48) as usize,
    }
}

/// Some rings, with numbers between them that no call looks at; one list in twenty has a ring of 513 points.
fn points(r: &mut Random, number: u64) -> Points {
    let (mut all, mut parts) = (vec![], vec![(0, 0)]);
    for _ in 0..r.between(1, 6) {
        for _ in 0..r.below(3) {
            all.push((numbers::any(r), numbers::any(r)));
        }
        let ring = rings::ring(r, number + rings::BY_HAND as u64);
        parts.push((all.len() as u32, ring.len() as u32));
        all.extend(ring);
    }
    if r.one_in(20) {
        let count = if r.one_in(3) { 512 } else { 513 };
        parts.push((all.len() as u32, count));
        all.extend((0..count).map(|i| (i as f64, (i % 7) as f64)));
    }
    let (xs, ys): (Vec<f64>, Vec<f64>) = all.into_iter().unzip();
    Points { xs: xs.into(), ys: ys.into(), parts }
}

/// A box with any start and count, or a prism with any numbers for its first four bounds.
fn row(r: &mut Random, points: &Points) -> Row {
    let mut bounds = solids::bounds(r);
    let (net, polygon) = (r.word() as u32, r.pick(&[0, 1, u32::MAX]));
    let material = r.pick(&[0, 1, 2, 767, 768]);
    if r.one_in(2) {
        let wild = [0, 1, 513, points.xs.len() as u32 + 1, u32::MAX];
        return Row { kind: 0, bounds, numbers: [r.pick(&wild), r.pick(&wild), material, net, polygon] };
    }
    for bound in &mut bounds[..4] {
        *bound = numbers::any(r);
    }
    [bounds[4], bounds[5]] = solids::heights(r);
    let (start, count) = match r.below(6) {
        0 => some_part(r, points),
        _ => r.pick(&points.parts),
    };
    Row { kind: 1, bounds, numbers: [start, count, material, net, polygon] }
}

/// A part that no ring was made for, inside the lists.
fn some_part(r: &mut Random, points: &Points) -> (u32, u32) {
    let start = r.below(points.xs.len() + 1);
    let count = r.below((points.xs.len() - start).min(512) + 1);
    (start as u32, count as u32)
}

/// One thing of one row, or of the points.
fn spoil(r: &mut Random, rows: &mut [Row], points: &mut Points) {
    if rows.is_empty() {
        return;
    }
    let row = &mut rows[r.below(rows.len())];
    match r.below(7) {
        0 => row.kind = r.pick(&[2, 3, 127, 128, 254, 255]),
        1 => row.numbers[2] = r.pick(&[769, 770, 1 << 16, u32::MAX]),
        2 => [row.numbers[0], row.numbers[1]] = solids::other_part(r, points.xs.len()).into(),
        // Not looked at where the other kind has it.
        3 => row.bounds[r.below(6)] = numbers::outside(r),
        4 => row.bounds[r.between(4, 5) as usize] = numbers::outside(r),
        5 => row.kind = 1 - row.kind.min(1),
        _ => rings::spoil(r, points.xs.to_mut(), points.ys.to_mut()),
    }
}

/// One of the fourteen lists gets longer or shorter.
fn unequal(r: &mut Random, regions: &mut Regions, points: &mut Points) {
    let n = regions.kinds.len();
    let list = r.below(14);
    if list >= 12 {
        return rings::unequal(r, points.xs.to_mut(), points.ys.to_mut());
    }
    let length = r.pick(&[0, n.saturating_sub(1), n + 1, n + 1, 2 * n + 1, REGIONS_MOST + 1]);
    regions.resize(list, length);
}
