//! One thing of a job changed, so that most are refused.
use super::{Job, BLOCKS};
use crate::blocks::Lent;
use crate::damage::damaged;
use crate::numbers;
use crate::rules;
use crate::random::Random;
use crate::rings;
use crate::solids;

pub fn job(r: &mut Random, job: &mut Job) {
    match r.below(9) {
        0 => block(r, job),
        1 => polygon_lists(r, job),
        2 => with_points(job, |xs, ys| rings::unequal(r, xs, ys)),
        3 => {
            let list = r.below(12);
            job.regions[list] = r.pick(&[0, job.regions[list] + 1, job.regions[list].saturating_sub(1)]);
        }
        4 => part(r, job),
        5 => long_part(r, job),
        6 => with_points(job, |xs, ys| rings::spoil(r, xs, ys)),
        7 => point_of_polygon(r, job),
        _ => short(r, job),
    }
}

/// A block that is damaged already stays as it is.
fn block(r: &mut Random, job: &mut Job) {
    let place = r.below(6);
    if job.blocks[place].rows.is_none() {
        return;
    }
    job.blocks[place] = Lent::damaged(damaged(r, BLOCKS[place], &job.blocks[place].bytes));
}

/// One of the four polygon lists gets longer or shorter; all of them, rarely, past 4,096.
fn polygon_lists(r: &mut Random, job: &mut Job) {
    let n = job.layers.len();
    if r.one_in(20) {
        job.layers.resize(4097, 0);
        job.polygons.iter_mut().for_each(|list| list.resize(4097, 0));
        return;
    }
    let length = r.pick(&[0, n.saturating_sub(1), n + 1, n + 1, 4097]);
    match r.below(4) {
        0 => job.layers.resize(length, 0),
        list => job.polygons[list - 1].resize(length, 0),
    }
}

fn with_points(job: &mut Job, change: impl FnOnce(&mut Vec<f64>, &mut Vec<f64>)) {
    change(job.xs.to_mut(), job.ys.to_mut());
}

/// The place of a polygon, if all lists have one.
fn polygon(r: &mut Random, job: &Job) -> Option<usize> {
    let n = job.polygons.iter().map(Vec::len).min().unwrap_or(0);
    (n > 0).then(|| r.below(n))
}

fn part(r: &mut Random, job: &mut Job) {
    let Some(i) = polygon(r, job) else { return };
    (job.polygons[1][i], job.polygons[2][i]) = solids::other_part(r, job.xs.len());
}

/// A part of 512 or 513 points, inside the lists.
fn long_part(r: &mut Random, job: &mut Job) {
    let Some(i) = polygon(r, job) else { return };
    let count = r.pick(&[512, 513, 513]);
    job.polygons[1][i] = job.xs.len() as u32;
    job.polygons[2][i] = count;
    with_points(job, |xs, ys| {
        xs.extend((0..count).map(f64::from));
        ys.extend((0..count).map(|k| f64::from(k % 5)));
    });
}

/// A number of a polygon that is not admitted.
fn point_of_polygon(r: &mut Random, job: &mut Job) {
    let Some(i) = polygon(r, job) else { return };
    let part = job.part(i);
    if part.is_empty() || part.end > job.xs.len().min(job.ys.len()) {
        return;
    }
    let place = part.start + r.below(part.len());
    let list = if r.one_in(2) { &mut job.xs } else { &mut job.ys };
    list.to_mut()[place] = numbers::outside(r);
}

/// Lists too short by one: the regions', or the outcomes.
fn short(r: &mut Random, job: &mut Job) {
    if r.one_in(2) {
        job.outcomes = job.layers.len().saturating_sub(1);
        return;
    }
    let rows = rules::stacks::answer(job).map_or(0, |given| given.rows.len());
    job.regions = [rows.saturating_sub(1); 12];
}
