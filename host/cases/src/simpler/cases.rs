//! The calls that give some values.
use super::lists::{all, cut, entries, leave_out, moved, plainer, with, LONG};
use super::{blocks, Simpler, Tries};
use crate::case::Case;
use crate::regions::Regions;
use std::ops::Range;

impl Simpler for Case {
    fn simpler(&self) -> Tries<'_, Case> {
        let mut shorter = [regions_cut(self, &self.regions, |copy| &mut copy.regions), points_cut(self), lent(self)];
        if self.xs.len() > LONG {
            shorter.swap(0, 1);
        }
        let plainer = [
            regions_plainer(self, &self.regions, |copy| &mut copy.regions),
            params(self),
            entries(self, &self.region, |copy, place, plain| copy.region[place] = plain),
            entries(self, &self.xs, |copy, place, plain| copy.xs.to_mut()[place] = plain),
            entries(self, &self.ys, |copy, place, plain| copy.ys.to_mut()[place] = plain),
        ];
        all(shorter.into_iter().chain(plainer))
    }
}

fn points_cut(case: &Case) -> Tries<'_, Case> {
    let both = cut(case, case.xs.len().max(case.ys.len()), |copy, part| {
        leave_out(copy.xs.to_mut(), part);
        leave_out(copy.ys.to_mut(), part);
        move_parts(&mut copy.regions, part);
        if copy.call.floats() == 2 {
            [copy.params[2], copy.params[3]] = moved([copy.start(), copy.count()], part).map(u64::from);
        }
    });
    // Where the lists are not equally long, one alone.
    let unequal = if case.xs.len() == case.ys.len() { 0 } else { usize::MAX };
    let xs = cut(case, case.xs.len().min(unequal), |copy, part| leave_out(copy.xs.to_mut(), part));
    let ys = cut(case, case.ys.len().min(unequal), |copy, part| leave_out(copy.ys.to_mut(), part));
    all([both, xs, ys])
}

fn lent(case: &Case) -> Tries<'_, Case> {
    Box::new(blocks::all_simpler(&case.lent, case.call.blocks()).map(move |lent| with(case, |copy| copy.lent = lent)))
}

fn params(case: &Case) -> Tries<'_, Case> {
    let floats = case.call.floats();
    all((0..case.params.len()).map(move |place| {
        if place < floats {
            plainer(case, case.float(place), move |copy, plain| copy.params[place] = plain.to_bits())
        } else {
            plainer(case, case.params[place], move |copy, plain| copy.params[place] = plain)
        }
    }))
}

/// The parts of the prisms, once this part of the points is left out.
pub fn move_parts(regions: &mut Regions, part: &Range<usize>) {
    let [starts, counts, ..] = &mut regions.numbers;
    for ((start, count), kind) in starts.iter_mut().zip(counts).zip(&regions.kinds) {
        if *kind == 1 {
            [*start, *count] = moved([*start, *count], part);
        }
    }
}

/// Fewer regions.
pub fn regions_cut<'a, T: Clone>(job: &'a T, now: &'a Regions, of: impl Fn(&mut T) -> &mut Regions + Copy + 'a) -> Tries<'a, T> {
    let longest = now.lengths().into_iter().max().unwrap_or(0);
    cut(job, longest, move |copy, part| {
        let regions = of(copy);
        leave_out(&mut regions.kinds, part);
        regions.bounds.iter_mut().for_each(|list| leave_out(list, part));
        regions.numbers.iter_mut().for_each(|list| leave_out(list, part));
    })
}

/// Regions with plainer numbers.
pub fn regions_plainer<'a, T: Clone>(job: &'a T, now: &'a Regions, of: impl Fn(&mut T) -> &mut Regions + Copy + 'a) -> Tries<'a, T> {
    let kinds = entries(job, &now.kinds, move |copy, place, plain| of(copy).kinds[place] = plain);
    let numbers = (0..5).map(move |list| entries(job, &now.numbers[list], move |copy, place, plain| of(copy).numbers[list][place] = plain));
    let bounds = (0..6).map(move |list| entries(job, &now.bounds[list], move |copy, place, plain| of(copy).bounds[list][place] = plain));
    all(std::iter::once(kinds).chain(numbers).chain(bounds))
}
