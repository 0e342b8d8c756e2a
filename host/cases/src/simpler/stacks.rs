//! Stacking.
use super::lists::{all, cut, entries, leave_out, moved, plainer, with, LONG};
use super::{blocks, Simpler, Tries};
use crate::stacks::{Job, BLOCKS};

impl Simpler for Job {
    fn simpler(&self) -> Tries<'_, Job> {
        let numbers = (0..3).map(|list| entries(self, &self.polygons[list], move |copy, place, plain| copy.polygons[list][place] = plain));
        let mut shorter = [polygons_cut(self), points_cut(self), lent(self)];
        if self.xs.len() > LONG {
            shorter.swap(0, 1);
        }
        let plainer = [
            plainer(self, self.regions.into_iter().min().unwrap_or(0), |copy, plain| copy.regions = [plain; 12]),
            entries(self, &self.regions, |copy, place, plain| copy.regions[place] = plain),
            plainer(self, self.outcomes, |copy, plain| copy.outcomes = plain),
            entries(self, &self.layers, |copy, place, plain| copy.layers[place] = plain),
            entries(self, &self.xs, |copy, place, plain| copy.xs.to_mut()[place] = plain),
            entries(self, &self.ys, |copy, place, plain| copy.ys.to_mut()[place] = plain),
        ];
        all(shorter.into_iter().chain(plainer).chain(numbers))
    }
}

fn polygons_cut(job: &Job) -> Tries<'_, Job> {
    let longest = job.polygons.iter().map(Vec::len).max().unwrap_or(0).max(job.layers.len());
    cut(job, longest, |copy, part| {
        leave_out(&mut copy.layers, part);
        copy.polygons.iter_mut().for_each(|list| leave_out(list, part));
    })
}

fn points_cut(job: &Job) -> Tries<'_, Job> {
    cut(job, job.xs.len().max(job.ys.len()), |copy, part| {
        leave_out(copy.xs.to_mut(), part);
        leave_out(copy.ys.to_mut(), part);
        let [_, starts, counts] = &mut copy.polygons;
        starts.iter_mut().zip(counts).for_each(|(start, count)| [*start, *count] = moved([*start, *count], part));
    })
}

fn lent(job: &Job) -> Tries<'_, Job> {
    Box::new(blocks::all_simpler(&job.blocks, &BLOCKS).map(move |blocks| with(job, |copy| copy.blocks = blocks)))
}
