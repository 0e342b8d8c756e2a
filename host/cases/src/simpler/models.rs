//! The calls that mesh a model.
use super::cases::{move_parts, regions_cut, regions_plainer};
use super::lists::{all, cut, entries, leave_out, lengths, plainer, LONG};
use super::{Simpler, Tries};
use crate::models::Job;

impl Simpler for Job {
    fn simpler(&self) -> Tries<'_, Job> {
        let mut shorter = [regions_cut(self, &self.regions, |copy| &mut copy.regions), points_cut(self), overrides_cut(self)];
        if self.xs.len() > LONG {
            shorter.swap(0, 1);
        }
        let plainer = [
            lengths(self, self.lengths, |copy, plain| copy.lengths = plain),
            entries(self, &self.counts, |copy, place, plain| copy.counts[place] = plain),
            plainer(self, self.diagnostics, |copy, plain| copy.diagnostics = plain),
            regions_plainer(self, &self.regions, |copy| &mut copy.regions),
            entries(self, &self.cells, |copy, place, plain| copy.cells[place] = plain),
            entries(self, &self.overrides.materials, |copy, place, plain| copy.overrides.materials[place] = plain),
            entries(self, &self.overrides.sizes[0], |copy, place, plain| copy.overrides.sizes[0][place] = plain),
            entries(self, &self.overrides.sizes[1], |copy, place, plain| copy.overrides.sizes[1][place] = plain),
            entries(self, &self.xs, |copy, place, plain| copy.xs.to_mut()[place] = plain),
            entries(self, &self.ys, |copy, place, plain| copy.ys.to_mut()[place] = plain),
        ];
        all(shorter.into_iter().chain(plainer))
    }
}

fn points_cut(job: &Job) -> Tries<'_, Job> {
    cut(job, job.xs.len().max(job.ys.len()), |copy, part| {
        leave_out(copy.xs.to_mut(), part);
        leave_out(copy.ys.to_mut(), part);
        move_parts(&mut copy.regions, part);
    })
}

fn overrides_cut(job: &Job) -> Tries<'_, Job> {
    let overrides = &job.overrides;
    let longest = overrides.sizes.iter().map(Vec::len).max().unwrap_or(0).max(overrides.materials.len());
    cut(job, longest, |copy, part| {
        leave_out(&mut copy.overrides.materials, part);
        copy.overrides.sizes.iter_mut().for_each(|list| leave_out(list, part));
    })
}
