//! The calls that mesh a region.
use super::lists::{all, cut, entries, leave_out, lengths, moved, plainer};
use super::{Simpler, Tries};
use crate::meshes::{Job, Solid};

impl Simpler for Job {
    fn simpler(&self) -> Tries<'_, Job> {
        all([
            lengths(self, self.lengths, |copy, plain| copy.lengths = plain),
            entries(self, &self.counts, |copy, place, plain| copy.counts[place] = plain),
            points_cut(self),
            solid(self),
            entries(self, &self.cells, |copy, place, plain| copy.cells[place] = plain),
            plainer(self, self.material, |copy, plain| copy.material = plain),
            plainer(self, self.region, |copy, plain| copy.region = plain),
            entries(self, &self.labels, |copy, place, plain| copy.labels[place] = plain),
            entries(self, &self.xs, |copy, place, plain| copy.xs.to_mut()[place] = plain),
            entries(self, &self.ys, |copy, place, plain| copy.ys.to_mut()[place] = plain),
        ])
    }
}

fn points_cut(job: &Job) -> Tries<'_, Job> {
    cut(job, job.xs.len().max(job.ys.len()), |copy, part| {
        leave_out(copy.xs.to_mut(), part);
        leave_out(copy.ys.to_mut(), part);
        if let Solid::Prism { start, count, .. } = &mut copy.solid {
            [*start, *count] = moved([*start, *count], part);
        }
    })
}

fn solid(job: &Job) -> Tries<'_, Job> {
    match &job.solid {
        Solid::Box(bounds) => entries(job, bounds, |copy, place, plain| {
            if let Solid::Box(bounds) = &mut copy.solid {
                bounds[place] = plain;
            }
        }),
        Solid::Prism { heights, start, count } => {
            let now = (*heights, *start, *count);
            let put = |copy: &mut Job, (heights, start, count)| copy.solid = Solid::Prism { heights, start, count };
            all([
                plainer(job, now.1, move |copy, plain| put(copy, (now.0, plain, now.2))),
                plainer(job, now.2, move |copy, plain| put(copy, (now.0, now.1, plain))),
                plainer(job, now.0[0], move |copy, plain| put(copy, ([plain, now.0[1]], now.1, now.2))),
                plainer(job, now.0[1], move |copy, plain| put(copy, ([now.0[0], plain], now.1, now.2))),
            ])
        }
    }
}
