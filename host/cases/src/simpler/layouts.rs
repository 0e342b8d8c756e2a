//! Layouts on their way to a volume.
use super::lists::{all, entries, plainer, with};
use super::{Simpler, Tries};
use crate::layouts::Job;

impl Simpler for Job {
    fn simpler(&self) -> Tries<'_, Job> {
        let stacks = self.stack.simpler().map(|stack| with(self, |copy| copy.stack = stack));
        all([
            Box::new(stacks),
            plainer(self, self.spare, |copy, plain| copy.spare = plain),
            plainer(self, self.tolerance, |copy, plain| copy.tolerance = plain),
            entries(self, &self.cells, |copy, place, plain| copy.cells[place] = plain),
        ])
    }
}
