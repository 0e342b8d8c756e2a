//! The calls on a ring that write lists.
use super::lists::{all, cut, entries, leave_out, plainer};
use super::{Simpler, Tries};
use crate::polygons::Job;

impl Simpler for Job {
    fn simpler(&self) -> Tries<'_, Job> {
        let points = cut(self, self.xs.len().max(self.ys.len()), |copy, part| {
            leave_out(&mut copy.xs, part);
            leave_out(&mut copy.ys, part);
        });
        all([
            points,
            entries(self, &self.xs, |copy, place, plain| copy.xs[place] = plain),
            entries(self, &self.ys, |copy, place, plain| copy.ys[place] = plain),
            plainer(self, self.room[0].min(self.room[1]), |copy, plain| copy.room = [plain; 2]),
            entries(self, &self.room, |copy, place, plain| copy.room[place] = plain),
            plainer(self, self.corners, |copy, plain| copy.corners = plain),
        ])
    }
}
