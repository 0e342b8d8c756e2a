//! The calls on a ring that write lists.
use crate::compared::{Cases, Said};
use crate::show::show_list;
use cases::expected::polygons as expected;
use cases::polygons::{Call, Given, Job, KINDS};
use rattle::polygons::{answer, Left};
use std::fmt;

pub struct Polygons {
    call: Call,
    by_kind: [u64; KINDS],
}

impl Polygons {
    pub fn new(call: Call) -> Self {
        Polygons { call, by_kind: [0; KINDS] }
    }
}

impl Cases for Polygons {
    type Job = Job;
    type Expected = Result<Given, u32>;

    const ENOUGH: u64 = 2000;

    fn name(&self) -> &'static str {
        self.call.name()
    }

    fn share(&self, cases: u64) -> u64 {
        cases
    }

    fn draw(&self, seed: u64, number: u64) -> Job {
        Job::draw(self.call, seed, number)
    }

    fn expected(&self, job: &Job) -> Self::Expected {
        expected::answer(job)
    }

    fn said(&self, job: &Job, expected: &Self::Expected) -> Said {
        let said = answer(job);
        Said { status: said.status, is_same: said.same(&Left::expected(job, expected)) }
    }

    fn count(&mut self, _: &Job, expected: &Self::Expected) {
        if let Ok(given) = expected {
            given.kinds.iter().for_each(|kind| self.by_kind[*kind as usize] += 1);
        }
    }

    fn counts(&self) -> Vec<(String, u64)> {
        self.call.kinds().iter().map(|kind| (kind.name().into(), self.by_kind[*kind as usize])).collect()
    }

    fn show(&self, f: &mut fmt::Formatter, job: &Job) -> fmt::Result {
        show_list(f, "xs", &job.xs)?;
        show_list(f, "ys", &job.ys)?;
        writeln!(f, "  room for points: {:?}, for corners: {}", job.room, job.corners)?;
        for (who, left) in [("expected", Left::expected(job, &expected::answer(job))), ("Rattle  ", answer(job))] {
            writeln!(f, "  {who} status {} points {} triangles {}", left.status, left.points, left.triangles)?;
            show_list(f, "  out_x", &left.lists[0])?;
            show_list(f, "  out_y", &left.lists[1])?;
            writeln!(f, "    corners: {:?}", left.corners)?;
        }
        Ok(())
    }
}
