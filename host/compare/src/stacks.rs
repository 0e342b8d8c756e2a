//! `assemble_stack`.
use crate::compared::{Cases, Said};
use crate::show::{show_bytes, show_list};
use cases::expected::stacks as expected;
use cases::stacks::{Given, Job, NAME, WAYS};
use rattle::stacks::{answer, Stacked};
use std::fmt;

const OUTCOMES: [&str; 6] = ["box", "prism", "unnamed layer", "marker", "unmatched", "no z range"];

#[derive(Default)]
pub struct Stacks {
    by_outcome: [u64; 6],
    by_way: [u64; WAYS.len()],
    asked: u64,
}

impl Cases for Stacks {
    type Job = Job;
    type Expected = Result<Given, u32>;

    const ENOUGH: u64 = 4000;

    fn name(&self) -> &'static str {
        NAME
    }

    fn share(&self, cases: u64) -> u64 {
        cases / 5
    }

    fn draw(&self, seed: u64, number: u64) -> Job {
        Job::draw(seed, number)
    }

    fn expected(&self, job: &Job) -> Self::Expected {
        expected::answer(job)
    }

    fn said(&self, job: &Job, expected: &Self::Expected) -> Said {
        let said = answer(job);
        Said { status: said.status, is_same: said.same(&Stacked::expected(job, expected)) }
    }

    fn count(&mut self, _: &Job, expected: &Self::Expected) {
        if let Ok(given) = expected {
            self.asked += given.asked as u64;
            given.outcomes.iter().for_each(|outcome| self.by_outcome[*outcome as usize] += 1);
            given.ways.iter().for_each(|way| self.by_way[*way as usize] += 1);
        }
    }

    fn counts(&self) -> Vec<(String, u64)> {
        let ways = WAYS.iter().map(|way| way.1).zip(self.by_way);
        let polygons = OUTCOMES.into_iter().zip(self.by_outcome).chain(ways);
        [("the Rust asked", self.asked)].into_iter().chain(polygons).map(|(name, count)| (name.into(), count)).collect()
    }

    fn show(&self, f: &mut fmt::Formatter, job: &Job) -> fmt::Result {
        show_job(f, job)?;
        let (expected, said) = (Stacked::expected(job, &expected::answer(job)), answer(job));
        for (who, one) in [("expected", &expected), ("Rattle  ", &said)] {
            writeln!(f, "  {who} status {} regions {} outcomes {:?}", one.status, one.regions, one.outcomes)?;
        }
        // Two rows past the end are there, and not lent.
        for i in 0..job.regions.into_iter().min().unwrap_or(0) + 2 {
            let [a, b] = [expected.lists.row(i).words(), said.lists.row(i).words()];
            if a != b {
                writeln!(f, "  row {i} expected {a:x?}\n  row {i} Rattle   {b:x?}")?;
            }
        }
        Ok(())
    }
}

pub fn show_job(f: &mut fmt::Formatter, job: &Job) -> fmt::Result {
    for block in &job.blocks {
        show_bytes(f, &block.bytes)?;
    }
    writeln!(f, "  polygons: {} {:?}", job.layers.len(), job.polygons.each_ref().map(Vec::len))?;
    let polygons = job.layers.iter().zip(job.nets()).zip(job.starts().iter().zip(job.counts()));
    for ((layer, net), (start, count)) in polygons.take(64) {
        writeln!(f, "    layer {layer} net {net} start {start} count {count}")?;
    }
    show_list(f, "xs", &job.xs)?;
    show_list(f, "ys", &job.ys)?;
    writeln!(f, "  room for regions: {:?}, for outcomes: {}", job.regions, job.outcomes)
}
