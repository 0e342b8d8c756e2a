//! The calls that mesh a region.
use crate::compared::{Cases, Said};
use crate::show::{show_list, show_unlike_meshes};
use cases::expected::meshes as expected;
use cases::meshes::{Call, Fault, Given, Job, Solid, FAULTS, KINDS, NOT_KNOWN};
use rattle::meshes::{answer, Left};
use std::fmt;

pub struct Meshes {
    call: Call,
    nodes: u64,
    by_fault: [u64; FAULTS.len()],
    by_kind: [u64; KINDS.len()],
}

impl Meshes {
    pub fn new(call: Call) -> Self {
        Meshes { call, nodes: 0, by_fault: [0; FAULTS.len()], by_kind: [0; KINDS.len()] }
    }
}

impl Cases for Meshes {
    type Job = Job;
    type Expected = Result<Given, Fault>;

    const ENOUGH: u64 = 4000;

    fn name(&self) -> &'static str {
        self.call.name()
    }

    fn share(&self, cases: u64) -> u64 {
        match self.call {
            Call::MeshBox | Call::MeshPrism => cases / 2,
            Call::MeshBoxRegion | Call::MeshPrismRegion => cases / 5,
        }
    }

    fn draw(&self, seed: u64, number: u64) -> Job {
        Job::draw(self.call, seed, number)
    }

    fn expected(&self, job: &Job) -> Self::Expected {
        expected::answer(job)
    }

    fn said(&self, job: &Job, expected: &Self::Expected) -> Said {
        let said = answer(job);
        Said { status: said.status, is_same: said.same(&Left::expected(job, expected)) }
    }

    fn count(&mut self, _: &Job, expected: &Self::Expected) {
        match expected {
            Err(fault) => self.by_fault[*fault as usize] += 1,
            Ok(given) => {
                self.nodes += given.nodes.len() as u64;
                given.said.iter().for_each(|kind| self.by_kind[*kind as usize] += 1);
            }
        }
    }

    fn counts(&self) -> Vec<(String, u64)> {
        let faults = self.call.faults().map(|fault| (FAULTS[fault as usize], self.by_fault[fault as usize]));
        let known = faults.filter(|((fault, ..), cases)| *fault != NOT_KNOWN || *cases > 0);
        let reasons = known.map(|((_, status, name), cases)| (format!("{status} {name}"), cases));
        let kinds = self.call.kinds().iter().map(|kind| (KINDS[*kind as usize].1.into(), self.by_kind[*kind as usize]));
        [("nodes".into(), self.nodes)].into_iter().chain(reasons).chain(kinds).collect()
    }

    fn show(&self, f: &mut fmt::Formatter, job: &Job) -> fmt::Result {
        match &job.solid {
            Solid::Box(bounds) => show_list(f, "min_x min_y max_x max_y z_bottom z_top", bounds)?,
            Solid::Prism { heights, start, count } => {
                show_list(f, "z_bottom z_top", heights)?;
                writeln!(f, "  start {start} count {count}")?;
            }
        }
        show_list(f, "cell sizes", &job.cells)?;
        show_list(f, "point xs", &job.xs)?;
        show_list(f, "point ys", &job.ys)?;
        writeln!(f, "  material {} region {} net and polygon {:?}", job.material, job.region, job.labels)?;
        writeln!(f, "  counts {:?} lengths {:?}", job.counts, job.lengths)?;
        show_unlike_meshes(f, &Left::expected(job, &expected::answer(job)), &answer(job))
    }
}
