//! The calls that mesh a model.
use crate::compared::{Cases, Said};
use crate::show::{self, show_list, show_regions, show_unlike_meshes};
use crate::table::Statuses;
use cases::expected::models as expected;
use cases::meshes::{FAULTS as OF_REGIONS, KINDS as MESHES, NOT_KNOWN};
use cases::models::{Call, Fault, Given, Job, FAULTS, KINDS, REGION_FAULTS, REGION_KINDS};
use rattle::models::{answer, Left};
use std::fmt;

pub struct Models {
    call: Call,
    /// Those held to the Rust's own model call; the others are the Rust's regions, one by one.
    asked: u64,
    by_fault: [u64; FAULTS.len()],
    by_kind: [u64; KINDS.len()],
    /// Of the regions of accepted models.
    diagnostics: Statuses,
    nodes: u64,
    by_region_fault: [u64; OF_REGIONS.len()],
    by_region_kind: [u64; MESHES.len()],
}

impl Models {
    pub fn new(call: Call) -> Self {
        Models {
            call,
            asked: 0,
            by_fault: [0; FAULTS.len()],
            by_kind: [0; KINDS.len()],
            diagnostics: Statuses::default(),
            nodes: 0,
            by_region_fault: [0; OF_REGIONS.len()],
            by_region_kind: [0; MESHES.len()],
        }
    }

    /// Each reason and each kind, and how many regions there were.
    fn of_regions(&self) -> impl Iterator<Item = (String, u64)> + '_ {
        let faults = REGION_FAULTS.iter().filter(|fault| **fault != NOT_KNOWN).map(|fault| *fault as usize);
        let faults = faults.map(|i| (format!("{} {}", OF_REGIONS[i].1, OF_REGIONS[i].2), self.by_region_fault[i]));
        let kinds = REGION_KINDS.iter().map(|kind| *kind as usize).map(|i| (MESHES[i].1.to_string(), self.by_region_kind[i]));
        faults.chain(kinds).map(|(name, regions)| (format!("of a region {name}"), regions))
    }
}

impl Cases for Models {
    type Job = Job;
    type Expected = Result<Given, Fault>;

    const ENOUGH: u64 = 4000;

    fn name(&self) -> &'static str {
        self.call.name()
    }

    fn share(&self, cases: u64) -> u64 {
        cases / 5
    }

    fn draw(&self, seed: u64, number: u64) -> Job {
        Job::draw(self.call, seed, number)
    }

    fn expected(&self, job: &Job) -> Self::Expected {
        expected::answer(job)
    }

    /// The lists that it reads must stay as they are, too.
    fn said(&self, job: &Job, expected: &Self::Expected) -> Said {
        let before = job.clone();
        let said = answer(job);
        Said { status: said.mesh.status, is_same: said.same(&Left::expected(job, expected)) && job.same_lists(&before) }
    }

    fn count(&mut self, _: &Job, expected: &Self::Expected) {
        match expected {
            Err(fault) => self.by_fault[*fault as usize] += 1,
            Ok(given) => {
                self.asked += given.asked as u64;
                given.said.iter().for_each(|kind| self.by_kind[*kind as usize] += 1);
                given.diagnostics().for_each(|diagnostic| self.diagnostics.count(diagnostic));
                self.nodes += given.mesh.nodes.len() as u64;
                given.tried.iter().flatten().for_each(|fault| self.by_region_fault[*fault as usize] += 1);
                given.mesh.said.iter().for_each(|kind| self.by_region_kind[*kind as usize] += 1);
            }
        }
    }

    fn counts(&self) -> Vec<(String, u64)> {
        let faults = self.call.faults().map(|fault| fault as usize);
        let faults = faults.map(|i| (format!("{} {}", FAULTS[i].1, FAULTS[i].2), self.by_fault[i]));
        let kinds = self.call.kinds().map(|kind| (KINDS[kind as usize].1.to_string(), self.by_kind[kind as usize]));
        let all = [("the Rust's model call asked".into(), self.asked), ("nodes".into(), self.nodes)];
        all.into_iter().chain(faults).chain(kinds).chain(self.of_regions()).collect()
    }

    fn diagnostics(&self) -> Option<Statuses> {
        Some(self.diagnostics)
    }

    fn show(&self, f: &mut fmt::Formatter, job: &Job) -> fmt::Result {
        show_job(f, job)?;
        show_unlike(f, &Left::expected(job, &expected::answer(job)), &answer(job))
    }
}

pub fn show_job(f: &mut fmt::Formatter, job: &Job) -> fmt::Result {
    show_regions(f, &job.regions)?;
    show_list(f, "point xs", &job.xs)?;
    show_list(f, "point ys", &job.ys)?;
    show_list(f, "cell sizes", &job.cells)?;
    if job.call.has_overrides() {
        let materials = &job.overrides.materials;
        writeln!(f, "  overrides: {}: {:?}", materials.len(), &materials[..materials.len().min(64)])?;
        show_list(f, "laterals", &job.overrides.sizes[0])?;
        show_list(f, "verticals", &job.overrides.sizes[1])?;
    }
    writeln!(f, "  counts {:?} lengths {:?} diagnostics {}", job.counts, job.lengths, job.diagnostics)
}

/// What each side answers, and where their lists differ.
pub fn show_unlike(f: &mut fmt::Formatter, expected: &Left, said: &Left) -> fmt::Result {
    show_unlike_meshes(f, &expected.mesh, &said.mesh)?;
    show::show_unlike(f, "diagnostics", &expected.diagnostics, &said.diagnostics)
}
