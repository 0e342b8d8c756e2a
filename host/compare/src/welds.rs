//! The calls on a whole mesh.
use crate::compared::{Cases, Said};
use crate::show::{self, show_list, show_unlike_meshes};
use cases::expected::welds as expected;
use cases::welds::{Call, Fault, Given, Job, Kind, FAULTS, KINDS};
use rattle::welds::{answer, Left};
use std::fmt;

pub struct Welds {
    call: Call,
    /// Of the accepted meshes, and those that are left of them.
    nodes: u64,
    kept: u64,
    by_fault: [u64; FAULTS.len()],
    by_kind: [u64; KINDS.len()],
}

impl Welds {
    pub fn new(call: Call) -> Self {
        Welds { call, nodes: 0, kept: 0, by_fault: [0; FAULTS.len()], by_kind: [0; KINDS.len()] }
    }
}

impl Cases for Welds {
    type Job = Job;
    type Expected = Result<(Given, Vec<Kind>), Fault>;

    const ENOUGH: u64 = 4000;

    fn name(&self) -> &'static str {
        self.call.name()
    }

    fn share(&self, cases: u64) -> u64 {
        cases / 5
    }

    fn draw(&self, seed: u64, number: u64) -> Job {
        Job::draw(self.call, seed, number)
    }

    fn expected(&self, job: &Job) -> Self::Expected {
        expected::answer(job)
    }

    fn said(&self, job: &Job, expected: &Self::Expected) -> Said {
        let said = answer(job);
        Said { status: said.mesh.status, is_same: said.same(&Left::expected(job, expected)) }
    }

    fn count(&mut self, job: &Job, expected: &Self::Expected) {
        match expected {
            Err(fault) => self.by_fault[*fault as usize] += 1,
            Ok((given, said)) => {
                self.nodes += job.mesh.sizes()[0] as u64;
                if let Given::Welded { mesh, .. } = given {
                    self.kept += mesh.nodes.len() as u64;
                }
                said.iter().for_each(|kind| self.by_kind[*kind as usize] += 1);
            }
        }
    }

    fn counts(&self) -> Vec<(String, u64)> {
        let mut counts = vec![("nodes".to_string(), self.nodes)];
        if self.call.writes() {
            counts.push(("kept".into(), self.kept));
        }
        let faults = self.call.faults().map(|fault| fault as usize);
        counts.extend(faults.map(|i| (format!("{} {}", FAULTS[i].1, FAULTS[i].2), self.by_fault[i])));
        counts.extend(self.call.kinds().map(|kind| (KINDS[kind as usize].1.into(), self.by_kind[kind as usize])));
        counts
    }

    fn show(&self, f: &mut fmt::Formatter, job: &Job) -> fmt::Result {
        show_job(f, job)?;
        show_unlike(f, &Left::expected(job, &expected::answer(job)), &answer(job))
    }
}

pub fn show_job(f: &mut fmt::Formatter, job: &Job) -> fmt::Result {
    let mesh = &job.mesh;
    for (name, list) in ["xs", "ys", "zs"].iter().zip(&mesh.coordinates) {
        show_list(f, name, list)?;
    }
    writeln!(f, "  kinds: {}: {:?}", mesh.kinds.len(), &mesh.kinds[..mesh.kinds.len().min(64)])?;
    writeln!(f, "  places: {}: {:?}", mesh.places.len(), &mesh.places[..mesh.places.len().min(512)])?;
    writeln!(f, "  regions: {}: {:?}", mesh.regions.len(), &mesh.regions[..mesh.regions.len().min(64)])?;
    if job.call.writes() {
        writeln!(f, "  tolerance {:x} ({:e}) lengths {:?}", job.tolerance.to_bits(), job.tolerance, job.lengths)?;
    }
    Ok(())
}

/// What each side answers, and where their lists differ.
pub fn show_unlike(f: &mut fmt::Formatter, expected: &Left, said: &Left) -> fmt::Result {
    show_unlike_meshes(f, &expected.mesh, &said.mesh)?;
    show::show_unlike(f, "volume", &[expected.volume.to_bits()], &[said.volume.to_bits()])?;
    if !said.read.same(&expected.read) {
        writeln!(f, "  Rattle wrote to the mesh that it was lent")?;
    }
    Ok(())
}
