//! A layout on its way to a volume: the lists that `assemble_stack` wrote are handed to `mesh_model`, the mesh that it wrote to `weld_nodes`, and the welded
//! one to `mesh_volume`.
use crate::compared::{Cases, Said};
use crate::{models, stacks, welds};
use cases::expected::layouts::{self as expected, Path};
use cases::layouts::Job;
use cases::models::Job as Model;
use cases::regions::{Regions, Row};
use cases::welds::{Given as Whole, Job as Weld};
use rattle::stacks::answer as stacked;
use std::fmt;

#[derive(Default)]
pub struct Layouts {
    /// Those held to the Rust's four calls, one after the other.
    asked: u64,
    boxes: u64,
    prisms: u64,
    refused_regions: u64,
    nodes: u64,
    /// Meshes, and of these those with joined nodes and those with a volume; the nodes that are left.
    welded: u64,
    joined: u64,
    with_volume: u64,
    kept: u64,
}

impl Cases for Layouts {
    type Job = Job;
    type Expected = Result<Path, u32>;

    const ENOUGH: u64 = 2000;

    fn name(&self) -> &'static str {
        "layout_to_volume"
    }

    fn share(&self, cases: u64) -> u64 {
        cases / 50
    }

    fn draw(&self, seed: u64, number: u64) -> Job {
        Job::draw(seed, number)
    }

    fn expected(&self, job: &Job) -> Self::Expected {
        expected::answer(job)
    }

    fn said(&self, job: &Job, expected: &Self::Expected) -> Said {
        let run = Run::of(job, expected);
        Said { status: run.stacked[1].0, is_same: run.is_same }
    }

    fn count(&mut self, _: &Job, expected: &Self::Expected) {
        let Ok(path) = expected else { return };
        self.asked += path.asked as u64;
        self.nodes += path.meshed.mesh.nodes.len() as u64;
        if let Some([(weld, _), (measure, volume)]) = &path.whole {
            let [nodes, kept] = [weld, measure].map(|job| job.mesh.sizes()[0] as u64);
            self.welded += 1;
            self.joined += (kept < nodes) as u64;
            self.with_volume += matches!(volume, Whole::Volume(volume) if *volume > 0.0) as u64;
            self.kept += kept;
        }
        for (kind, fault) in path.model.regions.kinds.iter().zip(&path.meshed.tried) {
            match fault {
                Some(_) => self.refused_regions += 1,
                None if *kind == 0 => self.boxes += 1,
                None => self.prisms += 1,
            }
        }
    }

    fn counts(&self) -> Vec<(String, u64)> {
        let counts = [
            ("the Rust's four calls asked", self.asked),
            ("boxes", self.boxes),
            ("prisms", self.prisms),
            ("refused regions", self.refused_regions),
            ("nodes", self.nodes),
            ("welded", self.welded),
            ("with joined nodes", self.joined),
            ("with a volume", self.with_volume),
            ("kept nodes", self.kept),
        ];
        counts.map(|(name, count)| (name.into(), count)).into()
    }

    /// The layout, and the first call whose answer is another.
    fn show(&self, f: &mut fmt::Formatter, job: &Job) -> fmt::Result {
        let expected = expected::answer(job);
        let run = Run::of(job, &expected);
        stacks::show_job(f, &job.stack)?;
        writeln!(f, "  cells {:?} spare {} tolerance {:e}", job.cells, job.spare, job.tolerance)?;
        writeln!(f, "  status and regions of stacking: expected {:?} Rattle {:?}", run.stacked[0], run.stacked[1])?;
        let Ok(path) = &expected else { return Ok(()) };
        if let Some((model, said)) = run.meshed {
            models::show_job(f, &model)?;
            models::show_unlike(f, &rattle::models::Left::given(&path.model, &path.meshed), &said)?;
        }
        for (weld, expected, said) in run.whole {
            welds::show_job(f, &weld)?;
            welds::show_unlike(f, &expected, &said)?;
        }
        Ok(())
    }
}

/// What the calls left, each on what Rattle gave before it, up to the first that is not as expected.
struct Run {
    /// The status of stacking and how many regions it gave, expected and Rattle's.
    stacked: [(u32, usize); 2],
    meshed: Option<(Model, rattle::models::Left)>,
    /// The weld and the volume: what was lent, what is expected to be left, and what was.
    whole: Vec<(Weld, rattle::welds::Left, rattle::welds::Left)>,
    is_same: bool,
}

impl Run {
    fn of(job: &Job, expected: &Result<Path, u32>) -> Run {
        let said = stacked(&job.stack);
        let path = match expected {
            Ok(path) => path,
            Err(refusal) => return Run::stopped([(*refusal, 0), (said.status, 0)]),
        };
        let n = path.model.regions.kinds.len();
        let mut run = Run::stopped([(0, n), (said.status, said.regions)]);
        if run.is_same {
            let rows: Vec<Row> = (0..n).map(|i| said.lists.row(i)).collect();
            run.mesh(path, Regions::of(&rows));
        }
        if run.is_same {
            run.weld_and_measure(path);
        }
        run
    }

    fn stopped(stacked: [(u32, usize); 2]) -> Run {
        Run { stacked, meshed: None, whole: vec![], is_same: stacked[0] == stacked[1] }
    }

    fn mesh(&mut self, path: &Path, regions: Regions) {
        let handed = Model { regions, ..path.model.clone() };
        let left = rattle::models::answer(&handed);
        self.is_same = left.same(&rattle::models::Left::given(&path.model, &path.meshed));
        self.meshed = Some((handed, left));
    }

    fn weld_and_measure(&mut self, path: &Path) {
        let Some((_, meshed)) = &self.meshed else { return };
        let mut mesh = meshed.mesh.mesh();
        for (job, given) in path.whole.iter().flatten() {
            let handed = Weld { mesh, ..job.clone() };
            let (expected, left) = (rattle::welds::Left::given(job, given), rattle::welds::answer(&handed));
            mesh = left.mesh.mesh();
            self.is_same = left.same(&expected);
            self.whole.push((handed, expected, left));
            if !self.is_same {
                return;
            }
        }
    }
}
