//! The sample of the cell count, the axis coordinate and the meshes of boxes and prisms: of each some accepted cases, some of each refusal, all small.
use crate::sample::{Sample, Wanted, SEED};
use cases::call::{Call, RECORDED_AXES, RECORDED_BOXES, RECORDED_PRISMS};
use cases::case::{word, Answer, Case};
use cases::expected;
use cases::meshes::{self, Fault, Given, Job, Solid};

/// How many cases of a call are looked at, and how many are kept: accepted ones, those of each refusal or reason for one, and of each of these at most so
/// many large ones.
struct Share {
    looked_at: u64,
    accepted: usize,
    refused: usize,
    large: usize,
}

const AXES: Share = Share { looked_at: 40_000, accepted: 60, refused: 20, large: 0 };
const BOXES: Share = Share { looked_at: 400_000, accepted: 160, refused: 24, large: 40 };
const PRISMS: Share = Share { looked_at: 20_000, accepted: 160, refused: 16, large: 6 };

/// The longest lists of nodes, of elements and of points.
const NODES: usize = 64;
const ELEMENTS: usize = 32;
const POINTS: usize = 1024;

/// With more nodes that are added than this a box is large, and with more points a prism.
const FEW_NODES: usize = 18;
const FEW_POINTS: usize = 40;

impl Share {
    /// What is wanted of these answers besides the accepted ones.
    fn wanted(&self, refusals: impl Iterator<Item = usize>) -> Wanted {
        Wanted::new(self.accepted, refusals.map(|answer| (answer, self.refused)), self.large)
    }
}

pub fn taken() -> Sample {
    let mut sample = Sample::default();
    for call in RECORDED_AXES {
        axes(&mut sample, call);
    }
    meshes(&mut sample, meshes::Call::MeshBox, BOXES);
    meshes(&mut sample, meshes::Call::MeshPrism, PRISMS);
    sample
}

fn axes(sample: &mut Sample, call: Call) {
    let mut wanted = AXES.wanted(call.refusals().iter().map(|refusal| *refusal as usize));
    for number in 0..AXES.looked_at {
        let case = Case::draw(call, SEED, number);
        let answer = expected::answer(&case);
        if wanted.keeps(answer.status as usize, false) {
            of_case(&case, &answer).write(sample);
        }
    }
}

fn meshes(sample: &mut Sample, call: meshes::Call, share: Share) {
    let mut wanted = share.wanted(call.faults().map(|fault| 1 + fault as usize));
    for number in 0..share.looked_at {
        let job = Job::draw(call, SEED, number);
        if !is_small(&job) {
            continue;
        }
        let answer = expected::meshes::answer(&job);
        let reason = answer.as_ref().err().map_or(0, |fault| 1 + *fault as usize);
        let is_large = match job.solid {
            Solid::Box(_) => answer.as_ref().is_ok_and(|given| given.nodes.len() > FEW_NODES),
            Solid::Prism { .. } => job.xs.len() > FEW_POINTS,
        };
        if wanted.keeps(reason, is_large) {
            of_mesh(&job, &answer).write(sample);
        }
    }
}

fn is_small(job: &Job) -> bool {
    let most = [NODES, NODES, NODES, ELEMENTS, 8 * ELEMENTS, ELEMENTS];
    let points = job.xs.len().max(job.ys.len());
    points <= POINTS && job.lengths.iter().zip(most).all(|(length, most)| *length <= most)
}

/// A record; what a call has not is empty or zero.
#[derive(Default)]
struct Record<'a> {
    call: u64,
    points: [&'a [f64]; 2],
    /// The lengths of the mesh's lists.
    lengths: [usize; 6],
    /// The mesh's nodes and elements.
    counts: [usize; 2],
    /// Six bounds, or what else there is, and two cell sizes.
    floats: [u64; 8],
    /// A material, a region's number, and a part's start and count; an axis's place is its start.
    numbers: [u64; 4],
    status: u32,
    value: u64,
    /// What is added to the mesh.
    added: Option<&'a Given>,
}

fn of_case<'a>(case: &Case, answer: &Answer) -> Record<'a> {
    let [a, b, c] = case.floats();
    Record {
        call: case.call.number(),
        floats: [a, b, c, 0.0, 0.0, 0.0, 0.0, 0.0].map(word),
        numbers: [0, 0, case.place(), 0],
        status: answer.status,
        value: answer.values[0],
        ..Record::default()
    }
}

fn of_mesh<'a>(job: &'a Job, answer: &'a Result<Given, Fault>) -> Record<'a> {
    let (call, [min_x, min_y, max_x, max_y, z_bottom, z_top], [start, count]) = match job.solid {
        Solid::Box(bounds) => (RECORDED_BOXES, bounds, [0; 2]),
        Solid::Prism { heights: [z_bottom, z_top], start, count } => {
            (RECORDED_PRISMS, [0.0, 0.0, 0.0, 0.0, z_bottom, z_top], [start, count])
        }
    };
    let [across, up] = if call == RECORDED_BOXES { job.cells } else { [0.0; 2] };
    Record {
        call,
        points: [&job.xs, &job.ys],
        lengths: job.lengths,
        counts: job.counts,
        floats: [min_x, min_y, max_x, max_y, z_bottom, z_top, across, up].map(word),
        numbers: [job.material, job.region, start, count].map(u64::from),
        status: answer.as_ref().err().map_or(0, |fault| fault.status()),
        added: answer.as_ref().ok(),
        ..Record::default()
    }
}

impl Record<'_> {
    fn write(&self, sample: &mut Sample) {
        sample.cases += 1;
        let [nodes, elements] = self.counts;
        let after = self.added.map_or([0; 2], |given| [nodes + given.nodes.len(), elements + given.kinds.len()]);
        let lengths = self.points.map(<[f64]>::len).into_iter().chain(self.lengths).chain(self.counts);
        sample.words([self.call]);
        sample.words(lengths.map(|length| length as u64));
        sample.words(self.floats);
        sample.words(self.numbers);
        sample.words([self.status as u64, self.value]);
        sample.words(after.map(|count| count as u64));
        sample.words(self.points.concat().iter().map(|x| word(*x)));
        if let Some(given) = self.added {
            (0..3).for_each(|axis| sample.words(given.nodes.iter().map(|node| word(node[axis]))));
            sample.words(given.kinds.iter().map(|kind| *kind as u64));
            sample.words(given.places.iter().map(|place| *place as u64));
            sample.words(given.kinds.iter().map(|_| self.numbers[1]));
        }
    }
}
