//! The sample of extruding, the total volume and stacking: of each some accepted cases, some of each refusal, all small.
use crate::sample::{Sample, Wanted, SEED};
use cases::call::{Call, RECORDED_REGIONS, RECORDED_STACKS};
use cases::case::{word, Answer, Case};
use cases::expected;
use cases::refusals;
use cases::regions::{Regions, Row};
use cases::stacks::{Given, Job, BLOCKS, NAME};

/// Cases of each call that are looked at.
const LOOKED_AT: u64 = 40_000;

/// Cases of a call that are kept: accepted ones, and those of each refusal.
const ACCEPTED: usize = 160;
const REFUSED: usize = 30;

/// The longest list of polygons, regions or outcomes that is recorded, the longest of points, and the most rows of a block.
const ENTRIES: usize = 16;
const POINTS: usize = 1024;
const ROWS: usize = 8;

/// The most polygons of a job.
const POLYGONS: usize = 8;

/// Of the accepted jobs that give no region, one in so many is looked at.
const BARREN: u64 = 8;

/// More points than this are many; so many such cases are kept of each status.
const FEW: usize = 48;
const MANY: usize = 2;

/// What stands in every entry of a list before a call writes to it.
const BEFORE: Row = Row { kind: 165, bounds: [-165.0; 6], numbers: [0xa5a5_a5a5; 5] };

pub fn taken() -> Sample {
    let mut sample = Sample::default();
    for call in RECORDED_REGIONS {
        take(&mut sample, call);
    }
    stacks(&mut sample);
    sample
}

fn wanted(refusals: &[u32]) -> Wanted {
    Wanted::new(ACCEPTED, refusals.iter().map(|refusal| (*refusal as usize, REFUSED)), MANY)
}

fn take(sample: &mut Sample, call: Call) {
    let mut wanted = wanted(call.refusals());
    for number in 0..LOOKED_AT {
        let case = Case::draw(call, SEED, number);
        let points = case.xs.len().max(case.ys.len());
        if points > POINTS || case.regions.lengths().iter().any(|length| *length > ENTRIES) {
            continue;
        }
        let answer = expected::answer(&case);
        if wanted.keeps(answer.status as usize, points > FEW) {
            of_case(&case, &answer).write(sample);
        }
    }
}

fn stacks(sample: &mut Sample) {
    let mut wanted = wanted(refusals::of(NAME));
    for number in 0..LOOKED_AT {
        let job = Job::draw(SEED, number);
        if !is_small(&job) {
            continue;
        }
        let answer = expected::stacks::answer(&job);
        if number % BARREN != 0 && answer.as_ref().is_ok_and(|given| given.rows.is_empty()) {
            continue;
        }
        let status = answer.as_ref().err().copied().unwrap_or(0);
        if wanted.keeps(status as usize, job.xs.len().max(job.ys.len()) > FEW) {
            of_job(&job, &answer).write(sample);
        }
    }
}

fn is_small(job: &Job) -> bool {
    let blocks = job.blocks.iter().zip(BLOCKS).all(|(lent, kind)| lent.bytes.len() <= kind.length(ROWS));
    let lists = job.polygons.iter().map(Vec::len).chain(job.regions).chain([job.outcomes]);
    let points = job.xs.len().max(job.ys.len());
    blocks && job.layers.len() <= POLYGONS && points <= POINTS && lists.into_iter().all(|length| length <= ENTRIES)
}

/// A record; what a call has not is empty or zero.
struct Record<'a> {
    call: u64,
    blocks: Vec<&'a [u8]>,
    points: [&'a [f64]; 2],
    /// Layers, nets, starts and counts.
    polygons: [Vec<u64>; 4],
    regions: Regions,
    outcomes: Vec<u8>,
    /// Six floats, a material and a net.
    params: [u64; 8],
    status: u32,
    value: u64,
}

/// What is extruded has its region as the one row of the lists; a total has its regions there.
fn of_case<'a>(case: &'a Case, answer: &Answer) -> Record<'a> {
    let [material, net, _] = case.region;
    let mut params = case.params.map(|param| word(f64::from_bits(param)));
    [params[6], params[7]] = [material as u64, net as u64];
    let is_total = case.call == Call::TotalVolume;
    let given: &[Row] = if answer.status == 0 { &[Row::of(&answer.values)] } else { &[] };
    Record {
        call: case.call.number(),
        blocks: vec![],
        points: [&case.xs, &case.ys],
        polygons: Default::default(),
        regions: if is_total { case.regions.clone() } else { Regions::of(given) },
        outcomes: vec![],
        params,
        status: answer.status,
        value: if is_total { answer.values[0] } else { 0 },
    }
}

/// The lists as the call leaves them.
fn of_job<'a>(job: &'a Job, answer: &Result<Given, u32>) -> Record<'a> {
    let mut regions = Regions::of(&[BEFORE; ENTRIES]);
    let mut outcomes = vec![BEFORE.kind; job.outcomes];
    if let Ok(given) = answer {
        regions = Regions::of(&[&given.rows[..], &[BEFORE; ENTRIES]].concat());
        outcomes[..given.outcomes.len()].copy_from_slice(&given.outcomes);
    }
    job.regions.iter().enumerate().for_each(|(list, length)| regions.resize(list, *length));
    let [nets, starts, counts] = job.polygons.each_ref().map(|list| list.iter().map(|n| *n as u64).collect());
    Record {
        call: RECORDED_STACKS,
        blocks: job.blocks.iter().map(|lent| &*lent.bytes).collect(),
        points: [&job.xs, &job.ys],
        polygons: [job.layers.iter().map(|layer| *layer as u64).collect(), nets, starts, counts],
        regions,
        outcomes,
        params: [0; 8],
        status: answer.as_ref().err().copied().unwrap_or(0),
        value: answer.as_ref().map_or(0, |given| given.rows.len() as u64),
    }
}

impl Record<'_> {
    fn write(&self, sample: &mut Sample) {
        sample.cases += 1;
        let lengths = self.blocks.iter().map(|block| block.len()).chain([0; 6]).take(6);
        let lengths = lengths.chain(self.points.map(<[f64]>::len)).chain(self.polygons.each_ref().map(Vec::len));
        let lengths = lengths.chain(self.regions.lengths()).chain([self.outcomes.len()]);
        sample.words([self.call]);
        sample.words(lengths.map(|length| length as u64));
        sample.words(self.params);
        sample.words([self.status as u64, self.value]);
        sample.padded(&self.blocks.concat());
        sample.words(self.points.concat().iter().map(|x| word(*x)));
        sample.words(self.polygons.concat());
        sample.words(self.regions.kinds.iter().map(|kind| *kind as u64));
        sample.words(self.regions.bounds.concat().iter().map(|x| word(*x)));
        sample.words(self.regions.numbers.concat().iter().map(|n| *n as u64));
        sample.words(self.outcomes.iter().map(|outcome| *outcome as u64));
    }
}
