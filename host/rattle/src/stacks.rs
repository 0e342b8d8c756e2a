//! `assemble_stack`, and what it left in the lists that it was lent.
use crate::raw::openrdson_assemble_stack;
use cases::regions::Regions;
use cases::stacks::{Given, Job};

/// What is in every entry before the call, and past the end of each list.
const BYTE: u8 = 0xa5;
const NUMBER: u32 = 0xa5a5_a5a5;
const WORD: u64 = 0xa5a5_a5a5_a5a5_a5a5;

/// Entries past the end of each list, which the call is not lent.
const PAST: usize = 2;

/// The status, and the written lists after the call.
pub struct Stacked {
    pub status: u32,
    pub regions: usize,
    pub lists: Regions,
    pub outcomes: Vec<u8>,
}

impl Stacked {
    /// Before the call.
    pub fn before(job: &Job) -> Stacked {
        let length = |list: usize| job.regions[list] + PAST;
        Stacked {
            status: 0,
            regions: WORD as usize,
            lists: Regions {
                kinds: vec![BYTE; length(0)],
                bounds: std::array::from_fn(|i| vec![f64::from_bits(WORD); length(1 + i)]),
                numbers: std::array::from_fn(|i| vec![NUMBER; length(7 + i)]),
            },
            outcomes: vec![BYTE; job.outcomes + PAST],
        }
    }

    /// What is expected: a refusal leaves everything, an accepted call writes its rows at the beginning and leaves the rest.
    pub fn expected(job: &Job, answer: &Result<Given, u32>) -> Stacked {
        let mut after = Stacked::before(job);
        let given = match answer {
            Ok(given) => given,
            Err(refusal) => {
                after.status = *refusal;
                return after;
            }
        };
        after.regions = given.rows.len();
        for (i, row) in given.rows.iter().enumerate() {
            after.lists.kinds[i] = row.kind;
            after.lists.bounds.iter_mut().zip(row.bounds).for_each(|(list, bound)| list[i] = bound);
            after.lists.numbers.iter_mut().zip(row.numbers).for_each(|(list, number)| list[i] = number);
        }
        after.outcomes[..given.outcomes.len()].copy_from_slice(&given.outcomes);
        after
    }

    /// Whether every entry is the same, floats by their bits.
    pub fn same(&self, other: &Stacked) -> bool {
        let bits = |lists: &Regions| lists.bounds.each_ref().map(|list| list.iter().map(|x| x.to_bits()).collect::<Vec<_>>());
        self.status == other.status
            && self.regions == other.regions
            && self.outcomes == other.outcomes
            && self.lists.kinds == other.lists.kinds
            && self.lists.numbers == other.lists.numbers
            && bits(&self.lists) == bits(&other.lists)
    }
}

pub fn answer(job: &Job) -> Stacked {
    let mut after = Stacked::before(job);
    call(job, &mut after);
    after
}

/// The same, the six blocks lent from here.
pub fn answer_on(job: &Job, blocks: [&[u8]; 6]) -> Stacked {
    let mut after = Stacked::before(job);
    call_on(job, blocks, &mut after);
    after
}

/// The call on these lists.
pub fn call(job: &Job, after: &mut Stacked) {
    call_on(job, std::array::from_fn(|i| &*job.blocks[i].bytes), after);
}

fn call_on(job: &Job, blocks: [&[u8]; 6], after: &mut Stacked) {
    let [a, b, c, d, e, f] = blocks.map(|block| (block.as_ptr(), block.len()));
    let [nets, starts, counts] = job.polygons.each_ref().map(|list| (list.as_ptr(), list.len()));
    let lists = &mut after.lists;
    let [x0, y0, x1, y1, z0, z1] = lists.bounds.each_mut().map(|list| (list.as_mut_ptr(), list.len() - PAST));
    let [s, n, m, t, p] = lists.numbers.each_mut().map(|list| (list.as_mut_ptr(), list.len() - PAST));
    after.status = unsafe {
        openrdson_assemble_stack(
            a.0, a.1, b.0, b.1, c.0, c.1, d.0, d.1, e.0, e.1, f.0, f.1,
            job.layers.as_ptr(), job.layers.len(), nets.0, nets.1, starts.0, starts.1, counts.0, counts.1,
            job.xs.as_ptr(), job.xs.len(), job.ys.as_ptr(), job.ys.len(),
            lists.kinds.as_mut_ptr(), lists.kinds.len() - PAST, x0.0, x0.1, y0.0, y0.1, x1.0, x1.1, y1.0, y1.1, z0.0, z0.1, z1.0, z1.1,
            s.0, s.1, n.0, n.1, m.0, m.1, t.0, t.1, p.0, p.1,
            after.outcomes.as_mut_ptr(), after.outcomes.len() - PAST, &mut after.regions,
        )
    };
}
