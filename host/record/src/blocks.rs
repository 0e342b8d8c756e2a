//! The sample of the calls on name blocks and names: of each some accepted cases, some of each refusal, all small.
use crate::sample::{Sample, SEED};
use cases::call::{Call, CALLS, RECORDED_BLOCKS};
use cases::case::{Answer, Case};
use cases::expected;

/// Cases of each call that are looked at; the steps spread the changed bytes over their blocks.
const LOOKED_AT: u64 = 400_000;
const STEP: usize = 41;

/// Cases of a call that are kept: accepted ones, those of each refusal, and those of a call that refuses nothing.
const ACCEPTED: usize = 90;
const REFUSED: usize = 60;
const UNREFUSED: usize = 600;

/// The most rows of a block that is recorded, and the longest name.
const ROWS: usize = 8;
const NAME: usize = 64;

pub fn taken() -> Sample {
    let mut sample = Sample::default();
    for call in &CALLS[RECORDED_BLOCKS] {
        take(&mut sample, *call);
    }
    sample
}

fn take(sample: &mut Sample, call: Call) {
    let mut left = [0; 17];
    left[0] = if call.refusals().is_empty() { UNREFUSED } else { ACCEPTED };
    for refusal in call.refusals() {
        left[*refusal as usize] = REFUSED;
    }
    for number in (0..LOOKED_AT).step_by(STEP) {
        let case = Case::draw(call, SEED, number);
        if !is_small(&case) {
            continue;
        }
        let answer = expected::answer(&case);
        let status = answer.status as usize;
        if left[status] > 0 {
            left[status] -= 1;
            write(sample, &case, &answer);
        }
    }
}

fn is_small(case: &Case) -> bool {
    let longest = case.call.blocks().iter().map(|kind| kind.length(ROWS)).chain([NAME]);
    case.lent.iter().zip(longest).all(|(lent, longest)| lent.bytes.len() <= longest)
}

/// The call, seven lengths of what is lent, the layer's number, the bytes, the status and seven values.
fn write(sample: &mut Sample, case: &Case, answer: &Answer) {
    sample.cases += 1;
    let lengths = case.lent.iter().map(|lent| lent.bytes.len() as u64);
    sample.words([case.call.number()]);
    sample.words(lengths.chain([0; 7]).take(7));
    sample.words([case.params[0]]);
    let bytes: Vec<u8> = case.lent.iter().flat_map(|lent| lent.bytes.iter().copied()).collect();
    sample.padded(&bytes);
    sample.words([answer.status as u64]);
    sample.words(answer.values[..7].iter().copied());
}
