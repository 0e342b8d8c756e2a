//! The sample of the calls on numbers: of each some accepted cases, some of each refusal, mostly small.
use crate::sample::{Sample, SEED};
use cases::call::{Call, CALLS, RECORDED_NUMBERS};
use cases::case::{word, Answer, Case};
use cases::expected;

/// Cases of each call that are looked at.
const LOOKED_AT: u64 = 20_000;

/// Cases of a call that are kept: accepted ones, and those of each refusal.
const ACCEPTED: usize = 80;
const REFUSED: usize = 12;

/// A case with more numbers than this is large; so many of them are kept of each status.
const SMALL: usize = 64;
const LARGE: usize = 2;

/// Longer lists are not recorded.
const LONGEST: usize = 1024;

pub fn taken() -> Sample {
    let mut sample = Sample::default();
    for call in &CALLS[RECORDED_NUMBERS] {
        take(&mut sample, *call);
    }
    sample
}

fn take(sample: &mut Sample, call: Call) {
    let mut left = [REFUSED; 17];
    left[0] = if call.refusals().is_empty() { ACCEPTED + 3 * REFUSED } else { ACCEPTED };
    let mut large = [LARGE; 17];
    for number in 0..LOOKED_AT {
        let case = Case::draw(call, SEED, number);
        if case.xs.len().max(case.ys.len()) > LONGEST {
            continue;
        }
        let answer = expected::answer(&case);
        let status = answer.status as usize;
        let is_large = (case.xs.len() + case.ys.len() > SMALL) as usize;
        if left[status] > 0 && large[status] >= is_large {
            left[status] -= 1;
            large[status] -= is_large;
            write(sample, &case, &answer);
        }
    }
}

/// The call, the lists' lengths, eight parameters, the lists, the status and four values.
fn write(sample: &mut Sample, case: &Case, answer: &Answer) {
    sample.cases += 1;
    sample.words([case.call.number(), case.xs.len() as u64, case.ys.len() as u64]);
    // A whole number below 2^32 is no NaN.
    sample.words(case.params.map(|param| word(f64::from_bits(param))));
    sample.words(case.xs.iter().chain(case.ys.iter()).map(|x| word(*x)));
    sample.words([answer.status as u64]);
    sample.words(answer.values[..4].iter().copied());
}
