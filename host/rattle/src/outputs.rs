//! Where a call writes its values: every second word, all filled with a pattern first.
use cases::call::Output;
use cases::case::{word, Answer, VALUES};

const PATTERN: u64 = 0xa5a5_a5a5_a5a5_a5a5;
const WORDS: usize = 2 * VALUES + 1;

pub struct Outputs([u64; WORDS]);

/// What Rattle said, and whether it wrote where it must not: anywhere on a refusal, else beside its values.
#[derive(Clone, Copy)]
pub struct Said {
    pub answer: Answer,
    pub stray: bool,
}

/// An answer given by value.
pub fn plain(answer: Answer) -> Said {
    Said { answer, stray: false }
}

impl Outputs {
    pub fn new() -> Self {
        Outputs([PATTERN; WORDS])
    }

    /// The place of each value; one of fewer than eight bytes is the first bytes of its word.
    pub fn places<T>(&mut self) -> [*mut T; VALUES] {
        let first = self.0.as_mut_ptr();
        std::array::from_fn(|place| unsafe { first.add(2 * place + 1) as *mut T })
    }

    pub fn said(mut self, status: u32, gives: &[Output]) -> Said {
        let mut answer = Answer::refused(status);
        if status == 0 {
            for (i, output) in gives.iter().enumerate() {
                let written = &mut self.0[2 * i + 1];
                let mask = match output {
                    Output::Float | Output::Whole => u64::MAX,
                    Output::Truth | Output::Kind => 0xff,
                    Output::Number => 0xffff_ffff,
                };
                let value = *written & mask;
                answer.values[i] = if *output == Output::Float { word(f64::from_bits(value)) } else { value };
                *written = *written & !mask | PATTERN & mask;
            }
        }
        Said { answer, stray: self.0 != [PATTERN; WORDS] }
    }
}
