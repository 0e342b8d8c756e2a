//! What is recorded of some calls: little-endian words, case after case.

pub const SEED: u64 = 1;

#[derive(Default)]
pub struct Sample {
    pub cases: usize,
    pub bytes: Vec<u8>,
}

impl Sample {
    pub fn words(&mut self, words: impl IntoIterator<Item = u64>) {
        for word in words {
            self.bytes.extend(word.to_le_bytes());
        }
    }

    /// The bytes, then zeros up to a whole word; all before are whole words.
    pub fn padded(&mut self, bytes: &[u8]) {
        self.bytes.extend(bytes);
        self.bytes.resize(self.bytes.len().next_multiple_of(8), 0);
    }
}

/// How many cases of each answer are still wanted, and how many large ones; answer 0 is an accepted call's.
pub struct Wanted {
    left: [usize; ANSWERS],
    large: [usize; ANSWERS],
}

/// No call has more answers that are told apart.
const ANSWERS: usize = 32;

impl Wanted {
    /// So many accepted ones, so many of each refusal, and of each at most so many large ones.
    pub fn new(accepted: usize, refused: impl IntoIterator<Item = (usize, usize)>, large: usize) -> Wanted {
        let mut left = [0; ANSWERS];
        left[0] = accepted;
        refused.into_iter().for_each(|(answer, wanted)| left[answer] = wanted);
        Wanted { left, large: [large; ANSWERS] }
    }

    /// Whether a case of this answer is kept.
    pub fn keeps(&mut self, answer: usize, is_large: bool) -> bool {
        let keeps = self.left[answer] > 0 && self.large[answer] >= is_large as usize;
        if keeps {
            self.left[answer] -= 1;
            self.large[answer] -= is_large as usize;
        }
        keeps
    }
}
