//! A call's cases on both sides: how they are drawn and counted, and what is said of one on which the sides differ.
use crate::progress;
use crate::table::{Row, Statuses};
use cases::simpler::{smallest, Simpler};
use std::fmt;
use std::ops::Range;
use std::time::{Duration, Instant};

/// Mismatches of a call that are printed; the first as the smallest input that is found in this time.
const PRINTED: u64 = 5;
const SEARCH: Duration = Duration::from_secs(5);

/// The cases of a call: their inputs, and what is counted of the answers.
pub trait Cases {
    type Job: Simpler;
    type Expected;

    /// Cases after which one of the counts that is 0 is a failure.
    const ENOUGH: u64;

    fn name(&self) -> &'static str;

    /// How many of so many cases that a call gets in the gate.
    fn share(&self, cases: u64) -> u64;

    /// The case of this number.
    fn draw(&self, seed: u64, number: u64) -> Self::Job;

    fn expected(&self, job: &Self::Job) -> Self::Expected;

    /// Rattle's side of it.
    fn said(&self, job: &Self::Job, expected: &Self::Expected) -> Said;

    fn count(&mut self, job: &Self::Job, expected: &Self::Expected);

    /// What was counted, by name.
    fn counts(&self) -> Vec<(String, u64)>;

    /// The diagnostics that a model's regions got.
    fn diagnostics(&self) -> Option<Statuses> {
        None
    }

    /// The input, and what both sides answer.
    fn show(&self, f: &mut fmt::Formatter, job: &Self::Job) -> fmt::Result;
}

/// The status of Rattle's call, and whether all that it left is as expected.
pub struct Said {
    pub status: u32,
    pub is_same: bool,
}

/// A call, and what came of its cases.
pub trait Compared {
    fn name(&self) -> &'static str;

    fn share(&self, cases: u64) -> u64;

    /// Runs these cases on both sides.
    fn run(&mut self, seed: u64, numbers: Range<u64>);

    fn cases(&self) -> u64;

    fn mismatches(&self) -> u64;

    /// Its rows in the table of statuses.
    fn rows(&self) -> Vec<Row>;

    /// What was counted beside the statuses; empty if nothing was.
    fn line(&self) -> String;

    /// What is wrong; a number that is missing if the run is long or the cases are enough, a count if they are enough.
    fn wrong(&self, is_long: bool) -> Vec<String>;

    /// The case of this number, with its input.
    fn shown(&self, seed: u64, number: u64) -> String;
}

pub struct Tally<C> {
    of: C,
    answered: Statuses,
    mismatches: u64,
}

impl<C: Cases> Tally<C> {
    pub fn new(of: C) -> Self {
        Tally { of, answered: Default::default(), mismatches: 0 }
    }

    fn is_unlike(&self, job: &C::Job) -> bool {
        !self.of.said(job, &self.of.expected(job)).is_same
    }

    /// Prints the command of the case, and the first time the smallest input that is found from it.
    fn mismatch(&mut self, job: C::Job, seed: u64, number: u64) {
        self.mismatches += 1;
        if self.mismatches > PRINTED {
            return;
        }
        progress::clear();
        println!("MISMATCH compare --call {} --seed {seed} --number {number}", self.of.name());
        if self.mismatches == 1 {
            let least = smallest(job, Instant::now() + SEARCH, |job| self.is_unlike(job));
            print!("  the smallest input found:\n{}", Shown { of: &self.of, job: &least });
        }
    }
}

impl<C: Cases> Compared for Tally<C> {
    fn name(&self) -> &'static str {
        self.of.name()
    }

    fn share(&self, cases: u64) -> u64 {
        self.of.share(cases)
    }

    fn run(&mut self, seed: u64, numbers: Range<u64>) {
        for number in numbers {
            let job = self.of.draw(seed, number);
            let expected = self.of.expected(&job);
            let said = self.of.said(&job, &expected);
            self.answered.count(said.status);
            self.of.count(&job, &expected);
            if !said.is_same {
                self.mismatch(job, seed, number);
            }
        }
    }

    fn cases(&self) -> u64 {
        self.answered.total()
    }

    fn mismatches(&self) -> u64 {
        self.mismatches
    }

    fn rows(&self) -> Vec<Row> {
        let diagnostics = self.of.diagnostics().map(|written| Row::of_diagnostics(self.name(), written));
        std::iter::once(Row::of_call(self.name(), self.answered)).chain(diagnostics).collect()
    }

    fn line(&self) -> String {
        let counts: Vec<String> = self.of.counts().into_iter().map(|(name, cases)| format!("  {name}: {cases}")).collect();
        if counts.is_empty() { String::new() } else { format!("{}:{}", self.name(), counts.concat()) }
    }

    fn wrong(&self, is_long: bool) -> Vec<String> {
        let rows = self.rows();
        let mut wrong: Vec<String> = rows.iter().flat_map(Row::not_its_own).collect();
        if self.mismatches > 0 {
            wrong.push(format!("mismatches: {}", self.mismatches));
        }
        if is_long || self.cases() >= C::ENOUGH {
            wrong.extend(rows.iter().flat_map(Row::not_seen));
        }
        if self.cases() >= C::ENOUGH {
            let counts = self.of.counts().into_iter().filter(|count| count.1 == 0);
            wrong.extend(counts.map(|(name, _)| format!("{name} was not seen")));
        }
        wrong
    }

    fn shown(&self, seed: u64, number: u64) -> String {
        Shown { of: &self.of, job: &self.of.draw(seed, number) }.to_string()
    }
}

struct Shown<'a, C: Cases> {
    of: &'a C,
    job: &'a C::Job,
}

impl<C: Cases> fmt::Display for Shown<'_, C> {
    fn fmt(&self, f: &mut fmt::Formatter) -> fmt::Result {
        self.of.show(f, self.job)
    }
}
