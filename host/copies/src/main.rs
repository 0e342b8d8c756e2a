//! Copies of small sound blocks, each with one thing changed: every call that reads such a block is asked, and held to
//! the answer by the rules, wherever the copy stands.
mod asked;
mod changes;
mod memory;
mod sound;
mod stacking;

use asked::{Ask, Keys};
use cases::blocks::{Kind, Lent, Rows};
use cases::expected;
use cases::stacks::Job;
use changes::Change;
use memory::{Amid, Guarded};
use rattle::stacks::Stacked;
use std::fmt::Debug;
use std::process::ExitCode;

const KINDS: [Kind; 4] = [Kind::LayerNames, Kind::Map, Kind::Stack, Kind::Vias];

/// Mismatches that are printed.
const PRINTED: u64 = 5;

/// Where a copy is lent from.
const PLACES: [&str; 5] = ["amid 00", "amid ff", "amid the sound block", "past unreadable memory", "before unreadable memory"];

#[derive(Default)]
struct Held {
    copies: u64,
    /// Answers by the rules, counted by their status; each is asked for in every place.
    by_status: [u64; 17],
    mismatches: u64,
}

fn main() -> ExitCode {
    let mut held = Held::default();
    for kind in KINDS {
        for rows in sound::blocks(kind) {
            held.block(kind, &rows);
        }
    }
    let [fine, refused, damaged] = [0, 1, 14].map(|status| held.by_status[status]);
    println!(
        "{} copies of small blocks in {} places each, {} mismatches;  0: {fine}  1: {refused}  14: {damaged}",
        held.copies, PLACES.len(), held.mismatches,
    );
    if held.mismatches == 0 && fine * refused * damaged > 0 { ExitCode::SUCCESS } else { ExitCode::FAILURE }
}

impl Held {
    fn block(&mut self, kind: Kind, rows: &Rows) {
        let sound = rows.bytes();
        let (mut zeros, mut ones, mut itself) = (Amid::new(&[0; 256]), Amid::new(&[255; 256]), Amid::new(&sound));
        let (mut past, mut before) = (Guarded::new(), Guarded::new());
        let (mut asks, mut job) = (asked::calls(kind), stacking::job());
        for change in changes::all(kind, &sound, rows.count()) {
            let copy = change.of(kind, &sound);
            let lent = || if change == Change::Nothing { Lent::block(rows.clone()) } else { Lent::damaged(copy.clone()) };
            let places =
                [zeros.place(&copy), ones.place(&copy), itself.place(&copy), past.at_start(&copy), before.at_end(&copy)];
            let keys = Keys::of(kind, &sound, &copy);
            self.copies += 1;
            for ask in &mut asks {
                ask.case.lent[ask.place] = lent();
                self.ask(ask, &keys, change, places);
            }
            for place in stacking::places(kind) {
                let sound = std::mem::replace(&mut job.blocks[place], lent());
                self.stack(&job, place, change, places);
                job.blocks[place] = sound;
            }
        }
    }

    /// The call with every key.
    fn ask(&mut self, ask: &mut Ask, keys: &Keys, change: Change, places: [&[u8]; 5]) {
        for time in 0..ask.times(keys) {
            ask.set(keys, time);
            let expected = expected::answer(&ask.case);
            self.by_status[expected.status as usize] += 1;
            let mut lent: Vec<&[u8]> = ask.case.lent.iter().map(|lent| &*lent.bytes).collect();
            for (place, copy) in PLACES.iter().zip(places) {
                lent[ask.place] = copy;
                let said = rattle::answer_on(&ask.case, &lent);
                if said.answer != expected || said.stray {
                    let of = (ask.case.call.name(), ask.case.params[0], said.stray);
                    self.mismatch(place, change, of, &lent, expected, said.answer);
                }
            }
        }
    }

    /// `assemble_stack` with the copy among its blocks.
    fn stack(&mut self, job: &Job, place: usize, change: Change, places: [&[u8]; 5]) {
        let answer = expected::stacks::answer(job);
        self.by_status[answer.as_ref().err().map_or(0, |refusal| *refusal as usize)] += 1;
        let expected = Stacked::expected(job, &answer);
        for (stands, copy) in PLACES.iter().zip(places) {
            let mut blocks: [&[u8]; 6] = std::array::from_fn(|i| &*job.blocks[i].bytes);
            blocks[place] = copy;
            let said = rattle::stacks::answer_on(job, blocks);
            if !said.same(&expected) {
                let [a, b] = [&expected, &said].map(|one| (one.status, one.regions, one.outcomes.clone()));
                self.mismatch(stands, change, "assemble_stack", &blocks, a, b);
            }
        }
    }

    fn mismatch<A: Debug>(&mut self, place: &str, change: Change, of: impl Debug, lent: &[&[u8]], expected: A, said: A) {
        self.mismatches += 1;
        if self.mismatches <= PRINTED {
            println!("MISMATCH {of:?} {change:?}, {place}\n  expected {expected:x?}\n  Rattle   {said:x?}");
            lent.iter().for_each(|bytes| println!("  lent {bytes:02x?}"));
        }
    }
}
