//! The calls that give some values: on numbers, rings, name blocks and regions.
use crate::compared::{Cases, Said};
use crate::show::{show_bytes, show_list, show_regions};
use cases::call::Call;
use cases::case::{Answer, Case};
use cases::expected;
use std::fmt;

pub struct Plain {
    call: Call,
    by_kind: Vec<u64>,
}

impl Plain {
    pub fn new(call: Call) -> Self {
        Plain { call, by_kind: vec![0; call.kinds().len()] }
    }
}

impl Cases for Plain {
    type Job = Case;
    type Expected = Answer;

    const ENOUGH: u64 = 1000;

    fn name(&self) -> &'static str {
        self.call.name()
    }

    fn share(&self, cases: u64) -> u64 {
        match self.call {
            Call::Sqrt => 12 * cases,
            Call::ExtrudePolygon | Call::ExtrudeBox | Call::TotalVolume => cases / 5,
            _ => cases,
        }
    }

    fn draw(&self, seed: u64, number: u64) -> Case {
        Case::draw(self.call, seed, number)
    }

    fn expected(&self, case: &Case) -> Answer {
        expected::answer(case)
    }

    fn said(&self, case: &Case, expected: &Answer) -> Said {
        let said = rattle::answer(case);
        Said { status: said.answer.status, is_same: said.answer == *expected && !said.stray }
    }

    fn count(&mut self, case: &Case, expected: &Answer) {
        if let Some(kind) = expected::kind(case, expected) {
            self.by_kind[kind] += 1;
        }
    }

    fn counts(&self) -> Vec<(String, u64)> {
        self.call.kinds().iter().map(|kind| kind.to_string()).zip(self.by_kind.iter().copied()).collect()
    }

    fn show(&self, f: &mut fmt::Formatter, case: &Case) -> fmt::Result {
        writeln!(f, "  parameters {:x?} region {:x?}", case.params, case.region)?;
        show_list(f, "xs", &case.xs)?;
        show_list(f, "ys", &case.ys)?;
        for lent in &case.lent {
            show_bytes(f, &lent.bytes)?;
        }
        show_regions(f, &case.regions)?;
        show_answer(f, "expected", &expected::answer(case))?;
        let said = rattle::answer(case);
        show_answer(f, "Rattle  ", &said.answer)?;
        if said.stray {
            writeln!(f, "  Rattle wrote where it must not")?;
        }
        Ok(())
    }
}

fn show_answer(f: &mut fmt::Formatter, who: &str, answer: &Answer) -> fmt::Result {
    writeln!(f, "  {who} status {} values {:x?}", answer.status, answer.values)
}
