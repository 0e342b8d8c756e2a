//! The table of cases by call and by status.
use cases::refusals::{self, DIAGNOSTICS};

/// The statuses that have a column: accepted, and the refusals but for 10.
const COLUMNS: [u32; 16] = [0, 1, 2, 3, 4, 5, 6, 7, 8, 9, 11, 12, 13, 14, 15, 16];

/// How often each status was answered; all above 16 are counted as one.
#[derive(Clone, Copy, Default)]
pub struct Statuses([u64; 18]);

impl Statuses {
    pub fn count(&mut self, status: u32) {
        self.0[status.min(17) as usize] += 1;
    }

    pub fn total(&self) -> u64 {
        self.0.iter().sum()
    }

    fn of(&self, status: u32) -> u64 {
        self.0[status as usize]
    }
}

/// What a call answered, or the diagnostics that it wrote, beside the numbers that it can give.
pub struct Row {
    call: &'static str,
    is_diagnostics: bool,
    can: &'static [u32],
    answered: Statuses,
}

impl Row {
    pub fn of_call(call: &'static str, answered: Statuses) -> Row {
        Row { call, is_diagnostics: false, can: refusals::of(call), answered }
    }

    pub fn of_diagnostics(call: &'static str, answered: Statuses) -> Row {
        Row { call, is_diagnostics: true, can: refusals::of(DIAGNOSTICS), answered }
    }

    /// What a number is, in a sentence.
    fn number(&self) -> &str {
        if self.is_diagnostics { "the diagnostic" } else { "the status" }
    }

    fn can_give(&self, status: u32) -> bool {
        status == 0 || self.can.contains(&status)
    }

    /// Statuses that it can give, and that were not answered.
    pub fn not_seen(&self) -> Vec<String> {
        let missing = COLUMNS.into_iter().filter(|status| self.can_give(*status) && self.answered.of(*status) == 0);
        missing.map(|status| format!("{} {status} was not seen", self.number())).collect()
    }

    /// Statuses that were answered, and that are not in its row of the refusals.
    pub fn not_its_own(&self) -> Vec<String> {
        let others = (0..18).filter(|status| !self.can_give(*status) && self.answered.of(*status) > 0);
        others.map(|status| format!("{} {status} was seen, and is not among its refusals", self.number())).collect()
    }

    fn cells(&self) -> Vec<String> {
        let cell = |status: u32| match self.answered.of(status) {
            0 if !self.can_give(status) => ".".into(),
            cases => cases.to_string(),
        };
        let name = if self.is_diagnostics { "  its diagnostics" } else { self.call };
        let first = [name.into(), self.answered.total().to_string()];
        first.into_iter().chain(COLUMNS.map(cell)).collect()
    }
}

/// One line a row, under the statuses; a dot stands where the call cannot give the number.
pub fn print(rows: &[Row]) {
    let head = ["call", "cases"].map(String::from).into_iter().chain(COLUMNS.map(|status| status.to_string()));
    let lines: Vec<Vec<String>> = std::iter::once(head.collect()).chain(rows.iter().map(Row::cells)).collect();
    let widths: Vec<usize> = (0..lines[0].len()).map(|i| lines.iter().map(|line| line[i].len()).max().unwrap_or(0)).collect();
    for line in lines {
        let cells = line.iter().zip(&widths).skip(1).map(|(cell, width)| format!("  {cell:>width$}"));
        println!("{:width$}{}", line[0], cells.collect::<String>(), width = widths[0]);
    }
}
