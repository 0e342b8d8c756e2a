//! The table, in Markdown: a row is printed when it is measured.
use crate::alone::{ask, Alone};
use crate::row::{in_turns, Row, Side};
use crate::stack;
use std::fs;

/// The rows that are shown of each group, and then the stack that some of them need.
pub fn print(groups: impl Iterator<Item = (&'static str, Vec<Row>)>, is_shown: impl Fn(&Row) -> bool) {
    println!("{}\n\n{NOTE}\n", machine());
    line("job", "size", ["Rust", "Rattle", "Rust / Rattle", "Rust peak, KiB", "Rattle peak, KiB", "of it lent, KiB"]);
    line("---", "---", ["---:"; 6]);
    let mut deep = vec![];
    for (group, rows) in groups {
        for (number, row) in rows.into_iter().enumerate().filter(|(_, row)| is_shown(row)) {
            print_row(group, number, &row);
            deep.extend(Some(row).filter(|row| row.has_stack));
        }
    }
    print_stacks(deep);
}

fn print_stacks(rows: Vec<Row>) {
    if rows.is_empty() {
        return;
    }
    println!("\n{STACK_NOTE}\n");
    line("job", "size", ["Rust", "Rattle"]);
    line("---", "---", ["---:"; 2]);
    for row in rows {
        let depth = |side: Option<Side>| side.map_or(NOTHING.into(), |side| grouped(stack::of(side)));
        line(&row.job, &row.size, (row.sides)().map(depth));
    }
}

const NOTE: &str = "\
Times are the best of many, the two sides in turns on the same input; a call that takes Rattle many seconds is timed once. A ratio above 1
says that Rattle is faster. The peak is how far the resident memory rises in one call, each side in a process of its own; Rattle's has the
lists that it is lent, which the last column tells. `-` is less than a page, or what the Rust has no call for.";

const STACK_NOTE: &str = "How deep a call writes into its stack, in bytes; 1,024 are not looked at:";

const NOTHING: &str = "-";

/// The processor, its cores, the compiler, and how busy the machine is.
fn machine() -> String {
    let cpus = fs::read_to_string("/proc/cpuinfo").expect("no /proc");
    let of = |name: &str| {
        let values = cpus.lines().filter_map(|line| line.split_once(':')).filter(|(key, _)| key.trim() == name);
        values.map(|(_, value)| value.trim()).collect::<Vec<_>>()
    };
    let first = |name| of(name).first().copied().unwrap_or("?");
    let load = fs::read_to_string("/proc/loadavg").expect("no /proc");
    let load = load.split(' ').next().unwrap_or("?");
    format!(
        "## {}, family {}, model {}, {} cores, {}, load {load} at the start",
        first("model name"), first("cpu family"), first("model"), of("processor").len(), env!("BUILT_BY"),
    )
}

fn print_row(group: &str, number: usize, row: &Row) {
    let sides = (row.sides)();
    let has = sides.each_ref().map(Option::is_some);
    let [rust, rattle] = [0, 1].map(|side| has[side].then(|| ask(group, number, side)));
    let seen = [rust, rattle].map(|alone| alone.map_or(f64::INFINITY, |alone| alone.time));
    let best = in_turns(sides, &row.effort, seen);
    let unit = unit(best[0].min(best[1]));
    let [rust_time, rattle_time] = best.map(|best| in_unit(best, unit));
    let kib = |alone: Option<Alone>, of: fn(Alone) -> usize| alone.map(of).filter(|kib| *kib > 0).map_or(NOTHING.into(), grouped);
    let memory = [kib(rust, |alone| alone.peak), kib(rattle, |alone| alone.peak), kib(rattle, |alone| alone.lent)];
    let [rust_peak, rattle_peak, lent] = memory;
    line(&row.job, &row.size, [rust_time, rattle_time, ratio(best), rust_peak, rattle_peak, lent]);
}

fn line<const N: usize>(job: &str, size: &str, figures: [impl AsRef<str>; N]) {
    let figures = figures.map(|figure| format!("{:>16}", figure.as_ref()));
    println!("| {job:43} | {size:45} | {} |", figures.join(" | "));
}

fn unit(nanoseconds: f64) -> (f64, &'static str) {
    let units = [(1e9, "s"), (1e6, "ms"), (1e3, "µs")];
    units.into_iter().find(|(size, _)| nanoseconds >= *size).unwrap_or((1.0, "ns"))
}

/// A row's times are in the unit of the smaller one, unless that takes six digits.
fn in_unit(nanoseconds: f64, (size, name): (f64, &str)) -> String {
    let time = nanoseconds / size;
    match time {
        f64::INFINITY => NOTHING.into(),
        0.0..10.0 => format!("{time:.2} {name}"),
        10.0..100.0 => format!("{time:.1} {name}"),
        100.0..1e5 => format!("{} {name}", grouped(time.round() as usize)),
        _ => in_unit(nanoseconds, unit(nanoseconds)),
    }
}

/// Two decimals, or two digits of a small one.
fn ratio([rust, rattle]: [f64; 2]) -> String {
    let ratio = rust / rattle;
    if ratio.is_infinite() {
        return NOTHING.into();
    }
    let decimals = (1.0 - ratio.log10().floor()).max(2.0) as usize;
    format!("{ratio:.decimals$}")
}

/// With commas.
fn grouped(number: usize) -> String {
    if number < 1000 { number.to_string() } else { format!("{},{:03}", grouped(number / 1000), number % 1000) }
}
