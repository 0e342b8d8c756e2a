//! Holds include/openrdson.h, the bindings of host/openrdson and the table of host/fuzz to the functions that crates/c_api exports.
//!
//!     header                the check
//!     header --prototypes   prints the functions in C
//!     header --bindings     prints them in Rust
//!     header --table        prints them as a table in C
mod c;
mod rust;
mod source;
mod table;

use source::Function;
use std::collections::BTreeSet;
use std::process::ExitCode;

const HEADER: &str = "include/openrdson.h";
const BINDINGS: &str = "host/openrdson/src/calls/raw.rs";
const TABLE: &str = "host/fuzz/calls.h";

fn main() -> ExitCode {
    let functions = source::functions();
    match std::env::args().nth(1).as_deref() {
        None => check(&functions),
        Some("--prototypes") => print(functions.iter().map(|function| c::prototype(function) + ";\n").collect()),
        Some("--bindings") => print(rust::bindings(&functions)),
        Some("--table") => print(table::table(&functions)),
        Some(other) => panic!("no option {other}"),
    }
}

fn print(text: String) -> ExitCode {
    print!("{text}");
    ExitCode::SUCCESS
}

fn check(functions: &[Function]) -> ExitCode {
    let mut failures = 0;
    let mut fail = |line: String| {
        println!("header: {line}");
        failures += 1;
    };
    let plain = c::without_comments(&source::text(HEADER));
    let there = c::prototypes(&plain);
    let exported: Vec<String> = functions.iter().map(|function| c::spaced(&c::prototype(function))).collect();
    let [there_set, exported_set] = [&there, &exported].map(|list| list.iter().collect::<BTreeSet<_>>());
    exported_set.difference(&there_set).for_each(|one| fail(format!("{HEADER} does not have {one}")));
    there_set.difference(&exported_set).for_each(|one| fail(format!("{HEADER} has {one}")));
    if there.len() != exported.len() {
        fail(format!("{HEADER} has {} functions, and there are {}", there.len(), exported.len()));
    }
    let whole = c::spaced(&plain);
    let others = c::others();
    for other in &others {
        let line = other.starts_with('#');
        let stands = if line { plain.lines().any(|one| one.trim_end() == other) } else { whole.contains(&c::spaced(other)) };
        if !stands {
            fail(format!("{HEADER} does not have {other}"));
        }
    }
    if source::text(BINDINGS) != rust::bindings(functions) {
        fail(format!("{BINDINGS} is not what `header --bindings` prints"));
    }
    if source::text(TABLE) != table::table(functions) {
        fail(format!("{TABLE} is not what `header --table` prints"));
    }
    let held = exported.len() + others.len();
    println!("{held} declarations of {HEADER} held to the sources, {failures} failed");
    if failures == 0 { ExitCode::SUCCESS } else { ExitCode::FAILURE }
}
