//! Runs seeded cases of every call on the unchanged Rust and on Rattle, and compares the answers bit for bit.
mod args;
mod compared;
mod layouts;
mod meshes;
mod models;
mod plain;
mod polygons;
mod progress;
mod show;
mod stacks;
mod table;
mod welds;

use args::Args;
use cases::call::CALLS;
use cases::meshes::Call::{MeshBox, MeshBoxRegion, MeshPrism, MeshPrismRegion};
use cases::models::Call::{MeshModel, MeshModelWithOptions};
use cases::polygons::Call::{DedupRing, TriangulatePolygon};
use cases::welds::Call::{MeshVolume, WeldNodes};
use compared::{Cases, Compared, Tally};
use layouts::Layouts;
use meshes::Meshes;
use models::Models;
use plain::Plain;
use polygons::Polygons;
use progress::Progress;
use stacks::Stacks;
use std::process::ExitCode;
use std::time::{Duration, Instant};
use table::Row;
use welds::Welds;

/// How long a call runs in one round of the long run, and after how many cases the time is looked at. These count as one turn at most: the large cases that
/// are written by hand come first, and would take the call's time from those that are drawn.
const TURN: Duration = Duration::from_millis(50);
const BATCH: u64 = 20;

type Calls = Vec<Box<dyn Compared>>;

fn main() -> ExitCode {
    let (args, mut calls) = match args::read().and_then(|args| Ok((named(&args)?, args))) {
        Ok((calls, args)) => (args, calls),
        Err(wrong) => {
            eprintln!("compare: {wrong}\n{}", args::USAGE);
            return ExitCode::from(2);
        }
    };
    match (args.number, args.seconds) {
        (Some(number), _) => run_one(&args, &mut calls, number),
        (None, Some(seconds)) => run_long(&args, &mut calls, seconds),
        (None, None) => run(&args, &mut calls),
    }
    report(&calls, args.seconds.is_some() && args.number.is_none())
}

fn boxed(of: impl Cases + 'static) -> Box<dyn Compared> {
    Box::new(Tally::new(of))
}

/// The call that is named, or every one.
fn named(args: &Args) -> Result<Calls, String> {
    let mut calls: Calls = CALLS.into_iter().map(|call| boxed(Plain::new(call))).collect();
    calls.push(boxed(Stacks::default()));
    calls.extend([DedupRing, TriangulatePolygon].map(|call| boxed(Polygons::new(call))));
    calls.extend([MeshBox, MeshPrism, MeshBoxRegion, MeshPrismRegion].map(|call| boxed(Meshes::new(call))));
    calls.extend([MeshModel, MeshModelWithOptions].map(|call| boxed(Models::new(call))));
    calls.extend([WeldNodes, MeshVolume].map(|call| boxed(Welds::new(call))));
    calls.push(boxed(Layouts::default()));
    if let Some(name) = &args.call {
        calls.retain(|call| call.name() == name);
        if calls.is_empty() {
            return Err(format!("no call {name}"));
        }
    }
    Ok(calls)
}

fn run_one(args: &Args, calls: &mut Calls, number: u64) {
    for call in calls {
        call.run(args.seed, number..number + 1);
        print!("{} {number} of seed {}\n{}", call.name(), args.seed, call.shown(args.seed, number));
    }
}

fn run(args: &Args, calls: &mut Calls) {
    for call in calls {
        call.run(args.seed, 0..call.share(args.cases));
    }
}

/// Rounds, in each of which every call gets its turn.
fn run_long(args: &Args, calls: &mut Calls, total: Duration) {
    let mut progress = Progress::new(total);
    let mut taken = vec![Duration::ZERO; calls.len()];
    let mut due = Duration::ZERO;
    while !progress.is_over() {
        due += TURN;
        for (i, taken) in taken.iter_mut().enumerate() {
            while *taken < due && !progress.is_over() {
                let begin = Instant::now();
                let from = calls[i].cases();
                calls[i].run(args.seed, from..from + BATCH);
                *taken += begin.elapsed().min(TURN);
            }
            progress.tell(sum(calls, |call| call.cases()), sum(calls, |call| call.mismatches()));
        }
    }
    progress::clear();
}

fn sum(calls: &Calls, of: impl Fn(&dyn Compared) -> u64) -> u64 {
    calls.iter().map(|call| of(&**call)).sum()
}

/// In a long run every number must have been seen, however many cases there were.
fn report(calls: &Calls, is_long: bool) -> ExitCode {
    calls.iter().map(|call| call.line()).filter(|line| !line.is_empty()).for_each(|line| println!("{line}"));
    let rows: Vec<Row> = calls.iter().flat_map(|call| call.rows()).collect();
    table::print(&rows);
    let mut failed = 0;
    for call in calls {
        let wrong = call.wrong(is_long);
        wrong.iter().for_each(|what| println!("FAILED {}: {what}", call.name()));
        failed += !wrong.is_empty() as usize;
    }
    println!("{} calls compared with the Rust, {} cases, {failed} failed", calls.len(), sum(calls, |call| call.cases()));
    if failed == 0 { ExitCode::SUCCESS } else { ExitCode::FAILURE }
}
