//! Writes the expected answers that crates/replay, crates/replay_blocks, crates/replay_regions and crates/replay_meshes
//! replay, what crates/sample prints, and its picture of the plan; with --check it only says whether the files are the same,
//! and whether those that crates/sample writes are what the Rust's mesh says.
mod blocks;
mod meshes;
mod numbers;
mod regions;
mod sample;
mod switch;
mod view;

use sample::Sample;
use std::path::Path;
use std::process::ExitCode;

fn main() -> ExitCode {
    let check = std::env::args().nth(1).as_deref() == Some("--check");
    let files = [
        ("crates/replay/stdin", numbers::taken()),
        ("crates/replay_blocks/stdin", blocks::taken()),
        ("crates/replay_regions/stdin", regions::taken()),
        ("crates/replay_meshes/stdin", meshes::taken()),
        ("crates/sample/stdout", switch::printed()),
    ];
    let mut same = true;
    for (name, sample) in files {
        let path = Path::new(env!("CARGO_MANIFEST_DIR")).join("../..").join(name);
        if check {
            same &= is_recorded(name, &path, &sample);
        } else {
            std::fs::create_dir_all(path.parent().unwrap()).unwrap();
            std::fs::write(&path, &sample.bytes).unwrap();
            println!("{name}: {} recorded answers, {} bytes", sample.cases, sample.bytes.len());
        }
    }
    same &= view::written(check);
    if same { ExitCode::SUCCESS } else { ExitCode::FAILURE }
}

fn is_recorded(name: &str, path: &Path, sample: &Sample) -> bool {
    let same = std::fs::read(path).is_ok_and(|bytes| bytes == sample.bytes);
    if same {
        println!("{name}: {} recorded answers, as expected now", sample.cases);
    } else {
        println!("{name} is not what is expected now: record it again");
    }
    same
}
