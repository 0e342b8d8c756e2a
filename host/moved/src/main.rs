//! One program, job.rs, on the original and on the crate `openrdson`: only its `use` lines and what it does with a refusal
//! differ, and it gives the same lines.
use std::process::ExitCode;

mod original {
    use oracle::core::{geometry::*, layout::*, mesh::*, tech::*};
    use oracle::geometry::*;
    use oracle::meshing::*;

    fn done<T>(value: T) -> T {
        value
    }

    include!("job.rs");
}

mod moved {
    use openrdson::*;

    fn done<T>(value: Result<T, Refusal>) -> T {
        value.expect("a job that the rules accept")
    }

    include!("job.rs");
}

fn main() -> ExitCode {
    oracle::core::log::set_level(oracle::core::log::WARN);
    let (original, moved) = (original::lines(), moved::lines());
    // A region that is turned down is among them.
    assert!(original.iter().any(|line| line.starts_with("region ")), "no diagnostic");
    let mut failed = original.len().abs_diff(moved.len());
    for (one, other) in original.iter().zip(&moved).filter(|(one, other)| one != other) {
        println!("moved: the original says {one}\nmoved: and here it is   {other}");
        failed += 1;
    }
    println!("{} lines of one program on both sides, {failed} failed", original.len());
    if failed == 0 { ExitCode::SUCCESS } else { ExitCode::FAILURE }
}
