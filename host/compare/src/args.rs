//! The command line.
use std::time::Duration;

pub const USAGE: &str = "\
compare [--cases N] [--seed S] [--call NAME]     N cases a call (100,000; twelve times as many of sqrt,
                                                 a fifth of the calls on regions, models and whole meshes and
                                                 of assemble_stack, half as many of mesh_box and of mesh_prism;
                                                 of layouts on their way to a volume, layout_to_volume, a fiftieth)
compare --seconds T [--seed S] [--call NAME]     the long run: T seconds, each call as long as every other
compare --roots [--seed S]                       12,000,000 square roots, a million near a middle of two floats
compare --call NAME --number N [--seed S]        one case, printed";

pub struct Args {
    pub cases: u64,
    pub seed: u64,
    pub seconds: Option<Duration>,
    pub call: Option<String>,
    pub number: Option<u64>,
}

pub fn read() -> Result<Args, String> {
    let mut args = Args { cases: 100_000, seed: 1, seconds: None, call: None, number: None };
    let mut words = std::env::args().skip(1);
    while let Some(word) = words.next() {
        if word == "--roots" {
            args.call = Some("sqrt".into());
            args.cases = 1_000_000;
            continue;
        }
        let value = words.next().ok_or(format!("{word}: no value"))?;
        match word.as_str() {
            "--cases" => args.cases = whole(&value)?,
            "--seed" => args.seed = whole(&value)?,
            "--seconds" => args.seconds = Some(Duration::from_secs(whole(&value)?)),
            "--call" => args.call = Some(value),
            "--number" => args.number = Some(whole(&value)?),
            _ => return Err(format!("{word} is not known")),
        }
    }
    if args.number.is_some() && args.call.is_none() {
        return Err("--number asks for --call".into());
    }
    Ok(args)
}

fn whole(word: &str) -> Result<u64, String> {
    word.parse().map_err(|_| format!("{word} is no whole number"))
}
