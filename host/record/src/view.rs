//! The files that crates/sample writes, held to the Rust's mesh of the same switch.
mod plan;
mod vtk;

use crate::switch::Job;
use std::path::{Path, PathBuf};
use std::process::{Command, Output};

/// The picture in docs.
const PICTURE: &str = "docs/switch.svg";

/// Whether both files are what the Rust's mesh says, and the picture is the one in docs, which is written unless this is a check.
pub fn written(check: bool) -> bool {
    let folder = std::env::temp_dir().join(format!("switch-{}", std::process::id()));
    std::fs::create_dir_all(&folder).unwrap();
    let faults = run(&folder, check).unwrap_or_else(|fault| vec![fault]);
    std::fs::remove_dir_all(&folder).unwrap();
    for fault in &faults {
        println!("sample: {fault}");
    }
    faults.is_empty()
}

fn run(folder: &Path, check: bool) -> Result<Vec<String>, String> {
    let (mesh, plan) = (folder.join("switch.vtk"), folder.join("switch.svg"));
    let said = sample(&[&mesh, &plan])?;
    let mut faults = Vec::new();
    let printed = std::fs::read(top("crates/sample/stdout")).unwrap();
    if said.stdout != printed || !said.stderr.is_empty() {
        faults.push("what it prints with two file names is not its stdout".into());
    }
    let job = Job::new();
    let (mesh, plan) = (read(&mesh)?, read(&plan)?);
    faults.extend(vtk::faults(&job, &mesh));
    faults.extend(plan::faults(&job, &String::from_utf8_lossy(&plan)));
    if !check {
        std::fs::write(top(PICTURE), &plan).unwrap();
    }
    let picture = std::fs::read(top(PICTURE)).unwrap_or_default();
    faults.extend((picture != plan).then(|| format!("{PICTURE} is not the picture that it writes: record it again")));
    faults.extend(refusals(folder)?);
    let (nodes, elements, regions) = (job.mesh.nodes.len(), job.mesh.elements.len(), job.model.regions.len());
    println!("sample: {nodes} nodes and {elements} elements in a VTK file, {regions} regions in an SVG file, {} faults", faults.len());
    Ok(faults)
}

/// File names that it must turn down with one line, and the number of lines that it then prints.
fn refusals(folder: &Path) -> Result<Vec<String>, String> {
    let (fine, missing, full) = (folder.join("fine"), folder.join("missing/switch"), PathBuf::from("/dev/full"));
    let lines = std::fs::read_to_string(top("crates/sample/stdout")).unwrap().lines().count();
    let cases: [(&str, &[&Path], usize); 4] = [
        ("one file name", &[&fine], 0),
        ("three file names", &[&fine, &fine, &fine], 0),
        ("a folder that is not there", &[&missing, &fine], lines),
        ("a full disk", &[&fine, &full], lines),
    ];
    let mut faults = Vec::new();
    for (what, names, lines) in cases {
        let said = sample(names)?;
        let count = |text: &[u8]| text.iter().filter(|byte| **byte == b'\n').count();
        if (count(&said.stdout), count(&said.stderr)) != (lines, 1) {
            faults.push(format!("{what}: {} lines and {} of complaint", count(&said.stdout), count(&said.stderr)));
        }
    }
    Ok(faults)
}

fn sample(names: &[&Path]) -> Result<Output, String> {
    let program = top("target/bin/sample");
    Command::new(&program).args(names).output().map_err(|fault| format!("target/bin/sample: {fault}: run `host/sample.sh`"))
}

fn read(path: &Path) -> Result<Vec<u8>, String> {
    std::fs::read(path).map_err(|fault| format!("{}: {fault}", path.display()))
}

fn top(name: &str) -> PathBuf {
    Path::new(env!("CARGO_MANIFEST_DIR")).join("../..").join(name)
}
