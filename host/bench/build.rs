//! Tells the program which compiler built it.
use std::process::Command;

fn main() {
    let rustc = std::env::var("RUSTC").expect("cargo names no compiler");
    let said = Command::new(rustc).arg("--version").output().expect("no compiler");
    println!("cargo:rustc-env=BUILT_BY={}", String::from_utf8_lossy(&said.stdout).trim());
    println!("cargo:rerun-if-changed=build.rs");
}
