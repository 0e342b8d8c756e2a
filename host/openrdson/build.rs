//! Links the archive that `host/archive.sh` wrote.
fn main() {
    let folder = std::path::Path::new(env!("CARGO_MANIFEST_DIR")).join("../../target/staticlib");
    let folder = folder.canonicalize().expect("no target/staticlib: run `host/archive.sh` first");
    println!("cargo:rustc-link-search=native={}", folder.display());
    println!("cargo:rustc-link-lib=static=c_api");
    println!("cargo:rerun-if-changed={}", folder.join("libc_api.a").display());
}
