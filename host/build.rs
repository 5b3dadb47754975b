//! Links the proved library, which `./staticlib` puts at
//! ../target/staticlib/libprintbox.a.

use std::path::Path;

fn main() {
    let folder = Path::new(env!("CARGO_MANIFEST_DIR")).join("../target/staticlib");
    let archive = folder.join("libprintbox.a");
    println!("cargo::rerun-if-changed={}", archive.display());
    if !archive.is_file() {
        let remedy = "run ./staticlib in the project's folder";
        println!("cargo::error=target/staticlib/libprintbox.a is missing: {remedy}");
        return;
    }
    println!("cargo::rustc-link-search=native={}", folder.display());
    println!("cargo::rustc-link-lib=static=printbox");
}
