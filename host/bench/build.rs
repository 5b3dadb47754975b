//! Compiles the C side of each peer that pkg-config finds, and sets a cfg for it. A peer that is not
//! installed is left out without a word; the program then says so.
//!
//! PKG_CONFIG, CC and AR name other programs; with PKG_CONFIG=false no peer is linked.

use std::env;
use std::path::{Path, PathBuf};
use std::process::Command;

fn main() {
    println!("cargo::rerun-if-changed=build.rs");
    println!("cargo::rerun-if-changed=peers");
    println!("cargo::rerun-if-env-changed=PKG_CONFIG_PATH");
    peer("pixman", "pixman-1");
    peer("tiff", "libtiff-4");
}

/// Links a peer where its package is there: peers/NAME.c, its libraries, and the cfg `peer_NAME`.
fn peer(name: &str, package: &str) {
    println!("cargo::rustc-check-cfg=cfg(peer_{name})");
    let Some(version) = pkg_config("--modversion", package) else {
        return;
    };
    let flags = pkg_config("--cflags", package).unwrap_or_default();
    let libraries = pkg_config("--libs", package).unwrap_or_default();
    let out = PathBuf::from(env::var_os("OUT_DIR").expect("cargo sets OUT_DIR"));
    if !compiled(name, &flags, &out) {
        println!("cargo::warning={package} is there, but peers/{name}.c was not compiled");
        return;
    }
    println!("cargo::rustc-cfg=peer_{name}");
    let variable = name.to_uppercase();
    println!(
        "cargo::rustc-env=PEER_{variable}_VERSION={}",
        version.trim()
    );
    println!("cargo::rustc-link-search=native={}", out.display());
    println!("cargo::rustc-link-lib=static=bench_{name}");
    for flag in libraries.split_whitespace() {
        if let Some(folder) = flag.strip_prefix("-L") {
            println!("cargo::rustc-link-search=native={folder}");
        } else if let Some(library) = flag.strip_prefix("-l") {
            println!("cargo::rustc-link-lib={library}");
        }
    }
}

/// What pkg-config answers about a package, or None where either is not there.
fn pkg_config(option: &str, package: &str) -> Option<String> {
    let output = Command::new(program("PKG_CONFIG", "pkg-config"))
        .args([option, package])
        .output()
        .ok()?;
    let text = String::from_utf8(output.stdout).ok()?;
    (output.status.success() && !text.is_empty()).then_some(text)
}

/// Whether peers/NAME.c became libbench_NAME.a.
fn compiled(name: &str, flags: &str, out: &Path) -> bool {
    let object = out.join(format!("bench_{name}.o"));
    let archive = out.join(format!("libbench_{name}.a"));
    let mut compile = Command::new(program("CC", "cc"));
    compile
        .args(["-std=c11", "-O2", "-Wall", "-Wextra", "-fPIC", "-c"])
        .args(flags.split_whitespace())
        .arg(format!("peers/{name}.c"))
        .arg("-o")
        .arg(&object);
    let mut pack = Command::new(program("AR", "ar"));
    pack.arg("crs").arg(&archive).arg(&object);
    [compile, pack]
        .iter_mut()
        .all(|command| command.status().is_ok_and(|status| status.success()))
}

/// A program by its usual name, or the one that an environment variable names.
fn program(variable: &str, usual: &str) -> String {
    println!("cargo::rerun-if-env-changed={variable}");
    env::var(variable).unwrap_or_else(|_| usual.to_string())
}
