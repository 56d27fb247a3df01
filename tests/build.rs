//! Links `libprobes.a`, from `../target/staticlib`, and builds the library that tests load into the programs.

use std::env;
use std::path::PathBuf;
use std::process::Command;

/// What the programs' calls of the C library go through where a test wants one to fail.
const CALLS: &str = "preload/calls.rs";

fn main() {
    link_probes();
    build_calls();
}

fn link_probes() {
    let folder = set_by_cargo("CARGO_MANIFEST_DIR").join("../target/staticlib");
    let archive = folder.join("libprobes.a");
    println!("cargo:rerun-if-changed={}", archive.display());
    assert!(
        archive.is_file(),
        "{} is missing: build it with `./build`",
        archive.display()
    );
    println!("cargo:rustc-link-search=native={}", folder.display());
    println!("cargo:rustc-link-lib=static=probes");
}

fn build_calls() {
    let library = set_by_cargo("OUT_DIR").join("libcalls.so");
    let status = Command::new(set_by_cargo("RUSTC"))
        .args([
            "--edition",
            "2021",
            "--crate-type",
            "cdylib",
            "-O",
            CALLS,
            "-o",
        ])
        .arg(&library)
        .status();
    assert!(status.is_ok_and(|status| status.success()), "rustc {CALLS}");
    println!("cargo:rerun-if-changed={CALLS}");
    println!("cargo:rustc-env=VOLEFLEECE_CALLS={}", library.display());
}

fn set_by_cargo(variable: &str) -> PathBuf {
    PathBuf::from(env::var_os(variable).expect("cargo sets this"))
}
