//! Links `libvolefleece.a`, from `../target/staticlib` or from the folder in `VOLEFLEECE_LIB_DIR`.

use std::env;
use std::path::{Path, PathBuf};

const LIB_DIR: &str = "VOLEFLEECE_LIB_DIR";

fn main() {
    let here = env::var_os("CARGO_MANIFEST_DIR").expect("cargo sets this");
    let built_here = Path::new(&here).join("../target/staticlib");
    let folder = env::var_os(LIB_DIR).map_or(built_here, PathBuf::from);
    let archive = folder.join("libvolefleece.a");
    println!("cargo:rerun-if-env-changed={LIB_DIR}");
    println!("cargo:rerun-if-changed={}", archive.display());
    assert!(
        archive.is_file(),
        "{} is missing: build it with `./build`, or name its folder in {LIB_DIR}",
        archive.display()
    );
    println!("cargo:rustc-link-search=native={}", folder.display());
    println!("cargo:rustc-link-lib=static=volefleece");
}
