//! The programs in the README: they compile as it says, link with the archive and print what it says. So do its commands for a table without addresses.

use std::path::Path;
use std::process::Command;
use std::{env, fs};

use volefleece_tests::commands::{file, put, put_script, Ended, Repository};
use volefleece_tests::programs::Folder;

/// The indented lines after the one that begins so, without their indent.
fn block(start: &str) -> String {
    let readme = fs::read_to_string(file("README.md")).expect("read");
    let lines = readme.lines().skip_while(|line| !line.starts_with(start));
    let block: Vec<&str> = lines
        .skip(2)
        .take_while(|line| line.is_empty() || line.starts_with("    "))
        .map(|line| line.get(4..).unwrap_or_default())
        .collect();
    assert!(block.len() > 1, "nothing follows {start}");
    format!("{}\n", block.join("\n").trim_end())
}

/// The folder with the archive, as build.rs finds it.
fn archive_folder() -> std::path::PathBuf {
    env::var_os("VOLEFLEECE_LIB_DIR").map_or_else(|| file("target/staticlib"), Into::into)
}

/// Compiles a program without a warning, and compares what it prints with the README.
#[track_caller]
fn compiles_and_prints(compile: &mut Command, program: &Path) {
    let compiled = Ended::of(compile);
    assert_eq!(compiled.status, Some(0), "{}", compiled.error);
    assert_eq!(compiled.error, "");
    let ran = Ended::of(&mut Command::new(program));
    assert_eq!(ran.output, block("Both print"));
    assert_eq!(ran.status, Some(0));
}

#[test]
fn the_program_in_c() {
    let folder = Folder::new("desk");
    folder.write("main.c", block("From C, all calls but retiming's:").as_bytes());
    let program = folder.path("program");
    let mut compile = Command::new("cc");
    compile
        .args(["-std=c99", "-pedantic", "-Wall", "-Wextra", "-O2", "-I"])
        .args([file("include"), folder.path("main.c")])
        .arg(archive_folder().join("libvolefleece.a"))
        .arg("-o")
        .arg(&program);
    compiles_and_prints(&mut compile, &program);
}

#[test]
fn the_program_in_rust() {
    let folder = Folder::new("desk");
    folder.write(
        "main.rs",
        block("names the archive's folder where").as_bytes(),
    );
    let rustc = || Command::new(env::var_os("RUSTC").unwrap_or("rustc".into()));
    let (library, program) = (folder.path("libvolefleece.rlib"), folder.path("program"));
    let mut compile = rustc();
    compile
        .args(["--edition", "2021", "--crate-type", "rlib", "--crate-name"])
        .args(["volefleece", "-l", "static=volefleece", "-L"])
        .arg(format!("native={}", archive_folder().display()))
        .arg(file("volefleece-rs/src/lib.rs"))
        .arg("-o")
        .arg(&library);
    let compiled = Ended::of(&mut compile);
    assert_eq!(compiled.status, Some(0), "{}", compiled.error);
    let mut compile = rustc();
    compile
        .args(["--edition", "2021", "--extern"])
        .arg(format!("volefleece={}", library.display()))
        .arg(folder.path("main.rs"))
        .arg("-o")
        .arg(&program);
    compiles_and_prints(&mut compile, &program);
}

#[test]
fn a_house_without_addresses() {
    let copy = Repository::with_real_programs();
    let old = "crates/readdress/data/old.tab";
    put(&copy.path(old), "");
    fs::copy(file(old), copy.path(old)).expect("copied");
    fs::create_dir(copy.path("target")).expect("made");
    put_script(&copy.path("house"), &block("branches and lists are those"));
    let ended = Ended::of(copy.command("house").current_dir(copy.path(".")));
    assert_eq!(ended.output, block("is quoted then:"), "{ended:?}");
}
