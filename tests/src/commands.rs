//! The repository's commands as processes: the real ones, and copies beside stand-ins for `rt`, cargo, Debian's tools and the programs, which
//! show what a command starts and when.

use std::ffi::{OsStr, OsString};
use std::os::unix::fs::{symlink, PermissionsExt};
use std::path::{Path, PathBuf};
use std::process::{Command, Stdio};
use std::{env, fs};

use crate::programs::{copy_program, project, Folder};

/// Every tool that a command starts, `rt`, cargo, Debian's and the shell apart.
const TOOLS: [&str; 17] = [
    "basename",
    "cat",
    "chmod",
    "cp",
    "find",
    "flock",
    "grep",
    "mkdir",
    "mktemp",
    "mv",
    "readlink",
    "rm",
    "sed",
    "sha256sum",
    "sort",
    "tail",
    "tee",
];

/// How a command ended and what it wrote.
#[derive(Debug)]
pub struct Ended {
    /// None where a signal ended it.
    pub status: Option<i32>,
    pub output: String,
    pub error: String,
}

impl Ended {
    pub fn of(command: &mut Command) -> Self {
        let output = command.output().expect("the command starts");
        let text = |bytes| String::from_utf8(bytes).expect("text");
        Ended {
            status: output.status.code(),
            output: text(output.stdout),
            error: text(output.stderr),
        }
    }

    /// It wrote that line alone and ended so.
    #[track_caller]
    pub fn expect(&self, status: i32, line: &str) {
        assert_eq!(self.output, format!("{line}\n"), "{self:?}");
        assert_eq!(self.status, Some(status), "{self:?}");
    }

    /// It ended with 2, no line, and a message that has this in it.
    #[track_caller]
    pub fn expect_message(&self, part: &str) {
        self.expect_told(2, part);
    }

    /// It ended so, with no line and a message that has this in it.
    #[track_caller]
    pub fn expect_told(&self, status: i32, part: &str) {
        assert_eq!(self.status, Some(status), "{self:?}");
        assert_eq!(self.output, "", "{self:?}");
        assert!(self.error.contains(part), "{self:?}");
    }

    /// It ended with 0 and wrote nothing.
    #[track_caller]
    pub fn expect_silence(&self) {
        self.expect_told(0, "");
        assert_eq!(self.error, "");
    }
}

/// The shells of this machine that a command can run in.
pub fn shells() -> Vec<PathBuf> {
    ["sh", "dash", "bash"]
        .into_iter()
        .filter_map(find)
        .collect()
}

/// A file of the repository.
pub fn file(name: &str) -> PathBuf {
    project().canonicalize().expect("a folder").join(name)
}

/// A command, with nothing to read and nothing in its environment that leads it elsewhere.
pub fn command(path: impl AsRef<OsStr>) -> Command {
    let mut command = Command::new(path);
    command.stdin(Stdio::null());
    for name in ["CDPATH", "OLDPWD", "DESTDIR"] {
        command.env_remove(name);
    }
    command
}

/// The tool of that name on PATH.
pub fn find(name: &str) -> Option<PathBuf> {
    let path = env::var_os("PATH").expect("PATH");
    env::split_paths(&path)
        .map(|folder| folder.join(name))
        .find(|place| place.is_file())
}

/// Fills a folder with the tools that commands start, to be a PATH without `rt`.
pub fn put_tools(folder: &Path) {
    fs::create_dir(folder).expect("a new folder");
    for name in TOOLS {
        let tool = find(name).unwrap_or_else(|| panic!("{name} is on PATH"));
        symlink(tool, folder.join(name)).expect("linked");
    }
}

/// Writes a file, in a folder made for it if there is none.
pub fn put(path: &Path, text: &str) {
    fs::create_dir_all(path.parent().expect("a folder")).expect("made");
    fs::write(path, text).expect("written");
}

/// Writes a script for `sh`.
pub fn put_script(path: &Path, text: &str) {
    let written = path.with_extension("written");
    put(&written, &format!("#!/bin/sh\n{text}\n"));
    fs::set_permissions(&written, fs::Permissions::from_mode(0o755)).expect("executable");
    copy_program(&written, path);
    fs::remove_file(&written).expect("removed");
}

/// A copy of the commands in a folder of its own, with few sources. `rt` is a stand-in there that keeps a list of its calls, builds copies of
/// what is in the folder `builds` and gives itself away if two of it run at once; so are cargo, which builds a copy of the file `volefleece`, and
/// Debian's tools.
pub struct Repository {
    folder: Folder,
}

/// The commands and what they read.
const COPIED: [&str; 17] = [
    "KIT",
    "bench",
    "build",
    "desk",
    "install",
    "quote",
    "readdress",
    "setup",
    "simplify",
    "test",
    "scripts/build.sh",
    "scripts/commands.sh",
    "scripts/debian.toml",
    "scripts/volefleece-quote",
    "scripts/volefleece-readdress",
    "scripts/volefleece-simplify",
    "scripts/volefleece.pc.in",
];

/// What is built for the commands in the folder `target`, by `rt` in that of each crate.
const BUILT: [&str; 5] = [
    "bin/desk",
    "bin/readdress",
    "bin/sales",
    "staticlib/libvolefleece.a",
    "staticlib/libprobes.a",
];

/// Debian's packages that the command is built and tested with, as `./setup` asks for them.
pub const PACKAGES: [&str; 9] = [
    "librust-clap-dev",
    "librust-clap-complete-dev",
    "librust-indicatif-dev",
    "librust-serde-json-dev",
    "librust-rayon-dev",
    "librust-tempfile-dev",
    "librust-sha2-dev",
    "librust-assert-cmd-dev",
    "librust-libc-dev",
];

const RT: &str = r#"
crate=${PWD##*/}
case $1 in
lib | run) echo "$* $crate" >>"$HERE/calls" ;;
*) echo "$*" >>"$HERE/calls" ;;
esac
cd "$HERE"
case $1 in
version) cat version ;;
ci | lib | run)
    mkdir busy || echo 'two at once' >>calls
    ./while-building
    case $1 in
    ci)
        cat ci
        rmdir busy
        exit "$(cat ci-ends)"
        ;;
    lib) built=staticlib/lib$crate.a ;;
    run) built=bin/$crate ;;
    esac
    made=crates/$crate/out/${built##*/}
    mkdir -p "${made%/*}"
    stamp=$(find KIT crates.txt crates -name out -prune -o -type f -exec sha256sum {} +)
    if [ "$(cat "$made.stamp" 2>/dev/null)" != "$stamp" ]; then
        cp "builds/$built" "$made"
        printf '%s\n' "$stamp" >"$made.stamp"
    fi
    [ "$1" = lib ] || echo 'what the program says'
    rmdir busy
    [ ! -e broken ]
    ;;
esac"#;

/// It fails where the file `fails` has its folder and its first word.
const CARGO: &str = r#"
[ "$1" != --config ] || shift 2
echo "${PWD##*/}: cargo $*" >>"$HERE/calls"
[ "$(cat "$HERE/fails" 2>/dev/null)" != "${PWD##*/}: $1" ] || exit 101
case $1 in
generate-lockfile)
    [ ! -e "$HERE/unfit" ] || { echo 'no version fits' >&2; exit 101; }
    echo Debian >Cargo.lock
    exit
    ;;
fetch)
    [ -e "$HERE/crates-io" ] && [ "$(cat Cargo.lock 2>/dev/null)" != Debian ] || exit 101
    echo crates.io >Cargo.lock
    exit
    ;;
clean) rm -f target/stamp ;;
build)
    "$HERE/while-building"
    mkdir -p target/release
    stamp=$(find src ../volefleece-rs/src ../target/staticlib/libvolefleece.a -type f -exec sha256sum {} +)
    if [ "$(cat target/stamp 2>/dev/null)" != "$stamp" ] || [ ! -e target/release/volefleece ]; then
        cp "$HERE/volefleece" target/release/volefleece
        printf '%s\n' "$stamp" >target/stamp
    fi
    ;;
esac
echo "tests ran${VOLEFLEECE_LIB_DIR-}${VOLEFLEECE_DESK-}${VOLEFLEECE_SALES-}${VOLEFLEECE_READDRESS-}${VOLEFLEECE_BEFORE-}""#;

/// The command, which shows its arguments.
const VOLEFLEECE: &str = r#"
if [ "$1" = completions ]; then
    echo "completes in $2"
else
    printf '<%s>' "$@"
    printf '\n'
fi
exit "$(cat "$HERE/ends")""#;

const DPKG_QUERY: &str = r#"
for package; do
    grep "^$package " "$HERE/packages"
done"#;

/// It installs what it is asked for unless there is a file `unreachable`.
const APT_GET: &str = r#"
echo "apt-get $*" >>"$HERE/calls"
echo 'apt-get at work'
mkdir "$HERE/busy" || echo 'two at once' >>"$HERE/calls"
"$HERE/while-building"
rmdir "$HERE/busy"
[ ! -e "$HERE/unreachable" ] || exit 100
for package; do
    case $package in
    librust-*) echo "$package installed" >>"$HERE/packages" ;;
    esac
done"#;

/// It asks for a password unless there is a file `no-password`.
const SUDO: &str = r#"
echo "sudo $*" >>"$HERE/calls"
[ -e "$HERE/no-password" ] || { echo 'a password is required' >&2; exit 1; }
shift
exec "$@""#;

impl Repository {
    /// One whose programs say this by their script's text, on a machine with all packages, whose user is root.
    pub fn new(program: &str) -> Self {
        let repository = Repository {
            folder: Folder::new("desk"),
        };
        fs::create_dir(repository.path("scripts")).expect("a new folder");
        for name in COPIED {
            copy_program(&file(name), &repository.path(name));
        }
        for name in BUILT {
            put_script(&repository.path("builds").join(name), program);
        }
        repository.put_sources();
        repository.put_stand_ins();
        repository.put_packages(&PACKAGES);
        repository
    }

    /// One whose programs, archives and header are the real ones.
    pub fn with_real_programs() -> Self {
        let repository = Repository::new(":");
        for name in BUILT {
            let built = file("target").join(name);
            copy_program(&built, &repository.path("builds").join(name));
        }
        let header = "include/volefleece.h";
        fs::copy(file(header), repository.path(header)).expect("copied");
        repository
    }

    fn put_sources(&self) {
        for (name, text) in [
            (
                "crates.txt",
                "desk:\nreaddress:\nsales:\nvolefleece staticlib:\nprobes staticlib:\n",
            ),
            ("crates/desk/src/main.rt", "first"),
            ("crates/readdress/src/main.rt", "first"),
            ("crates/sales/src/main.rt", "first"),
            ("crates/volefleece/src/lib.rt", "first"),
            ("crates/probes/src/lib.rt", "first"),
            ("include/volefleece.h", ""),
            ("samples/house/tree.tab", ""),
            ("samples/workshop/tree.tab", ""),
            ("tests/Cargo.toml", ""),
            ("command/src/main.rs", "first"),
            ("volefleece-rs/src/lib.rs", "first"),
        ] {
            put(&self.path(name), text);
        }
    }

    fn put_stand_ins(&self) {
        put(&self.path("ci"), "proved\n3 passed, 0 failed\n");
        put(&self.path("ci-ends"), "0");
        put(&self.path("ends"), "0");
        put(&self.path("user"), "0");
        fs::copy(file("KIT"), self.path("version")).expect("copied");
        for (name, text) in [
            ("while-building", ":"),
            ("volefleece", VOLEFLEECE),
            ("stand-ins/rt", RT),
            ("stand-ins/cargo", CARGO),
            ("stand-ins/dpkg-query", DPKG_QUERY),
            ("stand-ins/apt-get", APT_GET),
            ("stand-ins/sudo", SUDO),
            ("stand-ins/id", "cat \"$HERE/user\""),
        ] {
            put_script(&self.path(name), text);
        }
        put_tools(&self.path("tools"));
        for name in ["rmdir", "sleep", "kill", "true"] {
            if let Some(tool) = find(name) {
                symlink(tool, self.path("tools").join(name)).expect("linked");
            }
        }
    }

    /// Has these packages installed alone. A package that was removed is still known.
    pub fn put_packages(&self, installed: &[&str]) {
        let packages = PACKAGES.iter().map(|package| {
            let status = match installed.contains(package) {
                true => "installed",
                false => "config-files",
            };
            format!("{package} {status}\n")
        });
        put(&self.path("packages"), &packages.collect::<String>());
    }

    pub fn path(&self, name: &str) -> PathBuf {
        self.folder.path(name)
    }

    /// A command of the copy, with the stand-ins on PATH.
    pub fn command(&self, name: &str) -> Command {
        self.command_with(name, &["stand-ins", "tools"])
    }

    /// A command of the copy, with these folders of it alone on PATH.
    pub fn command_with(&self, name: &str, folders: &[&str]) -> Command {
        let path: OsString =
            env::join_paths(folders.iter().map(|folder| self.path(folder))).expect("a PATH");
        let mut command = command(self.path(name));
        command.env("PATH", path).env("HERE", self.path("."));
        command
    }

    /// Runs a command of the copy without arguments.
    pub fn run(&self, name: &str) -> Ended {
        Ended::of(&mut self.command(name))
    }

    /// What the stand-ins were called with so far: cargo after its folder, `rt` by its arguments and, where it builds a crate, that.
    pub fn calls(&self) -> Vec<String> {
        let calls = self.folder.read("calls").unwrap_or_default();
        let text = String::from_utf8(calls).expect("text");
        text.lines().map(String::from).collect()
    }
}
