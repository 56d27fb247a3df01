//! The programs as processes, each in a folder of its own.

use std::ffi::OsStr;
use std::os::unix::fs::MetadataExt;
use std::os::unix::process::CommandExt;
use std::path::{Path, PathBuf};
use std::process::{Command, Stdio};
use std::sync::atomic::{AtomicUsize, Ordering};
use std::{env, fs, process};

pub const TREE: &str = "tree.tab";
pub const VALUES: &str = "values.tab";
/// A table of 16-byte records.
pub const FORMER: &str = "old.tab";

/// No argument.
pub const NONE: [&str; 0] = [];

/// A folder for a program to run in, which goes with its owner.
pub struct Folder {
    path: PathBuf,
    program: PathBuf,
}

impl Folder {
    /// An empty folder for the program of that name.
    pub fn new(program: &str) -> Self {
        Folder::of(find(program))
    }

    /// An empty folder for the program at that path.
    pub fn of(program: PathBuf) -> Self {
        static MADE: AtomicUsize = AtomicUsize::new(0);
        let number = MADE.fetch_add(1, Ordering::Relaxed);
        let name = program.file_name().expect("a file").display();
        let name = format!("volefleece-{name}-{}-{number}", process::id());
        let path = env::temp_dir().join(name);
        fs::create_dir(&path).expect("a new folder");
        Folder { path, program }
    }

    pub fn with_tree(program: &str, table: &[u8]) -> Self {
        let folder = Folder::new(program);
        folder.write(TREE, table);
        folder
    }

    pub fn path(&self, name: &str) -> PathBuf {
        self.path.join(name)
    }

    pub fn write(&self, name: &str, bytes: &[u8]) {
        fs::write(self.path(name), bytes).expect("written");
    }

    /// Puts a folder where the program looks for a file.
    pub fn put_folder(&self, name: &str) {
        fs::create_dir(self.path(name)).expect("a new folder");
    }

    /// The file's bytes, if there is one.
    pub fn read(&self, name: &str) -> Option<Vec<u8>> {
        let path = self.path(name);
        path.is_file().then(|| fs::read(path).expect("read"))
    }

    /// The names of what is in the folder, in order.
    pub fn names(&self) -> Vec<String> {
        let entries = fs::read_dir(&self.path).expect("a folder");
        let names = entries.map(|entry| entry.expect("an entry").file_name());
        let mut names: Vec<String> = names
            .map(|name| name.into_string().expect("text"))
            .collect();
        names.sort();
        names
    }

    /// The program, to be started in the folder.
    pub fn command(&self) -> Command {
        self.started(&self.program)
    }

    /// The program, to be started by a shell after this, as `umask 27;`, and with this behind it, as `>&-`.
    pub fn command_in_shell(&self, before: &str, behind: &str) -> Command {
        let mut command = self.started("sh".as_ref());
        let script = format!("{before} exec \"$0\" \"$@\" {behind}");
        command.arg("-c").arg(script).arg(&self.program);
        command
    }

    /// The program, one of whose calls fails, as `preload/calls.rs` has it.
    pub fn command_failing(&self, call: &str) -> Command {
        let mut command = self.preloaded();
        command.env("CALLS_FAIL", call);
        command
    }

    /// The program, none of whose calls moves more bytes.
    pub fn command_moving(&self, most: usize) -> Command {
        let mut command = self.preloaded();
        command.env("CALLS_MOST", most.to_string());
        command
    }

    fn preloaded(&self) -> Command {
        let mut command = self.command();
        command.env("LD_PRELOAD", env!("VOLEFLEECE_CALLS"));
        command
    }

    fn started(&self, program: &Path) -> Command {
        let mut command = Command::new(program);
        command.current_dir(&self.path).stdin(Stdio::null());
        command
    }

    pub fn run<A: AsRef<OsStr>>(&self, arguments: &[A]) -> Written {
        written(self.command().args(arguments))
    }

    /// It says why it does nothing, on standard error alone.
    #[track_caller]
    pub fn expect_complaint<A: AsRef<OsStr>>(&self, arguments: &[A], start: &str) {
        complains(self.command().args(arguments), start);
    }
}

/// Runs it to its end.
#[track_caller]
pub fn written(command: &mut Command) -> Written {
    let output = command.output().expect("the program starts");
    assert!(output.status.success(), "{}", output.status);
    let text = |bytes| String::from_utf8(bytes).expect("text");
    Written {
        output: text(output.stdout),
        error: text(output.stderr),
    }
}

/// Root may read and write everywhere: for root the command runs as another user.
pub fn restrict(command: &mut Command) -> &mut Command {
    if fs::metadata("/proc/self").expect("Linux has it").uid() == 0 {
        command.uid(65_534).gid(65_534);
    }
    command
}

/// It writes one message, which starts so, on standard error, and nothing to standard output.
#[track_caller]
pub fn complains(command: &mut Command, start: &str) {
    let written = written(command);
    assert_eq!(written.output, "");
    assert!(
        written.error.starts_with(start) && written.error.ends_with('\n'),
        "{start:?}, {:?}",
        written.error
    );
    assert_eq!(written.error.lines().count(), 1, "{:?}", written.error);
}

impl Drop for Folder {
    fn drop(&mut self) {
        fs::remove_dir_all(&self.path).expect("the folder is still there");
    }
}

/// What a run has written to standard output and standard error.
pub struct Written {
    pub output: String,
    pub error: String,
}

/// The program in `../target/bin`, or the one that the program's variable names.
fn find(name: &str) -> PathBuf {
    let variable = format!("VOLEFLEECE_{}", name.to_uppercase());
    let built = || project().join("target/bin").join(name);
    let path = env::var_os(&variable).map_or_else(built, PathBuf::from);
    assert!(
        path.is_file(),
        "{} is missing: build it with `./build`, or set {variable}",
        path.display()
    );
    path
}

/// A file of a sample house.
pub fn sample(house: &str, file: &str) -> Vec<u8> {
    let path = project().join("samples").join(house).join(file);
    fs::read(path).expect("a sample")
}

/// What simplifying makes of the workshop's sample: the sample house's tree with the addresses of records that stay.
pub fn simplified_workshop() -> Vec<u8> {
    let mut tree = sample("house", TREE);
    for (record, address) in [
        (0, 0x0800_0400_u32),
        (2, 0x0800_0448),
        (3, 0x0800_044c),
        (4, 0x0800_044c),
        (5, 0x0800_0470),
        (6, 0x0800_0474),
        (9, 0x0800_04b0),
        (10, 0x0800_04b4),
    ] {
        tree[24 * record + 16..][..4].copy_from_slice(&address.to_le_bytes());
    }
    tree
}

/// The repository's folder.
pub fn project() -> PathBuf {
    Path::new(env!("CARGO_MANIFEST_DIR")).join("..")
}

/// Copies a file that is to be executed. Another process writes it: if this one did, a process that another thread starts at that moment
/// would hold the file open for writing too, and the system executes no such file.
pub fn copy_program(from: &Path, to: &Path) {
    let copied = Command::new("cp").arg("--").args([from, to]).status();
    assert!(copied.expect("cp starts").success(), "{}", to.display());
}

/// Values as the bytes of their file.
pub fn values_file(values: &[u64]) -> Vec<u8> {
    values
        .iter()
        .flat_map(|value| value.to_le_bytes())
        .collect()
}
