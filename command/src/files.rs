//! Files, read whole and written whole or not at all.

use std::fs::{self, File};
use std::io::{self, Read, Write};
use std::mem;
use std::os::fd::{AsFd, AsRawFd};
use std::os::unix::fs::{fchown, MetadataExt};
use std::path::{Path, PathBuf};

use tempfile::TempDir;

use crate::failure::{note, Failure, Outcome};
use crate::text::Problems;

/// Longer than any text of a table, so that a file without an end is not read for ever.
const MOST_TEXT: usize = 1 << 20;

/// A file's bytes; of a longer one than this, one byte more than this, which tells.
pub fn read(path: &Path, most: usize) -> Outcome<Vec<u8>> {
    let mut bytes = Vec::new();
    let limit = most as u64 + 1;
    let read = File::open(path).and_then(|file| file.take(limit).read_to_end(&mut bytes));
    read.map_err(|error| Failure::file(path, &error))?;
    Ok(bytes)
}

/// The same, if there is such a file.
pub fn read_if_there(path: &Path, most: usize) -> Outcome<Option<Vec<u8>>> {
    match fs::symlink_metadata(path) {
        Err(error) if error.kind() == io::ErrorKind::NotFound => Ok(None),
        _ => read(path, most).map(Some),
    }
}

/// A text file.
pub fn read_text(path: &Path) -> Outcome<String> {
    text(path, read(path, MOST_TEXT)?)
}

/// The same, if there is such a file.
pub fn read_text_if_there(path: &Path) -> Outcome<Option<String>> {
    let bytes = read_if_there(path, MOST_TEXT)?;
    bytes.map(|bytes| text(path, bytes)).transpose()
}

fn text(path: &Path, bytes: Vec<u8>) -> Outcome<String> {
    if bytes.len() > MOST_TEXT {
        let message = format!(
            "{}: longer than {MOST_TEXT} bytes, so no text of a table",
            path.display()
        );
        return Err(Failure::Problem(message));
    }
    if bytes.contains(&0) {
        let message = "expected a text, and this has bytes of 0, as a table has";
        return Err(Failure::Problem(format!("{}: {message}", path.display())));
    }
    // What is no UTF-8 is told where it stands, with the other wrong lines.
    let text = String::from_utf8_lossy(&bytes);
    // Some editors begin a text with this mark.
    Ok(text.strip_prefix('\u{feff}').unwrap_or(&text).into())
}

/// All that is wrong with a text, each line with its file and place.
pub fn wrong_text(path: &Path, problems: &Problems) -> Failure {
    let lines: Vec<String> = problems
        .iter()
        .map(|problem| format!("{}:{problem}", path.display()))
        .collect();
    Failure::Problem(lines.join("\n"))
}

/// Whether a path is one of a text, by its name.
pub fn is_text(path: &Path) -> bool {
    path.extension().is_some_and(|extension| extension == "txt")
}

/// Refuses a path of a text for bytes, which would be read as one.
pub fn expect_bytes_at(path: &Path) -> Outcome {
    if !is_text(path) {
        return Ok(());
    }
    let message = "a name that ends in .txt is a text's, and this is to hold bytes";
    Err(Failure::Problem(format!("{}: {message}", path.display())))
}

/// Refuses to write a picture in place of what it is drawn from, or of any tree or values by their names.
pub fn expect_picture_at<'p>(path: &Path, mut from: impl Iterator<Item = &'p PathBuf>) -> Outcome {
    let is_table = path.extension().is_some_and(|extension| extension == "tab");
    let is_read = from.any(|from| is_same(path, from));
    if !is_text(path) && !is_table && !is_read {
        return Ok(());
    }
    let message = "a picture would take a tree's place or that of its values; call it .svg";
    Err(Failure::Problem(format!("{}: {message}", path.display())))
}

/// Writes to standard output, unlike the standard library's also where that cannot be written at all.
pub fn write_out(bytes: &[u8]) -> io::Result<()> {
    let output = io::stdout().as_fd().try_clone_to_owned()?;
    File::from(output).write_all(bytes)
}

/// Puts bytes in a file's place: it has these or, where that fails or is ended before, what it had. What is no plain file, as a pipe, and
/// what others write to as well, as standard output, is written directly. Answers what is left to say on standard output.
pub fn replace(path: &Path, bytes: &[u8], said: String) -> Outcome<String> {
    let new = New::prepare(path, bytes)?;
    new.put()?;
    Ok(left_to_say(&[new], said))
}

/// The same with a plain file that was read, if it still has what was read. Of several commands that do this at once one alone replaces the
/// file. What another program writes there between the comparison and the renaming, which comes next, is lost.
pub fn replace_read(path: &Path, read: &[u8], bytes: &[u8], said: String) -> Outcome<String> {
    let is_other = fs::metadata(path).is_ok_and(|found| !found.is_file());
    if is_other || is_standard_output(path) {
        let message = "stays as it is: it is no plain file, or standard output goes there";
        return Err(Failure::Problem(format!("{}: {message}", path.display())));
    }
    let new = New::prepare(path, bytes)?;
    let _held = hold(path, read)?;
    new.put()?;
    Ok(left_to_say(&[new], said))
}

/// Has the others that would replace a file fail as long as the answer lives, if it still has what was read.
fn hold(path: &Path, read: &[u8]) -> Outcome<File> {
    let file = File::open(path).map_err(|error| unwritten(path, &error))?;
    // SAFETY: the file is open, and no memory is handed over.
    let held = unsafe { libc::flock(file.as_raw_fd(), libc::LOCK_EX | libc::LOCK_NB) };
    // Some file systems hold nothing, and there the comparison has to do.
    let is_anothers = held != 0 && io::Error::last_os_error().kind() == io::ErrorKind::WouldBlock;
    let is_as_read = || -> io::Result<bool> {
        let mut has = Vec::new();
        (&file).take(read.len() as u64 + 1).read_to_end(&mut has)?;
        // Who held this one before may have put another in its place.
        let is_in_place = file_of(&file.metadata()?) == file_of(&fs::metadata(path)?);
        Ok(has == read && is_in_place)
    };
    let why = match is_as_read() {
        _ if is_anothers => "another program holds it",
        Ok(true) => return Ok(file),
        _ => "it has changed since it was read",
    };
    Err(Failure::Problem(format!(
        "{}: stays as it is: {why}",
        path.display()
    )))
}

/// The same with two files, of which neither changes where either cannot be written. They are replaced one after the other: what is ended in
/// between leaves the first as it is to be and the second as it was. What is written directly cannot be taken back.
pub fn replace_both([first, second]: [(&Path, &[u8]); 2], said: String) -> Outcome<String> {
    let (first, second) = (
        New::prepare(first.0, first.1)?,
        New::prepare(second.0, second.1)?,
    );
    if first.has_the_place_of(&second) {
        return Err(Failure::Problem(format!(
            "{} and {} are one file, and two are to be written",
            first.path.display(),
            second.path.display()
        )));
    }
    first.keep_old()?;
    first.put()?;
    if let Err(failure) = second.put() {
        return Err(first.take_back(failure));
    }
    Ok(left_to_say(&[first, second], said))
}

/// What is said, unless a file went to standard output, where nobody looks for it then: standard error says it instead.
fn left_to_say(written: &[New], said: String) -> String {
    if written.iter().any(|new| matches!(new.way, Way::Output)) {
        note(&said);
        return String::new();
    }
    said + "\n"
}

/// Bytes that are ready to be put in a place.
struct New<'n> {
    path: &'n Path,
    bytes: &'n [u8],
    way: Way,
}

/// How bytes come to a path.
enum Way {
    /// As this process's standard output.
    Output,
    /// Directly, since this is no plain file.
    Direct(File),
    /// They are in a file already, in a folder beside the place, which is renamed to that.
    Made { making: TempDir, place: PathBuf },
}

impl<'n> New<'n> {
    /// Does all that can be done without a change at the path.
    fn prepare(path: &'n Path, bytes: &'n [u8]) -> Outcome<Self> {
        let way = Way::find(path, bytes).map_err(|error| unwritten(path, &error))?;
        Ok(New { path, bytes, way })
    }

    fn put(&self) -> Outcome {
        let put = match &self.way {
            Way::Output => write_out(self.bytes),
            Way::Direct(file) => (&*file).write_all(self.bytes),
            Way::Made { making, place } => rename(&making.path().join(NEW), place),
        };
        put.map_err(|error| unwritten(self.path, &error))
    }

    /// Whether the other's bytes go to the same file, which may not be there yet.
    fn has_the_place_of(&self, other: &New) -> bool {
        let is_made_there = match (&self.way, &other.way) {
            (Way::Made { place, .. }, Way::Made { place: other, .. }) => {
                let place = without_links(place);
                place.is_some() && place == without_links(other)
            }
            _ => false,
        };
        is_made_there || is_same(self.path, other.path)
    }

    /// Keeps what stands at the place, so that it can come back. Some file systems have no second name for a file.
    fn keep_old(&self) -> Outcome {
        let Way::Made { making, place } = &self.way else {
            return Ok(());
        };
        let old = making.path().join(OLD);
        let kept = match fs::hard_link(place, &old) {
            Err(error) if error.kind() == io::ErrorKind::NotFound => Ok(()),
            Err(_) => fs::copy(place, &old).map(drop),
            Ok(()) => Ok(()),
        };
        kept.map_err(|error| unwritten(self.path, &error))
    }

    /// Has what stood at the place come back after another file's failure, which is answered.
    fn take_back(self, failure: Failure) -> Failure {
        let Way::Made { making, place } = self.way else {
            return failure;
        };
        let old = making.path().join(OLD);
        let was_there = old.exists();
        let back = if was_there {
            rename(&old, &place)
        } else {
            fs::remove_file(&place)
        };
        let Err(error) = back else {
            return failure;
        };
        let path = self.path.display();
        let mut told =
            format!("{failure}\n{path}: is written already, and cannot be taken back: {error}");
        if was_there {
            told += &format!("; what it was is {}", old.display());
            // So that the folder stays, with the old file in it.
            mem::forget(making);
        }
        Failure::Problem(told)
    }
}

fn unwritten(path: &Path, error: &io::Error) -> Failure {
    Failure::Problem(format!("{}: cannot be written: {error}", path.display()))
}

/// Whether a path leads to where this process's standard output goes, as /dev/stdout does.
fn is_standard_output(path: &Path) -> bool {
    is_same(path, Path::new("/dev/stdout"))
}

/// Whether both paths lead to one file.
pub fn is_same(path: &Path, other: &Path) -> bool {
    let file = |path: &Path| fs::metadata(path).map(|found| file_of(&found));
    match (file(path), file(other)) {
        (Ok(file), Ok(other)) => file == other,
        _ => false,
    }
}

/// What tells one file from another, whatever they are called.
fn file_of(found: &fs::Metadata) -> (u64, u64) {
    (found.dev(), found.ino())
}

/// Refuses what is there and no folder.
pub fn expect_folder(path: &Path, what: &str) -> Outcome {
    if !path.exists() || path.is_dir() {
        return Ok(());
    }
    Err(Failure::Problem(format!(
        "{}: expected {what}",
        path.display()
    )))
}

impl Way {
    /// The way to a path, on which the bytes are made into a file where they are to be one.
    fn find(path: &Path, bytes: &[u8]) -> io::Result<Self> {
        if is_standard_output(path) {
            return Ok(Way::Output);
        }
        let old = match fs::metadata(path) {
            Err(error) if error.kind() != io::ErrorKind::NotFound => return Err(error),
            old => old.ok(),
        };
        match old {
            // A folder is refused here.
            Some(old) if !old.is_file() => {
                let file = File::options().write(true).open(path)?;
                Ok(Way::Direct(file))
            }
            old => {
                let place = behind_links(path);
                let making = make(&place, bytes, old.as_ref())?;
                Ok(Way::Made { making, place })
            }
        }
    }
}

/// A link stays: its file is replaced, or made where there is none yet.
fn behind_links(path: &Path) -> PathBuf {
    let mut place = path.to_path_buf();
    while let Ok(to) = fs::read_link(&place) {
        place = folder_of(&place).join(to);
    }
    place
}

/// The folder that a file is in.
pub fn folder_of(path: &Path) -> &Path {
    match path.parent() {
        Some(folder) if folder != Path::new("") => folder,
        _ => Path::new("."),
    }
}

/// How the name of a folder begins in which a file is made. A kill may leave one.
const MAKING: &str = ".volefleece-";

/// Whether this is such a folder.
pub fn is_making(entry: &fs::DirEntry) -> bool {
    entry.file_name().to_string_lossy().starts_with(MAKING)
}

/// The new file in such a folder, and the old one where it is kept.
const NEW: &str = "new";
const OLD: &str = "old";

/// The new file is made in a folder beside the old one, so that it has the permissions of any new file there, or the old one's.
fn make(place: &Path, bytes: &[u8], old: Option<&fs::Metadata>) -> io::Result<TempDir> {
    let making = tempfile::Builder::new()
        .prefix(MAKING)
        .tempdir_in(folder_of(place))?;
    let mut file = File::create_new(making.path().join(NEW))?;
    if let Some(old) = old {
        // Another's file stays theirs, where root replaces it; others may give it to its group alone.
        let _ = fchown(&file, Some(old.uid()), Some(old.gid()))
            .or_else(|_| fchown(&file, None, Some(old.gid())));
        file.set_permissions(old.permissions())?;
    }
    file.write_all(bytes)?;
    file.sync_all()?;
    Ok(making)
}

/// Gives a file its place.
fn rename(file: &Path, place: &Path) -> io::Result<()> {
    fs::rename(file, place)?;
    // Some file systems cannot do this for a folder, and the file is replaced already.
    let _ = File::open(folder_of(place)).and_then(|folder| folder.sync_all());
    Ok(())
}

/// A place by the one path to it that has no links.
fn without_links(place: &Path) -> Option<PathBuf> {
    let folder = folder_of(place).canonicalize().ok()?;
    Some(folder.join(place.file_name()?))
}
