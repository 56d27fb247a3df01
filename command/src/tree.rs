//! A tree from a file, as a table or as text, and to one.

use std::path::{Path, PathBuf};

use volefleece::{Refusal, MOST_TABLE, MOST_TIME, RECORD_BYTES};

use crate::failure::{Failure, Outcome};
use crate::files;
use crate::hint;
use crate::names::Names;
use crate::table::{self, Node};
use crate::text;
use crate::words::address_words;

pub const NAMES: &str = "names.txt";
pub const TABLE: &str = "tree.tab";
pub const TEXT: &str = "tree.txt";

/// A table, which the library may refuse, with its names.
#[derive(Clone, Debug, Default)]
pub struct Tree {
    pub table: Vec<u8>,
    pub names: Names,
    source: Source,
}

/// Where a tree comes from.
#[derive(Clone, Debug, Default)]
enum Source {
    /// A call's answer.
    #[default]
    Answer,
    Table(PathBuf),
    /// A text, and there the line of each record.
    Text(PathBuf, Vec<usize>),
    /// A folder that has no tree.
    Missing(PathBuf),
}

impl Tree {
    /// The tree of a file, or of the file in a folder. Its names come from names.txt beside it, or from the file that is named instead, and
    /// from the text itself.
    pub fn read(path: &Path, names: Option<&Path>) -> Outcome<Self> {
        if path.is_dir() {
            let names = read_names(names, path)?;
            return Self::read_from(path, names);
        }
        let names = read_names(names, files::folder_of(path))?;
        if files::is_text(path) {
            Self::from_text(path, &files::read_text(path)?, names)
        } else {
            Ok(Self::from_file(path, files::read(path, MOST_TABLE)?, names))
        }
    }

    /// The tree of a text, whatever its file is called.
    pub fn read_text(path: &Path, names: Option<&Path>) -> Outcome<Self> {
        let names = read_names(names, files::folder_of(path))?;
        Self::from_text(path, &files::read_text(path)?, names)
    }

    /// The tree of a folder: its tree.tab or tree.txt, or of both, where they say the same. Without either it is empty, as for the desk.
    pub fn read_from(folder: &Path, names: Names) -> Outcome<Self> {
        let (path, text) = (folder.join(TABLE), folder.join(TEXT));
        let table = files::read_if_there(&path, MOST_TABLE)?;
        let from_text = files::read_text_if_there(&text)?;
        let from_text = from_text
            .map(|read| Self::from_text(&text, &read, names.clone()))
            .transpose()?;
        match (table, from_text) {
            (Some(table), Some(tree)) if table != tree.table => Err(Failure::Problem(format!(
                "{}: {TABLE} and {TEXT} hold different trees: remove one, or make {TABLE} from {TEXT} by `volefleece make`",
                folder.display()
            ))),
            (_, Some(tree)) => Ok(tree),
            (Some(table), None) => Ok(Self::from_file(&path, table, names)),
            (None, None) => Ok(Tree {
                names,
                source: Source::Missing(folder.to_path_buf()),
                ..Tree::default()
            }),
        }
    }

    /// A call's answer, with the names that it is to have.
    pub fn from_answer(table: Vec<u8>, names: Names) -> Self {
        Tree {
            table,
            names,
            source: Source::Answer,
        }
    }

    /// What a file has, or is to have.
    pub fn from_file(path: &Path, table: Vec<u8>, names: Names) -> Self {
        Tree {
            table,
            names,
            source: Source::Table(path.to_path_buf()),
        }
    }

    fn from_text(path: &Path, text: &str, mut names: Names) -> Outcome<Self> {
        let parsed = text::tree::parse(text, &mut names);
        let parsed = parsed.map_err(|problems| files::wrong_text(path, &problems))?;
        Ok(Tree {
            table: parsed.table,
            names,
            source: Source::Text(path.to_path_buf(), parsed.lines),
        })
    }

    /// The nodes, where the library accepts the table.
    pub fn check(&self) -> Outcome<Vec<Node>> {
        match volefleece::check(&self.table) {
            Ok(_) => Ok(table::nodes(&self.table)),
            Err(refusal) => Err(self.refused(refusal)),
        }
    }

    /// A refusal of this table, with what a reader may look at first.
    pub fn refused(&self, refusal: Refusal) -> Failure {
        Failure::Refused {
            refusal,
            hint: self.hint(refusal),
        }
    }

    fn hint(&self, refusal: Refusal) -> Option<String> {
        if let Some(former) = self.former() {
            return Some(former);
        }
        match refusal {
            Refusal::Length => return Some(self.wrong_length()),
            // Of simplifying, which asks it so. A house has more to say.
            Refusal::Ceiling => return Some(self.too_large("every value 0")),
            _ => {}
        }
        let hint = hint::find(&self.table, refusal)?;
        Some(format!("{}: {}", self.place(hint.record), hint.what))
    }

    /// The file that holds the table, unless that is made of a text.
    pub fn table_file(&self) -> Option<&Path> {
        match &self.source {
            Source::Table(path) => Some(path),
            _ => None,
        }
    }

    /// Where a record stands: the file, and there its line, or its number, byte and address.
    pub fn place(&self, record: usize) -> String {
        let words = self.record_words(record);
        match &self.source {
            Source::Text(path, lines) => format!("{}:{}", path.display(), lines[record]),
            Source::Table(path) => format!("{}: {words}", path.display()),
            Source::Answer | Source::Missing(_) => words,
        }
    }

    /// A record by its number, its first byte and its address.
    fn record_words(&self, record: usize) -> String {
        let byte = record * RECORD_BYTES;
        let address = table::records(&self.table)[record].address;
        let address = address_words(address).map_or(String::new(), |words| format!(", {words}"));
        format!("record {record} (byte {byte}{address})")
    }

    /// That the file holds a former table, where it was accepted as one: no table of today's is taken for one.
    fn former(&self) -> Option<String> {
        let Source::Table(path) = &self.source else {
            return None;
        };
        let converted = volefleece::convert(&self.table).ok()?;
        was_accepted(&converted).then(|| format!(
            "{} is a former table, with 16 bytes a record: `volefleece convert` makes a table of it",
            path.display()
        ))
    }

    /// That the tree is too large with such values, if it uses any.
    pub fn too_large(&self, values: &str) -> String {
        let with = if table::symbols(&table::nodes(&self.table)).is_empty() {
            String::new()
        } else {
            format!("with {values} ")
        };
        format!("{with}a part of the tree takes more than {MOST_TIME} cycles")
    }

    fn wrong_length(&self) -> String {
        let most = MOST_TABLE / RECORD_BYTES;
        let length = length_words(&self.table);
        match &self.source {
            Source::Answer => format!("the table has {length}"),
            Source::Table(path) => format!("{} has {length}", path.display()),
            Source::Missing(path) => format!("{} has no {TABLE} and no {TEXT}", path.display()),
            Source::Text(path, lines) => format!(
                "{}:{}: the text has {} nodes, and a table has at most {most}",
                path.display(),
                lines[most],
                lines.len()
            ),
        }
    }

    /// Writes the tree to a file, as text where its name says so. Answers what is left to say on standard output.
    pub fn write(&self, path: &Path, said: String) -> Outcome<String> {
        files::replace(path, &self.contents(path), said)
    }

    /// What a file of that name is to have: the text where the name says so, else the table.
    pub fn contents(&self, path: &Path) -> Vec<u8> {
        if files::is_text(path) {
            text::tree::print(&self.table, &self.names).into_bytes()
        } else {
            self.table.clone()
        }
    }
}

/// Whether a converted table was accepted as the former one that it is made of: a paired symbol weighed nothing then.
pub fn was_accepted(converted: &[u8]) -> bool {
    volefleece::check(&table::unpaired(converted)).is_ok()
}

/// How long a file's table is, of which no more was read than tells.
pub fn length_words(table: &[u8]) -> String {
    match table.len() {
        length if length > MOST_TABLE => format!("more than {MOST_TABLE} bytes"),
        length => format!("{length} bytes"),
    }
}

/// The names in a file that is named, or in a folder's names.txt where there is one.
pub fn read_names(named: Option<&Path>, folder: &Path) -> Outcome<Names> {
    let beside = folder.join(NAMES);
    let (path, text) = match named {
        Some(path) => (path, Some(files::read_text(path)?)),
        None => (beside.as_path(), files::read_text_if_there(&beside)?),
    };
    let mut names = Names::default();
    let read = text.map_or(Ok(()), |text| text::names::parse(&text, &mut names));
    read.map_err(|problems| files::wrong_text(path, &problems))?;
    Ok(names)
}
