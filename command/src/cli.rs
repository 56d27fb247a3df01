//! The command line.

use std::path::PathBuf;

use clap::{ArgGroup, Args, Parser, Subcommand};
use clap_complete::Shell;
use volefleece::{MOST_TABLE, MOST_TIME, RECORD_BYTES};

use crate::failure::Outcome;
use crate::house::{House, Setting};
use crate::text;

/// Quotes the most processor cycles a battery door lock can stay awake for one opening.
#[derive(Debug, Parser)]
#[command(name = "volefleece", version, arg_required_else_help = true, after_help = STATUS)]
pub struct Cli {
    #[command(subcommand)]
    pub command: Command,
}

const STATUS: &str = "\
Exit status: 0 answered, 1 refused or not found, 2 used wrongly or a file that cannot be read or written.

A path that ends in .txt is a text, any other a table; a folder stands for the tree in it.
Names come from names.txt beside a tree and from a text's header.";

#[derive(Debug, Subcommand)]
pub enum Command {
    /// Quote a house: the figure, the branch that sets it and the counts, by name
    #[command(
        after_help = "Example:\n  volefleece quote samples/house --set cards=40 --set retries=3"
    )]
    Quote(Quote),
    /// Quote every house below a folder, a line each
    #[command(after_help = "Example:\n  volefleece quotes samples")]
    Quotes {
        /// A folder with houses below it
        folder: PathBuf,
    },
    /// Print the page that the renting house reads
    #[command(after_help = "Example:\n  volefleece contract samples/house --set cards=40")]
    Contract(Counted),
    /// Print the members of a house's list: a value and how often it comes
    #[command(after_help = "Example:\n  volefleece list samples/house")]
    List(Counted),
    /// Say whether a tree is accepted, or the question that says no and where
    #[command(after_help = "Example:\n  volefleece check samples/house/tree.tab")]
    Check(Source),
    /// Print a tree as text
    #[command(after_help = "Example:\n  volefleece show samples/house/tree.tab >tree.txt")]
    Show(Source),
    /// Make a table from a tree's text
    #[command(after_help = "Example:\n  volefleece make samples/supplier/tree.txt -o tree.tab")]
    Make(Made),
    /// Print values as text, or make them from text
    #[command(
        subcommand,
        after_help = "Example:\n  volefleece values show samples/house/values.tab >values.txt"
    )]
    Values(Values),
    /// Find the records with an address, and the way down to each from the root
    #[command(after_help = "Example:\n  volefleece find samples/workshop 0x8000474")]
    Find(Find),
    /// Make a table from a former one, whose records had 16 bytes and no addresses
    #[command(after_help = "Example:\n  volefleece convert old.tab -o tree.tab")]
    Convert(Convert),
    /// Draw a tree as a picture
    #[command(
        after_help = "Example:\n  volefleece draw samples/house -o house.svg --set cards=40"
    )]
    Draw(Draw),
    /// Simplify a tree
    #[command(
        after_help = "Example:\n  volefleece simplify samples/workshop/tree.tab -o simple.tab --steps 5"
    )]
    Simplify(Simplify),
    /// Put a supplier's tree in place of a symbol
    #[command(
        after_help = "Example:\n  volefleece graft samples/house samples/supplier --symbol radio -o grafted.tab"
    )]
    Graft(Graft),
    /// Put a number in place of a symbol, and write marks of where it stood
    #[command(
        after_help = "Example:\n  volefleece fill samples/house --set cards=40 -o chain.tab --marks chain.marks"
    )]
    Fill(Fill),
    /// Put a symbol back where marks say that it stood
    #[command(
        after_help = "Example:\n  volefleece open samples/chain --marks samples/chain/cards.marks --set cards=40 -o tree.tab"
    )]
    Open(Open),
    /// Show what a new time of one block makes of the quote, and write it if told to
    #[command(
        after_help = "Example:\n  volefleece retime samples/workshop --address 0x800044c --from 340 --to 400"
    )]
    Retime(Retime),
    /// Print a shell's completions
    #[command(hide = true)]
    Completions { shell: Shell },
}

#[derive(Debug, Args)]
pub struct Counted {
    /// A folder with tree.tab or tree.txt, values.tab or values.txt, and names.txt
    pub house: PathBuf,
    #[command(flatten)]
    pub settings: Settings,
}

#[derive(Debug, Args)]
pub struct Settings {
    /// Set a count or a time, by its name or its symbol's number; may be given again. Symbols 24 to 31 have two numbers, first and later, as
    /// radio=90000,40000; one means both
    #[arg(long = "set", value_name = "NAME=NUMBER[,LATER]")]
    pub set: Vec<Setting>,
}

impl Settings {
    /// Sets them, and answers the symbols.
    pub fn apply(&self, house: &mut House) -> Outcome<Vec<usize>> {
        self.set.iter().map(|setting| house.set(setting)).collect()
    }
}

#[derive(Debug, Args)]
pub struct Quote {
    #[command(flatten)]
    pub counted: Counted,
    /// Print the desk program's line and nothing else
    #[arg(long, conflicts_with = "json")]
    pub line: bool,
    /// Print the same facts as JSON
    #[arg(long)]
    pub json: bool,
}

#[derive(Debug, Args)]
pub struct Source {
    /// A tree: a table, a text, or a folder that has one
    pub tree: PathBuf,
    /// Take the names from this file, not from names.txt beside the tree
    #[arg(long, value_name = "FILE")]
    pub names: Option<PathBuf>,
}

#[derive(Debug, Args)]
pub struct Made {
    /// A text
    pub text: PathBuf,
    /// The file to write, replaced whole or not at all
    #[arg(short, long, value_name = "FILE")]
    pub output: PathBuf,
    /// Take the names from this file too, not from names.txt beside the text
    #[arg(long, value_name = "FILE")]
    pub names: Option<PathBuf>,
}

#[derive(Debug, Subcommand)]
pub enum Values {
    /// Print a file of values as text
    #[command(
        after_help = "Example:\n  volefleece values show samples/house/values.tab >values.txt"
    )]
    Show {
        /// A file of values, or a text
        values: PathBuf,
        /// Take the names from this file, not from names.txt beside the values
        #[arg(long, value_name = "FILE")]
        names: Option<PathBuf>,
    },
    /// Make a file of values from text
    #[command(after_help = "Example:\n  volefleece values make values.txt -o values.tab")]
    Make(Made),
}

#[derive(Debug, Args)]
pub struct Find {
    #[command(flatten)]
    pub source: Source,
    /// An address, as 0x4a0
    #[arg(value_parser = address)]
    pub address: u32,
}

fn address(text: &str) -> Result<u32, String> {
    text::address(text).ok_or_else(|| format!("expected {}", text::ADDRESS))
}

#[derive(Debug, Args)]
pub struct Convert {
    /// A former table
    pub old: PathBuf,
    /// The file to write, replaced whole or not at all
    #[arg(short, long, value_name = "TREE")]
    pub output: PathBuf,
}

#[derive(Debug, Args)]
pub struct Draw {
    #[command(flatten)]
    pub source: Source,
    /// The picture to write, replaced whole or not at all
    #[arg(short, long, value_name = "FILE.svg")]
    pub output: PathBuf,
    /// Take the counts from this file of values or text; those of a folder are its own otherwise
    #[arg(long, value_name = "FILE")]
    pub values: Option<PathBuf>,
    #[command(flatten)]
    pub settings: Settings,
}

#[derive(Debug, Args)]
pub struct Simplify {
    #[command(flatten)]
    pub source: Source,
    /// The file to write, replaced whole or not at all
    #[arg(short, long, value_name = "OUT")]
    pub output: PathBuf,
    /// Take at most so many steps; without this there is no end to them
    #[arg(long, value_name = "N", default_value_t = u64::MAX, hide_default_value = true)]
    pub steps: u64,
}

#[derive(Debug, Args)]
pub struct Graft {
    /// The tree with the symbol
    pub host: PathBuf,
    /// The tree that takes its place
    pub sent: PathBuf,
    /// The time symbol to replace, by its name or its number
    #[arg(long, value_name = "NAME")]
    pub symbol: String,
    /// The file to write, replaced whole or not at all
    #[arg(short, long, value_name = "OUT")]
    pub output: PathBuf,
    /// Take the host's names from this file, not from names.txt beside it
    #[arg(long, value_name = "FILE")]
    pub names: Option<PathBuf>,
}

#[derive(Debug, Args)]
pub struct Fill {
    #[command(flatten)]
    pub source: Source,
    /// The symbol, by its name or its number, and the number to put in its place
    #[arg(long = "set", value_name = "NAME=NUMBER")]
    pub setting: Setting,
    /// The file to write, replaced whole or not at all
    #[arg(short, long, value_name = "OUT")]
    pub output: PathBuf,
    /// The marks to write, by which `volefleece open` puts the symbol back. Where OUT or this cannot be written, neither changes
    #[arg(long, value_name = "FILE")]
    pub marks: PathBuf,
}

#[derive(Debug, Args)]
pub struct Open {
    #[command(flatten)]
    pub source: Source,
    /// The marks that `volefleece fill` wrote
    #[arg(long, value_name = "FILE")]
    pub marks: PathBuf,
    /// The symbol to put back, by its name or its number, and the number that stands in its place
    #[arg(long = "set", value_name = "NAME=NUMBER")]
    pub setting: Setting,
    /// The file to write, replaced whole or not at all
    #[arg(short, long, value_name = "OUT")]
    pub output: PathBuf,
}

#[derive(Debug, Args)]
#[command(group(ArgGroup::new("block").required(true).args(["record", "address"])))]
pub struct Retime {
    #[command(flatten)]
    pub counted: Counted,
    /// The block, by its record's number, counted from 0
    #[arg(long, value_name = "N", value_parser = record)]
    pub record: Option<u64>,
    /// The block, by its address, as 0x4a0, where one block alone has that
    #[arg(long, value_parser = address)]
    pub address: Option<u32>,
    /// The cycles that it takes
    #[arg(long, value_name = "CYCLES", value_parser = time)]
    pub from: u64,
    /// The cycles that it is to take
    #[arg(long, value_name = "CYCLES", value_parser = time)]
    pub to: u64,
    /// Write the new time to the house's tree.tab, replaced whole or not at all; without this nothing is written
    #[arg(long)]
    pub commit: bool,
}

fn record(text: &str) -> Result<u64, String> {
    number(text, (MOST_TABLE / RECORD_BYTES - 1) as u64)
}

fn time(text: &str) -> Result<u64, String> {
    number(text, MOST_TIME)
}

/// A number, which may be above the most: that is the library's to say.
fn number(text: &str, most: u64) -> Result<u64, String> {
    text::digits(text, u64::MAX).ok_or_else(|| format!("expected a number from 0 to {most}"))
}
