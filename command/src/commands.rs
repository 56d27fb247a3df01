//! The subcommands. Each answers the text for standard output, or fails.

mod contract;
mod convert;
mod draw;
mod fill;
mod find;
mod forms;
mod list;
mod quote;
mod quotes;
mod retime;
mod rewrite;

use clap::CommandFactory;

use crate::cli::{Cli, Command, Values};
use crate::failure::Outcome;

/// What a subcommand has to say on standard output, and whether that is a refusal or worse.
#[derive(Debug)]
pub struct Answer {
    pub text: String,
    pub status: u8,
}

impl From<String> for Answer {
    fn from(text: String) -> Self {
        Answer { text, status: 0 }
    }
}

pub fn run(command: &Command) -> Outcome<Answer> {
    match command {
        Command::Quote(quote) => quote::run(quote),
        Command::Quotes { folder } => quotes::run(folder),
        Command::Contract(counted) => contract::run(counted).map(Answer::from),
        Command::List(counted) => list::run(counted).map(Answer::from),
        Command::Check(source) => forms::check(source).map(Answer::from),
        Command::Show(source) => forms::show(source),
        Command::Make(made) => forms::make(made).map(Answer::from),
        Command::Values(Values::Show { values, names }) => {
            forms::show_values(values, names.as_deref())
        }
        Command::Values(Values::Make(made)) => forms::make_values(made).map(Answer::from),
        Command::Find(arguments) => find::run(arguments),
        Command::Convert(arguments) => convert::run(arguments),
        Command::Draw(arguments) => draw::run(arguments).map(Answer::from),
        Command::Simplify(arguments) => rewrite::simplify(arguments).map(Answer::from),
        Command::Graft(arguments) => rewrite::graft(arguments).map(Answer::from),
        Command::Fill(arguments) => fill::fill(arguments).map(Answer::from),
        Command::Open(arguments) => fill::open(arguments).map(Answer::from),
        Command::Retime(arguments) => retime::run(arguments),
        Command::Completions { shell } => Ok(completions(*shell).into()),
    }
}

fn completions(shell: clap_complete::Shell) -> String {
    let mut script = Vec::new();
    clap_complete::generate(shell, &mut Cli::command(), "volefleece", &mut script);
    String::from_utf8(script).expect("completions are text")
}
