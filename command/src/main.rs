//! The command `volefleece`.

use std::io;
use std::process::ExitCode;

use clap::Parser;
use volefleece_command::cli::Cli;
use volefleece_command::commands::{self, Answer};
use volefleece_command::failure::{note, Failure};
use volefleece_command::files;

fn main() -> ExitCode {
    let cli = match Cli::try_parse() {
        Ok(cli) => cli,
        Err(said) => return explain(&said),
    };
    let answer = match commands::run(&cli.command) {
        Ok(answer) => answer,
        Err(refused @ Failure::Refused { .. }) => Answer {
            text: format!("{refused}\n"),
            status: refused.status(),
        },
        Err(problem) => {
            problem
                .to_string()
                .lines()
                .for_each(|line| note(&format!("volefleece: {line}")));
            return problem.status().into();
        }
    };
    ending(files::write_out(answer.text.as_bytes()), answer.status)
}

/// Says how the command is used, or that it was used wrongly.
fn explain(said: &clap::Error) -> ExitCode {
    let text = said.render().to_string();
    if said.use_stderr() {
        note(text.trim_end());
        ExitCode::from(2)
    } else {
        ending(files::write_out(text.as_bytes()), 0)
    }
}

/// That exit status, if standard output was written.
fn ending(written: io::Result<()>, status: u8) -> ExitCode {
    match written {
        Ok(()) => status.into(),
        Err(error) => {
            note(&format!(
                "volefleece: standard output cannot be written: {error}"
            ));
            ExitCode::from(2)
        }
    }
}
