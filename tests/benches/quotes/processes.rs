//! The desk program and `lp_solve` as whole processes on the same quote. Either is left out where it
//! is not there.

use crate::program::integer_program;
use crate::quote::{quotes, Limits, Quote, LIMITS, SIZES};
use std::path::{Path, PathBuf};
use std::process::{Command, Stdio};
use std::time::{Duration, Instant};
use std::{env, fs, process};
use volefleece_tests::programs::{values_file, TREE, VALUES};
use volefleece_tests::timing::{medians, Call};

const DESK: &str = "VOLEFLEECE_DESK";
const LP_SOLVE: &str = "lp_solve";
const INTEGER_PROGRAM: &str = "quote.lp";

pub fn measure() {
    let solvers: Vec<Solver> = [desk(), lp_solve()].into_iter().flatten().collect();
    if solvers.is_empty() {
        return;
    }
    let folder = env::temp_dir().join(format!("volefleece-bench-{}", process::id()));
    fs::create_dir(&folder).expect("a new folder");
    println!("Milliseconds a process, medians, and what it answers:\n");
    for records in SIZES {
        for limits in LIMITS {
            let quote = &quotes(1, records, limits)[0];
            write_files(&folder, quote);
            print!("{records:7} {:10}", limits.name());
            measure_quote(&solvers, &folder, quote, limits);
        }
    }
    fs::remove_dir_all(&folder).expect("the folder is still there");
}

/// A program that quotes the files of its folder.
struct Solver {
    name: &'static str,
    path: PathBuf,
    arguments: &'static [&'static str],
    answer: fn(&str) -> Option<f64>,
    /// Whether it answers the figure where there are limits too.
    is_exact: bool,
}

fn desk() -> Option<Solver> {
    let path = PathBuf::from(env::var_os(DESK).unwrap_or_default());
    if !path.is_file() {
        println!("{DESK} names no program: the desk program is left out.");
        return None;
    }
    Some(Solver {
        name: "desk",
        path,
        arguments: &[],
        answer: |output| {
            output
                .strip_prefix("figure ")?
                .split_whitespace()
                .next()?
                .parse()
                .ok()
        },
        is_exact: true,
    })
}

fn lp_solve() -> Option<Solver> {
    let starts = Command::new(LP_SOLVE)
        .arg("-S0")
        .stdin(Stdio::null())
        .stdout(Stdio::null())
        .stderr(Stdio::null())
        .status();
    if starts.is_err() {
        println!("{LP_SOLVE} is not installed: it is left out.");
        return None;
    }
    Some(Solver {
        name: LP_SOLVE,
        path: PathBuf::from(LP_SOLVE),
        arguments: &["-S3", INTEGER_PROGRAM],
        answer: |output| {
            let (_, value) = output.split_once("Value of objective function:")?;
            value.split_whitespace().next()?.parse().ok()
        },
        is_exact: false,
    })
}

impl Solver {
    fn run(&self, folder: &Path) -> String {
        let output = Command::new(&self.path)
            .args(self.arguments)
            .current_dir(folder)
            .output()
            .expect("the program starts");
        String::from_utf8_lossy(&output.stdout).into_owned()
    }

    /// What it answers, shown. Without limits, or from an exact solver, it must be the figure.
    fn checked_answer(&self, folder: &Path, quote: &Quote, limits: Limits) -> String {
        let output = self.run(folder);
        let answer = (self.answer)(&output);
        let figure = quote.quoted.figure as f64;
        if self.is_exact || limits == Limits::None {
            // `lp_solve` reckons in floating point.
            let is_figure = answer.is_some_and(|answer| (answer - figure).abs() <= figure * 1e-9);
            assert!(is_figure, "{} wrote {output}, not {figure}", self.name);
        }
        // With limits there may be no run at all.
        answer.map_or("none".to_string(), |answer| answer.to_string())
    }
}

fn write_files(folder: &Path, quote: &Quote) {
    let program = integer_program(&quote.tree, &quote.values);
    let write = |name, bytes: &[u8]| fs::write(folder.join(name), bytes).expect("written");
    write(TREE, &quote.table);
    write(VALUES, &values_file(&quote.values));
    write(INTEGER_PROGRAM, program.as_bytes());
}

fn measure_quote(solvers: &[Solver], folder: &Path, quote: &Quote, limits: Limits) {
    let start = Instant::now();
    let answers: Vec<String> = solvers
        .iter()
        .map(|solver| solver.checked_answer(folder, quote, limits))
        .collect();
    // Fewer repetitions where an integer program takes long.
    let takes_long = start.elapsed() > Duration::from_millis(200);
    let times = medians(if takes_long { 5 } else { 51 }, runs(solvers, folder));
    for ((solver, answer), time) in solvers.iter().zip(answers).zip(&times) {
        let milliseconds = time.as_secs_f64() * 1e3;
        print!(" | {} {milliseconds:8.2}, {answer}", solver.name);
    }
    if let [desk, lp_solve] = times[..] {
        print!(
            " | ratio {:.3}",
            desk.as_secs_f64() / lp_solve.as_secs_f64()
        );
    }
    println!();
}

fn runs<'s>(solvers: &'s [Solver], folder: &'s Path) -> Vec<Call<'s>> {
    let run = |solver: &'s Solver| Box::new(|| drop(solver.run(folder))) as Call;
    solvers.iter().map(run).collect()
}
