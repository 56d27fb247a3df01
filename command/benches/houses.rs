//! The command and the desk program as processes: one house, and a thousand.

use std::fs;
use std::path::{Path, PathBuf};
use std::process::{Command, Stdio};

use volefleece_tests::programs::{project, values_file, TREE, VALUES};
use volefleece_tests::rng::Rng;
use volefleece_tests::timing::{medians, Call};
use volefleece_tests::trees::{self, Amounts};

const HOUSES: usize = 1_000;
const RECORDS: usize = 60;

/// Figures far below the ceiling.
const AMOUNTS: Amounts = Amounts {
    time: 10_000,
    bound: 20,
    limit: 50,
    symbols: 5,
};

fn main() {
    let folder = tempfile::tempdir().expect("a new folder");
    let houses = make_houses(folder.path());
    let command = Path::new(env!("CARGO_BIN_EXE_volefleece"));
    let desk = project().join("target/bin/desk");
    let desk = desk.canonicalize().expect("the desk program is built");

    let one = |words: &'static [&'static str]| {
        let house = &houses[0];
        Box::new(move || run(Command::new(command).args(words).arg(house))) as Call
    };
    let times = medians(
        300,
        vec![
            Box::new(|| run(&mut Command::new("true"))),
            Box::new(|| run(Command::new(&desk).current_dir(&houses[0]))),
            one(&["quote"]),
            one(&["contract"]),
        ],
    );
    println!("A house of {RECORDS} records, milliseconds a process, medians:\n");
    for (name, time) in ["true", "desk", "volefleece quote", "volefleece contract"]
        .iter()
        .zip(times)
    {
        println!("{name:>20} {:8.2}", time.as_secs_f64() * 1e3);
    }

    let each_desk = || {
        houses
            .iter()
            .for_each(|house| run(Command::new(&desk).current_dir(house)))
    };
    let quotes = || run(Command::new(command).arg("quotes").arg(folder.path()));
    let times = medians(10, vec![Box::new(each_desk), Box::new(quotes)]);
    println!("\n{HOUSES} such houses, milliseconds, medians:\n");
    for (name, time) in ["desk, one by one", "volefleece quotes"].iter().zip(times) {
        println!("{name:>20} {:8.1}", time.as_secs_f64() * 1e3);
    }
}

/// Houses with figures, each in a folder of its own.
fn make_houses(folder: &Path) -> Vec<PathBuf> {
    let mut rng = Rng::new(1);
    let mut houses = Vec::with_capacity(HOUSES);
    while houses.len() < HOUSES {
        let mut tree = trees::within_limits(&mut rng, RECORDS);
        AMOUNTS.set(&mut rng, &mut tree);
        let (table, values) = (tree.encode(), AMOUNTS.values(&mut rng));
        if volefleece::figure(&table, &values).is_ok() {
            let house = folder.join(format!("house-{:04}", houses.len()));
            fs::create_dir(&house).expect("a new folder");
            fs::write(house.join(TREE), table).expect("written");
            fs::write(house.join(VALUES), values_file(&values)).expect("written");
            houses.push(house);
        }
    }
    houses
}

fn run(command: &mut Command) {
    let ended = command
        .stdin(Stdio::null())
        .stdout(Stdio::null())
        .stderr(Stdio::null())
        .status();
    assert!(ended.is_ok_and(|status| status.success()), "{command:?}");
}
