//! The calls of this build against those of another one, on the same tables in one run: what a change
//! made faster or slower. Both need the same C interface and the same form of tables; of values each is
//! lent as many as it wants.
//!
//! Each is loaded at four places, and the means of the best times there are compared.

use crate::graft;
use crate::places::{Loaded, PLACES};
use crate::quote::{quotes, Limits, Quote, LIMITS, SIZES};
use crate::shared;
use crate::simplify;
use std::env;
use std::hint::black_box;
use std::rc::Rc;
use std::time::{Duration, Instant};
use volefleece::raw::{Checked, Figure, Grafted, Listed, Simplified};
use volefleece_tests::format::{FORMER_VALUES, LIST_ROOM, MOST_RECORDS, RECORD_BYTES, VALUES};
use volefleece_tests::trees::Tree;

const TABLES: usize = 16;
const REPETITIONS: usize = 201;
/// Simplifying takes much longer.
const SIMPLIFYING_REPETITIONS: usize = 101;

const LONGEST: usize = MOST_RECORDS * RECORD_BYTES;

const THIS_BUILD: &str = concat!(
    env!("CARGO_MANIFEST_DIR"),
    "/../target/staticlib/libvolefleece.a"
);

/// The archive of another build, where there is one to compare this one with.
pub fn other_build() -> Option<String> {
    env::var("VOLEFLEECE_BEFORE").ok()
}

pub fn measure(before: &str) {
    println!("Microseconds a call, before and now, and now's time by before's: means over four places in");
    println!("memory of the best of {REPETITIONS} repetitions ({SIMPLIFYING_REPETITIONS} for simplifying) over {TABLES} tables.");
    println!("\nrecords tables     call     |   before      now ratio");
    let builds = PLACES.map(|place| {
        [
            Build::load("before", before, place),
            Build::load("now", THIS_BUILD, place),
        ]
    });
    let mut ratios: Vec<(&str, f64)> = Vec::new();
    for mut work in SIZES.into_iter().flat_map(works).chain(shared_works()) {
        print!("{:7} {:10} {:8} | ", work.records, work.tables, work.call);
        match work.times(&builds) {
            Some([before, now]) => {
                println!("{before:8.2} {now:8.2} {:5.2}", now / before);
                ratios.push((work.call, now / before));
            }
            None => println!("the answers differ"),
        }
    }
    println!();
    for call in ["check", "figure", "list", "simplify", "graft"] {
        let of_call = ratios.iter().filter(|(name, _)| *name == call);
        print_range(call, of_call.map(|&(_, ratio)| ratio).collect());
    }
}

fn print_range(call: &str, ratios: Vec<f64>) {
    let mean = ratios.iter().sum::<f64>() / ratios.len() as f64;
    let least = ratios.iter().copied().fold(f64::INFINITY, f64::min);
    let most = ratios.iter().copied().fold(0.0, f64::max);
    println!("{call:8} {mean:.3} times as long on average, {least:.3} to {most:.3}");
}

/// One call on some tables.
struct Work {
    records: usize,
    tables: &'static str,
    call: &'static str,
    repetitions: usize,
    /// Makes the call on each table and answers the sum of what they answer.
    run: Box<dyn FnMut(&Build) -> u64>,
}

impl Work {
    /// The microseconds that a call takes on average, before and now, where both answer the same.
    fn times(&mut self, builds: &[[Build; 2]]) -> Option<[f64; 2]> {
        let mut sums = [Duration::ZERO; 2];
        for pair in builds {
            if (self.run)(&pair[0]) != (self.run)(&pair[1]) {
                return None;
            }
            let mut best = [Duration::MAX; 2];
            for _ in 0..self.repetitions {
                for (build, best) in pair.iter().zip(&mut best) {
                    let start = Instant::now();
                    black_box((self.run)(build));
                    *best = start.elapsed().min(*best);
                }
            }
            for (sum, best) in sums.iter_mut().zip(best) {
                *sum += best;
            }
        }
        Some(sums.map(|sum| sum.as_secs_f64() * 1e6 / (builds.len() * TABLES) as f64))
    }
}

fn works(records: usize) -> Vec<Work> {
    let quotes = LIMITS.map(|limits| (limits, quotes(TABLES, records, limits).into()));
    let quoting = quotes
        .iter()
        .flat_map(|(limits, quotes)| quoting(records, *limits, quotes));
    let plain = quotes.iter().map(|(limits, quotes)| {
        let tables = quotes.iter().map(|quote| quote.table.clone());
        simplifying(limits.name(), tables.collect())
    });
    let made = [
        simplifying("redundant", simplify::redundant(records)),
        simplifying("zeros", simplify::zeros(records)),
    ];
    let grafting = graft::PARTS.map(|parts| grafting(records, parts));
    quoting.chain(plain).chain(made).chain(grafting).collect()
}

/// Simplifying of tables whose second children rule 8 compares.
fn shared_works() -> impl Iterator<Item = Work> {
    shared::kinds(TABLES).map(|kind| simplifying(kind.name, kind.tables))
}

fn quoting(records: usize, limits: Limits, quotes: &Rc<[Quote]>) -> [Work; 3] {
    let work = |call, run| Work {
        records,
        tables: limits.name(),
        call,
        repetitions: REPETITIONS,
        run,
    };
    let [checked, figured, listed] = [(); 3].map(|()| Rc::clone(quotes));
    let mut out = [0; LIST_ROOM];
    [
        work(
            "check",
            Box::new(move |build| checked.iter().map(|q| build.check(&q.table)).sum()),
        ),
        work(
            "figure",
            Box::new(move |build| {
                figured
                    .iter()
                    .map(|q| build.figure(&q.table, &q.values))
                    .sum()
            }),
        ),
        work(
            "list",
            Box::new(move |build| {
                listed
                    .iter()
                    .map(|q| build.list(&q.table, &q.values, &mut out))
                    .sum()
            }),
        ),
    ]
}

fn simplifying(name: &'static str, tables: Vec<Vec<u8>>) -> Work {
    let mut out = [0; LONGEST];
    Work {
        records: tables[0].len() / RECORD_BYTES,
        tables: name,
        call: "simplify",
        repetitions: SIMPLIFYING_REPETITIONS,
        run: Box::new(move |build| tables.iter().map(|t| build.simplify(t, &mut out)).sum()),
    }
}

fn grafting(records: usize, parts: graft::Parts) -> Work {
    let pairs = graft::pairs(records, parts);
    let mut out = [0; LONGEST];
    Work {
        records,
        tables: parts.name(),
        call: "graft",
        repetitions: REPETITIONS,
        run: Box::new(move |build| {
            let answers = pairs
                .iter()
                .map(|p| build.graft(&p.host, &p.sent, &mut out));
            answers.sum()
        }),
    }
}

/// A build's functions.
struct Build {
    check: unsafe extern "C" fn(*const u8, usize) -> Checked,
    figure: unsafe extern "C" fn(*const u8, usize, *const u64, usize) -> Figure,
    list: unsafe extern "C" fn(*const u8, usize, *const u64, usize, *mut u64, usize) -> Listed,
    simplify: unsafe extern "C" fn(*const u8, usize, u64, *mut u8, usize) -> Simplified,
    graft: unsafe extern "C" fn(*const u8, usize, *const u8, usize, u64, *mut u8, usize) -> Grafted,
    /// How many values it wants: without paired symbols the rest changes nothing.
    values: usize,
}

impl Build {
    fn load(name: &str, archive: &str, place: usize) -> Build {
        let library = Loaded::new(name, archive, place);
        // SAFETY: the functions have the header's types.
        let mut build = unsafe {
            Build {
                check: library.function(c"vf_check"),
                figure: library.function(c"vf_figure"),
                list: library.function(c"vf_list"),
                simplify: library.function(c"vf_simplify"),
                graft: library.function(c"vf_graft"),
                values: VALUES,
            }
        };
        // A refusal of the values has its own number and no figure beside it.
        if build.figure(&Tree::block(7).encode(), &[0; VALUES]) == 9 {
            build.values = FORMER_VALUES;
        }
        build
    }
}

// SAFETY, of each: the pointers and lengths are those of live slices, and only the one that is lent
// mutably is written.
impl Build {
    fn check(&self, table: &[u8]) -> u64 {
        let answer = unsafe { (self.check)(table.as_ptr(), table.len()) };
        answer.refused + answer.records
    }

    fn figure(&self, table: &[u8], values: &[u64]) -> u64 {
        let values = &values[..self.values];
        let (values, count) = (values.as_ptr(), values.len());
        let answer = unsafe { (self.figure)(table.as_ptr(), table.len(), values, count) };
        answer.refused + answer.figure + answer.branch
    }

    fn list(&self, table: &[u8], values: &[u64], out: &mut [u64]) -> u64 {
        let values = &values[..self.values];
        let (values, count) = (values.as_ptr(), values.len());
        let (out, room) = (out.as_mut_ptr(), out.len());
        let answer = unsafe { (self.list)(table.as_ptr(), table.len(), values, count, out, room) };
        answer.refused + answer.pairs
    }

    fn simplify(&self, table: &[u8], out: &mut [u8]) -> u64 {
        let (out, room) = (out.as_mut_ptr(), out.len());
        let answer = unsafe { (self.simplify)(table.as_ptr(), table.len(), u64::MAX, out, room) };
        answer.refused + answer.length + answer.steps
    }

    fn graft(&self, host: &[u8], sent: &[u8], out: &mut [u8]) -> u64 {
        let (sent, length) = (sent.as_ptr(), sent.len());
        let (out, room) = (out.as_mut_ptr(), out.len());
        let answer = unsafe {
            (self.graft)(
                host.as_ptr(),
                host.len(),
                sent,
                length,
                graft::SYMBOL,
                out,
                room,
            )
        };
        answer.refused + answer.length
    }
}
