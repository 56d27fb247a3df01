//! The stack that the calls want on the deepest tables, and all but quoting and simplifying on the longest
//! too. A child process makes them with less and less stack, until it no longer returns.

use crate::quote::flat_tree;
use std::env;
use std::hint::black_box;
use std::process::{Command, Stdio};
use volefleece::raw;
use volefleece_tests::format::{
    FORMER_RECORD_BYTES, LIST_ROOM, MARK_BYTES, MOST_RECORDS, RECORD_BYTES, VALUES,
};
use volefleece_tests::retimes::plain_blocks;
use volefleece_tests::rng::Rng;
use volefleece_tests::trees::{self, Amount, Amounts, Kind, Tree};

const PROBE: &str = "--stack-probe";

/// The symbol that is grafted, and filled.
const SYMBOL: u64 = 16;

pub fn measure() {
    let sizes = (2..=32).rev().map(|size| 32 * size);
    let enough = sizes.take_while(|&kibibytes| returns_with(kibibytes));
    match enough.last() {
        Some(size) => println!("Stack: all calls return on the deepest tables with {size} KiB."),
        None => println!("Stack: the calls want more than 1024 KiB on the deepest tables."),
    }
}

/// The shell sets the limit of the main thread's stack. The process's own start is within it.
fn returns_with(kibibytes: usize) -> bool {
    let limited = format!("ulimit -s {kibibytes} && exec \"$0\" {PROBE}");
    let this = env::current_exe().expect("the path of this program");
    Command::new("sh")
        .args(["-c", &limited])
        .arg(this)
        .env_clear()
        .stderr(Stdio::null())
        .status()
        .expect("a shell")
        .success()
}

pub fn is_probe() -> bool {
    env::args().any(|argument| argument == PROBE)
}

pub fn probe() {
    let mut rng = Rng::new(1);
    quote_and_simplify(&mut rng);
    graft_deepest(&mut rng);
    graft_longest(&mut rng);
    fill_and_open(&mut rng);
    preview_and_commit(&mut rng);
    convert_longest();
}

/// Quotes and simplifies tables of depth 32 with every number of loops.
fn quote_and_simplify(rng: &mut Rng) {
    for loops in (0..=8).cycle().take(90) {
        let table = spine(rng, 32, loops, 255).encode();
        assert_eq!(raw::check(black_box(&table)).refused, 0);
        assert_eq!(raw::figure(&table, &[0; VALUES]).refused, 0);
        let mut out = vec![0; LIST_ROOM];
        assert_eq!(raw::list(&table, &[0; VALUES], &mut out).refused, 0);
        let mut out = vec![0; table.len()];
        assert_eq!(raw::simplify(&table, u64::MAX, &mut out).refused, 0);
    }
}

/// Grafts with results of depth 32, the place at every depth, and with results twice as deep, which are
/// refused.
fn graft_deepest(rng: &mut Rng) {
    for place in 1..=31 {
        let [host, sent] = [place, 32 - place].map(|depth| match depth {
            1 => Tree::block(7),
            _ => spine(rng, depth, 3.min(depth - 2), 120),
        });
        assert_eq!(graft_at_deepest(host, sent), 0);
    }
    for loops in 0..=8 {
        let [host, sent] = [loops, 8 - loops].map(|loops| spine(rng, 32, loops, 120));
        assert_eq!(graft_at_deepest(host, sent), 12);
    }
}

/// A tree that deep with limits of such weight, of small numbers.
fn spine(rng: &mut Rng, depth: usize, loops: usize, weight: u64) -> Tree {
    let small = Amounts {
        time: 9,
        bound: 3,
        limit: 9,
        // Without any, one step would simplify all.
        symbols: 4,
    };
    let mut tree = trees::spine(rng, depth, loops);
    trees::put_limits(rng, &mut tree, weight);
    small.set(rng, &mut tree);
    // The table of triangular numbers stands on the stack while they are looked up, before the walk.
    if let Some(limit) = &mut trees::deepest_block(&mut tree).limit {
        limit.amount = Amount::Triangular(0);
    }
    tree
}

/// The answer where the host's deepest block is the only place.
fn graft_at_deepest(mut host: Tree, mut sent: Tree) -> u64 {
    trees::drop_symbol(&mut host, SYMBOL);
    trees::drop_symbol(&mut sent, SYMBOL);
    trees::deepest_block(&mut host).kind = Kind::Block(Amount::Symbol(SYMBOL));
    graft(&host, &sent)
}

/// Grafts with the most records and places that there can be, from flat tables, and with far more than
/// there can be, which are refused.
fn graft_longest(rng: &mut Rng) {
    let [many, most] = [171, MOST_RECORDS].map(|records| {
        let mut tree = flat_tree(rng, records);
        trees::put_symbol(rng, &mut tree, SYMBOL, records);
        tree
    });
    let [long, longest] = [MOST_RECORDS - 2, MOST_RECORDS].map(|records| flat_tree(rng, records));
    assert_eq!(graft(&Tree::symbol_block(SYMBOL), &long), 0);
    assert_eq!(graft(&many, &Tree::block(7)), 0);
    assert_eq!(graft(&most, &longest), 12);
}

/// Tables of depth 32 with every number of loops, and one of the most records.
fn deepest_and_longest(rng: &mut Rng) -> Vec<Tree> {
    let deepest = (0..=8).map(|loops| spine(rng, 32, loops, 255));
    let mut all: Vec<Tree> = deepest.collect();
    all.push(flat_tree(rng, MOST_RECORDS));
    all
}

/// Fills and opens these with the symbol in every block.
fn fill_and_open(rng: &mut Rng) {
    for mut tree in deepest_and_longest(rng) {
        trees::put_symbol(rng, &mut tree, SYMBOL, MOST_RECORDS);
        let table = tree.encode();
        let (mut out, mut marks) = (vec![0; table.len()], [0; MARK_BYTES]);
        let answer = raw::fill(black_box(&table), SYMBOL, 7, &mut out, &mut marks);
        assert_eq!(answer.refused, 0);
        let mut opened = vec![0; table.len()];
        let answer = raw::open(black_box(&out), &marks, SYMBOL, 7, &mut opened);
        assert_eq!((answer.refused, opened), (0, table));
    }
}

/// Previews and commits a time of every plain block of these, the deepest among them.
fn preview_and_commit(rng: &mut Rng) {
    for mut tree in deepest_and_longest(rng) {
        trees::deepest_block(&mut tree).kind = Kind::Block(Amount::Plain(3));
        let mut table = tree.encode();
        for (record, old) in plain_blocks(&table) {
            let answer = raw::preview(black_box(&table), record, old, 7, &[0; VALUES]);
            assert_eq!(answer.refused, 0);
            assert_eq!(raw::commit(&mut table, record, old, 7).refused, 0);
        }
    }
}

fn convert_longest() {
    let old = vec![0; MOST_RECORDS * FORMER_RECORD_BYTES];
    let mut out = vec![0; MOST_RECORDS * RECORD_BYTES];
    assert_eq!(raw::convert(black_box(&old), &mut out).refused, 0);
}

/// The library's answer.
fn graft(host: &Tree, sent: &Tree) -> u64 {
    let mut out = vec![0; MOST_RECORDS * RECORD_BYTES];
    let (host, sent) = (host.encode(), sent.encode());
    raw::graft(black_box(&host), black_box(&sent), SYMBOL, &mut out).refused
}
