//! The grafting call against plain Rust.

use crate::quote::SIZES;
use volefleece::raw;
use volefleece_tests::format::{MOST_RECORDS, RECORD_BYTES};
use volefleece_tests::grafter;
use volefleece_tests::rng::Rng;
use volefleece_tests::timing::{each, microseconds};
use volefleece_tests::trees;

const PAIRS: usize = 16;
const REPETITIONS: usize = 301;

/// The symbol that is grafted.
pub const SYMBOL: u64 = 16;
const LONGEST: usize = MOST_RECORDS * RECORD_BYTES;

const HEADING: &str = "
                                   |        graft
records parts   host   sent places |    lib   Rust ratio";

pub fn measure() {
    println!(
        "Microseconds a call, medians of {REPETITIONS} repetitions over {PAIRS} pairs of tables, and the"
    );
    println!(
        "library's time by plain Rust's. Of the result's records most are the host's or the sent table's,"
    );
    println!(
        "put in one place, or a small one is put in many. All tables have limits. The library's buffer is"
    );
    println!("used again and not cleared; plain Rust makes a new table.");
    println!("{HEADING}");
    for records in SIZES {
        for parts in PARTS {
            measure_pairs(records, parts);
        }
    }
}

/// What a result is made of.
#[derive(Clone, Copy)]
pub enum Parts {
    /// One place in a large host, and a small sent table.
    Host,
    /// One place in a small host, and a large sent table.
    Sent,
    /// A small sent table in many places.
    Many,
}

pub const PARTS: [Parts; 3] = [Parts::Host, Parts::Sent, Parts::Many];

impl Parts {
    pub fn name(self) -> &'static str {
        match self {
            Parts::Host => "host",
            Parts::Sent => "sent",
            Parts::Many => "many",
        }
    }

    /// The sent table's records, and the places that it is put in.
    fn sent_and_places(self, records: usize) -> (usize, usize) {
        match self {
            Parts::Host => (records / 8, 1),
            Parts::Sent => (records * 7 / 8, 1),
            Parts::Many => (3, records / 8),
        }
    }

    /// The host's records: each place adds the sent table and one record.
    fn host(self, records: usize) -> usize {
        let (sent, places) = self.sent_and_places(records);
        records - places * (sent + 1)
    }
}

pub struct Pair {
    pub host: Vec<u8>,
    pub sent: Vec<u8>,
}

/// Pairs of which grafting makes tables of so many records, the same in every run.
pub fn pairs(records: usize, parts: Parts) -> Vec<Pair> {
    let (sent, places) = parts.sent_and_places(records);
    let host = parts.host(records);
    let mut rng = Rng::new(records as u64);
    let pairs = std::iter::from_fn(|| Some(random_pair(&mut rng, host, sent, places))).flatten();
    pairs.take(PAIRS).collect()
}

fn measure_pairs(records: usize, parts: Parts) {
    let (sent, places) = parts.sent_and_places(records);
    let host = parts.host(records);
    let pairs = pairs(records, parts);
    for pair in &pairs {
        assert_agreed(pair, records);
    }
    let mut out = [0; LONGEST];
    let calls = vec![
        each(&pairs, |pair| {
            raw::graft(&pair.host, &pair.sent, SYMBOL, &mut out)
        }),
        each(&pairs, |pair| {
            grafter::graft(&pair.host, &pair.sent, SYMBOL, LONGEST)
        }),
    ];
    let times = microseconds(REPETITIONS, pairs.len(), calls);
    let [library, rust] = times[..] else {
        panic!("one time for each call");
    };
    println!(
        "{records:7} {:5} {host:6} {sent:6} {places:6} | {library:6.2} {rust:6.2} {:5.2}",
        parts.name(),
        library / rust
    );
}

/// Tables of so many records, the host's with so many places, unless it has too few blocks. No result
/// is too deep, has too many loops or is too heavy.
fn random_pair(rng: &mut Rng, host: usize, sent: usize, places: usize) -> Option<Pair> {
    let [mut host, mut sent] = [host, sent].map(|records| trees::grow(rng, records, 16, 3));
    trees::put_limits(rng, &mut host, 55);
    trees::put_limits(rng, &mut sent, 200 / places as u64);
    trees::drop_triangles(&mut host);
    trees::drop_triangles(&mut sent);
    trees::put_symbol(rng, &mut host, SYMBOL, places);
    trees::drop_symbol(&mut sent, SYMBOL);
    (host.places(SYMBOL) == places).then(|| Pair {
        host: host.encode(),
        sent: sent.encode(),
    })
}

fn assert_agreed(pair: &Pair, records: usize) {
    let Pair { host, sent } = pair;
    let second = grafter::graft(host, sent, SYMBOL, LONGEST).expect("room for the result");
    assert_eq!(second.len(), records * RECORD_BYTES);
    let mut out = [0; LONGEST];
    let answer = raw::graft(host, sent, SYMBOL, &mut out);
    assert_eq!((answer.refused, answer.length), (0, second.len() as u64));
    assert_eq!(out[..second.len()], second);
}
