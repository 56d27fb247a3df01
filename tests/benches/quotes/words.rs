//! The comparison by words, which rule 8 makes of each record of second children without its address,
//! against one byte by byte and plain Rust's own. The first two are loops of as many instructions, each
//! measured at four places in memory.

use crate::places::{Loaded, PLACES};
use volefleece_tests::probes::Compared;
use volefleece_tests::rng::Rng;
use volefleece_tests::timing::{each, microseconds};

const SIZES: [usize; 5] = [16, 64, 256, 1024, 4096];

/// One call is too short to be timed.
const CALLS: usize = 1_000;
const REPETITIONS: usize = 301;

const ARCHIVE: &str = concat!(
    env!("CARGO_MANIFEST_DIR"),
    "/../target/staticlib/libprobes.a"
);

const HEADING: &str = "
       |     equal stretches     |          ratio
 bytes |  bytes   words   slices | bytes/words words/slices";

pub fn measure() {
    println!(
        "Nanoseconds a comparison of two equal stretches, medians of {REPETITIONS} repetitions of {CALLS} calls: byte"
    );
    println!(
        "by byte, as rule 8 compared before, and by words, as it does now, both as means over four places"
    );
    println!("in memory, and by plain Rust's equality of slices.");
    println!("{HEADING}");
    let probes = PLACES.map(Probes::load);
    let mut rng = Rng::new(1);
    for size in SIZES {
        let stretch: Vec<u8> = (0..size).map(|_| rng.byte()).collect();
        for probes in &probes {
            probes.assert_agreed(&stretch);
        }
        let [bytes, words, slices] = times(&probes, &stretch);
        println!(
            "{size:6} | {bytes:6.1} {words:7.1} {slices:8.1} | {:11.2} {:12.2}",
            bytes / words,
            words / slices
        );
    }
}

/// Nanoseconds byte by byte, by words and of slices.
fn times(probes: &[Probes], stretch: &[u8]) -> [f64; 3] {
    let other = stretch.to_vec();
    let pairs = vec![(stretch, &other[..]); CALLS];
    let bytes = probes
        .iter()
        .map(|p| each(&pairs, |(a, b)| p.by_bytes(a, b)));
    let words = probes
        .iter()
        .map(|p| each(&pairs, |(a, b)| p.by_words(a, b)));
    let mut calls: Vec<_> = bytes.chain(words).collect();
    calls.push(each(&pairs, |(a, b)| a == b));
    let times = microseconds(REPETITIONS, CALLS, calls);
    let mean = |times: &[f64]| 1e3 * times.iter().sum::<f64>() / times.len() as f64;
    let (bytes, rest) = times.split_at(probes.len());
    let (words, slices) = rest.split_at(probes.len());
    [bytes, words, slices].map(mean)
}

type Compare = unsafe extern "C" fn(*const u8, usize, *const u8, usize) -> Compared;

/// Both comparisons at one place. What the first answers is a byte where the other's is a word.
struct Probes {
    bytes: Compare,
    words: Compare,
}

impl Probes {
    fn load(place: usize) -> Self {
        let library = Loaded::new("probes", ARCHIVE, place);
        // SAFETY: the functions have this type.
        unsafe {
            Probes {
                bytes: library.function(c"probe_compare_bytes"),
                words: library.function(c"probe_compare"),
            }
        }
    }

    fn by_bytes(&self, a: &[u8], b: &[u8]) -> Compared {
        // SAFETY: the pointers and lengths are those of live slices, which the call only reads.
        unsafe { (self.bytes)(a.as_ptr(), a.len(), b.as_ptr(), b.len()) }
    }

    fn by_words(&self, a: &[u8], b: &[u8]) -> Compared {
        // SAFETY: as above.
        unsafe { (self.words)(a.as_ptr(), a.len(), b.as_ptr(), b.len()) }
    }

    /// Both see the last byte.
    fn assert_agreed(&self, stretch: &[u8]) {
        let mut other = stretch.to_vec();
        assert_eq!(self.by_bytes(stretch, &other), Compared::EQUAL);
        assert_eq!(self.by_words(stretch, &other), Compared::EQUAL);
        let last = stretch.len() - 1;
        other[last] ^= 1;
        assert_eq!(self.by_bytes(stretch, &other), Compared::differ(last));
        assert_eq!(self.by_words(stretch, &other), Compared::differ(last / 8));
    }
}
