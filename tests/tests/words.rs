//! The comparison by words of eight bytes, an inner function of the library, against plain Rust's and,
//! where the answer is known by construction, against that.

use volefleece_tests::fenced::{Fenced, PAGE};
use volefleece_tests::probes::{self, Compared};
use volefleece_tests::rng::Rng;

const WORD: usize = 8;

/// The most words of a stretch that is tried in every way.
const MOST: usize = 64;

/// What both answer, whichever stretch comes first.
#[track_caller]
fn agreed(a: &[u8], b: &[u8]) -> Compared {
    let answer = plain(a, b);
    assert_eq!(probes::compare(a, b), answer, "{} bytes", a.len());
    assert_eq!(probes::compare(b, a), answer, "{} bytes, swapped", a.len());
    answer
}

/// Plain Rust's answer.
fn plain(a: &[u8], b: &[u8]) -> Compared {
    if a.len() != b.len() || !a.len().is_multiple_of(WORD) {
        return Compared::NOT_COMPARED;
    }
    let mut words = a.chunks(WORD).zip(b.chunks(WORD));
    match words.position(|(a, b)| a != b) {
        Some(word) => Compared::differ(word),
        None => Compared::EQUAL,
    }
}

fn random(rng: &mut Rng, len: usize) -> Vec<u8> {
    (0..len).map(|_| rng.byte()).collect()
}

// What is found.

/// One bit differs, each bit of each word in turn.
#[test]
fn every_difference_is_found() {
    let mut rng = Rng::new(1);
    for words in 1..=MOST {
        let a = random(&mut rng, words * WORD);
        let mut b = a.clone();
        for at in 0..a.len() {
            for bit in 0..8 {
                b[at] ^= 1 << bit;
                assert_eq!(agreed(&a, &b), Compared::differ(at / WORD));
                b[at] = a[at];
            }
        }
    }
}

/// From some byte on all differ, or some do.
#[test]
fn the_first_of_several_differences_is_answered() {
    let mut rng = Rng::new(2);
    for words in 1..=MOST {
        let a = random(&mut rng, words * WORD);
        let mut rest = a.clone();
        for at in (0..a.len()).rev() {
            rest[at] = !a[at];
            assert_eq!(agreed(&a, &rest), Compared::differ(at / WORD));

            let mut some = a.clone();
            for _ in 0..3 {
                some[rng.size(at..=a.len() - 1)] ^= 1 << rng.index(8);
            }
            some[at] = !a[at];
            assert_eq!(agreed(&a, &some), Compared::differ(at / WORD));
        }
    }
}

/// Two kinds of byte, so that many words agree and many do not.
#[test]
fn random_stretches() {
    let mut rng = Rng::new(3);
    let mut differed = [0; 4];
    let mut equal = 0;
    for _ in 0..100_000 {
        let len = WORD * rng.size(1..=4);
        let [a, b] = [0, 1].map(|_| {
            let byte = |_| u8::from(rng.once_in(16));
            (0..len).map(byte).collect::<Vec<u8>>()
        });
        match agreed(&a, &b) {
            Compared { verdict: 0, .. } => equal += 1,
            answer => differed[answer.word as usize] += 1,
        }
    }
    assert!(equal > 1_000, "{equal}");
    assert!(differed.iter().all(|&count| count > 500), "{differed:?}");
}

// Equal stretches.

#[test]
fn equal_stretches_are_equal() {
    let mut rng = Rng::new(4);
    for words in 0..=MOST {
        let a = random(&mut rng, words * WORD);
        assert_eq!(agreed(&a, &a.clone()), Compared::EQUAL);
        for byte in [0, 1, 0x7f, 0x80, 0xff] {
            let a = vec![byte; words * WORD];
            assert_eq!(agreed(&a, &a.clone()), Compared::EQUAL);
        }
    }
}

#[test]
fn long_stretches() {
    let mut rng = Rng::new(5);
    for len in [1 << 16, (1 << 20) - WORD, 4 << 20] {
        let a = random(&mut rng, len);
        let mut b = a.clone();
        assert_eq!(agreed(&a, &b), Compared::EQUAL);
        for at in [len - 1, len - WORD, len / 2, 0] {
            b[at] ^= 0x80;
            assert_eq!(agreed(&a, &b), Compared::differ(at / WORD));
        }
    }
}

#[test]
fn a_stretch_is_equal_to_itself() {
    let a = random(&mut Rng::new(6), MOST * WORD);
    for words in 0..=MOST {
        let part = &a[..words * WORD];
        assert_eq!(agreed(part, part), Compared::EQUAL);
    }
}

/// One buffer that repeats itself, and a part of it that begins later.
#[test]
fn stretches_that_overlap() {
    let len = MOST * WORD;
    for period in 1..=3 * WORD {
        let repeated: Vec<u8> = (0..2 * len).map(|at| (at % period) as u8).collect();
        for later in 0..=4 * WORD {
            let answer = agreed(&repeated[..len], &repeated[later..later + len]);
            let equal = later % period == 0;
            assert_eq!(answer == Compared::EQUAL, equal, "{period} {later}");
        }
    }
}

// Where they stand.

/// The stretch at that place of a buffer of other bytes.
fn placed(stretch: &[u8], at: usize, other: u8) -> Vec<u8> {
    let mut buffer = vec![other; at + stretch.len() + 2 * WORD];
    buffer[at..at + stretch.len()].copy_from_slice(stretch);
    buffer
}

/// Each at every alignment, the bytes around one all unlike those around the other.
#[test]
fn stretches_at_every_alignment() {
    let mut rng = Rng::new(7);
    for pair in 0..WORD * WORD {
        let [a_at, b_at] = [pair / WORD, pair % WORD].map(|at| WORD + at);
        for words in 0..=9 {
            let stretch = random(&mut rng, words * WORD);
            let (a_end, b_end) = (a_at + stretch.len(), b_at + stretch.len());
            let a = placed(&stretch, a_at, 0x55);
            let mut b = placed(&stretch, b_at, 0xaa);
            let answer = agreed(&a[a_at..a_end], &b[b_at..b_end]);
            assert_eq!(answer, Compared::EQUAL);
            for at in 0..stretch.len() {
                b[b_at + at] ^= 1;
                let answer = agreed(&a[a_at..a_end], &b[b_at..b_end]);
                assert_eq!(answer, Compared::differ(at / WORD));
                b[b_at + at] ^= 1;
            }
        }
    }
}

fn fenced_pair() -> (Fenced, Fenced) {
    let mut rng = Rng::new(8);
    let bytes = std::array::from_fn(|_| rng.byte());
    (Fenced::new(&bytes), Fenced::new(&bytes))
}

#[test]
fn the_fences_hold() {
    let (fenced, _) = fenced_pair();
    let end = PAGE as isize;
    let read = [-1, 0, end - 1, end].map(|at| fenced.can_read(at));
    assert_eq!(read, [false, true, true, false]);
}

/// Stretches that begin right behind a fence, and that end right before one.
#[test]
fn nothing_outside_is_read() {
    let (a, mut b) = fenced_pair();
    for words in (0..=MOST).chain([PAGE / WORD]) {
        let len = words * WORD;
        for part in [0..len, PAGE - len..PAGE] {
            let a = &a.bytes()[part.clone()];
            assert_eq!(agreed(a, &b.bytes()[part.clone()]), Compared::EQUAL);
            for at in [part.start, part.start + len / 2, part.end.wrapping_sub(1)] {
                if part.contains(&at) {
                    b.bytes_mut()[at] ^= 0x80;
                    let answer = agreed(a, &b.bytes()[part.clone()]);
                    assert_eq!(answer, Compared::differ((at - part.start) / WORD));
                    b.bytes_mut()[at] ^= 0x80;
                }
            }
        }
    }
}

// Which are not compared.

/// The bytes are all the same, and a fence stands behind the shorter stretch.
#[test]
fn lengths_that_differ_or_are_not_whole_words() {
    let fenced = Fenced::new(&[7; PAGE]);
    let ending = |len: usize| &fenced.bytes()[PAGE - len..];
    let mut compared = 0;
    for a in 0..=5 * WORD {
        for b in 0..=5 * WORD {
            let answer = agreed(ending(a), ending(b));
            let same_words = a == b && a % WORD == 0;
            assert_eq!(answer != Compared::NOT_COMPARED, same_words, "{a} {b}");
            compared += usize::from(same_words);
        }
    }
    assert_eq!(compared, 6);
}
