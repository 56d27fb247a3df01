//! Two tables with a symbol and a buffer, both grafters: the call's answer and every byte that it
//! writes must be the second grafter's, it may change nothing but the front of its buffer, and what it
//! writes must be a table that checking accepts.

use crate::compare::{assert_occurred, has_pair, lend, lend_out, shown, shown_answer};
use crate::format::RECORD_BYTES;
use crate::grafter;
use crate::rng::Rng;
use volefleece::raw::{self, Checked, Grafted};

/// The table that the library wrote, or its refusal, on a buffer of so many bytes.
pub fn graft(
    rng: &mut Rng,
    host: &[u8],
    sent: &[u8],
    symbol: u64,
    room: usize,
) -> Result<Vec<u8>, u64> {
    let shifts = [rng.index(16), rng.index(16)];
    let filler = rng.pick(&[0, 1, 255]);
    let length = |answer: &Grafted| answer.length;
    let (answer, bytes) = lend_out(rng, room, length, |out| {
        lend(host, shifts[0], filler, |host| {
            lend(sent, shifts[1], filler, |sent| {
                raw::graft(host, sent, symbol, out)
            })
        })
    });
    match answer {
        Grafted { refused: 0, .. } => Ok(bytes),
        Grafted { refused, length: 0 } => Err(refused),
        Grafted { .. } => panic!("a refusal with a length: {answer:?}"),
    }
}

/// Both grafters write that table for symbol 16, and want exactly the room for it.
#[track_caller]
pub fn writes(host: &[u8], sent: &[u8], expected: &[u8]) {
    let mut grafts = Grafts::new(0);
    let length = expected.len();
    let written = match grafts.answer(host, sent, 16, length) {
        Ok(written) => written,
        Err(question) => panic!("refused {question}, not {}", shown(expected)),
    };
    assert!(
        written == expected,
        "{}is not {}",
        shown(&written),
        shown(expected)
    );
    assert_eq!(grafts.answer(host, sent, 16, length - 1), Err(8));
}

/// Compares grafts and counts the answers, so that a test can assert what it has reached.
#[derive(Debug)]
pub struct Grafts {
    rng: Rng,
    /// The answers, 0 or a refusal's number.
    refused: [u64; 13],
    /// How many tables were written with the sent one in no place, in one, and in more.
    places: [u64; 3],
    /// The tables written with the sent one in some place of a host with a paired symbol, and the refusals
    /// 11 of a sent table with one.
    paired: [u64; 2],
}

impl Grafts {
    /// The seed decides where all is in memory, and the buffers alone.
    pub fn new(seed: u64) -> Self {
        Grafts {
            rng: Rng::new(!seed),
            refused: [0; 13],
            places: [0; 3],
            paired: [0; 2],
        }
    }

    /// What both grafters answer on a buffer of so many bytes.
    pub fn answer(
        &mut self,
        host: &[u8],
        sent: &[u8],
        symbol: u64,
        room: usize,
    ) -> Result<Vec<u8>, u64> {
        let second = grafter::graft(host, sent, symbol, room);
        let answer = graft(&mut self.rng, host, sent, symbol, room);
        assert!(
            answer == second,
            "symbol {symbol}, room {room}: the library {}\nnot {}\nhost {}sent {}",
            shown_answer(&answer, |table| shown(table)),
            shown_answer(&second, |table| shown(table)),
            shown(host),
            shown(sent)
        );
        match &answer {
            Ok(written) => {
                let accepted = Checked::accept(written.len() / RECORD_BYTES);
                assert_eq!(raw::check(written), accepted, "{}", shown(written));
                // A graft adds the sent table and one record: the loop's is the block's own.
                let places = (written.len() - host.len()) / (sent.len() + RECORD_BYTES);
                self.refused[0] += 1;
                self.places[places.min(2)] += 1;
                self.paired[0] += u64::from(places > 0 && has_pair(host));
            }
            Err(question) => {
                self.refused[*question as usize] += 1;
                self.paired[1] += u64::from(*question == 11 && has_pair(sent));
            }
        }
        answer
    }

    /// The same where the answer itself does not matter.
    pub fn compare(&mut self, host: &[u8], sent: &[u8], symbol: u64, room: usize) {
        drop(self.answer(host, sent, symbol, room));
    }

    /// Asserts that each of these answers, 0 or a refusal's number, occurred at least so often.
    pub fn assert_reached(&self, least: &[(usize, u64)]) {
        assert_occurred("grafting's", &self.refused, least);
    }

    /// Asserts that so many tables were written with the sent one in no place, as many with it in one,
    /// and as many with it in more.
    pub fn assert_places(&self, times: u64) {
        let mut places = self.places.iter();
        assert!(places.all(|&written| written >= times), "{self:?}");
    }

    /// Asserts that so many tables were written into hosts with paired symbols, and as many sent tables with
    /// one refused.
    pub fn assert_paired(&self, times: u64) {
        let mut paired = self.paired.iter();
        assert!(paired.all(|&reached| reached >= times), "{self:?}");
    }
}
