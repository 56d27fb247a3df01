//! `vf_graft` on random pairs of tables, symbols and buffers, byte for byte against the second grafter
//! and, where an answer is known by construction, against that. Each test asserts that it has reached
//! what it is for. The seeds are fixed: every run makes the same tables.

use std::ops::Range;
use volefleece::raw;
use volefleece_tests::compare::{has_flag_4, has_pair, shown};
use volefleece_tests::damage;
use volefleece_tests::faults;
use volefleece_tests::fits;
use volefleece_tests::grafter;
use volefleece_tests::grafts::Grafts;
use volefleece_tests::noise;
use volefleece_tests::quotes;
use volefleece_tests::rng::Rng;
use volefleece_tests::simplifications;
use volefleece_tests::trees::{self, Amount, Amounts, Kind, Limit, Tree};

const CEILING: u64 = 1_000_000_000_000;

/// Room for any table.
const ROOM: usize = 12_288;

fn start(seed: u64) -> (Rng, Grafts) {
    (Rng::new(seed), Grafts::new(seed))
}

/// What is grafted.
struct Pair {
    host: Tree,
    sent: Tree,
    symbol: u64,
}

impl Pair {
    /// The symbol is in so many of the host's blocks, and nowhere in the sent table.
    fn new(rng: &mut Rng, mut host: Tree, mut sent: Tree, places: usize) -> Self {
        let symbol = rng.within(16..=23);
        trees::put_symbol(rng, &mut host, symbol, places);
        trees::drop_symbol(&mut sent, symbol);
        Pair { host, sent, symbol }
    }

    /// Trees of any shape, and any number of places. The sent table has no paired symbol, which the host may
    /// have.
    fn random(rng: &mut Rng, amounts: Amounts) -> Self {
        let host = tree(rng, amounts);
        let sent = tree(rng, amounts).unpaired();
        let places = rng.pick(&[0, 1, 1, 1, 2, 2, 3, 10, 512]);
        Pair::new(rng, host, sent, places)
    }

    /// How many records the result has, accepted or not.
    fn records(&self) -> usize {
        self.host.records() + self.host.places(self.symbol) * (self.sent.records() + 1)
    }

    /// What both grafters answer on a buffer of so many bytes.
    fn answer(&self, grafts: &mut Grafts, room: usize) -> Result<Vec<u8>, u64> {
        grafts.answer(&self.host.encode(), &self.sent.encode(), self.symbol, room)
    }
}

/// A tree of any shape, with paired symbols and limits of some weight.
fn tree(rng: &mut Rng, amounts: Amounts) -> Tree {
    let most = rng.pick(&[4, 8, 12, 20, 40, 60, 100, 200]);
    let records = rng.size(1..=most);
    let mut tree = if rng.once_in(2) {
        trees::without_limits(rng, records)
    } else {
        low_tree(rng, records)
    };
    let wanted = rng.pick(&[0, 3, 10, 40, 120, 255]);
    trees::put_weights(rng, &mut tree, wanted);
    amounts.set(rng, &mut tree);
    tree
}

/// A tree of so many records without limits. With two of these no result is too deep or has too many
/// loops.
fn low_tree(rng: &mut Rng, records: usize) -> Tree {
    let depth = rng.size(3..=16);
    let loops = rng.size(0..=3);
    trees::grow(rng, records, depth, loops)
}

/// A tree without limits that is exactly that deep, with exactly that many loops around some block and
/// no more around any other. The depth is 1, or at least the loops and 2.
fn spine(rng: &mut Rng, depth: usize, loops: usize) -> Tree {
    if depth == 1 {
        return Tree::block(7);
    }
    let mut tree = trees::spine(rng, depth, loops);
    let records = tree.records() + rng.size(0..=9);
    trees::pad(rng, &mut tree, records);
    tree
}

/// A random block that has so many loops around it, by its record.
fn block_under(rng: &mut Rng, tree: &Tree, loops: usize) -> usize {
    let table = tree.encode();
    let around = trees::loops_around(tree);
    let blocks: Vec<usize> = (0..around.len())
        .filter(|&record| table[record * 24] == 0 && around[record] == loops)
        .collect();
    rng.pick(&blocks)
}

fn random_limit(rng: &mut Rng, names: u8) -> Limit {
    let count = rng.within(0..=15);
    let amounts = [Amount::Plain, Amount::Symbol, Amount::Triangular];
    let amount = rng.pick(&amounts)(count);
    Limit { names, amount }
}

// Places, limits and symbols.

#[test]
fn tables_of_any_shape() {
    let (mut rng, mut grafts) = start(501);
    let mut reached = Reached::default();
    for _ in 0..120_000 {
        let mut pair = Pair::random(&mut rng, Amounts::SMALL);
        if rng.once_in(30) {
            trees::put_symbol(&mut rng, &mut pair.sent, pair.symbol, 1);
        }
        if rng.once_in(20) {
            let weight = rng.within(1..=9);
            trees::put_pairs(&mut rng, &mut pair.sent, weight);
        }
        let is_used = pair.sent.places(pair.symbol) + pair.sent.pairs() > 0;
        let answer = pair.answer(&mut grafts, ROOM);
        if answer != Err(7) {
            assert_eq!(answer == Err(11), is_used);
        }
        if answer.is_ok() {
            reached.count(&pair);
        }
    }
    grafts.assert_reached(&[(0, 60_000), (11, 3_000), (12, 10_000)]);
    grafts.assert_paired(2_000);
    grafts.assert_places(10_000);
    reached.assert_all(1_000);
}

/// Where the places of written tables were, and what limits named.
#[derive(Debug, Default)]
struct Reached {
    /// The places that were the root, in a sequence, in a choice, a body and an exit.
    places: [u64; 5],
    /// Those without a limit, with a plain one, with a symbol and with its triangular number.
    limits: [u64; 4],
    /// Those with no limit above them, and those with some.
    above: [u64; 2],
    /// Those at address 0, and those at another.
    addresses: [u64; 2],
    /// The limits on places that named the run, the first loop around, the second, and further ones.
    names: [u64; 4],
    /// The sent tables' whole-run limits under no loop of their own, under one, two, and more.
    own_loops: [u64; 4],
    /// The sent tables with flag 4, and the hosts with it elsewhere than at a place.
    triangular: [u64; 2],
}

impl Reached {
    fn count(&mut self, pair: &Pair) {
        self.count_places(&pair.host, 0, false, pair.symbol);
        if pair.host.places(pair.symbol) > 0 {
            let around = trees::loops_around(&pair.sent);
            for (record, loops) in pair.sent.encode().chunks(24).zip(around) {
                self.own_loops[loops.min(3)] += u64::from(record[3] == 255);
            }
            self.triangular[0] += u64::from(!pair.sent.triangles().is_empty());
        }
        let is_elsewhere = |record: &[u8]| record[1] & 4 != 0 && !is_place(record, pair.symbol);
        let is_triangular = pair.host.encode().chunks(24).any(is_elsewhere);
        self.triangular[1] += u64::from(is_triangular);
    }

    /// `place` is where the node stands, as `places` has it.
    fn count_places(&mut self, node: &Tree, place: usize, is_limited: bool, symbol: u64) {
        if node.kind == Kind::Block(Amount::Symbol(symbol)) {
            self.places[place] += 1;
            self.above[usize::from(is_limited)] += 1;
            self.addresses[usize::from(node.address != 0)] += 1;
            match node.limit {
                None => self.limits[0] += 1,
                Some(Limit { names, amount }) => {
                    self.limits[match amount {
                        Amount::Plain(_) => 1,
                        Amount::Symbol(_) => 2,
                        Amount::Triangular(_) => 3,
                    }] += 1;
                    let names = if names == 255 { 0 } else { names.min(3) };
                    self.names[usize::from(names)] += 1;
                }
            }
        }
        let is_limited = is_limited || node.limit.is_some();
        for (at, child) in node.children.iter().enumerate() {
            let place = match node.kind {
                Kind::Sequence => 1,
                Kind::Choice => 2,
                _ => 3 + at,
            };
            self.count_places(child, place, is_limited, symbol);
        }
    }

    fn assert_all(&self, times: u64) {
        let counts = [
            &self.places[..],
            &self.limits,
            &self.above,
            &self.addresses,
            &self.names,
            &self.own_loops,
            &self.triangular,
        ];
        let counts = counts.concat();
        assert!(counts.iter().all(|&count| count >= times), "{self:?}");
    }
}

/// Whether a record is that of a block with that symbol as its time.
fn is_place(record: &[u8], symbol: u64) -> bool {
    record[0] == 0 && record[1] & 1 != 0 && u64::from(record[8]) == symbol
}

#[test]
fn limits_under_every_number_of_loops_on_both_sides() {
    let (mut rng, mut grafts) = start(502);
    // By the loops around the place and byte 3 of its limit, the run being 8.
    let mut names = [[0; 9]; 8];
    // By the sent table's own loops around its limit.
    let mut own_loops = [0; 8];
    for round in 0..40_000 {
        let (around, own) = (round % 9, round / 9 % 9);
        let [host, sent] = [around, own].map(|loops| {
            let depth = loops + rng.size(2..=6);
            spine(&mut rng, depth, loops)
        });
        let mut pair = Pair::new(&mut rng, host, sent, 0);
        let place = block_under(&mut rng, &pair.host, around);
        let named = match rng.index(3) {
            0 => 255,
            _ => rng.size(0..=around) as u8,
        };
        let block = pair.host.node_mut(place);
        block.kind = Kind::Block(Amount::Symbol(pair.symbol));
        block.limit = (named > 0).then(|| random_limit(&mut rng, named));
        let limited = block_under(&mut rng, &pair.sent, own);
        pair.sent.node_mut(limited).limit = Some(random_limit(&mut rng, 255));

        let expected = if own == 8 || (around == 8 && named == 255) {
            Err(7)
        } else if around + 1 + own > 8 {
            Err(12)
        } else {
            names[around][usize::from(named.min(8))] += 1;
            own_loops[own] += 1;
            let mut body = pair.sent.encode();
            body[24 * limited + 3] = own as u8 + 1;
            Ok(spliced(&pair.host.encode(), place, &body))
        };
        assert_eq!(pair.answer(&mut grafts, ROOM), expected);
    }
    grafts.assert_reached(&[(0, 10_000), (7, 3_000), (12, 10_000)]);
    for (around, names) in names.iter().enumerate() {
        let mut possible = names[..=around].iter().chain([&names[8]]);
        assert!(possible.all(|&times| times > 30), "{around}: {names:?}");
    }
    assert!(own_loops.iter().all(|&times| times > 300), "{own_loops:?}");
}

/// The host with a loop around this body in place of the block at that record, byte by byte.
fn spliced(host: &[u8], place: usize, body: &[u8]) -> Vec<u8> {
    let (before, rest) = host.split_at(24 * place);
    let (block, after) = rest.split_at(24);
    let top = [3, block[1] & 6, 2];
    let limit = &block[3..8];
    let bound = [1, 0, 0, 0, 0, 0, 0, 0];
    let address = &block[16..];
    let exit = [&[0; 20][..], &[255; 4]].concat();
    [before, &top, limit, &bound, address, body, &exit, after].concat()
}

#[test]
fn symbols_are_read_whole() {
    let (mut rng, mut grafts) = start(503);
    for _ in 0..40_000 {
        let mut pair = Pair::random(&mut rng, Amounts::SMALL);
        pair.symbol = match rng.index(5) {
            // With some of the bytes alone these would be the host's.
            0 => pair.symbol + (1 << rng.within(5..=63)),
            1 => pair.symbol << (8 * rng.within(1..=7)),
            2 => rng.pick(&[0, 15, 16, 23, 24, 31, 32, 255, 256, u64::MAX, u64::MAX - 15]),
            3 => rng.within(10..=30),
            _ => rng.number(),
        };
        let is_single = (16..=23).contains(&pair.symbol);
        let is_refused = !is_single || pair.sent.places(pair.symbol) > 0;
        let answer = pair.answer(&mut grafts, ROOM);
        assert_eq!(answer == Err(11), is_refused);
    }
    grafts.assert_reached(&[(0, 2_500), (11, 20_000)]);
}

#[test]
fn one_table_lent_twice() {
    let mut rng = Rng::new(504);
    let (mut answers, mut longer) = ([0; 13], 0);
    for _ in 0..30_000 {
        let pair = Pair::random(&mut rng, Amounts::SMALL);
        let host = pair.host.encode();
        // The whole of it, or some subtree.
        let most = rng.pick(&[1, pair.host.records()]);
        let part = fits::subtree(&host, rng.index(most));
        let sent = &host[24 * part.start..24 * part.end];
        let symbol = rng.pick(&[pair.symbol, pair.symbol ^ 1]);
        let mut out = vec![9; ROOM];
        let answer = raw::graft(&host, sent, symbol, &mut out);
        let length = answer.length as usize;
        let written = match answer.refused {
            0 => Ok(out[..length].to_vec()),
            refused => Err(refused),
        };
        assert_eq!(written, grafter::graft(&host, sent, symbol, ROOM));
        assert!(out[length..].iter().all(|&byte| byte == 9));
        answers[answer.refused as usize] += 1;
        longer += u64::from(length > host.len());
    }
    let reached = [0, 6, 11].map(|answer| answers[answer]);
    assert!(reached.iter().all(|&times| times > 1_000), "{answers:?}");
    assert!(longer > 1_000, "{longer}");
}

// Question 12, its answers known by construction.

#[test]
fn results_of_about_512_records() {
    let (mut rng, mut grafts) = start(505);
    let (mut exact, mut over_by_1) = (0, 0);
    for _ in 0..12_000 {
        let records = rng.pick(&[511, 512, 512, 512, 513, 513, 513, 514]);
        let places = rng.pick(&[1, 1, 2, 3, 10, 40, 85]);
        // A place adds the sent table and one record, and the host has at least 4 for each.
        let sent_records = rng.size(1..=records / places - 5);
        let host_records = records - places * (sent_records + 1);
        let [mut host, mut sent] =
            [host_records, sent_records].map(|records| low_tree(&mut rng, records));
        trees::put_weights(&mut rng, &mut host, 55);
        trees::put_limits(&mut rng, &mut sent, 200 / places as u64);
        let pair = Pair::new(&mut rng, host, sent, places);
        assert_eq!(pair.records(), records, "the host has blocks enough");
        let answer = pair.answer(&mut grafts, ROOM);
        assert_eq!(answer.err(), (records > 512).then_some(12));
        exact += u64::from(records == 512);
        over_by_1 += u64::from(records == 513);
    }
    assert!(exact > 3_000 && over_by_1 > 3_000, "{exact}, {over_by_1}");
}

#[test]
fn results_far_past_512_records() {
    let (mut rng, mut grafts) = start(506);
    let mut most = 0;
    for _ in 0..3_000 {
        let [host, sent] = [0; 2].map(|_| {
            let records = rng.pick(&[200, 400, 512]);
            low_tree(&mut rng, records)
        });
        let places = rng.pick(&[3, 64, 128, 512]);
        let pair = Pair::new(&mut rng, host, sent, places);
        let room = rng.pick(&[0, ROOM, 24 * pair.records()]);
        assert_eq!(pair.answer(&mut grafts, room), Err(12));
        most = most.max(pair.records());
    }
    assert!(most > 65_536, "16 bits can count them: {most}");
}

#[test]
fn results_about_32_deep() {
    let (mut rng, mut grafts) = start(507);
    let mut reached = [0; 4];
    for _ in 0..20_000 {
        let depth = rng.size(31..=34);
        let place = rng.size(depth.saturating_sub(32).max(1)..=32.min(depth - 1));
        let [host, sent] = [place, depth - place].map(|depth| {
            let loops = rng.size(0..=3).min(depth.saturating_sub(2));
            light_spine(&mut rng, depth, loops)
        });
        // Further places, which are no deeper.
        let places = rng.size(0..=2);
        let mut pair = Pair::new(&mut rng, host, sent, places);
        trees::deepest_block(&mut pair.host).kind = Kind::Block(Amount::Symbol(pair.symbol));
        let answer = pair.answer(&mut grafts, ROOM);
        assert_eq!(answer.err(), (depth > 32).then_some(12));
        reached[depth - 31] += 1;
    }
    assert!(reached.iter().all(|&times| times > 4_000), "{reached:?}");
}

/// A spine with limits so light that no result of three places is too heavy.
fn light_spine(rng: &mut Rng, depth: usize, loops: usize) -> Tree {
    let mut tree = spine(rng, depth, loops);
    let wanted = rng.within(0..=60);
    trees::put_limits(rng, &mut tree, wanted);
    tree
}

#[test]
fn results_with_about_8_loops() {
    let (mut rng, mut grafts) = start(508);
    let mut reached = [0; 4];
    for _ in 0..20_000 {
        let loops = rng.size(7..=10);
        // The new loop is one of them.
        let around = rng.size(loops.saturating_sub(9)..=8.min(loops - 1));
        let [host, sent] = [around, loops - 1 - around].map(|loops| {
            let depth = loops + rng.size(2..=8);
            light_spine(&mut rng, depth, loops)
        });
        // Further places, which are under no more loops.
        let places = rng.size(0..=2);
        let mut pair = Pair::new(&mut rng, host, sent, places);
        let place = block_under(&mut rng, &pair.host, around);
        pair.host.node_mut(place).kind = Kind::Block(Amount::Symbol(pair.symbol));
        let answer = pair.answer(&mut grafts, ROOM);
        assert_eq!(answer.err(), (loops > 8).then_some(12));
        reached[loops - 7] += 1;
    }
    assert!(reached.iter().all(|&times| times > 4_000), "{reached:?}");
}

#[test]
fn results_of_about_weight_255() {
    let (mut rng, mut grafts) = start(509);
    let (mut full, mut over_by_1) = (0, 0);
    for _ in 0..20_000 {
        let wanted = rng.pick(&[254, 255, 255, 256, 256, 257, 300]);
        let places = rng.pick(&[1, 1, 2, 3, 5]);
        let [mut host, mut sent] = [150, 50].map(|most| {
            let mut tree = trees::spine(&mut rng, 8, 3);
            let records = rng.size(15..=most);
            trees::pad(&mut rng, &mut tree, records);
            tree
        });
        let of_sent = rng.within(1..=wanted.min(255) / places);
        let of_sent = trees::put_limits(&mut rng, &mut sent, of_sent);
        let of_host = (wanted - places * of_sent).min(255);
        let of_host = trees::put_limits(&mut rng, &mut host, of_host);
        let pair = Pair::new(&mut rng, host, sent, places as usize);
        // Nothing but the weight may stand against the result.
        let weight = of_host + of_sent * pair.host.places(pair.symbol) as u64;
        let answer = pair.answer(&mut grafts, ROOM);
        assert_eq!(answer.err(), (weight > 255).then_some(12));
        full += u64::from(weight == 255);
        over_by_1 += u64::from(weight == 256);
    }
    assert!(full > 3_000 && over_by_1 > 3_000, "{full}, {over_by_1}");
}

// Buffers, and the order of the questions.

#[test]
fn buffers_of_every_length() {
    let (mut rng, mut grafts) = start(510);
    for _ in 0..30_000 {
        let pair = Pair::random(&mut rng, Amounts::SMALL);
        let length = 24 * pair.records();
        let room = match rng.index(4) {
            0 => rng.pick(&[0, 1, 24, length - 24, length - 1]),
            1 => rng.pick(&[length, length + 1, length + 24, ROOM, ROOM + 1]),
            2 => 24 * pair.host.records(),
            _ => rng.size(0..=2 * length.min(ROOM)),
        };
        match pair.answer(&mut grafts, room) {
            Err(12) => {}
            answer => assert_eq!(answer.err(), (room < length).then_some(8)),
        }
    }
    grafts.assert_reached(&[(0, 8_000), (8, 8_000), (12, 2_000)]);
    grafts.assert_places(1_000);
}

/// The questions in their order: the host's, the sent table's, and those about both.
const QUESTIONS: [u64; 17] = [1, 2, 3, 4, 5, 6, 7, 1, 2, 3, 4, 5, 6, 7, 11, 12, 8];

const OF_HOST: Range<usize> = 0..7;
const OF_SENT: Range<usize> = 7..14;
const SYMBOL: usize = 14;
const RESULT: usize = 15;
const BUFFER: usize = 16;

#[test]
fn of_any_two_faults_the_first_answers() {
    let (mut rng, mut grafts) = start(511);
    for first in 0..QUESTIONS.len() {
        for second in first + 1..QUESTIONS.len() {
            for _ in 0..150 {
                expect_first(&mut rng, &mut grafts, &[first, second]);
            }
        }
    }
    grafts.assert_reached(&[1, 2, 3, 4, 5, 6, 7].map(|answer| (answer, 1_500)));
    grafts.assert_reached(&[(11, 300), (12, 150)]);
}

#[test]
fn of_many_faults_the_first_answers() {
    let (mut rng, mut grafts) = start(512);
    for _ in 0..40_000 {
        let often = rng.within(1..=30);
        let places = 0..QUESTIONS.len();
        let faults: Vec<usize> = places.filter(|_| rng.once_in(often)).collect();
        expect_first(&mut rng, &mut grafts, &faults);
    }
    let answers = [0, 1, 2, 3, 4, 5, 6, 7, 8, 11, 12];
    grafts.assert_reached(&answers.map(|answer| (answer, 500)));
}

/// Makes a call that fails these questions, given by their places in the order, and expects the number
/// of the first.
fn expect_first(rng: &mut Rng, grafts: &mut Grafts, faults: &[usize]) {
    let of = |places: Range<usize>| -> Vec<u64> {
        let faults = faults.iter().filter(|&fault| places.contains(fault));
        faults.map(|&fault| QUESTIONS[fault]).collect()
    };
    let (of_host, of_sent) = (of(OF_HOST), of(OF_SENT));
    let host = faults::tree(rng, &of_host);
    let mut sent = faults::tree(rng, &of_sent);
    // The host may have all the weight.
    if of_sent.is_empty() {
        sent = sent.unlimited().unpaired();
    }
    let mut pair = Pair::new(rng, host, sent, 0);
    if faults.contains(&RESULT) {
        fail_result(rng, &mut pair);
    } else {
        let places = rng.size(0..=3);
        add_places(&mut pair, places);
    }
    let length = 24 * pair.records();
    let room = if faults.contains(&BUFFER) {
        rng.pick(&[0, length / 2, length - 1])
    } else {
        length + rng.pick(&[0, 1, 100])
    };
    if faults.contains(&SYMBOL) {
        fail_symbol(rng, &mut pair);
    }
    let host = faults::table(rng, &pair.host, &of_host);
    let sent = faults::table(rng, &pair.sent, &of_sent);
    let answer = grafts.answer(&host, &sent, pair.symbol, room);
    let expected = faults.first().map(|&fault| QUESTIONS[fault]);
    assert_eq!(answer.err(), expected, "{faults:?}");
}

/// Gives the host's root, which is a sequence, so many blocks of the symbol.
fn add_places(pair: &mut Pair, places: usize) {
    let blocks = vec![Tree::symbol_block(pair.symbol); places];
    pair.host.children.extend(blocks);
}

/// Makes the result too long, too deep, or too heavy, or gives it too many loops. Both roots are
/// sequences of blocks at least.
fn fail_result(rng: &mut Rng, pair: &mut Pair) {
    let (depth, loops) = match rng.index(4) {
        0 => return add_places(pair, 100),
        1 => {
            pair.sent.children.push(faults::heavy_tree(7));
            return add_places(pair, 2);
        }
        2 => (30, 0),
        _ => (12, 8),
    };
    let mut spine = trees::spine(rng, depth, loops);
    trees::deepest_block(&mut spine).kind = Kind::Block(Amount::Symbol(pair.symbol));
    pair.host.children.push(spine);
}

/// Takes another symbol than 16 to 23, or puts it or a paired one into the sent table.
fn fail_symbol(rng: &mut Rng, pair: &mut Pair) {
    if rng.once_in(2) {
        pair.symbol = rng.pick(&[0, 15, 24, 31, 32, pair.symbol + 256, u64::MAX]);
    } else {
        let place = rng.size(0..=pair.sent.children.len());
        let block = Tree::symbol_block(rng.pick(&[pair.symbol, 24, 31]));
        pair.sent.children.insert(place, block);
    }
}

// Damaged tables and noise.

#[test]
fn damaged_tables_on_either_side() {
    let (mut rng, mut grafts) = start(513);
    for round in 0..60_000 {
        let Pair { host, sent, symbol } = Pair::random(&mut rng, Amounts::SMALL);
        let mut tables = [host.encode(), sent.encode()];
        for (at, table) in tables.iter_mut().enumerate() {
            if !is_spared(at, round) {
                damage::any(&mut rng, table);
            }
        }
        grafts.compare(&tables[0], &tables[1], symbol, ROOM);
    }
    let answers = [(0, 5_000), (1, 5_000), (2, 5_000), (3, 3_000), (4, 5_000)];
    grafts.assert_reached(&answers);
    grafts.assert_reached(&[(6, 1_000), (12, 500)]);
    grafts.assert_places(1_000);
}

/// On some rounds table 0, the host, on others table 1, and on the rest neither.
fn is_spared(table: usize, round: usize) -> bool {
    round % 3 == table
}

#[test]
fn noise_of_every_kind() {
    let (mut rng, mut grafts) = start(514);
    for round in 0..40_000 {
        let [host, sent] = [0, 1].map(|at| {
            if is_spared(at, round) {
                tree(&mut rng, Amounts::SMALL).encode()
            } else {
                rng.pick(&noise::KINDS)(&mut rng)
            }
        });
        // Of the time symbols, noise has but 16, 23 and 24.
        let symbol = rng.pick(&[16, 23, 24, 20, 32]);
        let room = rng.pick(&[ROOM, ROOM, 96]);
        grafts.compare(&host, &sent, symbol, room);
    }
    let answers = [(0, 3_000), (1, 3_000), (2, 3_000), (4, 2_000), (6, 500)];
    grafts.assert_reached(&answers);
    grafts.assert_reached(&[(5, 100), (8, 500), (11, 1_000)]);
    grafts.assert_places(100);
}

// Figures and branches.

/// Holds written tables against what is promised of their figures and branches, and counts what it has
/// met.
#[derive(Debug, Default)]
struct Promise {
    /// The figures of written tables.
    figures: u64,
    /// Those among them that the sent table raises above the host's with the symbol 0, and those whose
    /// branch it moves.
    raised: u64,
    moved: u64,
    /// Refusals 10 of the written table and the host, the sent table having a figure.
    too_large: u64,
    /// Refusals 10 of the written table and the sent one.
    sent_too_large: u64,
    /// Refusals of the sent table alone, which was put nowhere.
    put_nowhere: u64,
    /// Refusals 9.
    wrong_values: u64,
    /// Refusals 13 and 14 of the written table.
    past_1000: u64,
    past_first: u64,
    /// The figures of written tables with flag 4, and with a paired symbol.
    triangular: u64,
    paired: u64,
}

impl Promise {
    fn compare(&mut self, rng: &mut Rng, pair: &Pair, written: &[u8], values: &[u64]) {
        let (host, sent) = (pair.host.encode(), pair.sent.encode());
        let set = |value| {
            let mut values = values.to_vec();
            values[pair.symbol as usize] = value;
            values
        };
        let quoted = quotes::figure(rng, written, values);
        match quotes::figure(rng, &sent, values) {
            Ok(of_sent) => {
                let of_host = quotes::figure(rng, &host, &set(of_sent.figure));
                assert_eq!(quoted, of_host, "{}", shown(written));
                // Where there is a figure, there is one with the symbol at 0.
                if let (Ok(with), Ok(without)) = (quoted, quotes::figure(rng, &host, &set(0))) {
                    self.figures += 1;
                    self.raised += u64::from(with.figure > without.figure);
                    self.moved += u64::from(with.branch != without.branch);
                }
                self.too_large += u64::from(quoted == Err(10));
            }
            Err(10 | 13) if written == host => self.put_nowhere += u64::from(quoted.is_ok()),
            Err(question) => {
                // Question 13 is put to all of the written table before 14 and 10.
                let of_host = quotes::figure(rng, &host, values);
                let first = if of_host == Err(13) { 13 } else { question };
                assert_eq!(quoted, Err(first), "{}", shown(written));
                self.sent_too_large += u64::from(first == 10);
                self.wrong_values += u64::from(first == 9);
            }
        }
        self.past_1000 += u64::from(quoted == Err(13));
        self.past_first += u64::from(quoted == Err(14));
        self.paired += u64::from(quoted.is_ok() && has_pair(written));
        self.triangular += u64::from(quoted.is_ok() && has_flag_4(written));
        // The written table has no block of the symbol.
        if quoted != Err(9) {
            let values = set(rng.pick(&[0, 1, CEILING]));
            assert_eq!(quotes::figure(rng, written, &values), quoted);
        }
    }

    fn assert_met(&self, times: u64) {
        let met = [
            self.figures,
            self.raised,
            self.moved,
            self.too_large,
            self.sent_too_large,
            self.put_nowhere,
            self.wrong_values,
            self.past_1000,
            self.past_first,
            self.triangular,
            self.paired,
        ];
        assert!(met.iter().all(|&met| met >= times), "{self:?}");
    }
}

#[test]
fn figures_with_many_values() {
    let (mut rng, mut grafts) = start(515);
    let mut promise = Promise::default();
    for round in 0..40_000 {
        let amounts = [Amounts::SMALL, Amounts::MIDDLING][round % 2];
        let pair = Pair::random(&mut rng, amounts);
        if let Ok(written) = pair.answer(&mut grafts, ROOM) {
            for values in desks(&mut rng, amounts) {
                promise.compare(&mut rng, &pair, &written, &values);
            }
        }
    }
    promise.assert_met(500);
    grafts.assert_places(3_000);
}

/// Values of these amounts, counts about flag 4's ceiling, some values at theirs, and one past it.
fn desks(rng: &mut Rng, amounts: Amounts) -> [Vec<u64>; 4] {
    let mut about_1000 = amounts.values(rng);
    trees::put_about_1000(rng, &mut about_1000);
    let mut high = amounts.values(rng);
    for _ in 0..rng.size(1..=6) {
        let at = rng.index(40);
        high[at] = ceiling(at);
    }
    if !rng.once_in(8) {
        trees::lift_firsts(&mut high);
    }
    let mut past = high.clone();
    let at = rng.index(40);
    past[at] = ceiling(at) + 1;
    [amounts.values(rng), about_1000, high, past]
}

fn ceiling(value: usize) -> u64 {
    if value < 16 {
        1_000_000
    } else {
        CEILING
    }
}

#[test]
fn two_symbols_in_either_order() {
    let (mut rng, mut grafts) = start(516);
    let (mut nested, mut refused) = (0, 0);
    for _ in 0..20_000 {
        let mut pair = Pair::random(&mut rng, Amounts::SMALL);
        let (symbol, other) = (pair.symbol, pair.symbol ^ 2);
        // The other symbol may be in both these tables, and neither is in the table put for it.
        for tree in [&mut pair.host, &mut pair.sent] {
            let places = rng.size(0..=2);
            trees::put_symbol(&mut rng, tree, other, places);
        }
        let mut last = tree(&mut rng, Amounts::SMALL).unpaired();
        trees::drop_symbol(&mut last, symbol);
        trees::drop_symbol(&mut last, other);

        let [host, sent, last] = [&pair.host, &pair.sent, &last].map(Tree::encode);
        let mut put = |host: &[u8], sent: &[u8], symbol| grafts.answer(host, sent, symbol, ROOM);
        let written = put(&host, &sent, symbol).and_then(|host| put(&host, &last, other));
        let other_first = put(&host, &last, other).and_then(|host| {
            let sent = put(&sent, &last, other)?;
            put(&host, &sent, symbol)
        });
        // Else only the other order asks about the sent table with the last one in it.
        if pair.host.places(symbol) > 0 {
            assert_eq!(written, other_first);
            nested += u64::from(written.is_ok() && pair.sent.places(other) > 0);
            refused += u64::from(written == Err(12));
        }
        if let Ok(written) = written {
            let mut values = Amounts::SMALL.values(&mut rng);
            let quoted = quotes::figure(&mut rng, &written, &values);
            for (table, symbol) in [(last, other), (sent, symbol)] {
                let quoted = quotes::figure(&mut rng, &table, &values);
                values[symbol as usize] = quoted.expect("small amounts").figure;
            }
            assert_eq!(quoted, quotes::figure(&mut rng, &host, &values));
        }
    }
    grafts.assert_reached(&[(0, 30_000), (12, 5_000)]);
    assert!(nested > 1_000 && refused > 1_000, "{nested}, {refused}");
}

#[test]
fn tables_that_simplifying_wrote() {
    let (mut rng, mut grafts) = start(517);
    let (mut shorter, mut figures) = (0, 0);
    for _ in 0..20_000 {
        let [host, sent] = [0; 2].map(|_| {
            let records = rng.size(1..=30);
            trees::redundant(&mut rng, records)
        });
        let places = rng.size(1..=3);
        let pair = Pair::new(&mut rng, host, sent.unpaired(), places);
        let [host, sent] = [&pair.host, &pair.sent].map(Tree::encode);
        let mut simplified = |table: &[u8]| {
            let answer = simplifications::simplify(&mut rng, table, u64::MAX, table.len());
            answer.expect("small amounts").bytes
        };
        let [short_host, short_sent] = [&host, &sent].map(|table| simplified(table));
        let answer = grafts.answer(&short_host, &short_sent, pair.symbol, ROOM);
        let Ok(written) = answer else {
            continue;
        };
        let short_written = simplified(&written);
        shorter += u64::from(short_written.len() < written.len());

        let values = Amounts::SMALL.values(&mut rng);
        let mut figure = |table: &[u8], values: &[u64]| {
            let quoted = quotes::figure(&mut rng, table, values);
            quoted.expect("small amounts").figure
        };
        let mut set = values.clone();
        set[pair.symbol as usize] = figure(&sent, &values);
        let host_figure = figure(&host, &set);
        for table in [written, short_written] {
            assert_eq!(figure(&table, &values), host_figure);
        }
        figures += u64::from(host_figure > 0);
    }
    grafts.assert_places(500);
    assert!(shorter > 5_000 && figures > 10_000, "{shorter}, {figures}");
}
