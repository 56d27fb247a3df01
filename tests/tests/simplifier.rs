//! `vf_simplify` and the second simplifier on hand-written tables: document 01's cases, each rule where
//! it fits and where it does not, also with flag 4, the order of steps and of questions. All numbers
//! here are literals.

use volefleece_tests::cases::cases;
use volefleece_tests::evaluator;
use volefleece_tests::quotes;
use volefleece_tests::simplifications::{agreed, becomes, ends, stays};
use volefleece_tests::simplifier::Simplified;
use volefleece_tests::tables::*;

const ZEROS: [u64; 40] = [0; 40];

fn z() -> Vec<u8> {
    symbol_block(18)
}

/// The tree with a limit of 1 on its top.
fn once(tree: Vec<u8>, names: u8) -> Vec<u8> {
    limited(tree, 1, names)
}

// Document 01's cases.

#[test]
fn case_j() {
    let j = sequence(&[block(5), x(), block(4)]);
    ends(&j, 1, &sequence(&[block(9), x()]));
}

#[test]
fn case_k() {
    let k = choice(&[sequence(&[block(5), x()]), sequence(&[block(4), x()])]);
    let shared = sequence(&[choice(&[block(5), block(4)]), x()]);
    becomes(&k, 8, &shared);
    becomes(&shared, 4, &sequence(&[block(5), x()]));
    ends(&k, 2, &sequence(&[block(5), x()]));
}

#[test]
fn cases_without_symbols_become_their_figures() {
    let mut figures = 0;
    for case in cases() {
        match case.answer {
            Err(question) => {
                let answer = agreed(&case.table, u64::MAX, case.table.len());
                assert_eq!(answer, Err(question), "case {}", case.name);
            }
            Ok(_) if case.name.starts_with(['J', 'K']) => {}
            Ok(pairs) => {
                let is_that_already = case.name == "A";
                println!("case {}", case.name);
                ends(&case.table, u64::from(!is_that_already), &block(pairs[0].0));
                figures += 1;
            }
        }
    }
    assert!(figures >= 13, "{figures}");
}

#[test]
fn case_h_is_not_shared() {
    // A symbol in the place of the 0 keeps the whole from becoming a block.
    let term = || choice(&[once(block(10), 1), x()]);
    let h = |first, second| {
        let body = choice(&[sequence(&[first, term()]), sequence(&[second, term()])]);
        repeat(2, body, block(0))
    };
    stays(&h(block(5), block(4)));
    // The 0 of the case itself goes, and still nothing is shared.
    let term = || choice(&[once(block(10), 1), block(0)]);
    let pairs = |term: &dyn Fn() -> Vec<u8>| {
        let body = choice(&[sequence(&[x(), term()]), sequence(&[y(), term()])]);
        repeat(2, body, block(0))
    };
    ends(&pairs(&term), 4, &pairs(&|| once(block(10), 1)));
}

#[test]
fn case_i_keeps_its_limited_zero() {
    let i = |ten| {
        let zero = choice(&[once(block(0), 1), x()]);
        in_loops(2, 3, sequence(&[zero, ten]))
    };
    let before = i(choice(&[once(block(10), 2), block(0)]));
    let after = i(once(block(10), 2));
    ends(&before, 2, &after);
    let mut values = ZEROS;
    values[16] = 4;
    for table in [before, after] {
        let quoted = evaluator::figure(&table, &values);
        assert_eq!(quoted.map(|quoted| quoted.figure), Ok(66));
    }
}

// Rule 1.

#[test]
fn rule_1_takes_the_whole_table() {
    let first_miss = choice(&[once(block(10), 1), block(5)]);
    becomes(&repeat(3, first_miss, block(0)), 1, &block(20));
    // Here rule 2 fits as well.
    becomes(&sequence(&[sequence(&[block(1)])]), 1, &block(1));
    becomes(&limited(block(7), 3, 255), 1, &block(7));
    becomes(&limited(block(7), 0, 255), 1, &block(0));
    becomes(&limited(sequence(&[block(7)]), 0, 255), 1, &block(0));
}

#[test]
fn rule_1_wants_no_symbol_and_no_such_block() {
    stays(&block(7));
    stays(&block(0));
    stays(&x());
    stays(&symbol_limited(block(7), 0, 255));
    stays(&symbol_limited(x(), 0, 255));
    stays(&triangular_limited(block(7), 0, 255));
    stays(&repeat(3, triangular_limited(block(7), 0, 1), block(0)));
    stays(&symbol_repeat(0, block(7), block(0)));
    stays(&limited(x(), 3, 255));
    // A part that is one limited block is not the table.
    stays(&sequence(&[x(), once(block(7), 255)]));
}

#[test]
fn rule_1_fits_once_the_last_symbol_is_gone() {
    let four = || once(block(4), 255);
    let two = || limited(block(2), 0, 255);
    let table = sequence(&[repeat(0, x(), four()), two()]);
    becomes(&table, 9, &sequence(&[four(), two()]));
    ends(&table, 2, &block(4));
}

// Rule 2.

#[test]
fn rule_2_takes_a_list_in() {
    let nested = |list: fn(&[Vec<u8>]) -> Vec<u8>| list(&[x(), list(&[y(), block(1)]), z()]);
    becomes(&nested(sequence), 2, &sequence(&[x(), y(), block(1), z()]));
    becomes(&nested(choice), 2, &choice(&[x(), y(), block(1), z()]));
    // The list that takes it in may have a limit, and what is taken in too.
    becomes(
        &symbol_limited(sequence(&[x(), sequence(&[once(y(), 255)])]), 3, 255),
        2,
        &symbol_limited(sequence(&[x(), once(y(), 255)]), 3, 255),
    );
    // Rule 3 would fit as well.
    becomes(
        &sequence(&[sequence(&[x(), y()])]),
        2,
        &sequence(&[x(), y()]),
    );
}

#[test]
fn rule_2_takes_the_first() {
    let two = || sequence(&[x(), sequence(&[y(), x()]), sequence(&[z(), y()])]);
    becomes(
        &two(),
        2,
        &sequence(&[x(), y(), x(), sequence(&[z(), y()])]),
    );
    ends(&two(), 2, &sequence(&[x(), y(), x(), z(), y()]));
    let limited_first = sequence(&[once(sequence(&[y(), x()]), 255), sequence(&[z(), y()])]);
    ends(
        &limited_first,
        1,
        &sequence(&[once(sequence(&[y(), x()]), 255), z(), y()]),
    );
}

#[test]
fn rule_2_wants_the_same_kind_and_no_limit() {
    stays(&sequence(&[x(), choice(&[y(), x()])]));
    stays(&choice(&[x(), sequence(&[y(), x()])]));
    stays(&sequence(&[x(), once(sequence(&[y(), x()]), 255)]));
    stays(&choice(&[x(), once(choice(&[y(), x()]), 255)]));
    stays(&repeat(3, repeat(3, x(), y()), repeat(2, x(), y())));
}

#[test]
fn rule_2_wants_room_for_255_children() {
    for list in [sequence, choice] {
        let of = |blocks, more: &[Vec<u8>]| list(&[vec![x(); blocks], more.to_vec()].concat());
        becomes(&of(253, &[of(2, &[])]), 2, &of(255, &[]));
        stays(&of(254, &[of(2, &[])]));
        becomes(&of(254, &[of(1, &[])]), 2, &of(255, &[]));
        becomes(&of(1, &[of(254, &[])]), 2, &of(255, &[]));
        stays(&of(1, &[of(255, &[])]));
        // The first one that there is room for.
        becomes(
            &of(250, &[of(5, &[]), of(4, &[])]),
            2,
            &of(250, &[of(5, &[]), x(), x(), x(), x()]),
        );
    }
}

// Rule 3.

#[test]
fn rule_3_keeps_the_only_child() {
    for list in [sequence, choice] {
        becomes(&list(&[x()]), 3, &x());
        becomes(
            &list(&[symbol_repeat(0, x(), y())]),
            3,
            &symbol_repeat(0, x(), y()),
        );
        becomes(&list(&[once(x(), 255)]), 3, &once(x(), 255));
        becomes(&limited(list(&[x()]), 0, 255), 3, &limited(x(), 0, 255));
        // Flags 2 and 4 move with the limit, down to the child or up with it.
        for limit in [symbol_limited, triangular_limited] {
            becomes(&limit(list(&[x()]), 7, 255), 3, &limit(x(), 7, 255));
            becomes(
                &limit(list(&[block(7)]), 7, 255),
                3,
                &limit(block(7), 7, 255),
            );
            becomes(&list(&[limit(x(), 7, 255)]), 3, &limit(x(), 7, 255));
            let in_loop = |body| in_loops(2, 3, sequence(&[y(), body]));
            becomes(
                &in_loop(limit(list(&[x()]), 7, 2)),
                3,
                &in_loop(limit(x(), 7, 2)),
            );
            let bound = || symbol_repeat(7, x(), y());
            becomes(&limit(list(&[bound()]), 7, 255), 3, &limit(bound(), 7, 255));
        }
    }
    becomes(&sequence(&[choice(&[x(), y()])]), 3, &choice(&[x(), y()]));
    becomes(&choice(&[sequence(&[x()])]), 3, &sequence(&[x()]));
}

#[test]
fn rule_3_wants_one_child_and_one_limit_at_most() {
    for list in [sequence, choice] {
        stays(&list(&[x(), y()]));
        stays(&once(list(&[once(x(), 255)]), 255));
        stays(&limited(list(&[symbol_limited(x(), 1, 255)]), 0, 255));
        stays(&limited(list(&[triangular_limited(x(), 1, 255)]), 0, 255));
        stays(&triangular_limited(list(&[once(x(), 255)]), 0, 255));
        // A limited list of its own kind has a limit too many for rules 2 and 3.
        let inner = once(list(&[x(), y()]), 255);
        stays(&once(list(&[inner]), 255));
    }
}

// Rule 4.

#[test]
fn rule_4_makes_a_block() {
    let beside_x = |child| sequence(&[x(), child]);
    let five_or_four = || choice(&[block(5), block(4)]);
    becomes(&beside_x(five_or_four()), 4, &beside_x(block(5)));
    let loop_of_nine = repeat(3, sequence(&[block(5), block(4)]), block(1));
    becomes(&beside_x(loop_of_nine), 4, &beside_x(block(28)));
    // The first member is the one before the node's own limit, even where that is 0.
    for limit in [0, 1, 3] {
        let node = limited(five_or_four(), limit, 255);
        becomes(&beside_x(node), 4, &beside_x(limited(block(5), limit, 255)));
    }
    // So do exits and bodies.
    becomes(
        &repeat(2, x(), repeat(2, block(3), block(1))),
        4,
        &repeat(2, x(), block(7)),
    );
}

#[test]
fn rule_4_sets_limits_aside_that_name_the_node() {
    let in_loop = |child| repeat(2, sequence(&[x(), child]), block(0));
    let first_miss = |names| repeat(3, choice(&[once(block(10), names), block(5)]), block(0));
    becomes(&in_loop(first_miss(1)), 4, &in_loop(block(20)));
    // Also from inside a further loop, and with its own limit kept.
    let two_deep = || repeat(3, repeat(2, once(block(10), 2), block(0)), block(1));
    becomes(&in_loop(two_deep()), 4, &in_loop(block(11)));
    becomes(
        &in_loop(once(two_deep(), 1)),
        4,
        &in_loop(once(block(11), 1)),
    );
    let limited_body = repeat(3, limited(block(10), 2, 1), block(0));
    becomes(&in_loop(limited_body), 4, &in_loop(block(20)));
}

#[test]
fn rule_4_wants_children_closed() {
    let in_loop = |child| repeat(2, sequence(&[x(), child]), block(0));
    // A limit that names a loop outside, or the run.
    for names in [2, 255] {
        let body = choice(&[once(block(10), names), block(5)]);
        stays(&in_loop(repeat(3, body, block(0))));
    }
    for names in [1, 255] {
        stays(&in_loop(choice(&[once(block(10), names), block(5)])));
        stays(&in_loop(repeat(3, block(5), once(block(1), names))));
        let pair = sequence(&[once(block(5), names), block(2)]);
        stays(&repeat(2, choice(&[x(), pair]), block(0)));
    }
    // From inside a further loop, 2 names the node and 3 the loop outside.
    let body = |names| repeat(2, once(block(10), names), block(0));
    becomes(
        &in_loop(repeat(3, body(2), block(0))),
        4,
        &in_loop(block(10)),
    );
    stays(&in_loop(repeat(3, body(3), block(0))));
}

#[test]
fn rule_4_wants_no_symbol() {
    stays(&sequence(&[x(), repeat(3, x(), block(1))]));
    stays(&sequence(&[x(), symbol_repeat(0, block(3), block(1))]));
    for limit in [symbol_limited, triangular_limited] {
        let limited_by_symbol = limit(repeat(3, block(3), block(1)), 0, 255);
        stays(&sequence(&[x(), limited_by_symbol]));
        let inside = repeat(3, limit(block(3), 0, 1), block(1));
        stays(&sequence(&[x(), inside]));
    }
}

// Rule 5.

#[test]
fn rule_5_drops_the_first_zero() {
    for list in [sequence, choice] {
        becomes(&list(&[x(), block(0)]), 5, &list(&[x()]));
        becomes(&list(&[block(0), x()]), 5, &list(&[x()]));
        let zeros = list(&[y(), block(0), x(), block(0), z()]);
        becomes(&zeros, 5, &list(&[y(), x(), block(0), z()]));
        ends(&zeros, 2, &list(&[y(), x(), z()]));
        // Rules 6 and 7 would fit as well.
        becomes(
            &list(&[block(3), block(0), x()]),
            5,
            &list(&[block(3), x()]),
        );
        // The limited 0 stays, and then it is the only child of an unlimited list.
        let limited_zero = list(&[once(block(0), 1), block(0)]);
        let in_loop = |body| repeat(2, body, x());
        becomes(
            &in_loop(symbol_limited(limited_zero, 0, 1)),
            5,
            &in_loop(symbol_limited(list(&[once(block(0), 1)]), 0, 1)),
        );
    }
}

#[test]
fn rule_5_wants_an_unlimited_plain_zero_in_a_list() {
    for list in [sequence, choice] {
        stays(&list(&[x(), once(block(0), 255)]));
        stays(&list(&[x(), limited(block(0), 0, 255)]));
        stays(&list(&[x(), symbol_limited(block(0), 0, 255)]));
        stays(&list(&[x(), triangular_limited(block(0), 0, 255)]));
        stays(&list(&[x(), y()]));
        stays(&list(&[x(), block(1)]));
        stays(&repeat(3, list(&[x(), y()]), block(0)));
        stays(&symbol_repeat(0, block(0), block(0)));
        // The only child.
        becomes(
            &symbol_limited(list(&[block(0)]), 0, 255),
            3,
            &symbol_limited(block(0), 0, 255),
        );
    }
}

// Rules 6 and 7.

#[test]
fn rule_6_puts_the_sum_first() {
    becomes(
        &sequence(&[x(), block(5), y(), block(4), z(), block(2)]),
        6,
        &sequence(&[block(11), x(), y(), z()]),
    );
    let limit = |list| symbol_limited(list, 2, 255);
    becomes(
        &limit(sequence(&[block(5), block(4)])),
        6,
        &limit(sequence(&[block(9)])),
    );
    becomes(
        &sequence(&[x(), once(block(3), 255), block(5), block(4)]),
        6,
        &sequence(&[block(9), x(), once(block(3), 255)]),
    );
}

#[test]
fn rule_6_wants_two_unlimited_plain_blocks() {
    stays(&sequence(&[x(), block(5)]));
    stays(&sequence(&[x(), block(5), once(block(4), 255)]));
    stays(&sequence(&[
        x(),
        block(5),
        symbol_limited(block(4), 0, 255),
        triangular_limited(block(4), 0, 255),
    ]));
    stays(&sequence(&[x(), once(block(5), 255), once(block(4), 255)]));
    stays(&symbol_repeat(0, block(5), block(4)));
}

#[test]
fn rule_7_puts_the_largest_at_the_first_place() {
    becomes(
        &choice(&[x(), block(5), y(), block(9), z(), block(2)]),
        7,
        &choice(&[x(), block(9), y(), z()]),
    );
    let limit = |list| symbol_limited(list, 2, 255);
    becomes(
        &limit(choice(&[block(5), block(4)])),
        7,
        &limit(choice(&[block(5)])),
    );
    becomes(
        &choice(&[once(block(30), 255), x(), block(5), block(5)]),
        7,
        &choice(&[once(block(30), 255), x(), block(5)]),
    );
}

#[test]
fn rule_7_wants_two_unlimited_plain_blocks() {
    stays(&choice(&[x(), block(5)]));
    stays(&choice(&[x(), block(5), once(block(4), 255)]));
    stays(&choice(&[x(), once(block(5), 255), once(block(5), 255)]));
    stays(&choice(&[
        x(),
        block(5),
        triangular_limited(block(4), 0, 255),
    ]));
    // Equal alternatives that are no plain blocks remain two.
    stays(&choice(&[x(), x()]));
    stays(&choice(&[once(x(), 255), once(x(), 255)]));
}

// Rule 8.

#[test]
fn rule_8_shares_the_second_child() {
    let closed = [
        x(),
        block(3),
        sequence(&[x(), y()]),
        repeat(3, choice(&[once(x(), 1), y()]), block(0)),
        symbol_repeat(0, repeat(2, once(x(), 2), y()), z()),
        repeat(3, choice(&[triangular_limited(x(), 0, 1), y()]), block(0)),
        repeat(9, triangular_limited(block(4), 0, 1), block(0)),
    ];
    // First children may have any limits.
    let firsts = [x(), once(y(), 255), triangular_limited(x(), 4, 255)];
    for second in closed {
        let pair = |first| sequence(&[first, second.clone()]);
        let pairs = choice(&firsts.clone().map(pair));
        let shared = pair(choice(&firsts));
        becomes(&pairs, 8, &shared);
        // The choice's limit goes to the sequence, with its loop byte and flags.
        for limit in [limited, symbol_limited, triangular_limited] {
            let in_loop = |node: &[u8]| {
                let node = limit(node.to_vec(), 5, 2);
                in_loops(2, 3, sequence(&[z(), node]))
            };
            becomes(&in_loop(&pairs), 8, &in_loop(&shared));
        }
    }
}

#[test]
fn rule_8_wants_every_child_an_unlimited_pair() {
    let pair = |first| sequence(&[first, y()]);
    stays(&choice(&[pair(x()), pair(z()), x()]));
    stays(&choice(&[x(), pair(x()), pair(z())]));
    stays(&choice(&[pair(x()), sequence(&[x(), z(), y()])]));
    stays(&choice(&[pair(x()), sequence(&[x(), y(), y()])]));
    stays(&choice(&[pair(x()), once(pair(z()), 255)]));
    // A loop has two children as well.
    stays(&choice(&[pair(x()), symbol_repeat(0, z(), y())]));
    becomes(&choice(&[pair(x())]), 3, &pair(x()));
    // Sequences do not share.
    let choices = [choice(&[x(), y()]), choice(&[z(), y()])];
    stays(&sequence(&choices));
}

#[test]
fn rule_8_wants_second_children_equal_and_closed() {
    let of = |seconds: [Vec<u8>; 2]| {
        let [one, two] = seconds;
        choice(&[sequence(&[x(), one]), sequence(&[z(), two])])
    };
    stays(&of([x(), y()]));
    stays(&of([block(3), block(4)]));
    stays(&of([symbol_block(16), block(16)]));
    let repeated = |bound| repeat(bound, x(), y());
    stays(&of([repeated(2), repeated(3)]));
    // All bytes count, that of the flags too.
    let seconds = [
        limited(x(), 5, 1),
        symbol_limited(x(), 5, 1),
        triangular_limited(x(), 5, 1),
        triangular_limited(x(), 6, 1),
    ];
    let seconds = seconds.map(|body| repeat(3, body, y()));
    for one in &seconds {
        for other in &seconds {
            let pairs = of([one.clone(), other.clone()]);
            if one == other {
                let shared = sequence(&[choice(&[x(), z()]), one.clone()]);
                becomes(&pairs, 8, &shared);
            } else {
                stays(&pairs);
            }
        }
    }
    // First children that are equal are no reason.
    let firsts = choice(&[sequence(&[x(), y()]), sequence(&[x(), z()])]);
    stays(&firsts);
    // A limit that names the run, on the top or below.
    stays(&of([once(x(), 255), once(x(), 255)]));
    let low = || choice(&[once(x(), 255), y()]);
    stays(&of([low(), low()]));
    // One that names a loop outside.
    let in_loop = |body| repeat(3, body, block(0));
    stays(&in_loop(of([once(x(), 1), once(x(), 1)])));
    let low = || symbol_repeat(0, once(x(), 2), y());
    stays(&in_loop(of([low(), low()])));
    let exit = || symbol_repeat(0, x(), once(y(), 1));
    stays(&in_loop(of([exit(), exit()])));
}

// Rule 9.

#[test]
fn rule_9_keeps_the_exit() {
    becomes(&repeat(0, x(), block(4)), 9, &block(4));
    becomes(&repeat(0, x(), y()), 9, &y());
    becomes(&repeat(0, x(), once(y(), 255)), 9, &once(y(), 255));
    // The body's list names this loop.
    becomes(&repeat(0, once(x(), 1), y()), 9, &y());
    becomes(&repeat(0, repeat(2, once(x(), 2), y()), z()), 9, &z());
    // It names the run, with a limit or without.
    becomes(&repeat(0, once(x(), 255), y()), 9, &y());
    becomes(&repeat(0, repeat(2, once(x(), 1), y()), z()), 9, &z());
    // It names the innermost of some, which is this loop.
    let both = sequence(&[once(x(), 1), once(y(), 2)]);
    becomes(
        &repeat(2, repeat(0, both, x()), block(0)),
        9,
        &repeat(2, x(), block(0)),
    );
    let exit = || triangular_limited(y(), 7, 255);
    becomes(
        &repeat(0, triangular_limited(x(), 7, 1), exit()),
        9,
        &exit(),
    );
    // The exit may name the loops around.
    becomes(
        &repeat(2, repeat(0, x(), once(y(), 1)), block(0)),
        9,
        &repeat(2, once(y(), 1), block(0)),
    );
}

#[test]
fn rule_9_wants_an_unlimited_loop_of_plain_bound_0() {
    stays(&repeat(1, x(), y()));
    stays(&symbol_repeat(0, x(), y()));
    stays(&once(repeat(0, x(), y()), 255));
    stays(&limited(repeat(0, x(), y()), 0, 255));
    stays(&triangular_limited(repeat(0, x(), y()), 0, 255));
}

#[test]
fn rule_9_wants_no_outer_loop_named() {
    let in_loop = |body| repeat(2, repeat(0, body, y()), block(0));
    stays(&in_loop(once(x(), 2)));
    stays(&in_loop(limited(x(), 0, 2)));
    stays(&in_loop(triangular_limited(x(), 0, 2)));
    stays(&in_loop(symbol_repeat(0, once(x(), 3), y())));
    stays(&in_loop(symbol_repeat(0, x(), once(y(), 2))));
    let run_and_outer = sequence(&[once(x(), 2), once(y(), 255)]);
    stays(&in_loop(run_and_outer));
    // Named by a zero as well: what counts is not the value.
    stays(&in_loop(sequence(&[x(), once(block(0), 2)])));
}

// The order of steps.

#[test]
fn the_earliest_record_comes_first() {
    let zero_beside = |child| sequence(&[child, block(0)]);
    let table = repeat(2, zero_beside(x()), zero_beside(y()));
    let first = repeat(2, sequence(&[x()]), zero_beside(y()));
    becomes(&table, 5, &first);
    let second = repeat(2, x(), zero_beside(y()));
    becomes(&first, 3, &second);
    ends(&table, 4, &repeat(2, x(), y()));
    // A higher rule at an earlier record goes before a lower rule at a later one.
    let table = sequence(&[block(2), block(1), choice(&[choice(&[x(), y()]), x()])]);
    becomes(
        &table,
        6,
        &sequence(&[block(3), choice(&[choice(&[x(), y()]), x()])]),
    );
}

#[test]
fn a_step_below_may_make_a_rule_fit_above() {
    // The loop becomes 4, and only then are there two plain blocks.
    let table = sequence(&[
        block(5),
        x(),
        repeat(2, block(2), block(0)),
        repeat(0, y(), block(1)),
    ]);
    let first = sequence(&[block(5), x(), block(4), repeat(0, y(), block(1))]);
    becomes(&table, 4, &first);
    let second = sequence(&[block(9), x(), repeat(0, y(), block(1))]);
    becomes(&first, 6, &second);
    ends(&table, 4, &sequence(&[block(10), x()]));
}

// Questions and allowances.

#[test]
fn questions_are_put_in_order() {
    let good = sequence(&[x(), block(0)]);
    let simplified = |steps, bytes: &[u8], finished| {
        Ok(Simplified {
            bytes: bytes.to_vec(),
            steps,
            finished,
        })
    };
    assert_eq!(agreed(&good, 0, 72), simplified(0, &good, false));
    let first = sequence(&[x()]);
    assert_eq!(agreed(&good, 1, 72), simplified(1, &first, false));
    assert_eq!(agreed(&good, 2, 72), simplified(2, &x(), true));
    assert_eq!(agreed(&good, 3, 72), simplified(2, &x(), true));
    assert_eq!(agreed(&good, 3, 100), simplified(2, &x(), true));
    assert_eq!(agreed(&x(), 0, 24), simplified(0, &x(), true));

    assert_eq!(agreed(&good, 3, 71), Err(8));
    assert_eq!(agreed(&good, 0, 0), Err(8));
    let past = sequence(&[block(1_000_000_000_000), block(1)]);
    assert_eq!(agreed(&past, 0, 72), Err(10));
    assert_eq!(agreed(&past, 0, 71), Err(8));
    let heavy = in_loops(8, 3, once(block(7), 255));
    assert_eq!(agreed(&heavy, 0, 0), Err(7));
    assert_eq!(agreed(&[], 0, 0), Err(1));
    // Symbols are 0 for question 10, and so are their triangular numbers.
    let one = || block(1);
    let at_ceiling = [
        x(),
        symbol_limited(one(), 15, 255),
        triangular_limited(one(), 15, 255),
        symbol_repeat(15, one(), block(0)),
    ];
    for node in at_ceiling {
        let table = sequence(&[block(1_000_000_000_000), node]);
        let answer = agreed(&table, 9, table.len());
        assert_eq!(answer, simplified(0, &table, true));
    }
    let limited = sequence(&[block(1_000_000_000_000), once(one(), 255)]);
    assert_eq!(agreed(&limited, 9, 72), Err(10));
}

/// Question 13 is about values, and simplifying is lent none.
#[test]
fn the_desks_ask_question_13_and_simplifying_does_not() {
    let body = choice(&[triangular_limited(block(9), 0, 1), block(4), block(3)]);
    let table = repeat(1_000_000, sequence(&[body]), block(0));
    let simple = repeat(
        1_000_000,
        choice(&[triangular_limited(block(9), 0, 1), block(4)]),
        block(0),
    );
    ends(&table, 2, &simple);
    let mut values = ZEROS;
    for (value, figure) in [
        (0, Ok(4_000_000)),
        (1_000, Ok(500_500 * 9 + 499_500 * 4)),
        (1_001, Err(13)),
        (1_000_000, Err(13)),
    ] {
        values[0] = value;
        for table in [&table, &simple] {
            let quoted = quotes::agreed(table, &values);
            assert_eq!(quoted.map(|quoted| quoted.figure), figure);
        }
    }
    // Where a step drops the limit, what is left of the table has a figure all the same.
    let table = repeat(0, triangular_limited(x(), 0, 1), block(5));
    ends(&table, 1, &block(5));
    let figures = [table, block(5)].map(|table| {
        let quoted = quotes::agreed(&table, &values);
        quoted.map(|quoted| quoted.figure)
    });
    assert_eq!(figures, [Err(13), Ok(5)]);
}
