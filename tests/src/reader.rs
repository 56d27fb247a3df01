//! The second reader: document 01's questions 1 to 7 in its words and order, each put to the whole
//! input before the next, with the flag that CR 3 of document 02 adds, the address of CR 6 and the paired
//! symbols of CR 7. Former tables, from before CR 6, are read as well, and as they were then.

use crate::format::*;
use crate::trees::{Amount, Kind, Limit, Tree};

/// The table's tree, or the number of the first question answered "no".
pub fn check(table: &[u8]) -> Result<Tree, u64> {
    check_records(table, RECORD_BYTES, record, weight)
}

/// The same of a former table. Its tree has address 0 at every node.
pub fn check_former(table: &[u8]) -> Result<Tree, u64> {
    check_records(table, FORMER_RECORD_BYTES, former_record, limit_weight)
}

/// The same of a table whose records have so many bytes, are read so and weigh so much.
fn check_records(
    table: &[u8],
    bytes: usize,
    read: fn(&[u8]) -> Record,
    weigh: fn(&Node) -> u64,
) -> Result<Tree, u64> {
    if !is_length_right(table, bytes) {
        return Err(1);
    }
    let records: Vec<Record> = table.chunks_exact(bytes).map(read).collect();
    if !records.iter().all(is_as_listed) {
        return Err(2);
    }
    if !records.iter().all(is_in_range) {
        return Err(3);
    }
    let Some(tree) = exactly_one_tree(&records) else {
        return Err(4);
    };
    check_weighed(&tree, weigh)?;
    Ok(tree)
}

/// Questions 5 to 7, which look at the tree alone: the number of the first one answered "no".
pub fn check_tree(tree: &Tree) -> Result<(), u64> {
    check_weighed(tree, weight)
}

/// The same where a node weighs so much.
fn check_weighed(tree: &Tree, weigh: fn(&Node) -> u64) -> Result<(), u64> {
    let nodes = nodes(tree);
    if !nodes.iter().all(is_within_depth_and_loops) {
        return Err(5);
    }
    if !nodes.iter().all(names_a_loop_around) {
        return Err(6);
    }
    if nodes.iter().map(weigh).sum::<u64>() > MOST_WEIGHT {
        return Err(7);
    }
    Ok(())
}

/// A record's fields, whatever they hold.
struct Record {
    kind: u8,
    flags: u8,
    children: usize,
    names: u8,
    limit: u64,
    value: u64,
    address: u32,
    /// Bytes 20 to 23, which a former record does not have, are each 255.
    is_filled: bool,
}

fn record(bytes: &[u8]) -> Record {
    Record {
        address: little_endian(&bytes[16..20]) as u32,
        is_filled: bytes[20..] == FILLER,
        ..former_record(bytes)
    }
}

fn former_record(bytes: &[u8]) -> Record {
    Record {
        kind: bytes[0],
        flags: bytes[1],
        children: usize::from(bytes[2]),
        names: bytes[3],
        limit: little_endian(&bytes[4..8]),
        value: little_endian(&bytes[8..16]),
        address: 0,
        is_filled: true,
    }
}

fn little_endian(bytes: &[u8]) -> u64 {
    bytes
        .iter()
        .rev()
        .fold(0, |number, &byte| number << 8 | u64::from(byte))
}

/// Question 1: is the length a multiple of 24 from 24 to 12,288? A former table's is one of 16 from 16
/// to 8,192.
fn is_length_right(table: &[u8], record: usize) -> bool {
    let longest = MOST_RECORDS * record;
    table.len().is_multiple_of(record) && (record..=longest).contains(&table.len())
}

/// Question 2: are kind, flags, children and byte 3 as listed, flag 1 only on blocks and loops,
/// flag 2 only with a limit, limit 0 where byte 3 is 0, value 0 in sequences and choices? Flag 4
/// without 2 is not listed, nor are bytes 20 to 23 other than 255.
fn is_as_listed(record: &Record) -> bool {
    let children_as_listed = match record.kind {
        BLOCK => record.children == 0,
        SEQUENCE | CHOICE => (1..=MOST_CHILDREN).contains(&record.children),
        LOOP => record.children == LOOP_CHILDREN,
        _ => return false,
    };
    let flags_as_listed = matches!(record.flags, 0..=3 | 6 | 7);
    let names_as_listed = matches!(record.names, NO_LIMIT | 1..=8 | WHOLE_RUN);
    let has_value = matches!(record.kind, BLOCK | LOOP);
    let has_limit = record.names != NO_LIMIT;

    children_as_listed
        && flags_as_listed
        && names_as_listed
        && (!value_is_symbol(record) || has_value)
        && (!limit_is_symbol(record) || has_limit)
        && (record.limit == 0 || has_limit)
        && (record.value == 0 || has_value)
        && record.is_filled
}

fn value_is_symbol(record: &Record) -> bool {
    record.flags & VALUE_IS_SYMBOL != 0
}

fn limit_is_symbol(record: &Record) -> bool {
    record.flags & LIMIT_IS_SYMBOL != 0
}

fn limit_is_triangular(record: &Record) -> bool {
    record.flags & LIMIT_IS_TRIANGULAR != 0
}

/// Question 3: are plain numbers and symbol numbers in range?
fn is_in_range(record: &Record) -> bool {
    let value_in_range = match record.kind {
        BLOCK => is_time(value(record)),
        LOOP => is_count(value(record)),
        _ => true,
    };
    value_in_range && limit(record).is_none_or(|limit| is_count(limit.amount))
}

fn is_time(amount: Amount) -> bool {
    match amount {
        Amount::Plain(number) => number <= MOST_TIME,
        Amount::Symbol(symbol) => TIME_SYMBOLS.contains(&symbol),
        Amount::Triangular(_) => false,
    }
}

fn is_count(amount: Amount) -> bool {
    match amount {
        Amount::Plain(number) => number <= MOST_COUNT,
        Amount::Symbol(symbol) | Amount::Triangular(symbol) => COUNT_SYMBOLS.contains(&symbol),
    }
}

fn value(record: &Record) -> Amount {
    amount(record.value, value_is_symbol(record))
}

fn limit(record: &Record) -> Option<Limit> {
    (record.names != NO_LIMIT).then(|| Limit {
        names: record.names,
        amount: if limit_is_triangular(record) {
            Amount::Triangular(record.limit)
        } else {
            amount(record.limit, limit_is_symbol(record))
        },
    })
}

fn amount(number: u64, is_symbol: bool) -> Amount {
    if is_symbol {
        Amount::Symbol(number)
    } else {
        Amount::Plain(number)
    }
}

/// Question 4: do the records form exactly one tree?
fn exactly_one_tree(records: &[Record]) -> Option<Tree> {
    let (tree, rest) = tree_at_front(records)?;
    rest.is_empty().then_some(tree)
}

/// The tree whose top is the first record, and the records after it.
fn tree_at_front(records: &[Record]) -> Option<(Tree, &[Record])> {
    let (top, mut rest) = records.split_first()?;
    let mut children = Vec::with_capacity(top.children);
    for _ in 0..top.children {
        let (child, after) = tree_at_front(rest)?;
        children.push(child);
        rest = after;
    }
    let kind = match top.kind {
        BLOCK => Kind::Block(value(top)),
        SEQUENCE => Kind::Sequence,
        CHOICE => Kind::Choice,
        _ => Kind::Loop(value(top)),
    };
    let tree = Tree {
        kind,
        limit: limit(top),
        address: top.address,
        children,
    };
    Some((tree, rest))
}

/// A node with its place in the tree.
struct Node<'t> {
    tree: &'t Tree,
    /// The root's is 1.
    depth: usize,
    /// How many loops are around the node.
    around: usize,
}

fn nodes(root: &Tree) -> Vec<Node<'_>> {
    let mut nodes = Vec::new();
    collect(root, 1, 0, &mut nodes);
    nodes
}

fn collect<'t>(tree: &'t Tree, depth: usize, around: usize, nodes: &mut Vec<Node<'t>>) {
    nodes.push(Node {
        tree,
        depth,
        around,
    });
    match (&tree.kind, &tree.children[..]) {
        // A loop is around a node if its body holds the node; its exit is outside it.
        (Kind::Loop(_), [body, exit]) => {
            collect(body, depth + 1, around + 1, nodes);
            collect(exit, depth + 1, around, nodes);
        }
        (_, children) => {
            for child in children {
                collect(child, depth + 1, around, nodes);
            }
        }
    }
}

/// Question 5: is it at most 32 nodes deep, the root being 1, with at most 8 loops around any node?
fn is_within_depth_and_loops(node: &Node) -> bool {
    node.depth <= MOST_DEPTH && node.around <= MOST_LOOPS
}

/// Question 6: does each byte 3 of 1 to 8 name a loop around its node?
fn names_a_loop_around(node: &Node) -> bool {
    match node.tree.limit {
        None => true,
        Some(limit) if limit.names == WHOLE_RUN => true,
        Some(limit) => usize::from(limit.names) <= node.around,
    }
}

/// Question 7: the weight of a node's limit, and besides, where it is a block of a paired symbol, that of
/// one more limit, in the whole run.
fn weight(node: &Node) -> u64 {
    let paired = match node.tree.paired_symbol() {
        None => 0,
        Some(_) => 1 << node.around,
    };
    limit_weight(node) + paired
}

/// A limit's 2 to the power of the number of loops around its node and inside the named one.
fn limit_weight(node: &Node) -> u64 {
    let inside = match node.tree.limit {
        None => return 0,
        Some(limit) if limit.names == WHOLE_RUN => node.around,
        Some(limit) => usize::from(limit.names) - 1,
    };
    1 << inside
}
