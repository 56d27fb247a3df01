//! Hand-written tables. Each function gives the records of a tree from plain literals, apart from
//! the encoder, so that a slip in either shows.

pub fn block(time: u64) -> Vec<u8> {
    record(0, 0, 0, time)
}

/// A block whose time is a symbol.
pub fn symbol_block(symbol: u64) -> Vec<u8> {
    record(0, 1, 0, symbol)
}

/// Symbol 16, the one that is replaced, filled or set in most tables by hand.
pub fn x() -> Vec<u8> {
    symbol_block(16)
}

/// Symbol 17, another.
pub fn y() -> Vec<u8> {
    symbol_block(17)
}

pub fn sequence(children: &[Vec<u8>]) -> Vec<u8> {
    [record(1, 0, children.len(), 0), children.concat()].concat()
}

pub fn choice(children: &[Vec<u8>]) -> Vec<u8> {
    [record(2, 0, children.len(), 0), children.concat()].concat()
}

/// A loop.
pub fn repeat(bound: u64, body: Vec<u8>, exit: Vec<u8>) -> Vec<u8> {
    [record(3, 0, 2, bound), body, exit].concat()
}

/// A loop whose bound is a symbol.
pub fn symbol_repeat(symbol: u64, body: Vec<u8>, exit: Vec<u8>) -> Vec<u8> {
    [record(3, 1, 2, symbol), body, exit].concat()
}

/// The tree with a limit on its top, that names a loop by byte 3.
pub fn limited(mut tree: Vec<u8>, limit: u32, names: u8) -> Vec<u8> {
    tree[3] = names;
    tree[4..8].copy_from_slice(&limit.to_le_bytes());
    tree
}

/// The tree with a limit on its top that is a symbol.
pub fn symbol_limited(tree: Vec<u8>, symbol: u32, names: u8) -> Vec<u8> {
    let mut tree = limited(tree, symbol, names);
    tree[1] |= 2;
    tree
}

/// The tree with a limit on its top that is the triangular number of a symbol.
pub fn triangular_limited(tree: Vec<u8>, symbol: u32, names: u8) -> Vec<u8> {
    let mut tree = limited(tree, symbol, names);
    tree[1] |= 6;
    tree
}

/// The tree with that address on its top.
pub fn addressed(mut tree: Vec<u8>, address: u32) -> Vec<u8> {
    tree[16..20].copy_from_slice(&address.to_le_bytes());
    tree
}

/// So many loops of that bound, each the body of the one before, around `inner`. Exits cost nothing.
pub fn in_loops(loops: usize, bound: u64, inner: Vec<u8>) -> Vec<u8> {
    (0..loops).fold(inner, |body, _| repeat(bound, body, block(0)))
}

/// So many sequences, each the only child of the one before, around `inner`.
pub fn in_sequences(sequences: usize, inner: Vec<u8>) -> Vec<u8> {
    (0..sequences).fold(inner, |child, _| sequence(&[child]))
}

/// A tree of so many records, from 260 on: one 1 and symbol 16 in all other blocks.
pub fn long(records: usize) -> Vec<u8> {
    let wide = |children| sequence(&vec![symbol_block(16); children]);
    sequence(&[wide(255), wide(records - 259), block(1)])
}

/// Tables that questions 1 to 7 refuse, in this order.
pub fn refused_tables() -> Vec<Vec<u8>> {
    vec![
        block(7)[..23].to_vec(),
        vec![4; 24],
        block(1_000_000_000_001),
        [block(1), block(2)].concat(),
        in_loops(9, 1, block(1)),
        limited(block(1), 1, 1),
        in_loops(8, 1, limited(block(1), 1, 255)),
    ]
}

/// A record without a limit, at address 0.
fn record(kind: u8, flags: u8, children: usize, value: u64) -> Vec<u8> {
    let children = u8::try_from(children).expect("at most 255 children");
    let (limit, address) = ([0; 4], [0; 4]);
    [
        &[kind, flags, children, 0],
        &limit[..],
        &value.to_le_bytes(),
        &address,
        &[255; 4],
    ]
    .concat()
}
