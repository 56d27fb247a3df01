//! Where the rules fit, read off a table's bytes and asked anew at every record, in document 01's
//! words. It shares nothing with the second simplifier, and is for small tables only.

use crate::format::*;
use std::ops::Range;

/// The earliest record where a rule fits, and there the lowest rule. The table has passed the
/// questions.
pub fn first(table: &[u8]) -> Option<(usize, usize)> {
    let nodes = Nodes::new(table);
    let records = 0..nodes.places.len();
    let mut all = records.flat_map(|record| (1..=9).map(move |rule| (record, rule)));
    all.find(|&(record, rule)| nodes.fits(rule, record))
}

/// The records of the subtree that starts at a record.
pub fn subtree(table: &[u8], record: usize) -> Range<usize> {
    record..Nodes::new(table).places[record].end
}

struct Nodes<'t> {
    table: &'t [u8],
    places: Vec<Place>,
}

/// What a record's bytes do not say by themselves.
#[derive(Default)]
struct Place {
    /// The records of the children.
    children: Vec<usize>,
    /// The record after the subtree.
    end: usize,
    /// The record of the loop that the limit names, or none for the run, if there is a limit.
    limit: Option<Option<usize>>,
}

impl<'t> Nodes<'t> {
    fn new(table: &'t [u8]) -> Self {
        let mut nodes = Nodes {
            table,
            places: Vec::new(),
        };
        nodes.place(&mut Vec::new());
        nodes
    }

    /// Places the next record and all below it. `around` holds the records of the loops around it,
    /// from the outermost on.
    fn place(&mut self, around: &mut Vec<usize>) -> usize {
        let record = self.places.len();
        self.places.push(Place::default());
        let limit = match self.byte(record, 3) {
            0 => None,
            255 => Some(None),
            names => Some(Some(around[around.len() - usize::from(names)])),
        };
        let mut children = Vec::new();
        for child in 0..self.byte(record, 2) {
            let is_body = self.byte(record, 0) == LOOP && child == 0;
            if is_body {
                around.push(record);
            }
            children.push(self.place(around));
            if is_body {
                around.pop();
            }
        }
        let end = self.places.len();
        self.places[record] = Place {
            children,
            end,
            limit,
        };
        record
    }

    fn byte(&self, record: usize, byte: usize) -> u8 {
        self.table[record * RECORD_BYTES + byte]
    }

    fn children(&self, record: usize) -> &[usize] {
        &self.places[record].children
    }

    fn subtree(&self, record: usize) -> Range<usize> {
        record..self.places[record].end
    }

    /// The bytes of some records without their addresses.
    fn bytes(&self, records: Range<usize>) -> Vec<u8> {
        let fields = |record| (0..16).map(move |byte| self.byte(record, byte));
        records.flat_map(fields).collect()
    }

    fn is_unlimited(&self, record: usize) -> bool {
        self.places[record].limit.is_none()
    }

    fn is_list(&self, record: usize) -> bool {
        [SEQUENCE, CHOICE].contains(&self.byte(record, 0))
    }

    fn is_symbol_free(&self, record: usize) -> bool {
        self.subtree(record).all(|node| self.byte(node, 1) == 0)
    }

    fn has_value_0(&self, record: usize) -> bool {
        (8..16).all(|byte| self.byte(record, byte) == 0)
    }

    /// An unlimited plain block.
    fn is_plain_block(&self, record: usize) -> bool {
        (0..4).all(|byte| self.byte(record, byte) == 0)
    }

    fn has_plain_blocks(&self, record: usize, least: usize) -> bool {
        let children = self.children(record).iter();
        children
            .filter(|&&child| self.is_plain_block(child))
            .count()
            >= least
    }

    /// A block whose time is one of symbols 24 to 31.
    fn is_paired(&self, record: usize) -> bool {
        self.byte(record, 0) == BLOCK && self.byte(record, 1) & 1 != 0 && self.byte(record, 8) >= 24
    }

    /// Whether each limit in the subtree names a loop in it, or else `aside`, and no paired symbol is in it.
    fn is_closed_but_for(&self, record: usize, aside: usize) -> bool {
        let inside = self.subtree(record);
        let mut limits = inside.clone().filter_map(|node| self.places[node].limit);
        limits.all(|names| names.is_some_and(|named| named == aside || inside.contains(&named)))
            && !inside.clone().any(|node| self.is_paired(node))
    }

    fn is_closed(&self, record: usize) -> bool {
        // No limit names the node that it is on.
        self.is_closed_but_for(record, record)
    }

    /// The loop that the list names, or none for the run. Of the loops around a node the inner ones
    /// have the later records, and the run is before all.
    fn names(&self, record: usize) -> Option<usize> {
        let children = self.children(record).iter().map(|&child| self.names(child));
        // A body that names this very loop leaves the run.
        let named = children.map(|named| named.filter(|&named| named != record));
        let limit = self.places[record].limit.flatten();
        named.max().flatten().max(limit)
    }

    fn fits(&self, rule: usize, record: usize) -> bool {
        let kind = self.byte(record, 0);
        let children = self.children(record);
        match rule {
            1 => record == 0 && self.is_symbol_free(0) && !self.is_plain_block(0),
            2 => self.is_list(record) && children.iter().any(|&child| self.may_open(record, child)),
            3 => {
                self.is_list(record)
                    && children.len() == 1
                    && (self.is_unlimited(record) || self.is_unlimited(children[0]))
            }
            4 => {
                kind != BLOCK
                    && self.is_symbol_free(record)
                    && children
                        .iter()
                        .all(|&child| self.is_closed_but_for(child, record))
            }
            5 => {
                let is_zero =
                    |&child: &usize| self.is_plain_block(child) && self.has_value_0(child);
                self.is_list(record) && children.len() >= 2 && children.iter().any(is_zero)
            }
            6 => kind == SEQUENCE && self.has_plain_blocks(record, 2),
            7 => kind == CHOICE && self.has_plain_blocks(record, 2),
            8 => kind == CHOICE && children.len() >= 2 && self.end_alike(children),
            _ => {
                kind == LOOP
                    && self.is_unlimited(record)
                    && self.byte(record, 1) == 0
                    && self.has_value_0(record)
                    && [None, Some(record)].contains(&self.names(children[0]))
            }
        }
    }

    /// Whether rule 2 can put the child's children in its place.
    fn may_open(&self, record: usize, child: usize) -> bool {
        let count = self.children(record).len() - 1 + self.children(child).len();
        self.byte(child, 0) == self.byte(record, 0)
            && self.is_unlimited(child)
            && count <= MOST_CHILDREN
    }

    /// Whether these are unlimited two-child sequences with closed second children that are byte-equal
    /// but for their addresses.
    fn end_alike(&self, pairs: &[usize]) -> bool {
        let is_pair = |&pair: &usize| {
            self.byte(pair, 0) == SEQUENCE
                && self.is_unlimited(pair)
                && self.children(pair).len() == 2
        };
        let second = |pair: usize| self.children(pair)[1];
        let bytes = |pair: usize| self.bytes(self.subtree(second(pair)));
        pairs.iter().all(is_pair)
            && pairs.iter().all(|&pair| self.is_closed(second(pair)))
            && pairs.iter().all(|&pair| bytes(pair) == bytes(pairs[0]))
    }
}
