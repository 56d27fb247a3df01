//! A third evaluator, for small trees only: lists written out member by member, the named loop as byte
//! 3 counts it, and a choice's branch. It shares nothing with the second.

use crate::format::*;
use crate::trees::{Amount, Kind, Tree};
use std::cmp::Reverse;

/// The first members of a node's list.
#[derive(Clone, Debug)]
pub struct Front {
    pub members: Vec<u64>,
    /// The named loop as byte 3 would name it at the node, so that the inner of two is the smaller.
    pub names: u8,
    /// The child that has a choice's first member, counted from 0.
    pub branch: Option<usize>,
}

/// The front of a node's list, with so many members and at least one; or 10, question 10's refusal.
/// The time grows with the product of the bounds of nested loops.
pub fn front(tree: &Tree, members: usize, values: &[u64]) -> Result<Front, u64> {
    let before_limit = match tree.kind {
        Kind::Block(time) => Front {
            members: block(time, members, values),
            names: WHOLE_RUN,
            branch: None,
        },
        Kind::Sequence => sequence(&fronts(&tree.children, members, values)?),
        Kind::Choice => choice(&fronts(&tree.children, members, values)?),
        Kind::Loop(bound) => {
            let bound = number(bound, values) as usize;
            let body = front(&tree.children[0], (bound * members).max(1), values)?;
            let exit = front(&tree.children[1], members, values)?;
            sequence(&[passes(body, bound, members), exit])
        }
    };
    if before_limit.members[0] > MOST_TIME {
        return Err(10);
    }
    Ok(limited(before_limit, tree, values))
}

/// Every member is the time, but that a paired symbol's are its later value after the first.
fn block(time: Amount, members: usize, values: &[u64]) -> Vec<u64> {
    let mut times = vec![number(time, values); members];
    if let Amount::Symbol(symbol @ 24..=31) = time {
        times[1..].fill(values[symbol as usize + LATER]);
    }
    times
}

fn fronts(trees: &[Tree], members: usize, values: &[u64]) -> Result<Vec<Front>, u64> {
    trees
        .iter()
        .map(|tree| front(tree, members, values))
        .collect()
}

fn sequence(fronts: &[Front]) -> Front {
    let members = fronts[0].members.len();
    Front {
        members: (0..members)
            .map(|place| fronts.iter().map(|front| front.members[place]).sum())
            .collect(),
        names: innermost(fronts),
        branch: None,
    }
}

/// Each member is taken together with its child. The sort leaves equal ones as they were, child by
/// child, so that the first of all is the earliest child's.
fn choice(fronts: &[Front]) -> Front {
    let mut members: Vec<(u64, usize)> = fronts
        .iter()
        .enumerate()
        .flat_map(|(child, front)| front.members.iter().map(move |&member| (member, child)))
        .collect();
    members.sort_by_key(|&(member, _)| Reverse(member));
    members.truncate(fronts[0].members.len());
    Front {
        names: innermost(fronts),
        branch: members.first().map(|&(_, child)| child),
        members: members.into_iter().map(|(member, _)| member).collect(),
    }
}

fn innermost(fronts: &[Front]) -> u8 {
    let names = fronts.iter().map(|front| front.names);
    names.min().expect("at least one child")
}

fn passes(body: Front, bound: usize, members: usize) -> Front {
    let sum = |group: usize| body.members[group * bound..][..bound].iter().sum();
    let (members, names) = match body.names {
        1 => (vec![sum(0); members], WHOLE_RUN),
        WHOLE_RUN => ((0..members).map(sum).collect(), WHOLE_RUN),
        names => ((0..members).map(sum).collect(), names - 1),
    };
    Front {
        members,
        names,
        branch: None,
    }
}

fn limited(mut front: Front, tree: &Tree, values: &[u64]) -> Front {
    if let Some(limit) = tree.limit {
        let kept = number(limit.amount, values) as usize;
        front
            .members
            .iter_mut()
            .skip(kept)
            .for_each(|member| *member = 0);
        front.names = front.names.min(limit.names);
    }
    front
}

fn number(amount: Amount, values: &[u64]) -> u64 {
    match amount {
        Amount::Plain(number) => number,
        Amount::Symbol(symbol) => values[symbol as usize],
        Amount::Triangular(symbol) => (1..=values[symbol as usize]).sum(),
    }
}
