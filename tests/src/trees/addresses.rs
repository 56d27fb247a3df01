//! Addresses of random trees, and trees that are the same but for them.

use super::Tree;
use crate::rng::Rng;

/// Few, so that some nodes share one, with both ends among them.
const FEW: [u32; 4] = [0, u32::MAX, 0x0800_04a0, 0x0800_04a4];

impl Tree {
    /// Whether both trees are the same but for their addresses.
    pub fn is_same(&self, other: &Tree) -> bool {
        self.kind == other.kind
            && self.limit == other.limit
            && self.children.len() == other.children.len()
            && self
                .children
                .iter()
                .zip(&other.children)
                .all(|(one, two)| one.is_same(two))
    }

    /// The same tree with address 0 at every node.
    pub fn unaddressed(&self) -> Tree {
        let mut tree = self.clone();
        tree.visit_mut(&mut |node| node.address = 0);
        tree
    }
}

/// Gives every node an address, 0 to all of some trees. They are drawn aside, so that a tree is the
/// same with addresses and without.
pub(super) fn put_addresses(rng: &Rng, tree: &mut Tree) {
    let mut rng = rng.aside();
    let few = &FEW[..rng.size(1..=FEW.len())];
    let any = few.len() == FEW.len();
    tree.visit_mut(&mut |node| {
        node.address = if any && rng.once_in(4) {
            rng.number() as u32
        } else {
            rng.pick(few)
        }
    });
}
