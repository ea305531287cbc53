//! Tidied tables from others (document 02, n): an old program, a new one, and for each new node its old
//! one.

use crate::format::EDITION_AT;
use crate::kinds::{self, Node, NO_NEXT};
use crate::program::Program;
use crate::refusal::{self, Refusal};

/// Accepts a pairing, or refuses: codes 1 to 8 of old, then of new with 32 added, then 29 for differing
/// editions, 27 for the count of entries, 28 at the first wrong entry.
pub fn paired(old: &[u8], new: &[u8], pairing: &[u16]) -> Result<(), Refusal> {
    let from = Program::read(old)?;
    let of_new = |refusal: Refusal| Refusal { code: refusal.code + refusal::OF_NEW, ..refusal };
    let to = Program::read(new).map_err(of_new)?;
    if old[EDITION_AT] != new[EDITION_AT] {
        return Err(Refusal::at(refusal::EDITIONS, 0));
    }
    if pairing.len() != to.tree.nodes.len() {
        return Err(Refusal::at(refusal::PAIRS, 0));
    }
    let pairs = Pairs { old: &from.tree.nodes, new: &to.tree.nodes, pairing };
    match (0..pairing.len()).find(|&place| !pairs.right(place)) {
        Some(place) => Err(Refusal::at(refusal::ENTRY, place)),
        None => Ok(()),
    }
}

/// Two tables and a pairing of the new one's length.
struct Pairs<'a> {
    old: &'a [Node],
    new: &'a [Node],
    pairing: &'a [u16],
}

impl Pairs<'_> {
    /// Whether an entry is right.
    fn right(&self, place: usize) -> bool {
        let (number, new) = (self.pairing[place], &self.new[place]);
        let Some(old) = self.old.get(number as usize) else { return false };
        let last = place + 1 == self.new.len();
        alike(old, new)
            && self.children_right(old, new)
            && self.names_right(old, new)
            && (!last || self.reached(self.old.len() as u16 - 1, number))
    }

    /// "Each new child is paired with a node reached from the old child of that field". Alike nodes
    /// have children in the same fields.
    fn children_right(&self, old: &Node, new: &Node) -> bool {
        let mut both = kinds::children(old).zip(kinds::children(new));
        both.all(|(from, to)| self.reached(from.number, self.pairing[to.number as usize]))
    }

    /// "Binder and target are paired with the old binder and target."
    fn names_right(&self, old: &Node, new: &Node) -> bool {
        let paired = |new: u16, old: u16| self.pairing[new as usize] == old;
        match new.kind {
            kinds::VARIABLE => paired(new.a, old.a),
            kinds::CASE => paired(new.c, old.c),
            _ => true,
        }
    }

    /// Whether an old node is reached from another through the bodies of zero or more lets.
    fn reached(&self, from: u16, wanted: u16) -> bool {
        let body = |&number: &u16| {
            let node = self.old[number as usize];
            (node.kind == kinds::LET).then_some(node.b)
        };
        std::iter::successors(Some(from), body).any(|number| number == wanted)
    }
}

/// "The same kind, type and plain fields, and a next exactly where that has one": the fields that name
/// no node.
fn alike(old: &Node, new: &Node) -> bool {
    let plain = match new.kind {
        kinds::INPUT => old.a == new.a,
        kinds::DELAY | kinds::CONSTANT => old.b == new.b,
        kinds::BRANCH | kinds::CASE => (old.b == NO_NEXT) == (new.b == NO_NEXT),
        _ => true,
    };
    old.kind == new.kind && old.ty == new.ty && old.word == new.word && plain
}
