//! Tables that have grown old (document 02, m): lets whose variable the body does not name are replaced
//! by their bodies, and the nodes numbered children first in field order.

use crate::format;
use crate::kinds::{self, Node};
use crate::number;
use crate::program::Program;
use crate::refusal::{self, Refusal};
use std::collections::BTreeSet;

/// The answer to a tidied program: the new one's nodes, and its length in bytes.
#[derive(Clone, Copy, Debug, PartialEq, Eq)]
pub struct Tidied {
    pub nodes: usize,
    pub length: usize,
}

/// Tidies a program into the first blocks of a room: codes 1 to 8, then 19 if the room is shorter than
/// the old program.
pub fn tidy(program: &[u8], room: &mut [u8]) -> Result<Tidied, Refusal> {
    let old = Program::read(program)?;
    if room.len() < program.len() {
        return Err(Refusal::at(refusal::SHORT, 0));
    }
    let nodes = &old.tree.nodes;
    let order = order(nodes);
    let mut new = format::write(&number::in_order(nodes, &order));
    format::set_edition(&mut new, program[format::EDITION_AT]);
    room[..new.len()].copy_from_slice(&new);
    Ok(Tidied { nodes: order.len(), length: new.len() })
}

/// The old nodes that are left, in the new one's order: the pairing of what tidy makes.
pub fn order(nodes: &[Node]) -> Vec<usize> {
    let mut order = Vec::new();
    let dropped = unused(nodes, |_| true);
    number::children_first(nodes, &dropped, nodes.len() - 1, &mut order);
    order
}

/// The lets that are dropped, of those that may be: one whose body, as it is when its own unused lets
/// are dropped, does not name its variable. Children have smaller numbers, so one pass upward meets
/// each body before its let.
pub fn unused(nodes: &[Node], mut may: impl FnMut(usize) -> bool) -> Vec<bool> {
    let mut dropped = vec![false; nodes.len()];
    // The binders that each part names, until its parent has taken them over.
    let mut named: Vec<BTreeSet<u16>> = Vec::with_capacity(nodes.len());
    for (number, node) in nodes.iter().enumerate() {
        let mut own = BTreeSet::new();
        dropped[number] = node.kind == kinds::LET
            && !named[node.b as usize].contains(&(number as u16))
            && may(number);
        if node.kind == kinds::VARIABLE {
            own.insert(node.a);
        }
        for child in kinds::children(node) {
            let mut below = std::mem::take(&mut named[child.number as usize]);
            if !dropped[number] || child.field == kinds::Field::B {
                own.append(&mut below);
            }
        }
        named.push(own);
    }
    dropped
}
