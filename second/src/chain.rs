//! "Why is it not ready?" (document 02, d): the chain from a let's definition down to the use of its
//! own variable.

use crate::kinds::{self, Field};
use crate::refusal::{self, Refusal};
use crate::shape::{self, Tree};
use crate::{format, ready, scope, types};

/// How many entries the room must have.
pub const ENTRIES: usize = 1008;

/// An entry after the chain.
pub const NO_ENTRY: u16 = 65535;

/// The answer to an explained program: the let that code 8 names, and how many entries its chain has.
#[derive(Clone, Copy, Debug, PartialEq, Eq)]
pub struct Explained {
    pub node: usize,
    pub entries: usize,
}

/// Explains why a program is not ready: codes 1 to 7, then 25 if it is, then 26 for the room.
pub fn explain(program: &[u8], room: &mut [u16]) -> Result<Explained, Refusal> {
    let tree = shape::read(format::read(program)?)?;
    scope::read(&tree, program[format::EDITION_AT])?;
    types::read(&tree)?;
    let Err(fault) = ready::read(&tree) else {
        return Err(Refusal::at(refusal::NO_LET, 0));
    };
    if room.len() != ENTRIES {
        return Err(Refusal::at(refusal::ROOM, 0));
    }
    let node = fault.place as usize;
    let mut chain = Vec::new();
    let found = down(&tree, node, tree.nodes[node].a, &mut chain);
    assert!(found, "a let that is not ready has a chain");
    room.fill(NO_ENTRY);
    room[..chain.len()].copy_from_slice(&chain);
    Ok(Explained { node, entries: chain.len() })
}

/// Goes down from a node by the first field that leads to a use of the let's variable; the chain
/// gets the nodes of that way, or stays as it was where there is none.
fn down(tree: &Tree, of: usize, at: u16, chain: &mut Vec<u16>) -> bool {
    chain.push(at);
    let node = tree.nodes[at as usize];
    if node.kind == kinds::VARIABLE && node.a as usize == of {
        return true;
    }
    for child in kinds::children(&node) {
        if entered(node.kind, child.field) && down(tree, of, child.number, chain) {
            return true;
        }
    }
    chain.pop();
    false
}

/// No delay is entered to its signal, no switch or until to its event (an until's events hang on its
/// list of cases).
fn entered(kind: u8, field: Field) -> bool {
    match kind {
        kinds::DELAY => false,
        kinds::SWITCH | kinds::UNTIL => field != Field::B,
        _ => true,
    }
}
