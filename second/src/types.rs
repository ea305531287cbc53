//! Types, code 7: the type of each node, from its children's.

use crate::kinds::{self, Node};
use crate::refusal::{self, Refusal};
use crate::shape::Tree;
use crate::value::{self, BOOL, INT, MAYBE};

/// Finds the types, or refuses with code 7 at the smallest node whose own rule breaks. Children
/// have smaller numbers, so at the first fault they are all of known type. Branches and cases
/// have none and are given 0.
pub fn read(tree: &Tree) -> Result<Vec<u8>, Refusal> {
    let mut types: Vec<u8> = Vec::with_capacity(tree.nodes.len());
    for (number, node) in tree.nodes.iter().enumerate() {
        let own = match kinds::sort(node.kind) {
            kinds::Sort::Expression => expression(tree, &types, node),
            _ => signal(tree, &types, node),
        };
        match own {
            Some(ty) => types.push(ty),
            None => return Err(Refusal::at(refusal::TYPE, number)),
        }
    }
    Ok(types)
}

/// The type if the condition holds.
fn given(condition: bool, ty: u8) -> Option<u8> {
    condition.then_some(ty)
}

/// The type of a signal by its rule; also the rule of a case.
fn signal(tree: &Tree, types: &[u8], node: &Node) -> Option<u8> {
    let of = |number: u16| types[number as usize];
    match node.kind {
        kinds::INPUT if node.a <= 3 => Some(INT),
        kinds::INPUT => Some(INT + MAYBE),
        kinds::TIME => Some(INT),
        kinds::EXT | kinds::UNTIL => Some(of(node.a)),
        kinds::DELAY => given(of(node.a) == node.ty, node.ty),
        kinds::LET => given(of(node.a) == node.ty, of(node.b)),
        kinds::SWITCH => {
            given(of(node.b) == node.ty + MAYBE && of(node.a) == of(node.c), of(node.a))
        }
        kinds::GROUP => {
            let body = of(node.a);
            given(tree.list(node.b).all(|branch| of(tree.nodes[branch].a) == body), body)
        }
        kinds::BRANCH => Some(0),
        kinds::CASE => given(of(node.a) == tree.nodes[node.c as usize].ty + MAYBE, 0),
        _ => None,
    }
}

/// The type of an expression by its rule.
fn expression(tree: &Tree, types: &[u8], node: &Node) -> Option<u8> {
    let of = |number: u16| types[number as usize];
    let both = |ty| of(node.a) == ty && of(node.b) == ty;
    match node.kind {
        kinds::VARIABLE => Some(tree.nodes[node.a as usize].ty),
        kinds::CONSTANT => Some(node.ty),
        kinds::ADD | kinds::SUBTRACT | kinds::MULTIPLY => given(both(INT), INT),
        kinds::DIVIDE => given(both(INT), INT + MAYBE),
        kinds::LESS | kinds::EQUAL => given(both(INT), BOOL),
        kinds::NOT => given(of(node.a) == BOOL, BOOL),
        kinds::AND | kinds::OR => given(both(BOOL), BOOL),
        kinds::IF => given(of(node.a) == BOOL && of(node.b) == of(node.c), of(node.b)),
        kinds::JUST => given(value::is_plain(of(node.a)), of(node.a) + MAYBE),
        kinds::TAKE => given(of(node.a) == node.ty + MAYBE && of(node.b) == of(node.c), of(node.b)),
        _ => None,
    }
}
