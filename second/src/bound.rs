//! The bound of a step's work: the work rules with the larger of the possible parts or arms.

use crate::kinds;
use crate::shape::Tree;

/// The bounds of one node: of its evaluation and of its update.
#[derive(Clone, Copy, Default)]
struct Bounds {
    evaluate: u64,
    update: u64,
}

/// The bound of a step: the root's evaluation and its update.
pub fn of(tree: &Tree) -> u64 {
    let mut bounds: Vec<Bounds> = Vec::with_capacity(tree.nodes.len());
    for number in 0..tree.nodes.len() {
        let evaluate = evaluation(tree, &bounds, number);
        let update = updating(tree, &bounds, number);
        bounds.push(Bounds { evaluate, update });
    }
    let root = bounds[tree.root()];
    root.evaluate + root.update
}

/// The bound of evaluating a node; list members have none of their own.
fn evaluation(tree: &Tree, bounds: &[Bounds], number: usize) -> u64 {
    let node = &tree.nodes[number];
    let of = |number: u16| bounds[number as usize].evaluate;
    match node.kind {
        kinds::INPUT | kinds::TIME | kinds::DELAY => 1,
        kinds::VARIABLE | kinds::CONSTANT => 1,
        kinds::EXT | kinds::UNTIL | kinds::NOT | kinds::JUST => 1 + of(node.a),
        kinds::LET => 1 + of(node.a) + of(node.b),
        kinds::ADD..=kinds::EQUAL | kinds::AND | kinds::OR => 1 + of(node.a) + of(node.b),
        kinds::SWITCH => 1 + of(node.a).max(of(node.c)),
        kinds::GROUP => 1 + bodies(tree, number).map(of).max().unwrap_or(0),
        kinds::IF | kinds::TAKE => 1 + of(node.a) + of(node.b).max(of(node.c)),
        _ => 0,
    }
}

/// The bound of updating a signal; expressions and list members have none.
fn updating(tree: &Tree, bounds: &[Bounds], number: usize) -> u64 {
    let node = &tree.nodes[number];
    let update = |number: u16| bounds[number as usize].update;
    let both = |number: u16| bounds[number as usize].evaluate + update(number);
    match node.kind {
        kinds::INPUT | kinds::TIME | kinds::EXT => 1,
        kinds::DELAY => 1 + both(node.a),
        kinds::LET => 1 + both(node.a) + update(node.b),
        kinds::SWITCH => 1 + both(node.b) + update(node.a).max(update(node.c)),
        kinds::GROUP => 1 + bodies(tree, number).map(update).max().unwrap_or(0),
        kinds::UNTIL => {
            let events: u64 = tree.list(node.b).map(|case| both(tree.nodes[case].a)).sum();
            1 + events + update(node.a)
        }
        _ => 0,
    }
}

/// The parts of a group: its body and the bodies of its branches.
fn bodies(tree: &Tree, group: usize) -> impl Iterator<Item = u16> + '_ {
    let node = &tree.nodes[group];
    let branches = tree.list(node.b).map(|branch| tree.nodes[branch].a);
    std::iter::once(node.a).chain(branches)
}
