//! Numbering the nodes of a tree anew: orders that put children before parents, and nodes with all
//! that they name by their new numbers.

use crate::kinds::{self, Node};
use crate::random::Random;
use crate::shape::Above;

/// Some order that puts children before parents: any such order, leaves first, or one part after the
/// other.
pub fn any_order(random: &mut Random, nodes: &[Node]) -> Vec<usize> {
    let mut parents = vec![usize::MAX; nodes.len()];
    let mut missing = vec![0usize; nodes.len()];
    for (number, node) in nodes.iter().enumerate() {
        for child in kinds::children(node) {
            parents[child.number as usize] = number;
            missing[number] += 1;
        }
    }
    let mut free: Vec<usize> = (0..nodes.len()).filter(|&number| missing[number] == 0).collect();
    let manner = random.below(4);
    let mut order = Vec::with_capacity(nodes.len());
    while !free.is_empty() {
        let at = match manner {
            0 => free.len() - 1,
            1 => 0,
            _ => random.below(free.len()),
        };
        let number = free.remove(at);
        order.push(number);
        if let Some(left) = missing.get_mut(parents[number]) {
            *left -= 1;
            if *left == 0 {
                free.push(parents[number]);
            }
        }
    }
    order
}

/// For each node its parent and the field by which it hangs there; none for the root.
pub fn parents(nodes: &[Node]) -> Vec<Option<Above>> {
    let mut above = vec![None; nodes.len()];
    for (parent, node) in nodes.iter().enumerate() {
        for child in kinds::children(node) {
            above[child.number as usize] = Some(Above { parent, field: child.field });
        }
    }
    above
}

/// The nodes below a node and the node itself, children first in field order; a let that is left out
/// stands for its body.
pub fn children_first(nodes: &[Node], left_out: &[bool], number: usize, order: &mut Vec<usize>) {
    let node = nodes[number];
    if left_out[number] {
        return children_first(nodes, left_out, node.b as usize, order);
    }
    for child in kinds::children(&node) {
        children_first(nodes, left_out, child.number as usize, order);
    }
    order.push(number);
}

/// The nodes of an order, with all that they name by its places. A let that the order leaves out
/// stands for its body.
pub fn in_order(nodes: &[Node], order: &[usize]) -> Vec<Node> {
    let mut places = vec![None; nodes.len()];
    order.iter().enumerate().for_each(|(place, &number)| places[number] = Some(place as u16));
    let place = |mut number: u16| loop {
        match places[number as usize] {
            Some(place) => return place,
            None => number = nodes[number as usize].b,
        }
    };
    order.iter().map(|&number| named_by(nodes[number], place)).collect()
}

/// A node with everything it names by its place.
pub fn named_by(node: Node, place: impl Fn(u16) -> u16) -> Node {
    let mut moved = node;
    kinds::children(&node)
        .for_each(|child| kinds::set(&mut moved, child.field, place(child.number)));
    match node.kind {
        kinds::VARIABLE => moved.a = place(node.a),
        kinds::CASE => moved.c = place(node.c),
        _ => {}
    }
    moved
}
