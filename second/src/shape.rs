//! Shape, code 5: the nodes form one tree whose children have smaller numbers.

use crate::kinds::{self, Field, Node, Sort};
use crate::refusal::{self, Refusal};

/// A node's place in the tree: its parent and the field by which it hangs there.
#[derive(Clone, Copy, Debug, PartialEq, Eq)]
pub struct Above {
    pub parent: usize,
    pub field: Field,
}

/// Nodes that form a tree; `above` is none for the root alone.
#[derive(Debug)]
pub struct Tree {
    pub nodes: Vec<Node>,
    pub above: Vec<Option<Above>>,
}

/// Builds the tree, or refuses with code 5 at the smallest node at fault.
pub fn read(nodes: Vec<Node>) -> Result<Tree, Refusal> {
    let count = nodes.len();
    let mut faulty = vec![false; count];
    let mut named = vec![0usize; count];
    let mut above = vec![None; count];
    for (number, node) in nodes.iter().enumerate() {
        for child in kinds::children(node) {
            let below = child.number as usize;
            if below >= number {
                faulty[number] = true;
                continue;
            }
            faulty[number] |= kinds::sort(nodes[below].kind) != child.sort;
            named[below] += 1;
            above[below] = Some(Above { parent: number, field: child.field });
        }
    }
    let last = count - 1;
    for number in 0..last {
        faulty[number] |= named[number] != 1;
    }
    faulty[last] |= kinds::sort(nodes[last].kind) != Sort::Signal;
    match faulty.iter().position(|&fault| fault) {
        Some(place) => Err(Refusal::at(refusal::SHAPE, place)),
        None => Ok(Tree { nodes, above }),
    }
}

impl Tree {
    /// The steps of the way up from a node to the root.
    pub fn way_up(&self, from: usize) -> impl Iterator<Item = Above> + '_ {
        std::iter::successors(self.above[from], |step| self.above[step.parent])
    }

    /// The members of a branch or case list from its first on.
    pub fn list(&self, first: u16) -> impl Iterator<Item = usize> + '_ {
        let real = |number: u16| (number != kinds::NO_NEXT).then_some(number as usize);
        std::iter::successors(real(first), move |&member| real(self.nodes[member].b))
    }

    /// The root: the last node.
    pub fn root(&self) -> usize {
        self.nodes.len() - 1
    }
}
