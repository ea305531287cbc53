//! Wild programs: of right shape, but with types, binders and targets at random, so that many
//! nodes are at fault at once and the smallest has to be found.

use crate::kinds::{self, Node, Sort, NO_NEXT};
use crate::random::Random;

/// The nodes so far, and by sort those that no node names yet.
struct Wild<'a> {
    random: &'a mut Random,
    nodes: Vec<Node>,
    unnamed: [Vec<u16>; 4],
}

/// All kinds that have children.
const PARENTS: [u8; 21] =
    [3, 4, 5, 6, 7, 8, 9, 10, 18, 19, 20, 21, 22, 23, 24, 25, 26, 27, 28, 29, 5];

/// A program of about so many nodes.
pub fn wild(random: &mut Random, count: usize) -> Vec<Node> {
    let mut wild = Wild { random, nodes: Vec::new(), unnamed: Default::default() };
    while wild.nodes.len() < count / 2 {
        wild.leaf();
    }
    while wild.nodes.len() < count {
        match wild.random.chance(15) {
            true => wild.leaf(),
            false => {
                let kind = wild.random.one(&PARENTS);
                wild.parent(kind);
            }
        }
    }
    wild.join();
    wild.name_binders();
    wild.nodes
}

impl Wild<'_> {
    fn push(&mut self, node: Node) {
        self.unnamed[kinds::sort(node.kind) as usize].push(self.nodes.len() as u16);
        self.nodes.push(node);
    }

    /// A node without children.
    fn leaf(&mut self) {
        let a = self.random.below(8) as u16;
        let node = match self.random.below(6) {
            0 => Node { kind: kinds::INPUT, a, ..Node::default() },
            1 => Node { kind: kinds::TIME, ..Node::default() },
            2 | 3 => Node { kind: kinds::VARIABLE, ..Node::default() },
            _ => Node { kind: kinds::CONSTANT, ty: self.any_type(), b: 1, ..Node::default() },
        };
        self.push(node);
    }

    fn any_type(&mut self) -> u8 {
        self.random.one(&[1, 2, 3, 3, 3, 3, 5, 6, 7, 7])
    }

    /// A node over children of the right sorts, where there are enough that none names yet.
    fn parent(&mut self, kind: u8) {
        let before = self.unnamed.clone();
        let mut node = Node { kind, ..Node::default() };
        for child in kinds::children(&node) {
            let pool = &mut self.unnamed[child.sort as usize];
            let is_next = matches!(kind, kinds::BRANCH | kinds::CASE) && child.sort != Sort::Signal;
            let number = match pool.len() {
                0 if !is_next => {
                    self.unnamed = before;
                    return;
                }
                0 => NO_NEXT,
                _ if is_next && self.random.chance(30) => NO_NEXT,
                length => pool.swap_remove(self.random.below(length)),
            };
            kinds::set(&mut node, child.field, number);
        }
        match kind {
            kinds::DELAY => (node.ty, node.b) = (self.any_type(), 1),
            kinds::LET => node.ty = self.any_type(),
            kinds::SWITCH | kinds::BRANCH | kinds::TAKE => {
                node.ty = self.random.between(1, 3) as u8
            }
            _ => {}
        }
        self.push(node);
    }

    /// Joins all unnamed nodes under one root; each turn leaves fewer of them, or adds a signal
    /// that the next turn takes.
    fn join(&mut self) {
        loop {
            let [signals, branches, cases, expressions] =
                [0, 1, 2, 3].map(|sort| self.unnamed[sort].len());
            let spare_signal = signals > 0;
            match (branches, cases, expressions) {
                (_, _, 1..) => self.parent(kinds::EXT),
                (1.., _, _) if spare_signal => self.parent(kinds::GROUP),
                (_, 1.., _) if spare_signal => self.parent(kinds::UNTIL),
                (0, 0, 0) if signals == 1 => return,
                (0, 0, 0) if spare_signal => self.parent(kinds::LET),
                _ => self.push(Node { kind: kinds::TIME, ..Node::default() }),
            }
        }
    }

    /// Lets variables name binders, and cases branches, most of them ones that are above.
    fn name_binders(&mut self) {
        let count = self.nodes.len();
        let mut above = vec![usize::MAX; count];
        for (number, node) in self.nodes.iter().enumerate() {
            kinds::children(node).for_each(|child| above[child.number as usize] = number);
        }
        for number in 0..count {
            let wanted: &[u8] = match self.nodes[number].kind {
                kinds::VARIABLE => &[kinds::LET, kinds::SWITCH, kinds::BRANCH, kinds::TAKE],
                kinds::CASE => &[kinds::BRANCH],
                _ => continue,
            };
            let fits = |&other: &usize| wanted.contains(&self.nodes[other].kind);
            let up = std::iter::successors(Some(number), |&it| above.get(it).copied());
            let near: Vec<usize> = up.take_while(|&it| it < count).filter(fits).collect();
            let all: Vec<usize> = (0..count).filter(fits).collect();
            let chosen = match (near.is_empty(), all.is_empty()) {
                (false, _) if self.random.chance(92) => self.random.one(&near),
                (_, false) if self.random.chance(90) => self.random.one(&all),
                _ => self.random.below(count),
            };
            match self.nodes[number].kind {
                kinds::VARIABLE => self.nodes[number].a = chosen as u16,
                _ => self.nodes[number].c = chosen as u16,
            }
        }
    }
}
