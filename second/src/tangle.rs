//! Programs that are not ready: lets whose own variables are used in their definitions, deep below
//! them and in many places, also where a use does not count.

use crate::kinds::{self, Node, NO_NEXT};
use crate::random::Random;
use crate::value::{BOOL, INT, MAYBE};

/// Turns leaves of some lets' definitions into uses of the let's own variable, where the types agree.
pub fn tangle(random: &mut Random, nodes: &mut [Node]) {
    let lets: Vec<usize> =
        (0..nodes.len()).filter(|&number| nodes[number].kind == kinds::LET).collect();
    if lets.is_empty() {
        return;
    }
    for _ in 0..random.one(&[1, 1, 2, 3]) {
        let of = random.one(&lets);
        let leaves = leaves_below(nodes, of);
        for _ in 0..random.one(&[1, 1, 2, 4]).min(leaves.len()) {
            nodes[random.one(&leaves)] =
                Node { kind: kinds::VARIABLE, a: of as u16, ..Node::default() };
        }
    }
}

/// The variables and constants in a let's definition that have its variable's type.
fn leaves_below(nodes: &[Node], of: usize) -> Vec<usize> {
    let mut open = vec![nodes[of].a as usize];
    let mut leaves = Vec::new();
    while let Some(number) = open.pop() {
        let node = nodes[number];
        let ty = match node.kind {
            kinds::VARIABLE => nodes[node.a as usize].ty,
            kinds::CONSTANT => node.ty,
            _ => 0,
        };
        if ty == nodes[of].ty {
            leaves.push(number);
        }
        open.extend(kinds::children(&node).map(|child| child.number as usize));
    }
    leaves
}

/// A spine: one use of a let's variable under as many nodes as there is room for, with other parts
/// beside the way, some of which use the variable where that does not count. All ints.
struct Spine<'a> {
    random: &'a mut Random,
    nodes: Vec<Node>,
}

/// The most nodes that a turn of the spine, or its end, adds.
const TURN: usize = 16;

/// A program of at most so many nodes (but at least some 20) around one long chain.
pub fn spine(random: &mut Random, count: usize) -> Vec<Node> {
    let mut spine = Spine { random, nodes: Vec::new() };
    let part = spine.random.between(0, count);
    let mut at = spine.own();
    while spine.nodes.len() + TURN < part {
        at = spine.expression(at);
    }
    at = spine.push(kinds::EXT, 0, [at, 0, 0]);
    while spine.nodes.len() + TURN < count {
        at = spine.signal(at);
    }
    let body = spine.quiet();
    let of = spine.push(kinds::LET, INT, [at, body, 0]);
    let mut nodes = spine.nodes;
    for node in nodes.iter_mut().filter(|node| node.kind == kinds::VARIABLE && node.a == NO_NEXT) {
        node.a = of;
    }
    nodes
}

impl Spine<'_> {
    fn push(&mut self, kind: u8, ty: u8, [a, b, c]: [u16; 3]) -> u16 {
        self.nodes.push(Node { kind, ty, a, b, c, word: 0 });
        (self.nodes.len() - 1) as u16
    }

    /// A use of the let's variable; its binder's number is filled in at the end.
    fn own(&mut self) -> u16 {
        self.push(kinds::VARIABLE, 0, [NO_NEXT, 0, 0])
    }

    fn constant(&mut self, ty: u8) -> u16 {
        self.push(kinds::CONSTANT, ty, [0, 1, 0])
    }

    /// A signal that needs nothing at once; now and then it is a delay of the let's own variable.
    fn quiet(&mut self) -> u16 {
        if self.random.chance(60) {
            return self.push(kinds::TIME, 0, [0, 0, 0]);
        }
        let own = self.own();
        let ext = self.push(kinds::EXT, 0, [own, 0, 0]);
        self.push(kinds::DELAY, INT, [ext, 1, 0])
    }

    /// An event; now and then it uses the let's own variable, which does not count.
    fn event(&mut self) -> u16 {
        if self.random.chance(60) {
            return self.push(kinds::INPUT, 0, [4, 0, 0]);
        }
        let own = self.own();
        let just = self.push(kinds::JUST, 0, [own, 0, 0]);
        self.push(kinds::EXT, 0, [just, 0, 0])
    }

    /// An expression around one.
    fn expression(&mut self, at: u16) -> u16 {
        match self.random.below(7) {
            0 => {
                let left = self.constant(INT);
                self.push(kinds::SUBTRACT, 0, [left, at, 0])
            }
            1 => {
                let when = self.constant(BOOL);
                let other = self.constant(INT);
                let arms =
                    if self.random.chance(50) { [when, at, other] } else { [when, other, at] };
                self.push(kinds::IF, 0, arms)
            }
            2 => {
                let other = self.constant(INT);
                let less = self.push(kinds::LESS, 0, [other, at, 0]);
                let not = self.push(kinds::NOT, 0, [less, 0, 0]);
                let (then, or) = (self.constant(INT), self.constant(INT));
                self.push(kinds::IF, 0, [not, then, or])
            }
            3 => {
                let just = self.push(kinds::JUST, 0, [at, 0, 0]);
                let (none, some) = (self.constant(INT), self.constant(INT));
                self.push(kinds::TAKE, INT, [just, none, some])
            }
            4 => {
                let of = self.constant(INT + MAYBE);
                let other = self.constant(INT);
                let arms = if self.random.chance(50) { [of, at, other] } else { [of, other, at] };
                self.push(kinds::TAKE, INT, arms)
            }
            _ => {
                let right = if self.random.chance(10) { self.own() } else { self.constant(INT) };
                self.push(kinds::ADD, 0, [at, right, 0])
            }
        }
    }

    /// A signal around one.
    fn signal(&mut self, at: u16) -> u16 {
        match self.random.below(7) {
            0 => {
                let body = self.quiet();
                self.push(kinds::LET, INT, [at, body, 0])
            }
            1 => {
                let definition = self.quiet();
                self.push(kinds::LET, INT, [definition, at, 0])
            }
            2 | 3 => {
                let (event, other) = (self.event(), self.quiet());
                let parts =
                    if self.random.chance(50) { [at, event, other] } else { [other, event, at] };
                self.push(kinds::SWITCH, INT, parts)
            }
            4 => self.group(at, None),
            5 => {
                let body = self.quiet();
                self.group(body, Some(at))
            }
            _ => self.until(at),
        }
    }

    /// A group with a body and one to three branches, one of which may have a body given.
    fn group(&mut self, body: u16, given: Option<u16>) -> u16 {
        let count = self.random.between(1, 3);
        let place = self.random.below(count);
        let mut next = NO_NEXT;
        for number in 0..count {
            let of = match given {
                Some(at) if number == place => at,
                _ => self.quiet(),
            };
            next = self.push(kinds::BRANCH, INT, [of, next, 0]);
        }
        self.push(kinds::GROUP, 0, [body, next, 0])
    }

    /// A group whose body is an until of a signal, with one case or two.
    fn until(&mut self, at: u16) -> u16 {
        let part = self.quiet();
        let branch = self.push(kinds::BRANCH, INT, [part, NO_NEXT, 0]);
        let mut next = NO_NEXT;
        for _ in 0..self.random.between(1, 2) {
            let event = self.event();
            next = self.push(kinds::CASE, 0, [event, next, branch]);
        }
        let until = self.push(kinds::UNTIL, 0, [at, next, 0]);
        self.push(kinds::GROUP, 0, [until, branch, 0])
    }
}
