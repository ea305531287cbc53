//! Tables that have grown old: lets put around parts of a program, most of which no body names; their
//! variables may be used in their own definitions, under a delay, or in those of other unused lets.

use crate::grow;
use crate::kinds::{self, Field, Node};
use crate::number;
use crate::random::Random;
use crate::shape::{self, Above};
use crate::types;
use crate::value::{INT, MAYBE};

/// A tree of nodes in any order, with each node's place in it.
struct Table<'a> {
    random: &'a mut Random,
    edition: u8,
    nodes: Vec<Node>,
    above: Vec<Option<Above>>,
    /// The types of signals.
    types: Vec<u8>,
}

/// Puts lets around parts of an accepted program of an edition, until it has at most so many nodes.
pub fn overgrow(random: &mut Random, edition: u8, nodes: Vec<Node>, most: usize) -> Vec<Node> {
    let tree = shape::read(nodes).expect("an accepted program has a shape");
    let types = types::read(&tree).expect("and types");
    let mut table = Table { random, edition, nodes: tree.nodes, above: tree.above, types };
    let (deep, full) = (table.random.chance(15), table.random.chance(40));
    let mut at = table.nodes.len() - 1;
    while table.nodes.len() + 2 <= most && (full || !table.random.chance(4)) {
        if !deep {
            at = table.signal();
        }
        at = table.around(at, most - table.nodes.len());
    }
    table.name_some();
    let Table { random, nodes, .. } = table;
    let order = number::any_order(random, &nodes);
    number::in_order(&nodes, &order)
}

impl Table<'_> {
    /// A signal of the table, mostly of the younger ones, so that lets come to stand in lets.
    fn signal(&mut self) -> usize {
        loop {
            let from = if self.random.chance(40) { self.nodes.len() / 2 } else { 0 };
            let number = self.random.between(from, self.nodes.len() - 1);
            if kinds::sort(self.nodes[number].kind) == kinds::Sort::Signal {
                return number;
            }
        }
    }

    /// A new node over children; ints are all that the others of this module give, but lets.
    fn push(&mut self, kind: u8, ty: u8, [a, b, c]: [u16; 3]) -> u16 {
        let number = self.nodes.len();
        let node = Node { kind, ty, a, b, c, word: 0 };
        self.nodes.push(node);
        self.above.push(None);
        self.types.push(if kind == kinds::LET { self.types[b as usize] } else { INT });
        for child in kinds::children(&node) {
            self.above[child.number as usize] = Some(Above { parent: number, field: child.field });
        }
        number as u16
    }

    /// A let of a definition around a part, in that part's place.
    fn let_around(&mut self, part: usize, ty: u8, definition: u16) -> usize {
        let hung = self.above[part];
        let number = self.push(kinds::LET, ty, [definition, part as u16, 0]);
        self.hang(number, hung)
    }

    /// Hangs a new node where a part hung that is below it now.
    fn hang(&mut self, number: u16, hung: Option<Above>) -> usize {
        self.above[number as usize] = hung;
        if let Some(Above { parent, field }) = hung {
            kinds::set(&mut self.nodes[parent], field, number);
        }
        number as usize
    }

    /// Puts one let or some around a part, with at most so many more nodes; answers one of them, or its
    /// definition.
    fn around(&mut self, part: usize, room: usize) -> usize {
        let allowed = |weight, needed| if room >= needed { weight } else { 0 };
        let weights =
            [8, allowed(8, 4), allowed(6, 6), allowed(8, 5), allowed(6, 6), allowed(12, 4)];
        match self.random.weighted(&weights) {
            0 => self.plain(part),
            1 => self.grown(part, room - 1),
            2 => self.counting(part),
            3 => self.handed_on(part, room, false),
            4 => self.handed_on(part, room, true),
            _ if self.closed(part) => self.used(part),
            _ => self.plain(part),
        }
    }

    /// let x = input or time in the part
    fn plain(&mut self, part: usize) -> usize {
        let channel = self.random.below(9) as u16;
        let (kind, a) = if channel < 8 { (kinds::INPUT, channel) } else { (kinds::TIME, 0) };
        let definition = self.push(kind, 0, [a, 0, 0]);
        let ty = if (4..8).contains(&channel) { INT + MAYBE } else { INT };
        self.types[definition as usize] = ty;
        self.let_around(part, ty, definition)
    }

    /// let x = some program in the part: lets that are used and groups go with a definition.
    fn grown(&mut self, part: usize, room: usize) -> usize {
        let most = self.random.one(&[3, 8, 20, 60]).min(room);
        let count = self.random.between(1, most);
        let nodes = grow::grow(self.random, self.edition, count, 0);
        let tree = shape::read(nodes).expect("a grown program has a shape");
        let types = types::read(&tree).expect("and types");
        let ty = types[tree.root()];
        let from = self.nodes.len();
        for (number, node) in tree.nodes.iter().enumerate() {
            let moved = number::named_by(*node, |number| number + from as u16);
            self.nodes.push(moved);
            self.types.push(types[number]);
            let hung = tree.above[number];
            self.above.push(hung.map(|it| Above { parent: it.parent + from, ..it }));
        }
        self.let_around(part, ty, (from + tree.root()) as u16)
    }

    /// let x = delay 0 (ext x + 0) in the part
    fn counting(&mut self, part: usize) -> usize {
        let number = self.nodes.len() as u16 + 5;
        let own = self.push(kinds::VARIABLE, 0, [number, 0, 0]);
        let zero = self.push(kinds::CONSTANT, INT, [0, 1, 0]);
        let sum = self.push(kinds::ADD, 0, [own, zero, 0]);
        let ext = self.push(kinds::EXT, 0, [sum, 0, 0]);
        let delay = self.push(kinds::DELAY, INT, [ext, 1, 0]);
        self.let_around(part, INT, delay)
    }

    /// let x = time in let y = ext x in let z = ext y .. in the part; later ones may be delayed.
    fn handed_on(&mut self, part: usize, room: usize, delayed: bool) -> usize {
        let definition = self.push(kinds::TIME, 0, [0, 0, 0]);
        let first = self.let_around(part, INT, definition);
        let mut of = first;
        let each = if delayed { 4 } else { 3 };
        let most = ((room - 2) / each).min(6);
        for _ in 0..self.random.between(1, most) {
            let variable = self.push(kinds::VARIABLE, 0, [of as u16, 0, 0]);
            let mut definition = self.push(kinds::EXT, 0, [variable, 0, 0]);
            if delayed {
                definition = self.push(kinds::DELAY, INT, [definition, 1, 0]);
            }
            of = self.let_around(part, INT, definition);
        }
        first
    }

    /// Whether no case below a part jumps to a branch outside of it, as none may out of a definition.
    fn closed(&self, part: usize) -> bool {
        let (mut open, mut below) = (vec![part], vec![false; self.nodes.len()]);
        let mut targets = Vec::new();
        while let Some(number) = open.pop() {
            let node = self.nodes[number];
            below[number] = true;
            targets.extend((node.kind == kinds::CASE).then_some(node.c as usize));
            open.extend(kinds::children(&node).map(|child| child.number as usize));
        }
        targets.into_iter().all(|target| below[target])
    }

    /// let x = the part in ext x, or in a delay of that if it is an int.
    fn used(&mut self, part: usize) -> usize {
        let (hung, ty) = (self.above[part], self.types[part]);
        let number = self.nodes.len() as u16 + if ty == INT { 3 } else { 2 };
        let variable = self.push(kinds::VARIABLE, 0, [number, 0, 0]);
        let mut body = self.push(kinds::EXT, 0, [variable, 0, 0]);
        self.types[body as usize] = ty;
        if ty == INT {
            body = self.push(kinds::DELAY, INT, [body, 1, 0]);
        }
        let number = self.push(kinds::LET, ty, [part as u16, body, 0]);
        self.hang(number, hung)
    }

    /// Lets some variables and constants name other lets: anywhere, or outside of definitions, whose uses
    /// keep a let in any case.
    fn name_some(&mut self) {
        let mut leaves: Vec<usize> = (0..self.nodes.len()).collect();
        leaves.retain(|&it| matches!(self.nodes[it].kind, kinds::VARIABLE | kinds::CONSTANT));
        if self.random.chance(60) {
            let definition =
                |step: &Above| step.field == Field::A && self.nodes[step.parent].kind == kinds::LET;
            leaves.retain(|&leaf| !self.way_up(leaf).any(|step| definition(&step)));
        }
        let count = leaves.len();
        for _ in 0..self.random.one(&[0, 1, 3, count / 3, count, count]).min(count) {
            let leaf = self.random.one(&leaves);
            self.name_above(leaf);
        }
    }

    fn way_up(&self, from: usize) -> impl Iterator<Item = Above> + '_ {
        std::iter::successors(self.above[from], |step| self.above[step.parent])
    }

    /// Lets a variable or constant name a let of its type in whose body it stands.
    fn name_above(&mut self, leaf: usize) {
        let node = self.nodes[leaf];
        let of_constant = node.kind == kinds::CONSTANT;
        let ty = if of_constant { node.ty } else { self.nodes[node.a as usize].ty };
        let lets: Vec<u16> = self
            .way_up(leaf)
            .filter(|step| step.field == Field::B && self.nodes[step.parent].kind == kinds::LET)
            .filter(|step| self.nodes[step.parent].ty == ty)
            .map(|step| step.parent as u16)
            .collect();
        if !lets.is_empty() {
            let a = self.random.one(&lets);
            self.nodes[leaf] = Node { kind: kinds::VARIABLE, a, ..Node::default() };
        }
    }
}
