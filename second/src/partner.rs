//! Tables that a partner yard tidied: new tables with pairings, right ones and such as are wrong in one
//! way.

use crate::kinds::{self, Field, Node, NO_NEXT};
use crate::number;
use crate::random::Random;
use crate::shape;
use crate::tidy;
use crate::types;
use crate::value::MAYBE;

/// A new table, and for each of its nodes the old one.
#[derive(Clone, Debug)]
pub struct Offer {
    pub nodes: Vec<Node>,
    pub pairing: Vec<u16>,
}

/// A right offer: all unused lets dropped, some or none; numbered as tidy does, or in any order.
pub fn right(random: &mut Random, old: &[Node]) -> Offer {
    let percent = random.one(&[0, 30, 70, 100, 100]);
    let dropped = tidy::unused(old, |_| random.chance(percent));
    let mut left = Vec::new();
    number::children_first(old, &dropped, old.len() - 1, &mut left);
    let nodes = number::in_order(old, &left);
    let mut offer = Offer { nodes, pairing: left.into_iter().map(|it| it as u16).collect() };
    if random.chance(60) {
        offer.shuffle(random);
    }
    offer
}

impl Offer {
    /// Numbers the new nodes in any order that puts children first, and pairs them as before.
    fn shuffle(&mut self, random: &mut Random) {
        let order = number::any_order(random, &self.nodes);
        self.nodes = number::in_order(&self.nodes, &order);
        self.pairing = order.iter().map(|&number| self.pairing[number]).collect();
    }

    /// Makes the offer wrong in one way, or leaves it where that way is not at hand.
    pub fn bend(&mut self, random: &mut Random, old: &[Node]) {
        match random.weighted(&[20, 12, 8, 8, 10, 10, 8, 6, 8]) {
            0 => self.other_entry(random, old),
            1 => self.exchange_entries(random),
            2 => self.other_field(random),
            3 => self.other_binder(random),
            4 => self.drop_used(random),
            5 => self.add_next(random),
            6 => self.cut_next(random),
            7 => self.swap_operands(random),
            _ => self.let_too_many(random),
        }
    }

    /// One entry names another old node: any number, a near one, or one of the same kind and type.
    fn other_entry(&mut self, random: &mut Random, old: &[Node]) {
        let place = random.below(self.pairing.len());
        let was = self.pairing[place];
        let node = self.nodes[place];
        let alike = |&it: &u16| {
            let other = &old[it as usize];
            it != was && other.kind == node.kind && other.ty == node.ty
        };
        let twins: Vec<u16> = (0..old.len() as u16).filter(alike).collect();
        self.pairing[place] = match random.below(6) {
            0..3 if !twins.is_empty() => random.one(&twins),
            3 => random.one(&[was.wrapping_add(1), was.wrapping_sub(1)]),
            4 => random.one(&[old.len() as u16, old.len() as u16 - 1, NO_NEXT, 1008]),
            _ => random.below(old.len()) as u16,
        };
    }

    /// Two entries change places, most of them of nodes of one kind and type.
    fn exchange_entries(&mut self, random: &mut Random) {
        for _ in 0..40 {
            let [one, other] = [0; 2].map(|_| random.below(self.nodes.len()));
            let (first, second) = (&self.nodes[one], &self.nodes[other]);
            if one != other && first.kind == second.kind && first.ty == second.ty {
                return self.pairing.swap(one, other);
            }
        }
        let [one, other] = [0; 2].map(|_| random.below(self.nodes.len()));
        self.pairing.swap(one, other);
    }

    /// The new nodes of some kinds.
    fn of_kinds(&self, kinds: &[u8]) -> Vec<usize> {
        (0..self.nodes.len()).filter(|&it| kinds.contains(&self.nodes[it].kind)).collect()
    }

    /// Another channel, or another word of a constant or first value.
    fn other_field(&mut self, random: &mut Random) {
        let some = self.of_kinds(&[kinds::INPUT, kinds::CONSTANT, kinds::DELAY]);
        if some.is_empty() {
            return;
        }
        let node = &mut self.nodes[random.one(&some)];
        match (node.kind, node.ty) {
            (kinds::INPUT, _) => node.a ^= random.one(&[1, 2, 3]),
            (_, 3) => node.word = node.word.wrapping_add(random.one(&[1, -1, 256])),
            (_, 2) => node.word ^= 1,
            (_, 5..) => (node.b, node.word) = (node.b ^ 1, 0),
            _ => {}
        }
    }

    /// A variable names another binder of its type on its way up.
    fn other_binder(&mut self, random: &mut Random) {
        let variables = self.of_kinds(&[kinds::VARIABLE]);
        if variables.is_empty() {
            return;
        }
        let variable = random.one(&variables);
        let others = self.binders_above(variable);
        if !others.is_empty() {
            self.nodes[variable].a = random.one(&others);
        }
    }

    /// The binders other than a variable's own, of its type, in whose body, second part or present arm
    /// it stands.
    fn binders_above(&self, variable: usize) -> Vec<u16> {
        let above = number::parents(&self.nodes);
        let own = self.nodes[variable].a;
        let ty = self.nodes[own as usize].ty;
        let up = std::iter::successors(above[variable], |step| above[step.parent]);
        let binds = |kind: u8, field: Field| match kind {
            kinds::LET => field == Field::B,
            kinds::SWITCH | kinds::TAKE => field == Field::C,
            kinds::BRANCH => field == Field::A,
            _ => false,
        };
        up.filter(|step| binds(self.nodes[step.parent].kind, step.field))
            .filter(|step| self.nodes[step.parent].ty == ty && step.parent as u16 != own)
            .map(|step| step.parent as u16)
            .collect()
    }

    /// A let that is used is dropped: its variables name another binder, or are constants.
    fn drop_used(&mut self, random: &mut Random) {
        let used = |&it: &usize| {
            let names = |node: &Node| node.kind == kinds::VARIABLE && node.a as usize == it;
            self.nodes.iter().any(names)
        };
        let lets: Vec<usize> = self.of_kinds(&[kinds::LET]).into_iter().filter(used).collect();
        if lets.is_empty() {
            return;
        }
        let gone = random.one(&lets);
        for number in self.of_kinds(&[kinds::VARIABLE]) {
            if self.nodes[number].a as usize != gone {
                continue;
            }
            let (others, ty) = (self.binders_above(number), self.nodes[gone].ty);
            let constant = Node { kind: kinds::CONSTANT, ty, b: 1, ..Node::default() };
            match others.is_empty() {
                true => self.nodes[number] = constant,
                false => self.nodes[number].a = random.one(&others),
            }
        }
        let left_out: Vec<bool> = (0..self.nodes.len()).map(|it| it == gone).collect();
        let mut left = Vec::new();
        number::children_first(&self.nodes, &left_out, self.nodes.len() - 1, &mut left);
        self.nodes = number::in_order(&self.nodes, &left);
        self.pairing = left.iter().map(|&it| self.pairing[it]).collect();
    }

    /// A new node, paired with any old one, or one of its kind.
    fn push(&mut self, random: &mut Random, node: Node) -> u16 {
        let alike = self.of_kinds(&[node.kind]);
        let like =
            if alike.is_empty() { random.below(self.nodes.len()) } else { random.one(&alike) };
        self.pairing.push(self.pairing[like]);
        self.nodes.push(node);
        self.nodes.len() as u16 - 1
    }

    /// The last branch or case of a list gets a next that the old one has not.
    fn add_next(&mut self, random: &mut Random) {
        let mut lasts = self.of_kinds(&[kinds::BRANCH, kinds::CASE]);
        lasts.retain(|&it| self.nodes[it].b == NO_NEXT);
        let Ok(types) = shape::read(self.nodes.clone()).and_then(|tree| types::read(&tree)) else {
            return;
        };
        if lasts.is_empty() || self.nodes.len() > 1005 {
            return;
        }
        let last = random.one(&lasts);
        let node = self.nodes[last];
        let ty = types[node.a as usize];
        let present = u16::from(ty < MAYBE);
        let value = Node { kind: kinds::CONSTANT, ty, b: present, ..Node::default() };
        let value = self.push(random, value);
        let ext = self.push(random, Node { kind: kinds::EXT, a: value, ..Node::default() });
        self.nodes[last].b = self.push(random, Node { a: ext, b: NO_NEXT, ..node });
        self.shuffle(random);
    }

    /// The last member of a list of cases or branches is cut off.
    fn cut_next(&mut self, random: &mut Random) {
        let mut some = self.of_kinds(&[kinds::BRANCH, kinds::CASE]);
        some.retain(|&it| self.nodes[it].b != NO_NEXT);
        if some.is_empty() {
            return;
        }
        let before = random.one(&some);
        let mut nodes = self.nodes.clone();
        nodes[before].b = NO_NEXT;
        let mut left = Vec::new();
        number::children_first(&nodes, &vec![false; nodes.len()], nodes.len() - 1, &mut left);
        let names = |node: &Node| match node.kind {
            kinds::CASE => Some(node.c as usize),
            _ => None,
        };
        if left.iter().filter_map(|&it| names(&nodes[it])).all(|target| left.contains(&target)) {
            self.nodes = number::in_order(&nodes, &left);
            self.pairing = left.iter().map(|&it| self.pairing[it]).collect();
        }
    }

    /// Two operands, or two arms, change places.
    fn swap_operands(&mut self, random: &mut Random) {
        let some = self.of_kinds(&[18, 19, 20, 21, 22, 23, 25, 26, kinds::IF]);
        if some.is_empty() {
            return;
        }
        let node = &mut self.nodes[random.one(&some)];
        match node.kind {
            kinds::IF => (node.b, node.c) = (node.c, node.b),
            _ => (node.a, node.b) = (node.b, node.a),
        }
    }

    /// An unused let that the old table has not, around the root or another signal.
    fn let_too_many(&mut self, random: &mut Random) {
        if self.nodes.len() > 1006 {
            return;
        }
        let above = number::parents(&self.nodes);
        let mut signals: Vec<usize> = (0..self.nodes.len()).collect();
        signals.retain(|&it| kinds::sort(self.nodes[it].kind) == kinds::Sort::Signal);
        let part = random.one(&signals);
        let time = self.push(random, Node { kind: kinds::TIME, ..Node::default() });
        let node = Node { kind: kinds::LET, ty: 3, a: time, b: part as u16, ..Node::default() };
        let number = self.push(random, node);
        if let Some(hung) = above[part] {
            kinds::set(&mut self.nodes[hung.parent], hung.field, number);
        }
        self.shuffle(random);
    }
}
