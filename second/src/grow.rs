//! Growing accepted programs by their types: every part is made of the type wanted there, with
//! the variables in scope and ready there, and untils only where a group is at hand: the first one
//! upward, or in edition two any that the way up meets.

use crate::kinds::{self, Node, NO_NEXT};
use crate::number;
use crate::random::Random;
use crate::value::{is_maybe, Value, BOOL, INT, MAYBE, UNIT};

/// A variable in scope; a pending one is not ready until under a delay or in an event.
#[derive(Clone, Copy)]
struct Variable {
    binder: u16,
    ty: u8,
    pending: bool,
}

/// A branch that an until may name: its node and its argument's type.
type Target = (u16, u8);

/// The nodes grown so far; children, binders and targets are named by place in this list.
pub struct Grower<'a> {
    random: &'a mut Random,
    nodes: Vec<Node>,
    variables: Vec<Variable>,
    /// Variables before this place are ready whether pending or not.
    ready_below: usize,
    /// How often of a hundred a pending variable is used all the same, for code 8.
    hasty: usize,
    /// The edition, as byte 3 says it.
    edition: u8,
}

/// Grows a program of an edition, of exactly so many nodes; with `hasty` above 0 it may be refused
/// by code 8.
pub fn grow(random: &mut Random, edition: u8, count: usize, hasty: usize) -> Vec<Node> {
    let (nodes, variables) = (Vec::new(), Vec::new());
    let mut grower = Grower { random, nodes, variables, ready_below: 0, hasty, edition };
    let mut ty =
        if count == 1 { INT + MAYBE * grower.random.below(2) as u8 } else { grower.any_type() };
    if count < 3 && least_signal(ty) > count {
        ty = INT;
    }
    let mut root = grower.part(ty, count, &[]);
    while grower.nodes.len() < count {
        (root, ty) = grower.wrap(root, ty, count - grower.nodes.len());
    }
    let nodes = std::mem::take(&mut grower.nodes);
    let order = number::any_order(random, &nodes);
    number::in_order(&nodes, &order)
}

/// The fewest nodes of a signal of a type.
fn least_signal(ty: u8) -> usize {
    if ty == INT || ty == INT + MAYBE {
        1
    } else {
        2
    }
}

impl Grower<'_> {
    fn push(&mut self, kind: u8, ty: u8, fields: [u16; 3], word: i32) -> u16 {
        let [a, b, c] = fields;
        self.nodes.push(Node { kind, ty, a, b, c, word });
        (self.nodes.len() - 1) as u16
    }

    /// A node whose children come later.
    fn reserve(&mut self, kind: u8, ty: u8) -> u16 {
        self.push(kind, ty, [0, 0, 0], 0)
    }

    fn fill(&mut self, number: u16, a: u16, b: u16, c: u16) -> u16 {
        let node = &mut self.nodes[number as usize];
        (node.a, node.b, node.c) = (a, b, c);
        number
    }

    fn plain_type(&mut self) -> u8 {
        [INT, BOOL, UNIT][self.random.weighted(&[60, 25, 15])]
    }

    fn any_type(&mut self) -> u8 {
        self.plain_type() + if self.random.chance(30) { MAYBE } else { 0 }
    }

    /// A type whose least signal fits.
    fn fitting_type(&mut self, budget: usize) -> u8 {
        let ty = self.any_type();
        if least_signal(ty) > budget {
            INT
        } else {
            ty
        }
    }

    /// Grows a part with one more variable in scope.
    fn within(&mut self, variable: Variable, part: impl FnOnce(&mut Self) -> u16) -> u16 {
        self.variables.push(variable);
        let number = part(self);
        self.variables.pop();
        number
    }

    /// Grows a delayed part or an event: all variables are ready in it.
    fn later(&mut self, part: impl FnOnce(&mut Self) -> u16) -> u16 {
        let before = self.ready_below;
        self.ready_below = self.variables.len();
        let number = part(self);
        self.ready_below = before;
        number
    }

    fn event(&mut self, plain: u8, budget: usize) -> u16 {
        self.later(|grower| grower.signal(plain + MAYBE, budget, &[]))
    }

    /// A signal of a type of at most so many nodes, where the targets are at hand.
    fn signal(&mut self, ty: u8, budget: usize, targets: &[Target]) -> u16 {
        let least = least_signal(ty);
        let allowed = |weight, needed| if budget >= needed { weight } else { 0 };
        let leaf = if least == 2 {
            0
        } else if budget < 4 {
            4
        } else {
            1
        };
        let until = if targets.is_empty() { 0 } else { 70 };
        let weights = [
            leaf,
            allowed(5, 2),
            allowed(3, 1 + least),
            allowed(6, 2 + least),
            allowed(4, 2 + 2 * least),
            allowed(4, 2 + 2 * least),
            allowed(until, 4 + least),
        ];
        match self.random.weighted(&weights) {
            0 => self.leaf(ty),
            1 => {
                let expression = self.expression(ty, budget - 1);
                self.push(kinds::EXT, 0, [expression, 0, 0], 0)
            }
            2 => self.delay(ty, budget),
            3 => self.let_signal(ty, budget, targets),
            4 => self.switch(ty, budget),
            5 => self.group(ty, budget, targets),
            _ => self.until(ty, budget, targets),
        }
    }

    fn leaf(&mut self, ty: u8) -> u16 {
        if ty == INT && self.random.chance(30) {
            return self.reserve(kinds::TIME, 0);
        }
        let channel = self.random.below(4) as u16 + if is_maybe(ty) { 4 } else { 0 };
        self.push(kinds::INPUT, 0, [channel, 0, 0], 0)
    }

    /// Any value of a type.
    fn value(&mut self, ty: u8) -> Value {
        let word = match ty % MAYBE {
            UNIT => 0,
            BOOL => self.random.below(2) as i32,
            _ => self.random.word(),
        };
        let present = !is_maybe(ty) || self.random.chance(50);
        Value { ty, present, word: if present { word } else { 0 } }
    }

    fn delay(&mut self, ty: u8, budget: usize) -> u16 {
        let first = self.value(ty);
        let signal = self.later(|grower| grower.signal(ty, budget - 1, &[]));
        self.push(kinds::DELAY, ty, [signal, first.present as u16, 0], first.word)
    }

    fn let_signal(&mut self, ty: u8, budget: usize, targets: &[Target]) -> u16 {
        let bound = self.fitting_type(budget - 1 - least_signal(ty));
        let shares = self.random.split(budget - 1, &[least_signal(bound), least_signal(ty)]);
        let number = self.reserve(kinds::LET, bound);
        let variable = |pending| Variable { binder: number, ty: bound, pending };
        let definition = self.within(variable(true), |g| g.signal(bound, shares[0], &[]));
        let body = self.within(variable(false), |g| g.signal(ty, shares[1], targets));
        self.fill(number, definition, body, 0)
    }

    fn switch(&mut self, ty: u8, budget: usize) -> u16 {
        let least = least_signal(ty);
        let room = budget - 1 - 2 * least;
        let caught = self.fitting_type(room) % MAYBE;
        let caught = if least_signal(caught + MAYBE) > room { INT } else { caught };
        let shares = self.random.split(budget - 1, &[least, least_signal(caught + MAYBE), least]);
        let number = self.reserve(kinds::SWITCH, caught);
        let first = self.signal(ty, shares[0], &[]);
        let event = self.event(caught, shares[1]);
        let variable = Variable { binder: number, ty: caught, pending: false };
        let second = self.within(variable, |g| g.signal(ty, shares[2], &[]));
        self.fill(number, first, event, second)
    }

    /// A group; in edition two the targets upward stay at hand in its parts.
    fn group(&mut self, ty: u8, budget: usize, upward: &[Target]) -> u16 {
        let least = least_signal(ty);
        // Room for an until in the body, where there is any, since else no branch is entered; in
        // edition two for a group with an until.
        let body_least = match budget >= 6 + 2 * least {
            true if self.edition > 0 && budget >= 8 + 3 * least => 6 + 2 * least,
            true => 4 + least,
            false => least,
        };
        let most = (budget - 1 - body_least) / (1 + least);
        let count = match self.random.below(20) {
            0 => self.random.between(1, most.min(60)),
            _ => self.random.between(1, most.min(4)),
        };
        let number = self.reserve(kinds::GROUP, 0);
        let mut targets = Vec::new();
        for _ in 0..count {
            let argument = self.plain_type();
            targets.push((self.reserve(kinds::BRANCH, argument), argument));
        }
        // In edition two room for one in each branch too: they leave for more than one group.
        let roomy = self.edition > 0 && budget > body_least + count * (5 + least);
        let mut leasts = vec![if roomy { 4 + least } else { least }; count + 1];
        leasts[0] = body_least;
        let shares = self.random.split(budget - 1 - count, &leasts);
        let own = targets.clone();
        if self.edition > 0 {
            targets.extend(upward);
        }
        let body = self.part(ty, shares[0], &targets);
        let mut next = NO_NEXT;
        for (&(branch, argument), &share) in own.iter().zip(&shares[1..]) {
            let variable = Variable { binder: branch, ty: argument, pending: false };
            let body = self.within(variable, |g| g.part(ty, share, &targets));
            next = self.fill(branch, body, next, 0);
        }
        self.fill(number, body, next, 0)
    }

    /// A group's body, or a branch's; in edition two it is often a group itself, from which the
    /// jumps outward leave.
    fn part(&mut self, ty: u8, budget: usize, targets: &[Target]) -> u16 {
        match self.nests(ty, budget) {
            true => self.group(ty, budget, targets),
            false => self.signal(ty, budget, targets),
        }
    }

    /// Whether to put a group here, where there is room for one with some untils.
    fn nests(&mut self, ty: u8, budget: usize) -> bool {
        self.edition > 0 && budget >= 6 + 2 * least_signal(ty) && self.random.chance(60)
    }

    fn until(&mut self, ty: u8, budget: usize, targets: &[Target]) -> u16 {
        let most = (budget - 1 - least_signal(ty)) / 3;
        let count = match self.random.below(12) {
            0 => self.random.between(1, most.min(12)),
            _ => self.random.between(1, most.min(3)),
        };
        let chosen: Vec<Target> = (0..count).map(|_| self.random.one(targets)).collect();
        let mut least = vec![least_signal(ty)];
        least.extend(chosen.iter().map(|&(_, argument)| least_signal(argument + MAYBE)));
        let shares = self.random.split(budget - 1 - count, &least);
        let number = self.reserve(kinds::UNTIL, 0);
        let signal = self.signal(ty, shares[0], &[]);
        let mut next = NO_NEXT;
        for (&(target, argument), &share) in chosen.iter().zip(&shares[1..]) {
            let event = self.event(argument, share);
            next = self.push(kinds::CASE, 0, [event, next, target], 0);
        }
        self.fill(number, signal, next, 0)
    }

    /// Puts more nodes around a whole program until it has its size.
    fn wrap(&mut self, root: u16, ty: u8, room: usize) -> (u16, u8) {
        let allowed = |weight, needed| if room >= needed { weight } else { 0 };
        let least = least_signal(ty);
        let weights = [1, allowed(8, 2), allowed(8, 2), allowed(8, 2 + least)];
        match self.random.weighted(&weights) {
            0 => {
                let first = self.value(ty);
                let fields = [root, first.present as u16, 0];
                (self.push(kinds::DELAY, ty, fields, first.word), ty)
            }
            1 => {
                let bound = self.fitting_type(room - 1);
                let number = self.reserve(kinds::LET, bound);
                let variable = Variable { binder: number, ty: bound, pending: true };
                let definition = self.within(variable, |g| g.signal(bound, room - 1, &[]));
                (self.fill(number, definition, root, 0), ty)
            }
            2 => {
                let new = self.fitting_type(room - 1);
                let number = self.reserve(kinds::LET, ty);
                let variable = Variable { binder: number, ty, pending: false };
                let body = self.within(variable, |g| g.signal(new, room - 1, &[]));
                (self.fill(number, root, body, 0), new)
            }
            _ => {
                let shares = self.random.split(room - 1, &[1, least]);
                let number = self.reserve(kinds::SWITCH, INT);
                let event = self.event(INT, shares[0]);
                let variable = Variable { binder: number, ty: INT, pending: false };
                let second = self.within(variable, |g| g.signal(ty, shares[1], &[]));
                (self.fill(number, root, event, second), ty)
            }
        }
    }

    /// An expression of a type of at most so many nodes.
    fn expression(&mut self, ty: u8, budget: usize) -> u16 {
        let allowed = |weight, needed| if budget >= needed { weight } else { 0 };
        let when = |condition, weight| if condition { weight } else { 0 };
        let weights = [
            if budget < 4 { 4 } else { 1 },
            allowed(when(ty == INT, 8), 3),
            allowed(when(ty == BOOL, 5), 3),
            allowed(when(ty == BOOL, 4), 3),
            allowed(when(ty == BOOL, 3), 2),
            allowed(when(ty == INT + MAYBE, 5), 3),
            allowed(when(is_maybe(ty), 5), 2),
            allowed(2, 4),
            allowed(3, 4),
        ];
        match self.random.weighted(&weights) {
            0 => self.simple(ty),
            1 => self.binary(kinds::ADD, 3, INT, budget),
            2 => self.binary(kinds::LESS, 2, INT, budget),
            3 => self.binary(kinds::AND, 2, BOOL, budget),
            4 => self.unary(kinds::NOT, BOOL, budget),
            5 => self.binary(kinds::DIVIDE, 1, INT, budget),
            6 => self.unary(kinds::JUST, ty.wrapping_sub(MAYBE), budget),
            7 => self.choice(ty, budget),
            _ => self.take(ty, budget),
        }
    }

    /// A variable that is ready, where there is one, or a constant.
    fn simple(&mut self, ty: u8) -> u16 {
        let hasty = self.hasty > 0 && self.random.chance(self.hasty);
        let ready = self.ready_below;
        let fits = |(place, variable): &(usize, &Variable)| {
            variable.ty == ty && (!variable.pending || *place < ready || hasty)
        };
        let usable: Vec<u16> =
            self.variables.iter().enumerate().filter(fits).map(|(_, v)| v.binder).collect();
        if !usable.is_empty() && self.random.chance(80) {
            // Half the time the nearest one, which is the more telling.
            let nearest = usable[usable.len() - 1];
            let binder = if self.random.chance(50) { nearest } else { self.random.one(&usable) };
            return self.push(kinds::VARIABLE, 0, [binder, 0, 0], 0);
        }
        let value = self.value(ty);
        self.push(kinds::CONSTANT, ty, [0, value.present as u16, 0], value.word)
    }

    fn unary(&mut self, kind: u8, ty: u8, budget: usize) -> u16 {
        let operand = self.expression(ty, budget - 1);
        self.push(kind, 0, [operand, 0, 0], 0)
    }

    /// One of some kinds in a row with two operands of a type.
    fn binary(&mut self, first: u8, kinds: usize, ty: u8, budget: usize) -> u16 {
        let kind = first + self.random.below(kinds) as u8;
        let shares = self.random.split(budget - 1, &[1, 1]);
        let left = self.expression(ty, shares[0]);
        let right = self.expression(ty, shares[1]);
        self.push(kind, 0, [left, right, 0], 0)
    }

    fn choice(&mut self, ty: u8, budget: usize) -> u16 {
        let shares = self.random.split(budget - 1, &[1, 1, 1]);
        let when = self.expression(BOOL, shares[0]);
        let then = self.expression(ty, shares[1]);
        let other = self.expression(ty, shares[2]);
        self.push(kinds::IF, 0, [when, then, other], 0)
    }

    fn take(&mut self, ty: u8, budget: usize) -> u16 {
        let taken = self.plain_type();
        let shares = self.random.split(budget - 1, &[1, 1, 1]);
        let number = self.reserve(kinds::TAKE, taken);
        let maybe = self.expression(taken + MAYBE, shares[0]);
        let absent = self.expression(ty, shares[1]);
        let variable = Variable { binder: number, ty: taken, pending: false };
        let present = self.within(variable, |g| g.expression(ty, shares[2]));
        self.fill(number, maybe, absent, present)
    }
}
