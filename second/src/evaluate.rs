//! Evaluation of signals and expressions.

use crate::kinds;
use crate::step::Step;
use crate::value::{Value, INT};

impl Step<'_> {
    /// Evaluates a signal or an expression, and notes what it gave.
    pub fn evaluate(&mut self, number: usize) -> Value {
        let value = self.by_rule(number);
        self.gave[number] = Some(value);
        value
    }

    /// The rule of a node's kind, counting one.
    fn by_rule(&mut self, number: usize) -> Value {
        self.count();
        let node = self.program.node(number);
        match node.kind {
            kinds::INPUT => self.record.channels[node.a as usize],
            kinds::TIME => Value::int(self.record.time as i32),
            kinds::EXT | kinds::UNTIL => self.evaluate(node.a as usize),
            kinds::DELAY => self.cell(number).value,
            kinds::LET => {
                self.bound[number] = self.evaluate(node.a as usize);
                self.evaluate(node.b as usize)
            }
            kinds::SWITCH | kinds::GROUP => {
                let part = self.current_part(number);
                self.evaluate(part)
            }
            kinds::VARIABLE => self.variable(node.a as usize),
            kinds::CONSTANT => Value { ty: node.ty, present: node.b == 1, word: node.word },
            kinds::JUST => self.evaluate(node.a as usize).just(),
            kinds::NOT => Value::bool(!self.evaluate(node.a as usize).truth()),
            kinds::IF => {
                let truth = self.evaluate(node.a as usize).truth();
                self.evaluate(if truth { node.b } else { node.c } as usize)
            }
            kinds::TAKE => self.take(number),
            _ => {
                let left = self.evaluate(node.a as usize);
                let right = self.evaluate(node.b as usize);
                self.wrapped |= leaves_range(node.kind, left.word, right.word);
                binary(node.kind, left, right)
            }
        }
    }

    /// The value of a variable: bound by a let or a take, or caught by a switch or a group.
    fn variable(&mut self, binder: usize) -> Value {
        match self.program.node(binder).kind {
            kinds::SWITCH => self.cell(binder).value,
            kinds::BRANCH => match self.program.homes[binder] {
                Some(group) => self.cell(group).value,
                None => Value::default(),
            },
            _ => self.bound[binder],
        }
    }

    /// Evaluates a take: the arm for absent, or binds and evaluates the arm for present.
    fn take(&mut self, number: usize) -> Value {
        let node = self.program.node(number);
        let Some(taken) = self.evaluate(node.a as usize).taken() else {
            return self.evaluate(node.b as usize);
        };
        self.bound[number] = taken;
        self.evaluate(node.c as usize)
    }
}

/// The value of a kind with two strict operands.
fn binary(kind: u8, left: Value, right: Value) -> Value {
    let (x, y) = (left.word, right.word);
    match kind {
        kinds::ADD => Value::int(x.wrapping_add(y)),
        kinds::SUBTRACT => Value::int(x.wrapping_sub(y)),
        kinds::MULTIPLY => Value::int(x.wrapping_mul(y)),
        kinds::DIVIDE => divide(x, y),
        kinds::LESS => Value::bool(x < y),
        kinds::EQUAL => Value::bool(x == y),
        kinds::AND => Value::bool(left.truth() && right.truth()),
        _ => Value::bool(left.truth() || right.truth()),
    }
}

/// Whether a sum, difference or product of ints is none of 32 bits; of quotients the lowest by -1 alone.
fn leaves_range(kind: u8, x: i32, y: i32) -> bool {
    exact(kind, i64::from(x), i64::from(y)).is_some_and(|result| i32::try_from(result).is_err())
}

/// What an operation of two ints is before it wraps, in 64 bits. By zero there is no quotient, and other kinds give no int.
fn exact(kind: u8, x: i64, y: i64) -> Option<i64> {
    match kind {
        kinds::ADD => Some(x + y),
        kinds::SUBTRACT => Some(x - y),
        kinds::MULTIPLY => Some(x * y),
        kinds::DIVIDE => x.checked_div(y),
        _ => None,
    }
}

/// Division toward minus infinity; absent for a zero divisor, wrapping for the lowest by -1.
pub fn divide(dividend: i32, divisor: i32) -> Value {
    if divisor == 0 {
        return Value::absent(INT);
    }
    let rest = dividend.wrapping_rem(divisor);
    let down = rest != 0 && (rest < 0) != (divisor < 0);
    Value::int(dividend.wrapping_div(divisor) - down as i32).just()
}
