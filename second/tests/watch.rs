//! Document 02, l: what a watched node gives, worked out from its own text without an environment, where
//! the way down to it is current; and that all else is the plain run's.

use second::generate::{self, Sample};
use second::kinds;
use second::program::Program;
use second::random::Random;
use second::record::{Record, RECORD};
use second::state::{Cell, State};
use second::value::Value;
use second::{run, watched, Refusal};

/// A program in a state, with a record.
struct Moment<'a> {
    program: &'a Program,
    cells: &'a [Cell],
    record: &'a Record,
}

impl Moment<'_> {
    fn cell(&self, number: usize) -> Cell {
        self.cells[self.program.cell_at[number]]
    }

    /// Whether the root's evaluation comes to a node: every step of the way up leads through a part that
    /// is evaluated.
    fn comes_to(&self, number: usize) -> bool {
        let Some(above) = self.program.tree.above[number] else {
            return true;
        };
        let (parent, child) = (self.program.node(above.parent), number as u16);
        let evaluated = match parent.kind {
            kinds::LET => true,
            kinds::UNTIL => parent.a == child,
            kinds::SWITCH if self.cell(above.parent) == Cell::default() => parent.a == child,
            kinds::SWITCH => parent.c == child,
            kinds::GROUP if parent.a == child => self.cell(above.parent) == Cell::default(),
            kinds::GROUP => true,
            kinds::BRANCH if parent.a == child => {
                let group = self.program.homes[above.parent].expect("a branch's group");
                self.cell(group).branch as usize == above.parent
            }
            kinds::BRANCH => true,
            _ => false,
        };
        evaluated && self.comes_to(above.parent)
    }

    /// The value of a node: a variable of a let is its definition's value, worked out again.
    fn value(&self, number: usize) -> Value {
        let node = self.program.node(number);
        let (a, b, c) = (node.a as usize, node.b as usize, node.c as usize);
        match node.kind {
            kinds::INPUT => self.record.channels[a],
            kinds::TIME => Value::int(self.record.time as i32),
            kinds::EXT | kinds::UNTIL => self.value(a),
            kinds::DELAY => self.cell(number).value,
            kinds::LET => self.value(b),
            kinds::SWITCH | kinds::GROUP if self.cell(number) == Cell::default() => self.value(a),
            kinds::SWITCH => self.value(c),
            kinds::GROUP => {
                let branch = self.program.node(self.cell(number).branch as usize);
                self.value(branch.a as usize)
            }
            kinds::VARIABLE => self.bound(a),
            kinds::CONSTANT => Value { ty: node.ty, present: node.b == 1, word: node.word },
            kinds::JUST => self.value(a).just(),
            kinds::NOT => Value::bool(!self.value(a).truth()),
            kinds::IF if self.value(a).truth() => self.value(b),
            kinds::IF => self.value(c),
            kinds::TAKE if self.value(a).present => self.value(c),
            kinds::TAKE => self.value(b),
            _ => operated(node.kind, self.value(a), self.value(b)),
        }
    }

    fn bound(&self, binder: usize) -> Value {
        let node = self.program.node(binder);
        match node.kind {
            kinds::LET => self.value(node.a as usize),
            kinds::TAKE => self.value(node.a as usize).taken().expect("the present arm"),
            kinds::SWITCH => self.cell(binder).value,
            _ => self.cell(self.program.homes[binder].expect("a branch's group")).value,
        }
    }
}

/// An operation of two operands.
fn operated(kind: u8, left: Value, right: Value) -> Value {
    let (x, y) = (left.word as i64, right.word as i64);
    match kind {
        kinds::ADD => Value::int((x + y) as i32),
        kinds::SUBTRACT => Value::int((x - y) as i32),
        kinds::MULTIPLY => Value::int((x * y) as i32),
        kinds::DIVIDE if y == 0 => Value::absent(second::value::INT),
        kinds::DIVIDE => Value::int((x as f64 / y as f64).floor() as i64 as i32).just(),
        kinds::LESS => Value::bool(x < y),
        kinds::EQUAL => Value::bool(x == y),
        kinds::AND => Value::bool(x != 0 && y != 0),
        _ => Value::bool(x != 0 || y != 0),
    }
}

/// The signal nodes of a program.
fn signals(sample: &Sample) -> Vec<u16> {
    let signal = |number: &u16| (1..=8).contains(&sample.nodes[*number as usize].kind);
    (0..sample.nodes.len() as u16).filter(signal).collect()
}

#[test]
fn each_node_gives_its_value_or_nothing() {
    let mut random = Random::new(20);
    let (mut gave, mut silent) = (0, 0);
    for _ in 0..1500 {
        let count = random.between(2, 40);
        let sample = generate::accepted(&mut random, count);
        let program = Program::read(&sample.file).expect("accepted");
        let (start, time) = generate::reached_state(&mut random, &sample);
        let steps = random.between(1, 6);
        let records = generate::records(&mut random, steps, time);
        for list in signals(&sample).chunks(8) {
            let mut state = start.clone();
            let (mut output, mut shown) = (vec![7; 8 * steps], vec![7; 8 * steps * list.len()]);
            let done = watched(&sample.file, &mut state, &records, list, &mut output, &mut shown);
            let mut plain = start.clone();
            let mut values = vec![7; 8 * steps];
            assert_eq!(done, run(&sample.file, &mut plain, &records, &mut values));
            assert_eq!((state, output), (plain, values));
            let mut before = start.clone();
            for (record, row) in records.chunks(RECORD).zip(shown.chunks(8 * list.len())) {
                let read = State::read(&program, &before).expect("well-formed");
                let now = Record::read(record).expect("well-formed");
                let moment = Moment { program: &program, cells: &read.cells, record: &now };
                for (entry, &node) in row.chunks(8).zip(list) {
                    let comes = moment.comes_to(node as usize);
                    let expected = if comes { moment.value(node as usize).bytes() } else { [0; 8] };
                    assert_eq!(entry, expected, "node {node} of {:?}", sample.nodes);
                    *if comes { &mut gave } else { &mut silent } += 1;
                }
                run(&sample.file, &mut before, record, &mut [0; 8]).expect("in order");
            }
        }
    }
    assert!(gave > 10_000 && silent > 10_000, "{gave} {silent}");
}

#[test]
fn lists_that_are_refused() {
    let sample = generate::accepted(&mut Random::new(3), 30);
    let signals = signals(&sample);
    let expression = (0..30).find(|number| !signals.contains(number)).expect("an expression");
    let refused = |list: &[u16]| watched(&sample.file, &mut [], &[], list, &mut [], &mut []);
    let at = |code, place| Err(Refusal::at(code, place));
    assert_eq!(refused(&[]), at(17, 0));
    assert_eq!(refused(&[29; 9]), at(17, 0));
    assert_eq!(refused(&[expression]), at(18, 0));
    assert_eq!(refused(&[30]), at(18, 0));
    assert_eq!(refused(&[29, 65535]), at(18, 1));
    assert_eq!(refused(&[29, 29]), at(18, 1));
    assert_eq!(refused(&[29, signals[0]]), at(18, 1));
    // A right list: the state is looked at.
    assert_eq!(refused(&[29]), at(9, 0));
}
