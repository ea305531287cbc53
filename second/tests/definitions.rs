//! The paper's definitions once more, as literally as can be and with no care for speed, held
//! against the library: scope, ready, well-formed, bound, and a step with bindings passed down.

use second::format;
use second::generate;
use second::kinds::{self, Field, Node};
use second::program::Program;
use second::random::Random;
use second::record::Record;
use second::request::{Answer, Request};
use second::shape::{self, Tree};
use second::state::{self, Cell, State};
use second::value::Value;
use second::{damage, ready, scope};
use std::collections::BTreeMap;

fn below(tree: &Tree, number: usize) -> Vec<(Field, usize)> {
    let children = kinds::children(&tree.nodes[number]);
    children.map(|child| (child.field, child.number as usize)).collect()
}

/// "A node needs a variable at once if ..."
fn needs(tree: &Tree, number: usize, binder: usize) -> bool {
    let node = &tree.nodes[number];
    match node.kind {
        kinds::VARIABLE => node.a as usize == binder,
        kinds::DELAY => false,
        kinds::SWITCH => {
            needs(tree, node.a as usize, binder) || needs(tree, node.c as usize, binder)
        }
        kinds::UNTIL => needs(tree, node.a as usize, binder),
        _ => below(tree, number).iter().any(|&(_, child)| needs(tree, child, binder)),
    }
}

fn first_not_ready(tree: &Tree) -> Option<usize> {
    (0..tree.nodes.len()).find(|&number| {
        let node = &tree.nodes[number];
        node.kind == kinds::LET && needs(tree, node.a as usize, number)
    })
}

/// Whether a node is the wanted one or stands anywhere below it.
fn holds(tree: &Tree, from: usize, wanted: usize) -> bool {
    from == wanted || below(tree, from).iter().any(|&(_, child)| holds(tree, child, wanted))
}

fn variable_in_scope(tree: &Tree, variable: usize) -> bool {
    let binder = tree.nodes[variable].a as usize;
    let Some(node) = tree.nodes.get(binder) else { return false };
    let parts: &[u16] = match node.kind {
        kinds::LET => &[node.a, node.b],
        kinds::SWITCH | kinds::TAKE => &[node.c],
        kinds::BRANCH => &[node.a],
        _ => &[],
    };
    parts.iter().any(|&part| holds(tree, part as usize, variable))
}

/// The untils whose cases may name the branches of a group: "go up only through ..." read down.
/// In edition two the way passes on through an inner group's body or branches.
fn untils_of(tree: &Tree, edition: u8, from: usize, found: &mut Vec<usize>) {
    let node = &tree.nodes[from];
    match node.kind {
        kinds::LET => untils_of(tree, edition, node.b as usize, found),
        kinds::UNTIL => found.push(from),
        kinds::GROUP if edition == 1 => untils_below(tree, edition, from, found),
        _ => {}
    }
}

/// Those in a group's body and in the bodies of its branches.
fn untils_below(tree: &Tree, edition: u8, group: usize, found: &mut Vec<usize>) {
    untils_of(tree, edition, tree.nodes[group].a as usize, found);
    for branch in tree.list(tree.nodes[group].b) {
        untils_of(tree, edition, tree.nodes[branch].a as usize, found);
    }
}

fn case_in_scope(tree: &Tree, edition: u8, case: usize) -> bool {
    (0..tree.nodes.len()).filter(|&group| tree.nodes[group].kind == kinds::GROUP).any(|group| {
        let branches: Vec<usize> = tree.list(tree.nodes[group].b).collect();
        let mut untils = Vec::new();
        untils_below(tree, edition, group, &mut untils);
        let here = untils.iter().any(|&until| tree.list(tree.nodes[until].b).any(|it| it == case));
        here && branches.contains(&(tree.nodes[case].c as usize))
    })
}

fn first_out_of_scope(tree: &Tree, edition: u8) -> Option<usize> {
    (0..tree.nodes.len()).find(|&number| match tree.nodes[number].kind {
        kinds::VARIABLE => !variable_in_scope(tree, number),
        kinds::CASE => !case_in_scope(tree, edition, number),
        _ => false,
    })
}

#[test]
fn scope_and_ready_by_the_words() {
    let mut random = Random::new(21);
    let (mut out, mut outward, mut not_ready) = (0, 0, 0);
    for turn in 0..6000 {
        let count = random.between(8, 60);
        let sample = match turn % 4 {
            0 => generate::wild(&mut random),
            _ => generate::hasty(&mut random, count),
        };
        let mut file = sample.file;
        if turn % 3 > 0 {
            damage::program(&mut random, &mut file, &sample.nodes);
        }
        let Ok(tree) = format::read(&file).and_then(shape::read) else { continue };
        let fault = |edition| scope::read(&tree, edition).err().map(|it| it.place as usize);
        let found = fault(0);
        assert_eq!(found, first_out_of_scope(&tree, 0));
        assert_eq!(fault(1), first_out_of_scope(&tree, 1));
        out += usize::from(found.is_some());
        outward += usize::from(found != fault(1));
        if found.is_none() {
            let found = ready::read(&tree).err().map(|refusal| refusal.place as usize);
            assert_eq!(found, first_not_ready(&tree));
            not_ready += usize::from(found.is_some());
        }
    }
    assert!(out > 200 && outward > 0 && not_ready > 200, "{out} {outward} {not_ready}");
}

/// The parts of a switch or group, each with whether the cell makes it current.
fn parts(program: &Program, number: usize, cell: Cell) -> Vec<(usize, bool)> {
    let node = program.node(number);
    let unset = cell == Cell::default();
    match node.kind {
        kinds::SWITCH => vec![(node.a as usize, unset), (node.c as usize, !unset)],
        kinds::GROUP => {
            let branches = program.tree.list(node.b);
            let named = |branch: usize| !unset && cell.branch as usize == branch;
            let bodies = branches.map(|branch| (program.node(branch).a as usize, named(branch)));
            std::iter::once((node.a as usize, unset)).chain(bodies).collect()
        }
        _ => vec![],
    }
}

/// Whether bytes are a value of a type, read byte by byte.
fn is_value(bytes: &[u8], ty: u8) -> bool {
    let word = i32::from_le_bytes(bytes[4..8].try_into().unwrap());
    let plain = ty & 3;
    let fits = (plain == 1 && word == 0) || (plain == 2 && (word == 0 || word == 1)) || plain == 3;
    let absent = ty >= 5 && bytes[1] == 0 && word == 0;
    bytes[0] == ty && ((bytes[1] == 1 && fits) || absent)
}

fn cell_valid(program: &Program, number: usize, bytes: &[u8]) -> bool {
    let node = program.node(number);
    let plain_zero = bytes[2] == 0 && bytes[3] == 0;
    match node.kind {
        kinds::DELAY => plain_zero && is_value(bytes, node.ty),
        _ if bytes.iter().all(|&byte| byte == 0) => true,
        kinds::SWITCH => plain_zero && is_value(bytes, node.ty),
        _ => {
            let mut branches = program.tree.list(node.b);
            let named = bytes[2] as usize + 256 * bytes[3] as usize;
            branches.any(|branch| branch == named && is_value(bytes, program.node(branch).ty))
        }
    }
}

fn well_formed(program: &Program, bytes: &[u8]) -> bool {
    if bytes.len() != 8 + 8 * program.cells.len() || bytes[4..8] != program.checks.to_le_bytes() {
        return false;
    }
    let time = u32::from_le_bytes(bytes[..4].try_into().unwrap());
    let content = |cell: usize| &bytes[8 + 8 * cell..16 + 8 * cell];
    let valid = |(cell, &number): (usize, &usize)| cell_valid(program, number, content(cell));
    let parts_good = |(cell, &number): (usize, &usize)| {
        let bytes = content(cell);
        let branch = u16::from_le_bytes([bytes[2], bytes[3]]);
        let unset = bytes.iter().all(|&byte| byte == 0);
        let held = if unset { Cell::default() } else { Cell { value: Value::int(1), branch } };
        parts(program, number, held).iter().all(|&(part, current)| {
            current
                || program.cells.iter().enumerate().all(|(other, &inner)| {
                    let start = state::start_cell(program, inner).value.bytes();
                    !holds(&program.tree, part, inner) || content(other) == start
                })
        })
    };
    (time == u32::MAX || time < 1 << 31)
        && program.cells.iter().enumerate().all(valid)
        && program.cells.iter().enumerate().all(parts_good)
}

#[test]
fn well_formed_by_the_words() {
    let mut random = Random::new(22);
    let mut counts = [0usize; 2];
    for _ in 0..3000 {
        let count = random.between(3, 50);
        let sample = generate::accepted(&mut random, count);
        let (mut bytes, _) = generate::reached_state(&mut random, &sample);
        for _ in 0..random.below(3) {
            damage::state(&mut random, &mut bytes, &sample.nodes);
        }
        let program = Program::read(&sample.file).unwrap();
        let good = well_formed(&program, &bytes);
        assert_eq!(State::read(&program, &bytes).is_ok(), good);
        counts[usize::from(good)] += 1;
    }
    assert!(counts.iter().all(|&count| count > 400), "{counts:?}");
}

/// Bindings passed down by value; what is not bound cannot be used.
type Bindings = BTreeMap<usize, Value>;

/// The paper's rules with everything given and returned: a value or new cells, and the work.
struct Rules<'a> {
    program: &'a Program,
    record: &'a Record,
    /// Whether an operation that was evaluated left the range.
    wrapped: std::cell::Cell<bool>,
}

type Cells = BTreeMap<usize, Cell>;

impl Rules<'_> {
    fn node(&self, number: usize) -> (Node, [usize; 3]) {
        let node = self.program.node(number);
        (node, [node.a as usize, node.b as usize, node.c as usize])
    }

    fn current(&self, number: usize, cells: &Cells) -> usize {
        let all = parts(self.program, number, cells[&number]);
        all.into_iter().find(|part| part.1).expect("one part is current").0
    }

    /// The current part with its caught value bound.
    fn enter(&self, number: usize, cells: &Cells, bound: &Bindings) -> (usize, Bindings) {
        let mut bound = bound.clone();
        let cell = cells[&number];
        if cell != Cell::default() {
            let group = self.program.node(number).kind == kinds::GROUP;
            bound.insert(if group { cell.branch as usize } else { number }, cell.value);
        }
        (self.current(number, cells), bound)
    }

    fn evaluate(&self, number: usize, cells: &Cells, bound: &Bindings) -> (Value, u64) {
        let (node, [a, b, c]) = self.node(number);
        let of = |part| self.evaluate(part, cells, bound);
        let (value, work) = match node.kind {
            kinds::INPUT => (self.record.channels[a], 0),
            kinds::TIME => (Value::int(self.record.time as i32), 0),
            kinds::EXT | kinds::UNTIL => of(a),
            kinds::DELAY => (cells[&number].value, 0),
            kinds::LET => {
                let (value, first) = of(a);
                let (value, second) = self.evaluate(b, cells, &with(bound, number, value));
                (value, first + second)
            }
            kinds::SWITCH | kinds::GROUP => {
                let (part, bound) = self.enter(number, cells, bound);
                self.evaluate(part, cells, &bound)
            }
            kinds::VARIABLE => (bound[&a], 0),
            kinds::CONSTANT => (Value { ty: node.ty, present: b == 1, word: node.word }, 0),
            kinds::IF => {
                let (truth, first) = of(a);
                let (value, second) = of(if truth.word == 1 { b } else { c });
                (value, first + second)
            }
            kinds::TAKE => {
                let (maybe, first) = of(a);
                let inner = Value { ty: node.ty, ..maybe };
                let (value, second) = match maybe.present {
                    true => self.evaluate(c, cells, &with(bound, number, inner)),
                    false => of(b),
                };
                (value, first + second)
            }
            kinds::NOT => (Value::bool(of(a).0.word == 0), of(a).1),
            kinds::JUST => (Value { ty: of(a).0.ty + 4, ..of(a).0 }, of(a).1),
            _ => {
                let (x, y) = (of(a).0.word as i64, of(b).0.word as i64);
                self.wrapped.set(self.wrapped.get() || out_of_range(node.kind, x, y));
                (operate(node.kind, x, y), of(a).1 + of(b).1)
            }
        };
        (value, work + 1)
    }

    fn at_start(&self, part: usize, cells: &Cells) -> Cells {
        let start =
            |(&number, &cell): (&usize, &Cell)| match holds(&self.program.tree, part, number) {
                true => (number, state::start_cell(self.program, number)),
                false => (number, cell),
            };
        cells.iter().map(start).collect()
    }

    fn update(&self, number: usize, cells: &Cells, bound: &Bindings) -> (Cells, u64) {
        let (node, [a, b, c]) = self.node(number);
        let (cells, work) = match node.kind {
            kinds::DELAY => {
                let (value, first) = self.evaluate(a, cells, bound);
                let (mut cells, second) = self.update(a, cells, bound);
                cells.insert(number, Cell { value, branch: 0 });
                (cells, first + second)
            }
            kinds::LET => {
                let (value, first) = self.evaluate(a, cells, bound);
                let bound = with(bound, number, value);
                let (cells, second) = self.update(a, cells, &bound);
                let (cells, third) = self.update(b, &cells, &bound);
                (cells, first + second + third)
            }
            kinds::SWITCH => {
                let (event, first) = self.evaluate(b, cells, bound);
                let (cells, second) = self.update(b, cells, bound);
                if event.present {
                    let mut cells = self.at_start(c, &self.at_start(a, &cells));
                    cells.insert(number, Cell { value: Value { ty: node.ty, ..event }, branch: 0 });
                    (cells, first + second)
                } else {
                    let (part, bound) = self.enter(number, &cells, bound);
                    let (cells, third) = self.update(part, &cells, &bound);
                    (cells, first + second + third)
                }
            }
            kinds::GROUP => {
                let (part, bound) = self.enter(number, cells, bound);
                self.update(part, cells, &bound)
            }
            kinds::UNTIL => self.update_until(number, cells, bound),
            _ => (cells.clone(), 0),
        };
        (cells, work + 1)
    }

    fn update_until(&self, number: usize, cells: &Cells, bound: &Bindings) -> (Cells, u64) {
        let (_, [a, first, _]) = self.node(number);
        let cases: Vec<usize> = self.program.tree.list(first as u16).collect();
        let mut work = 0;
        for &case in &cases {
            let (node, [event, _, target]) = self.node(case);
            let (value, own) = self.evaluate(event, cells, bound);
            work += own;
            if value.present {
                let groups = 0..self.program.tree.nodes.len();
                let mut groups = groups.filter(|&it| self.program.node(it).kind == kinds::GROUP);
                let member = |&group: &usize| {
                    self.program.tree.list(self.program.node(group).b).any(|it| it == target)
                };
                let group = groups.find(member).expect("a group has the branch");
                let mut cells = self.at_start(group, cells);
                let value = Value { ty: self.program.node(target).ty, ..value };
                cells.insert(group, Cell { value, branch: node.c });
                return (cells, work);
            }
        }
        let mut cells = cells.clone();
        let events = cases.iter().map(|&case| self.program.node(case).a as usize);
        for part in events.chain([a]) {
            let (next, own) = self.update(part, &cells, bound);
            (cells, work) = (next, work + own);
        }
        (cells, work)
    }
}

fn with(bound: &Bindings, binder: usize, value: Value) -> Bindings {
    let mut bound = bound.clone();
    bound.insert(binder, value);
    bound
}

/// Whether the whole number that an operator gives is none of 32 bits.
fn out_of_range(kind: u8, x: i64, y: i64) -> bool {
    let whole = match kind {
        kinds::ADD => x + y,
        kinds::SUBTRACT => x - y,
        kinds::MULTIPLY => x * y,
        kinds::DIVIDE if y != 0 => x / y,
        _ => 0,
    };
    !(-2_147_483_648..=2_147_483_647).contains(&whole)
}

/// Operators over whole numbers, cut to 32 bits afterwards.
fn operate(kind: u8, x: i64, y: i64) -> Value {
    match kind {
        kinds::ADD => Value::int((x + y) as i32),
        kinds::SUBTRACT => Value::int((x - y) as i32),
        kinds::MULTIPLY => Value::int((x * y) as i32),
        kinds::DIVIDE if y == 0 => Value { ty: 7, present: false, word: 0 },
        kinds::DIVIDE if y > 0 => Value { ty: 7, present: true, word: x.div_euclid(y) as i32 },
        kinds::DIVIDE => Value { ty: 7, present: true, word: (-x).div_euclid(-y) as i32 },
        kinds::LESS => Value::bool(x < y),
        kinds::EQUAL => Value::bool(x == y),
        kinds::AND => Value::bool(x + y == 2),
        _ => Value::bool(x + y > 0),
    }
}

#[test]
fn steps_by_the_words() {
    let mut random = Random::new(23);
    let mut marked = 0;
    for _ in 0..700 {
        let count = random.between(1, 60);
        let sample = generate::accepted(&mut random, count);
        let (mut bytes, time) = generate::reached_state(&mut random, &sample);
        let program = Program::read(&sample.file).unwrap();
        for record in generate::records(&mut random, 5, time).chunks(40) {
            let read = State::read(&program, &bytes).unwrap();
            let cells: Cells = program.cells.iter().copied().zip(read.cells).collect();
            let read_record = Record::read(record).unwrap();
            let wrapped = std::cell::Cell::new(false);
            let rules = Rules { program: &program, record: &read_record, wrapped };
            let root = program.tree.root();
            let (value, first) = rules.evaluate(root, &cells, &Bindings::new());
            let (cells, second) = rules.update(root, &cells, &Bindings::new());
            let mut output = [0; 8];
            let done = second::run(&sample.file, &mut bytes, record, &mut output).unwrap();
            assert_eq!((output, done.work), (value.bytes(), first + second));
            assert_eq!(done.wrapped, if rules.wrapped.get() { 0 } else { 65535 });
            marked += usize::from(done.wrapped == 0);
            let after = State::read(&program, &bytes).unwrap();
            assert_eq!(after.cells, cells.into_values().collect::<Vec<_>>());
        }
    }
    assert!(marked > 100, "{marked}");
}

/// The bound by recursion on the words: the evaluation's and the update's.
fn bounds(tree: &Tree, number: usize) -> (u64, u64) {
    let node = &tree.nodes[number];
    let [(ea, ua), (eb, ub), (ec, uc)] = [Field::A, Field::B, Field::C].map(|field| {
        let child = below(tree, number).into_iter().find(|child| child.0 == field);
        child.map_or((0, 0), |child| bounds(tree, child.1))
    });
    match node.kind {
        kinds::DELAY => (1, 1 + ea + ua),
        kinds::LET => (1 + ea + eb, 1 + ea + ua + ub),
        kinds::SWITCH => (1 + ea.max(ec), 1 + eb + ub + ua.max(uc)),
        // Of a list of branches the larger, of a list of cases the sum.
        kinds::GROUP => (1 + ea.max(eb), 1 + ua.max(ub)),
        kinds::BRANCH => (ea.max(eb), ua.max(ub)),
        kinds::UNTIL => (1 + ea, 1 + eb + ub + ua),
        kinds::CASE => (ea + eb, ua + ub),
        kinds::IF | kinds::TAKE => (1 + ea + eb.max(ec), 0),
        kinds::INPUT..=kinds::EXT => (1 + ea, 1),
        _ => (1 + ea + eb, 0),
    }
}

#[test]
fn bounds_by_the_words() {
    let mut random = Random::new(24);
    for _ in 0..600 {
        let count = random.between(1, 200);
        let sample = generate::accepted(&mut random, count);
        let program = Program::read(&sample.file).unwrap();
        let (evaluate, update) = bounds(&program.tree, program.tree.root());
        assert_eq!(program.bound, evaluate + update);
        let request = Request::Check { program: sample.file };
        let Answer::Check(Ok(accepted)) = request.answer() else { panic!("it is accepted") };
        assert_eq!(accepted.bound, program.bound);
    }
}
