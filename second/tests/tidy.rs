//! Tables that have grown old: the readings' own tables, and what holds of every tidied one.

mod common;

use common::{delay, ext, input, int, let_int, node, variable};
use second::generate;
use second::kinds::{self, Node};
use second::random::Random;
use second::refusal::{self, Refusal};
use second::request::{Answer, Request};
use second::{check, format, run, start, tidy, Tidied};

/// The nodes that tidying leaves of a table; its blocks are the table's own way of writing them.
fn tidied(nodes: &[Node]) -> Vec<Node> {
    let program = format::write(nodes);
    let mut room = vec![7; program.len() + 5];
    let Tidied { nodes, length } = tidy(&program, &mut room).expect("an accepted table");
    assert!(room[length..].iter().all(|&byte| byte == 7));
    let left = format::read(&room[..length]).expect("whole blocks");
    assert_eq!((left.len(), &room[..length]), (nodes, &format::write(&left)[..]));
    left
}

#[test]
fn a_use_in_its_own_definition_keeps_no_let() {
    let nodes = [variable(5), ext(0), delay(1, 0), int(5), ext(3), let_int(2, 4)];
    assert_eq!(tidied(&nodes), [int(5), ext(0)]);
}

#[test]
fn a_use_in_a_dropped_definition_keeps_no_let() {
    let nodes = [input(0), variable(6), ext(1), int(5), ext(3), let_int(2, 4), let_int(0, 5)];
    assert_eq!(tidied(&nodes), [int(5), ext(0)]);
}

#[test]
fn a_use_under_a_delay_or_in_an_event_keeps_its_let() {
    let under = [input(0), variable(4), ext(1), delay(2, 1), let_int(0, 3)];
    assert_eq!(tidied(&under), under);
    let just = node(kinds::JUST, 0, 2, 0, 0);
    let switch = node(kinds::SWITCH, 3, 1, 4, 5);
    let event = [input(0), input(1), variable(7), just, ext(3), input(2), switch, let_int(0, 6)];
    assert_eq!(tidied(&event), event);
}

#[test]
fn other_variables_and_branches_that_are_not_used_stay() {
    let nodes = [
        input(0),
        node(kinds::BRANCH, 3, 0, kinds::NO_NEXT, 0),
        int(1),
        node(kinds::JUST, 0, 2, 0, 0),
        int(2),
        int(3),
        node(kinds::TAKE, 3, 3, 4, 5),
        ext(6),
        input(4),
        input(1),
        node(kinds::SWITCH, 3, 7, 8, 9),
        node(kinds::GROUP, 0, 10, 1, 0),
    ];
    let left = tidied(&nodes);
    assert_eq!(left.len(), nodes.len());
    assert_eq!(left[..2], [int(1), node(kinds::JUST, 0, 0, 0, 0)]);
    assert_eq!(tidied(&left), left);
}

#[test]
fn a_used_let_in_a_dropped_definition_goes_with_it() {
    let nodes = [input(0), variable(3), ext(1), let_int(0, 2), input(2), let_int(3, 4)];
    assert_eq!(tidied(&nodes), [input(2)]);
}

#[test]
fn numbered_anew_where_nothing_is_dropped() {
    let nodes = [variable(4), input(3), ext(0), delay(2, 9), let_int(1, 3)];
    assert_eq!(tidied(&nodes), [input(3), variable(4), ext(1), delay(2, 9), let_int(0, 3)]);
}

#[test]
fn the_room_is_as_long_as_the_old_program() {
    // 40 nodes that stay, then one unused let around them in one block, and two in two blocks.
    let mut nodes = vec![int(1)];
    for at in 0..19 {
        nodes.extend([int(2), node(kinds::ADD, 0, 2 * at, 2 * at + 1, 0)]);
    }
    nodes.extend([ext(38), input(0), let_int(40, 39)]);
    let program = format::write(&nodes);
    nodes.extend([input(1), let_int(42, 41)]);
    let longer = format::write(&nodes);
    assert_eq!((program.len(), longer.len()), (512, 1024));
    for (program, lengths) in [(&program, [0, 1, 511]), (&longer, [0, 512, 1023])] {
        for length in lengths {
            let mut room = vec![7; length];
            assert_eq!(tidy(program, &mut room), Err(Refusal::at(refusal::SHORT, 0)));
            assert_eq!(room, vec![7; length]);
        }
    }
    for length in [1024, 1025, 1536, 20_000] {
        let mut room = vec![7; length];
        assert_eq!(tidy(&longer, &mut room), Ok(Tidied { nodes: 40, length: 512 }));
        assert!(check(&room[..512]).is_ok() && room[512..].iter().all(|&byte| byte == 7));
    }
    let mut damaged = longer.clone();
    damaged[600] ^= 1;
    assert_eq!(tidy(&damaged, &mut []), Err(Refusal::at(refusal::CHECK, 1)));
}

/// A generated program that is accepted, and what tidying leaves of it.
fn went_through(random: &mut Random) -> (Vec<u8>, Vec<u8>) {
    loop {
        let request = generate::tidy_request(random);
        let Request::Tidy { program, room } = request.clone() else { panic!("a tidying") };
        if let Answer::Tidy(Ok(it), after) = request.answer() {
            assert_eq!(room[it.length..], after[it.length..], "the rest is left");
            assert_eq!(it.length, it.nodes.div_ceil(42) * 512);
            return (program, after[..it.length].to_vec());
        }
    }
}

#[test]
fn tidied_twice_is_tidied_once_and_no_larger() {
    let mut random = Random::new(51);
    let (mut smaller, mut bound_less) = (0, 0);
    for _ in 0..2500 {
        let (old, new) = went_through(&mut random);
        let [before, after] = [&old, &new].map(|it| check(it).expect("accepted"));
        assert_eq!(old[format::EDITION_AT], new[format::EDITION_AT]);
        assert_eq!(before.root_type, after.root_type);
        assert!(after.nodes <= before.nodes && after.bound <= before.bound);
        smaller += usize::from(after.nodes < before.nodes);
        bound_less += usize::from(after.bound < before.bound);
        let mut again = new.clone();
        let Tidied { nodes, length } = tidy(&new, &mut again).expect("accepted");
        assert_eq!((nodes, length, &again), (after.nodes, new.len(), &new));
    }
    assert!(smaller > 1500 && bound_less > 1500, "{smaller} {bound_less}");
}

#[test]
fn old_and_new_run_alike() {
    let mut random = Random::new(52);
    let mut refused = 0;
    for _ in 0..1200 {
        let (old, new) = went_through(&mut random);
        let steps = random.below(14);
        let mut records = generate::records(&mut random, steps, 0);
        if random.chance(30) {
            second::damage::records(&mut random, &mut records);
        }
        let length = steps * 8 + usize::from(random.chance(5));
        let answers = [&old, &new].map(|program| {
            let mut state = vec![0; 8 + 8 * check(program).unwrap().cells];
            start(program, &mut state).unwrap();
            let mut output = vec![3; length];
            let answer = run(program, &mut state, &records, &mut output);
            let answer = answer.map(|it| it.steps).map_err(|it| (it.code, it.place));
            (answer, output)
        });
        assert_eq!(answers[0], answers[1]);
        refused += usize::from(answers[0].0.is_err());
    }
    assert!(refused > 150, "{refused}");
}

/// A table as a tree of its own, to drop lets from one by one.
#[derive(Clone, Debug, PartialEq)]
struct Part {
    /// The node; what it names beside its children is its number in the old table.
    node: Node,
    old: usize,
    below: Vec<Part>,
}

fn part(nodes: &[Node], number: usize) -> Part {
    let node = nodes[number];
    let below = kinds::children(&node).map(|child| part(nodes, child.number as usize)).collect();
    Part { node, old: number, below }
}

impl Part {
    fn names(&self, binder: usize) -> bool {
        let own = self.node.kind == kinds::VARIABLE && self.node.a as usize == binder;
        own || self.below.iter().any(|part| part.names(binder))
    }

    /// The lets that may be dropped now, by the ways down to them.
    fn unused(&self, way: &[usize], found: &mut Vec<Vec<usize>>) {
        if self.node.kind == kinds::LET && !self.below[1].names(self.old) {
            found.push(way.to_vec());
        }
        for (place, part) in self.below.iter().enumerate() {
            part.unused(&[way, &[place]].concat(), found);
        }
    }

    fn drop_at(&mut self, way: &[usize]) {
        match way {
            [] => *self = self.below[1].clone(),
            [place, rest @ ..] => self.below[*place].drop_at(rest),
        }
    }

    /// The nodes children first, with the old numbers of what they name.
    fn list(&self, to: &mut Vec<(usize, Node)>) -> u16 {
        let children: Vec<u16> = self.below.iter().map(|part| part.list(to)).collect();
        let mut node = self.node;
        for (child, number) in kinds::children(&self.node).zip(children) {
            kinds::set(&mut node, child.field, number);
        }
        to.push((self.old, node));
        to.len() as u16 - 1
    }

    fn table(&self) -> Vec<Node> {
        let mut list = Vec::new();
        self.list(&mut list);
        let place = |old: u16| list.iter().position(|row| row.0 == old as usize).unwrap() as u16;
        let named = |&(_, node): &(usize, Node)| match node.kind {
            kinds::VARIABLE => Node { a: place(node.a), ..node },
            kinds::CASE => Node { c: place(node.c), ..node },
            _ => node,
        };
        list.iter().map(named).collect()
    }
}

#[test]
fn dropped_one_by_one_in_any_order_until_none_is_left() {
    let mut random = Random::new(53);
    let mut drops = 0;
    for _ in 0..1500 {
        let count = random.between(2, 45);
        let sample = generate::overgrown(&mut random, count);
        let mut whole = part(&sample.nodes, sample.nodes.len() - 1);
        loop {
            let mut found = Vec::new();
            whole.unused(&[], &mut found);
            if found.is_empty() {
                break;
            }
            let way = found.swap_remove(random.below(found.len()));
            whole.drop_at(&way);
            drops += 1;
        }
        let mut room = sample.file.clone();
        let Tidied { length, .. } = tidy(&sample.file, &mut room).expect("accepted");
        assert_eq!(format::read(&room[..length]), Ok(whole.table()));
    }
    assert!(drops > 3000, "{drops}");
}

#[test]
fn overgrown_tables_have_lets_of_all_sorts() {
    let mut random = Random::new(54);
    let (mut full, mut all, mut kept) = (0, 0, 0);
    for turn in 0..600 {
        let count = if turn % 60 == 0 { 1008 } else { random.between(1, 120) };
        let sample = generate::overgrown(&mut random, count);
        let accepted = check(&sample.file).expect("accepted");
        assert!(accepted.nodes <= count);
        full += usize::from(accepted.nodes == 1008);
        let lets = |nodes: &[Node]| nodes.iter().filter(|it| it.kind == kinds::LET).count();
        all += lets(&sample.nodes);
        let mut room = sample.file.clone();
        let Tidied { length, .. } = tidy(&sample.file, &mut room).expect("accepted");
        kept += lets(&format::read(&room[..length]).unwrap());
    }
    assert!(full > 0 && all > 2 * kept && kept > 500, "{full} {all} {kept}");
}
