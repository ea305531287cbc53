//! Tidied tables from others: small tables with their pairings, and what holds of every pairing.

mod common;

use common::{ext, input, int, let_int, node, variable};
use second::generate;
use second::kinds::{self, Node};
use second::partner;
use second::random::Random;
use second::refusal::{self, Refusal};
use second::request::{self, Answer, Request};
use second::{check, format, paired, run, start, tidy};
use std::collections::BTreeSet;

/// Code and place of a pairing of two tables of edition one, 0 and 0 where it is accepted.
fn verdict(old: &[Node], new: &[Node], pairing: &[u16]) -> (u32, u32) {
    let answer = paired(&format::write(old), &format::write(new), pairing);
    answer.err().map_or((0, 0), |it| (it.code, it.place))
}

/// let y = ext 1 in ext (5 + 1)
fn sum() -> [Node; 7] {
    let add = node(kinds::ADD, 0, 2, 3, 0);
    [int(1), ext(0), int(5), int(1), add, ext(4), let_int(1, 5)]
}

/// The same without its let.
fn sum_tidied() -> [Node; 4] {
    [int(5), int(1), node(kinds::ADD, 0, 0, 1, 0), ext(2)]
}

#[test]
fn the_let_dropped_or_kept() {
    assert_eq!(verdict(&sum(), &sum_tidied(), &[2, 3, 4, 5]), (0, 0));
    assert_eq!(verdict(&sum(), &sum(), &[0, 1, 2, 3, 4, 5, 6]), (0, 0));
    assert_eq!(verdict(&sum_tidied(), &sum(), &[1, 3, 0, 1, 2, 3, 3]), (28, 1));
}

#[test]
fn a_child_is_judged_at_its_parent() {
    assert_eq!(verdict(&sum(), &sum_tidied(), &[2, 0, 4, 5]), (28, 2));
    assert_eq!(verdict(&sum(), &sum_tidied(), &[3, 2, 4, 5]), (28, 0));
    assert_eq!(verdict(&sum(), &sum_tidied(), &[2, 3, 4, 6]), (28, 3));
    assert_eq!(verdict(&sum(), &sum_tidied(), &[2, 3, 4, 1]), (28, 3));
    assert_eq!(verdict(&sum(), &sum_tidied(), &[2, 3, 4, 7]), (28, 3));
    assert_eq!(verdict(&sum(), &sum_tidied(), &[65535, 3, 4, 5]), (28, 0));
}

#[test]
fn plain_fields_and_numbering() {
    let other = [int(6), int(1), node(kinds::ADD, 0, 0, 1, 0), ext(2)];
    assert_eq!(verdict(&sum(), &other, &[2, 3, 4, 5]), (28, 0));
    let turned = [int(1), int(5), node(kinds::ADD, 0, 1, 0, 0), ext(2)];
    assert_eq!(verdict(&sum(), &turned, &[3, 2, 4, 5]), (0, 0));
    assert_eq!(verdict(&[input(2)], &[input(3)], &[0]), (28, 0));
    // A dropped definition's last node is as the body's, but not reached from the root.
    let twin = [input(2), input(2), let_int(0, 1)];
    assert_eq!(verdict(&twin, &[input(2)], &[1]), (0, 0));
    assert_eq!(verdict(&twin, &[input(2)], &[0]), (28, 0));
}

#[test]
fn binders_are_paired() {
    // let x = input 0 in let y = input 0 in ext x, tidied of y.
    let old = [input(0), input(0), variable(5), ext(2), let_int(1, 3), let_int(0, 4)];
    let new = [input(0), variable(3), ext(1), let_int(0, 2)];
    assert_eq!(verdict(&old, &new, &[0, 2, 3, 5]), (0, 0));
    // Paired with y instead of x: the variable's binder is not paired with the old binder.
    assert_eq!(verdict(&old, &new, &[1, 2, 3, 4]), (28, 1));
    // x dropped, though it is used: a constant, or another binder in its place.
    assert_eq!(verdict(&old, &[int(0), ext(0)], &[2, 3]), (28, 0));
}

#[test]
fn a_next_exactly_where_the_old_has_one() {
    let branch = |of, next| node(kinds::BRANCH, 3, of, next, 0);
    let one = [input(0), branch(0, kinds::NO_NEXT), input(0), node(kinds::GROUP, 0, 2, 1, 0)];
    let two = [
        input(0),
        branch(0, kinds::NO_NEXT),
        input(0),
        branch(2, 1),
        input(0),
        node(kinds::GROUP, 0, 4, 3, 0),
    ];
    assert_eq!(verdict(&one, &one, &[0, 1, 2, 3]), (0, 0));
    assert_eq!(verdict(&two, &two, &[0, 1, 2, 3, 4, 5]), (0, 0));
    assert_eq!(verdict(&one, &two, &[0, 1, 0, 1, 2, 3]), (28, 3));
    assert_eq!(verdict(&two, &one, &[2, 3, 4, 5]), (28, 1));
    assert_eq!(verdict(&two, &one, &[0, 1, 4, 5]), (28, 3));
}

#[test]
fn codes_in_their_order() {
    let (old, new) = (format::write(&sum()), format::write(&sum_tidied()));
    let mut broken = new.clone();
    broken[9] ^= 1;
    let not_ready = format::write(&[variable(3), ext(0), input(0), let_int(1, 2)]);
    let mut two = new.clone();
    format::set_edition(&mut two, 1);
    let code = |old: &[u8], new: &[u8], pairing: &[u16]| paired(old, new, pairing).unwrap_err();
    assert_eq!(code(&broken, &broken, &[]), Refusal::at(refusal::CHECK, 0));
    assert_eq!(code(&not_ready, &broken, &[]), Refusal::at(refusal::READY, 3));
    assert_eq!(code(&[], &[], &[]), Refusal::at(1, 0));
    assert_eq!(code(&old, &[], &[]), Refusal::at(33, 0));
    assert_eq!(code(&old, &broken, &[]), Refusal::at(34, 0));
    assert_eq!(code(&old, &not_ready, &[]), Refusal::at(40, 3));
    assert_eq!(code(&old, &two, &[]), Refusal::at(29, 0));
    for entries in [&[][..], &[9, 3, 4], &[2, 3, 4, 5, 6]] {
        assert_eq!(code(&old, &new, entries), Refusal::at(27, 0));
    }
    assert_eq!(code(&old, &new, &[9, 9, 9, 9]), Refusal::at(28, 0));
}

/// A generated request whose programs are accepted, of one edition and with as many entries as needed:
/// old and new nodes, files, entries, and whether it was accepted, or the first wrong entry.
struct Judged {
    old: Vec<Node>,
    new: Vec<Node>,
    files: [Vec<u8>; 2],
    pairing: Vec<u16>,
    answer: Result<(), usize>,
}

fn judged(random: &mut Random) -> Judged {
    loop {
        let request = generate::pair_request(random);
        let Request::Pair { old, new, pairing } = request.clone() else { panic!("a pair") };
        let Answer::Pair(answer) = request.answer() else { panic!("a pair") };
        if answer.is_ok() || answer.is_err_and(|it| it.code == refusal::ENTRY) {
            let nodes = |file: &[u8]| format::read(file).expect("accepted");
            let pairing = request::entries(&pairing);
            let answer = answer.map_err(|it| it.place as usize);
            return Judged {
                old: nodes(&old),
                new: nodes(&new),
                files: [old, new],
                pairing,
                answer,
            };
        }
    }
}

/// The nodes of a table whose lets of a set are replaced by their bodies.
fn left(old: &[Node], dropped: &BTreeSet<u16>, number: u16, found: &mut Vec<u16>) {
    let node = &old[number as usize];
    if dropped.contains(&number) {
        return left(old, dropped, node.b, found);
    }
    found.push(number);
    kinds::children(node).for_each(|child| left(old, dropped, child.number, found));
}

/// All sets of lets that can be dropped one after the other, each unused when it is dropped.
fn droppable_sets(old: &[Node]) -> BTreeSet<BTreeSet<u16>> {
    let root = old.len() as u16 - 1;
    let mut open = vec![BTreeSet::new()];
    let mut all = BTreeSet::from([BTreeSet::new()]);
    while let Some(set) = open.pop() {
        let mut here = Vec::new();
        left(old, &set, root, &mut here);
        for &number in here.iter().filter(|&&it| old[it as usize].kind == kinds::LET) {
            let mut body = Vec::new();
            left(old, &set, old[number as usize].b, &mut body);
            let used = body.iter().any(|&it| old[it as usize] == variable(number));
            let mut more = set.clone();
            more.insert(number);
            if !used && all.insert(more.clone()) {
                open.push(more);
            }
        }
    }
    all
}

/// Whether new is old without a set of lets, its nodes renumbered as the pairing says.
fn renumbered(it: &Judged, set: &BTreeSet<u16>) -> bool {
    let mut here = Vec::new();
    left(&it.old, set, it.old.len() as u16 - 1, &mut here);
    let mut paired = it.pairing.clone();
    here.sort();
    paired.sort();
    if here != paired {
        return false;
    }
    let body = |mut number: u16| {
        while set.contains(&number) {
            number = it.old[number as usize].b;
        }
        number
    };
    let place = |old: u16| it.pairing.iter().position(|&entry| entry == old).unwrap() as u16;
    it.new.iter().zip(&it.pairing).all(|(new, &number)| {
        let mut old = it.old[number as usize];
        for child in kinds::children(&it.old[number as usize]) {
            kinds::set(&mut old, child.field, place(body(child.number)));
        }
        match old.kind {
            kinds::VARIABLE => old.a = place(old.a),
            kinds::CASE => old.c = place(old.c),
            _ => {}
        }
        old == *new
    })
}

#[test]
fn accepted_exactly_when_some_set_of_unused_lets_is_dropped() {
    let mut random = Random::new(61);
    let mut counts = [0usize; 3];
    while counts[0] + counts[1] < 3000 {
        let it = judged(&mut random);
        let lets = it.old.iter().filter(|node| node.kind == kinds::LET).count();
        if lets > 7 || it.old.len() > 60 {
            continue;
        }
        let sets = droppable_sets(&it.old);
        let found = sets.iter().any(|set| renumbered(&it, set));
        assert_eq!(it.answer.is_ok(), found, "{:?} {:?} {:?}", it.old, it.new, it.pairing);
        counts[usize::from(found)] += 1;
        counts[2] += usize::from(found && it.new.len() < it.old.len());
    }
    assert!(counts.iter().all(|&count| count > 600), "{counts:?}");
}

/// An entry by the paper's words over relations: which old nodes are reached from which, closed step by
/// step.
fn first_wrong(it: &Judged) -> Option<usize> {
    let (old, new, entry) = (&it.old, &it.new, |number: u16| it.pairing[number as usize]);
    let mut reached: BTreeSet<(u16, u16)> = (0..old.len() as u16).map(|it| (it, it)).collect();
    loop {
        let through = reached.iter().filter(|&&(_, to)| old[to as usize].kind == kinds::LET);
        let more: Vec<_> = through.map(|&(from, to)| (from, old[to as usize].b)).collect();
        let before = reached.len();
        reached.extend(more);
        if reached.len() == before {
            break;
        }
    }
    let field = |node: &Node, field: usize| [node.a, node.b, node.c][field];
    let right = |place: usize| {
        let (number, new_node) = (it.pairing[place], &new[place]);
        let Some(old_node) = old.get(number as usize) else { return false };
        let plain = |node: &Node| match node.kind {
            kinds::INPUT => (node.a, 0),
            kinds::DELAY | kinds::CONSTANT => (node.b, node.word),
            kinds::BRANCH | kinds::CASE => (u16::from(node.b == 65535), 0),
            _ => (0, 0),
        };
        let own = (old_node.kind, old_node.ty, plain(old_node))
            == (new_node.kind, new_node.ty, plain(new_node));
        let children: &[usize] = match new_node.kind {
            1 | 2 | 16 | 17 => &[],
            3 | 4 | 24 | 28 => &[0],
            9 | 10 if new_node.b == 65535 => &[0],
            6 | 27 | 29 => &[0, 1, 2],
            _ => &[0, 1],
        };
        own && children
            .iter()
            .all(|&at| reached.contains(&(field(old_node, at), entry(field(new_node, at)))))
            && (new_node.kind != kinds::VARIABLE || entry(new_node.a) == old_node.a)
            && (new_node.kind != kinds::CASE || entry(new_node.c) == old_node.c)
            && (place + 1 < new.len() || reached.contains(&(old.len() as u16 - 1, number)))
    };
    (0..new.len()).find(|&place| !right(place))
}

#[test]
fn the_first_wrong_entry_is_named() {
    let mut random = Random::new(62);
    let mut places = BTreeSet::new();
    for _ in 0..3000 {
        let it = judged(&mut random);
        if it.old.len() > 400 {
            continue;
        }
        assert_eq!(it.answer.err(), first_wrong(&it));
        places.extend(it.answer.err());
    }
    assert!(places.len() > 80, "{}", places.len());
}

#[test]
fn what_is_accepted_runs_alike() {
    let mut random = Random::new(63);
    let mut tried = 0;
    while tried < 600 {
        let it = judged(&mut random);
        if it.answer.is_err() {
            continue;
        }
        let steps = random.below(12);
        let mut records = generate::records(&mut random, steps, 0);
        if random.chance(20) {
            second::damage::records(&mut random, &mut records);
        }
        let [old, new] = it.files.map(|program| {
            let mut state = vec![0; 8 + 8 * check(&program).unwrap().cells];
            start(&program, &mut state).unwrap();
            let mut output = vec![3; steps * 8];
            let answer = run(&program, &mut state, &records, &mut output);
            (answer.map(|it| it.steps).map_err(|it| (it.code, it.place)), output)
        });
        assert_eq!(old, new);
        tried += 1;
    }
}

#[test]
fn tidys_own_work_is_accepted() {
    let mut random = Random::new(64);
    for turn in 0..1500 {
        let count = if turn % 100 == 0 { 1008 } else { random.between(1, 150) };
        let sample = generate::overgrown(&mut random, count);
        let mut room = sample.file.clone();
        let length = tidy(&sample.file, &mut room).expect("accepted").length;
        let order = second::tidy::order(&sample.nodes);
        let pairing: Vec<u16> = order.iter().map(|&it| it as u16).collect();
        assert_eq!(paired(&sample.file, &room[..length], &pairing), Ok(()));
        let own: Vec<u16> = (0..sample.nodes.len() as u16).collect();
        assert_eq!(paired(&sample.file, &sample.file, &own), Ok(()));
    }
}

#[test]
fn one_entry_bent_is_refused() {
    let mut random = Random::new(65);
    for _ in 0..2000 {
        let count = random.between(1, 60);
        let sample = generate::overgrown(&mut random, count);
        let offer = partner::right(&mut random, &sample.nodes);
        let mut new = format::write(&offer.nodes);
        format::set_edition(&mut new, sample.file[format::EDITION_AT]);
        assert_eq!(paired(&sample.file, &new, &offer.pairing), Ok(()));
        let mut bent = offer.pairing.clone();
        let place = random.below(bent.len());
        bent[place] = random.below(sample.nodes.len() + 2) as u16;
        let answer = paired(&sample.file, &new, &bent);
        assert_eq!(answer.is_ok(), bent == offer.pairing, "no other entry is right");
    }
}
