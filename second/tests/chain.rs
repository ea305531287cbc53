//! "Why is it not ready?": small tables with their chains, and what holds of every chain.

mod common;

use common::{ext, input, int, let_int, node, variable};
use second::chain::{explain, Explained, ENTRIES, NO_ENTRY};
use second::format;
use second::generate;
use second::kinds::{self, Field, Node};
use second::random::Random;
use second::refusal::{self, Refusal};
use second::request::{Answer, Request};
use second::{check, shape};

/// The let and the chain of a table, or the refusal; the room holds nothing else.
fn told(nodes: &[Node]) -> Result<(usize, Vec<u16>), Refusal> {
    let mut room = [7; ENTRIES];
    let Explained { node, entries } = explain(&format::write(nodes), &mut room)?;
    assert!(room[entries..].iter().all(|&entry| entry == NO_ENTRY));
    Ok((node, room[..entries].to_vec()))
}

#[test]
fn reading_c() {
    let nodes = [variable(4), ext(0), variable(4), ext(2), let_int(1, 3)];
    assert_eq!(told(&nodes), Ok((4, vec![1, 0])));
}

#[test]
fn a_branch_behind_another() {
    let nodes = [
        input(0),
        variable(8),
        ext(1),
        node(kinds::BRANCH, 3, 2, kinds::NO_NEXT, 0),
        input(0),
        node(kinds::BRANCH, 3, 4, 3, 0),
        node(kinds::GROUP, 0, 0, 5, 0),
        input(1),
        let_int(6, 7),
    ];
    assert_eq!(told(&nodes), Ok((8, vec![6, 5, 3, 2, 1])));
}

#[test]
fn the_second_part_by_its_left_operand_and_not_the_event() {
    let nodes = [
        int(0),
        ext(0),
        variable(12),
        node(kinds::JUST, 0, 2, 0, 0),
        ext(3),
        variable(12),
        variable(12),
        node(kinds::ADD, 0, 6, 5, 0),
        ext(7),
        node(kinds::SWITCH, 3, 1, 4, 8),
        variable(12),
        ext(10),
        let_int(9, 11),
    ];
    assert_eq!(told(&nodes), Ok((12, vec![9, 8, 7, 6])));
}

#[test]
fn a_use_under_a_delay_has_no_chain() {
    let nodes = [variable(4), ext(0), node(kinds::DELAY, 3, 1, 1, 0), input(0), let_int(2, 3)];
    assert_eq!(told(&nodes), Err(Refusal::at(refusal::NO_LET, 0)));
}

#[test]
fn codes_in_their_order() {
    let ready = format::write(&[input(0)]);
    let not = format::write(&[variable(3), ext(0), input(0), let_int(1, 2)]);
    let mut damaged = not.clone();
    damaged[4] ^= 1;
    for entries in [0, 1, 1007, 1009, 2016] {
        let mut room = vec![7; entries];
        let mut code = |program: &[u8]| explain(program, &mut room).unwrap_err();
        assert_eq!(code(&ready), Refusal::at(refusal::NO_LET, 0));
        assert_eq!(code(&not), Refusal::at(refusal::ROOM, 0));
        assert_eq!(code(&damaged), Refusal::at(refusal::CHECK, 0));
        assert_eq!(code(&not[..511]), Refusal::at(refusal::LENGTH, 0));
        assert_eq!(room, vec![7; entries]);
    }
}

/// The fields by which a chain goes down, each to a child of the node before that may be entered.
fn fields(nodes: &[Node], chain: &[u16]) -> Vec<Field> {
    let step = |pair: &[u16]| {
        let above = nodes[pair[0] as usize];
        let child = kinds::children(&above).find(|child| child.number == pair[1]);
        let field = child.expect("a child of the one before").field;
        assert!(above.kind != kinds::DELAY, "a delay entered");
        let event = matches!(above.kind, kinds::SWITCH | kinds::UNTIL) && field == Field::B;
        assert!(!event, "an event entered");
        field
    };
    chain.windows(2).map(step).collect()
}

/// Every chain below a node, by brute force from its uses upward.
fn all_chains(tree: &shape::Tree, of: u16) -> Vec<Vec<u16>> {
    let top = tree.nodes[of as usize].a;
    let uses = (0..tree.nodes.len()).filter(|&number| tree.nodes[number] == variable(of));
    uses.filter_map(|number| {
        let mut chain = vec![number as u16];
        for above in tree.way_up(number) {
            if chain[0] == top {
                return Some(chain);
            }
            let kind = tree.nodes[above.parent].kind;
            let event = matches!(kind, kinds::SWITCH | kinds::UNTIL) && above.field == Field::B;
            if kind == kinds::DELAY || event || above.parent as u16 == of {
                return None;
            }
            chain.insert(0, above.parent as u16);
        }
        None
    })
    .collect()
}

#[test]
fn the_chain_is_the_first_of_all() {
    let mut random = Random::new(11);
    let (mut explained, mut choices, mut deep) = (0, 0, 0);
    for _ in 0..6000 {
        let request = generate::chain_request(&mut random);
        let Request::Chain { program, .. } = &request else { panic!("a chain") };
        let Answer::Chain(Ok(answer), room) = request.clone().answer() else { continue };
        assert_eq!(check(program), Err(Refusal::at(refusal::READY, answer.node)));
        let tree = shape::read(format::read(program).unwrap()).unwrap();
        let entries = room.chunks(2).map(|pair| u16::from_le_bytes([pair[0], pair[1]]));
        let chain: Vec<u16> = entries.take(answer.entries).collect();
        let order = |chain: &Vec<u16>| -> Vec<u8> {
            fields(&tree.nodes, chain).into_iter().map(|field| field as u8).collect()
        };
        let all = all_chains(&tree, answer.node as u16);
        assert_eq!(Some(&chain), all.iter().min_by_key(|&chain| order(chain)));
        explained += 1;
        choices += usize::from(all.len() > 1);
        deep += usize::from(chain.len() > 100);
    }
    assert!(explained > 1500 && choices > 300 && deep > 40, "{explained} {choices} {deep}");
}
