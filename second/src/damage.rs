//! Damage to programs, states and records, gross and subtle, so that every code comes up.

use crate::format::{self, BLOCK, HEAD, RECORD as NODE, RECORDS};
use crate::kinds::{self, Node};
use crate::random::Random;
use crate::record::{FLAGS, RECORD};
use crate::state::{CELL, HEADER};
use crate::value;

/// Lengths of files that are none, or the longest and one more block.
const LENGTHS: [usize; 9] = [0, 1, 511, 513, 1023, 12_287, 12_288, 12_289, 12_800];

/// Damages a program file of these nodes in one way.
pub fn program(random: &mut Random, file: &mut Vec<u8>, nodes: &[Node]) {
    match random.weighted(&[3, 6, 5, 6, 8, 12, 14, 12, 5, 3, 5]) {
        0 => length(random, file),
        1 => {
            let at = random.below(file.len());
            file[at] ^= 1 << random.below(8);
        }
        2 => numbering(random, file),
        3 => any_field(random, file, nodes),
        4 => edit(random, file, nodes, child),
        5 => edit(random, file, nodes, binder_or_target),
        6 => edit(random, file, nodes, type_or_kind),
        7 => swap_children(random, file, nodes),
        8 => end_of_records(random, file, nodes),
        9 => edit(random, file, nodes, constant),
        _ => edition(random, file),
    }
}

fn length(random: &mut Random, file: &mut Vec<u8>) {
    let near = [file.len() + BLOCK, file.len() - BLOCK, file.len() + 1, file.len() - 1];
    let to = if random.chance(50) { random.one(&near) } else { random.one(&LENGTHS) };
    file.resize(to, 0);
}

/// A wrong block number or count under right checks, in one or two blocks.
fn numbering(random: &mut Random, file: &mut [u8]) {
    for _ in 0..random.between(1, 2) {
        let block = random.below(file.len() / BLOCK) * BLOCK;
        let at = block + random.below(4);
        file[at] = file[at].wrapping_add(random.one(&[1, 255, 128, 2]));
    }
    format::seal(file);
}

/// Another edition under right checks: in one block, or the same in all, which below 2 is right.
fn edition(random: &mut Random, file: &mut [u8]) {
    let new = random.one(&[0, 0, 1, 1, 1, 2, 2, 3, 128, 255]);
    if random.chance(60) {
        return format::set_edition(file, new);
    }
    let block = random.below(file.len() / BLOCK) * BLOCK;
    file[block + format::EDITION_AT] = new;
    format::seal(file);
}

/// Any byte of any record under right checks.
fn any_field(random: &mut Random, file: &mut [u8], nodes: &[Node]) {
    let number = random.below(nodes.len());
    let at = place(number) + random.below(NODE);
    if let Some(byte) = file.get_mut(at) {
        *byte =
            if random.chance(50) { random.draw() as u8 } else { *byte ^ (1 << random.below(8)) };
    }
    format::seal(file);
}

/// Where a record stands in the file.
fn place(number: usize) -> usize {
    number / RECORDS * BLOCK + HEAD + number % RECORDS * NODE
}

/// Writes a node over its record, where the file reaches so far, under right checks.
fn put(file: &mut [u8], number: usize, node: &Node) {
    if let Some(room) = file.get_mut(place(number)..place(number) + NODE) {
        room.copy_from_slice(&format::record_of(node));
    }
    format::seal(file);
}

/// An edit of one node, among all nodes; it says whether it changed it.
type Edit = fn(&mut Random, &[Node], usize, &mut Node) -> bool;

/// Tries an edit at random nodes until it changes one.
fn edit(random: &mut Random, file: &mut [u8], nodes: &[Node], edit: Edit) {
    for _ in 0..60 {
        let number = random.below(nodes.len());
        let mut node = nodes[number];
        if edit(random, nodes, number, &mut node) {
            put(file, number, &node);
            return;
        }
    }
}

/// Some number that a field might name wrongly.
fn some_number(random: &mut Random, count: usize, number: usize) -> u16 {
    let own = number as u16;
    match random.below(8) {
        0 => own,
        1 => own.wrapping_add(1),
        2 => kinds::NO_NEXT,
        3 => count as u16,
        4 => own.wrapping_sub(1),
        _ => random.below(count) as u16,
    }
}

/// Names another child.
fn child(random: &mut Random, nodes: &[Node], number: usize, node: &mut Node) -> bool {
    let fields: Vec<_> = kinds::children(node).collect();
    if fields.is_empty() {
        return false;
    }
    let field = random.one(&fields).field;
    kinds::set(node, field, some_number(random, nodes.len(), number));
    true
}

/// Names another binder or target, mostly one of the right kind and type.
fn binder_or_target(random: &mut Random, nodes: &[Node], number: usize, node: &mut Node) -> bool {
    let kinds_wanted: &[u8] = match node.kind {
        kinds::VARIABLE => &[kinds::LET, kinds::SWITCH, kinds::BRANCH, kinds::TAKE],
        kinds::CASE => &[kinds::BRANCH],
        _ => return false,
    };
    let old = if node.kind == kinds::CASE { node.c } else { node.a };
    let ty = nodes[old as usize].ty;
    let alike: Vec<u16> = (0..nodes.len() as u16)
        .filter(|&other| kinds_wanted.contains(&nodes[other as usize].kind) && other != old)
        .filter(|&other| nodes[other as usize].ty == ty)
        .collect();
    let new = match alike.is_empty() || random.chance(25) {
        true => some_number(random, nodes.len(), number),
        false => random.one(&alike),
    };
    if node.kind == kinds::CASE {
        node.c = new;
    } else {
        node.a = new;
    }
    true
}

/// Another type, or another kind with the same fields.
fn type_or_kind(random: &mut Random, _: &[Node], _: usize, node: &mut Node) -> bool {
    match node.kind {
        kinds::INPUT => node.a ^= 4,
        kinds::LET | kinds::DELAY | kinds::CONSTANT => {
            node.ty = random.one(&[1, 2, 3, 5, 6, 7]);
            if node.kind != kinds::LET {
                (node.b, node.word) = (1, 0);
            }
        }
        kinds::SWITCH | kinds::BRANCH | kinds::TAKE => node.ty = random.one(&[1, 2, 3, 3, 7]),
        kinds::ADD..=kinds::EQUAL | kinds::AND | kinds::OR => {
            node.kind = random.one(&[18, 20, 21, 22, 23, 25, 26]);
        }
        kinds::NOT | kinds::JUST => node.kind ^= kinds::NOT ^ kinds::JUST,
        _ => return false,
    }
    true
}

/// Lets two children of one sort change places, each still below its new parent's number.
fn swap_children(random: &mut Random, file: &mut [u8], nodes: &[Node]) {
    let mut named = Vec::new();
    for (number, node) in nodes.iter().enumerate() {
        named.extend(kinds::children(node).map(|child| (number, child)));
    }
    for _ in 0..if named.is_empty() { 0 } else { 60 } {
        let (one, first) = random.one(&named);
        let (two, second) = random.one(&named);
        let fits = first.sort == second.sort && first.number != second.number;
        if fits && (second.number as usize) < one && (first.number as usize) < two {
            let mut changed = nodes.to_vec();
            kinds::set(&mut changed[one], first.field, second.number);
            kinds::set(&mut changed[two], second.field, first.number);
            put(file, one, &changed[one]);
            put(file, two, &changed[two]);
            return;
        }
    }
}

/// An end too early, or something after the end.
fn end_of_records(random: &mut Random, file: &mut [u8], nodes: &[Node]) {
    if random.chance(40) {
        let number = random.below(nodes.len());
        return put(file, number, &Node::default());
    }
    let last = file.len() / BLOCK * RECORDS;
    let number = random.between(nodes.len(), last.max(nodes.len() + 1) - 1);
    let node = match random.below(3) {
        0 => Node { kind: kinds::TIME, ..Node::default() },
        1 => Node { word: 1, ..Node::default() },
        _ => Node { ty: 3, ..Node::default() },
    };
    put(file, number, &node);
}

/// Another present field or word of a constant or a first value.
fn constant(random: &mut Random, _: &[Node], _: usize, node: &mut Node) -> bool {
    if !matches!(node.kind, kinds::CONSTANT | kinds::DELAY) {
        return false;
    }
    match random.below(3) {
        0 => node.b = random.one(&[0, 1, 2, 257, 256]),
        1 => node.word = random.one(&[0, 1, 2, -1]),
        _ => node.ty = random.one(&[0, 1, 2, 4, 5, 6, 8]),
    }
    true
}

/// Damages a state in one way; some ways leave it well-formed.
pub fn state(random: &mut Random, state: &mut Vec<u8>, nodes: &[Node]) {
    let cells: Vec<usize> =
        (0..nodes.len()).filter(|&number| kinds::has_cell(nodes[number].kind)).collect();
    if cells.is_empty() || state.len() != HEADER + CELL * cells.len() || random.chance(15) {
        return time_or_length(random, state);
    }
    if random.chance(30) {
        let at = random.between(HEADER, state.len() - 1);
        state[at] = if random.chance(50) { state[at] ^ 1 } else { random.draw() as u8 };
        return;
    }
    let cell = random.below(cells.len());
    let content = some_cell(random, nodes, cells[cell]);
    state[HEADER + CELL * cell..HEADER + CELL * (cell + 1)].copy_from_slice(&content);
}

fn time_or_length(random: &mut Random, state: &mut Vec<u8>) {
    if random.chance(40) && state.len() >= HEADER {
        let at = random.between(4, HEADER - 1);
        state[at] = if random.chance(50) { state[at] ^ 1 } else { random.draw() as u8 };
        return;
    }
    if random.chance(50) || state.len() < HEADER {
        let length = state.len();
        let to =
            [length + 1, length + 8, length.saturating_sub(1), length.saturating_sub(8), 0, 4, 8];
        return state.resize(random.one(&to), 0);
    }
    let time = random.one(&[0x8000_0000, 0xFFFF_FFFE, 0x7FFF_FFFF, 0xFFFF_FFFF, 0, 0x9000_0000u32]);
    state[..4].copy_from_slice(&time.to_le_bytes());
}

/// Content that looks right for the cell of a node, and often is.
pub fn some_cell(random: &mut Random, nodes: &[Node], number: usize) -> [u8; 8] {
    let node = nodes[number];
    let branches: Vec<u16> = (0..nodes.len() as u16)
        .filter(|&other| nodes[other as usize].kind == kinds::BRANCH)
        .collect();
    let (ty, branch) = match node.kind {
        kinds::GROUP if random.chance(80) => {
            let first = if random.chance(60) { node.b } else { random.one(&branches) };
            (nodes[first as usize].ty, first)
        }
        kinds::GROUP => (random.one(&[0, 1, 2, 3]), random.below(nodes.len()) as u16),
        _ => (node.ty, 0),
    };
    if node.kind != kinds::DELAY && random.chance(20) {
        return [0; 8];
    }
    let word = if ty % 4 == value::INT { random.word() } else { 0 };
    let mut content = value::Value { ty, present: true, word }.bytes();
    content[2..4].copy_from_slice(&branch.to_le_bytes());
    content
}

/// Damages one of the records, or none where there is none.
pub fn records(random: &mut Random, records: &mut [u8]) {
    if records.len() < RECORD {
        return;
    }
    let from = random.below(records.len() / RECORD) * RECORD;
    let record = &mut records[from..from + RECORD];
    match random.below(7) {
        0 => record[FLAGS] |= 16 << random.below(4),
        1 => record[FLAGS + random.between(1, 3)] = 1 << random.below(8),
        2 => {
            let channel = random.below(4);
            record[FLAGS] &= !(1 << channel);
            record[24 + 4 * channel + random.below(4)] |= 1 << random.below(8);
        }
        3 => record[..4].copy_from_slice(&0x8000_0000u32.to_le_bytes()),
        4 => record[3] |= 128,
        5 => record[..4].copy_from_slice(&0u32.to_le_bytes()),
        _ => record[random.below(3)] = 0,
    }
}
