//! A bad memory card: states damaged cell by cell.

use crate::damage;
use crate::kinds::{self, Node};
use crate::random::Random;
use crate::state::{CELL, HEADER};

/// Damages a state of these nodes: its time, or some of its cells, few or most of them.
pub fn spoil(random: &mut Random, state: &mut [u8], nodes: &[Node]) {
    if random.chance(25) {
        time(random, state);
    }
    let percent = random.one(&[0, 5, 20, 60, 100]);
    let cells = nodes.iter().enumerate().filter(|(_, node)| kinds::has_cell(node.kind));
    for ((number, _), content) in cells.zip(state[HEADER..].chunks_exact_mut(CELL)) {
        if random.chance(percent) {
            cell(random, content, nodes, number);
        }
    }
}

/// Any time word, good ones at their ends among them.
fn time(random: &mut Random, state: &mut [u8]) {
    let words = [0, 0x7FFF_FFFF, 0x8000_0000, 0x8000_0001, 0xFFFF_FFFE, 0xFFFF_FFFF];
    let word = if random.chance(70) { random.one(&words) } else { random.draw() as u32 };
    state[..4].copy_from_slice(&word.to_le_bytes());
}

/// Damages a cell in one way; some ways leave it valid for its node.
fn cell(random: &mut Random, content: &mut [u8], nodes: &[Node], number: usize) {
    let byte = |random: &mut Random| random.draw() as u8;
    match random.weighted(&[30, 6, 6, 8, 8, 10, 6, 6, 4]) {
        // What looks right: a value where a part is not current, a branch of another group.
        0 => content.copy_from_slice(&damage::some_cell(random, nodes, number)),
        1 => content[random.below(CELL)] ^= 1 << random.below(8),
        2 => content.iter_mut().for_each(|it| *it = byte(random)),
        3 => content[0] = random.one(&[0, 1, 2, 3, 4, 5, 6, 7, 8, 255]),
        4 => content[1] = random.one(&[0, 1, 2, 255]),
        5 => {
            let near = random.between(number.saturating_sub(3), number);
            let any = random.below(nodes.len());
            let named = random.one(&[0, 1, near, any, nodes.len(), 65535]);
            content[2..4].copy_from_slice(&(named as u16).to_le_bytes());
        }
        6 => content[4 + random.below(4)] = random.one(&[1, 2, 128, 255]),
        7 => content.fill(0),
        _ => content.fill(255),
    }
}
