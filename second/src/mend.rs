//! Bringing a state back (document 02, k): what is valid in a current part is kept, all else goes to
//! start.

use crate::format::number32;
use crate::program::Program;
use crate::refusal::{self, Refusal};
use crate::state::{self, State, CELL, HEADER, LATEST};

/// The entry that stands in front of the list if the time changed.
pub const TIME_ENTRY: u16 = 65535;

/// Mends a state and lists what changed: codes 1 to 8, 9 for the length, 15 for the sum, then 16 for the
/// list's room. It answers how many entries were listed.
pub fn mend(program: &[u8], state: &mut [u8], list: &mut [u16]) -> Result<usize, Refusal> {
    let program = Program::read(program)?;
    if state.len() != state::length(&program) {
        return Err(Refusal::at(refusal::STATE, 0));
    }
    if number32(state, state::SUM_AT) != program.checks {
        return Err(Refusal::at(refusal::OTHER_PROGRAM, 0));
    }
    if list.len() != program.cells.len() + 1 {
        return Err(Refusal::at(refusal::LIST, 0));
    }
    let mut mended = vec![0; state.len()];
    brought_back(&program, state).write(&mut mended);
    let changed = changes(state, &mended);
    state.copy_from_slice(&mended);
    list[..changed.len()].copy_from_slice(&changed);
    Ok(changed.len())
}

/// The state that bytes of the right length and sum are brought back to. Parents have larger numbers,
/// so going down the numbers each node finds its parents' cells judged already.
fn brought_back(program: &Program, bytes: &[u8]) -> State {
    let mut back = State::start(program);
    back.time = Some(number32(bytes, 0)).filter(|&time| time <= LATEST);
    let mut idle = vec![false; program.tree.nodes.len()];
    for number in (0..program.tree.nodes.len()).rev() {
        idle[number] = program.tree.above[number].is_some_and(|above| {
            idle[above.parent] || back.enters_idle_part(program, above.parent, above.field)
        });
        let cell = program.cell_at[number];
        if idle[number] || cell == usize::MAX {
            continue;
        }
        let content = &bytes[HEADER + CELL * cell..][..CELL];
        if let Some(kept) = state::read_cell(program, number, content) {
            back.cells[cell] = kept;
        }
    }
    back
}

/// The list of what differs: the time in front, then the cells' numbers, rising.
fn changes(before: &[u8], after: &[u8]) -> Vec<u16> {
    let time = (before[..4] != after[..4]).then_some(TIME_ENTRY);
    let cells = before[HEADER..].chunks(CELL).zip(after[HEADER..].chunks(CELL));
    let changed = (0..).zip(cells).filter(|(_, (old, new))| old != new);
    time.into_iter().chain(changed.map(|(cell, _)| cell)).collect()
}
