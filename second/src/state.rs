//! States: the last time, the sum of the program's checks and one cell for each delay, switch and
//! group; codes 9 and 15.

use crate::format::{number16, number32};
use crate::kinds::{self, Field};
use crate::program::Program;
use crate::refusal;
use crate::value::Value;

/// The bytes before the cells: the last time, and the sum of the program's checks.
pub const HEADER: usize = 8;
pub const SUM_AT: usize = 4;
pub const CELL: usize = 8;
/// The time word of a state that has no last time.
pub const NO_TIME: u32 = u32::MAX;
pub const LATEST: u32 = 2_147_483_647;

/// A cell as stored; all zero for a switch in first or a group in its body.
#[derive(Clone, Copy, Debug, Default, PartialEq, Eq)]
pub struct Cell {
    pub value: Value,
    pub branch: u16,
}

/// A decoded state.
#[derive(Clone, Debug, PartialEq, Eq)]
pub struct State {
    pub time: Option<u32>,
    pub checks: u32,
    pub cells: Vec<Cell>,
}

/// The length of a program's state in bytes.
pub fn length(program: &Program) -> usize {
    HEADER + CELL * program.cells.len()
}

/// The start content of a node's cell: a delay's first value, zeros for the others.
pub fn start_cell(program: &Program, number: usize) -> Cell {
    let node = program.node(number);
    match node.kind {
        kinds::DELAY => {
            let value = Value { ty: node.ty, present: node.b == 1, word: node.word };
            Cell { value, branch: 0 }
        }
        _ => Cell::default(),
    }
}

/// Writes the sum of a program's checks into a state's bytes.
pub fn put_sum(bytes: &mut [u8], checks: u32) {
    bytes[SUM_AT..HEADER].copy_from_slice(&checks.to_le_bytes());
}

impl State {
    /// The start state of a program.
    pub fn start(program: &Program) -> State {
        let cells = program.cells.iter().map(|&number| start_cell(program, number)).collect();
        State { time: None, checks: program.checks, cells }
    }

    /// Reads a state if it is well-formed for the program, or tells the code: 9 for the length, then
    /// 15 for a wrong sum, then 9 for the rest.
    pub fn read(program: &Program, bytes: &[u8]) -> Result<State, u32> {
        if bytes.len() != length(program) {
            return Err(refusal::STATE);
        }
        if number32(bytes, SUM_AT) != program.checks {
            return Err(refusal::OTHER_PROGRAM);
        }
        State::rest(program, bytes).ok_or(refusal::STATE)
    }

    /// The time and the cells of a state of the right length and sum, if they are well-formed.
    fn rest(program: &Program, bytes: &[u8]) -> Option<State> {
        let time = match number32(bytes, 0) {
            NO_TIME => None,
            time if time <= LATEST => Some(time),
            _ => return None,
        };
        let contents = bytes[HEADER..].chunks(CELL);
        let cells = program.cells.iter().zip(contents);
        let cells = cells.map(|(&number, content)| read_cell(program, number, content));
        let cells = cells.collect::<Option<_>>()?;
        let state = State { time, checks: program.checks, cells };
        state.idle_parts_at_start(program).then_some(state)
    }

    /// Writes the state into its bytes, which have the right length.
    pub fn write(&self, bytes: &mut [u8]) {
        bytes[..SUM_AT].copy_from_slice(&self.time.unwrap_or(NO_TIME).to_le_bytes());
        put_sum(bytes, self.checks);
        for (cell, content) in self.cells.iter().zip(bytes[HEADER..].chunks_mut(CELL)) {
            content.copy_from_slice(&cell.value.bytes());
            content[2..4].copy_from_slice(&cell.branch.to_le_bytes());
        }
    }

    /// Whether every cell in a part that is not current holds its start content. Parents have
    /// larger numbers, so going down the numbers it is known of each parent first.
    fn idle_parts_at_start(&self, program: &Program) -> bool {
        let mut idle = vec![false; program.tree.nodes.len()];
        for number in (0..program.tree.root()).rev() {
            idle[number] = program.tree.above[number].is_some_and(|above| {
                idle[above.parent] || self.enters_idle_part(program, above.parent, above.field)
            });
        }
        let mut cells = program.cells.iter().zip(&self.cells);
        cells.all(|(&number, &cell)| !idle[number] || cell == start_cell(program, number))
    }

    /// Whether the field of the parent leads into a part that is not current.
    pub fn enters_idle_part(&self, program: &Program, parent: usize, field: Field) -> bool {
        let caught = |number: usize| self.cells[program.cell_at[number]];
        match (program.node(parent).kind, field) {
            (kinds::SWITCH, Field::A) => caught(parent) != Cell::default(),
            (kinds::SWITCH, Field::C) => caught(parent) == Cell::default(),
            (kinds::GROUP, Field::A) => caught(parent) != Cell::default(),
            (kinds::BRANCH, Field::A) => {
                let group = program.homes[parent];
                group.is_none_or(|group| {
                    caught(group).branch as usize != parent || caught(group) == Cell::default()
                })
            }
            _ => false,
        }
    }
}

/// Reads one cell if it is valid for its node.
pub fn read_cell(program: &Program, number: usize, content: &[u8]) -> Option<Cell> {
    let branch = number16(content, 2);
    let value = Value::from_parts(content[0], content[1] as u16, number32(content, 4) as i32);
    let node = program.node(number);
    if node.kind != kinds::DELAY && content.iter().all(|&byte| byte == 0) {
        return Some(Cell::default());
    }
    let value = value?;
    let valid = match node.kind {
        kinds::GROUP => {
            let named = program.tree.nodes.get(branch as usize);
            program.homes.get(branch as usize) == Some(&Some(number))
                && named.is_some_and(|named| named.kind == kinds::BRANCH && named.ty == value.ty)
        }
        _ => branch == 0 && value.ty == node.ty,
    };
    valid.then_some(Cell { value, branch })
}
