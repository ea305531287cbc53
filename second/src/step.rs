//! One step: evaluate the root, update it, and let the state's time become the record's.

use crate::kinds;
use crate::program::Program;
use crate::record::Record;
use crate::state::{self, Cell, State};
use crate::value::Value;

/// What the rules of one step work on.
pub struct Step<'a> {
    pub program: &'a Program,
    pub record: &'a Record,
    pub cells: &'a mut [Cell],
    /// The values bound by lets and takes, by the binder's number. A binder is entered anew
    /// before any use of its variable, so one place for each is enough.
    pub bound: Vec<Value>,
    pub work: u64,
    /// Whether an operation that was evaluated left the range of its numbers.
    pub wrapped: bool,
    /// What each node gave when it was last evaluated in this step.
    pub gave: Vec<Option<Value>>,
}

/// What a step made: the root's value, the work, and whether a number wrapped.
#[derive(Clone, Copy, Debug, PartialEq, Eq)]
pub struct Made {
    pub value: Value,
    pub work: u64,
    pub wrapped: bool,
}

/// Makes one step.
pub fn make(program: &Program, state: &mut State, record: &Record) -> Made {
    make_seen(program, state, record).0
}

/// Makes one step; beside it what each node gave while the root was evaluated, none where the evaluation
/// did not come to it.
pub fn make_seen(
    program: &Program,
    state: &mut State,
    record: &Record,
) -> (Made, Vec<Option<Value>>) {
    let count = program.tree.nodes.len();
    let (bound, gave) = (vec![Value::default(); count], vec![None; count]);
    let cells = &mut state.cells;
    let mut step = Step { program, record, cells, bound, work: 0, wrapped: false, gave };
    let root = program.tree.root();
    let value = step.evaluate(root);
    let seen = step.gave.clone();
    step.update(root);
    let made = Made { value, work: step.work, wrapped: step.wrapped };
    state.time = Some(record.time);
    (made, seen)
}

impl Step<'_> {
    /// Counts one rule used.
    pub fn count(&mut self) {
        self.work += 1;
    }

    /// The cell of a delay, switch or group.
    pub fn cell(&mut self, number: usize) -> &mut Cell {
        &mut self.cells[self.program.cell_at[number]]
    }

    /// The body of the current part of a switch or a group.
    pub fn current_part(&mut self, number: usize) -> usize {
        let node = self.program.node(number);
        let cell = *self.cell(number);
        let part = match node.kind {
            _ if cell == Cell::default() => node.a,
            kinds::SWITCH => node.c,
            _ => self.program.node(cell.branch as usize).a,
        };
        part as usize
    }

    /// Puts all cells of a node and below it to start; resets count nothing.
    pub fn reset(&mut self, from: usize) {
        let mut waiting = vec![from];
        while let Some(number) = waiting.pop() {
            let node = self.program.node(number);
            if kinds::has_cell(node.kind) {
                *self.cell(number) = state::start_cell(self.program, number);
            }
            waiting.extend(kinds::children(&node).map(|child| child.number as usize));
        }
    }
}
