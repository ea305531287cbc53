//! Check, start and run, and the order in which they try their codes.

use crate::program::Program;
use crate::record::{Record, MOST_RECORDS, RECORD};
use crate::refusal::{self, Refusal};
use crate::state::{self, State};
use crate::step as one;
use crate::value::Value;

/// The bytes of one step's output.
pub const OUTPUT: usize = 8;

/// The answer to an accepted check.
#[derive(Clone, Copy, Debug, PartialEq, Eq)]
pub struct Accepted {
    pub nodes: usize,
    pub cells: usize,
    pub bound: u64,
    pub root_type: u8,
}

/// The answer to a finished run.
#[derive(Clone, Copy, Debug, PartialEq, Eq)]
pub struct Done {
    pub steps: usize,
    pub work: u64,
    /// The first step, from 0, in which a number wrapped; 65535 if there was none.
    pub wrapped: u32,
}

/// Checks a program: codes 1 to 8.
pub fn check(program: &[u8]) -> Result<Accepted, Refusal> {
    Ok(accepted(&Program::read(program)?))
}

/// What check answers about an accepted program.
pub fn accepted(program: &Program) -> Accepted {
    Accepted {
        nodes: program.tree.nodes.len(),
        cells: program.cells.len(),
        bound: program.bound,
        root_type: program.root_type,
    }
}

/// Starts a state: codes 1 to 8, then 9 for a wrong length only.
pub fn start(program: &[u8], state: &mut [u8]) -> Result<(), Refusal> {
    let program = Program::read(program)?;
    if state.len() != state::length(&program) {
        return Err(Refusal::at(refusal::STATE, 0));
    }
    State::start(&program).write(state);
    Ok(())
}

/// Runs a list of records: codes 1 to 8, 9 and 15, 10, 11, then 12 and 13 for each record. The lent
/// state is written once, with what the finished steps made of it.
pub fn run(
    program: &[u8],
    state: &mut [u8],
    records: &[u8],
    output: &mut [u8],
) -> Result<Done, Refusal> {
    let program = Program::read(program)?;
    let read = State::read(&program, state).map_err(|code| Refusal::at(code, 0))?;
    if !records.len().is_multiple_of(RECORD) || records.len() > MOST_RECORDS * RECORD {
        return Err(Refusal::at(refusal::RECORDS, 0));
    }
    if output.len() != records.len() / RECORD * OUTPUT {
        return Err(Refusal::at(refusal::OUTPUT, 0));
    }
    let mut walk = Walk::new(&program, read);
    let answer = walk.all(records, output);
    walk.state.write(state);
    answer
}

/// A run on its way: the state reached and what was done so far.
pub struct Walk<'a> {
    program: &'a Program,
    pub state: State,
    pub done: Done,
}

impl Walk<'_> {
    pub fn new(program: &Program, state: State) -> Walk<'_> {
        Walk { program, state, done: Done { steps: 0, work: 0, wrapped: refusal::NO_STEP } }
    }

    /// Works all records in turn, writing each output as its step is done.
    fn all(&mut self, records: &[u8], output: &mut [u8]) -> Result<Done, Refusal> {
        for (record, room) in records.chunks(RECORD).zip(output.chunks_mut(OUTPUT)) {
            let (value, _) = self.next(record)?;
            room.copy_from_slice(&value.bytes());
        }
        Ok(self.done)
    }

    /// Makes the next step: tries 12 and 13, then answers the value and the step's work.
    pub fn next(&mut self, record: &[u8]) -> Result<(Value, u64), Refusal> {
        self.next_seen(record).map(|(made, _)| (made.value, made.work))
    }

    /// The same, with what each node gave while the root was evaluated.
    pub fn next_seen(&mut self, record: &[u8]) -> Result<(one::Made, Vec<Option<Value>>), Refusal> {
        let Done { steps, work, wrapped } = self.done;
        let refused = |code| Refusal::after(code, steps, work, wrapped);
        let record = Record::read(record).ok_or(refused(refusal::INPUT))?;
        if self.state.time.is_some_and(|last| record.time < last) {
            return Err(refused(refusal::BACKWARD));
        }
        let (made, seen) = one::make_seen(self.program, &mut self.state, &record);
        let first = made.wrapped && wrapped == refusal::NO_STEP;
        let wrapped = if first { steps as u32 } else { wrapped };
        self.done = Done { steps: steps + 1, work: work + made.work, wrapped };
        Ok((made, seen))
    }
}
