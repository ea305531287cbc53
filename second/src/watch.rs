//! Watching signals inside a table (document 02, l): the plain run, and in a second room what listed nodes
//! gave while the root was evaluated.

use crate::calls::{Done, Walk, OUTPUT};
use crate::kinds;
use crate::program::Program;
use crate::record::{MOST_RECORDS, RECORD};
use crate::refusal::{self, Refusal};
use crate::state::State;

/// The most entries of a list.
pub const MOST_ENTRIES: usize = 8;

/// Runs a list of records and watches nodes: codes 1 to 8, 17 and 18 for the list, then as a run, 11 for
/// either room. Each finished step's entries are written, in list order; zeros where the evaluation did
/// not come to the node.
pub fn watched(
    program: &[u8],
    state: &mut [u8],
    records: &[u8],
    list: &[u16],
    output: &mut [u8],
    shown: &mut [u8],
) -> Result<Done, Refusal> {
    let program = Program::read(program)?;
    judge(&program, list)?;
    let read = State::read(&program, state).map_err(|code| Refusal::at(code, 0))?;
    if !records.len().is_multiple_of(RECORD) || records.len() > MOST_RECORDS * RECORD {
        return Err(Refusal::at(refusal::RECORDS, 0));
    }
    let steps = records.len() / RECORD;
    if output.len() != steps * OUTPUT || shown.len() != steps * OUTPUT * list.len() {
        return Err(Refusal::at(refusal::OUTPUT, 0));
    }
    let mut walk = Walk::new(&program, read);
    let rooms = output.chunks_mut(OUTPUT).zip(shown.chunks_mut(OUTPUT * list.len()));
    let mut stopped = None;
    for (record, (value, row)) in records.chunks(RECORD).zip(rooms) {
        match walk.next_seen(record) {
            Ok((made, seen)) => {
                value.copy_from_slice(&made.value.bytes());
                for (entry, &node) in row.chunks_mut(OUTPUT).zip(list) {
                    entry.copy_from_slice(&seen[node as usize].map_or([0; 8], |it| it.bytes()));
                }
            }
            Err(refusal) => {
                stopped = Some(refusal);
                break;
            }
        }
    }
    walk.state.write(state);
    stopped.map_or(Ok(walk.done), Err)
}

/// Codes 17 and 18: 1 to 8 entries, each a signal node and above the one before.
fn judge(program: &Program, list: &[u16]) -> Result<(), Refusal> {
    if list.is_empty() || list.len() > MOST_ENTRIES {
        return Err(Refusal::at(refusal::WATCH_LENGTH, 0));
    }
    for (place, &node) in list.iter().enumerate() {
        let known = program.tree.nodes.get(node as usize);
        let signal = known.is_some_and(|it| (kinds::INPUT..=kinds::UNTIL).contains(&it.kind));
        if !signal || list[..place].last().is_some_and(|&before| before >= node) {
            return Err(Refusal::at(refusal::WATCH_ENTRY, place));
        }
    }
    Ok(())
}
