//! The calls of Couplerfinch for Rust: [`check`], [`start`], [`run`], [`watch`], [`explain`], [`mend`],
//! [`tidy`], [`paired`], [`read`] and [`print`].
//!
//! They stand over the static library `libcouplerfinch.a`, whose answers are proved: every call ends
//! and answers, whatever bytes and lengths it is handed. What a caller in C owes (a pointer to as
//! many bytes as its length says, no overlap of what is written) slices give, so these functions are
//! safe. Nothing is allocated and `std` is not used; a call needs at most 512 KiB of stack.
//!
//! The archive is for x86-64 Linux. `build.rs` finds it by COUPLERFINCH_ARCHIVE, or in the
//! repository's `crates/couplerfinch/out`, where `tools/proved archive` (or `rt lib`) writes it.
//!
//! ```no_run
//! # fn next_record() -> Option<[u8; couplerfinch::RECORD]> { None }
//! # fn show(_: [u8; couplerfinch::VALUE]) {}
//! # fn crossing(program: &[u8]) -> Result<(), couplerfinch::Refusal> {
//! let mut room = [0; couplerfinch::LONGEST_STATE];
//! let checked = couplerfinch::check(program)?;
//! let state = &mut room[..checked.state_length()];
//! couplerfinch::start(program, state)?;
//! while let Some(record) = next_record() {
//!     let mut value = [0; couplerfinch::VALUE];
//!     match couplerfinch::run(program, state, &record, &mut value) {
//!         Ok(_) => show(value),
//!         // A refused run of one record changes neither state nor value.
//!         Err(refusal) => eprintln!("{refusal}"),
//!     }
//! }
//! # Ok(())
//! # }
//! ```
#![no_std]
#![warn(missing_docs)]

mod code;
#[allow(missing_docs)]
pub mod raw;

pub use code::{Code, Type};
pub use raw::{
    list_entries, shown_length, state_length, BLOCK, BLOCKS, LONGEST_LIST, LONGEST_PROGRAM,
    LONGEST_STATE, LONGEST_TEXT, NODES, NO_ENTRY, NO_STEP, RECORD, RECORDS, TIME_ENTRY, VALUE,
    WATCHED,
};

use core::fmt;

/// The version of the crate, which is the header's.
pub const VERSION: &str = env!("CARGO_PKG_VERSION");

/// What check says of an accepted program.
#[derive(Clone, Copy, Debug, PartialEq, Eq)]
pub struct Checked {
    /// How many nodes the program has.
    pub nodes: u32,
    /// How many cells its state has.
    pub cells: u32,
    /// The most rules that a step uses.
    pub bound: u32,
    /// The type of the value of a step.
    pub value: Type,
}

impl Checked {
    /// The length of the program's state in bytes.
    pub const fn state_length(&self) -> usize {
        state_length(self.cells as usize)
    }

    /// How many entries the list of [`mend`] has.
    pub const fn list_entries(&self) -> usize {
        list_entries(self.cells as usize)
    }
}

/// What run says of steps that went through.
#[derive(Clone, Copy, Debug, Default, PartialEq, Eq)]
pub struct Ran {
    /// How many steps were done.
    pub steps: u32,
    /// How many rules they used.
    pub work: u32,
    /// The first of them, from 0, in which a number wrapped: a sum, difference or product that left the 32
    /// bits, or the lowest number divided by -1.
    pub wrapped: Option<u16>,
}

/// What explain says of a program that is not ready.
#[derive(Clone, Copy, Debug, PartialEq, Eq)]
pub struct Explained {
    /// The let that [`Code::NotReady`] names.
    pub node: u32,
    /// How many entries its chain has.
    pub entries: u32,
}

/// What tidy and read say of the new program.
#[derive(Clone, Copy, Debug, PartialEq, Eq)]
pub struct Written {
    /// How many nodes it has.
    pub nodes: u32,
    /// How long it is in bytes: so much of the room it fills.
    pub length: u32,
}

/// The name by which [`tidy`] gave it first.
pub type Tidied = Written;

/// A refused call.
#[derive(Clone, Copy, Debug, PartialEq, Eq)]
pub struct Refusal {
    /// The first code that the rules give.
    pub code: Code,
    /// Where, as the code says; 0 where it names no place.
    pub place: u32,
    /// What a run had done before, which stays done; zeros for the other calls.
    pub ran: Ran,
}

impl fmt::Display for Refusal {
    fn fmt(&self, to: &mut fmt::Formatter) -> fmt::Result {
        write!(to, "refused: {} at {}: {}", self.code, self.place, self.code.words())
    }
}

/// Checks a program, 1 to 24 blocks of 512 bytes.
pub fn check(program: &[u8]) -> Result<Checked, Refusal> {
    let answer = answered(|answer| {
        // Safety: the pointers come from slices and a value that outlive the call, and what is
        // written is lent alone.
        unsafe { raw::couplerfinch_check(program.as_ptr(), program.len(), answer) }
    })?;
    let raw::Answer { nodes, cells, bound, r#type, .. } = answer;
    let value = Type::of(r#type).expect("the library gives a type of the header's");
    Ok(Checked { nodes, cells, bound, value })
}

/// Makes the room the program's start state, if it is [`Checked::state_length`] long.
pub fn start(program: &[u8], state: &mut [u8]) -> Result<(), Refusal> {
    answered(|answer| {
        let (room, length) = (state.as_mut_ptr(), state.len());
        // Safety: as for `check`; the state is lent alone.
        unsafe { raw::couplerfinch_start(program.as_ptr(), program.len(), room, length, answer) }
    })?;
    Ok(())
}

/// Makes a step for each of 0 to 4,096 records, with 8 bytes of output each; the program is checked
/// once. A refused run keeps the steps done before the refused record.
pub fn run(
    program: &[u8],
    state: &mut [u8],
    records: &[u8],
    output: &mut [u8],
) -> Result<Ran, Refusal> {
    let answer = ran_or_refused(|answer| {
        let (program, program_length) = (program.as_ptr(), program.len());
        let (state, state_length) = (state.as_mut_ptr(), state.len());
        let (records, records_length) = (records.as_ptr(), records.len());
        let (output, length) = (output.as_mut_ptr(), output.len());
        // Safety: as for `check`; state and output are lent alone, so they overlap nothing.
        unsafe {
            raw::couplerfinch_run(
                program,
                program_length,
                state,
                state_length,
                records,
                records_length,
                output,
                length,
                answer,
            )
        }
    });
    answer.map(|answer| ran(&answer))
}

/// Runs the records as [`run`] does, with the same answer, output and state, and writes down what nodes
/// inside the table gave: the list has 1 to [`WATCHED`] signal nodes (kinds 1-8), rising. For each step and
/// in it for each entry, 8 bytes of the second room are the value that the node gave while the step's value
/// was worked out, or zeros where that did not come to the node: in a part that is not current, inside a
/// delay, in the event of a switch or an until. The second room is [`shown_length`] long. A refused watched
/// run keeps the steps done before the refused record, in both rooms.
pub fn watch(
    program: &[u8],
    state: &mut [u8],
    records: &[u8],
    list: &[u16],
    output: &mut [u8],
    shown: &mut [u8],
) -> Result<Ran, Refusal> {
    let answer = ran_or_refused(|answer| {
        let (program, program_length) = (program.as_ptr(), program.len());
        let (state, state_length) = (state.as_mut_ptr(), state.len());
        let (records, records_length) = (records.as_ptr(), records.len());
        let (list, entries) = (list.as_ptr(), list.len());
        let (output, length) = (output.as_mut_ptr(), output.len());
        let (shown, shown_length) = (shown.as_mut_ptr(), shown.len());
        // Safety: as for `check`; state, output and second room are lent alone, so they overlap nothing.
        unsafe {
            raw::couplerfinch_watch(
                program,
                program_length,
                state,
                state_length,
                records,
                records_length,
                list,
                entries,
                output,
                length,
                shown,
                shown_length,
                answer,
            )
        }
    });
    answer.map(|answer| ran(&answer))
}

/// Explains why a program is not ready, where [`check`] refuses it by [`Code::NotReady`]. The room has
/// [`NODES`] entries and gets the chain: from the let's definition down to the use of its own variable,
/// each node a child of the one before, the first by field order; the entries behind it are
/// [`NO_ENTRY`]. A refusal leaves the room as it was.
pub fn explain(program: &[u8], room: &mut [u16]) -> Result<Explained, Refusal> {
    let answer = answered(|answer| {
        let (entries, count) = (room.as_mut_ptr(), room.len());
        // Safety: as for `check`; the room is lent alone.
        unsafe {
            raw::couplerfinch_explain(program.as_ptr(), program.len(), entries, count, answer)
        }
    })?;
    let raw::Answer { node, entries, .. } = answer;
    Ok(Explained { node, entries })
}

/// Brings a damaged state back: a cell that is valid for its node and in a current part is kept, every
/// other is put to start, and a time above 2,147,483,647 becomes all ones, "none". The list has
/// [`Checked::list_entries`] entries and gets what changed: [`TIME_ENTRY`] in front if the time did, then
/// the cells' numbers from 0, rising; how many were listed is answered. A refusal leaves state and list
/// as they were.
pub fn mend(program: &[u8], state: &mut [u8], list: &mut [u16]) -> Result<u32, Refusal> {
    let answer = answered(|answer| {
        let (program, program_length) = (program.as_ptr(), program.len());
        let (state, state_length) = (state.as_mut_ptr(), state.len());
        let (list, entries) = (list.as_mut_ptr(), list.len());
        // Safety: as for `check`; state and list are lent alone.
        unsafe {
            raw::couplerfinch_mend(
                program,
                program_length,
                state,
                state_length,
                list,
                entries,
                answer,
            )
        }
    })?;
    Ok(answer.entries)
}

/// Tidies a program: each let whose body does not name its variable is replaced by that body, again
/// until none is left, and the nodes are numbered children first. The new program fills the first
/// blocks of the room, which is at least as long as the old one ([`LONGEST_PROGRAM`] is for any), and the
/// rest is left; from start the two answer every list of records with the same values and refusals.
pub fn tidy(program: &[u8], room: &mut [u8]) -> Result<Written, Refusal> {
    let answer = answered(|answer| {
        let (new, length) = (room.as_mut_ptr(), room.len());
        // Safety: as for `check`; the room is lent alone.
        unsafe { raw::couplerfinch_tidy(program.as_ptr(), program.len(), new, length, answer) }
    })?;
    let raw::Answer { nodes, length, .. } = answer;
    Ok(Written { nodes, length })
}

/// Accepts a new program exactly when it is the old one with some unused lets dropped, one after the
/// other, and its nodes are numbered as the pairing says, which has for each new node its old one. From
/// start the two then answer every list of records with the same values and refusals.
pub fn paired(old: &[u8], new: &[u8], pairing: &[u16]) -> Result<(), Refusal> {
    answered(|answer| {
        let (old, old_length) = (old.as_ptr(), old.len());
        let (new, new_length) = (new.as_ptr(), new.len());
        let (pairing, entries) = (pairing.as_ptr(), pairing.len());
        // Safety: as for `check`; nothing but the answer is written.
        unsafe {
            raw::couplerfinch_paired(old, old_length, new, new_length, pairing, entries, answer)
        }
    })?;
    Ok(())
}

/// Reads a table as it is typed (docs/TEXT.md) and writes its blocks to the front of the room
/// ([`LONGEST_PROGRAM`] is for any); what is behind is left. A word that does not fit is refused with its
/// position in the text, in bytes from 0, as the place; a table that the check refuses with the node's
/// number, children first in field order.
pub fn read(text: &[u8], room: &mut [u8]) -> Result<Written, Refusal> {
    let answer = answered(|answer| {
        let (new, length) = (room.as_mut_ptr(), room.len());
        // Safety: as for `check`; the room is lent alone.
        unsafe { raw::couplerfinch_read(text.as_ptr(), text.len(), new, length, answer) }
    })?;
    let raw::Answer { nodes, length, .. } = answer;
    Ok(Written { nodes, length })
}

/// Prints a program as text to the front of the room ([`LONGEST_TEXT`] is for any), and answers the text's
/// length; what is behind is left. Reading the text gives the program numbered children first, and printing
/// that gives the text again.
pub fn print(program: &[u8], room: &mut [u8]) -> Result<u32, Refusal> {
    let answer = answered(|answer| {
        let (text, length) = (room.as_mut_ptr(), room.len());
        // Safety: as for `check`; the room is lent alone.
        unsafe { raw::couplerfinch_print(program.as_ptr(), program.len(), text, length, answer) }
    })?;
    Ok(answer.length)
}

/// Makes a call with room for its answer, which is a refusal where its code is not 0; it is none of a run.
fn answered(call: impl FnOnce(&mut raw::Answer) -> u32) -> Result<raw::Answer, Refusal> {
    ran_or_refused(call).map_err(|refusal| Refusal { ran: Ran::default(), ..refusal })
}

/// The same of a run, whose refusal says what was done before.
fn ran_or_refused(call: impl FnOnce(&mut raw::Answer) -> u32) -> Result<raw::Answer, Refusal> {
    let mut answer = raw::Answer::default();
    match call(&mut answer) {
        raw::DONE => Ok(answer),
        number => {
            let code = Code::of(number).expect("the library gives a code of the header's");
            Err(Refusal { code, place: answer.place, ran: ran(&answer) })
        }
    }
}

fn ran(answer: &raw::Answer) -> Ran {
    let raw::Answer { steps, work, wrapped, .. } = *answer;
    // One of the steps done: NO_STEP is none of them, nor is the 0 of a call that makes no step.
    let wrapped = u16::try_from(wrapped).ok().filter(|&step| u32::from(step) < steps);
    Ran { steps, work, wrapped }
}
