//! How watchrun prints types, values and lines, and how it takes its input.

use crate::calls::{self, Walk};
use crate::format::{BLOCK, EDITION_AT, MOST_BLOCKS};
use crate::program::Program;
use crate::record::{MOST_RECORDS, RECORD};
use crate::refusal::{self, Refusal};
use crate::state::State;
use crate::value::{self, Value, BOOL, MAYBE, UNIT};
use std::io::{self, Read, Write};

/// The words for a type.
pub fn type_words(ty: u8) -> String {
    match ty {
        UNIT => "unit".into(),
        BOOL => "bool".into(),
        value::INT => "int".into(),
        _ => format!("maybe {}", type_words(ty.wrapping_sub(MAYBE).clamp(UNIT, value::INT))),
    }
}

/// The words for a value.
pub fn value_words(value: Value) -> String {
    match value.ty {
        UNIT => "unit".into(),
        BOOL => value.truth().to_string(),
        value::INT => value.word.to_string(),
        _ => match value.taken() {
            Some(taken) => format!("some {}", value_words(taken)),
            None => "none".into(),
        },
    }
}

/// Why a run could not be watched to its end.
#[derive(Debug)]
pub enum Broken {
    /// A read failed, which is not the end of the input.
    Input,
    /// A write failed.
    Output,
}

impl From<io::Error> for Broken {
    fn from(_: io::Error) -> Broken {
        Broken::Output
    }
}

/// Reads up to `most` bytes, fewer where the input ends.
fn take(input: &mut impl Read, most: usize) -> Result<Vec<u8>, Broken> {
    let mut bytes = Vec::new();
    match input.by_ref().take(most as u64).read_to_end(&mut bytes) {
        Ok(_) => Ok(bytes),
        Err(_) => Err(Broken::Input),
    }
}

/// Takes the blocks: as many as block 0 says, if 1 to 24, else just one.
fn take_program(input: &mut impl Read) -> Result<Vec<u8>, Broken> {
    let mut program = take(input, BLOCK)?;
    if program.len() == BLOCK {
        let edition = program[EDITION_AT];
        let count = if edition <= 1 { program[2] as usize } else { usize::MAX };
        if (1..=MOST_BLOCKS).contains(&count) {
            program.extend(take(input, (count - 1) * BLOCK)?);
        }
    }
    Ok(program)
}

/// The last line of a refused run or program.
fn refused(output: &mut impl Write, refusal: Refusal) -> Result<(), Broken> {
    writeln!(output, "REFUSED {} {}", refusal.code, refusal.place)?;
    Ok(output.flush()?)
}

/// Watches a run: checks, starts and steps record by record, printing each line when it is due.
pub fn watch(mut input: impl Read, mut output: impl Write) -> Result<(), Broken> {
    let program = match Program::read(&take_program(&mut input)?) {
        Ok(program) => program,
        Err(refusal) => return refused(&mut output, refusal),
    };
    let first = calls::accepted(&program);
    let ty = type_words(first.root_type);
    writeln!(output, "OK {} {} {} {ty}", first.nodes, first.cells, first.bound)?;
    output.flush()?;
    let mut walk = Walk::new(&program, State::start(&program));
    loop {
        let record = take(&mut input, RECORD)?;
        if record.is_empty() {
            break;
        }
        if record.len() < RECORD || walk.done.steps == MOST_RECORDS {
            return refused(&mut output, Refusal::at(refusal::RECORDS, 0));
        }
        match walk.next(&record) {
            Ok((value, work)) => {
                let time = number_time(&record);
                writeln!(output, "{time} {} {work}", value_words(value))?;
                output.flush()?;
            }
            Err(refusal) => return refused(&mut output, refusal),
        }
    }
    writeln!(output, "END {} {}", walk.done.steps, walk.done.work)?;
    Ok(output.flush()?)
}

/// The time of a record.
fn number_time(record: &[u8]) -> u32 {
    crate::format::number32(record, 0)
}
