//! The blocks and records of a program file: codes 1 to 4.

use crate::kinds::{self, Node, TypeByte};
use crate::refusal::{self, Refusal};
use crate::value::{self, Value};

pub const BLOCK: usize = 512;
pub const MOST_BLOCKS: usize = 24;
pub const RECORDS: usize = 42;
pub const RECORD: usize = 12;
/// Where the records of a block begin.
pub const HEAD: usize = 4;
/// Where a block has its edition: 0 for edition one, 1 for edition two.
pub const EDITION_AT: usize = 3;
/// Where the check of a block stands.
pub const CHECK_AT: usize = 508;

/// The little-endian 16-bit number at a place.
pub fn number16(bytes: &[u8], at: usize) -> u16 {
    u16::from_le_bytes([bytes[at], bytes[at + 1]])
}

/// The little-endian 32-bit number at a place.
pub fn number32(bytes: &[u8], at: usize) -> u32 {
    u32::from_le_bytes([bytes[at], bytes[at + 1], bytes[at + 2], bytes[at + 3]])
}

/// The check of a block: the sum of (i+1) times byte i before the check itself.
pub fn check_sum(block: &[u8]) -> u32 {
    (1u32..).zip(&block[..CHECK_AT]).map(|(weight, &byte)| weight * byte as u32).sum()
}

/// Reads the nodes of a program file, or refuses it with a code from 1 to 4.
pub fn read(program: &[u8]) -> Result<Vec<Node>, Refusal> {
    let length = program.len();
    if length == 0 || length > MOST_BLOCKS * BLOCK || !length.is_multiple_of(BLOCK) {
        return Err(Refusal::at(refusal::LENGTH, 0));
    }
    let blocks: Vec<&[u8]> = program.chunks(BLOCK).collect();
    let wrong_check = |block: &&[u8]| check_sum(block) != number32(block, CHECK_AT);
    if let Some(place) = blocks.iter().position(wrong_check) {
        return Err(Refusal::at(refusal::CHECK, place));
    }
    for (place, block) in blocks.iter().enumerate() {
        let number = number16(block, 0) as usize;
        let (count, edition) = (block[2] as usize, block[EDITION_AT]);
        let known = edition == program[EDITION_AT] && edition <= 1;
        if number != place || count != blocks.len() || !known {
            return Err(Refusal::at(refusal::NUMBERING, place));
        }
    }
    read_records(&blocks)
}

/// Reads the records of all blocks up to the end of records.
fn read_records(blocks: &[&[u8]]) -> Result<Vec<Node>, Refusal> {
    let records = blocks.iter().flat_map(|block| block[HEAD..CHECK_AT].chunks(RECORD));
    let last_first = RECORDS * (blocks.len() - 1);
    let mut nodes = Vec::new();
    let mut ended = false;
    for (place, record) in records.enumerate() {
        let node = node_of(record);
        ended |= node.kind == 0 && place > last_first;
        let good = if ended { node == Node::default() } else { valid(&node) };
        if !good {
            return Err(Refusal::at(refusal::RECORD, place));
        }
        if !ended {
            nodes.push(node);
        }
    }
    Ok(nodes)
}

/// The fields of a record's 12 bytes.
pub fn node_of(record: &[u8]) -> Node {
    Node {
        kind: record[0],
        ty: record[1],
        a: number16(record, 2),
        b: number16(record, 4),
        c: number16(record, 6),
        word: number32(record, 8) as i32,
    }
}

/// Whether a record before the end obeys its kind: type, constant, channel and zero fields.
fn valid(node: &Node) -> bool {
    let Some(named) = kinds::named(node.kind) else {
        return false;
    };
    let type_fits = match named.ty {
        TypeByte::Zero => node.ty == 0,
        TypeByte::Any => value::is_type(node.ty),
        TypeByte::Plain => value::is_plain(node.ty),
    };
    let zeros = (named.a || node.a == 0)
        && (named.b || node.b == 0)
        && (named.c || node.c == 0)
        && (named.word || node.word == 0);
    let own = match node.kind {
        kinds::INPUT => node.a <= 7,
        kinds::DELAY | kinds::CONSTANT => Value::from_parts(node.ty, node.b, node.word).is_some(),
        _ => true,
    };
    type_fits && zeros && own
}

/// The 12 bytes of a record.
pub fn record_of(node: &Node) -> [u8; RECORD] {
    let mut record = [0; RECORD];
    record[0] = node.kind;
    record[1] = node.ty;
    record[2..4].copy_from_slice(&node.a.to_le_bytes());
    record[4..6].copy_from_slice(&node.b.to_le_bytes());
    record[6..8].copy_from_slice(&node.c.to_le_bytes());
    record[8..12].copy_from_slice(&node.word.to_le_bytes());
    record
}

/// The sum of the checks that stand in a file's blocks.
pub fn sum_of_checks(file: &[u8]) -> u32 {
    file.chunks_exact(BLOCK).map(|block| number32(block, CHECK_AT)).fold(0, u32::wrapping_add)
}

/// Writes nodes into as many blocks as they need, with right numbers and checks.
pub fn write(nodes: &[Node]) -> Vec<u8> {
    let count = nodes.len().div_ceil(RECORDS).max(1);
    let mut program = vec![0; count * BLOCK];
    for (number, block) in program.chunks_mut(BLOCK).enumerate() {
        block[0..2].copy_from_slice(&(number as u16).to_le_bytes());
        block[2..4].copy_from_slice(&(count as u16).to_le_bytes());
        for (node, at) in nodes.iter().skip(number * RECORDS).zip((HEAD..CHECK_AT).step_by(RECORD))
        {
            block[at..at + RECORD].copy_from_slice(&record_of(node));
        }
    }
    seal(&mut program);
    program
}

/// Makes a program one of an edition: byte 3 of every block, under right checks.
pub fn set_edition(program: &mut [u8], edition: u8) {
    program.chunks_exact_mut(BLOCK).for_each(|block| block[EDITION_AT] = edition);
    seal(program);
}

/// Sets the check of every whole block to the right sum.
pub fn seal(program: &mut [u8]) {
    for block in program.chunks_exact_mut(BLOCK) {
        let sum = check_sum(block);
        block[CHECK_AT..].copy_from_slice(&sum.to_le_bytes());
    }
}
