//! `include/couplerfinch.h` in Rust: its numbers, its answer and its functions, under its names and
//! in its order. `tests/header.rs` holds this file against the header.

pub const BLOCK: usize = 512;
pub const BLOCKS: usize = 24;
pub const NODES: usize = 1008;
pub const RECORD: usize = 40;
pub const VALUE: usize = 8;
pub const RECORDS: usize = 4096;

pub const LONGEST_PROGRAM: usize = BLOCK * BLOCKS;

pub const LONGEST_TEXT: usize = 107868;

pub const NO_ENTRY: u16 = 65535;

pub const NO_STEP: u16 = 65535;

/// The length of a state of so many cells.
pub const fn state_length(cells: usize) -> usize {
    8 + 8 * cells
}
pub const LONGEST_STATE: usize = state_length(NODES);

pub const WATCHED: usize = 8;

/// The length of a watched run's second room for so many entries and records.
pub const fn shown_length(entries: usize, records: usize) -> usize {
    8 * entries * records
}

/// How many entries mend's list has room for with so many cells.
pub const fn list_entries(cells: usize) -> usize {
    cells + 1
}
pub const LONGEST_LIST: usize = list_entries(NODES);
pub const TIME_ENTRY: u16 = 65535;

pub const DONE: u32 = 0;
pub const PROGRAM_LENGTH: u32 = 1;
pub const CHECK_SUM: u32 = 2;
pub const BLOCK_NUMBER: u32 = 3;
pub const RECORD_FAULT: u32 = 4;
pub const SHAPE_FAULT: u32 = 5;
pub const SCOPE_FAULT: u32 = 6;
pub const TYPE_FAULT: u32 = 7;
pub const NOT_READY: u32 = 8;
pub const STATE_FAULT: u32 = 9;
pub const RECORDS_LENGTH: u32 = 10;
pub const OUTPUT_LENGTH: u32 = 11;
pub const INPUT_FAULT: u32 = 12;
pub const TIME_BACK: u32 = 13;
pub const OTHER_PROGRAM: u32 = 15;
pub const LIST_LENGTH: u32 = 16;
pub const WATCH_LENGTH: u32 = 17;
pub const WATCH_ENTRY: u32 = 18;
pub const NEW_LENGTH: u32 = 19;
pub const TEXT_WORD: u32 = 21;
pub const TEXT_NAME: u32 = 22;
pub const TEXT_NUMBER: u32 = 23;
pub const TEXT_ROOM: u32 = 24;
pub const NO_LET: u32 = 25;
pub const ROOM_LENGTH: u32 = 26;
pub const PAIRING_LENGTH: u32 = 27;
pub const PAIRING_ENTRY: u32 = 28;
pub const OTHER_EDITION: u32 = 29;
pub const NEW_PROGRAM_LENGTH: u32 = 33;
pub const NEW_CHECK_SUM: u32 = 34;
pub const NEW_BLOCK_NUMBER: u32 = 35;
pub const NEW_RECORD_FAULT: u32 = 36;
pub const NEW_SHAPE_FAULT: u32 = 37;
pub const NEW_SCOPE_FAULT: u32 = 38;
pub const NEW_TYPE_FAULT: u32 = 39;
pub const NEW_NOT_READY: u32 = 40;

/// An answer as the calls write it: numbers that a call does not give are 0.
#[repr(C)]
#[derive(Clone, Copy, Debug, Default, PartialEq, Eq)]
pub struct Answer {
    pub code: u32,
    pub place: u32,
    pub steps: u32,
    pub work: u32,
    pub nodes: u32,
    pub cells: u32,
    pub bound: u32,
    pub r#type: u32,
    pub wrapped: u32,
    pub length: u32,
    pub entries: u32,
    pub node: u32,
}

extern "C" {
    pub fn couplerfinch_check(
        program: *const u8,
        program_length: usize,
        answer: *mut Answer,
    ) -> u32;
    pub fn couplerfinch_start(
        program: *const u8,
        program_length: usize,
        state: *mut u8,
        state_length: usize,
        answer: *mut Answer,
    ) -> u32;
    pub fn couplerfinch_run(
        program: *const u8,
        program_length: usize,
        state: *mut u8,
        state_length: usize,
        records: *const u8,
        records_length: usize,
        output: *mut u8,
        output_length: usize,
        answer: *mut Answer,
    ) -> u32;
    pub fn couplerfinch_watch(
        program: *const u8,
        program_length: usize,
        state: *mut u8,
        state_length: usize,
        records: *const u8,
        records_length: usize,
        list: *const u16,
        list_entries: usize,
        output: *mut u8,
        output_length: usize,
        shown: *mut u8,
        shown_length: usize,
        answer: *mut Answer,
    ) -> u32;
    pub fn couplerfinch_explain(
        program: *const u8,
        program_length: usize,
        room: *mut u16,
        room_entries: usize,
        answer: *mut Answer,
    ) -> u32;
    pub fn couplerfinch_mend(
        program: *const u8,
        program_length: usize,
        state: *mut u8,
        state_length: usize,
        list: *mut u16,
        list_entries: usize,
        answer: *mut Answer,
    ) -> u32;
    pub fn couplerfinch_tidy(
        program: *const u8,
        program_length: usize,
        room: *mut u8,
        room_length: usize,
        answer: *mut Answer,
    ) -> u32;
    pub fn couplerfinch_paired(
        old_program: *const u8,
        old_length: usize,
        new_program: *const u8,
        new_length: usize,
        pairing: *const u16,
        pairing_entries: usize,
        answer: *mut Answer,
    ) -> u32;
    pub fn couplerfinch_read(
        text: *const u8,
        text_length: usize,
        room: *mut u8,
        room_length: usize,
        answer: *mut Answer,
    ) -> u32;
    pub fn couplerfinch_print(
        program: *const u8,
        program_length: usize,
        room: *mut u8,
        room_length: usize,
        answer: *mut Answer,
    ) -> u32;
}
