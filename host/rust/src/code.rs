//! Names for the codes of refusals and for types.

use crate::raw;
use core::fmt;

/// Why a call was refused: the first code that the rules give.
#[repr(u32)]
#[derive(Clone, Copy, Debug, PartialEq, Eq, PartialOrd, Ord, Hash)]
pub enum Code {
    /// The program is empty, longer than 24 blocks or not whole blocks of 512 bytes.
    ProgramLength = raw::PROGRAM_LENGTH,
    /// The check sum of this block is not that of its bytes. The place: block.
    CheckSum = raw::CHECK_SUM,
    /// This block has not its own number, the count of all blocks or the edition of block 0. The
    /// place: block.
    BlockNumber = raw::BLOCK_NUMBER,
    /// This record of the table by itself is wrong: its kind, type, constant, channel, a field that
    /// must be zero, or the end of the records. The place: record of the table.
    RecordFault = raw::RECORD_FAULT,
    /// The nodes do not make one tree of the right sorts. The place: node.
    ShapeFault = raw::SHAPE_FAULT,
    /// The binder of this variable does not hold here, or the target of this case is no branch of a
    /// group that it may leave. The place: node.
    ScopeFault = raw::SCOPE_FAULT,
    /// The types at this node do not agree. The place: node.
    TypeFault = raw::TYPE_FAULT,
    /// The definition of this let needs its own value of the same step. The place: node.
    NotReady = raw::NOT_READY,
    /// The state is not one that this program can have, or has not its length.
    StateFault = raw::STATE_FAULT,
    /// The records are not whole records of 40 bytes, or more than 4,096.
    RecordsLength = raw::RECORDS_LENGTH,
    /// The room for values is not 8 bytes for each record.
    OutputLength = raw::OUTPUT_LENGTH,
    /// This record is not well-formed. The place: steps done.
    InputFault = raw::INPUT_FAULT,
    /// The time of this record is before the time of the state. The place: steps done.
    TimeBack = raw::TIME_BACK,
    /// The state is that of another program.
    OtherProgram = raw::OTHER_PROGRAM,
    /// The room for the list is not one entry for each cell and one more.
    ListLength = raw::LIST_LENGTH,
    /// The list of nodes to watch has not 1 to 8 entries.
    WatchLength = raw::WATCH_LENGTH,
    /// This entry of the list is no signal node, or not above the one before. The place: entry.
    WatchEntry = raw::WATCH_ENTRY,
    /// The room for the new program is shorter than the old program.
    NewLength = raw::NEW_LENGTH,
    /// This word or parenthesis does not fit here. The place: position in the text.
    TextWord = raw::TEXT_WORD,
    /// This name is unknown here, or bound twice. The place: position in the text.
    TextName = raw::TEXT_NAME,
    /// This constant or channel is out of range. The place: position in the text.
    TextNumber = raw::TEXT_NUMBER,
    /// The result is longer than the room for it.
    TextRoom = raw::TEXT_ROOM,
    /// No let needs its own value of the same step: there is nothing to explain.
    NoLet = raw::NO_LET,
    /// The room for the chain is not 1,008 entries.
    RoomLength = raw::ROOM_LENGTH,
    /// The pairing has not one entry for each new node.
    PairingLength = raw::PAIRING_LENGTH,
    /// This entry of the pairing is wrong. The place: entry.
    PairingEntry = raw::PAIRING_ENTRY,
    /// The old and the new program are of different editions.
    OtherEdition = raw::OTHER_EDITION,
    /// Of the new program: the program is empty, longer than 24 blocks or not whole blocks of 512
    /// bytes.
    NewProgramLength = raw::NEW_PROGRAM_LENGTH,
    /// Of the new program: the check sum of this block is not that of its bytes. The place: block.
    NewCheckSum = raw::NEW_CHECK_SUM,
    /// Of the new program: this block has not its own number, the count of all blocks or the
    /// edition of block 0. The place: block.
    NewBlockNumber = raw::NEW_BLOCK_NUMBER,
    /// Of the new program: this record of the table by itself is wrong: its kind, type, constant,
    /// channel, a field that must be zero, or the end of the records. The place: record of the
    /// table.
    NewRecordFault = raw::NEW_RECORD_FAULT,
    /// Of the new program: the nodes do not make one tree of the right sorts. The place: node.
    NewShapeFault = raw::NEW_SHAPE_FAULT,
    /// Of the new program: the binder of this variable does not hold here, or the target of this
    /// case is no branch of a group that it may leave. The place: node.
    NewScopeFault = raw::NEW_SCOPE_FAULT,
    /// Of the new program: the types at this node do not agree. The place: node.
    NewTypeFault = raw::NEW_TYPE_FAULT,
    /// Of the new program: the definition of this let needs its own value of the same step. The
    /// place: node.
    NewNotReady = raw::NEW_NOT_READY,
}

impl Code {
    /// All codes, from 1 on.
    pub const ALL: [Code; 35] = [
        Code::ProgramLength,
        Code::CheckSum,
        Code::BlockNumber,
        Code::RecordFault,
        Code::ShapeFault,
        Code::ScopeFault,
        Code::TypeFault,
        Code::NotReady,
        Code::StateFault,
        Code::RecordsLength,
        Code::OutputLength,
        Code::InputFault,
        Code::TimeBack,
        Code::OtherProgram,
        Code::ListLength,
        Code::WatchLength,
        Code::WatchEntry,
        Code::NewLength,
        Code::TextWord,
        Code::TextName,
        Code::TextNumber,
        Code::TextRoom,
        Code::NoLet,
        Code::RoomLength,
        Code::PairingLength,
        Code::PairingEntry,
        Code::OtherEdition,
        Code::NewProgramLength,
        Code::NewCheckSum,
        Code::NewBlockNumber,
        Code::NewRecordFault,
        Code::NewShapeFault,
        Code::NewScopeFault,
        Code::NewTypeFault,
        Code::NewNotReady,
    ];

    /// The code's number.
    pub const fn number(self) -> u32 {
        self as u32
    }

    /// The code of a number; none for 0, which is no refusal, and for numbers that no call gives.
    pub fn of(number: u32) -> Option<Code> {
        Code::ALL.into_iter().find(|code| code.number() == number)
    }

    /// What the code means, in the words of docs/CODES.md.
    pub const fn words(self) -> &'static str {
        match self as u32 {
            1 => "the program is empty, longer than 24 blocks or not whole blocks of 512 bytes",
            2 => "the check sum of this block is not that of its bytes",
            3 => "this block has not its own number, the count of all blocks or the edition of block 0",
            4 => "this record of the table by itself is wrong: its kind, type, constant, channel, a field that must be zero, or the end of the records",
            5 => "the nodes do not make one tree of the right sorts",
            6 => "the binder of this variable does not hold here, or the target of this case is no branch of a group that it may leave",
            7 => "the types at this node do not agree",
            8 => "the definition of this let needs its own value of the same step",
            9 => "the state is not one that this program can have, or has not its length",
            10 => "the records are not whole records of 40 bytes, or more than 4,096",
            11 => "the room for values is not 8 bytes for each record",
            12 => "this record is not well-formed",
            13 => "the time of this record is before the time of the state",
            15 => "the state is that of another program",
            16 => "the room for the list is not one entry for each cell and one more",
            17 => "the list of nodes to watch has not 1 to 8 entries",
            18 => "this entry of the list is no signal node, or not above the one before",
            19 => "the room for the new program is shorter than the old program",
            21 => "this word or parenthesis does not fit here",
            22 => "this name is unknown here, or bound twice",
            23 => "this constant or channel is out of range",
            24 => "the result is longer than the room for it",
            25 => "no let needs its own value of the same step: there is nothing to explain",
            26 => "the room for the chain is not 1,008 entries",
            27 => "the pairing has not one entry for each new node",
            28 => "this entry of the pairing is wrong",
            29 => "the old and the new program are of different editions",
            33 => "of the new program: the program is empty, longer than 24 blocks or not whole blocks of 512 bytes",
            34 => "of the new program: the check sum of this block is not that of its bytes",
            35 => "of the new program: this block has not its own number, the count of all blocks or the edition of block 0",
            36 => "of the new program: this record of the table by itself is wrong: its kind, type, constant, channel, a field that must be zero, or the end of the records",
            37 => "of the new program: the nodes do not make one tree of the right sorts",
            38 => "of the new program: the binder of this variable does not hold here, or the target of this case is no branch of a group that it may leave",
            39 => "of the new program: the types at this node do not agree",
            40 => "of the new program: the definition of this let needs its own value of the same step",
            _ => "refused",
        }
    }
}

impl fmt::Display for Code {
    fn fmt(&self, to: &mut fmt::Formatter) -> fmt::Result {
        write!(to, "code {} ({self:?})", self.number())
    }
}

/// The type of a value, as a value's first byte has it.
#[repr(u32)]
#[derive(Clone, Copy, Debug, PartialEq, Eq, Hash)]
pub enum Type {
    /// One value only.
    Unit = 1,
    /// True or false.
    Bool = 2,
    /// 32 bits, two's complement.
    Int = 3,
    /// A unit, or absent.
    MaybeUnit = 5,
    /// A bool, or absent.
    MaybeBool = 6,
    /// An int, or absent.
    MaybeInt = 7,
}

impl Type {
    /// All types.
    pub const ALL: [Type; 6] =
        [Type::Unit, Type::Bool, Type::Int, Type::MaybeUnit, Type::MaybeBool, Type::MaybeInt];

    /// The type of a number.
    pub fn of(number: u32) -> Option<Type> {
        Type::ALL.into_iter().find(|&ty| ty as u32 == number)
    }
}
