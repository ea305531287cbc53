//! Refusals: the code, its place, and the work of the steps done before it.

/// The codes of the table in "Records and codes", and document 02's.
pub const LENGTH: u32 = 1;
pub const CHECK: u32 = 2;
pub const NUMBERING: u32 = 3;
pub const RECORD: u32 = 4;
pub const SHAPE: u32 = 5;
pub const SCOPE: u32 = 6;
pub const TYPE: u32 = 7;
pub const READY: u32 = 8;
pub const STATE: u32 = 9;
pub const RECORDS: u32 = 10;
pub const OUTPUT: u32 = 11;
pub const INPUT: u32 = 12;
pub const BACKWARD: u32 = 13;
/// 14 was a code, and is not used again.
pub const OTHER_PROGRAM: u32 = 15;
pub const LIST: u32 = 16;
pub const WATCH_LENGTH: u32 = 17;
pub const WATCH_ENTRY: u32 = 18;
pub const SHORT: u32 = 19;
pub const WORD: u32 = 21;
pub const NAME: u32 = 22;
pub const RANGE: u32 = 23;
pub const TOO_LONG: u32 = 24;
pub const NO_LET: u32 = 25;
pub const ROOM: u32 = 26;
pub const PAIRS: u32 = 27;
pub const ENTRY: u32 = 28;
pub const EDITIONS: u32 = 29;
/// What is added to the codes 1 to 8 of a new program beside an old one.
pub const OF_NEW: u32 = 32;

/// The number of the first step in which a number wrapped, where there is none.
pub const NO_STEP: u32 = 65535;

/// A refused call.
#[derive(Clone, Copy, Debug, PartialEq, Eq)]
pub struct Refusal {
    pub code: u32,
    pub place: u32,
    pub work: u64,
    /// Of a run: the first finished step in which a number wrapped.
    pub wrapped: u32,
}

impl Refusal {
    /// A refusal before any step was done.
    pub fn at(code: u32, place: usize) -> Refusal {
        Refusal { code, place: place as u32, work: 0, wrapped: NO_STEP }
    }

    /// A refusal of a record after `steps` finished steps of `work` altogether.
    pub fn after(code: u32, steps: usize, work: u64, wrapped: u32) -> Refusal {
        Refusal { code, place: steps as u32, work, wrapped }
    }
}
