//! Input records: the time, four ints and four maybe ints; code 12.

use crate::format::number32;
use crate::state::LATEST;
use crate::value::{Value, INT};

pub const RECORD: usize = 40;
pub const MOST_RECORDS: usize = 4096;
/// Where the present flags stand, three zero bytes after them.
pub const FLAGS: usize = 20;

/// A well-formed record.
#[derive(Clone, Copy, Debug)]
pub struct Record {
    pub time: u32,
    pub channels: [Value; 8],
}

impl Record {
    /// Reads the 40 bytes of a record if they are well-formed.
    pub fn read(bytes: &[u8]) -> Option<Record> {
        let time = number32(bytes, 0);
        let flags = bytes[FLAGS];
        let zeros = bytes[FLAGS + 1..FLAGS + 4].iter().all(|&byte| byte == 0);
        if time > LATEST || flags > 15 || !zeros {
            return None;
        }
        let mut channels = [Value::absent(INT); 8];
        for (channel, value) in channels.iter_mut().enumerate() {
            // Channels 4-7 stand one word further on, after the flags.
            let at = 4 + 4 * channel + if channel < 4 { 0 } else { 4 };
            let word = number32(bytes, at) as i32;
            if channel < 4 {
                *value = Value::int(word);
            } else if flags >> (channel - 4) & 1 == 1 {
                *value = Value::int(word).just();
            } else if word != 0 {
                return None;
            }
        }
        Some(Record { time, channels })
    }
}
