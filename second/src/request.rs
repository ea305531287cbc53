//! Requests to the calls as a stream of bytes, and their answers as text.

use crate::calls::{self, Accepted, Done};
use crate::chain::{self, Explained};
use crate::mend;
use crate::pair;
use crate::printer;
use crate::reader::{self, Table};
use crate::refusal::Refusal;
use crate::tidy::{self, Tidied};
use crate::watch;
use std::collections::{BTreeMap, BTreeSet};
use std::io::{self, BufRead, Read, Write};

/// One request with all its lent memory. Entries are two bytes each, little-endian.
#[derive(Clone, Debug, PartialEq, Eq)]
pub enum Request {
    Check {
        program: Vec<u8>,
    },
    Start {
        program: Vec<u8>,
        state: Vec<u8>,
    },
    Run {
        program: Vec<u8>,
        state: Vec<u8>,
        records: Vec<u8>,
        output: Vec<u8>,
    },
    Watch {
        program: Vec<u8>,
        state: Vec<u8>,
        list: Vec<u8>,
        records: Vec<u8>,
        output: Vec<u8>,
        shown: Vec<u8>,
    },
    Chain {
        program: Vec<u8>,
        room: Vec<u8>,
    },
    Mend {
        program: Vec<u8>,
        state: Vec<u8>,
        list: Vec<u8>,
    },
    Tidy {
        program: Vec<u8>,
        room: Vec<u8>,
    },
    Pair {
        old: Vec<u8>,
        new: Vec<u8>,
        pairing: Vec<u8>,
    },
    Read {
        text: Vec<u8>,
        room: Vec<u8>,
    },
    Print {
        program: Vec<u8>,
        room: Vec<u8>,
    },
}

/// The answer to a request, with the lent memory after it.
#[derive(Clone, Debug, PartialEq, Eq)]
pub enum Answer {
    Check(Result<Accepted, Refusal>),
    Start(Result<(), Refusal>, Vec<u8>),
    Steps(Result<Done, Refusal>, Vec<u8>, Vec<u8>),
    Watch(Result<Done, Refusal>, Vec<u8>, Vec<u8>, Vec<u8>),
    Chain(Result<Explained, Refusal>, Vec<u8>),
    Mend(Result<usize, Refusal>, Vec<u8>, Vec<u8>),
    Tidy(Result<Tidied, Refusal>, Vec<u8>),
    Pair(Result<(), Refusal>),
    Read(Result<Table, Refusal>, Vec<u8>),
    Print(Result<usize, Refusal>, Vec<u8>),
}

impl Request {
    /// Reads the next request; none at the end of input or where the input is no request.
    pub fn read(input: &mut impl BufRead) -> Option<Request> {
        let mut line = String::new();
        input.by_ref().take(200).read_line(&mut line).ok()?;
        let mut words = line.split_whitespace();
        let name = words.next()?;
        let lengths = words.map(|word| word.parse().ok()).collect::<Option<Vec<u64>>>()?;
        let mut rooms = Vec::new();
        for length in lengths {
            rooms.push(exactly(input, length)?);
        }
        Request::from_rooms(name, rooms)
    }

    /// The request of a name and its memory, in the order of `parts`.
    fn from_rooms(name: &str, rooms: Vec<Vec<u8>>) -> Option<Request> {
        Some(match name {
            "check" => {
                let [program] = all(rooms)?;
                Request::Check { program }
            }
            "start" => {
                let [program, state] = all(rooms)?;
                Request::Start { program, state }
            }
            "run" => {
                let [program, state, records, output] = all(rooms)?;
                Request::Run { program, state, records, output }
            }
            "watch" => {
                let [program, state, list, records, output, shown] = all(rooms)?;
                if !list.len().is_multiple_of(2) {
                    return None;
                }
                Request::Watch { program, state, list, records, output, shown }
            }
            "chain" => {
                let [program, room] = entries_last(rooms)?;
                Request::Chain { program, room }
            }
            "mend" => {
                let [program, state, list] = entries_last(rooms)?;
                Request::Mend { program, state, list }
            }
            "tidy" => {
                let [program, room] = all(rooms)?;
                Request::Tidy { program, room }
            }
            "pair" => {
                let [old, new, pairing] = entries_last(rooms)?;
                Request::Pair { old, new, pairing }
            }
            "read" => {
                let [text, room] = all(rooms)?;
                Request::Read { text, room }
            }
            "print" => {
                let [program, room] = all(rooms)?;
                Request::Print { program, room }
            }
            _ => return None,
        })
    }

    /// The name of the call and its memory in order.
    pub fn parts(&self) -> (&'static str, Vec<&[u8]>) {
        match self {
            Request::Check { program } => ("check", vec![program]),
            Request::Start { program, state } => ("start", vec![program, state]),
            Request::Run { program, state, records, output } => {
                ("run", vec![program, state, records, output])
            }
            Request::Watch { program, state, list, records, output, shown } => {
                ("watch", vec![program, state, list, records, output, shown])
            }
            Request::Chain { program, room } => ("chain", vec![program, room]),
            Request::Mend { program, state, list } => ("mend", vec![program, state, list]),
            Request::Tidy { program, room } => ("tidy", vec![program, room]),
            Request::Pair { old, new, pairing } => ("pair", vec![old, new, pairing]),
            Request::Read { text, room } => ("read", vec![text, room]),
            Request::Print { program, room } => ("print", vec![program, room]),
        }
    }

    /// Writes the request as `read` takes it.
    pub fn write(&self, to: &mut impl Write) -> io::Result<()> {
        let (name, rooms) = self.parts();
        write!(to, "{name}")?;
        for room in &rooms {
            write!(to, " {}", room.len())?;
        }
        writeln!(to)?;
        rooms.iter().try_for_each(|room| to.write_all(room))
    }

    /// Makes the call.
    pub fn answer(self) -> Answer {
        match self {
            Request::Check { program } => Answer::Check(calls::check(&program)),
            Request::Start { program, mut state } => {
                let answer = calls::start(&program, &mut state);
                Answer::Start(answer, state)
            }
            Request::Run { program, mut state, records, mut output } => {
                let answer = calls::run(&program, &mut state, &records, &mut output);
                Answer::Steps(answer, state, output)
            }
            Request::Watch { program, mut state, list, records, mut output, mut shown } => {
                let list = entries(&list);
                let answer =
                    watch::watched(&program, &mut state, &records, &list, &mut output, &mut shown);
                Answer::Watch(answer, state, output, shown)
            }
            Request::Chain { program, room } => {
                let mut room = entries(&room);
                let answer = chain::explain(&program, &mut room);
                Answer::Chain(answer, bytes(&room))
            }
            Request::Mend { program, mut state, list } => {
                let mut list = entries(&list);
                let answer = mend::mend(&program, &mut state, &mut list);
                Answer::Mend(answer, state, bytes(&list))
            }
            Request::Tidy { program, mut room } => {
                let answer = tidy::tidy(&program, &mut room);
                Answer::Tidy(answer, room)
            }
            Request::Pair { old, new, pairing } => {
                Answer::Pair(pair::paired(&old, &new, &entries(&pairing)))
            }
            Request::Read { text, mut room } => {
                let answer = reader::read(&text, &mut room);
                Answer::Read(answer, room)
            }
            Request::Print { program, mut room } => {
                let answer = printer::print(&program, &mut room);
                Answer::Print(answer, room)
            }
        }
    }
}

/// The rooms, if they are as many as wanted.
fn all<const COUNT: usize>(rooms: Vec<Vec<u8>>) -> Option<[Vec<u8>; COUNT]> {
    rooms.try_into().ok()
}

/// The rooms, if they are as many as wanted and the last has whole entries.
fn entries_last<const COUNT: usize>(rooms: Vec<Vec<u8>>) -> Option<[Vec<u8>; COUNT]> {
    let whole = rooms.last()?.len().is_multiple_of(2);
    all(rooms).filter(|_| whole)
}

/// Bytes as entries, two bytes each.
pub fn entries(bytes: &[u8]) -> Vec<u16> {
    bytes.chunks_exact(2).map(|pair| u16::from_le_bytes([pair[0], pair[1]])).collect()
}

/// Entries as bytes.
pub fn bytes(entries: &[u16]) -> Vec<u8> {
    entries.iter().flat_map(|entry| entry.to_le_bytes()).collect()
}

/// Reads exactly so many bytes, without trusting the length with memory beforehand.
fn exactly(input: &mut impl Read, length: u64) -> Option<Vec<u8>> {
    let mut bytes = Vec::new();
    let got = input.by_ref().take(length).read_to_end(&mut bytes).ok()?;
    (got as u64 == length).then_some(bytes)
}

impl Answer {
    /// The code of the refusal, or 0 where the call was accepted.
    pub fn code(&self) -> u32 {
        let refusal = match self {
            Answer::Check(answer) => answer.err(),
            Answer::Start(answer, _) => answer.err(),
            Answer::Steps(answer, _, _) => answer.err(),
            Answer::Watch(answer, _, _, _) => answer.err(),
            Answer::Chain(answer, _) => answer.err(),
            Answer::Mend(answer, _, _) => answer.err(),
            Answer::Tidy(answer, _) => answer.err(),
            Answer::Pair(answer) => answer.err(),
            Answer::Read(answer, _) => answer.err(),
            Answer::Print(answer, _) => answer.err(),
        };
        refusal.map_or(0, |refusal| refusal.code)
    }

    /// The lines of the answer: its numbers, then the lent memory in hex.
    pub fn text(&self) -> String {
        let (numbers, rooms): (_, Vec<&Vec<u8>>) = match self {
            Answer::Check(answer) => (answer.map(checked), vec![]),
            Answer::Start(answer, state) => (answer.map(|()| vec![]), vec![state]),
            Answer::Steps(answer, state, output) => (answer.map(ran), vec![state, output]),
            Answer::Watch(answer, state, output, shown) => {
                (answer.map(ran), vec![state, output, shown])
            }
            Answer::Chain(answer, room) => {
                (answer.map(|it| vec![it.node as u64, it.entries as u64]), vec![room])
            }
            Answer::Mend(answer, state, list) => {
                (answer.map(|listed| vec![listed as u64]), vec![state, list])
            }
            Answer::Tidy(answer, room) => {
                (answer.map(|it| vec![it.nodes as u64, it.length as u64]), vec![room])
            }
            Answer::Read(answer, room) => {
                (answer.map(|it| vec![it.nodes as u64, it.length as u64]), vec![room])
            }
            Answer::Pair(answer) => (answer.map(|()| vec![]), vec![]),
            Answer::Print(answer, room) => (answer.map(|length| vec![length as u64]), vec![room]),
        };
        let first = match numbers {
            Ok(numbers) => line("OK", &numbers),
            Err(it) => {
                let all = [it.code as u64, it.place as u64, it.work, it.wrapped as u64];
                let marked = matches!(self, Answer::Steps(..) | Answer::Watch(..));
                let count = if marked { 4 } else { 3 };
                line("REFUSED", &all[..count])
            }
        };
        rooms.into_iter().fold(first, |text, room| text + &hex(room) + "\n")
    }
}

/// The numbers of an accepted check.
fn checked(it: Accepted) -> Vec<u64> {
    vec![it.nodes as u64, it.cells as u64, it.bound, it.root_type as u64]
}

/// The numbers of a finished run.
fn ran(it: Done) -> Vec<u64> {
    vec![it.steps as u64, it.work, it.wrapped as u64]
}

/// A line of a word and numbers.
fn line(word: &str, numbers: &[u64]) -> String {
    numbers.iter().fold(word.to_string(), |text, number| format!("{text} {number}")) + "\n"
}

/// Bytes as two small hex digits each.
pub fn hex(bytes: &[u8]) -> String {
    const DIGITS: &[u8; 16] = b"0123456789abcdef";
    let digit = |half: u8| DIGITS[half as usize] as char;
    bytes.iter().flat_map(|&byte| [digit(byte >> 4), digit(byte & 15)]).collect()
}

/// Serves requests one after another until the input ends, and counts them.
pub fn serve(input: &mut impl BufRead, output: &mut impl Write, most: usize) -> io::Result<usize> {
    let mut served = 0;
    while served < most && !input.fill_buf()?.is_empty() {
        let Some(request) = Request::read(input) else {
            writeln!(output, "NO REQUEST")?;
            output.flush()?;
            break;
        };
        output.write_all(request.answer().text().as_bytes())?;
        output.flush()?;
        served += 1;
    }
    Ok(served)
}

/// Counts answers by call and code (0 for accepted) over a stream of requests.
pub fn tally(input: &mut impl BufRead) -> Tally {
    let mut tally = Tally::default();
    while let Some(request) = Request::read(input) {
        let (name, _) = request.parts();
        *tally.counts.entry((name, request.answer().code())).or_default() += 1;
    }
    tally
}

/// The calls in the papers' order.
pub const CALLS: [&str; 10] =
    ["check", "start", "run", "watch", "chain", "mend", "tidy", "pair", "read", "print"];

/// Counts by call and code.
#[derive(Clone, Debug, Default, PartialEq, Eq)]
pub struct Tally {
    pub counts: BTreeMap<(&'static str, u32), usize>,
}

impl Tally {
    /// How often a call answered a code.
    pub fn count(&self, call: &'static str, code: u32) -> usize {
        self.counts.get(&(call, code)).copied().unwrap_or(0)
    }

    /// A table with a line for each call that was made and a column for each code that was answered.
    pub fn text(&self) -> String {
        let codes: BTreeSet<u32> = self.counts.keys().map(|&(_, code)| code).collect();
        let mut text = String::from("call ");
        for &code in &codes {
            text += &match code {
                0 => format!("{:>7}", "ok"),
                _ => format!("{code:>7}"),
            };
        }
        for call in CALLS.into_iter().filter(|call| self.counts.keys().any(|row| row.0 == *call)) {
            text += &format!("\n{call:<5}");
            codes.iter().for_each(|&code| text += &format!("{:>7}", self.count(call, code)));
        }
        text + "\n"
    }
}
