//! Turns a table's text, and records after a line `records`, into bytes.
//!
//!     assemble [FILE]                   the blocks, and behind them the records, on standard output
//!     assemble --lines [FILE]           the line on which each node and each record stands
//!     assemble --records [FILE]         records alone
//!     assemble --typed [FILE]           the blocks of a table in the text form (docs/TEXT.md), by the
//!                                       second program's reader; or the line REFUSED code place
//!     assemble --unjudged [FILE]        the same, of a table that the check refuses too
//!     assemble --places [FILE]          the positions in such a text at which its nodes begin, a line each
//!     assemble --damage BLOCKS [FILE]   the blocks of a file, with the changes that lines with a dot say
//!
//! Without a FILE, or for -, the text is read on standard input. The status is 1 where the text is no
//! table, 2 for bad use and where reading or writing fails; nothing is written then.

use second::assemble::{damaged, places, records, whole, Mistake};
use second::reader::{self, Unjudged};
use second::Refusal;
use std::io::{self, stdin, stdout, Read, Write};
use std::process::exit;

const USE: &str =
    "usage: assemble [--lines | --records | --typed | --unjudged | --places | --damage BLOCKS] \
     [FILE]   (a table's text, or standard input, to bytes)";

fn main() {
    let words: Vec<String> = std::env::args().skip(1).collect();
    let words: Vec<&str> = words.iter().map(String::as_str).collect();
    let (option, words) = match words[..] {
        ["--help"] => {
            println!("{USE}");
            return;
        }
        ["--damage", blocks, ref rest @ ..] => (Some(blocks), rest),
        [option @ ("--lines" | "--records" | "--typed" | "--unjudged" | "--places"), ref rest @ ..] => {
            (Some(option), rest)
        }
        ref all => (None, all),
    };
    let name = match words {
        [] => "-",
        [word] if *word == "-" || !word.starts_with('-') => word,
        _ => fail(2, USE),
    };
    let bytes = made(option, name, taken(name));
    if let Err(error) = stdout().lock().write_all(&bytes) {
        fail(2, &format!("assemble: standard output: {error}"));
    }
}

/// What an option, or the name of a file of blocks, makes of a text.
fn made(option: Option<&str>, name: &str, bytes: Vec<u8>) -> Vec<u8> {
    if let Some(option @ ("--typed" | "--unjudged" | "--places")) = option {
        return typed(option, &bytes);
    }
    let Ok(text) = String::from_utf8(bytes) else {
        fail(1, &format!("{name}: the text is not UTF-8"))
    };
    let right = |made: Result<Vec<u8>, Mistake>| match made {
        Ok(bytes) => bytes,
        Err(mistake) => fail(1, &format!("{}line {}: {}", head(name), mistake.line, mistake.says)),
    };
    match option {
        None => right(whole(&text)),
        Some("--lines") => {
            right(whole(&text));
            listed(&text).into_bytes()
        }
        Some("--records") => right(records(&text)),
        Some(blocks) => right(damaged(taken(blocks), &text)),
    }
}

/// The blocks of a text of the text form, or where its nodes begin; a refusal is told, and is a status of 1.
fn typed(option: &str, text: &[u8]) -> Vec<u8> {
    let mut room = vec![0; 12_288];
    let judged = match option {
        "--typed" => reader::read(text, &mut room).map(|_| ()),
        _ => Ok(()),
    };
    match judged.and_then(|_| reader::unjudged(text)) {
        Ok(Unjudged { places, .. }) if option == "--places" => {
            places.iter().map(|place| format!("{place}\n")).collect::<String>().into_bytes()
        }
        Ok(Unjudged { program, .. }) => program,
        Err(Refusal { code, place, .. }) => {
            println!("REFUSED {code} {place}");
            exit(1)
        }
    }
}

/// What stands before the line of a mistake: the file, where one is named.
fn head(name: &str) -> String {
    if name == "-" {
        return String::new();
    }
    format!("{name}: ")
}

/// All of a file, or of standard input.
fn taken(name: &str) -> Vec<u8> {
    read(name).unwrap_or_else(|error| fail(2, &format!("assemble: {name}: {error}")))
}

fn read(name: &str) -> io::Result<Vec<u8>> {
    if name != "-" {
        return std::fs::read(name);
    }
    let mut bytes = Vec::new();
    stdin().lock().read_to_end(&mut bytes)?;
    Ok(bytes)
}

/// The lines of nodes and records: `node 0 2` for node 0 on line 2.
fn listed(text: &str) -> String {
    let (nodes, records) = places(text);
    let of = |word: &str, places: Vec<usize>| {
        let lines = places.iter().enumerate().map(|(i, line)| format!("{word} {i} {line}\n"));
        lines.collect::<String>()
    };
    of("node", nodes) + &of("record", records)
}

/// Ends with a sentence on standard error.
fn fail(status: i32, says: &str) -> ! {
    eprintln!("{says}");
    exit(status)
}
