//! The assembler: tables and records as readable text, into blocks and 40-byte records.
//!
//! One node a line, `label: word field=... field=...`; a line's place is the node's number.
//! Fields name other nodes by label; see `README.md` for the words and fields.

use crate::format;
use crate::kinds::{self, Node, NO_NEXT};
use crate::record::{FLAGS, RECORD};
use crate::value::{Value, BOOL, INT, MAYBE, UNIT};
use std::collections::HashMap;

/// What is wrong with a text: its line, from 1, and a sentence.
#[derive(Clone, Debug, PartialEq, Eq)]
pub struct Mistake {
    pub line: usize,
    pub says: String,
}

type Outcome<T> = Result<T, String>;

/// The words for kinds, each with the names of its fields a, b and c.
const WORDS: [(&str, u8, [&str; 3]); 24] = [
    ("input", kinds::INPUT, ["channel", "", ""]),
    ("time", kinds::TIME, ["", "", ""]),
    ("ext", kinds::EXT, ["of", "", ""]),
    ("delay", kinds::DELAY, ["of", "", ""]),
    ("let", kinds::LET, ["def", "body", ""]),
    ("switch", kinds::SWITCH, ["first", "event", "second"]),
    ("group", kinds::GROUP, ["body", "branches", ""]),
    ("until", kinds::UNTIL, ["of", "cases", ""]),
    ("branch", kinds::BRANCH, ["body", "next", ""]),
    ("case", kinds::CASE, ["event", "next", "to"]),
    ("var", kinds::VARIABLE, ["of", "", ""]),
    ("const", kinds::CONSTANT, ["", "", ""]),
    ("add", kinds::ADD, ["left", "right", ""]),
    ("sub", kinds::SUBTRACT, ["left", "right", ""]),
    ("mul", kinds::MULTIPLY, ["left", "right", ""]),
    ("div", kinds::DIVIDE, ["left", "right", ""]),
    ("less", kinds::LESS, ["left", "right", ""]),
    ("equal", kinds::EQUAL, ["left", "right", ""]),
    ("not", kinds::NOT, ["of", "", ""]),
    ("and", kinds::AND, ["left", "right", ""]),
    ("or", kinds::OR, ["left", "right", ""]),
    ("if", kinds::IF, ["when", "then", "else"]),
    ("just", kinds::JUST, ["of", "", ""]),
    ("take", kinds::TAKE, ["of", "none", "some"]),
];

/// A line of a text without its comment, with its number from 1.
type Line<'a> = (usize, &'a str);

/// The lines of a text that say something.
fn lines(text: &str) -> impl Iterator<Item = Line<'_>> {
    (1..)
        .zip(text.lines())
        .map(|(number, line)| (number, line.split(';').next().unwrap_or("").trim()))
        .filter(|(_, line)| !line.is_empty())
}

/// A whole text: a table, and after a line `records` the records, put one behind the other.
pub fn whole(text: &str) -> Result<Vec<u8>, Mistake> {
    let is_divider = |line: &&str| line.split(';').next().unwrap_or("").trim() == "records";
    let Some(at) = text.lines().position(|line| is_divider(&line)) else {
        return program(text);
    };
    let part = |from: usize, to: usize| {
        // Lines of the other part are left empty, so that line numbers stay.
        let kept = text.lines().enumerate();
        let kept = kept.map(|(i, line)| if (from..to).contains(&i) { line } else { "" });
        kept.collect::<Vec<_>>().join("\n")
    };
    let mut bytes = program(&part(0, at))?;
    bytes.extend(records(&part(at + 1, usize::MAX))?);
    Ok(bytes)
}

/// A table's blocks: right numbers and checks, then the raw overrides in their order.
pub fn program(text: &str) -> Result<Vec<u8>, Mistake> {
    let is_override = |line: &Line| line.1.starts_with('.');
    let node_lines: Vec<Line> = lines(text).filter(|line| !is_override(line)).collect();
    let mut labels = HashMap::new();
    for (number, &(line, words)) in node_lines.iter().enumerate() {
        if let Some((label, _)) = words.split_once(':') {
            if labels.insert(label.trim(), number as u16).is_some() {
                return Err(Mistake { line, says: format!("label {label} stands twice") });
            }
        }
    }
    if lines(text).next().is_none() {
        return Err(Mistake { line: 1, says: "no node stands in this text".into() });
    }
    let mut nodes = Vec::new();
    for &(line, words) in &node_lines {
        let says = |says| Mistake { line, says };
        nodes.push(node(words, &labels).map_err(says)?);
    }
    let mut bytes = format::write(&nodes);
    damage(&mut bytes, lines(text).filter(is_override))?;
    Ok(bytes)
}

/// Blocks with the raw overrides of a text, which has nothing else, in their order.
pub fn damaged(mut bytes: Vec<u8>, text: &str) -> Result<Vec<u8>, Mistake> {
    damage(&mut bytes, lines(text))?;
    Ok(bytes)
}

fn damage<'a>(bytes: &mut Vec<u8>, lines: impl Iterator<Item = Line<'a>>) -> Result<(), Mistake> {
    for (line, words) in lines {
        override_bytes(bytes, words).map_err(|says| Mistake { line, says })?;
    }
    Ok(())
}

/// The lines of a text, from 1, on which its nodes stand and on which its records do, in their order.
pub fn places(text: &str) -> (Vec<usize>, Vec<usize>) {
    let mut said = lines(text).filter(|line| !line.1.starts_with('.'));
    let nodes = said.by_ref().take_while(|line| line.1 != "records").map(|line| line.0).collect();
    (nodes, said.map(|line| line.0).collect())
}

/// One node's line.
fn node(line: &str, labels: &HashMap<&str, u16>) -> Outcome<Node> {
    let body = line.split_once(':').map_or(line, |(_, body)| body);
    let mut words = body.split_whitespace();
    let word = words.next().ok_or("no kind here")?;
    if word == "raw" {
        return raw(words);
    }
    let (_, kind, names) =
        WORDS.iter().find(|row| row.0 == word).ok_or(format!("no kind is called {word}"))?;
    let mut node = Node { kind: *kind, ..Node::default() };
    if matches!(*kind, kinds::BRANCH | kinds::CASE) {
        node.b = NO_NEXT;
    }
    let mut given = Vec::new();
    for field in words {
        let (name, content) = field.split_once('=').ok_or(format!("{field} has no ="))?;
        if given.contains(&name) {
            return Err(format!("{name} stands twice"));
        }
        set_field(&mut node, names, name, content, labels)?;
        given.push(name);
    }
    match missing(*kind, names, &given) {
        Some(name) => Err(format!("{word} lacks {name}")),
        None => Ok(node),
    }
}

/// The first field that a node of a kind has and that was not given, by its name or raw by its
/// letter. A `next` may be left out; a value may be given raw by its type; and a node whose kind is
/// set raw has what fields it may.
fn missing<'a>(kind: u8, names: &[&'a str; 3], given: &[&str]) -> Option<&'a str> {
    let is_given = |name: &str| given.contains(&name);
    if is_given("kind") {
        return None;
    }
    let fields = names.iter().zip(["a", "b", "c"]);
    let mut fields = fields.filter(|(&name, letter)| !is_given(name) && !is_given(letter));
    let field = fields.find(|(name, _)| !["", "next"].contains(name)).map(|(&name, _)| name);
    let typed = match kind {
        kinds::DELAY | kinds::CONSTANT if !is_given("value") => Some("value"),
        kinds::LET | kinds::SWITCH | kinds::BRANCH | kinds::TAKE => Some("type"),
        _ => None,
    };
    field.or(typed.filter(|_| !is_given("type")))
}

/// The six numbers of a raw record.
fn raw<'a>(words: impl Iterator<Item = &'a str>) -> Outcome<Node> {
    let words: Vec<&str> = words.collect();
    let [kind, ty, a, b, c, word] = words[..] else {
        return Err("raw takes kind, type, a, b, c and word".into());
    };
    let half = |word| within(word, 16);
    Ok(Node {
        kind: within(kind, 8)? as u8,
        ty: within(ty, 8)? as u8,
        a: half(a)? as u16,
        b: half(b)? as u16,
        c: half(c)? as u16,
        word: within(word, 32)? as i32,
    })
}

/// Sets one field by its own name, by `value` or `type`, or raw by its letter.
fn set_field(
    node: &mut Node,
    names: &[&str; 3],
    name: &str,
    content: &str,
    labels: &HashMap<&str, u16>,
) -> Outcome<()> {
    match name {
        "value" => {
            let value = value(content)?;
            (node.ty, node.b, node.word) = (value.ty, value.present as u16, value.word);
        }
        "type" => node.ty = type_of(content)?,
        "kind" => node.kind = within(content, 8)? as u8,
        "word" => node.word = within(content, 32)? as i32,
        _ => {
            let letters = ["a", "b", "c"];
            let field = (0..3).find(|&i| names[i] == name || letters[i] == name);
            let to = reference(content, labels)?;
            match field {
                Some(0) => node.a = to,
                Some(1) => node.b = to,
                Some(_) => node.c = to,
                None => return Err(format!("no field is called {name} here")),
            }
        }
    }
    Ok(())
}

/// A decimal number.
fn number(word: &str) -> Outcome<i64> {
    word.parse().map_err(|_| format!("{word} is no number"))
}

/// A decimal number of so many bits, with a sign or without.
fn within(word: &str, bits: u32) -> Outcome<i64> {
    let number = number(word)?;
    let fits = (-(1 << (bits - 1))..1 << bits).contains(&number);
    fits.then_some(number).ok_or(format!("{word} is no number of {bits} bits"))
}

/// What a field names: a label, a plain number, or `-` for no next.
fn reference(word: &str, labels: &HashMap<&str, u16>) -> Outcome<u16> {
    match labels.get(word) {
        Some(&number) => Ok(number),
        None if word == "-" => Ok(NO_NEXT),
        None => word.parse().map_err(|_| format!("no node is called {word}")),
    }
}

/// A type: `int`, `maybe-int`, or its number.
fn type_of(word: &str) -> Outcome<u8> {
    match word {
        "unit" => Ok(UNIT),
        "bool" => Ok(BOOL),
        "int" => Ok(INT),
        _ => match word.strip_prefix("maybe-") {
            Some(plain) => Ok(type_of(plain)? + MAYBE),
            None => word.parse().map_err(|_| format!("{word} is no type")),
        },
    }
}

/// A value: `unit`, `true`, `false`, a decimal, `none(int)` or `some(5)`.
fn value(word: &str) -> Outcome<Value> {
    let inside = |name: &str| word.strip_prefix(name)?.strip_prefix('(')?.strip_suffix(')');
    if let Some(plain) = inside("none") {
        return Ok(Value::absent(type_of(plain)?));
    }
    if let Some(plain) = inside("some") {
        return Ok(value(plain)?.just());
    }
    match word {
        "unit" => Ok(Value { ty: UNIT, present: true, word: 0 }),
        "true" => Ok(Value::bool(true)),
        "false" => Ok(Value::bool(false)),
        _ => Ok(Value::int(word.parse().map_err(|_| format!("{word} is no value"))?)),
    }
}

/// A raw override: `.edition` of all blocks (the number in their byte 3), `.number`, `.count`,
/// `.check` of a block, `.node`, `.byte`, `.seal` or `.length`.
fn override_bytes(bytes: &mut Vec<u8>, line: &str) -> Outcome<()> {
    let mut words = line.split_whitespace();
    let name = words.next().unwrap_or("");
    if name == ".node" {
        return override_node(bytes, words);
    }
    let numbers = words.map(number).collect::<Outcome<Vec<i64>>>()?;
    let size = |i: usize| numbers.get(i).map(|&n| n as usize).ok_or("a number is missing");
    match name {
        ".seal" => format::seal(bytes),
        ".edition" => format::set_edition(bytes, size(0)? as u8),
        ".length" => bytes.resize(size(0)?.min(1 << 20), 0),
        ".byte" => put(bytes, size(0)?, &[size(1)? as u8])?,
        ".number" => put_sealed(bytes, size(0)?, 0, size(1)? as u16)?,
        ".count" => put_sealed(bytes, size(0)?, 2, size(1)? as u16)?,
        ".check" => {
            let at = size(0)?.saturating_mul(format::BLOCK).saturating_add(format::CHECK_AT);
            put(bytes, at, &(size(1)? as u32).to_le_bytes())?;
        }
        _ => return Err(format!("no override is called {name}")),
    }
    Ok(())
}

/// `.node N field=..`: fields of a node by their letters, or `kind`, `type`, `word` or `value`, and its
/// block's check right again.
fn override_node<'a>(bytes: &mut [u8], mut words: impl Iterator<Item = &'a str>) -> Outcome<()> {
    let number = within(words.next().ok_or("a number is missing")?, 16)? as usize;
    let block = bytes.chunks_exact_mut(format::BLOCK).nth(number / format::RECORDS);
    let block = block.ok_or("that place is beyond the end")?;
    let at = format::HEAD + number % format::RECORDS * format::RECORD;
    let mut node = format::node_of(&block[at..at + format::RECORD]);
    for field in words {
        let (name, content) = field.split_once('=').ok_or(format!("{field} has no ="))?;
        set_field(&mut node, &["", "", ""], name, content, &HashMap::new())?;
    }
    put(block, at, &format::record_of(&node))?;
    format::seal(block);
    Ok(())
}

/// Puts a head field of a block and makes that block's check right again.
fn put_sealed(bytes: &mut [u8], block: usize, at: usize, field: u16) -> Outcome<()> {
    let from = block.saturating_mul(format::BLOCK);
    put(bytes, from.saturating_add(at), &field.to_le_bytes())?;
    let end = bytes.len().min(from + format::BLOCK);
    format::seal(&mut bytes[from..end]);
    Ok(())
}

/// Puts bytes at a place.
fn put(bytes: &mut [u8], at: usize, content: &[u8]) -> Outcome<()> {
    let room = bytes.get_mut(at..at.saturating_add(content.len()));
    room.ok_or("that place is beyond the end")?.copy_from_slice(content);
    Ok(())
}

/// Records, one a line: the time, then `c0=..` to `c7=..`, and raw `flags=`, `zeros=`, `wN=`.
pub fn records(text: &str) -> Result<Vec<u8>, Mistake> {
    let mut bytes = Vec::new();
    for (line, words) in lines(text) {
        let record = record(words).map_err(|says| Mistake { line, says })?;
        bytes.extend(record);
    }
    Ok(bytes)
}

/// One record's line; naming a channel from 4 to 7 by `c` sets its flag too.
fn record(line: &str) -> Outcome<[u8; RECORD]> {
    let mut words = line.split_whitespace();
    let mut record = [0; RECORD];
    let time = within(words.next().unwrap_or(""), 32)?;
    record[..4].copy_from_slice(&(time as u32).to_le_bytes());
    for field in words {
        let (name, content) = field.split_once('=').ok_or(format!("{field} has no ="))?;
        match name {
            "flags" => record[FLAGS] = within(content, 8)? as u8,
            "zeros" => {
                let zeros = within(content, 24)?.to_le_bytes();
                record[FLAGS + 1..FLAGS + 4].copy_from_slice(&zeros[..3]);
            }
            _ => {
                let channel = name.strip_prefix(['c', 'w']).and_then(|digit| digit.parse().ok());
                let channel = channel.filter(|&channel: &usize| channel < 8);
                let channel = channel.ok_or(format!("no channel is called {name}"))?;
                let at = 4 + 4 * channel + if channel < 4 { 0 } else { 4 };
                record[at..at + 4].copy_from_slice(&(within(content, 32)? as i32).to_le_bytes());
                if channel >= 4 && name.starts_with('c') {
                    record[FLAGS] |= 1 << (channel - 4);
                }
            }
        }
    }
    Ok(record)
}
