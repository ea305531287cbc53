//! Holds `src/raw.rs` and the names of codes against `include/couplerfinch.h`. Nothing is linked, so
//! this runs on every machine.
//!
//! Both files are read into lists of the same form, in Rust's words; a line that is not understood
//! is a failure. So a name, an order, a type or a number changed in one alone is seen.

#[allow(dead_code)]
#[path = "../src/code.rs"]
mod code;
#[allow(dead_code)]
#[path = "../src/raw.rs"]
mod raw;

use code::{Code, Type};
use std::mem::{align_of, size_of};

const HEADER: &str = include_str!("../../../include/couplerfinch.h");
const RAW: &str = include_str!("../src/raw.rs");

/// What a file declares, in its order, in Rust's words.
#[derive(Debug, Default, PartialEq, Eq)]
struct Declared {
    /// `BLOCK = 512`
    numbers: Vec<String>,
    /// `code: u32`
    fields: Vec<String>,
    /// `couplerfinch_check(program: *const u8, ..) -> u32`
    functions: Vec<String>,
}

/// The parts of a text between two marks, and the text without them.
fn cut(text: &str, from: &str, to: &str) -> (Vec<String>, String) {
    let (mut parts, mut rest, mut left) = (Vec::new(), String::new(), text);
    while let Some((before, after)) = left.split_once(from) {
        let (part, behind) = after.split_once(to).expect("an end of what began");
        parts.push(part.to_string());
        rest += before;
        left = behind;
    }
    (parts, rest + left)
}

/// A formula without its brackets, spaces, casts and marks of unsigned numbers.
fn formula(text: &str) -> String {
    let text = text.replace("(size_t)", "").replace("COUPLERFINCH_STATE", "state_length");
    let text = text.replace("COUPLERFINCH_LIST(", "list_entries(");
    let text = text.replace("COUPLERFINCH_", "").replace("u ", "").replace("u)", "");
    text.trim_end_matches('u').replace(['(', ')', ' '], "")
}

/// A C type and name, as `const uint8_t *program`, in Rust's order and words.
fn declared_in_c(text: &str) -> String {
    let at = text.rfind([' ', '*']).expect("a type and a name") + 1;
    let (kind, name) = (text[..at].trim(), &text[at..]);
    let kind = match kind {
        "uint32_t" => "u32",
        "size_t" => "usize",
        "uint8_t *" => "*mut u8",
        "const uint8_t *" => "*const u8",
        "uint16_t *" => "*mut u16",
        "const uint16_t *" => "*const u16",
        "couplerfinch_answer *" => "*mut Answer",
        _ => panic!("no type for {kind}"),
    };
    format!("{name}: {kind}")
}

/// A C prototype, as `uint32_t couplerfinch_check(..)`.
fn prototype(text: &str) -> String {
    let (head, words) = text.split_once('(').expect("a prototype");
    let words = words.strip_suffix(')').expect("the end of a prototype");
    let words: Vec<String> = words.split(',').map(|word| declared_in_c(word.trim())).collect();
    let head = declared_in_c(head);
    let (name, result) = head.split_once(": ").expect("a result");
    format!("{name}({}) -> {result}", words.join(", "))
}

/// What the header declares.
fn header(text: &str) -> Declared {
    let (_, text) = cut(text, "/*", "*/");
    let (_, text) = cut(&text, "#ifdef __cplusplus\n", "#endif\n");
    let (bodies, text) =
        cut(&text, "typedef struct couplerfinch_answer {", "} couplerfinch_answer;");
    assert_eq!(bodies.len(), 1, "one struct");
    let fields = statements(&bodies[0]).iter().map(|text| declared_in_c(text)).collect();
    let mut all = Declared { fields, ..Declared::default() };
    let mut rest = String::new();
    for line in text.lines() {
        match line.strip_prefix("#define COUPLERFINCH_") {
            Some("H") => {}
            Some(define) if define.starts_with("VERSION ") => {} // tests/version.rs
            Some(define) => {
                let (name, value) = define.split_once(' ').expect("a name and a value");
                let name = match name {
                    "STATE(cells)" => "state_length",
                    "LIST(cells)" => "list_entries",
                    "SHOWN(entries,records)" => "shown_length",
                    _ => name,
                };
                all.numbers.push(format!("{name} = {}", formula(value)));
            }
            None if line.starts_with("#include <std") => {}
            None if ["#ifndef COUPLERFINCH_H", "#endif"].contains(&line) => {}
            None => rest = rest + line + " ",
        }
    }
    all.functions = statements(&rest).iter().map(|text| prototype(text)).collect();
    all
}

/// The statements of C text, each with single spaces.
fn statements(text: &str) -> Vec<String> {
    let all = text.split(';').map(|one| one.split_whitespace().collect::<Vec<_>>().join(" "));
    all.filter(|one| !one.is_empty()).collect()
}

/// A function of `raw.rs`, however it is broken into lines.
fn function(text: &str) -> String {
    let text = text.strip_prefix("pub fn ").expect("a function that others may call");
    text.replace("( ", "(").replace(", )", ")")
}

/// What `raw.rs` declares.
fn rust(text: &str) -> Declared {
    let (blocks, text) = cut(text, "extern \"C\" {", "}");
    assert_eq!(blocks.len(), 1, "one block of functions");
    let functions = statements(&blocks[0]).iter().map(|text| function(text)).collect();
    let mut all = Declared { functions, ..Declared::default() };
    let lines = text.lines().map(str::trim);
    let mut lines = lines.filter(|line| !line.is_empty() && !line.starts_with("//"));
    while let Some(line) = lines.next() {
        let end = |mark| line.strip_suffix(mark).unwrap_or_else(|| panic!("{line}"));
        if let Some(function) = line.strip_prefix("pub const fn ") {
            let (name, _) = function.split_once('(').expect("a function of numbers");
            let body = lines.next().expect("a body");
            all.numbers.push(format!("{name} = {}", formula(body)));
        } else if line.starts_with("pub const ") {
            let (name, value) = end(";")["pub const ".len()..].split_once(": ").expect("a type");
            let (_, value) = value.split_once(" = ").expect("a value");
            all.numbers.push(format!("{name} = {}", formula(value)));
        } else if line.starts_with("pub ") && line.ends_with(',') {
            all.fields.push(end(",")["pub ".len()..].replace("r#", ""));
        } else {
            assert!(SILENT.contains(&line), "not understood: {line}");
        }
    }
    all
}

/// Lines of `raw.rs` that declare nothing by themselves.
const SILENT: [&str; 4] = [
    "}",
    "#[repr(C)]",
    "#[derive(Clone, Copy, Debug, Default, PartialEq, Eq)]",
    "pub struct Answer {",
];

#[test]
fn declarations_are_the_headers() {
    let (one, other) = (header(HEADER), rust(RAW));
    assert_eq!((one.numbers.len(), one.fields.len(), one.functions.len()), (53, 12, 10));
    assert_eq!(one, other);
    assert!(RAW.contains("#[repr(C)]\n#[derive"), "C's layout");
}

#[test]
fn the_answer_is_laid_out_as_in_c() {
    assert_eq!((size_of::<raw::Answer>(), align_of::<raw::Answer>()), (48, 4));
    assert_eq!((raw::LONGEST_STATE, raw::LONGEST_LIST, raw::LONGEST_PROGRAM), (8072, 1009, 12_288));
    assert_eq!(raw::LONGEST_TEXT, 12 + 1008 * (81 + 26));
}

/// `PROGRAM_LENGTH` as `ProgramLength`.
fn camel(name: &str) -> String {
    let words = name.split('_').map(|word| word[..1].to_string() + &word[1..].to_lowercase());
    words.collect()
}

#[test]
fn codes_have_the_headers_names() {
    let numbers = header(HEADER).numbers;
    let first = numbers.iter().position(|line| line == "DONE = 0").expect("codes from 0 on");
    let named = Code::ALL.map(|code| format!("{code:?} = {}", code.number()));
    let wanted: Vec<String> = numbers[first + 1..]
        .iter()
        .map(|line| line.split_once(" = ").expect("a name"))
        .map(|(name, number)| format!("{} = {number}", camel(name)))
        .collect();
    assert_eq!(named.as_slice(), wanted);
    assert_eq!([0, 14, 20, 30, 32, 41].map(Code::of), [None; 6]);
    assert_eq!(Code::of(8), Some(Code::NotReady));
}

#[test]
fn types_are_the_papers() {
    let numbers = [1, 2, 3, 5, 6, 7];
    assert_eq!(numbers.map(Type::of), Type::ALL.map(Some));
    assert_eq!([0, 4, 8, 259].map(Type::of), [None; 4]);
}

/// An edit of either file that the comparison must see.
const EDITS: [(bool, &str, &str); 22] = [
    (true, "TIME_BACK 13u", "TIME_BACK 14u"),
    (true, "COUPLERFINCH_BLOCK 512u", "COUPLERFINCH_BLOCKY 512u"),
    (true, "(8u + 8u * ", "(4u + 8u * "),
    (true, "    uint32_t nodes;", "    uint64_t nodes;"),
    (true, "couplerfinch_run(const", "couplerfinch_runs(const"),
    (
        true,
        "uint8_t *state, size_t state_length,\n",
        "const uint8_t *state, size_t state_length,\n",
    ),
    (true, "size_t records_length, ", ""),
    (true, "uint16_t *room", "uint8_t *room"),
    (true, "((size_t)(cells) + 1u)", "((size_t)(cells) + 2u)"),
    (true, "COUPLERFINCH_BLOCK * COUPLERFINCH_BLOCKS", "COUPLERFINCH_BLOCK * COUPLERFINCH_NODES"),
    (true, "const uint16_t *pairing", "uint16_t *pairing"),
    (
        false,
        "    pub entries: u32,\n    pub node: u32,",
        "    pub node: u32,\n    pub entries: u32,",
    ),
    (false, "BLOCKS: usize = 24", "BLOCKS: usize = 42"),
    (false, "    pub cells: u32,\n    pub bound: u32,", "    pub bound: u32,\n    pub cells: u32,"),
    (
        false,
        "state: *mut u8,\n        state_length: usize,",
        "state_length: usize,\n        state: *mut u8,",
    ),
    (false, "records: *const u8,", "records: *mut u8,"),
    (false, "program: *const u8,", "table: *const u8,"),
    (false, "list: *mut u16,", "list: *const u16,"),
    (false, "old_length: usize,", "length: usize,"),
    (false, "NEW_NOT_READY: u32 = 40", "NEW_NOT_READY: u32 = 39"),
    (false, "    8 + 8 * cells", "    8 + 8 * cells + 4"),
    (false, "pub const NOT_READY: u32 = 8;\n", ""),
];

#[test]
fn an_edit_of_either_is_seen() {
    for (of_header, from, to) in EDITS {
        let text = if of_header { HEADER } else { RAW };
        assert!(text.contains(from), "nothing to edit: {from}");
        let edited = text.replacen(from, to, 1);
        let seen = std::panic::catch_unwind(|| match of_header {
            true => header(&edited) != rust(RAW),
            false => header(HEADER) != rust(&edited),
        });
        assert!(seen.unwrap_or(true), "not seen: {from} as {to}");
    }
}
