//! The text form's words (document 02, b): what a text is parted into, and how kinds, types, names and
//! values are written.

use crate::kinds::{self, Field};
use crate::value::{Value, BOOL, INT, MAYBE, UNIT};

/// The most bytes of a name.
pub const LONGEST_NAME: usize = 31;

/// The first word of a text, by its edition.
pub const EDITIONS: [&str; 2] = ["edition-one", "edition-two"];

/// A part of a form, in the order in which it is written.
#[derive(Clone, Copy, Debug, PartialEq, Eq)]
pub enum Part {
    /// The name of the node's variable.
    Variable,
    /// A branch's own name.
    Label,
    /// The branch that a case goes to.
    Target,
    Type,
    Plain,
    /// A delay's first value.
    First,
    Channel,
    Signal(Field),
    Expression(Field),
    /// One branch or more, or one case or more.
    List(u8),
}

use Field::{A, B, C};
use Part::{
    Channel, Expression, First, Label, List, Plain, Signal, Target, Type, Variable as Named,
};

/// A row of the table of forms: the word, its kind, and its parts.
pub type Form = (&'static str, u8, &'static [Part]);

/// "One word per kind; children stand in the order of the record's fields a, b, c."
pub const FORMS: [Form; 22] = [
    ("input", kinds::INPUT, &[Channel]),
    ("time", kinds::TIME, &[]),
    ("ext", kinds::EXT, &[Expression(A)]),
    ("delay", kinds::DELAY, &[First, Signal(A)]),
    ("let", kinds::LET, &[Named, Type, Signal(A), Signal(B)]),
    ("switch", kinds::SWITCH, &[Named, Plain, Signal(A), Signal(B), Signal(C)]),
    ("group", kinds::GROUP, &[Signal(A), List(kinds::BRANCH)]),
    ("until", kinds::UNTIL, &[Signal(A), List(kinds::CASE)]),
    ("branch", kinds::BRANCH, &[Label, Named, Plain, Signal(A)]),
    ("case", kinds::CASE, &[Signal(A), Target]),
    ("add", kinds::ADD, &[Expression(A), Expression(B)]),
    ("subtract", kinds::SUBTRACT, &[Expression(A), Expression(B)]),
    ("multiply", kinds::MULTIPLY, &[Expression(A), Expression(B)]),
    ("divide", kinds::DIVIDE, &[Expression(A), Expression(B)]),
    ("less", kinds::LESS, &[Expression(A), Expression(B)]),
    ("equal", kinds::EQUAL, &[Expression(A), Expression(B)]),
    ("not", kinds::NOT, &[Expression(A)]),
    ("and", kinds::AND, &[Expression(A), Expression(B)]),
    ("or", kinds::OR, &[Expression(A), Expression(B)]),
    ("if", kinds::IF, &[Expression(A), Expression(B), Expression(C)]),
    ("just", kinds::JUST, &[Expression(A)]),
    ("take", kinds::TAKE, &[Named, Plain, Expression(A), Expression(B), Expression(C)]),
];

/// The types and their words.
pub const TYPES: [(&str, u8); 6] = [
    ("unit", UNIT),
    ("bool", BOOL),
    ("int", INT),
    ("maybe-unit", UNIT + MAYBE),
    ("maybe-bool", BOOL + MAYBE),
    ("maybe-int", INT + MAYBE),
];

/// A word of a text: its bytes, and the place of the first of them.
#[derive(Clone, Copy, Debug, PartialEq, Eq)]
pub struct Word<'a> {
    pub at: usize,
    pub bytes: &'a [u8],
}

/// Parts a text into words: parentheses, and runs of other bytes between white space, parentheses and
/// comments.
pub fn words(text: &[u8]) -> Vec<Word<'_>> {
    let mut words = Vec::new();
    let mut at = 0;
    while at < text.len() {
        let ends = |byte: &u8| is_space(*byte) || b"();".contains(byte);
        let rest = &text[at..];
        let length = match rest[0] {
            b';' => rest.iter().position(|byte| b"\n\r".contains(byte)).unwrap_or(rest.len()),
            byte if is_space(byte) => 1,
            b'(' | b')' => 1,
            _ => rest.iter().position(ends).unwrap_or(rest.len()),
        };
        if rest[0] != b';' && !is_space(rest[0]) {
            words.push(Word { at, bytes: &rest[..length] });
        }
        at += length;
    }
    words
}

fn is_space(byte: u8) -> bool {
    matches!(byte, b' ' | b'\t' | b'\n' | b'\r')
}

/// The form of a word.
pub fn form_named(word: &[u8]) -> Option<&'static Form> {
    FORMS.iter().find(|form| form.0.as_bytes() == word)
}

/// The form of a kind; variables and constants have none.
pub fn form_of(kind: u8) -> Option<&'static Form> {
    FORMS.iter().find(|form| form.1 == kind)
}

/// The type of a word.
pub fn type_named(word: &[u8]) -> Option<u8> {
    TYPES.iter().find(|row| row.0.as_bytes() == word).map(|row| row.1)
}

/// The word of a type.
pub fn type_word(ty: u8) -> &'static str {
    TYPES.iter().find(|row| row.1 == ty).map_or("", |row| row.0)
}

/// Whether a word is one of the form, which no name may be.
fn is_kept(word: &[u8]) -> bool {
    let others = ["true", "false", "some", "none"].iter().chain(&EDITIONS);
    form_named(word).is_some()
        || type_named(word).is_some()
        || others.into_iter().any(|other| other.as_bytes() == word)
}

/// Whether a word may be a name: a letter, then letters, digits and hyphens.
pub fn is_name(word: &[u8]) -> bool {
    let letters = |byte: &u8| byte.is_ascii_alphanumeric() || *byte == b'-';
    word.first().is_some_and(u8::is_ascii_alphabetic)
        && word.iter().all(letters)
        && word.len() <= LONGEST_NAME
        && !is_kept(word)
}

/// The number that a word is, if it is one: digits, a minus in front or none. What is far out of range
/// may be any number that is out of range.
pub fn number(word: &[u8]) -> Option<i64> {
    let (minus, digits) = match word.strip_prefix(b"-") {
        Some(digits) => (true, digits),
        None => (false, word),
    };
    if digits.is_empty() || !digits.iter().all(u8::is_ascii_digit) {
        return None;
    }
    let more = |sum: i64, digit: &u8| (sum * 10 + i64::from(digit - b'0')).min(1 << 40);
    let size = digits.iter().fold(0, more);
    Some(if minus { -size } else { size })
}

/// The words of a value.
pub fn value_words(value: Value) -> Vec<String> {
    let plain = |ty: u8| match ty {
        UNIT => "unit".to_string(),
        BOOL => if value.truth() { "true" } else { "false" }.to_string(),
        _ => value.word.to_string(),
    };
    let inside = |word: &str, what: String| ["(", word, &what, ")"].map(String::from).to_vec();
    match (value.ty > MAYBE, value.present) {
        (false, _) => vec![plain(value.ty)],
        (true, true) => inside("some", plain(value.ty - MAYBE)),
        (true, false) => inside("none", type_word(value.ty - MAYBE).to_string()),
    }
}
