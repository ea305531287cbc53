//! Printing the text form (document 02, b): codes 1 to 8, then 24.

use crate::format::EDITION_AT;
use crate::kinds::{self, Node};
use crate::number;
use crate::program::Program;
use crate::refusal::{self, Refusal};
use crate::value::Value;
use crate::words::{self, Part};

/// The most times that a line is set in, and by how much each time.
const DEEPEST: usize = 40;
const STEP: usize = 2;

/// Prints a program's text into the front of a room: codes 1 to 8 as the check, then 24 if the text is
/// longer than the room. It answers the text's length.
pub fn print(program: &[u8], room: &mut [u8]) -> Result<usize, Refusal> {
    let read = Program::read(program)?;
    let text = laid_out(&pieces(&read.tree.nodes, program[EDITION_AT]));
    if text.len() > room.len() {
        return Err(Refusal::at(refusal::TOO_LONG, 0));
    }
    room[..text.len()].copy_from_slice(text.as_bytes());
    Ok(text.len())
}

/// A word of a text, and how many forms its line is set in, where it begins one.
#[derive(Clone, Debug, PartialEq, Eq)]
pub struct Piece {
    pub word: String,
    pub line: Option<usize>,
}

/// The words of a table of right shape, under the numbering of its text.
pub fn pieces(nodes: &[Node], edition: u8) -> Vec<Piece> {
    let mut order = Vec::new();
    number::children_first(nodes, &vec![false; nodes.len()], nodes.len() - 1, &mut order);
    let nodes = number::in_order(nodes, &order);
    let mut printer = Printer { nodes: &nodes, pieces: Vec::new() };
    printer.put(words::EDITIONS[edition as usize], None);
    printer.form(nodes.len() - 1, 0, true);
    printer.pieces
}

/// One space between words, none behind `(` and before `)`; a line feed at the end.
pub fn laid_out(pieces: &[Piece]) -> String {
    let mut text = String::new();
    for Piece { word, line } in pieces {
        match line {
            Some(level) => {
                text.push('\n');
                text.push_str(&" ".repeat(STEP * level.min(&DEEPEST)));
            }
            None if text.is_empty() || text.ends_with('(') || word == ")" => {}
            None => text.push(' '),
        }
        text.push_str(word);
    }
    text + "\n"
}

struct Printer<'a> {
    nodes: &'a [Node],
    pieces: Vec<Piece>,
}

impl Printer<'_> {
    fn put(&mut self, word: &str, line: Option<usize>) {
        self.pieces.push(Piece { word: word.to_string(), line });
    }

    /// A signal, branch or case that stands in so many forms, on a line of its own or not.
    fn form(&mut self, number: usize, level: usize, own_line: bool) {
        let node = self.nodes[number];
        let (word, _, parts) = words::form_of(node.kind).expect("a kind with a word");
        self.put("(", own_line.then_some(level));
        self.put(word, None);
        for &part in *parts {
            self.part(part, number, level);
        }
        self.put(")", None);
    }

    fn part(&mut self, part: Part, number: usize, level: usize) {
        let node = self.nodes[number];
        let child = |field| match field {
            kinds::Field::A => node.a as usize,
            kinds::Field::B => node.b as usize,
            kinds::Field::C => node.c as usize,
        };
        match part {
            Part::Variable => self.put(&format!("x{number}"), None),
            Part::Label => self.put(&format!("k{number}"), None),
            Part::Target => self.put(&format!("k{}", node.c), None),
            Part::Type | Part::Plain => self.put(words::type_word(node.ty), None),
            Part::First => self.value(&node),
            Part::Channel => self.put(&node.a.to_string(), None),
            Part::Expression(field) => self.expression(child(field)),
            Part::Signal(field) => {
                let of = child(field);
                let short = matches!(self.nodes[of].kind, kinds::INPUT | kinds::TIME | kinds::EXT);
                self.form(of, level + 1, !(short && field == kinds::Field::A));
            }
            Part::List(_) => {
                let mut at = node.b;
                while at != kinds::NO_NEXT {
                    self.form(at as usize, level + 1, true);
                    at = self.nodes[at as usize].b;
                }
            }
        }
    }

    /// An expression, which follows on its line.
    fn expression(&mut self, number: usize) {
        let node = self.nodes[number];
        match node.kind {
            kinds::VARIABLE => self.put(&format!("x{}", node.a), None),
            kinds::CONSTANT => self.value(&node),
            _ => self.form(number, 0, false),
        }
    }

    /// The value of a constant, or a delay's first.
    fn value(&mut self, node: &Node) {
        let value = Value { ty: node.ty, present: node.b == 1, word: node.word };
        words::value_words(value).iter().for_each(|word| self.put(word, None));
    }
}
