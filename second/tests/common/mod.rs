//! Small tables for tests.
#![allow(dead_code)]

use second::kinds::{self, Node};

pub fn node(kind: u8, ty: u8, a: u16, b: u16, c: u16) -> Node {
    Node { kind, ty, a, b, c, word: 0 }
}

pub fn variable(of: u16) -> Node {
    node(kinds::VARIABLE, 0, of, 0, 0)
}

pub fn ext(of: u16) -> Node {
    node(kinds::EXT, 0, of, 0, 0)
}

pub fn input(channel: u16) -> Node {
    node(kinds::INPUT, 0, channel, 0, 0)
}

pub fn int(word: i32) -> Node {
    Node { word, ..node(kinds::CONSTANT, 3, 0, 1, 0) }
}

pub fn delay(of: u16, first: i32) -> Node {
    Node { word: first, ..node(kinds::DELAY, 3, of, 1, 0) }
}

/// A let of an int.
pub fn let_int(definition: u16, body: u16) -> Node {
    node(kinds::LET, 3, definition, body, 0)
}
