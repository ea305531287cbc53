//! A checked program, decoded once for all the steps of a call.

use crate::kinds::{self, Node};
use crate::refusal::Refusal;
use crate::scope::{self, Homes};
use crate::shape::{self, Tree};
use crate::{bound, format, ready, types};

/// An accepted program and what the steps want to know of it.
#[derive(Debug)]
pub struct Program {
    pub tree: Tree,
    pub homes: Homes,
    pub root_type: u8,
    pub bound: u64,
    /// The sum of the checks of its blocks, by which its states know it.
    pub checks: u32,
    /// The nodes that hold cells, in node order.
    pub cells: Vec<usize>,
    /// For each node the number of its cell, where it has one.
    pub cell_at: Vec<usize>,
}

impl Program {
    /// Checks and decodes a program file, by the order of codes 1 to 8.
    pub fn read(file: &[u8]) -> Result<Program, Refusal> {
        let tree = shape::read(format::read(file)?)?;
        let homes = scope::read(&tree, file[format::EDITION_AT])?;
        let types = types::read(&tree)?;
        ready::read(&tree)?;
        let mut cells = Vec::new();
        let mut cell_at = vec![usize::MAX; tree.nodes.len()];
        for (number, node) in tree.nodes.iter().enumerate() {
            if kinds::has_cell(node.kind) {
                cell_at[number] = cells.len();
                cells.push(number);
            }
        }
        let root_type = types[tree.root()];
        let bound = bound::of(&tree);
        let checks = format::sum_of_checks(file);
        Ok(Program { tree, homes, root_type, bound, checks, cells, cell_at })
    }

    pub fn node(&self, number: usize) -> Node {
        self.tree.nodes[number]
    }
}
