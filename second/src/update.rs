//! Update of signals: how the cells change after the output is known.

use crate::kinds;
use crate::state::Cell;
use crate::step::Step;
use crate::value::Value;

impl Step<'_> {
    /// Updates a signal, counting one for each rule used.
    pub fn update(&mut self, number: usize) {
        self.count();
        let node = self.program.node(number);
        match node.kind {
            kinds::DELAY => {
                let value = self.evaluate(node.a as usize);
                self.update(node.a as usize);
                *self.cell(number) = Cell { value, branch: 0 };
            }
            kinds::LET => {
                self.bound[number] = self.evaluate(node.a as usize);
                self.update(node.a as usize);
                self.update(node.b as usize);
            }
            kinds::SWITCH => self.update_switch(number),
            kinds::UNTIL => self.update_until(number),
            kinds::GROUP => {
                let part = self.current_part(number);
                self.update(part);
            }
            _ => {}
        }
    }

    /// A switch evaluates and updates its event; a present one is caught and both parts go to
    /// start, else the current part is updated.
    fn update_switch(&mut self, number: usize) {
        let node = self.program.node(number);
        let event = self.evaluate(node.b as usize);
        self.update(node.b as usize);
        match event.taken() {
            Some(value) => {
                *self.cell(number) = Cell { value, branch: 0 };
                self.reset(node.a as usize);
                self.reset(node.c as usize);
            }
            None => {
                let part = self.current_part(number);
                self.update(part);
            }
        }
    }

    /// An until evaluates its events up to the first present one; without one it updates all its
    /// events and its signal.
    fn update_until(&mut self, number: usize) {
        let program = self.program;
        let node = program.node(number);
        for case in program.tree.list(node.b) {
            let event = self.evaluate(program.node(case).a as usize);
            if let Some(value) = event.taken() {
                self.fire(case, value);
                return;
            }
        }
        for case in program.tree.list(node.b) {
            self.update(program.node(case).a as usize);
        }
        self.update(node.a as usize);
    }

    /// The target's group takes the target branch and the value; all cells below go to start.
    fn fire(&mut self, case: usize, value: Value) {
        let target = self.program.node(case).c;
        if let Some(group) = self.program.homes[target as usize] {
            self.reset(group);
            *self.cell(group) = Cell { value, branch: target };
        }
    }
}
