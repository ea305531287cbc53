//! Ready, code 8: a let's definition never needs the let's own variable at once.

use crate::kinds::{self, Field};
use crate::refusal::{self, Refusal};
use crate::shape::{Above, Tree};

/// Accepts, or refuses with code 8 at the smallest let that is not ready. A definition needs the
/// variable at once exactly when some use of it has a way up to the definition all of whose
/// steps count.
pub fn read(tree: &Tree) -> Result<(), Refusal> {
    let lets = tree.nodes.iter().enumerate().filter_map(|(number, node)| {
        let binder = node.a as usize;
        let use_of_let = node.kind == kinds::VARIABLE && tree.nodes[binder].kind == kinds::LET;
        (use_of_let && needed_at_once(tree, number, binder)).then_some(binder)
    });
    match lets.min() {
        Some(place) => Err(Refusal::at(refusal::READY, place)),
        None => Ok(()),
    }
}

/// Whether the way up from a use reaches the let's definition by steps that count alone.
fn needed_at_once(tree: &Tree, variable: usize, binder: usize) -> bool {
    for above in tree.way_up(variable) {
        if above.parent == binder {
            return above.field == Field::A;
        }
        if !counts(tree, above) {
            return false;
        }
    }
    false
}

/// Whether a parent needs at once what the child hanging so needs: all but a delay's signal and
/// the events of switch and until.
fn counts(tree: &Tree, above: Above) -> bool {
    match tree.nodes[above.parent].kind {
        kinds::DELAY | kinds::CASE => false,
        kinds::SWITCH | kinds::UNTIL => above.field != Field::B,
        _ => true,
    }
}
