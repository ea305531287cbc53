//! Scope, code 6: binders stand above their variables, targets in the first group above, or in
//! edition two in any group that the way up meets.

use crate::kinds::{self, Field};
use crate::refusal::{self, Refusal};
use crate::shape::{Above, Tree};

/// For each node the let continue its way up leads to, if it goes only through let bodies,
/// let continue bodies, branch bodies and lists: a branch's own group, and the group whose
/// branches a case may name.
pub type Homes = Vec<Option<usize>>;

/// Finds the homes, or refuses with code 6 at the first variable or case at fault.
pub fn read(tree: &Tree, edition: u8) -> Result<Homes, Refusal> {
    let homes = homes(tree);
    for (number, node) in tree.nodes.iter().enumerate() {
        let good = match node.kind {
            kinds::VARIABLE => bound_above(tree, number, node.a as usize),
            kinds::CASE => target_at_home(tree, &homes, edition, number, node.c as usize),
            _ => true,
        };
        if !good {
            return Err(Refusal::at(refusal::SCOPE, number));
        }
    }
    Ok(homes)
}

/// Parents have larger numbers, so going down the numbers each parent's home is known first.
fn homes(tree: &Tree) -> Homes {
    let mut homes: Homes = vec![None; tree.nodes.len()];
    for number in (0..tree.root()).rev() {
        homes[number] = tree.above[number].and_then(|above| home_below(tree, &homes, above));
    }
    homes
}

/// The home of a node that hangs as told.
fn home_below(tree: &Tree, homes: &Homes, above: Above) -> Option<usize> {
    match (tree.nodes[above.parent].kind, above.field) {
        (kinds::GROUP, _) => Some(above.parent),
        (kinds::LET, Field::B)
        | (kinds::BRANCH, _)
        | (kinds::UNTIL, Field::B)
        | (kinds::CASE, Field::B) => homes[above.parent],
        _ => None,
    }
}

/// Whether the binder is one, stands above the variable, and is entered by a binding part.
fn bound_above(tree: &Tree, variable: usize, binder: usize) -> bool {
    tree.way_up(variable)
        .find(|above| above.parent == binder)
        .is_some_and(|above| binds(tree.nodes[binder].kind, above.field))
}

/// Whether a kind binds its variable in the part that hangs by the field.
fn binds(kind: u8, field: Field) -> bool {
    match kind {
        kinds::LET => true,
        kinds::SWITCH | kinds::TAKE => field == Field::C,
        kinds::BRANCH => field == Field::A,
        _ => false,
    }
}

/// Whether the target is a branch of the first group above the case's until; in edition two, of
/// any group that is met on going on up.
fn target_at_home(tree: &Tree, homes: &Homes, edition: u8, case: usize, target: usize) -> bool {
    let is_branch = tree.nodes.get(target).is_some_and(|node| node.kind == kinds::BRANCH);
    let onward = |&group: &usize| if edition == 0 { None } else { homes[group] };
    is_branch
        && std::iter::successors(homes[case], onward).any(|group| homes[target] == Some(group))
}
