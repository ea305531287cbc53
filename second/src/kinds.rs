//! The kinds of nodes, which fields each of them names, and its children.

pub const INPUT: u8 = 1;
pub const TIME: u8 = 2;
pub const EXT: u8 = 3;
pub const DELAY: u8 = 4;
pub const LET: u8 = 5;
pub const SWITCH: u8 = 6;
pub const GROUP: u8 = 7;
pub const UNTIL: u8 = 8;
pub const BRANCH: u8 = 9;
pub const CASE: u8 = 10;
pub const VARIABLE: u8 = 16;
pub const CONSTANT: u8 = 17;
pub const ADD: u8 = 18;
pub const SUBTRACT: u8 = 19;
pub const MULTIPLY: u8 = 20;
pub const DIVIDE: u8 = 21;
pub const LESS: u8 = 22;
pub const EQUAL: u8 = 23;
pub const NOT: u8 = 24;
pub const AND: u8 = 25;
pub const OR: u8 = 26;
pub const IF: u8 = 27;
pub const JUST: u8 = 28;
pub const TAKE: u8 = 29;

/// A next field that names no next.
pub const NO_NEXT: u16 = 65535;

/// One node as its record says it.
#[derive(Clone, Copy, Debug, Default, PartialEq, Eq)]
pub struct Node {
    pub kind: u8,
    pub ty: u8,
    pub a: u16,
    pub b: u16,
    pub c: u16,
    pub word: i32,
}

/// What a kind wants of its type byte.
#[derive(Clone, Copy, PartialEq, Eq)]
pub enum TypeByte {
    Zero,
    Any,
    Plain,
}

/// The fields a kind names; every other field is zero.
pub struct Named {
    pub ty: TypeByte,
    pub a: bool,
    pub b: bool,
    pub c: bool,
    pub word: bool,
}

/// The named fields of a kind, or none where there is no such kind.
pub fn named(kind: u8) -> Option<Named> {
    let row = |ty, fields: &str| {
        let has = |letter| fields.contains(letter);
        Some(Named { ty, a: has('a'), b: has('b'), c: has('c'), word: has('w') })
    };
    match kind {
        TIME => row(TypeByte::Zero, ""),
        INPUT | EXT | VARIABLE | NOT | JUST => row(TypeByte::Zero, "a"),
        GROUP | UNTIL | ADD..=EQUAL | AND | OR => row(TypeByte::Zero, "ab"),
        CASE | IF => row(TypeByte::Zero, "abc"),
        DELAY => row(TypeByte::Any, "abw"),
        LET => row(TypeByte::Any, "ab"),
        CONSTANT => row(TypeByte::Any, "bw"),
        BRANCH => row(TypeByte::Plain, "ab"),
        SWITCH | TAKE => row(TypeByte::Plain, "abc"),
        _ => None,
    }
}

/// The sorts of nodes a field may name as a child.
#[derive(Clone, Copy, Debug, PartialEq, Eq)]
pub enum Sort {
    Signal,
    Branch,
    Case,
    Expression,
}

/// The sort of a known kind.
pub fn sort(kind: u8) -> Sort {
    match kind {
        BRANCH => Sort::Branch,
        CASE => Sort::Case,
        INPUT..=UNTIL => Sort::Signal,
        _ => Sort::Expression,
    }
}

/// The field by which a child hangs below its parent.
#[derive(Clone, Copy, Debug, PartialEq, Eq)]
pub enum Field {
    A,
    B,
    C,
}

/// A child as named: by which field, its number, and the sort it should have.
#[derive(Clone, Copy, Debug)]
pub struct Child {
    pub field: Field,
    pub number: u16,
    pub sort: Sort,
}

/// The children a node names, in field order; binders and targets are none.
pub fn children(node: &Node) -> impl Iterator<Item = Child> {
    use Sort::{Branch, Case, Expression, Signal};
    let child = |field, number, sort| Some(Child { field, number, sort });
    let a = |sort| child(Field::A, node.a, sort);
    let b = |sort| child(Field::B, node.b, sort);
    let c = |sort| child(Field::C, node.c, sort);
    let next = |sort| if node.b == NO_NEXT { None } else { b(sort) };
    let list = match node.kind {
        EXT => [a(Expression), None, None],
        DELAY => [a(Signal), None, None],
        LET => [a(Signal), b(Signal), None],
        SWITCH => [a(Signal), b(Signal), c(Signal)],
        GROUP => [a(Signal), b(Branch), None],
        UNTIL => [a(Signal), b(Case), None],
        BRANCH => [a(Signal), next(Branch), None],
        CASE => [a(Signal), next(Case), None],
        NOT | JUST => [a(Expression), None, None],
        ADD..=EQUAL | AND | OR => [a(Expression), b(Expression), None],
        IF | TAKE => [a(Expression), b(Expression), c(Expression)],
        _ => [None, None, None],
    };
    list.into_iter().flatten()
}

/// Names another node by a field.
pub fn set(node: &mut Node, field: Field, to: u16) {
    match field {
        Field::A => node.a = to,
        Field::B => node.b = to,
        Field::C => node.c = to,
    }
}

/// Whether the kind holds a cell of the state.
pub fn has_cell(kind: u8) -> bool {
    matches!(kind, DELAY | SWITCH | GROUP)
}
