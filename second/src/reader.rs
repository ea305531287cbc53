//! Reading the text form (document 02, b): from text to blocks, codes 21 to 24, then 6 to 8.

use crate::format;
use crate::kinds::{self, Node, Sort, NO_NEXT};
use crate::number;
use crate::program::Program;
use crate::refusal::{self, Refusal};
use crate::value::{is_plain, Value, UNIT};
use crate::words::{self, Form, Part, Word};
use std::collections::{BTreeMap, BTreeSet};

/// The most nodes of a text.
pub const MOST_NODES: usize = 1008;

/// The answer to a text that was read: its program's nodes, and its length in bytes.
#[derive(Clone, Copy, Debug, PartialEq, Eq)]
pub struct Table {
    pub nodes: usize,
    pub length: usize,
}

/// Reads a text into the first blocks of a room: codes 21 to 23 at the first word that does not fit, then
/// 24 if the blocks are longer than the room, then 6 to 8 as the check. It answers the nodes and the
/// length.
pub fn read(text: &[u8], room: &mut [u8]) -> Result<Table, Refusal> {
    let Unjudged { program, places } = unjudged(text)?;
    if program.len() > room.len() {
        return Err(Refusal::at(refusal::TOO_LONG, 0));
    }
    Program::read(&program)?;
    room[..program.len()].copy_from_slice(&program);
    Ok(Table { nodes: places.len(), length: program.len() })
}

/// A table that was read and that the check has not seen: its blocks, and for each node the position in the
/// text at which it begins.
pub struct Unjudged {
    pub program: Vec<u8>,
    pub places: Vec<usize>,
}

/// Reads a text as far as 21 to 23 go.
pub fn unjudged(text: &[u8]) -> Result<Unjudged, Refusal> {
    let (edition, nodes, places) = Reader::new(text).whole()?;
    let mut program = format::write(&nodes);
    format::set_edition(&mut program, edition);
    Ok(Unjudged { program, places })
}

/// A text on its way to a table. Nodes are numbered as they begin, and anew at the end.
struct Reader<'a> {
    words: Vec<Word<'a>>,
    next: usize,
    length: usize,
    nodes: Vec<Node>,
    /// Where each of them begins.
    places: Vec<usize>,
    /// All names that are bound.
    bound: BTreeSet<&'a [u8]>,
    /// The binders of variables, and the branches, by their names.
    variables: BTreeMap<&'a [u8], u16>,
    branches: BTreeMap<&'a [u8], u16>,
    /// The names that stand behind `(branch`, anywhere in the text.
    labels: BTreeSet<&'a [u8]>,
    /// The cases so far, with the names that they go to.
    targets: Vec<(usize, &'a [u8])>,
}

type Read<T> = Result<T, Refusal>;

impl<'a> Reader<'a> {
    fn new(text: &'a [u8]) -> Reader<'a> {
        let words = words::words(text);
        let opens = |three: &&[Word]| three[0].bytes == b"(" && three[1].bytes == b"branch";
        let labels = words.windows(3).filter(opens).map(|three| three[2].bytes).collect();
        Reader {
            words,
            next: 0,
            length: text.len(),
            nodes: Vec::new(),
            places: Vec::new(),
            bound: BTreeSet::new(),
            variables: BTreeMap::new(),
            branches: BTreeMap::new(),
            labels,
            targets: Vec::new(),
        }
    }

    /// The edition, one signal, and nothing behind it; the nodes children first, in field order, and where
    /// each begins.
    fn whole(mut self) -> Read<(u8, Vec<Node>, Vec<usize>)> {
        let first = self.word()?;
        let edition = words::EDITIONS.iter().position(|word| word.as_bytes() == first.bytes);
        let edition = edition.ok_or(misfit(first))?;
        let root = self.child(Sort::Signal)?;
        if let Some(&more) = self.words.get(self.next) {
            return Err(misfit(more));
        }
        for &(case, name) in &self.targets {
            self.nodes[case].c = self.branches[name];
        }
        let mut order = Vec::new();
        let none = vec![false; self.nodes.len()];
        number::children_first(&self.nodes, &none, root as usize, &mut order);
        let places = order.iter().map(|&node| self.places[node]).collect();
        Ok((edition as u8, number::in_order(&self.nodes, &order), places))
    }

    /// The next word; a text that ends here does not fit at its end.
    fn word(&mut self) -> Read<Word<'a>> {
        let word = self.words.get(self.next).copied();
        self.next += 1;
        word.ok_or(Refusal::at(refusal::WORD, self.length))
    }

    /// The next word, which must be this one.
    fn expect(&mut self, wanted: &[u8]) -> Read<()> {
        let word = self.word()?;
        if word.bytes == wanted {
            Ok(())
        } else {
            Err(misfit(word))
        }
    }

    /// A node begins at a word; the 1,009th does not fit there.
    fn begin(&mut self, at: Word) -> Read<usize> {
        if self.nodes.len() == MOST_NODES {
            return Err(misfit(at));
        }
        self.nodes.push(Node::default());
        self.places.push(at.at);
        Ok(self.nodes.len() - 1)
    }

    /// A signal, branch or case, or an expression: a form, or as an expression a name or value.
    fn child(&mut self, sort: Sort) -> Read<u16> {
        let first = self.word()?;
        if first.bytes != b"(" && sort != Sort::Expression {
            return Err(misfit(first));
        }
        let number = self.begin(first)?;
        self.nodes[number] = match first.bytes {
            b"(" => self.form(sort, number)?,
            _ => self.simple(first)?,
        };
        Ok(number as u16)
    }

    /// What stands behind the parenthesis of a form of a sort.
    fn form(&mut self, sort: Sort, number: usize) -> Read<Node> {
        let word = self.word()?;
        if sort == Sort::Expression && matches!(word.bytes, b"some" | b"none") {
            return Ok(constant(self.maybe(word)?));
        }
        let form = words::form_named(word.bytes).filter(|form| kinds::sort(form.1) == sort);
        self.parts(form.ok_or(misfit(word))?, number)
    }

    /// The parts of a form and its last parenthesis.
    fn parts(&mut self, &(_, kind, parts): &Form, number: usize) -> Read<Node> {
        let mut node = Node { kind, ..Node::default() };
        if matches!(kind, kinds::BRANCH | kinds::CASE) {
            node.b = NO_NEXT;
        }
        for &part in parts {
            self.part(part, number, &mut node)?;
        }
        // A list has taken the parenthesis behind it.
        if !matches!(parts.last(), Some(Part::List(_))) {
            self.expect(b")")?;
        }
        Ok(node)
    }

    fn part(&mut self, part: Part, number: usize, node: &mut Node) -> Read<()> {
        match part {
            Part::Variable => {
                let name = self.fresh()?;
                self.variables.insert(name, number as u16);
            }
            Part::Label => {
                let name = self.fresh()?;
                self.branches.insert(name, number as u16);
            }
            Part::Target => {
                let word = self.name()?;
                if !self.labels.contains(word.bytes) {
                    return Err(unknown(word));
                }
                self.targets.push((number, word.bytes));
            }
            Part::Type => node.ty = self.type_of(|_| true)?,
            Part::Plain => node.ty = self.type_of(is_plain)?,
            Part::First => {
                let Value { ty, present, word } = self.value()?;
                (node.ty, node.b, node.word) = (ty, u16::from(present), word);
            }
            Part::Channel => node.a = self.channel()?,
            Part::Signal(field) => kinds::set(node, field, self.child(Sort::Signal)?),
            Part::Expression(field) => kinds::set(node, field, self.child(Sort::Expression)?),
            Part::List(kind) => node.b = self.list(kinds::sort(kind))?,
        }
        Ok(())
    }

    /// One member or more of a list, up to the parenthesis behind them; each one's next is the one behind.
    fn list(&mut self, sort: Sort) -> Read<u16> {
        let first = self.child(sort)?;
        let mut last = first;
        while self.words.get(self.next).is_some_and(|word| word.bytes == b"(") {
            let behind = self.child(sort)?;
            self.nodes[last as usize].b = behind;
            last = behind;
        }
        self.expect(b")")?;
        Ok(first)
    }

    /// A word that may be a name.
    fn name(&mut self) -> Read<Word<'a>> {
        let word = self.word()?;
        if words::is_name(word.bytes) {
            Ok(word)
        } else {
            Err(misfit(word))
        }
    }

    /// A name that is bound here, once in a text.
    fn fresh(&mut self) -> Read<&'a [u8]> {
        let word = self.name()?;
        if self.bound.insert(word.bytes) {
            Ok(word.bytes)
        } else {
            Err(unknown(word))
        }
    }

    fn type_of(&mut self, allowed: impl Fn(u8) -> bool) -> Read<u8> {
        let word = self.word()?;
        words::type_named(word.bytes).filter(|&ty| allowed(ty)).ok_or(misfit(word))
    }

    fn channel(&mut self) -> Read<u16> {
        let word = self.word()?;
        match words::number(word.bytes).ok_or(misfit(word))? {
            channel @ 0..=7 => Ok(channel as u16),
            _ => Err(out_of_range(word)),
        }
    }

    /// A value where a form has one.
    fn value(&mut self) -> Read<Value> {
        let first = self.word()?;
        if first.bytes != b"(" {
            return plain(first);
        }
        let word = self.word()?;
        match word.bytes {
            b"some" | b"none" => self.maybe(word),
            _ => Err(misfit(word)),
        }
    }

    /// What stands behind `some` or `none`.
    fn maybe(&mut self, word: Word) -> Read<Value> {
        let value = match word.bytes {
            b"some" => plain(self.word()?)?.just(),
            _ => Value::absent(self.type_of(is_plain)?),
        };
        self.expect(b")")?;
        Ok(value)
    }

    /// A variable or a constant of one word.
    fn simple(&self, word: Word) -> Read<Node> {
        if !words::is_name(word.bytes) {
            return plain(word).map(constant);
        }
        let binder = self.variables.get(word.bytes).ok_or(unknown(word))?;
        Ok(Node { kind: kinds::VARIABLE, a: *binder, ..Node::default() })
    }
}

fn constant(value: Value) -> Node {
    let Value { ty, present, word } = value;
    Node { kind: kinds::CONSTANT, ty, b: u16::from(present), word, ..Node::default() }
}

/// A plain value of one word.
fn plain(word: Word) -> Read<Value> {
    match word.bytes {
        b"true" => Ok(Value::bool(true)),
        b"false" => Ok(Value::bool(false)),
        b"unit" => Ok(Value { ty: UNIT, present: true, word: 0 }),
        _ => {
            let number = words::number(word.bytes).ok_or(misfit(word))?;
            i32::try_from(number).map(Value::int).map_err(|_| out_of_range(word))
        }
    }
}

/// A word or parenthesis that does not fit.
fn misfit(word: Word) -> Refusal {
    Refusal::at(refusal::WORD, word.at)
}

/// A name that is unknown here, or bound already.
fn unknown(word: Word) -> Refusal {
    Refusal::at(refusal::NAME, word.at)
}

/// A constant or channel out of range.
fn out_of_range(word: Word) -> Refusal {
    Refusal::at(refusal::RANGE, word.at)
}
