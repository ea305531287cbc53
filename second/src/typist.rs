//! Texts as people type them: a table's words with names, numbers and white space of any sort, right
//! ones and mistyped ones.

use crate::format;
use crate::generate;
use crate::grow;
use crate::hostile;
use crate::kinds::{self, Node};
use crate::printer;
use crate::random::Random;
use crate::request::Request;
use crate::words;
use std::collections::{BTreeMap, BTreeSet};

/// A text of a table of right shape, in an edition; with mistakes in so many words.
pub fn typed(random: &mut Random, nodes: &[Node], edition: u8, mistakes: usize) -> Vec<u8> {
    let pieces = printer::pieces(nodes, edition);
    if mistakes == 0 && random.chance(15) {
        return printer::laid_out(&pieces).into_bytes();
    }
    let mut words: Vec<Vec<u8>> = pieces.into_iter().map(|it| it.word.into_bytes()).collect();
    own_names(random, &mut words);
    own_numbers(random, &mut words);
    for _ in 0..mistakes {
        mistype(random, &mut words);
    }
    spread(random, &words)
}

/// Names of one's own instead of the printer's.
fn own_names(random: &mut Random, words: &mut [Vec<u8>]) {
    let mut own: BTreeMap<Vec<u8>, Vec<u8>> = BTreeMap::new();
    let mut taken = BTreeSet::new();
    for word in words.iter_mut().filter(|word| words::is_name(word)) {
        let new = own.entry(word.clone()).or_insert_with(|| loop {
            let name = some_name(random);
            if words::is_name(&name) && taken.insert(name.clone()) {
                return name;
            }
        });
        *word = new.clone();
    }
}

/// Names that are near words of the form.
const NEAR: [&str; 10] =
    ["Time", "times", "int-", "in", "maybe", "maybe-in", "x", "k", "edition", "e-one"];

/// Something that may be a name, short or of 31 bytes.
fn some_name(random: &mut Random) -> Vec<u8> {
    const LETTERS: &[u8] = b"abcdefghijklmnopqrstuvwxyzABCDEFGHIJKLMNOPQRSTUVWXYZ";
    const ALL: &[u8] = b"abcdefghijklmnopqrstuvwxyzABCDEFGHIJKLMNOPQRSTUVWXYZ0123456789-----";
    if random.chance(5) {
        return random.one(&NEAR).as_bytes().to_vec();
    }
    let length = random.one(&[1, 2, 3, 5, 8, 12, 20, 30, words::LONGEST_NAME]);
    let mut name = vec![random.one(LETTERS)];
    name.extend((1..length).map(|_| random.one(ALL)));
    name
}

/// Zeros in front of numbers, and a minus before 0, here and there.
fn own_numbers(random: &mut Random, words: &mut [Vec<u8>]) {
    for word in words.iter_mut().filter(|word| words::number(word).is_some()) {
        if random.chance(85) {
            continue;
        }
        let (minus, digits) = match word.strip_prefix(b"-") {
            Some(digits) => (true, digits.to_vec()),
            None => (word == b"0" && random.chance(50), word.clone()),
        };
        let zeros = random.one(&[0, 1, 2, 40]);
        *word = [if minus { &b"-"[..] } else { b"" }, &vec![b'0'; zeros], &digits].concat();
    }
}

/// Words of the form, for places where they do not fit.
const FORM: [&str; 40] = [
    "input",
    "time",
    "ext",
    "delay",
    "let",
    "switch",
    "group",
    "until",
    "branch",
    "case",
    "add",
    "subtract",
    "multiply",
    "divide",
    "less",
    "equal",
    "not",
    "and",
    "or",
    "if",
    "just",
    "take",
    "unit",
    "bool",
    "int",
    "maybe-unit",
    "maybe-bool",
    "maybe-int",
    "true",
    "false",
    "some",
    "none",
    "edition-one",
    "edition-two",
    "(",
    ")",
    "0",
    "1",
    "x1",
    "k1",
];

/// Words that are neither numbers nor names, or are out of range or too long.
const ODD: [&[u8]; 24] = [
    b"-",
    b"--1",
    b"1-",
    b"+1",
    b"1.5",
    b"-x",
    b"0x10",
    b"Add",
    b"x_y",
    b"TRUE",
    b"\x80",
    b"x\xc3\xa9",
    b"\0",
    b"a\x0cb",
    b"2147483647",
    b"2147483648",
    b"-2147483648",
    b"-2147483649",
    b"00000000000000000000000000000007",
    b"99999999999999999999999999999999",
    b"8",
    b"-1",
    b"abcdefghijklmnopqrstuvwxyz01234",
    b"abcdefghijklmnopqrstuvwxyz012345",
];

/// One mistake in the words.
fn mistype(random: &mut Random, words: &mut Vec<Vec<u8>>) {
    if words.len() < 2 {
        return;
    }
    let at = random.below(words.len());
    match random.weighted(&[10, 8, 8, 12, 12, 8, 22, 8, 3, 4, 3]) {
        0 => drop(words.remove(at)),
        1 => {
            let twice = words[at].clone();
            words.insert(at, twice);
        }
        2 => {
            let behind = (at + 1) % words.len();
            words.swap(at, behind);
        }
        3 => words[at] = random.one(&FORM).as_bytes().to_vec(),
        4 => words[at] = random.one(&ODD).to_vec(),
        5 => words.insert(at, random.one(&[b"(", b")"]).to_vec()),
        6 => other_name(random, words),
        7 => other_number(random, words),
        8 => words.truncate(at),
        9 => words.push(random.one(&FORM).as_bytes().to_vec()),
        _ => words[0] = random.one(&["edition-one", "edition-two", "edition-three", "("]).into(),
    }
}

/// One name stands where another stood, or one that is new.
fn other_name(random: &mut Random, words: &mut [Vec<u8>]) {
    let names: Vec<usize> = (0..words.len()).filter(|&it| words::is_name(&words[it])).collect();
    if names.is_empty() {
        return;
    }
    let (one, other) = (random.one(&names), random.one(&names));
    words[one] = if random.chance(65) { words[other].clone() } else { some_name(random) };
}

/// A number at or behind the ends of its range, or an odd one.
fn other_number(random: &mut Random, words: &mut [Vec<u8>]) {
    let numbers: Vec<usize> =
        (0..words.len()).filter(|&it| words::number(&words[it]).is_some()).collect();
    if !numbers.is_empty() {
        words[random.one(&numbers)] = random.one(&ODD[14..22]).to_vec();
    }
}

/// Puts white space and comments between words, where it must be and where it may be.
fn spread(random: &mut Random, words: &[Vec<u8>]) -> Vec<u8> {
    let (often, comments) = (random.one(&[0, 30, 100]), random.one(&[0, 0, 2, 20]));
    let mut text = Vec::new();
    if random.chance(20) {
        space(random, comments, &mut text);
    }
    for (at, word) in words.iter().enumerate() {
        let parts = |word: &[u8]| matches!(word, b"(" | b")");
        let free = at == 0 || parts(word) || parts(&words[at - 1]);
        if at > 0 && (!free || random.chance(often)) {
            space(random, comments, &mut text);
        }
        text.extend(word);
    }
    if random.chance(60) {
        space(random, comments, &mut text);
    }
    text
}

/// Some white space; now and then a comment, in which any byte may stand.
fn space(random: &mut Random, comments: usize, text: &mut Vec<u8>) {
    if random.chance(comments) {
        let inside: [&[u8]; 5] =
            [b"", b" a comment", b"; (branch x1 ( ) \"", b"\xff\x00\x0c (branch k1", b" it's 060"];
        text.extend(random.one(&[&b";"[..], b" ;", b"\t;;"]));
        text.extend(random.one(&inside));
        text.extend(random.one(&[&b"\n"[..], b"\r", b"\r\n"]));
        return;
    }
    let spaces: [&[u8]; 7] = [b" ", b" ", b" ", b"\n", b"\r\n  ", b"\t", b"  \n\n\t "];
    text.extend(random.one(&spaces));
}

/// One byte changed, cut off or put in, anywhere.
pub fn spoil(random: &mut Random, text: &mut Vec<u8>) {
    if text.is_empty() {
        return;
    }
    let at = random.below(text.len());
    let odd = random.one(b"();  \n\r\t\0\x0b\x0c\x80\xff-0a");
    match random.below(4) {
        0 => text.truncate(at),
        1 => text.insert(at, odd),
        2 => text[at] = odd,
        _ => drop(text.remove(at)),
    }
}

/// A variable that names another binder, or a case that goes to another branch: its name may be one that
/// does not hold there.
fn stray(random: &mut Random, nodes: &mut [Node]) {
    let of = |kinds: &[u8]| -> Vec<usize> {
        (0..nodes.len()).filter(|&it| kinds.contains(&nodes[it].kind)).collect()
    };
    let binders = of(&[kinds::LET, kinds::SWITCH, kinds::BRANCH, kinds::TAKE]);
    let (branches, variables, cases) =
        (of(&[kinds::BRANCH]), of(&[kinds::VARIABLE]), of(&[kinds::CASE]));
    if !variables.is_empty() && !binders.is_empty() && (cases.is_empty() || random.chance(60)) {
        nodes[random.one(&variables)].a = random.one(&binders) as u16;
    } else if !cases.is_empty() && !branches.is_empty() {
        nodes[random.one(&cases)].c = random.one(&branches) as u16;
    }
}

/// A read request: texts of accepted tables, half of them mistyped; of tables that the check refuses, many
/// of them deep, some with a name that does not hold where it is used; of more nodes than a text may have; texts that no one means; rooms that are long enough and
/// such as are not.
pub fn read_request(random: &mut Random) -> Request {
    if random.chance(6) {
        let (text, room) = (hostile::text(random), random.one(&[12_288, 12_288, 0, 512]));
        return Request::Read { text, room: generate::any_bytes(random, room) };
    }
    let count = generate::size(random);
    let mut sample = match random.below(40) {
        0..3 => generate::tangled(random, count.max(8)),
        3..7 => generate::wild(random),
        8 => generate::spine(random, count),
        7 => {
            let (edition, count) = (generate::edition(random), random.between(1009, 1030));
            generate::sample(grow::grow(random, edition, count, 0), edition)
        }
        _ => generate::accepted(random, count),
    };
    if random.chance(12) {
        stray(random, &mut sample.nodes);
    }
    let mistakes = random.one(&[0, 0, 0, 1, 1, 2]);
    let mut text = typed(random, &sample.nodes, sample.file[format::EDITION_AT], mistakes);
    if random.chance(8) {
        spoil(random, &mut text);
    }
    let right = sample.file.len();
    let room = match random.below(20) {
        0..13 => right,
        13..17 => random.one(&[right + 1, right + 512, 12_288, 12_800]),
        _ => random.one(&[0, 1, right - 1, right - 512, 511, 512]),
    };
    Request::Read { text, room: generate::any_bytes(random, room) }
}

/// A print request: rooms of the text's length, longer ones and shorter ones.
pub fn print_request(random: &mut Random) -> Request {
    let (sample, program) = generate::sample_for_call(random, 25);
    let pieces = printer::pieces(&sample.nodes, sample.file[format::EDITION_AT]);
    let right = printer::laid_out(&pieces).len();
    let room = match random.below(20) {
        0..10 => right,
        10..16 => right + random.one(&[1, 2, 100, 4096]),
        16..18 => right - 1,
        _ => random.one(&[0, 1, 11, 12, right / 2]),
    };
    Request::Print { program, room: generate::any_bytes(random, room) }
}
