//! Texts that no one means: bytes at random, nesting without end, nodes to the last and one more, words
//! and comments of any length, names by the thousand.

use crate::random::Random;

/// A text of some sort, none of them a table that a person would type; most of the deep ones are tables
/// all the same.
pub fn text(random: &mut Random) -> Vec<u8> {
    match random.below(8) {
        0 => bytes(random),
        1 => begun(random),
        2 => deep(random),
        3 => nested(random),
        4 => long_word(random),
        5 => many_names(random),
        6 => many_branches(random),
        _ => forward(random),
    }
}

/// Bytes of any sort, or such as a text has.
fn bytes(random: &mut Random) -> Vec<u8> {
    let count = random.one(&[0, 1, 2, 12, 100, 1000]);
    let near = random.chance(50);
    let any = |random: &mut Random| match near {
        true => random.one(b"()()();; \n\r\tedition-one(time)0123456789abcx-"),
        false => random.draw() as u8,
    };
    (0..count).map(|_| any(random)).collect()
}

/// An edition, and then words of a text in any order.
fn begun(random: &mut Random) -> Vec<u8> {
    const WORDS: [&str; 16] = [
        "(",
        ")",
        "(ext",
        "(let",
        "(branch",
        "(case",
        "(group",
        "(until",
        "(delay",
        "x",
        "y",
        "int",
        "1",
        "(add",
        "(some",
        "(input 4)",
    ];
    let mut text = random.one(&["edition-one ", "edition-two "]).to_string();
    for _ in 0..random.one(&[1usize, 3, 10, 60, 3000]) {
        text.push_str(random.one(&WORDS));
        text.push(' ');
    }
    text.into_bytes()
}

/// How many nodes: about as many as a text may have.
fn full(random: &mut Random) -> usize {
    random.one(&[1, 2, 500, 1005, 1006, 1007, 1008, 1009, 1010, 3000])
}

/// A form that stands in itself: what stands before it, how it opens, the last inside, the nodes of one turn
/// and those of the rest.
type Turn = (&'static str, &'static str, &'static str, usize, usize);

const TURNS: [Turn; 5] = [
    ("(ext ", "(not ", "true", 1, 2),
    ("(ext ", "(just ", "1", 1, 2),
    ("", "(delay 0 ", "(time)", 1, 1),
    ("", "(let x int (time) ", "(time)", 2, 1),
    ("", "(switch x int (ext 1) (input 4) ", "(ext 1)", 4, 2),
];

/// About so many nodes one below the other.
fn deep(random: &mut Random) -> Vec<u8> {
    let nodes = full(random);
    let (head, open, last, each, rest) = random.one(&TURNS);
    let turns = nodes.saturating_sub(rest) / each;
    let mut text = format!("edition-one\n{head}");
    for turn in 0..turns {
        text.push_str(&open.replace(" x ", &format!(" x{turn} ")));
    }
    text.push_str(last);
    text.push_str(&")".repeat(turns + usize::from(!head.is_empty())));
    cut(random, text.into_bytes())
}

/// Parentheses, or words behind them, without end.
fn nested(random: &mut Random) -> Vec<u8> {
    let open = random.one(&[
        "(", "(ext ", "(ext (", "((", "(until ", "(group ", "(add ", "(if 1 ", ")", "(some ",
    ]);
    let times = random.one(&[1, 10, 1008, 1009, 5000]);
    [b"edition-two ".to_vec(), open.repeat(times).into_bytes()].concat()
}

/// A word of many bytes, or a comment, or white space, somewhere in a small text, or as its only name.
fn long_word(random: &mut Random) -> Vec<u8> {
    let count = random.one(&[30, 31, 32, 33, 255, 256, 257, 65_535, 65_536, 70_000]);
    let long = vec![random.one(b"a0-;( )\n"); count];
    let named = random.chance(20);
    let name = if named { &long[..] } else { b"x" };
    let parts =
        [&b"edition-one"[..], b" ", b"(let ", name, b" int (ext ", b"1", b") (ext ", name, b"))"];
    let at = random.below(parts.len() + 1);
    let inside = if named { &b" "[..] } else { &long[..] };
    [&parts[..at].concat(), inside, &parts[at..].concat()].concat()
}

/// As many names as there can be, each used once behind; now and then one of them twice, or unknown.
fn many_names(random: &mut Random) -> Vec<u8> {
    let lets = random.one(&[10, 300, 335]);
    let (bad, what) = (random.below(lets), random.below(6));
    let mut text = String::from("edition-one\n");
    for at in 0..lets {
        let name = if at == bad && what == 0 { 0 } else { at };
        text.push_str(&format!("(let name-{name} int (ext 1)\n"));
    }
    let used = random.below(lets);
    let used = if what == 1 { lets } else { used };
    text.push_str(&format!("(ext name-{used})"));
    text.push_str(&")".repeat(lets));
    text.into_bytes()
}

/// More branches' names than nodes, behind the last parenthesis or the first fault; a case before goes to
/// one of them, or to none.
fn many_branches(random: &mut Random) -> Vec<u8> {
    let count: usize = random.one(&[1, 10, 1007, 1008, 1009, 2016, 2017, 5000]);
    let to = random.one(&[0, 1, count / 2, count.saturating_sub(1), count]);
    let mut text = format!("edition-one (group (until (ext 1) (case (input 4) b{to}))\n");
    let close = random.one(&["", " x int (ext 1))"]);
    for at in 0..count {
        text.push_str(&format!("(branch b{at}{close}\n"));
    }
    text.push_str(random.one(&["", ")", "; end"]));
    text.into_bytes()
}

/// Branches that go forward and back to each other, at most all nodes of them.
fn forward(random: &mut Random) -> Vec<u8> {
    let count = random.one(&[1, 2, 30, 200, 201, 202]);
    let mut text = String::from("edition-two (group (until (ext 0) (case (input 4) b0))");
    for at in 0..count {
        let unknown = usize::from(random.chance(1));
        let to = random.below(count + unknown);
        let space = random.one(&[" ", "\r\n", "\t; (branch none\r\n", " ;\n"]);
        text.push_str(&format!(
            "(branch{space}b{at} v{at} int (until (ext v{at}) (case (input 5) b{to})))\n"
        ));
    }
    cut(random, (text + ")").into_bytes())
}

/// Now and then without its end.
fn cut(random: &mut Random, mut text: Vec<u8>) -> Vec<u8> {
    if random.chance(10) {
        text.truncate(random.below(text.len()));
    }
    text
}
