//! The text form: the samples, each code at its word, and what holds of every text and every program.

mod grammar;

use second::generate;
use second::printer;
use second::random::Random;
use second::reader::{self, Table};
use second::refusal::Refusal;
use second::request::{Answer, Request};
use second::typist;
use second::words;
use second::{assemble, check, format, run, start};

/// The program of a text.
fn program(text: &[u8]) -> Vec<u8> {
    let mut room = [7; 12_300];
    let Table { length, .. } = reader::read(text, &mut room).expect("a right text");
    assert!(room[length..].iter().all(|&byte| byte == 7));
    room[..length].to_vec()
}

/// The text of a program.
fn text(program: &[u8]) -> String {
    let mut room = vec![7; 110_000];
    let length = printer::print(program, &mut room).expect("an accepted program");
    assert!(room[length..].iter().all(|&byte| byte == 7));
    String::from_utf8(room[..length].to_vec()).expect("plain text")
}

/// Code and place of a refused text, with a room that is long enough.
fn fault(text: &[u8]) -> (u32, u32) {
    let mut room = [7; 12_288];
    let Refusal { code, place, work, .. } = reader::read(text, &mut room).expect_err("a refusal");
    assert_eq!((room, work), ([7; 12_288], 0));
    (code, place)
}

fn sample(name: &str) -> String {
    std::fs::read_to_string(format!("tests/text/samples/{name}.txt")).expect("it is there")
}

#[test]
fn samples_read_and_print() {
    for name in ["reading-a", "reading-d", "reading-e", "reading-f", "reading-g", "reading-i"] {
        let written = sample(name);
        assert_eq!(text(&program(written.as_bytes())), written, "{name}");
    }
    let typed = program(sample("crossing.typed").as_bytes());
    assert_eq!(check(&typed).map(|it| it.nodes), Ok(131));
    assert_eq!(text(&typed), sample("crossing.printed"));
    assert_eq!(program(sample("crossing.printed").as_bytes()), typed);
}

#[test]
fn readings_are_the_assemblers() {
    for (name, written) in [("a", "reading-a"), ("d", "reading-d"), ("e", "reading-e")] {
        let source = std::fs::read_to_string(format!("samples/{name}.txt")).expect("it is there");
        let (table, _) = source.split_once("records").expect("records behind the table");
        let table = assemble::program(table).expect("a table");
        assert_eq!(text(&table), sample(written));
    }
}

#[test]
fn a_divide_by_its_text() {
    for (name, value) in
        [("reading-f", [7, 1, 0, 0, 252, 255, 255, 255]), ("reading-g", [7, 0, 0, 0, 0, 0, 0, 0])]
    {
        let program = program(sample(name).as_bytes());
        let (mut state, mut output) = ([0; 8], [0; 8]);
        start(&program, &mut state).expect("accepted");
        run(&program, &mut state, &[0; 40], &mut output).expect("a record");
        assert_eq!(output, value);
    }
}

/// A text with a mark before the word that does not fit: its code and place.
fn marked(code: u32, text: &str) {
    let place = text.find('@').expect("a mark") as u32;
    let whole = text.replace('@', "");
    assert_eq!(fault(whole.as_bytes()), (code, place), "{text}");
}

#[test]
fn words_that_do_not_fit() {
    for text in [
        "@",
        "  @",
        "; edition-one\n@",
        "@(time)",
        "@edition-three (time)",
        "@Edition-one (time)",
        "edition-one@",
        "edition-one @time",
        "edition-one @)",
        "edition-one (@time1)",
        "edition-one (@)",
        "edition-one (@(time))",
        "edition-one (@add 1 1)",
        "edition-one (@5)",
        "edition-one (time @x)",
        "edition-one (time@",
        "edition-one (time) @)",
        "edition-one (time) @time",
        "edition-one (input @x)",
        "edition-one (input @)",
        "edition-one (input 0 @0)",
        "edition-one (input @(some 0))",
        "edition-one (ext @)",
        "edition-one (ext @add 1 1)",
        "edition-one (ext (@time))",
        "edition-one (ext @int)",
        "edition-one (ext @edition-two)",
        "edition-one (ext @some)",
        "edition-one (ext (some @x))",
        "edition-one (ext (some @(some 1)))",
        "edition-one (ext (some 1 @1))",
        "edition-one (ext (none @maybe-int))",
        "edition-one (ext (none @5))",
        "edition-one (ext @-)",
        "edition-one (ext @--1)",
        "edition-one (ext @1-)",
        "edition-one (ext @+1)",
        "edition-one (ext @99999999999x)",
        "edition-one (ext @\u{e9})",
        "edition-one (delay (@time) (time))",
        "edition-one (delay @x (time))",
        "edition-one (let @5 int (time) (time))",
        "edition-one (let @time int (time) (time))",
        "edition-one (let @true int (time) (time))",
        "edition-one (let x @integer (time) (time))",
        "edition-one (let x int (time)@)",
        "edition-one (let @x_y int (time) (time))",
        "edition-one (let @-x int (time) (time))",
        "edition-one (let @abcdefghijklmnopqrstuvwxyz012345 int (time) (time))",
        "edition-one (switch x @maybe-int (time) (input 4) (time))",
        "edition-one (group (time) @)",
        "edition-one (group (time) (@case (input 4) k))",
        "edition-one (group (time) @branch)",
        "edition-one (group (until (time) @))",
        "edition-one (group (time) (branch k x int (time)) @x)",
        "edition-one (group (time) (branch k x @maybe-int (time)))",
        "edition-one (group (until (time) (case (input 4) @time)) (branch k x int (time)))",
        "edition-one (group (until (time) (case (input 4) @)) (branch k x int (time)))",
        "edition-one (ext (take x int 1 2 3 @4))",
        "edition-one (ext (if true 1 @))",
        "edition-one (@\x0ctime)",
        "edition-one (@time\0)",
        "edition-one (@input\u{a0}0)",
    ] {
        marked(21, text);
    }
    let longest = "edition-one (let abcdefghijklmnopqrstuvwxyz01234 int (time) (time))";
    assert_eq!(format::read(&program(longest.as_bytes())).map(|it| it.len()), Ok(3));
}

#[test]
fn names_unknown_or_bound_twice() {
    for text in [
        "edition-one (ext @x)", "edition-one (let x int (ext @y) (ext x))",
        "edition-one (let x int (time) (let @x int (time) (time)))",
        "edition-one (let x int (ext (take @x int (none int) 1 2)) (time))",
        "edition-one (group (until (time) (case (input 4) @k)) (branch K x int (time)))",
        "edition-one (group (time) (branch k @k int (time)))",
        "edition-one (group (time) (branch k x int (ext @k)))",
        "edition-one (let k int (time) (group (time) (branch @k x int (time))))",
        "edition-one (let x int (time) (group (until (time) (case (input 4) @x)) (branch k y int (time))))",
        "edition-one (group (time) (branch k x int (time)) (branch @k y int (time)))",
        "edition-one (group (until (time) (case (input 4) @nowhere)) (branch k x int (time",
        "edition-one (group (until (time) (case (input 4) @k)) ; (branch k",
        "edition-one (group (until (time) (case (input 4) @k)) (branchk (branch x k",
        // A use before its binder.
        "edition-one (let x int (ext @y) (let y int (time) (ext y)))",
    ] {
        marked(22, text);
    }
    // A target is known by words alone, also behind the first fault, with white space and comments inside.
    marked(21, "edition-one (group (until (time) (case (input 4) k)) (@( (branch k");
    marked(21, "edition-one (group (until (time) (case (input 4) k)) (@) ( ;\n branch ;\r k");
    // A name bound before, but not above, is the check's.
    let beside = "edition-one (let x int (let y int (time) (ext y)) (ext y))";
    assert_eq!(fault(beside.as_bytes()), (6, 4));
}

#[test]
fn numbers_out_of_range() {
    for text in [
        "edition-one (input @8)",
        "edition-one (input @-1)",
        "edition-one (input @99999999999999999999)",
        "edition-one (ext @2147483648)",
        "edition-one (ext @-2147483649)",
        "edition-one (ext (some @2147483648))",
        "edition-one (delay @-9999999999 (time))",
        "edition-one (ext @000000000000000000000000000002147483648)",
    ] {
        marked(23, text);
    }
    for (typed, printed) in [
        ("(input -0)", "(input 0)"),
        ("(input 0000000000000000000000000000007)", "(input 7)"),
        ("(ext -2147483648)", "(ext -2147483648)"),
        ("(ext (some 02147483647))", "(ext (some 2147483647))"),
        ("(ext -00)", "(ext 0)"),
    ] {
        let whole = format!("edition-one {typed}");
        assert_eq!(text(&program(whole.as_bytes())), format!("edition-one\n{printed}\n"));
    }
}

#[test]
fn editions() {
    let out = |edition: &str| {
        let inner = "(group (until (time) (case (input 4) out)) (branch in x int (time)))";
        format!("{edition} (group {inner} (branch out y int (time)))")
    };
    assert_eq!(fault(out("edition-one").as_bytes()), (6, 2));
    let two = program(out("edition-two").as_bytes());
    assert_eq!(two[format::EDITION_AT], 1);
    assert!(text(&two).starts_with("edition-two\n(group\n  (group\n    (until (time)\n"));
}

#[test]
fn lines_of_their_own() {
    let typed = "edition-one (group (until (delay 1 (time)) (case (delay (none int) (input 4)) k))
        (branch k x int (switch y bool (delay 0 (input 0)) (ext (none bool)) (ext x))))";
    let printed = "edition-one
(group
  (until
    (delay 1 (time))
    (case
      (delay (none int) (input 4)) k13))
  (branch k13 x13 int
    (switch x12 bool
      (delay 0 (input 0))
      (ext (none bool))
      (ext x13))))
";
    assert_eq!(text(&program(typed.as_bytes())), printed);
    let deep = format!("edition-one {}(time){}", "(delay 7 ".repeat(60), ")".repeat(60));
    let printed = text(&program(deep.as_bytes()));
    let lines: Vec<&str> = printed.lines().collect();
    assert_eq!(lines.len(), 61);
    for (level, line) in lines[1..].iter().enumerate() {
        assert_eq!(line.len() - line.trim_start().len(), 2 * level.min(40));
    }
}

/// A text of so many nodes, one below the other.
fn nested(nodes: usize) -> String {
    let nots = nodes - 2;
    format!("edition-one (ext {}true{})", "(not ".repeat(nots), ")".repeat(nots))
}

#[test]
fn a_thousand_and_eight_nodes_and_one_more() {
    let full = program(nested(1008).as_bytes());
    assert_eq!((full.len(), check(&full).map(|it| it.nodes)), (12_288, Ok(1008)));
    assert_eq!(text(&full), nested(1008).replacen(' ', "\n", 1) + "\n");
    let more = nested(1009);
    // The constant is the 1,009th to begin: 21 there, also where it is unknown or out of range.
    let last = more.find("true").unwrap() as u32;
    assert_eq!(fault(more.as_bytes()), (21, last));
    for word in ["x", "99999999999", "(some 99999999999)", "(", "", ")"] {
        assert_eq!(fault(more.replace("true", word).as_bytes()), (21, last));
    }
    let most = nested(3000);
    let place = most.match_indices('(').nth(1008).unwrap().0 as u32;
    assert_eq!(fault(most.as_bytes()), (21, place));
    // As many nodes before it, the next branch does not fit at its parenthesis.
    let one = format!("edition-one (group {} (branch k x int (ext true))", &nested(1001)[12..]);
    let two = one.clone() + "(branch l y int (ext true))";
    for (open, nodes) in [(&one, 1005), (&two, 1008)] {
        let whole = program(format!("{open})").as_bytes());
        assert_eq!(check(&whole).map(|it| it.nodes), Ok(nodes));
    }
    assert_eq!(fault(format!("{two}(x").as_bytes()), (21, two.len() as u32));
    assert_eq!(fault(format!("{two} x").as_bytes()), (21, two.len() as u32 + 1));
}

#[test]
fn too_long_a_result_before_the_checks_codes() {
    let not_ready = "edition-one (let x int (ext x) (time))";
    let mut room = [7; 511];
    let short = |text: &str, room: &mut [u8]| reader::read(text.as_bytes(), room).unwrap_err();
    assert_eq!(short(not_ready, &mut room), Refusal::at(24, 0));
    assert_eq!(short("edition-one (ext x)", &mut []), Refusal::at(22, 17));
    assert_eq!(fault(not_ready.as_bytes()), (8, 3));
    assert_eq!(fault(b"edition-one (ext (not 5))"), (7, 1));
    let mut program = program(b"edition-one (time)");
    let mut room = [7; 20];
    for length in [0, 12, 18] {
        assert_eq!(printer::print(&program, &mut room[..length]), Err(Refusal::at(24, 0)));
    }
    assert_eq!(room, [7; 20]);
    assert_eq!(printer::print(&program, &mut room), Ok(19));
    assert_eq!(&room, b"edition-one\n(time)\n\x07");
    program[4] = 1;
    assert_eq!(printer::print(&program, &mut []), Err(Refusal::at(2, 0)));
}

#[test]
fn printed_and_read_again_is_the_program_numbered_children_first() {
    let mut random = Random::new(71);
    for turn in 0..1200 {
        let count = if turn % 100 == 0 { 1008 } else { random.between(1, 120) };
        let sample = generate::accepted(&mut random, count);
        let printed = text(&sample.file);
        let again = program(printed.as_bytes());
        let mut order = Vec::new();
        let none = vec![false; count];
        second::number::children_first(&sample.nodes, &none, count - 1, &mut order);
        let numbered = second::number::in_order(&sample.nodes, &order);
        assert_eq!(again[format::EDITION_AT], sample.file[format::EDITION_AT]);
        assert_eq!(format::read(&again), Ok(numbered));
        assert_eq!(text(&again), printed);
        assert_eq!(program(text(&again).as_bytes()), again);
        let lines: Vec<&str> = printed.lines().collect();
        assert!(lines
            .iter()
            .all(|line| !line.ends_with(' ') && !line.contains("  (") || line.starts_with(' ')));
    }
}

#[test]
fn typed_in_any_way_it_is_the_same_program() {
    let mut random = Random::new(72);
    for _ in 0..1500 {
        let count = random.between(1, 90);
        let sample = generate::accepted(&mut random, count);
        let edition = sample.file[format::EDITION_AT];
        let typed = typist::typed(&mut random, &sample.nodes, edition, 0);
        assert_eq!(program(&typed), program(text(&sample.file).as_bytes()));
    }
}

#[test]
fn the_first_fault_is_the_grammars() {
    let mut random = Random::new(73);
    let mut seen = [0usize; 4];
    while seen.iter().sum::<usize>() < 2500 {
        let request = typist::read_request(&mut random);
        let Request::Read { text, room } = request.clone() else { panic!("a text") };
        if words::words(&text).len() > 1500 {
            continue;
        }
        let Answer::Read(answer, after) = request.answer() else { panic!("a text") };
        if answer.is_err() {
            assert_eq!(room, after);
        }
        let answered = answer.err().filter(|it| (21..24).contains(&it.code));
        let answered = answered.map(|it| (it.code, it.place as usize));
        assert_eq!(answered, grammar::first_fault(&text), "{}", String::from_utf8_lossy(&text));
        seen[answered.map_or(0, |it| it.0 as usize - 20)] += 1;
    }
    assert!(seen.iter().all(|&count| count > 40), "{seen:?}");
}

#[test]
fn what_stands_behind_a_fault_does_not_matter() {
    let mut random = Random::new(74);
    let mut tried = 0;
    while tried < 1500 {
        let Request::Read { text, .. } = typist::read_request(&mut random) else {
            panic!("a text")
        };
        let answer = reader::read(&text, &mut [7; 12_288]);
        let Some(refusal) = answer.err().filter(|it| (21..24).contains(&it.code)) else { continue };
        // Cut behind the word, with the branches that the text has anywhere behind it in another way.
        let all = words::words(&text);
        let Some(word) = all.iter().find(|word| word.at == refusal.place as usize) else {
            continue;
        };
        let mut other = text[..word.at + word.bytes.len()].to_vec();
        for three in all.windows(3).filter(|it| it[0].bytes == b"(" && it[1].bytes == b"branch") {
            other.extend([b" ) (\nbranch ", three[2].bytes].concat());
        }
        let again = reader::read(&other, &mut [7; 12_288]);
        assert_eq!(again, Err(refusal));
        tried += 1;
    }
}
