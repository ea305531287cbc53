//! The assembler: what it refuses, by line, and how its program is called.

use second::assemble::{places, whole};
use std::fs;
use std::io::Write;
use std::process::{Command, Output, Stdio};

/// The sentence of a text's mistake, with its line.
fn mistake(text: &str) -> String {
    let it = whole(text).expect_err("a mistake");
    format!("line {}: {}", it.line, it.says)
}

/// What the program does with these words and this input.
fn assemble(words: &[&str], input: &str) -> Output {
    let mut child = Command::new(env!("CARGO_BIN_EXE_assemble"))
        .args(words)
        .stdin(Stdio::piped())
        .stdout(Stdio::piped())
        .stderr(Stdio::piped())
        .spawn()
        .expect("it starts");
    // A program that refuses its words does not read.
    let _ = child.stdin.take().expect("it listens").write_all(input.as_bytes());
    child.wait_with_output().expect("it ends")
}

/// Its status, and what it says on standard error.
fn said(output: &Output) -> (Option<i32>, String) {
    (output.status.code(), String::from_utf8_lossy(&output.stderr).into_owned())
}

#[test]
fn a_field_that_is_left_out_is_told() {
    assert_eq!(mistake("a: const value=1\nb: add left=a"), "line 2: add lacks right");
    assert_eq!(mistake("input"), "line 1: input lacks channel");
    assert_eq!(mistake("const"), "line 1: const lacks value");
    assert_eq!(mistake("time\ndelay of=0"), "line 2: delay lacks value");
    assert_eq!(mistake("time\ntime\nlet def=0 body=1"), "line 3: let lacks type");
    assert_eq!(mistake("switch type=int first=0 second=1"), "line 1: switch lacks event");
    assert_eq!(mistake("take type=int of=0 none=1"), "line 1: take lacks some");
    assert_eq!(mistake("case event=0"), "line 1: case lacks to");
    assert_eq!(mistake("group body=0"), "line 1: group lacks branches");
    assert_eq!(mistake("; nothing\n\n"), "line 1: no node stands in this text");
    assert_eq!(mistake("records\n5"), "line 1: no node stands in this text");
}

#[test]
fn raw_fields_and_a_next_need_not_be_named() {
    for text in [
        "add a=0 b=1",
        "const type=3 b=1 word=7",
        "delay a=0 type=3",
        "branch type=int body=0",
        "case event=0 to=1",
        "time kind=18",
        "input kind=2",
        ".length 0",
    ] {
        whole(text).expect(text);
    }
}

#[test]
fn what_does_not_fit_is_told() {
    assert_eq!(mistake("input channel=1 channel=2"), "line 1: channel stands twice");
    assert_eq!(mistake("time\nrecords\n5 x3=1"), "line 3: no channel is called x3");
    assert_eq!(
        mistake("time\nrecords\n5 c0=4294967296"),
        "line 3: 4294967296 is no number of 32 bits"
    );
    assert_eq!(mistake("time\nrecords\n4294967296"), "line 3: 4294967296 is no number of 32 bits");
    assert_eq!(mistake("raw 256 0 0 0 0 0"), "line 1: 256 is no number of 8 bits");
    assert_eq!(mistake("raw 1 0 65536 0 0 0"), "line 1: 65536 is no number of 16 bits");
    assert_eq!(mistake("raw 1 0 0 0 0"), "line 1: raw takes kind, type, a, b, c and word");
    assert_eq!(mistake("const value=2147483648"), "line 1: 2147483648 is no value");
}

#[test]
fn nodes_and_records_are_found_by_line() {
    let text =
        "; head\n\na: time\n.edition 1\n  b: delay of=a value=0 ; end\nrecords\n\n5\n7 c0=1\n";
    assert_eq!(places(text), (vec![3, 5], vec![8, 9]));
    assert_eq!(places("time"), (vec![1], vec![]));
    let listed = assemble(&["--lines"], text);
    assert_eq!(listed.stdout, b"node 0 3\nnode 1 5\nrecord 0 8\nrecord 1 9\n");
}

#[test]
fn a_file_is_taken_by_name() {
    let by_name = assemble(&["samples/a.txt"], "");
    let text = fs::read_to_string("samples/a.txt").expect("the sample");
    assert_eq!(by_name.stdout, whole(&text).expect("a table"));
    assert_eq!(said(&by_name), (Some(0), String::new()));
    assert_eq!(assemble(&[], &text).stdout, by_name.stdout);
    assert_eq!(assemble(&["-"], &text).stdout, by_name.stdout);
}

#[test]
fn records_alone() {
    let alone = assemble(&["--records"], "; head\n5\n7 c0=1\n");
    let behind = whole("time\nrecords\n5\n7 c0=1\n").expect("a table");
    assert_eq!(alone.stdout, behind[512..]);
    let wrong = assemble(&["--records"], "5\n7 c9=1\n");
    assert_eq!(said(&wrong), (Some(1), "line 2: no channel is called c9\n".into()));
}

#[test]
fn a_text_of_the_text_form() {
    let right = whole("time").expect("a table");
    let typed = |option: &str, text: &str| assemble(&[option], text);
    assert_eq!(typed("--typed", "edition-one (time)").stdout, right);
    assert_eq!(typed("--places", "edition-one (delay 0 (time))").stdout, b"21\n12\n");
    let refused = typed("--typed", "edition-one (time");
    assert_eq!((refused.status.code(), &refused.stdout[..]), (Some(1), &b"REFUSED 21 17\n"[..]));
    let not_ready = "edition-one (let x int (ext x) (time))";
    assert_eq!(typed("--typed", not_ready).stdout, b"REFUSED 8 3\n");
    assert_eq!(typed("--unjudged", not_ready).stdout.len(), 512);
}

#[test]
fn blocks_are_damaged() {
    let file = std::env::temp_dir().join(format!("second-damage-{}", std::process::id()));
    fs::write(&file, whole("time\ninput channel=4").expect("a table")).expect("a file");
    let name = file.to_str().expect("a name");
    let changed = |text: &str| assemble(&["--damage", name], text);
    let wanted = whole("time\ninput channel=9").expect("a table");
    assert_eq!(changed("; channel 9\n.node 1 a=9").stdout, wanted);
    assert_eq!(changed(".length 511").stdout.len(), 511);
    assert_eq!(said(&changed(".node 42 a=9")).1, "line 1: that place is beyond the end\n");
    assert_eq!(said(&changed("time")).1, "line 1: no override is called time\n");
    fs::remove_file(&file).expect("it was there");
}

#[test]
fn what_fails_has_a_status_and_writes_nothing() {
    let wrong = assemble(&[], "time\nadd left=0");
    assert_eq!(said(&wrong), (Some(1), "line 2: add lacks right\n".into()));
    for words in [&["--version"][..], &["a", "b"], &["--lines", "a", "b"], &["-x"]] {
        let (status, says) = said(&assemble(words, "time"));
        assert_eq!(status, Some(2), "{words:?}");
        assert!(says.starts_with("usage: assemble "), "{says}");
    }
    let (status, says) = said(&assemble(&["samples/none.txt"], "time"));
    assert_eq!(status, Some(2));
    assert!(says.starts_with("assemble: samples/none.txt: "), "{says}");
    assert_eq!(assemble(&["--help"], "").status.code(), Some(0));
    assert!(wrong.stdout.is_empty());
}
