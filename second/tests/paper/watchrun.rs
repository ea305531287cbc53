//! What watchrun prints, and points 25 to 27 of READINGS.md.

use crate::tables::*;
use second::print;
use std::io::{BufRead, BufReader, Write};
use std::process::{Command, Stdio};

/// What is printed for an input.
fn watched(input: &[u8]) -> String {
    let mut output = Vec::new();
    print::watch(input, &mut output).expect("memory takes all");
    String::from_utf8(output).expect("it prints text")
}

/// What is printed for a table and records.
fn watched_text(table_text: &str, record_text: &str) -> String {
    let mut input = table(table_text);
    input.extend(records(record_text));
    watched(&input)
}

const SAMPLE: &str = "OK 8 1 13 int\n0 0 13\n100 1 13\n100 2 13\nEND 3 39\n";

#[test]
fn sample_of_case_a() {
    assert_eq!(watched_text(&counter_from(0), "0\n100\n100"), SAMPLE);
}

#[test]
fn point_27_the_program_itself() {
    let mut input = table(&counter_from(0));
    input.extend(records("0\n100\n100"));
    let mut child = Command::new(env!("CARGO_BIN_EXE_watchrun"))
        .stdin(Stdio::piped())
        .stdout(Stdio::piped())
        .stderr(Stdio::piped())
        .spawn()
        .expect("it starts");
    child.stdin.take().expect("it listens").write_all(&input).expect("it takes all");
    let output = child.wait_with_output().expect("it ends");
    assert_eq!(String::from_utf8(output.stdout).expect("text"), SAMPLE);
    assert!(output.stderr.is_empty());
}

#[test]
fn each_line_is_printed_as_soon_as_its_step_is_done() {
    let mut child = Command::new(env!("CARGO_BIN_EXE_watchrun"))
        .stdin(Stdio::piped())
        .stdout(Stdio::piped())
        .spawn()
        .expect("it starts");
    let mut input = child.stdin.take().expect("it listens");
    let mut lines = BufReader::new(child.stdout.take().expect("it prints")).lines();
    let mut say =
        |bytes: &[u8]| input.write_all(bytes).and_then(|()| input.flush()).expect("it takes all");
    let mut next = || lines.next().expect("a line").expect("text");
    say(&table("time"));
    assert_eq!(next(), "OK 1 0 2 int");
    for time in ["5", "6"] {
        say(&records(time));
        assert_eq!(next(), format!("{time} {time} 2"));
    }
    drop(input);
    assert_eq!(next(), "END 2 4");
    child.wait().expect("it ends");
}

#[test]
fn types_and_values() {
    let shown = [
        ("unit", "unit", "unit"),
        ("true", "bool", "true"),
        ("false", "bool", "false"),
        ("-5", "int", "-5"),
        ("none(int)", "maybe int", "none"),
        ("some(5)", "maybe int", "some 5"),
        ("some(unit)", "maybe unit", "some unit"),
        ("none(bool)", "maybe bool", "none"),
        ("some(true)", "maybe bool", "some true"),
        ("some(-2147483648)", "maybe int", "some -2147483648"),
    ];
    for (value, ty, words) in shown {
        let text = format!("c: const value={value}\n ext of=c");
        assert_eq!(watched_text(&text, "7"), format!("OK 2 0 3 {ty}\n7 {words} 3\nEND 1 3\n"));
    }
}

#[test]
fn point_25_parts_of_a_program() {
    let block = table("time");
    assert_eq!(watched(&[]), "REFUSED 1 0\n");
    assert_eq!(watched(&block[..1]), "REFUSED 1 0\n");
    assert_eq!(watched(&block[..511]), "REFUSED 1 0\n");
    let mut two = String::from("input channel=0\n");
    (0..49).for_each(|below| two += &format!("delay of={below} value=0\n"));
    let two = table(&two);
    assert_eq!(watched(&two), "OK 50 49 100 int\nEND 0 0\n");
    assert_eq!(watched(&two[..512]), "REFUSED 3 0\n");
    assert_eq!(watched(&two[..1000]), "REFUSED 1 0\n");
    let mut wrong = two[..512].to_vec();
    wrong[508] ^= 1;
    assert_eq!(watched(&wrong), "REFUSED 2 0\n");
    // The count is used for reading even if the check is wrong.
    let mut wrong = two.clone();
    wrong[100] ^= 1;
    assert_eq!(watched(&wrong), "REFUSED 2 0\n");
    assert_eq!(watched(&wrong[..1000]), "REFUSED 1 0\n");
    let mut wrong = two.clone();
    wrong[600] ^= 1;
    assert_eq!(watched(&wrong), "REFUSED 2 1\n");
}

#[test]
fn point_25_counts_out_of_range_take_one_block() {
    for count in [0, 25, 256, 65535] {
        let text = format!("time\n.count 0 {count}");
        assert_eq!(watched_text(&text, "0"), "REFUSED 3 0\n", "{count}");
    }
}

#[test]
fn refused_programs_print_one_line() {
    assert_eq!(watched_text("time\n const value=1", "0"), "REFUSED 5 0\n");
    assert_eq!(watched_text("time\n raw 0 0 0 0 0 0\n time", "0"), "REFUSED 4 2\n");
}

#[test]
fn point_26_record_by_record() {
    assert_eq!(watched_text("time", ""), "OK 1 0 2 int\nEND 0 0\n");
    let lines = "OK 1 0 2 int\n5 5 2\n7 7 2\n";
    assert_eq!(watched_text("time", "5\n7\n8 flags=16\n9"), format!("{lines}REFUSED 12 2\n"));
    assert_eq!(watched_text("time", "5\n7\n6\n9"), format!("{lines}REFUSED 13 2\n"));
    let mut input = table("time");
    input.extend(records("5\n7\n8"));
    input.pop();
    assert_eq!(watched(&input), format!("{lines}REFUSED 10 0\n"));
    input.truncate(512 + 81);
    assert_eq!(watched(&input), format!("{lines}REFUSED 10 0\n"));
}

#[test]
fn point_26_a_record_too_many() {
    let mut input = table("time");
    input.extend(vec![0; 4096 * 40]);
    let all = watched(&input);
    assert!(all.ends_with("0 0 2\nEND 4096 8192\n"));
    assert_eq!(all.lines().count(), 4098);
    for tail in [vec![0; 40], vec![255; 40], vec![255; 3]] {
        let longer = [input.clone(), tail].concat();
        let all = watched(&longer);
        assert!(all.ends_with("0 0 2\nREFUSED 10 0\n"));
        assert_eq!(all.lines().count(), 4098);
    }
}
