//! The assembler, the stream of requests and the generator's programs.

use second::generate;
use second::random::Random;
use second::request::{self, Request};
use second::{assemble, check, run};
use std::io::Write;
use std::process::{Command, Stdio};

/// What one of the programs prints for an input.
fn output_of(program: &str, words: &[&str], input: &[u8]) -> Vec<u8> {
    let mut child = Command::new(program)
        .args(words)
        .stdin(Stdio::piped())
        .stdout(Stdio::piped())
        .spawn()
        .expect("it starts");
    let mut pipe = child.stdin.take().expect("it listens");
    let input = input.to_vec();
    let writer = std::thread::spawn(move || pipe.write_all(&input));
    let output = child.wait_with_output().expect("it ends").stdout;
    let _ = writer.join().expect("the writer ends");
    output
}

const CALLS: &str = env!("CARGO_BIN_EXE_calls");
const GENERATE: &str = env!("CARGO_BIN_EXE_generate");

#[test]
fn every_sample_is_what_it_says() {
    // Each sample ends in what watchrun prints for it.
    let mut seen = 0;
    for entry in std::fs::read_dir("samples").expect("samples are there") {
        let path = entry.expect("an entry").path();
        let text = std::fs::read_to_string(&path).expect("it is text");
        let (source, expected) = text.split_once("; prints\n").expect("it says what it prints");
        let expected: String = expected.lines().map(|line| format!("{}\n", &line[2..])).collect();
        let input = output_of(env!("CARGO_BIN_EXE_assemble"), &[], source.as_bytes());
        let printed = output_of(env!("CARGO_BIN_EXE_watchrun"), &[], &input);
        assert_eq!(String::from_utf8(printed).expect("text"), expected, "{path:?}");
        seen += 1;
    }
    assert!(seen >= 4);
}

#[test]
fn calls_answers_one_request() {
    let program = assemble::program("time").expect("a table");
    let ask = |head: &str, rooms: &[&[u8]]| {
        let input = [format!("{head}\n").as_bytes(), &rooms.concat()].concat();
        String::from_utf8(output_of(CALLS, &[], &input)).expect("text")
    };
    assert_eq!(ask("check 512", &[&program]), "OK 1 0 2 3\n");
    assert_eq!(ask("check 0", &[]), "REFUSED 1 0 0\n");
    let started = ask("start 512 8", &[&program, &[1, 2, 3, 4, 5, 6, 7, 8]]);
    let sum = second::format::sum_of_checks(&program).to_le_bytes();
    let sum_hex = second::request::hex(&sum);
    assert_eq!(started, format!("OK\nffffffff{sum_hex}\n"));
    let start = [[255; 4], sum].concat();
    assert_eq!(ask("start 512 0", &[&program]), "REFUSED 9 0 0\n\n");
    let record = assemble::records("258").expect("a record");
    let one = ask("run 512 8 40 8", &[&program, &start, &record, &[9; 8]]);
    assert_eq!(one, format!("OK 1 2 65535\n02010000{sum_hex}\n0301000002010000\n"));
    let run = ask("run 512 8 0 0", &[&program, &start]);
    assert_eq!(run, format!("OK 0 0 65535\nffffffff{sum_hex}\n\n"));
    let gone = ask("step 512 8 40 8", &[&program, &start, &record, &[9; 8]]);
    assert_eq!(gone, "NO REQUEST\n");
    let bad = [record.clone(), vec![255; 40]].concat();
    let run = ask("run 512 8 80 16", &[&program, &start, &bad, &[9; 16]]);
    assert_eq!(
        run,
        format!("REFUSED 12 1 2 65535\n02010000{sum_hex}\n03010000020100000909090909090909\n")
    );
}

#[test]
fn calls_answers_the_requests_of_document_02() {
    let program = assemble::program("time").expect("a table");
    let two = assemble::program("time\ntime\nlet type=int def=0 body=1").expect("a table");
    let not = "x: var of=l\n d: ext of=x\n time\n l: let type=int def=d body=2";
    let not = assemble::program(not).expect("a table");
    let ask = |head: &str, rooms: &[&[u8]]| {
        let input = [format!("{head}\n").as_bytes(), &rooms.concat()].concat();
        String::from_utf8(output_of(CALLS, &[], &input)).expect("text")
    };
    let room = [9; 2016];
    let chain = format!("OK 3 2\n01000000{}\n", "ffff".repeat(1006));
    assert_eq!(ask("chain 512 2016", &[&not, &room]), chain);
    assert_eq!(ask("chain 512 2", &[&program, &[1, 2]]), "REFUSED 25 0 0\n0102\n");
    let sum = second::format::sum_of_checks(&program).to_le_bytes();
    let state = [[0, 0, 0, 128], sum].concat();
    let hex = second::request::hex(&sum);
    let mended = ask("mend 512 8 2", &[&program, &state, &[1, 2]]);
    assert_eq!(mended, format!("OK 1\nffffffff{hex}\nffff\n"));
    let mended = ask("mend 512 8 4", &[&program, &state, &[1, 2, 3, 4]]);
    assert_eq!(mended, format!("REFUSED 16 0 0\n00000080{hex}\n01020304\n"));
    let tidied = ask("tidy 512 513", &[&two, &[7; 513]]);
    assert_eq!(tidied, format!("OK 1 512\n{}07\n", second::request::hex(&program)));
    assert_eq!(ask("tidy 512 0", &[&two]), "REFUSED 19 0 0\n\n");
    assert_eq!(ask("pair 512 512 2", &[&two, &program, &[1, 0]]), "OK\n");
    assert_eq!(ask("pair 512 512 2", &[&two, &program, &[0, 0]]), "REFUSED 28 0 0\n");
    assert_eq!(ask("pair 512 512 0", &[&two, &program]), "REFUSED 27 0 0\n");
    assert_eq!(ask("pair 512 512 2", &[&two, &not, &[0, 0]]), "REFUSED 40 3 0\n");
    for odd in
        ["chain 0 1", "mend 0 0 1", "pair 0 0 3", "mend 0 0", "tidy 0", "pair 0 0", "tidy 0 0 0"]
    {
        assert_eq!(ask(odd, &[&[1, 2, 3]]), "NO REQUEST\n");
    }
}

#[test]
fn serving_a_stream_is_answering_one_by_one() {
    let stream = output_of(GENERATE, &["requests", "9", "150"], &[]);
    let served = output_of(CALLS, &["serve"], &stream);
    let mut input = stream.as_slice();
    let mut expected = String::new();
    let mut again = Vec::new();
    while let Some(request) = Request::read(&mut input) {
        request.write(&mut again).expect("memory takes all");
        expected += &request.answer().text();
    }
    assert_eq!(String::from_utf8(served).expect("text"), expected);
    assert_eq!(again, stream);
    assert_eq!(request::tally(&mut stream.as_slice()).counts.values().sum::<usize>(), 150);
}

#[test]
fn seeds_decide() {
    let stream = |seed| output_of(GENERATE, &["checks", seed, "40"], &[]);
    assert_eq!(stream("3"), stream("3"));
    assert_ne!(stream("3"), stream("4"));
}

#[test]
fn long_requests_go_far() {
    let mut random = Random::new(13);
    let (mut accepted, mut refused) = (0, 0);
    for _ in 0..60 {
        let request = generate::long_request(&mut random);
        let (name, rooms) = request.parts();
        assert_eq!((name, rooms[2].len() / 40), ("run", rooms[3].len() / 8));
        assert!((17 * 40..=4096 * 40).contains(&rooms[2].len()));
        match request.answer().code() {
            0 => accepted += 1,
            12 | 13 => refused += 1,
            code => panic!("code {code}"),
        }
    }
    assert!(accepted >= 30 && refused >= 5, "{accepted} {refused}");
}

#[test]
fn watch_inputs_are_files() {
    let mut random = Random::new(11);
    let mut words = [0usize; 3];
    for _ in 0..200 {
        let mut output = Vec::new();
        let input = generate::watch_input(&mut random);
        second::print::watch(input.as_slice(), &mut output).expect("memory takes all");
        let text = String::from_utf8(output).expect("text");
        let last = text.lines().last().expect("a line");
        words[usize::from(last.starts_with("REFUSED"))] += 1;
        words[2] += usize::from(text.starts_with("OK") && last.starts_with("REFUSED"));
    }
    assert!(words.iter().all(|&count| count > 10), "{words:?}");
}

#[test]
fn watching_is_running() {
    let mut random = Random::new(12);
    for _ in 0..150 {
        let count = random.between(1, 80);
        let sample = generate::accepted(&mut random, count);
        let steps = random.below(12);
        let records = generate::records(&mut random, steps, 0);
        let mut state = generate::start_state(&sample);
        let mut room = vec![0; steps * 8];
        let done = run(&sample.file, &mut state, &records, &mut room).expect("all well-formed");
        let mut output = Vec::new();
        let input = [sample.file, records].concat();
        second::print::watch(input.as_slice(), &mut output).expect("memory takes all");
        let text = String::from_utf8(output).expect("text");
        assert!(text.ends_with(&format!("END {} {}\n", done.steps, done.work)));
        assert_eq!(text.lines().count(), steps + 2);
    }
}

#[test]
fn the_assembler_tells_mistakes_by_line() {
    let mistake = |text: &str| assemble::whole(text).expect_err("a mistake");
    assert_eq!(mistake("time\n\n no of=1").line, 3);
    assert_eq!(mistake("time\n ext of=nobody").says, "no node is called nobody");
    assert_eq!(mistake("x: time\n x: time").line, 2);
    assert_eq!(mistake("ext for=1").says, "no field is called for here");
    assert_eq!(mistake("const value=five").line, 1);
    assert_eq!(mistake("time\n records\n 5 c8=1").line, 3);
    assert_eq!(mistake("time\n .check 9 1").line, 2);
}

#[test]
fn raw_overrides() {
    let code = |text: &str| check(&assemble::program(text).expect("a table")).map_err(|it| it.code);
    assert_eq!(code("time\n.check 0 5"), Err(2));
    assert_eq!(code("time\n.byte 510 9"), Err(2));
    assert_eq!(code("time\n.byte 510 9\n.seal"), code("time"));
    assert_eq!(code("time\n.number 0 1"), Err(3));
    assert_eq!(code("time\n.length 511"), Err(1));
    assert_eq!(code("raw 2 0 0 0 0 7"), Err(4));
    assert_eq!(code("time b=4"), Err(4));
    assert_eq!(code("time kind=1 a=7"), code("input channel=7"));
}
