//! When a number wrapped: which operations count, which evaluations, and which step a run answers.

use second::assemble;
use second::generate;
use second::random::Random;
use second::{check, run, start, Done, Refusal};

/// The first wrapped step of a run from start over records of these times.
fn first_wrapped(text: &str, times: &[u32]) -> u32 {
    let program = assemble::program(text).expect("a table");
    let mut state = vec![0; 8 + 8 * check(&program).expect("accepted").cells];
    start(&program, &mut state).expect("its length is right");
    let records: String = times.iter().map(|time| format!("{time}\n")).collect();
    let records = assemble::records(&records).expect("records");
    let mut output = vec![0; 8 * times.len()];
    run(&program, &mut state, &records, &mut output).expect("in order").wrapped
}

/// Whether an operation of two ints wraps.
fn wraps(word: &str, left: i64, right: i64) -> bool {
    let text = format!("const value={left}\nconst value={right}\n{word} left=0 right=1\next of=2");
    match first_wrapped(&text, &[0]) {
        0 => true,
        65535 => false,
        step => panic!("step {step}"),
    }
}

#[test]
fn operations_that_leave_the_range() {
    for (word, left, right) in [
        ("add", 2147483647, 1),
        ("add", -2147483648, -1),
        ("sub", -2147483648, 1),
        ("sub", 0, -2147483648),
        ("mul", 65536, 32768),
        ("mul", -2147483648, -1),
        ("div", -2147483648, -1),
    ] {
        assert!(wraps(word, left, right), "{word} {left} {right}");
    }
    for (word, left, right) in [
        ("add", -1, -1),
        ("add", 2147483647, -2147483648),
        ("sub", 3, 5),
        ("mul", -65536, 32768),
        ("mul", 46340, 46340),
        ("div", -7, 2),
        ("div", 5, 0),
        ("div", -2147483648, 1),
        ("less", -2147483648, 2147483647),
        ("equal", 2147483647, -1),
    ] {
        assert!(!wraps(word, left, right), "{word} {left} {right}");
    }
}

const SUM: &str = "const value=2147483647\nconst value=1\nadd left=0 right=1\n";

#[test]
fn what_is_evaluated_counts() {
    // The taken arm alone.
    for (truth, step) in [("true", 0), ("false", 65535)] {
        let text =
            format!("{SUM}const value=5\nconst value={truth}\nif when=4 then=2 else=3\next of=5");
        assert_eq!(first_wrapped(&text, &[0]), step);
    }
    // Below a comparison, and in a let that nothing uses.
    let less = format!("{SUM}const value=0\nless left=2 right=3\next of=4");
    assert_eq!(first_wrapped(&less, &[0]), 0);
    let unused = format!("{SUM}ext of=2\ntime\nlet type=int def=3 body=4");
    assert_eq!(first_wrapped(&unused, &[0]), 0);
    // An event that is absent all the same; not the second part before it is entered.
    let text = format!("{SUM}const value=0\nequal left=2 right=3\nconst value=1\njust of=5\nconst value=none(int)\nif when=4 then=6 else=7\next of=8\ntime\ntime\nswitch type=int first=10 event=9 second=11");
    assert_eq!(first_wrapped(&text, &[0]), 0);
    let second =
        format!("{SUM}ext of=2\ntime\ninput channel=4\nswitch type=int first=4 event=5 second=3");
    assert_eq!(first_wrapped(&second, &[0, 0]), 65535);
}

/// Reading A from a first value.
fn counter(first: i64) -> String {
    format!("u: var of=l\none: const value=1\nsum: add left=u right=one\next of=sum\nd: delay of=3 value={first}\nv: var of=l\nb: ext of=v\nl: let type=int def=d body=b")
}

#[test]
fn the_step_whose_update_works_it_out() {
    assert_eq!(first_wrapped(&counter(2147483647), &[0, 0]), 0);
    assert_eq!(first_wrapped(&counter(2147483646), &[0, 0, 0]), 1);
    assert_eq!(first_wrapped(&counter(0), &[0, 0, 0]), 65535);
    assert_eq!(first_wrapped(&counter(2147483647), &[]), 65535);
}

#[test]
fn a_refused_run_tells_its_finished_steps() {
    let program = assemble::program(&counter(2147483647)).expect("a table");
    for (times, refusal) in
        [("5\n4", Refusal::after(13, 1, 13, 0)), ("4294967295", Refusal::after(12, 0, 0, 65535))]
    {
        let mut state = [0; 16];
        start(&program, &mut state).expect("its length is right");
        let records = assemble::records(times).expect("records");
        let mut output = vec![0; records.len() / 5];
        assert_eq!(run(&program, &mut state, &records, &mut output), Err(refusal));
    }
    let refused = run(&program, &mut [0; 16], &[], &mut []);
    assert_eq!(refused.map_err(|it| (it.code, it.wrapped)), Err((15, 65535)));
}

#[test]
fn a_run_answers_the_first_of_its_steps() {
    let mut random = Random::new(81);
    let (mut later, mut none) = (0, 0);
    for _ in 0..1500 {
        let count = random.between(4, 90);
        let sample = generate::accepted(&mut random, count);
        let (state, time) = generate::reached_state(&mut random, &sample);
        let records = generate::records(&mut random, 24, time);
        let mut whole = state.clone();
        let Done { wrapped, .. } =
            run(&sample.file, &mut whole, &records, &mut [0; 192]).expect("well-formed");
        let mut single = state.clone();
        let marks: Vec<u32> = records
            .chunks(40)
            .map(|record| run(&sample.file, &mut single, record, &mut [0; 8]).unwrap().wrapped)
            .collect();
        assert!(marks.iter().all(|&mark| mark == 0 || mark == 65535));
        let first = marks.iter().position(|&mark| mark == 0).map_or(65535, |step| step as u32);
        assert_eq!(wrapped, first);
        later += usize::from((1..24).contains(&first));
        none += usize::from(first == 65535);
    }
    assert!(later > 30 && none > 200, "{later} {none}");
}
