//! Every code with its place, and what a refusal leaves of the lent memory.

use crate::tables::*;
use second::{check, run, start, Refusal};

fn refusal(code: u32, place: u32) -> Refusal {
    Refusal::at(code, place as usize)
}

#[test]
fn code_1_lengths() {
    for length in [0, 1, 511, 513, 1023, 12_287, 12_289, 12_800] {
        assert_eq!(check(&vec![0; length]), Err(refusal(1, 0)), "{length}");
    }
    assert_eq!(check(&vec![0; 12_288]), Err(refusal(3, 0)));
}

#[test]
fn code_2_each_byte_counts() {
    let good = table(&counter_from(0));
    for at in 0..512 {
        let mut bad = good.clone();
        bad[at] ^= 0x40;
        assert_eq!(check(&bad), Err(refusal(2, 0)), "{at}");
    }
}

#[test]
fn code_3_number_and_count() {
    for (line, place) in [(".number 0 1", 0), (".count 0 2", 0), (".count 0 513", 0)] {
        assert_eq!(refused(&format!("time\n{line}")), (3, place));
    }
    // Bytes 2-3 of 257 were a wrong count in edition one: now they are edition two's.
    assert_eq!(accepted("time\n.count 0 257").nodes, 1);
}

#[test]
fn code_3_editions() {
    assert_eq!(refused("time\n.edition 2"), (3, 0));
    assert_eq!(refused("time\n.edition 255"), (3, 0));
    assert_eq!(accepted("time\n.edition 1").nodes, 1);
}

#[test]
fn code_4_records() {
    let bad = [
        "raw 11 0 0 0 0 0",
        "raw 15 0 0 0 0 0",
        "raw 30 0 0 0 0 0",
        "raw 255 0 0 0 0 0",
        "raw 1 3 0 0 0 0",
        "raw 1 0 8 0 0 0",
        "raw 1 0 0 1 0 0",
        "raw 1 0 0 0 1 0",
        "raw 1 0 0 0 0 1",
        "raw 2 0 1 0 0 0",
        "raw 3 0 0 1 0 0",
        "raw 5 3 0 0 1 0",
        "raw 5 0 0 0 0 0",
        "raw 5 4 0 0 0 0",
        "raw 5 8 0 0 0 0",
        "raw 7 3 0 0 0 0",
        "raw 17 3 1 1 0 0",
        "raw 17 0 0 1 0 0",
        "raw 17 1 0 1 0 1",
        "raw 17 2 0 1 0 2",
        "raw 17 5 0 1 0 1",
        "raw 17 7 0 0 0 1",
        "raw 17 3 0 2 0 0",
        "raw 28 0 0 1 0 0",
        "raw 24 0 0 1 0 0",
        "raw 27 0 0 0 0 1",
        "raw 29 7 0 0 0 0",
        "raw 10 1 0 0 0 0",
    ];
    for line in bad {
        assert_eq!(refused(&format!("time\n{line}")), (4, 1), "{line}");
    }
}

#[test]
fn code_5_each_child_of_the_right_sort() {
    let pairs = [
        "let type=int def=1 body=0",
        "let type=int def=0 body=1",
        "group body=1 branches=0",
        "group body=0 branches=1",
        "until of=0 cases=1",
        "until of=1 cases=0",
        "branch type=int body=0 next=1",
        "case event=1 next=- to=0",
        "add left=1 right=0",
    ];
    for line in pairs {
        let text = format!("time\n const value=1\n {line}\n time\n let type=int def=2 body=3");
        let expected = if line.starts_with("case") { (5, 0) } else { (5, 2) };
        assert_eq!(refused(&text), expected, "{line}");
    }
    for line in ["time\n ext of=0", "const value=1\n delay of=0 value=1", "time\n not of=0"] {
        assert_eq!(refused(line), (5, 1), "{line}");
    }
    assert_eq!(refused("const value=1\n ext of=0\n not of=1"), (5, 2));
    assert_eq!(refused("time\n time\n time"), (5, 0));
}

#[test]
fn code_6_each_binder_by_its_part() {
    // A take's variable in the maybe, in the arm for absent, and in the arm for present.
    let take = |maybe: &str, none: &str, some: &str| {
        format!(
            "c: const value=some(1)\n x: {maybe}\n m: if when=t then=c else=x\n
             n: {none}\n s: {some}\n k: take type=int of=m none=n some=s\n ext of=k"
        )
        .replace("m: if when=t", "t: const value=true\n m: if when=t")
    };
    let (any, one) = ("const value=some(2)", "const value=1");
    accepted(&take(any, one, "var of=k"));
    assert_eq!(refused(&take(any, "var of=k", one)), (6, 4));
    assert_eq!(refused(&take("var of=k", one, one)), (6, 1));
}

#[test]
fn code_6_switch_variable_only_in_second() {
    let switch = |first: &str, event: &str| {
        format!(
            "a: {first}\n f: ext of=a\n b: {event}\n e: ext of=b\n c: const value=0\n
             s: ext of=c\n w: switch type=int first=f event=e second=s"
        )
    };
    accepted(&switch("const value=1", "const value=some(1)"));
    assert_eq!(refused(&switch("var of=w", "const value=some(1)")), (6, 0));
    assert_eq!(refused(&switch("const value=1", "var of=w")), (6, 2));
}

#[test]
fn code_7_each_rule() {
    // The take around it keeps all constants in use, so that only the type is at fault.
    for line in [
        "add left=i right=t",
        "sub left=t right=i",
        "mul left=i right=t",
        "div left=i right=t",
        "less left=i right=t",
        "equal left=t right=i",
        "and left=t right=i",
        "or left=i right=t",
    ] {
        let text = format!(
            "i: const value=1\n t: const value=true\n m: const value=some(1)\n x: {line}\n
             z: const value=0\n y: take type=int of=m none=x some=z\n ext of=y"
        );
        assert_eq!(refused(&text), (7, 3), "{line}");
    }
    assert_eq!(refused("i: const value=1\n n: not of=i\n ext of=n"), (7, 1));
    let conditional = |when: &str, then: &str, other: &str| {
        refused(&format!(
            "const value={when}\n const value={then}\n const value={other}\n
             k: if when=0 then=1 else=2\n ext of=k"
        ))
    };
    assert_eq!(conditional("1", "1", "1"), (7, 3));
    assert_eq!(conditional("true", "1", "true"), (7, 3));
    assert_eq!(conditional("some(true)", "1", "1"), (7, 3));
}

#[test]
fn code_7_signals() {
    assert_eq!(refused("t: time\n delay of=t value=true"), (7, 1));
    assert_eq!(refused("t: time\n delay of=t value=some(1)"), (7, 1));
    assert_eq!(refused("t: time\n b: time\n let type=bool def=t body=b"), (7, 2));
    assert_eq!(
        refused("f: time\n e: time\n s: time\n switch type=int first=f event=e second=s"),
        (7, 3)
    );
    let unlike = "f: time\n e: input channel=4\n s: input channel=5\n switch type=int first=f event=e second=s";
    assert_eq!(refused(unlike), (7, 3));
    let bodies =
        "b: time\n c: input channel=4\n r: branch type=int body=c\n group body=b branches=r";
    assert_eq!(refused(bodies), (7, 3));
    let case = GROUP.replace("down:  branch type=int", "down: branch type=bool");
    assert_eq!(refused(&case), (7, 3));
}

#[test]
fn code_8_smallest_let() {
    // Both lets are not ready; the inner one has the smaller number.
    let text = "
        u: var of=inner\n du: ext of=u\n b: time\n inner: let type=int def=du body=b
        v: var of=outer\n dv: ext of=v\n w: let type=int def=inner body=dv
        e: time\n outer: let type=int def=w body=e";
    assert_eq!(refused(text), (8, 3));
}

#[test]
fn code_9_start_asks_for_the_length_only() {
    let program = table(&counter_from(0));
    for length in [0, 4, 8, 12, 15, 17, 24] {
        let mut state = vec![0xAA; length];
        assert_eq!(start(&program, &mut state), Err(refusal(9, 0)));
        assert_eq!(state, vec![0xAA; length]);
    }
    assert_eq!(start(&program, &mut [7; 16]), Ok(()));
}

/// Runs one record with given memory; memory must stay as it was.
fn one_refused(program: &[u8], state: &[u8], record: &[u8], room: usize) -> (u32, u32) {
    let (mut after, mut output) = (state.to_vec(), vec![0xAA; room]);
    let refusal = run(program, &mut after, record, &mut output).expect_err("it is refused");
    assert_eq!((after, output), (state.to_vec(), vec![0xAA; room]));
    assert_eq!(refusal.work, 0);
    (refusal.code, refusal.place)
}

#[test]
fn codes_9_to_13_of_one_record() {
    let program = table(&counter_from(0));
    let state = started(&program);
    let record = records("5");
    assert_eq!(one_refused(&program, &state_of(&program, 0, &[0; 8]), &record, 8), (9, 0));
    assert_eq!(one_refused(&program, &state[..15], &record, 8), (9, 0));
    assert_eq!(one_refused(&program, &state, &record[..39], 8), (10, 0));
    assert_eq!(one_refused(&program, &state, &records("5\n5"), 8), (11, 0));
    assert_eq!(one_refused(&program, &state, &[], 8), (11, 0));
    assert_eq!(one_refused(&program, &state, &record, 7), (11, 0));
    assert_eq!(one_refused(&program, &state, &records("5 flags=16"), 8), (12, 0));
    let mut later = state.clone();
    later[..4].copy_from_slice(&[6, 0, 0, 0]);
    assert_eq!(one_refused(&program, &later, &record, 8), (13, 0));
    // 12 is tried before 13.
    assert_eq!(one_refused(&program, &later, &records("5 flags=128"), 8), (12, 0));
}

#[test]
fn code_15_stands_between_two_nines() {
    let program = table(&counter_from(0));
    let mut state = started(&program);
    let record = records("5");
    state[4] ^= 1;
    // Before 10 and 11; after a wrong length, and before a bad time or a bad cell.
    assert_eq!(one_refused(&program, &state, &record[..39], 7), (15, 0));
    assert_eq!(one_refused(&program, &state[..15], &record, 8), (9, 0));
    state[3] = 0x80;
    state[8] = 0;
    assert_eq!(one_refused(&program, &state, &record, 8), (15, 0));
    state[4] ^= 1;
    assert_eq!(one_refused(&program, &state, &record, 8), (9, 0));
    let other = table(&counter_from(1));
    assert_eq!(one_refused(&other, &started(&program), &record, 8), (15, 0));
}

#[test]
fn code_12_each_way() {
    let program = table("time");
    let state = started(&program);
    for line in [
        "0 flags=16",
        "0 flags=32",
        "0 flags=64",
        "0 flags=128",
        "0 zeros=1",
        "0 zeros=256",
        "0 zeros=65536",
        "0 w4=1",
        "0 w5=1",
        "0 w6=1",
        "0 w7=-1",
        "2147483648",
        "4294967295",
    ] {
        assert_eq!(one_refused(&program, &state, &records(line), 8), (12, 0), "{line}");
    }
}

#[test]
fn code_10_of_a_run() {
    let program = table("time");
    let mut state = started(&program);
    for length in [1, 39, 41, 4097 * 40] {
        let room = length / 40 * 8;
        let answer = run(&program, &mut state, &vec![0; length], &mut vec![0; room]);
        assert_eq!(answer, Err(refusal(10, 0)));
    }
    let done = run(&program, &mut state, &vec![0; 4096 * 40], &mut vec![0; 4096 * 8]).unwrap();
    assert_eq!((done.steps, done.work), (4096, 8192));
}

#[test]
fn codes_12_and_13_of_a_run_tell_steps_and_work() {
    let program = table(&counter_from(0));
    for (bad, code) in [("9 flags=16", 12), ("6", 13)] {
        let records = records(&format!("5\n7\n{bad}\n8"));
        let mut state = started(&program);
        let mut output = [0xAA; 32];
        let refusal = run(&program, &mut state, &records, &mut output).unwrap_err();
        assert_eq!(refusal, Refusal::after(code, 2, 26, 65535));
        assert_eq!(state, state_of(&program, 7, &[3, 1, 0, 0, 2, 0, 0, 0]));
        assert_eq!((words(&output[..8]), words(&output[8..16])), ("0".into(), "1".into()));
        assert_eq!(output[16..], [0xAA; 16]);
    }
}

#[test]
fn code_14_cannot_occur() {
    // The largest bound of all, 4,096 times, stays within 32 bits.
    let largest_bound = (1..=1008u64).map(|n| n * (n + 1)).max().unwrap();
    assert!(4096 * largest_bound <= 4_294_967_295);
}
