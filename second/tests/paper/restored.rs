//! A state knows its program by the sum of its checks: one crossing's state under another's program,
//! a table of more than one block, and two tables that share one sum.

use crate::tables::*;
use second::{check, format, reader, run, start};

/// The crossing of the samples: its table as it is typed, and its records.
const CROSSING: &str = include_str!("../../../samples/crossing.txt");
const RECORDS: &str = include_str!("../../../samples/crossing.records");

/// The crossing with another course on leg two: the same nodes and cells.
fn crossing(course: &str) -> Vec<u8> {
    let (before, after) = CROSSING.split_once("add 4120").expect("leg two is there");
    let text = format!("{before}add {course}{after}");
    reader::unjudged(text.as_bytes()).expect("a text").program
}

fn crossing_records() -> Vec<u8> {
    records(RECORDS)
}

/// Runs records, whose state must be the program's.
fn go_on(program: &[u8], state: &mut [u8], records: &[u8]) -> Vec<u8> {
    let mut output = vec![0xAA; records.len() / 5];
    run(program, state, records, &mut output).expect("the run is done");
    output
}

/// The code of a run with given memory, which must stay as it was.
fn refused_run(program: &[u8], state: &[u8], records: &[u8]) -> u32 {
    let (mut after, room) = (state.to_vec(), vec![0xAA; records.len() / 5]);
    let mut output = room.clone();
    let refusal = run(program, &mut after, records, &mut output).expect_err("it is refused");
    assert_eq!((after.as_slice(), output), (state, room));
    assert_eq!((refusal.place, refusal.work), (0, 0));
    refusal.code
}

#[test]
fn one_crossings_state_under_anothers_program() {
    let (ours, theirs) = (crossing("4120"), crossing("4135"));
    assert_eq!(check(&ours), check(&theirs));
    let records = crossing_records();
    let (sailed, ahead) = records.split_at(24 * 40);
    let mut state = started(&ours);
    go_on(&ours, &mut state, sailed);
    // The mate restores it under the other crossing's program: refused, and nothing is changed.
    assert_eq!(refused_run(&theirs, &state, ahead), 15);
    // With the other sum it would have been well-formed, and wrong.
    let mut wrong = state.clone();
    wrong[4..8].copy_from_slice(&started(&theirs)[4..8]);
    assert_ne!(go_on(&theirs, &mut wrong, ahead), go_on(&ours, &mut state, ahead));
}

#[test]
fn the_sum_is_of_all_blocks() {
    let program = crossing("4120");
    let checks: Vec<u32> = program.chunks(512).map(|block| format::number32(block, 508)).collect();
    assert_eq!(checks.len(), 4);
    let state = started(&program);
    assert_eq!(format::number32(&state, 4), checks.iter().sum::<u32>());
    assert_eq!(state.len(), 8 + 8 * 4);
    // A change of any block's sum is seen; so is the sum of the first block alone.
    for sum in [checks[0], checks[3], checks.iter().sum::<u32>() - 1] {
        let mut other = state.clone();
        other[4..8].copy_from_slice(&sum.to_le_bytes());
        assert_eq!(refused_run(&program, &other, &crossing_records()), 15);
    }
}

#[test]
fn no_step_writes_over_the_sum() {
    let program = crossing("4120");
    let mut state = started(&program);
    let sum = state[4..8].to_vec();
    for record in crossing_records().chunks(40) {
        go_on(&program, &mut state, record);
        assert_eq!(state[4..8], sum);
    }
    // Start does not look at what the room held.
    state.fill(0x5A);
    start(&program, &mut state).expect("the state has its length");
    assert_eq!(state[4..8], sum);
}

#[test]
fn the_largest_sum_wraps_nothing() {
    let check = (1..=508u32).map(|weight| weight * 255).sum::<u32>();
    assert_eq!((check, 24 * u64::from(check)), (32_967_930, 791_230_320));
}

/// Case A's table, with a first value and a step of its own.
fn counter(first: i32, step: i32) -> Vec<u8> {
    table(&counter_from(first).replace("const value=1", &format!("const value={step}")))
}

#[test]
fn equal_sums_are_not_told_apart() {
    // The step's byte weighs 25 in the check and the first value's 61.
    let (by_ones, by_sixty_twos, by_twos) = (counter(25, 1), counter(0, 62), counter(25, 2));
    let sum = |program: &[u8]| format::number32(&started(program), 4);
    assert_eq!((sum(&by_ones), sum(&by_sixty_twos), sum(&by_twos)), (7178, 7178, 7203));
    let mut state = started(&by_ones);
    assert_eq!(words(&go_on(&by_ones, &mut state, &records("100"))), "25");
    assert_eq!(refused_run(&by_twos, &state, &records("200")), 15);
    // The other table of that sum takes the state for its own.
    assert_eq!(words(&go_on(&by_sixty_twos, &mut state, &records("200"))), "26");
    assert_eq!(state, state_of(&by_sixty_twos, 200, &[3, 1, 0, 0, 88, 0, 0, 0]));
}
