//! "Readings to hold against" of document 01.

use crate::tables::*;
use second::value::{BOOL, INT, MAYBE};
use second::{check, run, Accepted, Done};

#[test]
fn a_counter() {
    let text = counter_from(0);
    assert_eq!(accepted(&text), Accepted { nodes: 8, cells: 1, bound: 13, root_type: INT });
    let played = play(&text, "0\n100\n100");
    assert_eq!(played.values, ["0", "1", "2"]);
    assert_eq!(played.works, [13, 13, 13]);
    assert_eq!(started(&table(&text)).len(), 16);
    assert_eq!(played.states[2], state_of(&table(&text), 100, &[3, 1, 0, 0, 3, 0, 0, 0]));
}

#[test]
fn a_start_state() {
    let program = table(&counter_from(-2));
    let cells = [3, 1, 0, 0, 254, 255, 255, 255];
    assert_eq!(started(&program), state_of(&program, u32::MAX, &cells));
}

#[test]
fn b_counter_wraps() {
    let played = play(&counter_from(2147483647), "0\n0");
    assert_eq!(played.values, ["2147483647", "-2147483648"]);
}

#[test]
fn c_not_ready() {
    let text =
        "u: var of=x\n d: ext of=u\n v: var of=x\n b: ext of=v\n x: let type=int def=d body=b";
    assert_eq!(refused(text), (8, 4));
}

#[test]
fn d_switch() {
    let played = play(SWITCH, "0 c4=5\n1\n2 c4=6\n3");
    assert_eq!(played.values, ["0", "5", "5", "6"]);
    assert_eq!(played.works, [6, 7, 6, 7]);
    assert_eq!(accepted(SWITCH), Accepted { nodes: 6, cells: 1, bound: 7, root_type: INT });
    assert_eq!(played.states[0], state_of(&table(SWITCH), 0, &[3, 1, 0, 0, 5, 0, 0, 0]));
}

#[test]
fn e_group() {
    let played = play(GROUP, "0\n0 c4=7\n0 c4=9\n0");
    assert_eq!(played.values, ["0", "0", "7", "1"]);
    assert_eq!(played.works, [9, 7, 7, 9]);
    assert_eq!(accepted(GROUP), Accepted { nodes: 18, cells: 1, bound: 9, root_type: INT });
    assert_eq!(played.states[1], state_of(&table(GROUP), 0, &[3, 1, 16, 0, 7, 0, 0, 0]));
    assert_eq!(played.states[2], state_of(&table(GROUP), 0, &[3, 1, 10, 0, 9, 0, 0, 0]));
}

/// The value of one division.
fn divided(left: i32, right: i32) -> String {
    let text = format!("a: const value={left}\n b: const value={right}\n e: div left=a right=b");
    let text = constant_table(&text);
    assert_eq!(accepted(&text).root_type, INT + MAYBE);
    play(&text, "0").values[0].clone()
}

#[test]
fn f_divide_toward_minus_infinity() {
    assert_eq!(divided(-7, 2), "some -4");
    assert_eq!(divided(7, -2), "some -4");
    assert_eq!(divided(-7, -2), "some 3");
    assert_eq!(divided(-1, 2), "some -1");
    assert_eq!(divided(0, -2), "some 0");
    assert_eq!(divided(-8, 2), "some -4");
    assert_eq!(divided(2147483647, -2147483648), "some -1");
    assert_eq!(divided(-2147483648, 2147483647), "some -2");
    assert_eq!(divided(-2147483648, -1), "some -2147483648");
    assert_eq!(divided(-2147483648, 1), "some -2147483648");
}

#[test]
fn g_divide_by_zero() {
    assert_eq!(divided(5, 0), "none");
    assert_eq!(divided(-2147483648, 0), "none");
}

#[test]
fn h_one_input() {
    let expected = Accepted { nodes: 1, cells: 0, bound: 2, root_type: INT };
    assert_eq!(accepted("input channel=0"), expected);
    assert_eq!(accepted("input channel=7").root_type, INT + MAYBE);
    let played = play("input channel=3", "9 c3=-5");
    assert_eq!((played.values[0].as_str(), played.works[0]), ("-5", 2));
    assert_eq!(started(&table("time")), state_of(&table("time"), u32::MAX, &[]));
}

#[test]
fn i_first_case_wins() {
    let text = "
        zero: const value=0
        ext0: ext of=zero
        ev1: input channel=4
        ev2: input channel=5
        second: case event=ev2 to=q
        first: case event=ev1 to=p next=second
        body: until of=ext0 cases=first
        xp: var of=p
        bp: ext of=xp
        p: branch type=int body=bp
        xq: var of=q
        bq: ext of=xq
        q: branch type=int body=bq next=p
        top: group body=body branches=q";
    let both = play(text, "0 c4=1 c5=2\n0");
    assert_eq!(both.values, ["0", "1"]);
    // The second event is not evaluated: group, until, ext, const; group, until, one event.
    assert_eq!(both.works[0], 7);
    let later = play(text, "0 c5=2\n0");
    assert_eq!(later.values, ["0", "2"]);
    assert_eq!(later.works[0], 8);
    assert_eq!(accepted(text).bound, 4 + 1 + 1 + 2 + 2 + 1);
}

#[test]
fn latest_time_passes() {
    assert_eq!(play("time", "2147483647").values, ["2147483647"]);
    let program = table("time");
    let mut state = started(&program);
    let refusal = run(&program, &mut state, &records("2147483648"), &mut [0; 8]).unwrap_err();
    assert_eq!((refusal.code, refusal.place), (12, 0));
}

#[test]
fn a_full_program() {
    // An input under 1,007 delays; each updates by evaluating and updating its signal.
    let mut text = String::from("input channel=0\n");
    (0..1007).for_each(|below| text += &format!("delay of={below} value=0\n"));
    let program = table(&text);
    assert_eq!(program.len(), 24 * 512);
    let bound = 1 + 1007 * 2 + 1;
    let expected = Accepted { nodes: 1008, cells: 1007, bound, root_type: INT };
    assert_eq!(check(&program), Ok(expected));
    assert_eq!(play(&text, "0 c0=5\n0 c0=6").works, [bound, bound]);
    // One node more needs a 25th block.
    assert_eq!(refused(&(text + "delay of=1007 value=0")), (1, 0));
}

#[test]
fn deep_definitions_make_the_largest_bounds() {
    // Lets nested in each other's definitions: each update evaluates all that is below.
    let mut text = String::from("time\n");
    (0..503).for_each(|level| {
        text += &format!("time\n let type=int def={} body={}\n", 2 * level, 2 * level + 1)
    });
    let accepted = accepted(&text);
    assert_eq!(accepted.nodes, 1007);
    // Evaluation of level k takes 2k+1; its update 1 more than that of k-1, and a body's.
    let evaluate = |level: u64| 2 * level + 1;
    let update: u64 = 1 + (1..=503).map(|level| 2 + evaluate(level - 1)).sum::<u64>();
    assert_eq!(accepted.bound, evaluate(503) + update);
    assert!(accepted.bound <= 1007 * 1008);
    assert_eq!(play(&text, "4\n4").works, [accepted.bound; 2]);
}

#[test]
fn deep_expressions_are_no_trouble() {
    let mut text = String::from("const value=true\n");
    (0..1006).for_each(|below| text += &format!("not of={below}\n"));
    text += "ext of=1006";
    let accepted = accepted(&text);
    assert_eq!((accepted.nodes, accepted.bound, accepted.root_type), (1008, 1009, BOOL));
    assert_eq!(play(&text, "0").values, ["true"]);
}

#[test]
fn an_empty_run() {
    let program = table(&counter_from(4));
    let mut state = started(&program);
    let before = state.clone();
    assert_eq!(
        run(&program, &mut state, &[], &mut []),
        Ok(Done { steps: 0, work: 0, wrapped: 65535 })
    );
    assert_eq!(state, before);
}

/// Row J's table, whose byte 3 is the number given.
fn arriving(edition: u8) -> String {
    let sample = include_str!("../../samples/j.txt");
    let table = sample.split("records\n").next().unwrap();
    table.replace(".edition 1", &format!(".edition {edition}"))
}

#[test]
fn j_jump_out_of_an_inner_group() {
    let played = play(&arriving(1), "0\n1 c4=7\n2 c4=9\n3 c5=8\n4 c4=6\n5");
    assert_eq!(played.values, ["0", "0", "1", "9", "8", "1"]);
    assert_eq!(played.works, [9, 7, 9, 9, 7, 11]);
    // Both at once: arrival is in around, and berth is at start.
    assert_eq!(played.states[3][8..], [0, 0, 0, 0, 0, 0, 0, 0, 3, 1, 23, 0, 8, 0, 0, 0]);
    assert_eq!(refused(&arriving(0)), (6, 13));
    assert_eq!(refused(&arriving(2)), (3, 0));
}
