//! The numbered points of READINGS.md, one test or more for each.

use crate::tables::*;
use second::{check, run, start, Accepted};

/// A table of so many delays over an input, to fill blocks.
fn tower(nodes: usize) -> String {
    let mut text = String::from("input channel=0\n");
    (0..nodes - 1).for_each(|below| text += &format!("delay of={below} value=0\n"));
    text
}

#[test]
fn point_01_places_of_blocks_and_records() {
    assert_eq!(refused(&(tower(100) + ".check 2 7")), (2, 2));
    assert_eq!(refused(&(tower(100) + ".number 1 7")), (3, 1));
    assert_eq!(refused(&(tower(100) + ".count 2 7")), (3, 2));
    let bad = tower(100).replace("delay of=69 value=0", "delay of=69 value=0 c=1");
    assert_eq!(refused(&bad), (4, 70));
}

#[test]
fn point_02_all_of_a_code_before_the_next() {
    let bad = tower(100).replace("delay of=9 value=0", "delay of=9 value=0 c=1");
    assert_eq!(refused(&bad), (4, 10));
    assert_eq!(refused(&format!("{bad}.number 2 7")), (3, 2));
    assert_eq!(refused(&format!("{bad}.number 0 7\n.check 1 7")), (2, 1));
}

#[test]
fn point_03_end_of_records() {
    assert_eq!(refused("time\n raw 0 0 0 0 0 0\n time"), (4, 2));
    assert_eq!(refused("time\n raw 0 0 0 0 0 1"), (4, 1));
    assert_eq!(refused("time\n raw 0 0 0 0 0 0\n raw 0 0 0 0 0 1"), (4, 2));
    let early = tower(60).replace("delay of=9 value=0", "raw 0 0 0 0 0 0");
    assert_eq!(refused(&early), (4, 10));
    let first_of_last = tower(43).replace("delay of=41 value=0", "raw 0 0 0 0 0 0");
    assert_eq!(refused(&first_of_last), (4, 42));
    assert_eq!(refused("raw 0 0 0 0 0 0"), (4, 0));
    assert_eq!(refused_bytes(&[0; 512]), (3, 0));
}

#[test]
fn point_04_type_byte_of_untyped_kinds() {
    accepted("time");
    assert_eq!(refused("time type=int"), (4, 0));
    for kind in [1, 2, 3, 7, 8, 10, 16, 18, 19, 20, 21, 22, 23, 24, 25, 26, 27, 28] {
        assert_eq!(refused(&format!("raw {kind} 3 0 0 0 0")), (4, 0), "{kind}");
    }
}

#[test]
fn point_05_first_values_are_values() {
    accepted("time\n delay of=0 value=-9");
    for fields in ["3 0 257", "3 0 0", "3 0 2", "7 0 256"] {
        assert_eq!(refused(&format!("time\n raw 4 {fields} 0 0")), (4, 1), "{fields}");
    }
    for fields in ["1 0 1 0 1", "2 0 1 0 2", "2 0 1 0 -1", "7 0 0 0 1", "6 0 1 0 2", "0 0 1 0 0"] {
        assert_eq!(refused(&format!("time\n raw 4 {fields}")), (4, 1), "{fields}");
        assert_eq!(refused(&format!("time\n raw 17 {fields}")), (4, 1), "{fields}");
    }
    assert_eq!(refused("time\n raw 17 3 0 257 0 0"), (4, 1));
}

#[test]
fn point_06_maybe_where_it_may_be() {
    accepted("d: input channel=4\n b: time\n let type=maybe-int def=d body=b");
    accepted("d: input channel=4\n delay of=d value=none(int)");
    accepted("c: const value=some(false)\n ext of=c");
    for kind in [6, 9, 29] {
        for ty in [0, 4, 5, 6, 7, 8] {
            assert_eq!(refused(&format!("raw {kind} {ty} 0 0 0 0")), (4, 0), "{kind} {ty}");
        }
    }
}

#[test]
fn point_07_a_child_of_the_wrong_sort_is_named() {
    assert_eq!(refused("time\n ext of=0"), (5, 1));
    assert_eq!(refused("const value=0\n ext of=0\n delay of=0 value=0"), (5, 0));
}

#[test]
fn point_08_children_are_smaller() {
    assert_eq!(refused("delay of=0 value=0"), (5, 0));
    assert_eq!(refused("delay of=1 value=0\n time\n delay of=0 value=0"), (5, 0));
    assert_eq!(refused("delay of=900 value=0"), (5, 0));
    assert_eq!(refused("time\n delay of=- value=0"), (5, 0));
    assert_eq!(refused("delay of=- value=0"), (5, 0));
}

#[test]
fn point_09_first_branch_and_case_are_there() {
    assert_eq!(refused("time\n group body=0 branches=-"), (5, 1));
    assert_eq!(refused("time\n until of=0 cases=-"), (5, 1));
}

#[test]
fn point_10_named_twice_and_the_last_node() {
    assert_eq!(refused("const value=1\n add left=0 right=0\n ext of=1"), (5, 0));
    assert_eq!(refused("const value=1"), (5, 0));
    assert_eq!(refused("time\n branch type=int body=0"), (5, 1));
    assert_eq!(refused("time\n const value=1"), (5, 0));
}

#[test]
fn point_11_binders_and_targets_out_of_range() {
    for binder in ["-", "0", "1", "2", "900"] {
        let text = format!("var of={binder}\n ext of=0\n delay of=1 value=0");
        assert_eq!(refused(&text), (6, 0), "{binder}");
    }
    for target in ["-", "0", "4", "17", "900"] {
        let text =
            GROUP.replace("case0: case event=in0 to=down", &format!("case event=in0 to={target}"));
        assert_eq!(refused(&text.replace("cases=case0", "cases=3")), (6, 3), "{target}");
    }
}

#[test]
fn point_12_only_the_own_binder_asks() {
    // The variable of a let in a switch's event, used there: the switch passed asks nothing.
    let through = "
        u: var of=x\n j: just of=u\n e: ext of=j\n f: time\n s: time
        w: switch type=int first=f event=e second=s\n d: time
        x: let type=int def=d body=w";
    accepted(through);
    // Branch two hangs below branch one, but not in its body.
    let lists = |binder: &str| {
        format!(
            "b: time\n u: var of={binder}\n e: ext of=u\n two: branch type=int body=e
             o: time\n one: branch type=int body=o next=two\n group body=b branches=one"
        )
    };
    accepted(&lists("two"));
    assert_eq!(refused(&lists("one")), (6, 1));
}

/// A group whose body holds an until, wrapped so that its way up is cut.
fn cut_off(wrapping: &str, body: &str) -> String {
    format!(
        "s: time\n e: input channel=4\n k: case event=e to=r\n u: until of=s cases=k\n
         {wrapping}\n t: time\n r: branch type=int body=t\n group body={body} branches=r"
    )
}

#[test]
fn point_13_untils_without_a_group() {
    accepted(&cut_off("", "u"));
    accepted(&cut_off("d: time\n w: let type=int def=d body=u", "w"));
    let cut = [
        "w: delay of=u value=0",
        "d: time\n w: let type=int def=u body=d",
        "v: input channel=5\n d: time\n w: switch type=int first=u event=v second=d",
        "v: input channel=5\n d: time\n w: switch type=int first=d event=v second=u",
        "v: input channel=5\n q: case event=v to=r\n w: until of=u cases=q",
    ];
    for wrapping in cut {
        assert_eq!(refused(&cut_off(wrapping, "w")), (6, 2), "{wrapping}");
    }
    // In an event: the signal of the until is then maybe int.
    let events = [
        "a: time\n b: time\n w: switch type=int first=a event=u second=b",
        "a: time\n q: case event=u to=r\n w: until of=a cases=q",
    ];
    for wrapping in events {
        let text = cut_off(wrapping, "w").replace("s: time", "s: input channel=6");
        assert_eq!(refused(&text), (6, 2), "{wrapping}");
    }
}

#[test]
fn point_13_each_case_is_at_fault() {
    let text = cut_off("w: delay of=u value=0", "w");
    let first_right = text.replace(
        "k: case event=e to=r",
        "f: input channel=5\n l: case event=f to=r\n k: case event=e to=r next=l",
    );
    assert_eq!(refused(&first_right), (6, 3));
}

#[test]
fn point_14_the_smallest_faulty_node() {
    // Both definition and body are wrong; the body has the smaller number.
    let text = "
        i: const value=1\n n: not of=i\n b: ext of=n
        j: const value=1\n m: not of=j\n d: ext of=m
        let type=bool def=d body=b";
    assert_eq!(refused(text), (7, 1));
    let case = GROUP.replace("up:    branch type=int", "up: branch type=unit");
    assert_eq!(refused(&case), (7, 14));
    let bodies = GROUP.replace("one:   const value=1", "one: const value=true");
    assert_eq!(refused(&bodies), (7, 17));
}

#[test]
fn point_15_equal_and_just() {
    let equal = "a: const value=true\n b: const value=true\n e: equal left=a right=b\n ext of=e";
    assert_eq!(refused(equal), (7, 2));
    assert_eq!(refused("a: const value=some(1)\n e: just of=a\n ext of=e"), (7, 1));
}

#[test]
fn point_16_what_counts_for_ready() {
    let within =
        |definition: &str| format!("{definition}\n z: time\n x: let type=int def=d body=z");
    // A branch that nothing reaches counts.
    let branch = "b: time\n u: var of=x\n e: ext of=u\n r: branch type=int body=e\n d: group body=b branches=r";
    assert_eq!(refused(&within(branch)), (8, 6));
    // The event of a switch does not count.
    let event = "u: var of=x\n j: just of=u\n e: ext of=j\n f: time\n s: time\n d: switch type=int first=f event=e second=s";
    accepted(&within(event));
    // Nor does the event of an until.
    let until = "s: time\n u: var of=x\n j: just of=u\n e: ext of=j\n k: case event=e to=r\n
        b: until of=s cases=k\n t: time\n r: branch type=int body=t\n d: group body=b branches=r";
    accepted(&within(until));
    // But a let inside an event is itself checked.
    let inner = "u: var of=y\n g: ext of=u\n i: input channel=4\n y: let type=int def=g body=i\n
        f: time\n s: time\n switch type=int first=f event=y second=s";
    assert_eq!(refused(inner), (8, 3));
    // An until's signal counts.
    let signal = "u: var of=x\n s: ext of=u\n e: input channel=4\n k: case event=e to=r\n
        b: until of=s cases=k\n t: time\n r: branch type=int body=t\n d: group body=b branches=r";
    assert_eq!(refused(&within(signal)), (8, 9));
}

/// A switch with a delay in first, in its event and in second; cells 0 to 2 in this order.
const PARTS: &str = "
    a: time\n first: delay of=a value=1
    b: input channel=4\n event: delay of=b value=none(int)
    c: time\n second: delay of=c value=3
    switch type=int first=first event=event second=second";

/// Whether a run of none finds the state well-formed.
fn well_formed(program: &[u8], state: &[u8]) -> bool {
    let mut state = state.to_vec();
    match run(program, &mut state, &[], &mut []) {
        Ok(_) => true,
        Err(refusal) => {
            assert_eq!((refusal.code, refusal.place, refusal.work), (9, 0, 0));
            false
        }
    }
}

/// The state with one cell's bytes replaced.
fn with_cell(state: &[u8], cell: usize, content: [u8; 8]) -> Vec<u8> {
    let mut state = state.to_vec();
    state[8 + 8 * cell..16 + 8 * cell].copy_from_slice(&content);
    state
}

const NINE: [u8; 8] = [3, 1, 0, 0, 9, 0, 0, 0];

#[test]
fn point_17_parts_of_a_switch() {
    let program = table(PARTS);
    let start = started(&program);
    let switched = with_cell(&start, 3, NINE);
    assert!(well_formed(&program, &start));
    assert!(well_formed(&program, &switched));
    assert!(well_formed(&program, &with_cell(&start, 0, NINE)));
    assert!(!well_formed(&program, &with_cell(&start, 2, NINE)));
    assert!(!well_formed(&program, &with_cell(&switched, 0, NINE)));
    assert!(well_formed(&program, &with_cell(&switched, 2, NINE)));
    // The event is in no part.
    let some_nine = [7, 1, 0, 0, 9, 0, 0, 0];
    assert!(well_formed(&program, &with_cell(&start, 1, some_nine)));
    assert!(well_formed(&program, &with_cell(&switched, 1, some_nine)));
}

#[test]
fn point_17_however_deep() {
    // A switch within the body of a group; once in the branch, all of it is idle.
    let inner = PARTS.trim_end().replace("switch type", "sw: switch type");
    let text = format!("{inner}\n t: time\n r: branch type=int body=t\n group body=sw branches=r");
    let program = table(&text);
    let start = started(&program);
    let in_branch = with_cell(&start, 4, [3, 1, 8, 0, 5, 0, 0, 0]);
    assert!(well_formed(&program, &in_branch));
    for cell in [0, 3] {
        assert!(well_formed(&program, &with_cell(&start, cell, NINE)));
        assert!(!well_formed(&program, &with_cell(&in_branch, cell, NINE)));
    }
    assert!(!well_formed(&program, &with_cell(&in_branch, 1, [7, 1, 0, 0, 9, 0, 0, 0])));
}

#[test]
fn point_17_time_stands_alone() {
    let program = table(PARTS);
    let mut state = with_cell(&started(&program), 0, NINE);
    assert!(well_formed(&program, &state));
    for (time, good) in
        [(0u32, true), (2147483647, true), (2147483648, false), (u32::MAX - 1, false)]
    {
        state[..4].copy_from_slice(&time.to_le_bytes());
        assert_eq!(well_formed(&program, &state), good, "{time}");
    }
}

#[test]
fn point_18_caught_values() {
    let program = table(SWITCH);
    let start = started(&program);
    let good = [NINE, [0; 8]];
    let bad = [
        [3, 0, 0, 0, 0, 0, 0, 0],
        [7, 1, 0, 0, 9, 0, 0, 0],
        [2, 1, 0, 0, 1, 0, 0, 0],
        [3, 1, 1, 0, 9, 0, 0, 0],
        [3, 1, 0, 1, 9, 0, 0, 0],
        [0, 0, 0, 0, 1, 0, 0, 0],
        [0, 1, 0, 0, 0, 0, 0, 0],
        [3, 2, 0, 0, 9, 0, 0, 0],
    ];
    good.iter().for_each(|&cell| assert!(well_formed(&program, &with_cell(&start, 0, cell))));
    bad.iter().for_each(|&cell| assert!(!well_formed(&program, &with_cell(&start, 0, cell))));
    let program = table(GROUP);
    let start = started(&program);
    let cell = |branch| [3, 1, branch, 0, 9, 0, 0, 0];
    for (branch, good) in
        [(10, true), (16, true), (0, false), (11, false), (17, false), (200, false)]
    {
        assert_eq!(well_formed(&program, &with_cell(&start, 0, cell(branch))), good, "{branch}");
    }
    assert!(!well_formed(&program, &with_cell(&start, 0, [0, 0, 10, 0, 0, 0, 0, 0])));
    assert!(!well_formed(&program, &with_cell(&start, 0, [2, 1, 10, 0, 1, 0, 0, 0])));
    assert!(!well_formed(&program, &with_cell(&start, 0, [3, 0, 10, 0, 0, 0, 0, 0])));
}

#[test]
fn point_18_a_branch_of_another_group() {
    let group = "b: time\n t: time\n r: branch type=int body=t\n g: group body=b branches=r
        c: time\n s: branch type=int body=c\n top: group body=g branches=s";
    let program = table(group);
    let start = started(&program);
    let at = |cell, branch| with_cell(&start, cell, [3, 1, branch, 0, 9, 0, 0, 0]);
    assert!(well_formed(&program, &at(0, 2)));
    assert!(!well_formed(&program, &at(0, 5)));
    assert!(well_formed(&program, &at(1, 5)));
    assert!(!well_formed(&program, &at(1, 2)));
}

#[test]
fn point_19_what_is_evaluated() {
    for (word, value) in [("and", "false"), ("or", "true")] {
        let left = if word == "and" { "false" } else { "true" };
        let text = format!(
            "a: const value={left}\n t: const value=true\n n: not of=t\n e: {word} left=a right=n\n ext of=e"
        );
        let played = play(&text, "0");
        // ext, the kind, a, not, t; and the update of ext.
        assert_eq!((played.values[0].as_str(), played.works[0]), (value, 6));
    }
    let unused = "i: input channel=0\n d: delay of=i value=0\n b: time\n let type=int def=d body=b";
    let played = play(unused, "0 c0=7");
    // let, delay, time; let, delay; delay, input, input; time.
    assert_eq!(played.works[0], 9);
    assert_eq!(played.states[0][12], 7);
    // If and take evaluate one arm only.
    let arms = "c: const value=true\n s: const value=1\n x: const value=2\n y: const value=3\n
        l: add left=x right=y\n e: if when=c then=s else=l\n ext of=e";
    assert_eq!(play(arms, "0").works[0], 5);
    assert_eq!(accepted(arms).bound, 7);
}

#[test]
fn point_19_a_present_event_stops_all_updates() {
    // Both events are delays; the first fires, and neither is updated nor is the signal.
    let text = "
        s: time\n p: input channel=4\n e: delay of=p value=some(1)
        q: input channel=5\n f: delay of=q value=none(int)
        l: case event=f to=r\n k: case event=e to=r next=l\n b: until of=s cases=k
        v: var of=r\n t: ext of=v\n r: branch type=int body=t\n group body=b branches=r";
    let played = play(text, "0 c4=5 c5=6\n0");
    // group, until, time; group, until, one delay.
    assert_eq!(played.works[0], 6);
    assert_eq!(played.values, ["0", "1"]);
    let start = started(&table(text));
    assert_eq!(played.states[0][8..24], start[8..24]);
}

#[test]
fn point_20_what_is_reset() {
    // A catching switch resets first and second, and its event's cells are updated.
    let text = PARTS.replace("value=none(int)", "value=some(4)");
    let played = play(&text, "8 c4=6");
    let state = &played.states[0];
    assert_eq!(state[8..16], [3, 1, 0, 0, 1, 0, 0, 0]);
    assert_eq!(state[16..24], [7, 1, 0, 0, 6, 0, 0, 0]);
    assert_eq!(state[24..32], [3, 1, 0, 0, 3, 0, 0, 0]);
    assert_eq!(state[32..40], [3, 1, 0, 0, 4, 0, 0, 0]);
}

#[test]
fn point_20_a_firing_until_resets_all_below_its_group() {
    // The let's definition is updated before the until fires, and goes to start all the same.
    let text = "
        i: input channel=0\n d: delay of=i value=5\n s: time\n e: input channel=4
        k: case event=e to=r\n u: until of=s cases=k\n b: let type=int def=d body=u
        t: time\n r: branch type=int body=t\n g: group body=b branches=r
        j: input channel=0\n o: delay of=j value=5\n let type=int def=o body=g";
    let played = play(text, "0 c0=7\n0 c0=8 c4=1");
    assert_eq!(played.states[0][12], 7);
    assert_eq!(played.states[1][12], 5);
    // A cell outside the group keeps what it was given.
    assert_eq!(played.states[1][28], 8);
}

#[test]
fn point_21_bound_of_evaluation_and_update_apart() {
    let text = "a: const value=1\n b: const value=2\n s: add left=a right=b\n e: ext of=s
        t: time\n d: delay of=t value=0\n r: branch type=int body=d\n group body=e branches=r";
    assert_eq!(accepted(text).bound, 9);
    assert_eq!(
        accepted(PARTS),
        Accepted { nodes: 7, cells: 4, bound: 2 + 1 + 1 + 3 + 3, root_type: 3 }
    );
}

#[test]
fn point_22_lengths_are_exact_and_in_order() {
    let program = table("time");
    let call = |state: usize, records: usize, output: usize| {
        let mut state = state_of(&program, u32::MAX, &vec![0; state]);
        run(&program, &mut state, &vec![0; records], &mut vec![0; output]).map_err(|it| it.code)
    };
    assert_eq!(call(1, 41, 9), Err(9));
    assert_eq!(call(0, 41, 9), Err(10));
    assert_eq!(call(0, 40, 9), Err(11));
    assert_eq!(call(0, 40, 16), Err(11));
    assert!(call(0, 40, 8).is_ok());
    let mut longer = vec![0; 9];
    assert_eq!(start(&program, &mut longer).map_err(|it| it.code), Err(9));
}

#[test]
fn point_23_unused_channels_and_equal_times() {
    let program = table("time");
    let call = |time: u32, record: &str| {
        run(&program, &mut state_of(&program, time, &[]), &records(record), &mut [0; 8])
            .map_err(|it| it.code)
    };
    assert_eq!(call(u32::MAX, "0 w7=1"), Err(12));
    assert!(call(u32::MAX, "0").is_ok());
    assert!(call(9, "9").is_ok());
    assert_eq!(call(9, "8"), Err(13));
}

#[test]
fn point_24_a_refused_run_keeps_its_finished_steps() {
    let program = table(&counter_from(0));
    let mut state = started(&program);
    let mut output = [0xAA; 24];
    let records = records("1\n2\n3 flags=255");
    let refusal = run(&program, &mut state, &records, &mut output).unwrap_err();
    assert_eq!((refusal.code, refusal.place, refusal.work), (12, 2, 26));
    assert_eq!(state, state_of(&program, 2, &[3, 1, 0, 0, 2, 0, 0, 0]));
    assert_eq!(output[..16], [3, 1, 0, 0, 0, 0, 0, 0, 3, 1, 0, 0, 1, 0, 0, 0]);
    assert_eq!(output[16..], [0xAA; 8]);
}

#[test]
fn a_program_is_checked_before_all_else() {
    let program = table("time\n.check 0 1");
    assert_eq!(check(&program).unwrap_err().code, 2);
    assert_eq!(start(&program, &mut []).unwrap_err().code, 2);
    assert_eq!(run(&program, &mut [], &[], &mut []).unwrap_err().code, 2);
}
