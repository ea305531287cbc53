//! Edition two: byte 3 of the blocks, and which groups the way up from a case meets.

use crate::tables::*;

/// 43 nodes in two blocks: 42 lets around a time, and what is done to the blocks.
fn two_blocks(overrides: &str) -> String {
    let lets: String = (0..21)
        .map(|it| match it {
            0 => "time\ntime\nlet type=int def=0 body=1\n".to_string(),
            _ => format!("time\nlet type=int def={} body={}\n", 2 * it + 1, 2 * it),
        })
        .collect();
    format!("{lets}{overrides}")
}

#[test]
fn each_block_says_the_edition() {
    assert_eq!(accepted(&two_blocks("")).nodes, 43);
    assert_eq!(accepted(&two_blocks(".edition 1")).nodes, 43);
    // It differs from block 0's, in either direction.
    assert_eq!(refused(&two_blocks(".byte 515 1\n.seal")), (3, 1));
    assert_eq!(refused(&two_blocks(".byte 3 1\n.seal")), (3, 1));
    // It is above 1, in all blocks or in one.
    assert_eq!(refused(&two_blocks(".edition 2")), (3, 0));
    assert_eq!(refused(&two_blocks(".byte 3 2\n.seal")), (3, 0));
    assert_eq!(refused(&two_blocks(".byte 515 2\n.seal")), (3, 1));
    // Byte 3 is one of the bytes that the check sums, and code 2 comes first.
    assert_eq!(refused(&two_blocks(".byte 515 1")), (2, 1));
}

#[test]
fn the_count_is_byte_2_alone() {
    assert_eq!(refused("time\n.edition 1\n.byte 2 0\n.seal"), (3, 0));
    assert_eq!(refused("time\n.edition 1\n.byte 2 2\n.seal"), (3, 0));
}

/// A group inside the body of a group, whose case leaves for the given branch; what stands between
/// the two is the given line, which has the inner group's number in place of `*`.
fn nested(between: &str, target: &str) -> String {
    format!(
        "zero:  const value=0
         still: ext of=zero
         event: input channel=4
         leave: case event=event to={target}
         stay:  until of=still cases=leave
         x:     var of=inner
         shown: ext of=x
         inner: branch type=int body=shown
         group: group body=stay branches=inner
         {between}
         y:     var of=outer
         other: ext of=y
         outer: branch type=int body=other
         top:   group body=part branches=outer
         .edition 1"
    )
}

/// Whether the case in the inner group may leave for the outer one, with a line between the groups.
fn leaves(between: &str) -> Result<(), (u32, u32)> {
    match second::check(&table(&nested(between, "outer"))) {
        Ok(_) => Ok(()),
        Err(refusal) => Err((refusal.code, refusal.place)),
    }
}

#[test]
fn any_group_met_is_allowed() {
    let body = "steady: input channel=0\npart: let type=int def=steady body=group";
    assert_eq!(accepted(&nested(body, "outer")).nodes, 15);
    // The first group too.
    assert_eq!(accepted(&nested(body, "inner")).nodes, 15);
    let one = nested(body, "outer").replace(".edition 1", "");
    assert_eq!(refused(&one), (6, 3));
}

#[test]
fn the_way_up_ends_where_it_did() {
    for between in [
        "part: delay of=group value=0",
        "steady: input channel=0\npart: let type=int def=group body=steady",
        "steady: input channel=0\nseen: input channel=5
         part: switch type=int first=group event=seen second=steady",
        "steady: input channel=0\nseen: input channel=5
         part: switch type=int first=steady event=seen second=group",
        "seen: input channel=5\nagain: case event=seen to=outer\npart: until of=group cases=again",
    ] {
        assert_eq!(leaves(between), Err((6, 3)), "{between}");
    }
}

#[test]
fn a_branch_below_in_no_group_upward_is_refused() {
    // The inner group's branch is no target for a case of the outer group.
    let text = "zero:  const value=0
         still: ext of=zero
         x:     var of=inner
         shown: ext of=x
         inner: branch type=int body=shown
         group: group body=still branches=inner
         seen:  input channel=4
         down:  case event=seen to=inner
         part:  until of=group cases=down
         y:     var of=outer
         other: ext of=y
         outer: branch type=int body=other
         top:   group body=part branches=outer
         .edition 1";
    assert_eq!(refused(text), (6, 7));
}

#[test]
fn a_jump_outward_leaves_nothing_of_the_inner_group() {
    // The inner group counts its steps in a delay beside the jump, and is at start when it is left.
    let text = "use:   var of=n
         one:   const value=1
         sum:   add left=use right=one
         next:  ext of=sum
         old:   delay of=next value=0
         again: var of=n
         shown: ext of=again
         go:    input channel=5
         away:  case event=go to=outer
         stay:  until of=shown cases=away
         n:     let type=int def=old body=stay
         x:     var of=inner
         named: ext of=x
         more:  input channel=5
         off:   case event=more to=outer
         wait:  until of=named cases=off
         inner: branch type=int body=wait
         group: group body=n branches=inner
         y:     var of=outer
         other: ext of=y
         back:  input channel=4
         to:    case event=back to=final
         hold:  until of=other cases=to
         z:     var of=final
         calm:  ext of=z
         final: branch type=int body=calm
         outer: branch type=int body=hold next=final
         top:   group body=group branches=outer
         .edition 1";
    let played = play(text, "0\n1\n2 c5=9\n3");
    assert_eq!(played.values, ["0", "1", "2", "9"]);
    // The delay is cell 0, the inner group cell 1, the outer one cell 2.
    assert_eq!(played.states[2][8..24], [3, 1, 0, 0, 0, 0, 0, 0, 0, 0, 0, 0, 0, 0, 0, 0]);
    assert_eq!(played.states[2][24..], [3, 1, 26, 0, 9, 0, 0, 0]);
}
