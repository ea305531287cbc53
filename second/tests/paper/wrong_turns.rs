//! "Wrong turns on this route" of document 01: none of them is taken.

use crate::tables::*;

#[test]
fn an_event_shows_one_step_later() {
    assert_eq!(play(SWITCH, "0 c4=5\n0").values, ["0", "5"]);
    assert_eq!(play(GROUP, "0 c4=5\n0").values, ["0", "5"]);
}

/// A counter from 0, its labels ending in a mark.
fn counter(mark: &str) -> String {
    format!(
        "u{mark}: var of=x{mark}
         i{mark}: const value=1
         s{mark}: add left=u{mark} right=i{mark}
         n{mark}: ext of=s{mark}
         d{mark}: delay of=n{mark} value=0
         v{mark}: var of=x{mark}
         b{mark}: ext of=v{mark}
         x{mark}: let type=int def=d{mark} body=b{mark}\n"
    )
}

#[test]
fn the_second_part_does_not_age_before_it_is_entered() {
    let text = counter("2")
        + "none: const value=-1
           first: ext of=none
           event: input channel=4
           switch type=int first=first event=event second=x2";
    let played = play(&text, "0\n0\n0 c4=9\n0\n0\n0 c4=9\n0");
    // It counts only once entered, and begins anew when caught again.
    assert_eq!(played.values, ["-1", "-1", "-1", "0", "1", "2", "0"]);
}

#[test]
fn a_use_under_a_delay_is_ready() {
    accepted(&counter(""));
}

#[test]
fn a_use_in_a_second_part_is_not_ready() {
    let text = "
        zero: const value=0
        first: ext of=zero
        event: input channel=4
        use: var of=x
        then: ext of=use
        sw: switch type=int first=first event=event second=then
        end: time
        x: let type=int def=sw body=end";
    assert_eq!(refused(text), (8, 7));
}

#[test]
fn a_branch_visited_again_starts_anew() {
    let text = counter("0")
        + "e0: input channel=4
           c0: case event=e0 to=p
           body: until of=x0 cases=c0\n"
        + &counter("1")
        + "e1: input channel=5
           c1: case event=e1 to=q
           until1: until of=x1 cases=c1
           p: branch type=int body=until1\n"
        + &counter("3")
        + "e2: input channel=4
           c2: case event=e2 to=p
           until3: until of=x3 cases=c2
           q: branch type=int body=until3 next=p
           top: group body=body branches=q";
    let events = "0\n0 c4=1\n0\n0\n0 c5=1\n0\n0 c4=1\n0\n0";
    let played = play(&text, events);
    assert_eq!(played.values, ["0", "1", "0", "1", "2", "0", "1", "0", "1"]);
}

#[test]
fn only_the_first_group_counts() {
    let text = |target: &str| {
        format!(
            "zero: const value=0
             ext0: ext of=zero
             event: input channel=4
             jump: case event=event to={target}
             body: until of=ext0 cases=jump
             t1: time
             inner: branch type=int body=t1
             group2: group body=body branches=inner
             t2: time
             outer: branch type=int body=t2
             group1: group body=group2 branches=outer"
        )
    };
    accepted(&text("inner"));
    assert_eq!(refused(&text("outer")), (6, 3));
}
