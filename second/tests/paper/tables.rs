//! Tables used by many tests, and short ways to call the library on texts.

use second::format;
use second::print;
use second::value::Value;
use second::{assemble, check, run, start, Accepted};

/// Case A with a first value of its own.
pub fn counter_from(first: i32) -> String {
    format!(
        "use:   var of=x
         one:   const value=1
         sum:   add left=use right=one
         next:  ext of=sum
         old:   delay of=next value={first}
         again: var of=x
         show:  ext of=again
         x:     let type=int def=old body=show"
    )
}

/// Case D.
pub const SWITCH: &str = "
    zero:  const value=0
    first: ext of=zero
    event: input channel=4
    x:     var of=sw
    then:  ext of=x
    sw:    switch type=int first=first event=event second=then";

/// Case E.
pub const GROUP: &str = "
    zero:  const value=0
    ext0:  ext of=zero
    in0:   input channel=4
    case0: case event=in0 to=down
    body:  until of=ext0 cases=case0
    one:   const value=1
    ext1:  ext of=one
    in1:   input channel=4
    case1: case event=in1 to=down
    until1: until of=ext1 cases=case1
    up:    branch type=int body=until1
    x:     var of=down
    ext2:  ext of=x
    in2:   input channel=4
    case2: case event=in2 to=up
    until2: until of=ext2 cases=case2
    down:  branch type=int body=until2 next=up
    top:   group body=body branches=down";

pub fn table(text: &str) -> Vec<u8> {
    assemble::program(text).expect("the text is a table")
}

pub fn records(text: &str) -> Vec<u8> {
    assemble::records(text).expect("the text is records")
}

pub fn accepted(text: &str) -> Accepted {
    check(&table(text)).expect("the table is accepted")
}

/// The code and place of a refused table.
pub fn refused(text: &str) -> (u32, u32) {
    refused_bytes(&table(text))
}

pub fn refused_bytes(program: &[u8]) -> (u32, u32) {
    let refusal = check(program).expect_err("the table is refused");
    assert_eq!(refusal.work, 0);
    (refusal.code, refusal.place)
}

/// A state of a time and cells, with the sum of the checks of its program.
pub fn state_of(program: &[u8], time: u32, cells: &[u8]) -> Vec<u8> {
    let checks = program.chunks(512).map(|block| format::number32(block, 508)).sum::<u32>();
    [&time.to_le_bytes()[..], &checks.to_le_bytes()[..], cells].concat()
}

/// The start state of an accepted table.
pub fn started(program: &[u8]) -> Vec<u8> {
    let cells = check(program).expect("the table is accepted").cells;
    let mut state = vec![0xAA; 8 + 8 * cells];
    start(program, &mut state).expect("the state has its length");
    state
}

/// What a run gives: the printed values, the works of the steps, and the states after each.
pub struct Played {
    pub values: Vec<String>,
    pub works: Vec<u64>,
    pub states: Vec<Vec<u8>>,
}

/// Plays records step by step from start, and holds the run against it.
pub fn play(text: &str, record_text: &str) -> Played {
    let program = table(text);
    let records = records(record_text);
    let mut state = started(&program);
    let mut whole = state.clone();
    let mut played = Played { values: vec![], works: vec![], states: vec![] };
    let mut outputs = Vec::new();
    for record in records.chunks(40) {
        let mut output = [0xAA; 8];
        let done = run(&program, &mut state, record, &mut output).expect("the step is done");
        assert_eq!(done.steps, 1);
        played.values.push(words(&output));
        played.works.push(done.work);
        played.states.push(state.clone());
        outputs.extend(output);
    }
    let mut room = vec![0; outputs.len()];
    let done = run(&program, &mut whole, &records, &mut room).expect("the run is done");
    assert_eq!(done.work, played.works.iter().sum::<u64>());
    assert_eq!((whole, room), (state, outputs));
    played
}

/// The printed form of 8 output bytes.
pub fn words(output: &[u8]) -> String {
    let word = format::number32(output, 4) as i32;
    let value = Value::from_parts(output[0], output[1] as u16, word).expect("a value");
    assert_eq!(output, value.bytes());
    print::value_words(value)
}

/// A table of one constant expression.
pub fn constant_table(expression: &str) -> String {
    format!("{expression}\n root: ext of=e")
}
