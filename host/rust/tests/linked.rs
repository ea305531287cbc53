//! The calls through the static library, on readings A, C and D of document 01 and on refusals.
//! Where there is no archive for the target this file is empty.
#![cfg(linked)]

use couplerfinch::{
    check, explain, mend, paired, print, read, run, start, tidy, watch, Checked, Code, Explained,
    Ran, Refusal, Type, Written, BLOCK, NODES, NO_ENTRY, RECORD, TIME_ENTRY,
};

/// A record of a table: kind, type, a, b, c and word.
type Node = (u8, u8, u16, u16, u16, i32);

/// Reading A: let x = delay 0 (ext x+1) in ext x.
const A: [Node; 8] = [
    (16, 0, 7, 0, 0, 0),
    (17, 3, 0, 1, 0, 1),
    (18, 0, 0, 1, 0, 0),
    (3, 0, 2, 0, 0, 0),
    (4, 3, 3, 1, 0, 0),
    (16, 0, 7, 0, 0, 0),
    (3, 0, 5, 0, 0, 0),
    (5, 3, 4, 6, 0, 0),
];

/// Reading C: let x = ext x in ext x.
const C: [Node; 5] = [
    (16, 0, 4, 0, 0, 0),
    (3, 0, 0, 0, 0, 0),
    (16, 0, 4, 0, 0, 0),
    (3, 0, 2, 0, 0, 0),
    (5, 3, 1, 3, 0, 0),
];

/// Reading D: switch (ext 0) on x = input 4 in ext x.
const D: [Node; 6] = [
    (17, 3, 0, 1, 0, 0),
    (3, 0, 0, 0, 0, 0),
    (1, 0, 4, 0, 0, 0),
    (16, 0, 5, 0, 0, 0),
    (3, 0, 3, 0, 0, 0),
    (6, 3, 1, 2, 4, 0),
];

/// The one block of a table.
fn block(nodes: &[Node]) -> [u8; BLOCK] {
    let mut block = [0; BLOCK];
    block[2] = 1;
    for (&(kind, ty, a, b, c, word), room) in nodes.iter().zip(block[4..508].chunks_exact_mut(12)) {
        (room[0], room[1]) = (kind, ty);
        for (field, at) in [(a, 2), (b, 4), (c, 6)] {
            room[at..at + 2].copy_from_slice(&field.to_le_bytes());
        }
        room[8..].copy_from_slice(&word.to_le_bytes());
    }
    let sum: u32 = (1..).zip(&block[..508]).map(|(place, &byte)| place * u32::from(byte)).sum();
    block[508..].copy_from_slice(&sum.to_le_bytes());
    block
}

/// A record of a time, with an event on channel 4 or none.
fn record(time: u32, event: Option<u32>) -> [u8; RECORD] {
    let mut record = [0; RECORD];
    record[..4].copy_from_slice(&time.to_le_bytes());
    if let Some(word) = event {
        record[20] = 1;
        record[24..28].copy_from_slice(&word.to_le_bytes());
    }
    record
}

/// The 8 bytes of an int.
fn int(word: u8) -> [u8; 8] {
    [3, 1, 0, 0, word, 0, 0, 0]
}

/// A state of a time and one cell, with the check of its one block.
fn state_of(program: &[u8; BLOCK], time: u32, cell: [u8; 8]) -> Vec<u8> {
    [&time.to_le_bytes()[..], &program[508..], &cell].concat()
}

fn refusal(code: Code, place: u32) -> Refusal {
    Refusal { code, place, ran: Ran::default() }
}

#[test]
fn reading_a_record_by_record() {
    let program = block(&A);
    let checked = check(&program).unwrap();
    assert_eq!(checked, Checked { nodes: 8, cells: 1, bound: 13, value: Type::Int });
    let mut state = vec![9; checked.state_length()];
    start(&program, &mut state).unwrap();
    assert_eq!(state, state_of(&program, u32::MAX, int(0)));
    for (time, value) in [(0, 0), (100, 1), (100, 2)] {
        let mut output = [9; 8];
        let ran = run(&program, &mut state, &record(time, None), &mut output);
        assert_eq!((ran, output), (Ok(Ran { steps: 1, work: 13, wrapped: None }), int(value)));
    }
    assert_eq!(state, state_of(&program, 100, int(3)));
}

#[test]
fn reading_d_by_a_run() {
    let program = block(&D);
    let events = [Some(5), None, Some(6), None];
    let records: Vec<u8> =
        (0..).zip(events).flat_map(|(time, event)| record(time, event)).collect();
    let (mut state, mut output) = ([0; 16], [9; 32]);
    start(&program, &mut state).unwrap();
    assert_eq!(
        run(&program, &mut state, &[], &mut []),
        Ok(Ran { steps: 0, work: 0, wrapped: None })
    );
    let ran = run(&program, &mut state, &records, &mut output);
    assert_eq!(ran, Ok(Ran { steps: 4, work: 26, wrapped: None }));
    assert_eq!(output.to_vec(), [0, 5, 5, 6].map(int).concat());
}

#[test]
fn reading_d_watched() {
    let program = block(&D);
    let records = [record(0, Some(5)), record(1, None)].concat();
    let (mut state, mut output, mut shown) = ([0; 16], [9; 16], [9; 48]);
    start(&program, &mut state).unwrap();
    let ran = watch(&program, &mut state, &records, &[1, 2, 4], &mut output, &mut shown);
    assert_eq!(ran, Ok(Ran { steps: 2, work: 13, wrapped: None }));
    assert_eq!(output.to_vec(), [0, 5].map(int).concat());
    // First until the switch has switched, second from then on, the event never.
    let none = [0; 8];
    assert_eq!(shown.to_vec(), [int(0), none, none, none, none, int(5)].concat());
}

#[test]
fn refused_watches() {
    let program = block(&A);
    let (mut state, mut output, mut shown) = ([7; 16], [9; 16], [9; 16]);
    let lists: [(&[u16], Code, u32); 5] = [
        (&[], Code::WatchLength, 0),
        (&[4; 9], Code::WatchLength, 0),
        (&[4, 3], Code::WatchEntry, 1),
        (&[0], Code::WatchEntry, 0),
        (&[4, 7, 8], Code::WatchEntry, 2),
    ];
    for (list, code, place) in lists {
        let refused = watch(&program, &mut state, &[], list, &mut output, &mut shown);
        assert_eq!(refused, Err(refusal(code, place)));
    }
    assert_eq!((state, output, shown), ([7; 16], [9; 16], [9; 16]));
    start(&program, &mut state).unwrap();
    let records = [record(100, None), record(0, None)].concat();
    let short = watch(&program, &mut state, &records, &[4], &mut output, &mut shown[..8]);
    assert_eq!(short, Err(refusal(Code::OutputLength, 0)));
    // The second record is before the first: the first one's row is kept.
    let ran = Ran { steps: 1, work: 13, wrapped: None };
    let refused = watch(&program, &mut state, &records, &[4], &mut output, &mut shown);
    assert_eq!(refused, Err(Refusal { code: Code::TimeBack, place: 1, ran }));
    assert_eq!(
        (output.to_vec(), shown.to_vec()),
        ([int(0), [9; 8]].concat(), [int(0), [9; 8]].concat())
    );
    assert_eq!(state.to_vec(), state_of(&program, 100, int(1)));
}

#[test]
fn refused_programs() {
    let program = block(&A);
    assert_eq!(check(&block(&C)), Err(refusal(Code::NotReady, 4)));
    assert_eq!(check(&[]), Err(refusal(Code::ProgramLength, 0)));
    assert_eq!(check(&program[..511]), Err(refusal(Code::ProgramLength, 0)));
    assert_eq!(check(&program[1..]), Err(refusal(Code::ProgramLength, 0)));
    let mut wrong = program;
    wrong[4] ^= 1;
    assert_eq!(check(&wrong), Err(refusal(Code::CheckSum, 0)));
    assert_eq!(check(&[0; BLOCK]), Err(refusal(Code::BlockNumber, 0)));
    assert_eq!(check(&block(&[(2, 3, 0, 0, 0, 0)])), Err(refusal(Code::RecordFault, 0)));
    assert_eq!(check(&block(&[(2, 0, 0, 0, 0, 0); 2])), Err(refusal(Code::ShapeFault, 0)));
}

#[test]
fn refused_lengths_change_nothing() {
    let program = block(&A);
    let (mut state, mut output, one) = ([7; 17], [9; 9], record(0, None));
    for length in [0, 4, 8, 12, 15, 17] {
        let room = &mut state[..length];
        assert_eq!(start(&program, room), Err(refusal(Code::StateFault, 0)));
        assert_eq!(run(&program, room, &one, &mut output), Err(refusal(Code::StateFault, 0)));
    }
    assert_eq!(state, [7; 17]);
    let room = &mut state[..16];
    assert_eq!(run(&program, room, &one, &mut output), Err(refusal(Code::OtherProgram, 0)));
    start(&program, room).unwrap();
    let started = room.to_vec();
    let long = [0; 41];
    assert_eq!(run(&program, room, &long, &mut output), Err(refusal(Code::RecordsLength, 0)));
    assert_eq!(run(&program, room, &one, &mut output), Err(refusal(Code::OutputLength, 0)));
    assert_eq!(run(&program, room, &[], &mut output[..1]), Err(refusal(Code::OutputLength, 0)));
    assert_eq!((&*room, output), (&started[..], [9; 9]));
}

#[test]
fn a_refused_run_keeps_its_steps() {
    let program = block(&A);
    for (second, code) in
        [(record(4, None), Code::TimeBack), (record(1 << 31, None), Code::InputFault)]
    {
        let (mut state, mut output) = ([0; 16], [9; 24]);
        start(&program, &mut state).unwrap();
        let records = [record(5, None), second, record(6, None)].concat();
        let refused = run(&program, &mut state, &records, &mut output).unwrap_err();
        assert_eq!(
            refused,
            Refusal { code, place: 1, ran: Ran { steps: 1, work: 13, wrapped: None } }
        );
        assert_eq!(output.to_vec(), [int(0), [9; 8], [9; 8]].concat());
        assert_eq!(state[..], state_of(&program, 5, int(1)));
    }
}

#[test]
fn reading_b_wraps() {
    let program = counter(i32::MAX, 1);
    let (mut state, mut output) = ([0; 16], [9; 16]);
    start(&program, &mut state).unwrap();
    let records = [record(0, None), record(0, None)].concat();
    let ran = run(&program, &mut state, &records, &mut output);
    assert_eq!(ran, Ok(Ran { steps: 2, work: 26, wrapped: Some(0) }));
    assert_eq!(output[12..], [0, 0, 0, 128]);
}

#[test]
fn reading_c_explained() {
    let mut room = [9; NODES];
    assert_eq!(explain(&block(&C), &mut room), Ok(Explained { node: 4, entries: 2 }));
    assert_eq!((room[..2].to_vec(), &room[2..]), (vec![1, 0], &[NO_ENTRY; NODES - 2][..]));
}

#[test]
fn explain_refused_writes_nothing() {
    let mut room = [9; NODES + 1];
    for entries in [0, 1, NODES - 1, NODES, NODES + 1] {
        let lent = &mut room[..entries];
        assert_eq!(explain(&block(&A), lent), Err(refusal(Code::NoLet, 0)));
        assert_eq!(explain(&[0; BLOCK], lent), Err(refusal(Code::BlockNumber, 0)));
        if entries != NODES {
            assert_eq!(explain(&block(&C), lent), Err(refusal(Code::RoomLength, 0)));
        }
    }
    assert_eq!(room, [9; NODES + 1]);
}

#[test]
fn a_damaged_state_brought_back() {
    let program = block(&A);
    let good = state_of(&program, 100, int(3));
    let (mut state, mut list) = (good.clone(), [9; 2]);
    assert_eq!(mend(&program, &mut state, &mut list), Ok(0));
    assert_eq!((&state, list), (&good, [9; 2]));
    // A bool where an int is due: reading A counts from 0 again, and keeps its time.
    state[8] = 2;
    assert_eq!(mend(&program, &mut state, &mut list), Ok(1));
    assert_eq!((&state, list), (&state_of(&program, 100, int(0)), [0, 9]));
    let mut state = state_of(&program, 1 << 31, [255; 8]);
    assert_eq!(mend(&program, &mut state, &mut list), Ok(2));
    assert_eq!((&state, list), (&state_of(&program, u32::MAX, int(0)), [TIME_ENTRY, 0]));
}

#[test]
fn mend_refused_writes_nothing() {
    let program = block(&A);
    let bad = state_of(&program, 1 << 31, [255; 8]);
    let (mut state, mut list) = (bad.clone(), [9; 3]);
    assert_eq!(mend(&[], &mut state, &mut list), Err(refusal(Code::ProgramLength, 0)));
    let short = mend(&program, &mut state[..15], &mut list);
    assert_eq!(short, Err(refusal(Code::StateFault, 0)));
    for entries in [0, 1, 3] {
        let answer = mend(&program, &mut state, &mut list[..entries]);
        assert_eq!(answer, Err(refusal(Code::ListLength, 0)));
    }
    assert_eq!((&state, list), (&bad, [9; 3]));
    state[4] ^= 1;
    assert_eq!(mend(&program, &mut state, &mut list), Err(refusal(Code::OtherProgram, 0)));
}

/// let y = time in reading A, and its nodes' pairing with reading A's.
fn old_a() -> ([u8; BLOCK], [u16; 8]) {
    let mut nodes = vec![(2, 0, 0, 0, 0, 0)];
    nodes.extend(A.map(|(kind, ty, a, b, c, word)| match kind {
        16 | 3 | 4 => (kind, ty, a + 1, b, c, word),
        18 | 5 => (kind, ty, a + 1, b + 1, c, word),
        _ => (kind, ty, a, b, c, word),
    }));
    nodes.push((5, 3, 0, 8, 0, 0));
    (block(&nodes), [1, 2, 3, 4, 5, 6, 7, 8])
}

#[test]
fn reading_a_tidied_and_paired() {
    let ((old, pairing), new) = (old_a(), block(&A));
    let mut room = [9; BLOCK + 3];
    assert_eq!(tidy(&old, &mut room), Ok(Written { nodes: 8, length: 512 }));
    assert_eq!((&room[..BLOCK], &room[BLOCK..]), (&new[..], &[9; 3][..]));
    assert_eq!(paired(&old, &new, &pairing), Ok(()));
    assert_eq!(paired(&new, &new, &[0, 1, 2, 3, 4, 5, 6, 7]), Ok(()));
    let mut bent = pairing;
    bent.swap(0, 5);
    // The variables are alike; wrong is the sum whose first operand is not reached.
    assert_eq!(paired(&old, &new, &bent), Err(refusal(Code::PairingEntry, 2)));
    assert_eq!(paired(&old, &new, &pairing[1..]), Err(refusal(Code::PairingLength, 0)));
    assert_eq!(paired(&old, &block(&C), &[]), Err(refusal(Code::NewNotReady, 4)));
    assert_eq!(paired(&block(&C), &block(&C), &[]), Err(refusal(Code::NotReady, 4)));
}

#[test]
fn tidy_refused_writes_nothing() {
    let (old, _) = old_a();
    let mut room = [9; BLOCK];
    assert_eq!(tidy(&old, &mut room[1..]), Err(refusal(Code::NewLength, 0)));
    assert_eq!(tidy(&block(&C), &mut room), Err(refusal(Code::NotReady, 4)));
    assert_eq!(room, [9; BLOCK]);
}

#[test]
fn reading_a_as_text() {
    let text = b"edition-one\n(let x7 int\n  (delay 0 (ext (add x7 1)))\n  (ext x7))\n";
    let mut room = [9; BLOCK + 3];
    assert_eq!(read(text, &mut room), Ok(Written { nodes: 8, length: 512 }));
    assert_eq!((&room[..BLOCK], &room[BLOCK..]), (&block(&A)[..], &[9; 3][..]));
    let mut printed = [9; 70];
    assert_eq!(print(&block(&A), &mut printed), Ok(65));
    assert_eq!((&printed[..65], &printed[65..]), (&text[..], &[9; 5][..]));
}

#[test]
fn text_refused_writes_nothing() {
    let mut room = [9; BLOCK];
    for (text, code, place) in [
        (&b"edition-one (ext y)"[..], Code::TextName, 17),
        (b"edition-one (input 8)", Code::TextNumber, 19),
        (b"edition-one (time", Code::TextWord, 17),
        (b"edition-one (let x int (ext x) (time))", Code::NotReady, 3),
    ] {
        assert_eq!(read(text, &mut room), Err(refusal(code, place)));
    }
    assert_eq!(read(b"edition-one (time)", &mut room[1..]), Err(refusal(Code::TextRoom, 0)));
    assert_eq!(print(&block(&A), &mut room[..64]), Err(refusal(Code::TextRoom, 0)));
    assert_eq!(print(&block(&C), &mut room), Err(refusal(Code::NotReady, 4)));
    assert_eq!(room, [9; BLOCK]);
}

#[test]
fn a_refusal_says_its_name() {
    let text = paired(&block(&A), &[], &[]).unwrap_err().to_string();
    assert_eq!(text, "refused: code 33 (NewProgramLength) at 0: of the new program: the program is empty, longer than 24 blocks or not whole blocks of 512 bytes");
    let text = check(&[]).unwrap_err().to_string();
    assert_eq!(text, "refused: code 1 (ProgramLength) at 0: the program is empty, longer than 24 blocks or not whole blocks of 512 bytes");
}

/// Reading A's table, with a first value and a step of its own.
fn counter(first: i32, step: i32) -> [u8; BLOCK] {
    let mut nodes = A;
    (nodes[1].5, nodes[4].5) = (step, first);
    block(&nodes)
}

#[test]
fn a_state_knows_its_program() {
    let (by_ones, by_sixty_twos, by_twos) = (counter(25, 1), counter(0, 62), counter(25, 2));
    assert_eq!(check(&by_ones), check(&by_twos));
    let (mut state, mut output) = ([0; 16], [9; 8]);
    start(&by_ones, &mut state).unwrap();
    run(&by_ones, &mut state, &record(100, None), &mut output).unwrap();
    let (kept, room) = (state, output);
    // Another program with the same cells: the state is refused, and nothing is changed.
    let restored = run(&by_twos, &mut state, &record(200, None), &mut output);
    assert_eq!(restored, Err(refusal(Code::OtherProgram, 0)));
    assert_eq!((state, output), (kept, room));
    assert_eq!(
        restored.unwrap_err().to_string(),
        "refused: code 15 (OtherProgram) at 0: the state is that of another program"
    );
    // Equal sums are not told apart.
    assert_eq!(by_ones[508..], by_sixty_twos[508..]);
    let ran = run(&by_sixty_twos, &mut state, &record(200, None), &mut output);
    assert_eq!((ran, output), (Ok(Ran { steps: 1, work: 13, wrapped: None }), int(26)));
    assert_eq!(state[..], state_of(&by_sixty_twos, 200, int(88)));
}
