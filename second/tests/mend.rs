//! Bringing a state back: the readings' own states, and what holds of every mended state.

mod common;

use common::{delay, input, node};
use second::generate;
use second::kinds;
use second::program::Program;
use second::random::Random;
use second::refusal::{self, Refusal};
use second::request::{self, Answer, Request};
use second::state::{self, State, CELL, HEADER};
use second::{format, mend};

/// The readings' table: a group of a delay from 10 (cell 2) with two branches, delays from 30 (cell 0,
/// branch 2) and 20 (cell 1, branch 5); the group's cell is 3.
fn berths() -> Vec<u8> {
    format::write(&[
        input(0),
        delay(0, 30),
        node(kinds::BRANCH, 3, 1, kinds::NO_NEXT, 0),
        input(0),
        delay(3, 20),
        node(kinds::BRANCH, 3, 4, 2, 0),
        input(0),
        delay(6, 10),
        node(kinds::GROUP, 0, 7, 5, 0),
    ])
}

/// The cell of an int in a branch; branch 0 is none.
fn held(word: u32, branch: u16) -> [u8; 8] {
    let ([w0, w1, w2, w3], [b0, b1]) = (word.to_le_bytes(), branch.to_le_bytes());
    [3, 1, b0, b1, w0, w1, w2, w3]
}

/// What mending makes of a time and cells of the berths: time and cells, and the list.
fn mended(time: u32, cells: [[u8; 8]; 4]) -> (u32, [[u8; 8]; 4], Vec<u16>) {
    let program = berths();
    let sum = format::sum_of_checks(&program).to_le_bytes();
    let mut state = [&time.to_le_bytes()[..], &sum, &cells.concat()].concat();
    let mut list = [7; 5];
    let listed = mend(&program, &mut state, &mut list).expect("all lengths are right");
    assert_eq!((&state[4..8], &list[listed..]), (&sum[..], &[7; 5][listed..]));
    let cell = |at: usize| state[HEADER + CELL * at..][..CELL].try_into().unwrap();
    (format::number32(&state, 0), [0, 1, 2, 3].map(cell), list[..listed].to_vec())
}

const AT_START: [[u8; 8]; 4] =
    [[3, 1, 0, 0, 30, 0, 0, 0], [3, 1, 0, 0, 20, 0, 0, 0], [3, 1, 0, 0, 10, 0, 0, 0], [0; 8]];

/// The start cells with some of them replaced.
fn cells<const COUNT: usize>(others: [(usize, [u8; 8]); COUNT]) -> [[u8; 8]; 4] {
    let mut cells = AT_START;
    others.into_iter().for_each(|(at, cell)| cells[at] = cell);
    cells
}

#[test]
fn no_branch_makes_the_body_current() {
    let bad = cells([(3, held(5, 1)), (0, held(31, 0)), (2, held(11, 0))]);
    assert_eq!(mended(8, bad), (8, cells([(2, held(11, 0))]), vec![0, 3]));
}

#[test]
fn a_branch_keeps_its_own_part_alone() {
    let in_five = cells([(0, held(31, 0)), (1, held(21, 0)), (2, held(11, 0)), (3, held(9, 5))]);
    let kept = cells([(1, held(21, 0)), (3, held(9, 5))]);
    assert_eq!(mended(8, in_five), (8, kept, vec![0, 2]));
    let in_two = cells([(0, held(31, 0)), (1, held(21, 0)), (3, held(9, 2))]);
    assert_eq!(mended(8, in_two), (8, cells([(0, held(31, 0)), (3, held(9, 2))]), vec![1]));
}

#[test]
fn what_no_group_holds_goes_to_zeros() {
    let other_type = [2, 1, 5, 0, 1, 0, 0, 0];
    let absent = [7, 0, 5, 0, 0, 0, 0, 0];
    let almost_zeros = [0, 0, 0, 0, 1, 0, 0, 0];
    let a_branch_alone = [0, 0, 5, 0, 0, 0, 0, 0];
    for bad in [other_type, absent, almost_zeros, a_branch_alone, held(1, 8), held(1, 9), [255; 8]]
    {
        assert_eq!(mended(8, cells([(3, bad)])), (8, AT_START, vec![3]));
    }
}

#[test]
fn what_no_delay_holds_goes_to_its_first_value() {
    let bytes_set = [3, 1, 1, 0, 11, 0, 0, 0];
    let absent = [3, 0, 0, 0, 0, 0, 0, 0];
    for bad in [bytes_set, absent, [0; 8], [7, 1, 0, 0, 1, 0, 0, 0], [3, 2, 0, 0, 1, 0, 0, 0]] {
        assert_eq!(mended(8, cells([(2, bad)])), (8, AT_START, vec![2]));
    }
    // In a part that is not current a valid one goes too, and one at start is not listed.
    assert_eq!(mended(8, cells([(0, held(31, 0)), (1, [9; 8])])), (8, AT_START, vec![0, 1]));
}

#[test]
fn the_time_stands_in_front() {
    for time in [0, 2_147_483_647, u32::MAX] {
        assert_eq!(mended(time, AT_START), (time, AT_START, vec![]));
    }
    for time in [2_147_483_648, u32::MAX - 1] {
        assert_eq!(mended(time, AT_START), (u32::MAX, AT_START, vec![65535]));
        let all = cells([(0, [1; 8]), (1, [1; 8]), (2, [1; 8]), (3, [1; 8])]);
        assert_eq!(mended(time, all), (u32::MAX, AT_START, vec![65535, 0, 1, 2, 3]));
    }
}

#[test]
fn codes_in_their_order() {
    let program = berths();
    let mut damaged = program.clone();
    damaged[4] ^= 1;
    let sum = format::sum_of_checks(&program).to_le_bytes();
    let bad = [&[0, 0, 0, 144][..], &sum, &[9; 32]].concat();
    let code = |program: &[u8], state: &[u8], entries: usize| {
        let (mut lent, mut list) = (state.to_vec(), vec![7; entries]);
        let refusal = mend(program, &mut lent, &mut list).unwrap_err();
        assert_eq!((lent.as_slice(), list), (state, vec![7; entries]));
        assert_eq!(refusal, Refusal::at(refusal.code, 0));
        refusal.code
    };
    assert_eq!(code(&damaged, &bad, 5), refusal::CHECK);
    assert_eq!(code(&program[..511], &bad, 4), refusal::LENGTH);
    let mut other = bad.clone();
    other[4] ^= 1;
    for entries in [0, 4, 6] {
        assert_eq!(code(&program, &bad[..39], entries), refusal::STATE);
        assert_eq!(code(&program, &[&other[..], &[0]].concat(), entries), refusal::STATE);
        assert_eq!(code(&program, &other, entries), refusal::OTHER_PROGRAM);
        assert_eq!(code(&program, &bad, entries), refusal::LIST);
    }
    assert_eq!(code(&program, &other, 5), refusal::OTHER_PROGRAM);
}

/// A generated request that goes through: program, state before and after, and the list.
fn went_through(random: &mut Random) -> (Vec<u8>, Vec<u8>, Vec<u8>, Vec<u16>) {
    loop {
        let request = generate::mend_request(random);
        let Request::Mend { program, state, list } = request.clone() else { panic!("a mend") };
        if let Answer::Mend(Ok(listed), after, room) = request.answer() {
            let (before, room) = (request::entries(&list), request::entries(&room));
            assert_eq!(before[listed..], room[listed..], "the room behind the list is left");
            return (program, state, after, room[..listed].to_vec());
        }
    }
}

/// The time and the cells of a state, as what is listed counts them.
fn contents(state: &[u8]) -> Vec<(u16, &[u8])> {
    let cells = (0..).zip(state[HEADER..].chunks(CELL));
    [(65535, &state[..4])].into_iter().chain(cells).collect()
}

#[test]
fn a_mended_state_is_well_formed_and_stays() {
    let mut random = Random::new(41);
    let (mut untouched, mut changed) = (0, 0);
    for _ in 0..3000 {
        let (file, before, mut after, list) = went_through(&mut random);
        let program = Program::read(&file).unwrap();
        assert!(State::read(&program, &after).is_ok());
        assert_eq!(before[4..8], after[4..8]);
        let pairs = contents(&before).into_iter().zip(contents(&after));
        let differ: Vec<u16> = pairs.filter(|(x, y)| x != y).map(|(x, _)| x.0).collect();
        assert_eq!(list, differ);
        if State::read(&program, &before).is_ok() {
            assert_eq!((&before, list.len()), (&after, 0));
            untouched += 1;
        }
        changed += usize::from(list.len() > 1);
        let once = after.clone();
        let mut room = vec![9; program.cells.len() + 1];
        assert_eq!(mend(&file, &mut after, &mut room), Ok(0));
        assert_eq!((after, room), (once, vec![9; program.cells.len() + 1]));
    }
    assert!(untouched > 500 && changed > 700, "{untouched} {changed}");
}

/// Whether a cell by itself is valid for its node, by the words of document 01.
fn valid(program: &Program, number: usize, cell: &[u8]) -> bool {
    let node = program.node(number);
    let value_of = |ty: u8| {
        let word = format::number32(cell, 4);
        let fits = [false, word == 0, word < 2, true][usize::from(ty & 3)];
        cell[0] == ty && ((cell[1] == 1 && fits) || (ty > 4 && cell[1] == 0 && word == 0))
    };
    let named = format::number16(cell, 2);
    match node.kind {
        kinds::DELAY => named == 0 && value_of(node.ty),
        _ if cell == [0; 8] => true,
        kinds::SWITCH => named == 0 && value_of(node.ty),
        _ => {
            let mut branches = program.tree.list(node.b);
            branches.any(|it| it == named as usize && value_of(program.node(it).ty))
        }
    }
}

/// The cells inside a node, each with whether it is in a current part by the bytes of a state.
fn cells_inside(
    program: &Program,
    state: &[u8],
    number: usize,
    current: bool,
    found: &mut Vec<(usize, bool)>,
) {
    let node = program.node(number);
    let cell = program.cell_at[number];
    let held = state.get(HEADER + CELL * cell.min(1 << 20)..).and_then(|rest| rest.get(..CELL));
    if cell != usize::MAX {
        found.push((cell, current));
    }
    let unset = held == Some(&[0; 8]);
    let mut inside =
        |part: u16, current| cells_inside(program, state, part as usize, current, found);
    match node.kind {
        kinds::SWITCH => {
            inside(node.a, current && unset);
            inside(node.b, current);
            inside(node.c, current && !unset);
        }
        kinds::GROUP => {
            inside(node.a, current && unset);
            let named = format::number16(held.unwrap(), 2) as usize;
            for branch in program.tree.list(node.b) {
                inside(program.node(branch).a, current && !unset && branch == named);
            }
        }
        _ => kinds::children(&node).for_each(|child| inside(child.number, current)),
    }
}

#[test]
fn of_all_choices_of_cells_to_put_to_start_one_alone_will_do() {
    let mut random = Random::new(42);
    let (mut tried, mut many) = (0, 0);
    while tried < 1500 {
        let (file, before, after, _) = went_through(&mut random);
        let program = Program::read(&file).unwrap();
        let count = program.cells.len();
        if count > 7 {
            continue;
        }
        let start = |cell: usize| state::start_cell(&program, program.cells[cell]).value.bytes();
        let fits = |chosen: &Vec<u8>| {
            let mut inside = Vec::new();
            cells_inside(&program, chosen, program.tree.root(), true, &mut inside);
            assert_eq!(inside.len(), count);
            inside.iter().all(|&(cell, current)| {
                let [old, new] = [&before, chosen].map(|it| &it[HEADER + CELL * cell..][..CELL]);
                let number = program.cells[cell];
                match current && valid(&program, number, old) {
                    true => old == new,
                    false => new == start(cell),
                }
            })
        };
        let choice = |set: usize| {
            let mut state = before.clone();
            for cell in (0..count).filter(|cell| set >> cell & 1 == 1) {
                state[HEADER + CELL * cell..][..CELL].copy_from_slice(&start(cell));
            }
            state
        };
        let mut good: Vec<Vec<u8>> = (0..1 << count).map(choice).filter(fits).collect();
        good.sort();
        good.dedup();
        let mut wanted = after.clone();
        wanted[..4].copy_from_slice(&before[..4]);
        assert_eq!(good, [wanted]);
        tried += 1;
        many += usize::from(count > 3);
    }
    assert!(many > 300, "{many}");
}
