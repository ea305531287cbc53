//! Seeded streams of requests, and files for watchrun.

use crate::calls;
use crate::card;
use crate::chain;
use crate::damage;
use crate::format;
use crate::grow;
use crate::kinds::{self, Node};
use crate::overgrow;
use crate::partner;
use crate::random::Random;
use crate::record::{FLAGS, MOST_RECORDS, RECORD};
use crate::request::{self, Request};
use crate::state::{self, CELL, HEADER, LATEST};
use crate::tangle;
use crate::tidy;
use crate::watch;
use crate::wild;

/// A program as nodes and as a file.
#[derive(Clone, Debug)]
pub struct Sample {
    pub nodes: Vec<Node>,
    pub file: Vec<u8>,
}

/// Sizes at which a block is just full or just begun.
const BORDERS: [usize; 8] = [42, 43, 84, 85, 126, 127, 966, 967];

/// A size: mostly small, some medium, some full.
pub fn size(random: &mut Random) -> usize {
    match random.weighted(&[64, 23, 6, 3, 4]) {
        0 => random.between(1, 40),
        1 => random.between(41, 250),
        2 => random.between(251, 1008),
        3 => 1008,
        _ => random.one(&BORDERS),
    }
}

/// An edition, as byte 3 says it.
pub fn edition(random: &mut Random) -> u8 {
    u8::from(random.chance(40))
}

/// The sample of these nodes in an edition.
pub fn sample(nodes: Vec<Node>, edition: u8) -> Sample {
    let mut file = format::write(&nodes);
    format::set_edition(&mut file, edition);
    Sample { nodes, file }
}

/// An accepted program of so many nodes, of either edition.
pub fn accepted(random: &mut Random, count: usize) -> Sample {
    let edition = edition(random);
    sample(grow::grow(random, edition, count, 0), edition)
}

/// A program that may use a let's variable too soon.
pub fn hasty(random: &mut Random, count: usize) -> Sample {
    let (edition, percent) = (edition(random), random.one(&[3, 10, 40]));
    sample(grow::grow(random, edition, count, percent), edition)
}

/// A program whose lets' own variables are used in their definitions, in places that count or not.
pub fn tangled(random: &mut Random, count: usize) -> Sample {
    let edition = edition(random);
    let mut nodes = grow::grow(random, edition, count, 0);
    tangle::tangle(random, &mut nodes);
    sample(nodes, edition)
}

/// A program around one long chain.
pub fn spine(random: &mut Random, count: usize) -> Sample {
    let edition = edition(random);
    sample(tangle::spine(random, count), edition)
}

/// An accepted program with many lets that are not used.
pub fn overgrown(random: &mut Random, count: usize) -> Sample {
    let edition = edition(random);
    let before = random.between(1, count);
    // Of three the one of which tidying leaves most.
    let grown = [0; 3].map(|_| grow::grow(random, edition, before, 0));
    let nodes = grown.into_iter().max_by_key(|it| tidy::order(it).len()).unwrap_or_default();
    sample(overgrow::overgrow(random, edition, nodes, count), edition)
}

/// A program of right shape whose types, binders and targets are at random.
pub fn wild(random: &mut Random) -> Sample {
    let count = random.one(&[1, 2, 3, 4, 5, 6, 8, 12, 20, 60]);
    let edition = edition(random);
    sample(wild::wild(random, count), edition)
}

/// So many well-formed records from a time on, with events now and then.
pub fn records(random: &mut Random, count: usize, from: u32) -> Vec<u8> {
    let often = random.one(&[10, 40, 60, 95]);
    let pace = random.one(&[1, 100, 100_000, 1 << 30]);
    let mut time = from;
    let mut bytes = Vec::with_capacity(count * RECORD);
    for _ in 0..count {
        if !random.chance(30) {
            time = time.saturating_add(random.below(pace) as u32).min(LATEST);
        }
        bytes.extend(record(random, time, often));
    }
    bytes
}

/// One well-formed record; each event is present so often of a hundred.
fn record(random: &mut Random, time: u32, often: usize) -> [u8; RECORD] {
    let mut record = [0; RECORD];
    record[..4].copy_from_slice(&time.to_le_bytes());
    for channel in 0..8 {
        let at = 4 + 4 * channel + if channel < 4 { 0 } else { 4 };
        if channel < 4 || random.chance(often) {
            record[at..at + 4].copy_from_slice(&random.word().to_le_bytes());
            record[FLAGS] |= if channel < 4 { 0 } else { 1 << (channel - 4) };
        }
    }
    record
}

/// The length of the state of these nodes.
pub fn state_length(nodes: &[Node]) -> usize {
    HEADER + CELL * nodes.iter().filter(|node| kinds::has_cell(node.kind)).count()
}

/// The start state of a program, or zeros where it is refused.
pub fn start_state(sample: &Sample) -> Vec<u8> {
    let mut state = vec![0; state_length(&sample.nodes)];
    let _ = calls::start(&sample.file, &mut state);
    state
}

/// A state reached after some steps, and the time after it.
pub fn reached_state(random: &mut Random, sample: &Sample) -> (Vec<u8>, u32) {
    let steps = random.one(&[0, 0, 1, 2, 3, 6, 12]);
    state_after(random, sample, steps)
}

/// A state reached after so many steps, and the time after it.
fn state_after(random: &mut Random, sample: &Sample, steps: usize) -> (Vec<u8>, u32) {
    let mut state = start_state(sample);
    let from = random.one(&[0, 0, 5, 1000, 2_147_483_000]);
    let before = records(random, steps, from);
    let _ = calls::run(&sample.file, &mut state, &before, &mut vec![0; steps * calls::OUTPUT]);
    let time = format::number32(&state, 0);
    (state, if time > LATEST { from } else { time })
}

/// A check request: accepted programs, hasty and wild ones, and damaged ones.
pub fn check_request(random: &mut Random) -> Request {
    let count = size(random);
    let (sample, percent) = match random.below(20) {
        0..5 => (hasty(random, count.max(8)), 20),
        5..8 => (wild(random), 20),
        _ => (accepted(random, count), 65),
    };
    let mut program = sample.file;
    if random.chance(percent) {
        damaged(random, &mut program, &sample.nodes);
    }
    Request::Check { program }
}

/// Damages a program once, or now and then two or three times.
pub fn damaged(random: &mut Random, file: &mut Vec<u8>, nodes: &[Node]) {
    let times = random.one(&[1, 1, 1, 1, 2, 3]);
    for _ in 0..times {
        if file.len() >= format::BLOCK && file.len() <= format::BLOCK * format::MOST_BLOCKS {
            damage::program(random, file, nodes);
        }
    }
}

/// A request to any of the calls; many a run has one record.
pub fn request(random: &mut Random) -> Request {
    match random.weighted(&[22, 11, 25, 26, 3, 3, 3, 3, 4]) {
        0 => check_request(random),
        1 => start_request(random),
        2 => run_request(random, true),
        3 => run_request(random, false),
        4 => chain_request(random),
        5 => mend_request(random),
        6 => tidy_request(random),
        7 => pair_request(random),
        _ => watch_request(random),
    }
}

/// A chain request: programs that are not ready, most of them, some that are, wild and damaged ones; rooms
/// of 1,008 entries and of others.
pub fn chain_request(random: &mut Random) -> Request {
    let count = size(random);
    let (sample, percent) = match random.below(20) {
        0..3 => (hasty(random, count.max(8)), 10),
        3..10 => (tangled(random, count.max(8)), 10),
        10..16 => (spine(random, count), 10),
        16..18 => (wild(random), 20),
        _ => (accepted(random, count), 25),
    };
    let mut program = sample.file;
    if random.chance(percent) {
        damaged(random, &mut program, &sample.nodes);
    }
    let entries = match random.chance(85) {
        true => chain::ENTRIES,
        false => random.one(&[0, 1, sample.nodes.len(), 504, 1007, 1009, 1010, 2016]),
    };
    Request::Chain { program, room: any_bytes(random, 2 * entries) }
}

/// So many bytes.
pub fn any_bytes(random: &mut Random, count: usize) -> Vec<u8> {
    (0..count).map(|_| random.draw() as u8).collect()
}

/// A mend request: states that steps reached, spoilt cell by cell, or not at all; rooms for the list and
/// others.
pub fn mend_request(random: &mut Random) -> Request {
    let (sample, program) = sample_for_call(random, 12);
    let (mut state, _) = reached_state(random, &sample);
    // A program that is damaged and still accepted is not the state's own; most of them get its sum.
    if random.chance(80) {
        state::put_sum(&mut state, format::sum_of_checks(&program));
    }
    match random.below(20) {
        0..3 => {}
        3 => damage::state(random, &mut state, &sample.nodes),
        4 => state
            .resize(random.one(&[0, 4, 8, state.len() + 1, state.len() - 1, state.len() + 8]), 7),
        5 => state[HEADER - random.between(1, 4)] ^= 1 << random.below(8),
        _ => card::spoil(random, &mut state, &sample.nodes),
    }
    let right = (state_length(&sample.nodes) - HEADER) / CELL + 1;
    let entries = match random.chance(92) {
        true => right,
        false => random.one(&[0, 1, right - 1, right + 1, right + 2, 2 * right, 1009]),
    };
    Request::Mend { program, state, list: any_bytes(random, 2 * entries) }
}

/// A program for tidying: overgrown ones most, others, and now and then one that is damaged.
fn sample_for_tidying(random: &mut Random, damaged_percent: usize) -> (Sample, Vec<u8>) {
    let count = size(random);
    let sample = match random.below(20) {
        0 => tangled(random, count.max(8)),
        1 => wild(random),
        2 | 3 => accepted(random, count),
        _ => overgrown(random, count),
    };
    let mut file = sample.file.clone();
    if random.chance(damaged_percent) {
        damaged(random, &mut file, &sample.nodes);
    }
    (sample, file)
}

/// A tidy request: rooms of the program's length, longer ones, and shorter ones.
pub fn tidy_request(random: &mut Random) -> Request {
    let (_, program) = sample_for_tidying(random, 15);
    let length = program.len();
    let longer = random.one(&[length + 1, length + 511, length + 512, length + 1300, 12_288]);
    let room = match random.below(20) {
        0..10 => length,
        10..17 => longer,
        17 => length.saturating_sub(format::BLOCK),
        _ => random.one(&[0, 1, length / 2, length.saturating_sub(1), 512]),
    };
    Request::Tidy { program, room: any_bytes(random, room) }
}

/// A pair request: offers of right pairings, many of them bent in one way or two; other editions, other
/// counts of entries, damaged programs.
pub fn pair_request(random: &mut Random) -> Request {
    let (sample, old) = sample_for_tidying(random, 10);
    let mut offer = match calls::check(&sample.file) {
        Ok(_) => partner::right(random, &sample.nodes),
        // Of a program that is refused, itself.
        Err(_) => partner::Offer { nodes: sample.nodes.clone(), pairing: identity(&sample.nodes) },
    };
    if calls::check(&sample.file).is_ok() && random.chance(45) {
        for _ in 0..random.one(&[1, 1, 1, 2]) {
            offer.bend(random, &sample.nodes);
        }
    }
    if random.chance(2) {
        tangle::tangle(random, &mut offer.nodes);
    }
    let mut new = format::write(&offer.nodes);
    let edition = sample.file[format::EDITION_AT] ^ u8::from(random.chance(4));
    format::set_edition(&mut new, edition);
    if random.chance(14) {
        damaged(random, &mut new, &offer.nodes);
    }
    let mut pairing = offer.pairing;
    if random.chance(5) {
        let count = pairing.len();
        let more = [count + 1, count - 1, 0, 1, 2 * count, sample.nodes.len(), 1008];
        pairing.resize(random.one(&more), random.below(count) as u16);
    }
    Request::Pair { old, new, pairing: request::bytes(&pairing) }
}

/// The pairing of a table with itself.
fn identity(nodes: &[Node]) -> Vec<u16> {
    (0..nodes.len() as u16).collect()
}

/// A program for a call that needs more than the check; now and then damaged.
pub fn sample_for_call(random: &mut Random, damaged_percent: usize) -> (Sample, Vec<u8>) {
    let count = size(random);
    let sample = match random.chance(6) {
        true => hasty(random, count.max(8)),
        false => accepted(random, count),
    };
    let mut file = sample.file.clone();
    if random.chance(damaged_percent) {
        damaged(random, &mut file, &sample.nodes);
    }
    (sample, file)
}

fn start_request(random: &mut Random) -> Request {
    let (sample, program) = sample_for_call(random, 35);
    let mut length = state_length(&sample.nodes);
    if random.chance(20) {
        length = random.one(&[0, 4, 8, length + 1, length - 1, length + 8, length - 4]);
    }
    Request::Start { program, state: any_bytes(random, length) }
}

fn run_request(random: &mut Random, single: bool) -> Request {
    let run = lent_run(random, single);
    Request::Run {
        program: run.program,
        state: run.state,
        records: run.records,
        output: run.output,
    }
}

/// What a run is lent.
struct LentRun {
    nodes: Vec<Node>,
    program: Vec<u8>,
    state: Vec<u8>,
    records: Vec<u8>,
    output: Vec<u8>,
}

/// A run's rooms: states reached and damaged, records in order and damaged, lengths right and wrong.
fn lent_run(random: &mut Random, single: bool) -> LentRun {
    let (sample, program) = sample_for_call(random, 15);
    let (mut state, time) = reached_state(random, &sample);
    let count = if single { 1 } else { record_count(random, sample.nodes.len()) };
    let from = if random.chance(5) { time.saturating_sub(1) } else { time };
    let mut records = records(random, count, from);
    let mut output = vec![random.draw() as u8; count * calls::OUTPUT];
    // A program that is damaged and still accepted is not the state's own; half of them get its sum.
    if random.chance(50) {
        state::put_sum(&mut state, format::sum_of_checks(&program));
    }
    if random.chance(25) {
        for _ in 0..random.one(&[1, 1, 2]) {
            damage::state(random, &mut state, &sample.nodes);
        }
    }
    if random.chance(25) {
        damage::records(random, &mut records);
    }
    if random.chance(10) {
        wrong_lengths(random, &mut records, &mut output);
    }
    LentRun { nodes: sample.nodes, program, state, records, output }
}

/// A watch request: a run's rooms with a list of signal nodes, most of them right, and a second room.
pub fn watch_request(random: &mut Random) -> Request {
    let single = random.chance(30);
    let run = lent_run(random, single);
    let list = watch_list(random, &run.nodes);
    // A list that is too long is refused before the second room is looked at.
    let entries = list.len().min(watch::MOST_ENTRIES);
    let right = run.records.len() / RECORD * entries * calls::OUTPUT;
    let length = match random.chance(92) {
        true => right,
        false => random.one(&[0, 8, right + 1, right + 8, right.saturating_sub(8), 2 * right]),
    };
    let shown = vec![random.draw() as u8; length];
    let LentRun { program, state, records, output, .. } = run;
    Request::Watch { program, state, list: request::bytes(&list), records, output, shown }
}

/// A list to watch: signal nodes in order, now and then bent in one way.
fn watch_list(random: &mut Random, nodes: &[Node]) -> Vec<u16> {
    let signal = |&number: &u16| {
        nodes
            .get(number as usize)
            .is_some_and(|it| (kinds::INPUT..=kinds::UNTIL).contains(&it.kind))
    };
    let signals: Vec<u16> = (0..nodes.len() as u16).filter(signal).collect();
    let wanted = random.between(1, watch::MOST_ENTRIES);
    let mut list: Vec<u16> = (0..wanted).map(|_| random.one(&signals)).collect();
    list.sort_unstable();
    list.dedup();
    if random.chance(82) {
        return list;
    }
    let place = random.below(list.len());
    match random.below(8) {
        0 => list.clear(),
        1 => list.resize(random.between(9, 20), 0),
        2 => list.push(list[place]),
        3 => list.insert(place, list[place]),
        4 => list.swap(0, place),
        5 => list[place] = random.below(nodes.len()) as u16,
        6 => list[place] = random.one(&[nodes.len() as u16, 1008, 65535]),
        _ => list = signals.iter().copied().take(random.between(8, 9)).collect(),
    }
    list
}

/// How many records a run gets: few, and rarely the most where the program is small.
fn record_count(random: &mut Random, nodes: usize) -> usize {
    match random.below(400) {
        0 if nodes <= 40 => MOST_RECORDS,
        0..20 if nodes <= 120 => random.between(20, 300),
        _ => random.between(0, 16),
    }
}

/// A long run: programs of every size, more records than `request` gives them, from a state that up
/// to 200 steps reached. Most are accepted, and the rest refused at any of their records.
pub fn long_request(random: &mut Random) -> Request {
    let nodes = size(random);
    let sample = accepted(random, nodes);
    let before = random.between(0, 200);
    let (state, time) = state_after(random, &sample, before);
    let count = match random.below(40) {
        0 if nodes <= 250 => MOST_RECORDS,
        0..4 => random.between(301, 1500),
        _ => random.between(17, 300),
    };
    let mut records = records(random, count, time);
    if random.chance(25) {
        damage::records(random, &mut records);
    }
    let output = vec![random.draw() as u8; count * calls::OUTPUT];
    Request::Run { program: sample.file, state, records, output }
}

/// Wrong lengths of the records, of the output room, or of both.
fn wrong_lengths(random: &mut Random, records: &mut Vec<u8>, output: &mut Vec<u8>) {
    let near = |random: &mut Random, length: usize, whole: usize| {
        let less = length.saturating_sub(whole);
        let far = (MOST_RECORDS + 1) * whole;
        let many = [length + 1, length.saturating_sub(1), length + whole, less, 0];
        if whole == RECORD && random.chance(6) {
            far
        } else {
            random.one(&many)
        }
    };
    if random.chance(50) {
        let to = near(random, records.len(), RECORD);
        records.resize(to, 0);
    }
    if random.chance(70) {
        let to = near(random, output.len(), calls::OUTPUT);
        output.resize(to, 7);
    }
}

/// Input for watchrun: blocks and then records, now and then damaged.
pub fn watch_input(random: &mut Random) -> Vec<u8> {
    let (_, mut input) = sample_for_call(random, 15);
    let count = random.between(0, 30);
    let mut tail = records(random, count, 0);
    if random.chance(20) {
        damage::records(random, &mut tail);
    }
    if random.chance(10) {
        let to = tail.len().saturating_sub(random.between(1, RECORD));
        tail.truncate(to);
    }
    input.extend(tail);
    input
}
