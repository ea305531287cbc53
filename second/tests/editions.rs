//! Edition two: what the editions share, and jumps that leave more than one group at once.

use second::damage;
use second::format::{self, EDITION_AT};
use second::generate::{self, Sample};
use second::kinds::{self, Node};
use second::program::Program;
use second::random::Random;
use second::request::{Answer, Request};
use second::state::HEADER;
use second::{check, run};

/// The same nodes in an edition.
fn in_edition(sample: &Sample, edition: u8) -> Sample {
    generate::sample(sample.nodes.clone(), edition)
}

/// Code and place of a check, 0 and 0 where it accepts.
fn verdict(file: &[u8]) -> (u32, u32) {
    check(file).err().map_or((0, 0), |refusal| (refusal.code, refusal.place))
}

/// A program of any sort: accepted, hasty or wild.
fn any_program(random: &mut Random) -> Sample {
    let count = random.between(8, 70);
    match random.below(4) {
        0 => generate::wild(random),
        1 => generate::hasty(random, count),
        _ => generate::accepted(random, count),
    }
}

/// The same in both editions, now and then damaged alike.
fn in_both(random: &mut Random) -> [Vec<u8>; 2] {
    let sample = any_program(random);
    let mut file = sample.file;
    if random.chance(50) {
        damage::program(random, &mut file, &sample.nodes);
    }
    [0, 1].map(|edition| {
        let mut file = file.clone();
        format::set_edition(&mut file, edition);
        file
    })
}

#[test]
fn scope_alone_tells_the_editions_apart() {
    let mut random = Random::new(31);
    let (mut later, mut outward) = (0, 0);
    for _ in 0..4000 {
        let [one, two] = in_both(&mut random);
        let (first, second) = (verdict(&one), verdict(&two));
        if first.0 != 6 {
            assert_eq!(check(&one), check(&two));
        } else if second.0 == 6 {
            // Edition two lets some cases pass, and finds a later place.
            assert!(second.1 >= first.1, "{first:?} {second:?}");
            later += usize::from(second.1 > first.1);
        } else {
            outward += usize::from(second.0 == 0);
        }
    }
    assert!(later > 8 && outward > 200, "{later} {outward}");
}

#[test]
fn what_edition_one_accepts_runs_alike_in_edition_two() {
    let mut random = Random::new(32);
    let mut seen = 0;
    for _ in 0..800 {
        let count = random.between(1, 80);
        let one = in_edition(&generate::accepted(&mut random, count), 0);
        if check(&one.file).is_err() {
            continue;
        }
        let two = in_edition(&one, 1);
        let (state, time) = generate::reached_state(&mut random, &one);
        let records = generate::records(&mut random, 6, time);
        // Each from the state with its own sum, which stands before the cells.
        let ran = |sample: &Sample| {
            let (mut state, mut output) = (state.clone(), vec![0; 48]);
            state[4..HEADER].copy_from_slice(&generate::start_state(sample)[4..HEADER]);
            let done = run(&sample.file, &mut state, &records, &mut output);
            state.drain(4..HEADER);
            (done.map(|it| (it.steps, it.work)), state, output)
        };
        let played = ran(&one);
        assert!(played.0.is_ok());
        assert_eq!(played, ran(&two));
        seen += 1;
    }
    assert!(seen > 400, "{seen}");
}

/// The group at which a part's way down ends, if it ends at one: through let bodies only.
fn inner_group(nodes: &[Node], part: usize) -> Option<usize> {
    match nodes[part].kind {
        kinds::LET => inner_group(nodes, nodes[part].b as usize),
        kinds::GROUP => Some(part),
        _ => None,
    }
}

/// The current part of a group by its cell's bytes.
fn current(nodes: &[Node], group: usize, cell: &[u8]) -> usize {
    let branch = u16::from_le_bytes([cell[2], cell[3]]) as usize;
    nodes[if branch == 0 { group } else { branch }].a as usize
}

#[test]
fn jumps_outward_are_taken_and_put_inner_groups_to_start() {
    let mut random = Random::new(33);
    let (mut taken, mut moved) = (0, 0);
    for _ in 0..4000 {
        let count = random.between(20, 90);
        let sample = generate::accepted(&mut random, count);
        let program = Program::read(&sample.file).expect("it is accepted");
        let mut state = generate::start_state(&sample);
        for record in generate::records(&mut random, 9, 0).chunks(40) {
            let before = state.clone();
            run(&sample.file, &mut state, record, &mut [0; 8]).expect("a step");
            let cell = |state: &[u8], number: usize| {
                let at = HEADER + 8 * program.cell_at[number];
                state[at..at + 8].to_vec()
            };
            let groups = program.cells.iter().filter(|&&it| program.node(it).kind == kinds::GROUP);
            for &group in groups {
                let old = cell(&before, group);
                let Some(inner) = inner_group(&sample.nodes, current(&sample.nodes, group, &old))
                else {
                    continue;
                };
                // A group whose current part is a group changes by a jump out of that one; by one
                // that leaves itself too, or a switch above, it goes to start.
                let new = cell(&state, group);
                if new != old && new != [0; 8] {
                    taken += 1;
                    moved += usize::from(cell(&before, inner) != [0; 8]);
                    assert_eq!(cell(&state, inner), [0; 8]);
                    assert_eq!(sample.file[EDITION_AT], 1);
                }
            }
        }
    }
    assert!(taken > 200 && moved > 8, "{taken} {moved}");
}

#[test]
fn damaged_editions_are_code_3_at_their_block() {
    let mut random = Random::new(34);
    // Refused by the edition alone: at block 0, at a later block.
    let mut places = [0usize; 2];
    for _ in 0..8000 {
        let Request::Check { program } = generate::check_request(&mut random) else { continue };
        let answer = Request::Check { program: program.clone() }.answer();
        let Answer::Check(Err(refusal)) = answer else { continue };
        if refusal.code != 3 {
            continue;
        }
        let block = &program[refusal.place as usize * format::BLOCK..][..4];
        let blocks = program.len() / format::BLOCK;
        let numbered = format::number16(block, 0) as u32 == refusal.place;
        if numbered && block[2] as usize == blocks {
            assert!(block[EDITION_AT] != program[EDITION_AT] || block[EDITION_AT] > 1);
            places[usize::from(refusal.place > 0)] += 1;
        }
    }
    assert!(places.iter().all(|&count| count > 30), "{places:?}");
}
