//! What holds of all programs, states and records, over generated ones.

use second::format;
use second::generate::{self, Sample};
use second::kinds;
use second::random::Random;
use second::request::{Answer, Request};
use second::typist;
use second::value::Value;
use second::{check, run, start, watched, Refusal};

#[test]
fn grown_programs_are_accepted_and_have_their_size() {
    let mut random = Random::new(1);
    let small = (1..=60).cycle().take(1800);
    for count in small.chain([100, 333, 500, 777, 1007, 1008, 1008, 1008, 1008]) {
        let sample = generate::accepted(&mut random, count);
        let accepted = check(&sample.file);
        assert_eq!(accepted.map(|it| it.nodes), Ok(count), "{:?}", sample.nodes);
    }
}

#[test]
fn grown_programs_have_all_kinds_types_and_orders() {
    let mut random = Random::new(2);
    let mut seen = [0usize; 30];
    let mut root_types = [0usize; 8];
    let mut apart = 0;
    for _ in 0..400 {
        let sample = generate::accepted(&mut random, 40);
        sample.nodes.iter().for_each(|node| seen[node.kind as usize] += 1);
        root_types[check(&sample.file).unwrap().root_type as usize] += 1;
        // In children-first order a node's last child stands right before it.
        let near = |(number, node): (usize, &kinds::Node)| {
            let last = kinds::children(node).map(|child| child.number as usize).max();
            last.is_none_or(|last| last + 1 == number)
        };
        apart += usize::from(!sample.nodes.iter().enumerate().all(near));
    }
    for kind in (1..=10).chain(16..=29) {
        assert!(seen[kind] > 40, "kind {kind}: {}", seen[kind]);
    }
    assert!([1, 2, 3, 5, 6, 7].iter().all(|&ty: &usize| root_types[ty] > 5), "{root_types:?}");
    assert!(apart > 100, "{apart}");
}

/// A sample with a state it reached and records that follow.
fn situation(random: &mut Random, count: usize, steps: usize) -> (Sample, Vec<u8>, Vec<u8>) {
    let sample = generate::accepted(random, count);
    let (state, time) = generate::reached_state(random, &sample);
    let records = generate::records(random, steps, time);
    (sample, state, records)
}

#[test]
fn a_step_keeps_type_state_and_bound() {
    let mut random = Random::new(3);
    for _ in 0..800 {
        let count = random.between(1, 80);
        let (sample, mut state, records) = situation(&mut random, count, 6);
        let accepted = check(&sample.file).unwrap();
        assert!(accepted.bound <= (count * (count + 1)) as u64);
        for record in records.chunks(40) {
            let mut output = [0xAA; 8];
            let done = run(&sample.file, &mut state, record, &mut output).unwrap();
            assert!(done.steps == 1 && done.work <= accepted.bound);
            let word = format::number32(&output, 4) as i32;
            let value = Value::from_parts(output[0], output[1] as u16, word).unwrap();
            assert_eq!((value.ty, value.bytes()), (accepted.root_type, output));
            assert_eq!(state[..4], record[..4]);
            run(&sample.file, &mut state, &[], &mut []).expect("the state stays well-formed");
        }
    }
}

#[test]
fn a_run_cut_anywhere_is_the_same() {
    let mut random = Random::new(4);
    for _ in 0..300 {
        let count = random.between(1, 120);
        let steps = random.between(1, 10);
        let (sample, state, records) = situation(&mut random, count, steps);
        let mut whole = (state.clone(), vec![0; steps * 8]);
        let done = run(&sample.file, &mut whole.0, &records, &mut whole.1).unwrap();
        assert_eq!(done.steps, steps);
        for cut in 0..=steps {
            let mut parts = (state.clone(), vec![0; steps * 8]);
            let (first, second) = records.split_at(cut * 40);
            let (left, right) = parts.1.split_at_mut(cut * 8);
            let one = run(&sample.file, &mut parts.0, first, left).unwrap();
            let two = run(&sample.file, &mut parts.0, second, right).unwrap();
            assert_eq!((one.work + two.work, &parts), (done.work, &whole));
        }
        let mut single = (state, vec![0; steps * 8]);
        let mut work = 0;
        for (record, room) in records.chunks(40).zip(single.1.chunks_mut(8)) {
            work += run(&sample.file, &mut single.0, record, room).unwrap().work;
        }
        assert_eq!((work, single), (done.work, whole));
    }
}

/// How many steps of a refused run were done.
fn steps_done(refusal: &Refusal) -> usize {
    if matches!(refusal.code, 12 | 13) {
        refusal.place as usize
    } else {
        0
    }
}

/// Holds a refusal against the memory before it; a run keeps what its finished steps made.
fn keeps_memory(request: &Request, answer: &Answer) {
    match (request, answer) {
        (Request::Start { state, .. }, Answer::Start(Err(_), after)) => assert_eq!(state, after),
        (Request::Chain { room, .. }, Answer::Chain(Err(_), after)) => assert_eq!(room, after),
        (Request::Tidy { room, .. }, Answer::Tidy(Err(_), after)) => assert_eq!(room, after),
        (Request::Read { room, .. }, Answer::Read(Err(_), after)) => assert_eq!(room, after),
        (Request::Print { room, .. }, Answer::Print(Err(_), after)) => assert_eq!(room, after),
        (Request::Mend { state, list, .. }, Answer::Mend(Err(_), after, room)) => {
            assert_eq!((state, list), (after, room))
        }
        (
            Request::Run { program, state, records, output },
            Answer::Steps(Err(refusal), after, room),
        ) => {
            let steps = steps_done(refusal);
            let mut kept = (state.clone(), output.clone());
            if steps > 0 {
                let (records, room) = (&records[..steps * 40], &mut kept.1[..steps * 8]);
                let done = run(program, &mut kept.0, records, room).unwrap();
                assert_eq!((done.steps, done.work), (steps, refusal.work));
            }
            assert_eq!((&kept.0, &kept.1), (after, room));
        }
        (
            Request::Watch { program, state, list, records, output, shown },
            Answer::Watch(Err(refusal), after, room, seen),
        ) => {
            let steps = steps_done(refusal);
            let mut kept = (state.clone(), output.clone(), shown.clone());
            if steps > 0 {
                let list = second::request::entries(list);
                let (records, rows) = (&records[..steps * 40], steps * list.len() * 8);
                let (output, shown) = (&mut kept.1[..steps * 8], &mut kept.2[..rows]);
                let done = watched(program, &mut kept.0, records, &list, output, shown).unwrap();
                assert_eq!((done.steps, done.work), (steps, refusal.work));
            }
            assert_eq!((&kept.0, &kept.1, &kept.2), (after, room, seen));
        }
        _ => {}
    }
}

/// Whether a call may answer a code; code 14 is gone.
fn own(call: &str, code: usize) -> bool {
    match call {
        "check" => code <= 8,
        "start" => code <= 9,
        "run" => code <= 13 || code == 15,
        "watch" => code <= 13 || code == 15 || code == 17 || code == 18,
        "chain" => code <= 7 || code == 25 || code == 26,
        "mend" => code <= 9 || code == 15 || code == 16,
        "tidy" => code <= 8 || code == 19,
        "read" => code == 0 || (6..=8).contains(&code) || (21..=24).contains(&code),
        "print" => code <= 8 || code == 24,
        _ => code <= 8 || (27..=29).contains(&code) || (33..=40).contains(&code),
    }
}

#[test]
fn refusals_leave_memory_and_every_code_comes_up() {
    let mut random = Random::new(5);
    let mut seen = [[0usize; 41]; second::request::CALLS.len()];
    for number in 0..30_000 {
        let request = match number % 10 {
            0..4 => generate::request(&mut random),
            4 => generate::mend_request(&mut random),
            5 => generate::tidy_request(&mut random),
            6 => generate::pair_request(&mut random),
            7 => typist::read_request(&mut random),
            8 => generate::watch_request(&mut random),
            _ if number % 20 == 9 => generate::chain_request(&mut random),
            _ => typist::print_request(&mut random),
        };
        let answer = request.clone().answer();
        keeps_memory(&request, &answer);
        let call = second::request::CALLS.iter().position(|&call| call == request.parts().0);
        seen[call.unwrap()][answer.code() as usize] += 1;
    }
    for (call, counts) in second::request::CALLS.iter().zip(&seen) {
        for (code, &count) in counts.iter().enumerate() {
            let own = own(call, code);
            assert_eq!(if own { count >= 4 } else { count > 0 }, own, "{call} {code}: {count}");
        }
    }
}

#[test]
fn each_code_has_various_places() {
    let mut random = Random::new(6);
    let mut places = vec![std::collections::BTreeSet::new(); 15];
    for _ in 0..6000 {
        if let Answer::Check(Err(refusal)) = generate::check_request(&mut random).answer() {
            places[refusal.code as usize].insert(refusal.place);
        }
    }
    let counts: Vec<usize> = places.iter().map(|set| set.len()).collect();
    assert_eq!(counts[1], 1);
    assert!(counts[2] > 8 && counts[3] > 8, "{counts:?}");
    assert!(counts[4..9].iter().all(|&count| count > 40), "{counts:?}");
}

#[test]
fn wild_programs_have_a_right_shape() {
    let mut random = Random::new(9);
    let mut seen = [0usize; 9];
    for _ in 0..2000 {
        let sample = generate::wild(&mut random);
        let code = check(&sample.file).err().map_or(0, |refusal| refusal.code);
        seen[code as usize] += 1;
    }
    assert_eq!(seen[1..6], [0; 5]);
    assert!(seen[0] > 50 && seen[6] > 300 && seen[7] > 300, "{seen:?}");
}

#[test]
fn switches_catch_and_untils_fire() {
    let mut random = Random::new(7);
    // For switches and for groups: those that caught something, and all.
    let mut counts = [[0usize; 2]; 2];
    let mut full = 0;
    for _ in 0..600 {
        let count = random.between(5, 60);
        let (sample, mut state, records) = situation(&mut random, count, 6);
        let bound = check(&sample.file).unwrap().bound;
        for record in records.chunks(40) {
            let work = run(&sample.file, &mut state, record, &mut [0; 8]).unwrap().work;
            full += usize::from(work == bound);
        }
        let holders = sample.nodes.iter().filter(|node| kinds::has_cell(node.kind));
        for (node, cell) in holders.zip(state[8..].chunks(8)) {
            if node.kind != kinds::DELAY {
                let row = &mut counts[usize::from(node.kind == kinds::GROUP)];
                row[0] += usize::from(cell != [0; 8]);
                row[1] += 1;
            }
        }
    }
    assert!(counts.iter().all(|row| row[0] * 5 > row[1]), "{counts:?}");
    assert!(full > 100, "{full} steps reach the bound");
}

#[test]
fn any_bytes_are_answered() {
    let mut random = Random::new(8);
    for _ in 0..3000 {
        let mut bytes = |most: usize| -> Vec<u8> {
            let length = random.below(most);
            (0..length).map(|_| random.draw() as u8).collect()
        };
        let (program, mut state, records, mut output) =
            (bytes(1100), bytes(30), bytes(90), bytes(20));
        assert!(check(&program).is_err());
        assert!(start(&program, &mut state).is_err());
        assert!(run(&program, &mut state, &records, &mut output).is_err());
    }
}
