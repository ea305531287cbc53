//! Document 02, h: what comes on a channel that no input node names does not matter, and what comes
//! on a named one does.

use second::generate::{self, Sample};
use second::kinds;
use second::random::Random;
use second::record::{Record, FLAGS, RECORD};
use second::run;

/// The channels that some input node names, a bit a channel.
fn named_channels(sample: &Sample) -> u8 {
    let inputs = sample.nodes.iter().filter(|node| node.kind == kinds::INPUT);
    inputs.fold(0, |bits, node| bits | 1 << node.a)
}

/// Puts other content on a channel of a record that stays well-formed: an event that came has
/// another number or did not come, one that did not come has come.
fn flip(random: &mut Random, record: &mut [u8], channel: usize) {
    let before = record.to_vec();
    let at = 4 + 4 * channel + if channel < 4 { 0 } else { 4 };
    let mut word = random.word();
    if word.to_le_bytes() == record[at..at + 4] {
        word ^= 1;
    }
    if channel >= 4 {
        let flag = 1 << (channel - 4);
        let present = record[FLAGS] & flag != 0;
        if present && random.chance(50) {
            record[FLAGS] &= !flag;
            word = 0;
        } else {
            record[FLAGS] |= flag;
        }
    }
    record[at..at + 4].copy_from_slice(&word.to_le_bytes());
    assert_ne!(record, before, "channel {channel}");
    assert!(Record::read(record).is_some(), "channel {channel}: {record:?}");
}

/// Everything that a run tells: its answer with the work, the final state, the output.
fn told(sample: &Sample, state: &[u8], records: &[u8]) -> (String, Vec<u8>, Vec<u8>) {
    let mut state = state.to_vec();
    let mut output = vec![0xAA; records.len() / RECORD * 8];
    let answer = run(&sample.file, &mut state, records, &mut output);
    (format!("{:?}", answer.map(|done| (done.steps, done.work))), state, output)
}

/// A program with a state it reached and records that follow, in every fifth of which time runs back.
fn situation(random: &mut Random, turn: usize) -> (Sample, Vec<u8>, Vec<u8>) {
    let count = random.between(1, 60);
    let sample = generate::accepted(random, count);
    let (state, time) = generate::reached_state(random, &sample);
    let mut records = generate::records(random, 6, time);
    if turn % 5 == 0 {
        records[5 * RECORD..5 * RECORD + 4].fill(0);
    }
    (sample, state, records)
}

#[test]
fn loose_channels_do_not_matter() {
    let mut random = Random::new(31);
    let (mut flipped, mut refused) = (0, 0);
    for turn in 0..4000 {
        let (sample, state, records) = situation(&mut random, turn);
        let named = named_channels(&sample);
        let mut other = records.clone();
        for record in other.chunks_mut(RECORD) {
            for channel in (0..8).filter(|channel| named >> channel & 1 == 0) {
                if random.chance(80) {
                    flip(&mut random, record, channel);
                    flipped += 1;
                }
            }
        }
        let first = told(&sample, &state, &records);
        assert_eq!(first, told(&sample, &state, &other), "{:?}", sample.nodes);
        refused += usize::from(first.0.starts_with("Err"));
    }
    assert!(flipped > 50_000 && refused > 100, "{flipped} {refused}");
}

#[test]
fn named_channels_matter() {
    let mut random = Random::new(32);
    // For each channel: runs that told something else after a flip of it alone, and all such flips.
    let mut counts = [[0usize; 2]; 8];
    for turn in 0..3000 {
        let (sample, state, records) = situation(&mut random, turn);
        let named = named_channels(&sample);
        for channel in (0..8).filter(|channel| named >> channel & 1 == 1) {
            let mut other = records.clone();
            other.chunks_mut(RECORD).for_each(|record| flip(&mut random, record, channel));
            let differs = told(&sample, &state, &records) != told(&sample, &state, &other);
            counts[channel][0] += usize::from(differs);
            counts[channel][1] += 1;
        }
    }
    assert!(counts.iter().all(|row| row[0] > 100 && row[1] > row[0]), "{counts:?}");
}
