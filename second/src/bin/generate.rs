//! Writes seeded requests to standard output, or files for watchrun into a folder.

use second::generate;
use second::random::Random;
use second::typist;
use std::io::{self, stdout, BufWriter, Write};
use std::path::Path;

const USAGE: &str =
    "generate requests|checks|long|watches|chains|mends|tidies|pairs|texts|prints SEED COUNT, or programs SEED COUNT DIR";

fn main() {
    let words: Vec<String> = std::env::args().skip(1).collect();
    let number = |place: usize| words.get(place).and_then(|word| word.parse::<u64>().ok());
    let (Some(seed), Some(count)) = (number(1), number(2)) else {
        eprintln!("{USAGE}");
        std::process::exit(1);
    };
    let outcome = match (words[0].as_str(), words.get(3)) {
        ("requests", _) => stream(seed, count, generate::request),
        ("checks", _) => stream(seed, count, generate::check_request),
        ("long", _) => stream(seed, count, generate::long_request),
        ("watches", _) => stream(seed, count, generate::watch_request),
        ("chains", _) => stream(seed, count, generate::chain_request),
        ("mends", _) => stream(seed, count, generate::mend_request),
        ("tidies", _) => stream(seed, count, generate::tidy_request),
        ("pairs", _) => stream(seed, count, generate::pair_request),
        ("texts", _) => stream(seed, count, typist::read_request),
        ("prints", _) => stream(seed, count, typist::print_request),
        ("programs", Some(folder)) => files(seed, count, Path::new(folder)),
        _ => Err(io::Error::other(USAGE)),
    };
    if let Err(error) = outcome {
        eprintln!("{error}");
        std::process::exit(1);
    }
}

/// Writes so many requests of one making.
fn stream(
    seed: u64,
    count: u64,
    make: fn(&mut Random) -> second::request::Request,
) -> io::Result<()> {
    let mut random = Random::new(seed);
    let mut output = BufWriter::new(stdout().lock());
    for _ in 0..count {
        make(&mut random).write(&mut output)?;
    }
    output.flush()
}

/// Writes files of blocks and then records, named by seed and number.
fn files(seed: u64, count: u64, folder: &Path) -> io::Result<()> {
    std::fs::create_dir_all(folder)?;
    let mut random = Random::new(seed);
    for number in 0..count {
        let name = format!("{seed}-{number:05}.watch");
        std::fs::write(folder.join(name), generate::watch_input(&mut random))?;
    }
    Ok(())
}
