//! Prints a run: the blocks and then the records on standard input. A read or a write that fails ends it, and is told on standard error.

use second::print::{watch, Broken};

fn main() {
    match watch(std::io::stdin().lock(), std::io::stdout().lock()) {
        Ok(()) => {}
        Err(Broken::Input) => eprintln!("watchrun: standard input failed; this is not its end"),
        Err(Broken::Output) => eprintln!("watchrun: standard output failed; lines are lost"),
    }
}
