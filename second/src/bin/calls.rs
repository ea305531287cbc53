//! Answers one request on standard input; with the word `serve`, a stream of them.

use std::io::{stdin, stdout, BufReader, BufWriter};

fn main() {
    let most = match std::env::args().nth(1).as_deref() {
        Some("serve") => usize::MAX,
        _ => 1,
    };
    let mut input = BufReader::with_capacity(1 << 16, stdin().lock());
    let mut output = BufWriter::new(stdout().lock());
    // A reader that goes away ends the service; there is nobody left to tell.
    let _ = second::request::serve(&mut input, &mut output, most);
}
