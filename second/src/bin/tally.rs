//! Counts the answers to a stream of requests on standard input, by call and code.

fn main() {
    let mut input = std::io::BufReader::new(std::io::stdin().lock());
    print!("{}", second::request::tally(&mut input).text());
}
