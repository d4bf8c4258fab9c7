//! Lines of frames from standard input, answers to standard output.

use std::io::{Read, Write};

use plain_executive::session;

fn main() -> std::io::Result<()> {
    let mut input = Vec::new();
    std::io::stdin().read_to_end(&mut input)?;
    std::io::stdout().write_all(&session::run(&input))
}
