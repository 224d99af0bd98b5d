//! `answer`: what the check program has to print for the standard input, by the
//! second reading. It writes the expected lines of the examples.

use std::io::{self, Read, Write};

fn main() -> io::Result<()> {
    let mut input = Vec::new();
    io::stdin().read_to_end(&mut input)?;
    io::stdout().write_all(reader::check_program(&input).as_bytes())
}
