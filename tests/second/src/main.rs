//! Reads standard input at level 2 and writes the listing.

use second::listing::{listing, BUFFER};
use std::io::{self, Read, Write};

fn main() -> io::Result<()> {
    let mut input = Vec::new();
    io::stdin().take(BUFFER as u64).read_to_end(&mut input)?;
    io::stdout().write_all(&listing(&input))
}
