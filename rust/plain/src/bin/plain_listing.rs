//! Reads one job on standard input and prints its listing.

use std::io::{self, Read, Write};

fn main() -> io::Result<()> {
    let mut job = Vec::new();
    io::stdin().read_to_end(&mut job)?;
    io::stdout().write_all(plain::listing(&job).as_bytes())
}
