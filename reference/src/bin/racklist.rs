//! The program `racklist` of docs/FORMAT.md.
use reference::listing::list;
use std::io::{self, Read, Write};

fn main() -> io::Result<()> {
    let mut input = Vec::new();
    io::stdin().read_to_end(&mut input)?;
    io::stdout().write_all(list(&input).as_bytes())
}
