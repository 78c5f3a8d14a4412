//! Prints the inventory of the store on standard input.

use std::io::{self, Read, Write};

fn main() -> io::Result<()> {
    let mut store = Vec::new();
    io::stdin().read_to_end(&mut store)?;
    io::stdout().write_all(&independent::inventory::inventory(&store))
}
