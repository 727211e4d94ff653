//! The lister: standard input in, its lines out.

use std::io::{self, Read, Write};

fn main() -> io::Result<()> {
    // One byte more than the longest segment tells a longer input from it.
    let mut segment = Vec::new();
    io::stdin().take(65_537).read_to_end(&mut segment)?;
    io::stdout().write_all(model::lister::list(&segment).text.as_bytes())
}
