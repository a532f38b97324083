//! The program: reads a record from standard input and prints what becomes of it.

use second::printed;
use second::reading::LONGEST_RECORD;
use std::io::{self, Read, Write};

fn main() -> io::Result<()> {
    let mut record = Vec::new();
    let most = LONGEST_RECORD as u64 + 1;
    io::stdin().take(most).read_to_end(&mut record)?;
    io::stdout().write_all(printed(&record).as_bytes())
}
