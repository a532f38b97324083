//! Prints the three numbers of the record on standard input, and its clause list.

use std::io::{self, Read};

fn main() -> Result<(), Box<dyn std::error::Error>> {
    let mut record = Vec::new();
    io::stdin().read_to_end(&mut record)?;
    let sizes = basmuthar::size(&record)?;
    let mut list = vec![0; sizes.numbers];
    basmuthar::compile(&record, &mut list)?;
    println!("{} SAT variables, {} clauses: {list:?}", sizes.variables, sizes.clauses);
    Ok(())
}
