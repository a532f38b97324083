//! Whether the clause text on standard input is a record's: read by the library, it has to be Compile's list, number for number.
//!
//!     same_list FILE.record < FILE.cnf

use std::io::{self, Read};
use std::{env, fs};

fn main() -> Result<(), Box<dyn std::error::Error>> {
    let record = fs::read(env::args().nth(1).ok_or("same_list FILE.record < FILE.cnf")?)?;
    let mut text = Vec::new();
    io::stdin().read_to_end(&mut text)?;
    let sizes = basmuthar::size(&record)?;
    let [mut compiled, mut read] = [vec![0; sizes.numbers], vec![0; sizes.numbers]];
    basmuthar::compile(&record, &mut compiled)?;
    let of_text = basmuthar::read_text(&text, &mut read)?;
    if of_text != sizes || read != compiled {
        return Err("this is the text of another list".into());
    }
    println!("{} SAT variables, {} clauses: the same list", sizes.variables, sizes.clauses);
    Ok(())
}
