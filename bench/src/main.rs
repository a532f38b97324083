//! Measures the operations of the proved library and of its peers in one run; `--help` says how to ask for more.
//!
//! What all programs answer has to be equal; how long they take is only printed.

use bench::instructions::Counter;
use bench::measures::{laid_out, measured};
use bench::programs::{Earlier, Library, Operation, Program, Second, Strong};
use bench::words::{wish, Wish, HELP};
use bench::{goals, table};
use std::process::ExitCode;

fn main() -> ExitCode {
    match wish(std::env::args().skip(1)).and_then(fulfil) {
        Ok(()) => ExitCode::SUCCESS,
        Err(wrong) => {
            eprintln!("{wrong}; --help tells what can be asked for");
            ExitCode::FAILURE
        }
    }
}

fn fulfil(wish: Wish) -> Result<(), String> {
    if wish.help {
        print!("{HELP}");
        return Ok(());
    }
    let mut others: Vec<Box<dyn Program>> = Vec::new();
    if let Some(file) = &wish.earlier {
        others.push(Box::new(Earlier::load(file)?));
    }
    others.push(Box::new(Strong));
    others.push(Box::new(Second));
    match &wish.once {
        Some((operation, program)) => do_once(&wish, *operation, program, others),
        None => print_table(wish, &others),
    }
}

fn do_once(
    wish: &Wish,
    operation: Operation,
    name: &str,
    mut programs: Vec<Box<dyn Program>>,
) -> Result<(), String> {
    programs.push(Box::new(Library));
    let found = programs.iter().find(|program| program.name() == name);
    let program = found.ok_or(format!("there is no program {name}"))?;
    let board = wish.boards.first().ok_or("there is no board")?;
    let mut desk = laid_out(board);
    let numbers = desk.list.len();
    let answer = program.run(operation, &mut desk);
    println!("{} {} {name}: answer {answer:?}, K {numbers}", board.name, operation.name());
    Ok(())
}

fn print_table(wish: Wish, others: &[Box<dyn Program>]) -> Result<(), String> {
    if cfg!(debug_assertions) {
        println!("Built without --release: these times say nothing.");
    }
    let counter = if wish.valgrind { Counter::valgrind()? } else { Counter::machine() };
    let counts = !matches!(counter, Counter::Closed);
    print!("{}", table::explanation(others, counts));
    print!("{}", table::heading(others, counts));
    let mut all = Vec::new();
    for board in wish.boards {
        let measured = measured(board, others, &counter, wish.solvers);
        print!("{}", table::rows(&measured));
        all.push(measured);
    }
    let names: Vec<&str> = others.iter().map(|program| program.name()).collect();
    print!("\nGoals\n{}", goals::goals(&all, &names));
    Ok(())
}
