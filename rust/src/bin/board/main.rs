//! The program `board`: readable boards to records and back, to a solver and back, and looked through by hand.

mod before;
mod blame;
mod board;
mod clash;
mod clauses;
mod clock;
mod closed;
mod closings;
mod commands;
mod complaint;
mod conditions;
mod declarations;
mod jobs;
mod join;
mod judging;
mod limits;
mod literals;
mod opened;
mod output;
mod overlaps;
mod page;
mod placement;
mod progress;
mod reading;
mod replies;
mod reply;
mod rules;
mod sha256;
mod sheet;
mod shown;
mod signs;
mod solution;
mod solver;
mod sums;
#[cfg(test)]
mod tests;
mod trouble;
mod unknown_signs;
mod values;
mod week;
mod wording;
mod words;

use commands::show::BROKEN;
use commands::why::seconds_of;
use solver::Solver;
use std::ffi::OsString;
use std::io::Write;
use std::process::ExitCode;
use trouble::{Status, Trouble};

const USAGE: &str = "\
board record FILE.board        writes the record of a board to standard output
board text FILE.record         writes a record as a readable board
board rules FILE.board         writes the plain rules that the lines of a board stand for, with their lines
board show FILE.board VALUES   writes every rule with the values put in, and whether it holds (--broken: only those that
                               do not); VALUES are words such as kiln=12 shared=yes, or files of such words
board sheet FILE.board VALUES  writes a page for the keepers, to be printed or read on a phone: verdict, pictures, tables
board cnf FILE.board           writes the clause list of a board as DIMACS CNF
board model FILE.board         reads a solver's reply from standard input and writes the values it stands for
board place FILE.board -- SOLVER ARGUMENTS
                               asks a solver for values that keep to every rule, and writes them (with --sheet PAGE.html
                               before FILE.board, the keepers' page too)
board earliest FILE.board NAME -- SOLVER ARGUMENTS
                               finds the least value of a number over all solutions by questions to a solver
board why FILE.board [--seconds N] -- SOLVER ARGUMENTS
                               finds lines that cannot be kept together, where there is no solution; after N seconds,
                               or an interrupt, it tells what it has so far
board join BASE.board COPY1.board COPY2.board
                               joins two copies of a board that were changed apart, and writes the text that they give
board --help, board --version  write these lines, or the version

{cnf} in ARGUMENTS stands for the clause file, which otherwise goes last, and {reply} for a file that the reply is
written to, otherwise to standard output (minisat is given one).

The status is 0, or 1 where something was refused or does not hold, or 2 where the words after `board` are wrong or
standard output takes nothing; with a solver also 3 where there is no solution, 4 where the solver says neither yes nor
no, 5 where it cannot be started, is killed, ends with an error or contradicts itself, 6 where it says yes and its
model does not bear it out, and 7 where the seconds of `why` are over.
";

fn main() -> ExitCode {
    let words = std::env::args_os().skip(1).map(OsString::into_string);
    let outcome = match words.collect::<Result<Vec<String>, OsString>>() {
        Ok(words) => run(&words.iter().map(String::as_str).collect::<Vec<_>>()),
        Err(_) => Err(wrong_words(&[])),
    };
    match outcome {
        Ok(true) => ExitCode::SUCCESS,
        Ok(false) => ExitCode::from(Status::Refused as u8),
        Err(trouble) => {
            // Where standard error takes nothing either, the status still tells.
            let _ = writeln!(std::io::stderr(), "{}", trouble.words);
            ExitCode::from(trouble.status as u8)
        }
    }
}

fn run(words: &[&str]) -> Result<bool, Trouble> {
    match words {
        ["record", file] => commands::record::run(file),
        ["text", file] => commands::text::run(file),
        ["show", values @ ..] if values.iter().any(|word| *word != BROKEN) => show(values),
        ["sheet", file, values @ ..] => commands::sheet::run(file, values),
        ["rules", file] => commands::rules::run(file),
        ["cnf", file] => commands::cnf::run(file),
        ["model", file] => commands::model::run(file),
        ["place", file, "--", program, words @ ..] => {
            commands::place::run(file, None, &Solver { program, words })
        }
        ["place", "--sheet", page, file, "--", program, words @ ..] => {
            commands::place::run(file, Some(page), &Solver { program, words })
        }
        ["join", base, one, two] => commands::join::run(base, [one, two]),
        ["why", file, "--", program, words @ ..] => {
            commands::why::run(file, &Solver { program, words }, None)
        }
        ["why", file, "--seconds", count, "--", program, words @ ..]
        | ["why", "--seconds", count, file, "--", program, words @ ..]
            if seconds_of(count).is_some() =>
        {
            commands::why::run(file, &Solver { program, words }, seconds_of(count))
        }
        ["earliest", file, name, "--", program, words @ ..] => {
            commands::earliest::run(file, name, &Solver { program, words })
        }
        ["--help" | "-h" | "help"] => output::put(USAGE.as_bytes()),
        ["--version"] => output::put(concat!("board ", env!("CARGO_PKG_VERSION"), "\n").as_bytes()),
        _ => Err(wrong_words(words)),
    }
}

/// The first word that is not `--broken` is the file.
fn show(words: &[&str]) -> Result<bool, Trouble> {
    let is_brief = words.contains(&BROKEN);
    let words: Vec<&str> = words.iter().copied().filter(|word| *word != BROKEN).collect();
    commands::show::run(words[0], &words[1..], is_brief)
}

fn wrong_words(words: &[&str]) -> Trouble {
    let found = [&["board"], words].concat().join(" ");
    let words = format!("expected words as below, found `{found}`\n\n{}", USAGE.trim_end());
    Trouble::new(Status::WrongUse, words)
}
