//! The comparison run: many random boards and texts through both programs, with every answer compared.

#[path = "compare/assignments.rs"]
mod assignments;
#[path = "compare/both.rs"]
mod both;
#[path = "compare/both_texts.rs"]
mod both_texts;
#[path = "compare/closing_tries.rs"]
mod closing_tries;
#[path = "compare/demand.rs"]
mod demand;
#[path = "compare/every_byte.rs"]
mod every_byte;
#[path = "compare/first.rs"]
mod first;
#[path = "compare/first_texts.rs"]
mod first_texts;
#[path = "compare/least.rs"]
mod least;
#[path = "compare/long_texts.rs"]
mod long_texts;
#[path = "compare/one_list.rs"]
mod one_list;
#[path = "compare/outcomes.rs"]
mod outcomes;
#[path = "compare/reply_tries.rs"]
mod reply_tries;
#[path = "compare/second_side.rs"]
mod second_side;
#[path = "compare/tally.rs"]
mod tally;
#[path = "compare/text_outcomes.rs"]
mod text_outcomes;
#[path = "compare/text_tries.rs"]
mod text_tries;
#[path = "compare/tries.rs"]
mod tries;

use both::{hex, Both, Compared};
use second::boards::dice::Dice;
use second::boards::drawn;
use std::process::ExitCode;
use tally::Tally;

/// From this many boards on, every refusal, every outcome of Closing and every kind of text has to be met.
const ENOUGH: u64 = 20_000;

fn main() -> ExitCode {
    let arguments: Vec<String> = std::env::args().skip(1).collect();
    let numbers: Vec<u64> = arguments.iter().flat_map(|text| text.parse()).collect();
    let show = arguments.get(2).is_some_and(|text| text == "show");
    let [seed, count] = numbers[..] else {
        eprintln!("compare SEED COUNT [show]");
        return ExitCode::from(2);
    };
    let mut tally = Tally::default();
    if let Err(difference) = texts_alone(&mut tally, seed) {
        println!("texts before the boards of seed {seed}: {difference}");
        return ExitCode::FAILURE;
    }
    for index in 0..count {
        let mut dice = Dice::new(seed ^ Dice::new(index).roll());
        let board = drawn(dice.roll());
        if show {
            eprintln!("board {index}: {}", hex(&board.record));
        }
        tally.drawn(board.way);
        let mut both = Both::new(&board.record, &mut tally);
        if let Err(difference) = tries::all(&mut both, &mut dice) {
            println!("board {index} of seed {seed}: {difference}");
            return ExitCode::FAILURE;
        }
    }
    print!("{}", tally.table());
    let missing = tally.never_met();
    if count >= ENOUGH && !missing.is_empty() {
        println!("never met: {}", missing.join(", "));
        return ExitCode::FAILURE;
    }
    println!("no difference in {count} boards of seed {seed}");
    ExitCode::SUCCESS
}

/// What is tried once in a run: small texts damaged at every byte, and the longest ones.
fn texts_alone(tally: &mut Tally, seed: u64) -> Compared<()> {
    every_byte::all(tally)?;
    long_texts::all(tally, &mut Dice::new(seed))
}
