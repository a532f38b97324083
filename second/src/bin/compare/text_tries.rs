//! The calls on clause text that are tried for one record: its own text, and texts good and spoilt.

use crate::both::{After, Both, Compared};
use crate::tally::Operation;
use crate::text_outcomes::{Became, WRITTEN};
use second::boards::dice::Dice;
use second::texts::clause_text::{drawn_clauses, set, Clauses, SETTINGS};
use second::texts::noise::damaged;
use second::texts::spoilt_text;

/// Texts of more numbers are not set and spoilt in other ways.
const FEW_NUMBERS: usize = 150;

/// How many times a record's text is spoilt.
const SPOILT: usize = 4;

/// How many times it is damaged at any bytes.
const DAMAGED: usize = 4;

/// All tries on text, with what Compile answers and writes.
pub fn all(both: &mut Both, dice: &mut Dice, compiled: &After) -> Compared<()> {
    let text = written(both, dice)?;
    read_again(both, dice, &text, compiled)?;
    let few = compiled.numbers.len() <= FEW_NUMBERS;
    let said = if few && dice.one_in(2) {
        let [_, variables, clauses, _] = compiled.answer;
        let numbers = compiled.numbers.clone();
        Clauses {
            variables,
            clauses,
            numbers,
        }
    } else {
        drawn_clauses(dice)
    };
    set_otherwise(both, dice, &said)?;
    for _ in 0..SPOILT {
        spoil(both, dice, &said)?;
    }
    Ok(())
}

/// The record's text, into bytes that are too few, just enough and more.
fn written(both: &mut Both, dice: &mut Dice) -> Compared<Vec<u8>> {
    let [_, wanted, ..] = both.write_text(0)?.answer;
    let length = wanted as usize;
    both.write_text(length - 1)?;
    both.write_text(dice.below(length))?;
    both.write_text(length + 1 + dice.below(9))?;
    let after = both.write_text(length)?;
    if after.answer != [0, wanted, 0, 0] {
        let what = format!("{wanted} bytes were wanted: {after:?}");
        return Err(both.differs(Operation::WriteText, what));
    }
    Ok(after.bytes)
}

/// Reading what was written gives the list again.
fn read_again(both: &mut Both, dice: &mut Dice, text: &[u8], compiled: &After) -> Compared<()> {
    let numbers = compiled.numbers.len();
    let after = both.read_text(text, numbers)?;
    if after != *compiled {
        let what = format!("compiled {compiled:?}, read again {after:?}");
        return Err(both.differs(Operation::ReadText, what));
    }
    both.tally.texts.met(Became::TextRead, WRITTEN);
    both.read_text(text, numbers + 1 + dice.below(9))?;
    if numbers > 0 {
        both.read_text(text, numbers - 1)?;
        both.read_text(text, dice.below(numbers))?;
    }
    Ok(())
}

/// The same numbers in any setting are the same list.
fn set_otherwise(both: &mut Both, dice: &mut Dice, said: &Clauses) -> Compared<()> {
    let setting = dice.below(SETTINGS.len());
    let text = set(dice, said, setting).text();
    let count = said.numbers.len();
    let expected = After {
        answer: [0, said.variables, said.clauses, count as u64],
        numbers: said.numbers.clone(),
        bytes: Vec::new(),
    };
    let after = both.read_text(&text, count)?;
    if after != expected {
        let what = format!("{}: {after:?}, said {expected:?}", text.escape_ascii());
        return Err(both.differs(Operation::ReadText, what));
    }
    both.tally.texts.met(Became::TextRead, SETTINGS[setting]);
    both.read_text(&text[..dice.below(text.len())], count)?;
    for _ in 0..DAMAGED {
        let damaged = damaged(dice, &text);
        both.read_text(&damaged, count + 1)?;
    }
    Ok(())
}

/// A text spoilt in any way, which has to be refused where it is spoilt.
fn spoil(both: &mut Both, dice: &mut Dice, said: &Clauses) -> Compared<()> {
    let names: Vec<&str> = spoilt_text::names().collect();
    let way = dice.below(names.len());
    let setting = dice.below(SETTINGS.len());
    let text = set(dice, said, setting);
    let (text, place) = match spoilt_text::spoilt(dice, way, said, &text) {
        Some(spoilt) => spoilt,
        None => spoilt_text::drawn(dice, way),
    };
    let lent = dice.below(said.numbers.len() + 3);
    let after = both.read_text(&text, lent)?;
    if after.answer != [18, place as u64, 0, 0] {
        let what = format!("{}: {:?}", names[way], after.answer);
        let what = format!("{what}, {} is bad at {place}", text.escape_ascii());
        return Err(both.differs(Operation::ReadText, what));
    }
    both.tally.texts.met(Became::TextRefused, names[way]);
    Ok(())
}
