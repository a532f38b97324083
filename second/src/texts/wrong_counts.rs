//! Clause texts that have more or fewer clauses than M, or a last one without its 0.

use super::clause_text::Clauses;
use super::pieces::{Kind, Pieces};
use super::spoilt_number::FOREIGN;
use super::{unfinished, Spoilt};
use crate::boards::dice::Dice;
use crate::text_in::GREATEST_COUNT;

/// Where M is among the counts of the first line.
const M: usize = 1;

/// A number behind the M-th 0, good or bad in itself.
pub fn number_past(dice: &mut Dice, _: &Clauses, text: &Pieces) -> Option<Spoilt> {
    let number = dice.pick(&["0", "1", "-1", "1 0", "12345678901", "00"]);
    behind(dice, text, number.as_bytes())
}

/// Another byte behind the M-th 0.
pub fn byte_past(dice: &mut Dice, _: &Clauses, text: &Pieces) -> Option<Spoilt> {
    let byte = dice.pick(&FOREIGN);
    let byte = dice.pick(&[byte, byte, b'-', b'%', b'c']);
    behind(dice, text, &[byte])
}

/// Bytes behind the text and a gap, wrong at the first of them.
fn behind(dice: &mut Dice, text: &Pieces, bytes: &[u8]) -> Option<Spoilt> {
    let gap = dice.pick(&[" ", "\n", " \n ", "\n\n"]);
    let added = [gap.as_bytes(), bytes].concat();
    Some(text.inserted(text.count(), added, gap.len()))
}

/// M greater than the clauses are.
pub fn too_few(dice: &mut Dice, said: &Clauses, text: &Pieces) -> Option<Spoilt> {
    let at = text.all(Kind::Count)[M];
    let more = dice.pick(&[said.clauses + 1, said.clauses + 10, GREATEST_COUNT]);
    Some(unfinished(text.changed(at, more.to_string(), 0).0))
}

/// M less than the clauses are: wrong at the first number behind its last clause.
pub fn too_small(dice: &mut Dice, said: &Clauses, text: &Pieces) -> Option<Spoilt> {
    if said.clauses == 0 {
        return None;
    }
    let less = dice.below(said.clauses as usize);
    let numbers = text.all(Kind::Number);
    let zeros = numbers.iter().enumerate();
    let mut zeros = zeros.filter(|(_, &at)| text.bytes(at) == b"0");
    let first_past = match less {
        0 => 0,
        less => zeros.nth(less - 1)?.0 + 1,
    };
    let place = text.before(numbers[first_past]).len();
    let m = text.all(Kind::Count)[M];
    let (spoilt, _) = text.changed(m, less.to_string(), 0);
    // M has as few digits as before, or fewer.
    let shorter = text.text().len() - spoilt.len();
    Some((spoilt, place - shorter))
}

/// The last 0 struck, and what is behind it.
pub fn unfinished_clause(dice: &mut Dice, said: &Clauses, text: &Pieces) -> Option<Spoilt> {
    let last = *text.all(Kind::Number).last()?;
    let cut = dice.pick(&[last, last - 1]);
    (said.clauses > 0).then(|| unfinished(text.before(cut)))
}

/// Cut at any byte, so that the last 0 is missing, or the first line's newline where there is no 0.
pub fn cut(dice: &mut Dice, _: &Clauses, text: &Pieces) -> Option<Spoilt> {
    let line_end = text.all(Kind::LineEnd)[0];
    let needed = *text.all(Kind::Number).last().unwrap_or(&line_end);
    let mut cut = text.before(needed);
    cut.truncate(dice.below(cut.len() + 1));
    Some(unfinished(cut))
}
