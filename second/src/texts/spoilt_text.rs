//! Clause texts spoilt in each way that text can be bad, with the offset of refusal 18.

use super::clause_text::{drawn_clauses, set, Clauses, SETTINGS};
use super::pieces::{Kind, Pieces};
use super::spoilt_number::{self, FOREIGN};
use super::wrong_counts;
use super::{unfinished, Spoilt};
use crate::boards::dice::Dice;

type Way = fn(&mut Dice, &Clauses, &Pieces) -> Option<Spoilt>;

const WAYS: [(&str, Way); 29] = [
    ("a line before the first", line_before),
    ("first line: a word's byte changed", word_changed),
    ("first line: a word's byte struck", word_struck),
    ("first line: space struck", space_struck),
    ("first line: two spaces", two_spaces),
    ("first line: tab", tab_in_first_line),
    ("first line: N missing", |_, _, text| count_missing(text, 0)),
    ("first line: M missing", |_, _, text| count_missing(text, 1)),
    ("first line: N too great", |dice, _, text| {
        too_great(dice, text, 0)
    }),
    ("first line: M too great", |dice, _, text| {
        too_great(dice, text, 1)
    }),
    ("first line: N with a leading zero", |_, _, text| {
        leading_zero(text, 0)
    }),
    ("first line: M with a leading zero", |_, _, text| {
        leading_zero(text, 1)
    }),
    ("first line: N signed", |dice, _, text| {
        signed(dice, text, 0)
    }),
    ("first line: M signed", |dice, _, text| {
        signed(dice, text, 1)
    }),
    ("first line: other byte for N", |dice, _, text| {
        other_byte(dice, text, 0)
    }),
    ("first line: other byte for M", |dice, _, text| {
        other_byte(dice, text, 1)
    }),
    ("first line: carriage return", |_, _, text| {
        end_changed(text, "\r\n")
    }),
    ("first line: space at its end", |_, _, text| {
        end_changed(text, " \n")
    }),
    ("first line: other byte at its end", other_end),
    ("first line alone, without its newline", first_line_alone),
    ("tab", |dice, _, text| in_a_gap(dice, text, b'\t')),
    ("carriage return", |dice, _, text| {
        in_a_gap(dice, text, b'\r')
    }),
    ("other byte between numbers", other_in_a_gap),
    ("number past clause M", wrong_counts::number_past),
    ("other byte past clause M", wrong_counts::byte_past),
    ("too few clauses", wrong_counts::too_few),
    ("M too small", wrong_counts::too_small),
    ("unfinished clause", wrong_counts::unfinished_clause),
    ("cut", wrong_counts::cut),
];

/// The names of all ways, those of numbers among them.
pub fn names() -> impl Iterator<Item = &'static str> {
    let ways = WAYS.iter().map(|way| way.0);
    ways.chain(spoilt_number::WAYS.iter().map(|way| way.0))
}

/// The text spoilt in the way of this number, where it can be.
pub fn spoilt(dice: &mut Dice, way: usize, said: &Clauses, text: &Pieces) -> Option<Spoilt> {
    match WAYS.get(way) {
        Some((_, spoil)) => spoil(dice, said, text),
        None => spoilt_number::WAYS[way - WAYS.len()].1(dice, said.variables, text),
    }
}

/// A drawn text spoilt in the way of this number.
pub fn drawn(dice: &mut Dice, way: usize) -> Spoilt {
    loop {
        let said = drawn_clauses(dice);
        let setting = dice.below(SETTINGS.len());
        let text = set(dice, &said, setting);
        if let Some(spoilt) = spoilt(dice, way, &said, &text) {
            return spoilt;
        }
    }
}

fn line_before(dice: &mut Dice, _: &Clauses, text: &Pieces) -> Option<Spoilt> {
    let line = dice.pick(&["c a board\n", "c\n", "\n", " ", "\r\n", "\t"]);
    Some(text.inserted(0, line, 0))
}

fn word_changed(dice: &mut Dice, _: &Clauses, text: &Pieces) -> Option<Spoilt> {
    let at = text.any(dice, Kind::Word)?;
    let mut word = text.bytes(at).to_vec();
    let wrong = dice.below(word.len());
    word[wrong] = dice.pick(&[word[wrong].to_ascii_uppercase(), b'x', b' ', 0, 255]);
    Some(text.changed(at, word, wrong))
}

fn word_struck(dice: &mut Dice, _: &Clauses, text: &Pieces) -> Option<Spoilt> {
    let at = text.any(dice, Kind::Word)?;
    let mut word = text.bytes(at).to_vec();
    let wrong = dice.below(word.len());
    word.remove(wrong);
    Some(text.changed(at, word, wrong))
}

/// Not the space between N and M, without which the two are one number.
fn space_struck(dice: &mut Dice, _: &Clauses, text: &Pieces) -> Option<Spoilt> {
    let at = text.all(Kind::Space)[dice.below(2)];
    Some(text.changed(at, "", 0))
}

fn two_spaces(dice: &mut Dice, _: &Clauses, text: &Pieces) -> Option<Spoilt> {
    let at = text.any(dice, Kind::Space)?;
    Some(text.changed(at, "  ", 1))
}

fn tab_in_first_line(dice: &mut Dice, _: &Clauses, text: &Pieces) -> Option<Spoilt> {
    let at = text.any(dice, Kind::Space)?;
    Some(text.changed(at, "\t", 0))
}

/// N is the first count of the text and M the second.
fn count_missing(text: &Pieces, count: usize) -> Option<Spoilt> {
    let at = text.all(Kind::Count)[count];
    Some(text.changed(at, "", 0))
}

/// Too great from the tenth digit on, or by an eleventh.
fn too_great(dice: &mut Dice, text: &Pieces, count: usize) -> Option<Spoilt> {
    let at = text.all(Kind::Count)[count];
    let least = dice.pick(&[2_147_483_648, 2_147_483_649, 4_294_967_296]);
    let tenth = dice.between(least, 9_999_999_999);
    let tenth = dice.pick(&[least, least, tenth]);
    let good = dice.between(1_000_000_000, 2_147_483_647);
    let good = dice.pick(&[2_147_483_647, good]);
    let more = dice.pick(&["0", "7", "0000000000", "x"]);
    if dice.one_in(2) {
        Some(text.changed(at, format!("{tenth}{more}"), 9))
    } else {
        Some(text.changed(at, format!("{good}5{more}"), 10))
    }
}

fn leading_zero(text: &Pieces, count: usize) -> Option<Spoilt> {
    let at = text.all(Kind::Count)[count];
    Some(text.changed(at, [b"0", text.bytes(at)].concat(), 1))
}

fn signed(dice: &mut Dice, text: &Pieces, count: usize) -> Option<Spoilt> {
    let at = text.all(Kind::Count)[count];
    let sign = dice.pick(&[b"+", b"-"]);
    Some(text.changed(at, [sign, text.bytes(at)].concat(), 0))
}

/// A foreign byte in place of a count or behind it.
fn other_byte(dice: &mut Dice, text: &Pieces, count: usize) -> Option<Spoilt> {
    let at = text.all(Kind::Count)[count];
    let kept = dice.pick(&[&[], text.bytes(at)]);
    let byte = dice.pick(&FOREIGN);
    Some(text.changed(at, [kept, &[byte]].concat(), kept.len()))
}

fn end_changed(text: &Pieces, end: &str) -> Option<Spoilt> {
    let at = text.all(Kind::LineEnd)[0];
    Some(text.changed(at, end, 0))
}

fn other_end(dice: &mut Dice, _: &Clauses, text: &Pieces) -> Option<Spoilt> {
    let at = text.all(Kind::LineEnd)[0];
    Some(text.changed(at, [dice.pick(&FOREIGN)], 0))
}

fn first_line_alone(_: &mut Dice, _: &Clauses, text: &Pieces) -> Option<Spoilt> {
    Some(unfinished(text.before(text.all(Kind::LineEnd)[0])))
}

/// The byte for one of the gap's own, or beside them.
fn in_a_gap(dice: &mut Dice, text: &Pieces, byte: u8) -> Option<Spoilt> {
    let at = text.any(dice, Kind::Gap)?;
    let mut gap = text.bytes(at).to_vec();
    let wrong = dice.below(gap.len());
    if dice.one_in(2) {
        gap[wrong] = byte;
    } else {
        gap.insert(wrong, byte);
    }
    Some(text.changed(at, gap, wrong))
}

fn other_in_a_gap(dice: &mut Dice, _: &Clauses, text: &Pieces) -> Option<Spoilt> {
    let byte = dice.pick(&FOREIGN);
    in_a_gap(dice, text, byte)
}
