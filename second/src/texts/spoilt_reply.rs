//! Replies spoilt in each way that a reply can be bad text, with the offset of refusal 18.

use super::pieces::{Kind, Pieces};
use super::reply_text::{drawn_model, numbers_of, set, NO_MODEL, ORDERS, SETTINGS};
use super::spoilt_number::{self, FOREIGN};
use super::{unfinished, Spoilt};
use crate::boards::dice::Dice;

type Way = fn(&mut Dice, &Pieces) -> Option<Spoilt>;

const WAYS: [(&str, Way); 23] = [
    ("first line: a word's byte changed", word_changed),
    ("first line: a word's byte struck", word_struck),
    ("first line: space struck", space_struck),
    ("first line alone", first_line_alone),
    ("a line before the first", line_before),
    ("two spaces", two_spaces),
    ("tab", tab),
    ("carriage return", carriage_return),
    ("space at a line's end", space_at_end),
    ("newline struck", newline_struck),
    ("newline missing at the end", last_newline_missing),
    ("blank line", blank_line),
    ("comment line", comment_line),
    ("other byte for v", v_changed),
    ("v struck", v_struck),
    ("v without numbers", v_alone),
    ("further v line after the 0", line_after_zero),
    ("number after the 0", number_after_zero),
    ("no 0", no_zero),
    ("cut", cut),
    ("none with more", none_with_more),
    ("none: byte changed", none_changed),
    ("none: cut", none_cut),
];

/// The names of all ways, those of numbers among them.
pub fn names() -> impl Iterator<Item = &'static str> {
    let ways = WAYS.iter().map(|way| way.0);
    ways.chain(spoilt_number::WAYS.iter().map(|way| way.0))
}

/// The reply for so many variables spoilt in the way of this number, where it can be.
pub fn spoilt(dice: &mut Dice, way: usize, variables: u64, text: &Pieces) -> Option<Spoilt> {
    match WAYS.get(way) {
        Some((_, spoil)) => spoil(dice, text),
        None => spoilt_number::WAYS[way - WAYS.len()].1(dice, variables, text),
    }
}

/// A drawn reply spoilt in the way of this number, and its N.
pub fn drawn(dice: &mut Dice, way: usize) -> (u32, Spoilt) {
    loop {
        let model = drawn_model(dice);
        let order = dice.below(ORDERS.len());
        let numbers = numbers_of(dice, &model, order);
        let setting = dice.below(SETTINGS.len());
        let text = set(dice, &numbers, setting);
        if let Some(spoilt) = spoilt(dice, way, model.len() as u64, &text) {
            return (model.len() as u32, spoilt);
        }
    }
}

/// One of the two words of the first line.
fn first_words(dice: &mut Dice, text: &Pieces) -> usize {
    text.all(Kind::Word)[dice.below(2)]
}

/// One of the words that begin the other lines.
fn any_v(dice: &mut Dice, text: &Pieces) -> usize {
    dice.pick(&text.all(Kind::Word)[2..])
}

fn word_changed(dice: &mut Dice, text: &Pieces) -> Option<Spoilt> {
    let at = first_words(dice, text);
    let mut word = text.bytes(at).to_vec();
    let wrong = dice.below(word.len());
    let other_case = word[wrong] ^ 0x20;
    word[wrong] = dice.pick(&[other_case, b'X', b' ', b'\n', 0, 255]);
    Some(text.changed(at, word, wrong))
}

fn word_struck(dice: &mut Dice, text: &Pieces) -> Option<Spoilt> {
    let at = first_words(dice, text);
    let mut word = text.bytes(at).to_vec();
    let wrong = dice.below(word.len());
    word.remove(wrong);
    Some(text.changed(at, word, wrong))
}

fn space_struck(_: &mut Dice, text: &Pieces) -> Option<Spoilt> {
    Some(text.changed(text.all(Kind::Space)[0], "", 0))
}

fn first_line_alone(_: &mut Dice, text: &Pieces) -> Option<Spoilt> {
    Some(unfinished(text.before(text.all(Kind::Word)[2])))
}

fn line_before(dice: &mut Dice, text: &Pieces) -> Option<Spoilt> {
    let line = dice.pick(&["c a reply\n", "\n", " ", "v 0\n"]);
    Some(text.inserted(0, line, 0))
}

fn two_spaces(dice: &mut Dice, text: &Pieces) -> Option<Spoilt> {
    let at = text.any(dice, Kind::Space)?;
    Some(text.changed(at, "  ", 1))
}

fn tab(dice: &mut Dice, text: &Pieces) -> Option<Spoilt> {
    let at = text.any(dice, Kind::Space)?;
    Some(text.changed(at, "\t", 0))
}

fn carriage_return(dice: &mut Dice, text: &Pieces) -> Option<Spoilt> {
    let at = text.any(dice, Kind::LineEnd)?;
    Some(text.changed(at, "\r\n", 0))
}

/// Behind a number that is not the 0, a space is still good, and the newline is not.
fn space_at_end(dice: &mut Dice, text: &Pieces) -> Option<Spoilt> {
    let ends = text.all(Kind::LineEnd);
    let line = dice.below(ends.len());
    let numbers_to_come = line > 0 && line + 1 < ends.len();
    Some(text.changed(ends[line], " \n", usize::from(numbers_to_come)))
}

/// Any newline but the last.
fn newline_struck(dice: &mut Dice, text: &Pieces) -> Option<Spoilt> {
    let ends = text.all(Kind::LineEnd);
    let at = ends[dice.below(ends.len() - 1)];
    Some(text.changed(at, "", 0))
}

fn last_newline_missing(_: &mut Dice, text: &Pieces) -> Option<Spoilt> {
    Some(unfinished(text.before(text.count() - 1)))
}

fn blank_line(dice: &mut Dice, text: &Pieces) -> Option<Spoilt> {
    let at = any_v(dice, text);
    let at = dice.pick(&[at, at, text.count()]);
    Some(text.inserted(at, "\n", 0))
}

fn comment_line(dice: &mut Dice, text: &Pieces) -> Option<Spoilt> {
    let at = any_v(dice, text);
    let at = dice.pick(&[at, at, text.count()]);
    Some(text.inserted(at, "c 1 second\n", 0))
}

fn v_changed(dice: &mut Dice, text: &Pieces) -> Option<Spoilt> {
    let byte = dice.pick(&FOREIGN);
    let byte = dice.pick(&[byte, b'V', b's', b' ', b'0', b'1', b'-']);
    Some(text.changed(any_v(dice, text), [byte], 0))
}

fn v_struck(dice: &mut Dice, text: &Pieces) -> Option<Spoilt> {
    Some(text.changed(any_v(dice, text), "", 0))
}

fn v_alone(dice: &mut Dice, text: &Pieces) -> Option<Spoilt> {
    let line = dice.pick(&["v\n", "v \n"]);
    Some(text.inserted(any_v(dice, text), line, line.len() - 1))
}

fn line_after_zero(dice: &mut Dice, text: &Pieces) -> Option<Spoilt> {
    let line = dice.pick(&["v 0\n", "v 1 0\n", "v\n", "v", "v 1\n"]);
    Some(text.inserted(text.count(), line, 0))
}

fn number_after_zero(dice: &mut Dice, text: &Pieces) -> Option<Spoilt> {
    let zero = *text.all(Kind::Number).last()?;
    let numbers = dice.pick(&["0 0", "0 1", "0 -1", "0 2 0"]);
    Some(text.changed(zero, numbers, 1))
}

/// The last line without its 0; where that leaves a lone `v`, the newline behind it is wrong.
fn no_zero(_: &mut Dice, text: &Pieces) -> Option<Spoilt> {
    let zero = *text.all(Kind::Number).last()?;
    let mut shorter = text.before(zero - 1);
    let place = shorter.len();
    let lone_v = shorter.ends_with(b"v");
    shorter.push(b'\n');
    Some(if lone_v {
        (shorter, place)
    } else {
        unfinished(shorter)
    })
}

/// Cut at any byte: no reply begins another.
fn cut(dice: &mut Dice, text: &Pieces) -> Option<Spoilt> {
    let mut text = text.text();
    text.truncate(dice.below(text.len()));
    Some(unfinished(text))
}

fn none_with_more(dice: &mut Dice, _: &Pieces) -> Option<Spoilt> {
    let more = dice.pick(&["\n", " ", "v 0\n", "v 1 0\n", "c\n", "x", NO_MODEL]);
    Some((format!("{NO_MODEL}{more}").into_bytes(), NO_MODEL.len()))
}

/// A byte changed, or put in; an S for the U would begin the other reply.
fn none_changed(dice: &mut Dice, _: &Pieces) -> Option<Spoilt> {
    let mut text = NO_MODEL.as_bytes().to_vec();
    let wrong = dice.below(text.len());
    let byte = dice.pick(&[b'?', b'\t', b'\r', 0, 255]);
    if dice.one_in(2) {
        text[wrong] = byte;
    } else {
        text.insert(wrong, byte);
    }
    Some((text, wrong))
}

fn none_cut(dice: &mut Dice, _: &Pieces) -> Option<Spoilt> {
    let length = dice.below(NO_MODEL.len());
    Some(unfinished(NO_MODEL.as_bytes()[..length].to_vec()))
}
