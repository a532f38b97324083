//! Numbers spoilt in ways that clause texts and replies share.

use super::pieces::{Kind, Pieces};
use super::Spoilt;
use crate::boards::dice::Dice;

type Way = fn(&mut Dice, u64, &Pieces) -> Option<Spoilt>;

/// The ways to spoil one of a text's numbers, which reach to N.
pub const WAYS: [(&str, Way); 10] = [
    ("number beyond N", beyond),
    ("leading zero", leading_zero),
    ("plus", plus),
    ("signed 0", signed_zero),
    ("minus where N is 0", minus_where_none),
    ("minus alone", minus_alone),
    ("two minuses", two_minuses),
    ("minus inside a number", minus_inside),
    ("other byte in a number", other_byte),
    ("other byte for a number", other_first_byte),
];

/// Bytes that are good nowhere among numbers.
pub const FOREIGN: [u8; 16] = [
    0, 9, 11, 12, 13, 31, b'!', b'+', b'.', b'/', b':', b'e', b'x', 0x7F, 0xA0, 0xFF,
];

/// Beyond N by 1, by a digit, or by so much that it looks small once it is cut to 32 or 64 bits.
fn beyond(dice: &mut Dice, most: u64, pieces: &Pieces) -> Option<Spoilt> {
    let at = pieces.any(dice, Kind::Number)?;
    let (most, small) = (u128::from(most), u128::from(dice.roll() % 4));
    let wide = [1 << 31, 1 << 32, 1 << 64].map(|whole: u128| whole + small);
    let [half, whole, long] = wide;
    let size = dice.pick(&[
        most + 1,
        most + 1,
        10 * most + 10,
        half,
        whole,
        long,
        100 * long,
    ]);
    let sign = if most > 0 { dice.pick(&["", "-"]) } else { "" };
    let behind = dice.pick(&["", "", "", "x", "-", "\t"]);
    let size = size.max(most + 1);
    Some(pieces.changed(at, format!("{sign}{size}{behind}"), 0))
}

/// `012`, wrong at the byte after the 0; `-012`, wrong at the 0.
fn leading_zero(dice: &mut Dice, _: u64, pieces: &Pieces) -> Option<Spoilt> {
    let at = pieces.any(dice, Kind::Number)?;
    let number = String::from_utf8(pieces.bytes(at).to_vec()).unwrap();
    let zeros = dice.pick(&["0", "0", "00"]);
    let spoilt = match number.strip_prefix('-') {
        Some(digits) => format!("-{zeros}{digits}"),
        None => format!("{zeros}{number}"),
    };
    Some(pieces.changed(at, spoilt, 1))
}

fn plus(dice: &mut Dice, _: u64, pieces: &Pieces) -> Option<Spoilt> {
    let at = pieces.any(dice, Kind::Number)?;
    Some(pieces.changed(at, [b"+", pieces.bytes(at)].concat(), 0))
}

fn signed_zero(dice: &mut Dice, most: u64, pieces: &Pieces) -> Option<Spoilt> {
    let at = pieces.any(dice, Kind::Number)?;
    (most > 0).then(|| pieces.changed(at, "-0", 1))
}

/// No number but 0 is good there, and a minus begins none.
fn minus_where_none(dice: &mut Dice, most: u64, pieces: &Pieces) -> Option<Spoilt> {
    let at = pieces.any(dice, Kind::Number)?;
    let spoilt = dice.pick(&["-", "-0", "-1", "-x"]);
    (most == 0).then(|| pieces.changed(at, spoilt, 0))
}

fn minus_alone(dice: &mut Dice, most: u64, pieces: &Pieces) -> Option<Spoilt> {
    let at = pieces.any(dice, Kind::Number)?;
    (most > 0).then(|| pieces.changed(at, "-", 1))
}

fn two_minuses(dice: &mut Dice, most: u64, pieces: &Pieces) -> Option<Spoilt> {
    let at = pieces.any(dice, Kind::Number)?;
    (most > 0).then(|| pieces.changed(at, "--1", 1))
}

/// A minus right behind a number.
fn minus_inside(dice: &mut Dice, _: u64, pieces: &Pieces) -> Option<Spoilt> {
    let at = pieces.any(dice, Kind::Number)?;
    let number = pieces.bytes(at);
    Some(pieces.changed(at, [number, b"-1"].concat(), number.len()))
}

/// A foreign byte right behind a number.
fn other_byte(dice: &mut Dice, _: u64, pieces: &Pieces) -> Option<Spoilt> {
    let at = pieces.any(dice, Kind::Number)?;
    let number = pieces.bytes(at);
    let byte = dice.pick(&FOREIGN);
    Some(pieces.changed(at, [number, &[byte]].concat(), number.len()))
}

/// A foreign byte in a number's place.
fn other_first_byte(dice: &mut Dice, _: u64, pieces: &Pieces) -> Option<Spoilt> {
    let at = pieces.any(dice, Kind::Number)?;
    let byte = dice.pick(&FOREIGN);
    Some(pieces.changed(at, [byte], 0))
}
