//! Texts damaged at any bytes: struck, doubled, changed or put in.

use crate::boards::dice::Dice;

/// Bytes that texts and replies are made of, and a few that they are not.
const BYTES: &[u8] = b"0001123456789-- \n\n\t\r+pcnfsvSATISFIABLEUN";

/// The text after from one to three damages.
pub fn damaged(dice: &mut Dice, text: &[u8]) -> Vec<u8> {
    let mut text = text.to_vec();
    for _ in 0..dice.between(1, 3) {
        if text.is_empty() {
            break;
        }
        let at = dice.below(text.len());
        let byte = if dice.one_in(3) {
            dice.byte()
        } else {
            dice.pick(BYTES)
        };
        match dice.below(4) {
            0 => {
                text.remove(at);
            }
            1 => text.insert(at, text[at]),
            2 => text[at] = byte,
            _ => text.insert(at, byte),
        }
    }
    text
}
