//! Random records, sound and damaged, each from a seed of its own.

pub mod ceiling;
pub mod damage;
pub mod dice;
pub mod sound;
pub mod writing;

use dice::Dice;

/// A record and the name of the way it was drawn.
pub struct Drawn {
    pub record: Vec<u8>,
    pub way: String,
}

/// The record of a seed.
pub fn drawn(seed: u64) -> Drawn {
    let mut dice = Dice::new(seed);
    if dice.one_in(3) {
        damage::damaged(&mut dice)
    } else if dice.one_in(1_000) {
        ceiling::around(&mut dice)
    } else {
        sound::sound(&mut dice)
    }
}
