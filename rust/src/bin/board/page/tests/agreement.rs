//! The page's own sums and Judge say the same of drawn placements of every board in the folder.

use crate::board::{Board, Setting};
use crate::page::checked::checked;
use crate::tests::dice::Dice;
use crate::tests::folder::{files, sheet_of};

/// Mostly within bounds, now and then beyond them.
fn drawn(board: &Board, dice: &mut Dice) -> Setting {
    let numbers = board.numbers.iter().map(|number| {
        let beyond = i64::from(dice.between(0, 40) == 0);
        let (lower, upper) = (i64::from(number.lower), i64::from(number.upper));
        dice.between(lower - beyond, upper + beyond) as i32
    });
    let numbers = numbers.collect();
    Setting { numbers, choices: board.choices.iter().map(|_| dice.between(0, 1) as u8).collect() }
}

#[test]
fn sums_and_judge_agree() {
    let mut dice = Dice::new(7);
    let (mut accepted, mut refused) = (0, 0);
    for file in files("board") {
        let sheet = sheet_of(&file);
        let record = sheet.board.builder().record();
        if basmuthar::size(&record).is_err() {
            continue;
        }
        for _ in 0..100 {
            let setting = drawn(&sheet.board, &mut dice);
            let judged = basmuthar::judge(&record, &setting.numbers, &setting.choices);
            let checked = checked(&sheet, &setting);
            assert!(checked.agrees_with(judged), "{}: {setting:?}, {judged:?}", file.display());
            if judged.is_ok() {
                accepted += 1;
            } else {
                refused += 1;
            }
        }
    }
    assert!(accepted > 300 && refused > 1_000, "{accepted} accepted, {refused} refused");
}
