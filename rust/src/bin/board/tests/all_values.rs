//! All values of a small board, and the library's verdict on each.

use crate::board::{Board, Setting};

/// All settings within the bounds.
pub fn all_values(board: &Board) -> Vec<Setting> {
    let mut settings = vec![Setting { numbers: Vec::new(), choices: Vec::new() }];
    for number in &board.numbers {
        let with = |setting: &Setting, value: i16| {
            let mut longer = setting.clone();
            longer.numbers.push(value.into());
            longer
        };
        let values = |setting: &Setting| {
            (number.lower..=number.upper).map(|value| with(setting, value)).collect::<Vec<_>>()
        };
        settings = settings.iter().flat_map(values).collect();
    }
    for _ in &board.choices {
        let bytes = |setting: &Setting| {
            [0, 1].map(|byte| {
                let mut longer = setting.clone();
                longer.choices.push(byte);
                longer
            })
        };
        settings = settings.iter().flat_map(bytes).collect();
    }
    settings
}

pub fn is_solution(board: &Board, setting: &Setting) -> bool {
    basmuthar::judge(&board.builder().record(), &setting.numbers, &setting.choices).is_ok()
}
