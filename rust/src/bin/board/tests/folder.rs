//! The folder of boards: every text gives the record beside it, and every sound record gives its text's board back.
//!
//! With BASMUTHAR_WRITE_RECORDS set, the records are written instead of compared.

use crate::board::Board;
use crate::reading::board_of;
use crate::sheet::{read_sheet, Sheet};
use std::path::{Path, PathBuf};
use std::{env, fs};

/// All files of boards/ and boards/refused/ with this ending.
pub fn files(ending: &str) -> Vec<PathBuf> {
    let boards = Path::new(env!("CARGO_MANIFEST_DIR")).join("../boards");
    let folders = [boards.join("refused"), boards];
    let entries = folders.iter().flat_map(|folder| fs::read_dir(folder).unwrap());
    let mut files: Vec<PathBuf> = entries.map(|entry| entry.unwrap().path()).collect();
    files.retain(|file| file.extension().is_some_and(|extension| extension == ending));
    files.sort();
    files
}

pub fn sheet_of(file: &Path) -> Sheet {
    let text = fs::read_to_string(file).unwrap();
    read_sheet(&text).unwrap_or_else(|complaint| {
        panic!("{}", complaint.shown(&file.display().to_string(), &text))
    })
}

/// The board with the names that a record's variables are given.
fn renamed(mut board: Board) -> Board {
    for (index, number) in board.numbers.iter_mut().enumerate() {
        number.name = format!("x{index}");
    }
    for (index, choice) in board.choices.iter_mut().enumerate() {
        *choice = format!("b{}", index + 1);
    }
    board
}

#[test]
fn every_text_gives_the_record_beside_it() {
    let files = files("board");
    assert!(files.len() >= 24);
    for file in files {
        let record = sheet_of(&file).board.builder().record();
        let beside = file.with_extension("record");
        if env::var_os("BASMUTHAR_WRITE_RECORDS").is_some() {
            fs::write(&beside, &record).unwrap();
        }
        let name = file.display();
        assert!(fs::read(&beside).unwrap() == record, "{name} has another record");
    }
}

#[test]
fn every_sound_record_reads_back_as_its_board() {
    for file in files("board") {
        let board = sheet_of(&file).board;
        let record = board.builder().record();
        if basmuthar::size(&record).is_ok() {
            assert_eq!(board_of(&record), renamed(board), "{}", file.display());
        }
    }
}

#[test]
fn a_refusal_is_shown_at_the_line_that_the_note_beside_it_says() {
    use crate::blame;
    for file in files("board") {
        let Ok(note) = fs::read_to_string(file.with_extension("txt")) else {
            continue;
        };
        let sheet = sheet_of(&file);
        let builder = sheet.board.builder();
        let Err(refusal) = basmuthar::size(&builder.record()) else {
            continue;
        };
        let spot = blame::of_record(&sheet, &builder, refusal).unwrap().spot;
        let line = format!("line {}, column {}", spot.line, spot.column);
        assert_eq!(note.lines().last(), Some(line.as_str()), "{}", file.display());
    }
}
