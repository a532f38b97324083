//! Clause text: written for every board and read back, lent bytes and lists, and where bad text is refused.

use crate::refused;
use basmuthar::{compile, read_text, size, text, text_length, write_text, Sizes};
use std::fs;
use std::path::Path;

/// x in 5..5, no Boolean variable, no clause.
const ONE_HOUR: [u8; 15] = [1, 0, 0, 0, 10, 0, 1, 0, 0, 0, 0, 0, 5, 0, 5];
const ONE_HOUR_TEXT: &[u8] = b"p cnf 2 3\n-1 0\n2 0\n-1 2 0\n";

/// The records of boards/, each with its name.
fn records() -> Vec<(String, Vec<u8>)> {
    let folder = Path::new(env!("CARGO_MANIFEST_DIR")).join("../boards");
    let files = fs::read_dir(folder).unwrap().map(|entry| entry.unwrap().path());
    let records = files.filter(|file| file.extension().is_some_and(|ending| ending == "record"));
    records.map(|file| (file.display().to_string(), fs::read(file).unwrap())).collect()
}

fn compiled(record: &[u8]) -> (Sizes, Vec<i32>) {
    let mut list = vec![0; size(record).unwrap().numbers];
    let sizes = compile(record, &mut list).unwrap();
    (sizes, list)
}

/// The text of a list, put together apart from the library.
fn printed(sizes: Sizes, list: &[i32]) -> String {
    let numbers = list.iter().map(|number| match number {
        0 => "0\n".to_string(),
        number => format!("{number} "),
    });
    format!("p cnf {} {}\n", sizes.variables, sizes.clauses) + &numbers.collect::<String>()
}

#[test]
fn the_text_of_every_board_is_its_list_and_reads_as_it() {
    let records = records();
    assert!(records.len() >= 15, "only {} records", records.len());
    for (name, record) in records {
        let (sizes, list) = compiled(&record);
        let text = text(&record).unwrap();
        assert!(text == printed(sizes, &list).as_bytes(), "{name}: another text");
        let mut read = vec![77; sizes.numbers];
        assert_eq!(read_text(&text, &mut read), Ok(sizes), "{name}");
        assert!(read == list, "{name}: another list");
    }
}

#[test]
fn text_is_written_to_the_first_bytes_and_the_others_are_left() {
    let length = ONE_HOUR_TEXT.len();
    assert_eq!(text_length(&ONE_HOUR), Ok(length));
    let mut lent = vec![77; length + 2];
    assert_eq!(write_text(&ONE_HOUR, &mut lent[..length - 1]), refused(10, length as u64));
    assert_eq!(lent, vec![77; length + 2]);
    assert_eq!(write_text(&ONE_HOUR, &mut lent), Ok(length));
    assert_eq!(lent, [ONE_HOUR_TEXT, &[77, 77]].concat());
}

#[test]
fn a_record_is_refused_as_size_refuses_it() {
    for record in [&[1; 4][..], &[9; 5], &[1, 0, 0, 0, 0], &[7; 65_537]] {
        let refusal = size(record).unwrap_err();
        assert_eq!(text_length(record), Err(refusal));
        assert_eq!(write_text(record, &mut [77; 9]), Err(refusal));
        assert_eq!(text(record), Err(refusal));
    }
}

#[test]
fn numbers_are_read_to_the_first_places_and_the_others_are_left() {
    let mut list = [77; 9];
    assert_eq!(read_text(ONE_HOUR_TEXT, &mut list[..6]), refused(10, 7));
    assert_eq!(list, [77; 9]);
    let sizes = Sizes { variables: 2, clauses: 3, numbers: 7 };
    assert_eq!(read_text(ONE_HOUR_TEXT, &mut list), Ok(sizes));
    assert_eq!(list, [-1, 0, 2, 0, -1, 2, 0, 77, 77]);
}

#[test]
fn spaces_and_newlines_may_stand_in_runs_before_between_and_after() {
    let rows: [(&str, usize, usize, &[i32]); 6] = [
        ("p cnf 2 2\n \n 1\n\n-2  0 0", 2, 2, &[1, -2, 0, 0]),
        ("p cnf 2 1\n1 2 1 -1 0 \n \n", 2, 1, &[1, 2, 1, -1, 0]),
        ("p cnf 0 0\n", 0, 0, &[]),
        ("p cnf 7 0\n \n\n ", 7, 0, &[]),
        ("p cnf 0 1\n0", 0, 1, &[0]),
        ("p cnf 2147483647 1\n-2147483647 0", 2_147_483_647, 1, &[-2_147_483_647, 0]),
    ];
    for (text, variables, clauses, list) in rows {
        let mut read = [77; 5];
        let sizes = Sizes { variables, clauses, numbers: list.len() };
        assert_eq!(read_text(text.as_bytes(), &mut read), Ok(sizes), "{text:?}");
        assert_eq!(&read[..list.len()], list, "{text:?}");
        assert!(read[list.len()..].iter().all(|number| *number == 77), "{text:?}");
    }
}

#[test]
fn bad_text_is_refused_at_its_place() {
    let rows = [
        ("", 0),
        ("c\np cnf 1 0\n", 0),
        ("p  cnf 1 0\n", 2),
        ("p cnf", 5),
        ("p cnf 1 0", 9),
        ("p cnf 1 0 \n", 9),
        ("p cnf 1 0\r\n", 9),
        ("p cnf 01 0\n", 7),
        ("p cnf -1 0\n", 6),
        ("p cnf +1 0\n", 6),
        ("p cnf  0\n", 6),
        ("p cnf 2147483648 0", 15),
        ("p cnf 21474836470 0", 16),
        ("p cnf 1 2147483648\n", 17),
        ("p cnf 3 1\n1 4 0\n", 12),
        ("p cnf 3 1\n1 -40 0\n", 12),
        ("p cnf 12 1\n123x", 11),
        ("p cnf 3 1\n1 2", 13),
        ("p cnf 3 2\n1 0\n", 14),
        ("p cnf 3 1\n1 0\n2 0\n", 14),
        ("p cnf 3 1\n1 0\nc\n", 14),
        ("p cnf 3 0\n0\n", 10),
        ("p cnf 0 1\n-1 0\n", 10),
        ("p cnf 3 1\n0012\n", 11),
        ("p cnf 3 1\n-012\n", 11),
        ("p cnf 3 1\n-0\n", 11),
        ("p cnf 3 1\n1-2 0\n", 11),
        ("p cnf 3 1\n1\t0\n", 11),
        ("p cnf 3 1\n- 1 0\n", 11),
        ("p cnf 3 1\n+1 0\n", 10),
        ("p cnf 3 1\n1 0\r\n", 13),
    ];
    for (text, place) in rows {
        let mut list = [77; 9];
        assert_eq!(read_text(text.as_bytes(), &mut list), refused(18, place), "{text:?}");
        assert_eq!(read_text(text.as_bytes(), &mut []), refused(18, place), "{text:?}");
        assert_eq!(list, [77; 9], "{text:?}");
    }
}
