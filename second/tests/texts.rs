//! Text out and clause text in: case 13 of document 01, P2 of document 02 and its settled readings.

use second::board::{Board, Bounds, Clause, Literal};
use second::boards::ceiling;
use second::boards::dice::Dice;
use second::boards::sound::sound;
use second::boards::writing::written;
use second::clauses::numbers_of;
use second::reading::read;
use second::{compile, printed, read_text, size, write_text, Refusal, Sizes};

fn refused<T>(number: u8, detail: u64) -> Result<T, Refusal> {
    Err(Refusal { number, detail })
}

fn sizes(variables: u64, clauses: u64, numbers: u64) -> Result<Sizes, Refusal> {
    Ok(Sizes {
        variables,
        clauses,
        numbers,
    })
}

/// What reading into a list of 20 numbers leads to; a refusal keeps the list.
fn reading(text: &str) -> Result<Sizes, Refusal> {
    let mut list = [77; 20];
    let result = read_text(text.as_bytes(), &mut list);
    assert!(result.is_ok() || list == [77; 20], "{text:?}");
    result
}

/// The numbers of a good text.
fn numbers(text: &str) -> Vec<i32> {
    let mut list = [77; 20];
    let sizes = read_text(text.as_bytes(), &mut list).unwrap();
    let (read, rest) = list.split_at(sizes.numbers as usize);
    assert!(rest.iter().all(|&number| number == 77));
    read.to_vec()
}

/// Bad text, at this offset.
fn bad_at(text: &str, place: u64) {
    assert_eq!(reading(text), refused(18, place), "{text:?}");
}

/// Bad text that stops too early.
fn bad_at_the_end(text: &str) {
    bad_at(text, text.len() as u64);
}

/// The second example of 000: 44 bytes, whose text document 01 prints.
fn case_13() -> Vec<u8> {
    let mut record = vec![
        1, 0, 0, 0, 0x27, 0, 2, 0, 0, 0, 1, 0, 0, 0, 2, 0, 0, 0, 2, 2,
    ];
    record.extend([2, 2, 1, 0, 0, 255, 0, 1, 255, 255, 255, 255]);
    record.extend([2, 2, 255, 0, 0, 1, 0, 1, 255, 255, 255, 255]);
    record
}

/// A board of Booleans and one empty clause.
fn booleans(count: usize) -> Vec<u8> {
    let clause = |literals| Clause { literals };
    let clauses = vec![clause(vec![Literal::Negated(count)]), clause(Vec::new())];
    let board = Board {
        variables: vec![Bounds { lower: 5, upper: 5 }],
        booleans: count,
        clauses,
    };
    written(&board).record
}

#[test]
fn the_text_is_what_the_program_prints() {
    let text = printed(&case_13());
    let length = text.len();
    let mut lent = vec![b'?'; length + 3];
    assert_eq!(write_text(&case_13(), &mut lent), Ok(length as u64));
    assert_eq!(lent, [text.as_bytes(), b"???"].concat());
    let mut exact = vec![b'?'; length];
    assert_eq!(write_text(&case_13(), &mut exact), Ok(length as u64));
    assert_eq!(exact, text.as_bytes());
}

#[test]
fn the_text_of_an_empty_board() {
    let record = [1, 0, 0, 0, 6, 0, 0, 0, 0, 0, 0];
    let mut lent = [b'?'; 10];
    assert_eq!(write_text(&record, &mut lent), Ok(10));
    assert_eq!(&lent, b"p cnf 0 0\n");
}

#[test]
fn an_empty_clause_is_a_line_of_its_0() {
    let mut lent = [b'?'; 40];
    assert_eq!(write_text(&booleans(9), &mut lent), Ok(38));
    assert_eq!(&lent[..38], b"p cnf 11 5\n-10 0\n11 0\n-10 11 0\n-9 0\n0\n");
}

#[test]
fn short_lent_bytes_are_refused_with_the_length() {
    let length = printed(&case_13()).len();
    for short in 0..length {
        let mut lent = vec![b'?'; short];
        let refusal = refused(10, length as u64);
        assert_eq!(write_text(&case_13(), &mut lent), refusal);
        assert_eq!(lent, vec![b'?'; short]);
    }
}

#[test]
fn the_record_is_refused_before_the_lent_bytes() {
    let mut record = case_13();
    record[0] = 9;
    assert_eq!(write_text(&record, &mut []), refused(3, 0));
    record[0] = 1;
    record[22] = 65;
    assert_eq!(write_text(&record, &mut []), refused(7, 22));
    record[22] = 1;
    record[24] = 2;
    assert_eq!(write_text(&record, &mut []), refused(15, 23));
}

#[test]
fn lengths_beyond_32_bits() {
    let long = (0..40).map(|seed| ceiling::around(&mut Dice::new(seed)));
    let long = long.filter(|drawn| drawn.way == "K at the ceiling");
    let mut met = 0;
    for drawn in long {
        let refusal = write_text(&drawn.record, &mut [0; 8]).unwrap_err();
        assert_eq!(refusal.number, 10);
        assert!(refusal.detail > 4 * size(&drawn.record).unwrap().numbers);
        met += 1;
    }
    assert!(met > 2);
}

#[test]
fn reading_what_was_written_gives_the_list_again() {
    for seed in 0..1_000 {
        let record = sound(&mut Dice::new(seed)).record;
        let Refusal { detail, .. } = write_text(&record, &mut []).unwrap_err();
        let mut text = vec![b'?'; detail as usize];
        assert_eq!(write_text(&record, &mut text), Ok(detail));
        let sizes = size(&record);
        let mut list = vec![77; sizes.unwrap().numbers as usize];
        assert_eq!(read_text(&text, &mut list), sizes);
        assert_eq!(list, numbers_of(&read(&record).unwrap()));
    }
}

#[test]
fn case_13_read_again() {
    let text = printed(&case_13());
    let (mut read, mut compiled) = ([77; 54], [77; 54]);
    assert_eq!(read_text(text.as_bytes(), &mut read), sizes(10, 17, 53));
    assert_eq!(compile(&case_13(), &mut compiled), sizes(10, 17, 53));
    assert_eq!(read, compiled);
    let mut short = [77; 52];
    assert_eq!(read_text(text.as_bytes(), &mut short), refused(10, 53));
    assert_eq!(short, [77; 52]);
}

#[test]
fn runs_of_spaces_and_newlines() {
    assert_eq!(numbers("p cnf 3 2\n1 -2 0\n3 0\n"), [1, -2, 0, 3, 0]);
    assert_eq!(numbers("p cnf 3 2\n1 -2 0 3 0"), [1, -2, 0, 3, 0]);
    let loose = "p cnf 3 2\n \n\n 1\n-2  0\n\n3 \n 0 \n  ";
    assert_eq!(numbers(loose), [1, -2, 0, 3, 0]);
    assert_eq!(reading(loose), sizes(3, 2, 5));
}

#[test]
fn empty_clauses_and_no_clauses() {
    assert_eq!(numbers("p cnf 0 3\n0 0 0"), [0, 0, 0]);
    assert_eq!(reading("p cnf 0 0\n"), sizes(0, 0, 0));
    assert_eq!(reading("p cnf 7 0\n \n "), sizes(7, 0, 0));
    assert_eq!(read_text(b"p cnf 7 0\n", &mut []), sizes(7, 0, 0));
}

#[test]
fn bad_text_comes_before_a_short_list() {
    assert_eq!(read_text(b"p cnf 3 1\n1 2 0", &mut []), refused(10, 3));
    assert_eq!(read_text(b"p cnf 3 1\n1 2 0 x", &mut []), refused(18, 16));
    assert_eq!(read_text(b"p cnf 3 1\n1 2", &mut []), refused(18, 13));
}

#[test]
fn the_first_line_as_printed() {
    bad_at("", 0);
    bad_at("c\np cnf 1 0\n", 0);
    bad_at("\np cnf 1 0\n", 0);
    bad_at(" p cnf 1 0\n", 0);
    bad_at("P cnf 1 0\n", 0);
    bad_at("p  cnf 1 0\n", 2);
    bad_at("p\tcnf 1 0\n", 1);
    bad_at("p dnf 1 0\n", 2);
    bad_at("p cnf  1 0\n", 6);
    bad_at("p cnf\t1 0\n", 5);
    bad_at("p cnf 1  0\n", 8);
    bad_at("p cnf 1\n", 7);
    bad_at("p cnf 1 \n", 8);
    bad_at("p cnf 1 0 \n", 9);
    bad_at("p cnf 1 0\r\n", 9);
    bad_at("p cnf +1 0\n", 6);
    bad_at("p cnf -1 0\n", 6);
    bad_at("p cnf 1 -0\n", 8);
    bad_at("p cnf 01 0\n", 7);
    bad_at("p cnf 1 00\n", 9);
    bad_at("p cnf 1 0x\n", 9);
}

#[test]
fn the_first_line_has_its_newline() {
    for text in ["p", "p cnf", "p cnf ", "p cnf 1", "p cnf 1 ", "p cnf 1 0"] {
        bad_at_the_end(text);
    }
    bad_at("p cnf 1 0 1 0\n", 9);
}

#[test]
fn n_and_m_too_great() {
    assert_eq!(reading("p cnf 2147483647 0\n"), sizes(2_147_483_647, 0, 0));
    bad_at("p cnf 2147483648 0", 15);
    bad_at("p cnf 21474836470 0", 16);
    bad_at("p cnf 9999999999 0\n", 15);
    bad_at("p cnf 18446744073709551616 0\n", 16);
    bad_at("p cnf 1 2147483648\n", 17);
    bad_at("p cnf 1 21474836470\n", 18);
    bad_at_the_end("p cnf 1 2147483647\n");
}

#[test]
fn numbers_up_to_the_greatest_n() {
    let text = "p cnf 2147483647 1\n2147483647 -2147483647 0";
    assert_eq!(numbers(text), [i32::MAX, -i32::MAX, 0]);
    bad_at("p cnf 2147483647 1\n2147483648 0", 19);
    bad_at("p cnf 2147483647 1\n1 -2147483648 0", 21);
    bad_at("p cnf 2147483647 1\n4294967297 0", 19);
    bad_at("p cnf 2147483647 1\n18446744073709551617 0", 19);
}

#[test]
fn a_number_beyond_n_is_bad_at_its_first_byte() {
    bad_at("p cnf 5 1\n6 0\n", 10);
    bad_at("p cnf 5 1\n1 -6 0\n", 12);
    bad_at("p cnf 5 1\n12 0\n", 10);
    bad_at("p cnf 5 1\n12", 10);
    bad_at("p cnf 5 1\n12x", 10);
    bad_at("p cnf 5 1\n-12-", 10);
    bad_at("p cnf 5 1\n1x2", 11);
    bad_at("p cnf 0 1\n1 0", 10);
}

#[test]
fn no_number_but_0_where_n_is_0() {
    bad_at("p cnf 0 1\n-", 10);
    bad_at("p cnf 0 1\n-0", 10);
    bad_at("p cnf 0 1\n0 -1", 12);
}

#[test]
fn numbers_are_without_plus_leading_zero_and_signed_0() {
    bad_at("p cnf 50 1\n0012 0", 12);
    bad_at("p cnf 50 1\n012 0", 12);
    bad_at("p cnf 50 1\n-012 0", 12);
    bad_at("p cnf 50 1\n-0", 12);
    bad_at("p cnf 50 1\n+1 0", 11);
    bad_at("p cnf 50 1\n--1 0", 12);
    bad_at("p cnf 50 1\n- 1 0", 12);
    bad_at("p cnf 50 1\n1-2 0", 12);
    bad_at("p cnf 50 1\n00", 12);
}

#[test]
fn no_tab_carriage_return_or_comment() {
    bad_at("p cnf 5 2\n1\t0 0\n", 11);
    bad_at("p cnf 5 2\n1 0\r\n0\n", 13);
    bad_at("p cnf 5 2\n1 0\nc\n0\n", 14);
    bad_at("p cnf 5 2\n1 0\n0\n%\n", 16);
}

#[test]
fn after_the_last_clause_only_spaces_and_newlines() {
    bad_at("p cnf 5 1\n1 0 2", 14);
    bad_at("p cnf 5 1\n1 0 0", 14);
    bad_at("p cnf 5 1\n1 0\n\n-", 15);
    bad_at("p cnf 5 1\n1 0x", 13);
    bad_at("p cnf 5 1\n1 07", 13);
    bad_at("p cnf 5 0\n0", 10);
    bad_at("p cnf 5 0\n \n1", 12);
    bad_at("p cnf 5 1\n1 0 9", 14);
}

#[test]
fn too_few_clauses_and_an_unfinished_one() {
    bad_at_the_end("p cnf 5 1\n");
    bad_at_the_end("p cnf 5 1\n \n");
    bad_at_the_end("p cnf 5 1\n1");
    bad_at_the_end("p cnf 5 1\n1 -");
    bad_at_the_end("p cnf 5 1\n1 2 \n");
    bad_at_the_end("p cnf 5 2\n1 0");
    bad_at_the_end("p cnf 5 2\n1 0 2\n");
}
