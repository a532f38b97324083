//! The examples 1 to 14 of document 01.

use second::board::{Board, Bounds, Clause, Comparison, Literal, Term};
use second::boards::writing::written;
use second::clauses::{clause_list, primitive};
use second::reading::read;
use second::{compile, decode, image, judge, printed, size, Refusal, Sizes};

const CASE_13: &str = "01 00000027 0002 0000 0001 0000 0002 0000 0002 02 \
    02 02 01 0000 FF 0001 FFFFFFFF 02 02 FF 0000 01 0001 FFFFFFFF";

const CASE_13_PRINTED: &str = "p cnf 10 17
-1 0
4 0
-1 2 0
-2 3 0
-3 4 0
-5 0
8 0
-5 6 0
-6 7 0
-7 8 0
9 10 0
-9 1 -6 0
-9 2 -7 0
-9 3 -8 0
-10 -4 7 0
-10 -3 6 0
-10 -2 5 0
";

fn bytes(hex: &str) -> Vec<u8> {
    let digits: String = hex.split_whitespace().collect();
    let pairs = (0..digits.len()).step_by(2);
    pairs
        .map(|at| u8::from_str_radix(&digits[at..at + 2], 16).unwrap())
        .collect()
}

/// A board of equal bounds and one clause of comparisons.
fn board(variables: usize, lower: i64, upper: i64, clause: &[(&[i64], i64)]) -> Board {
    let literals = clause.iter().map(|(coefficients, constant)| {
        let terms = coefficients.iter().enumerate();
        let terms = terms.map(|(variable, &coefficient)| Term {
            coefficient,
            variable,
        });
        Literal::Comparison(Comparison {
            terms: terms.collect(),
            constant: *constant,
        })
    });
    Board {
        variables: vec![Bounds { lower, upper }; variables],
        booleans: 0,
        clauses: vec![Clause {
            literals: literals.collect(),
        }],
    }
}

fn record(board: &Board) -> Vec<u8> {
    written(board).record
}

fn sizes(variables: u64, clauses: u64, numbers: u64) -> Result<Sizes, Refusal> {
    Ok(Sizes {
        variables,
        clauses,
        numbers,
    })
}

fn refused<T>(number: u8, detail: u64) -> Result<T, Refusal> {
    Err(Refusal { number, detail })
}

fn clauses_behind_axioms(board: &Board) -> Vec<Vec<i32>> {
    let axioms = board.variables.iter().map(|x| x.upper - x.lower + 3);
    clause_list(board).split_off(axioms.sum::<i64>() as usize)
}

fn solutions(board: &Board) -> usize {
    let record = record(board);
    let mut all = vec![vec![]];
    for x in &board.variables {
        let longer = all.iter().flat_map(|values: &Vec<i32>| {
            (x.lower..=x.upper).map(|value| [values.as_slice(), &[value as i32]].concat())
        });
        all = longer.collect();
    }
    let held = all
        .iter()
        .filter(|values| judge(&record, values, &[]).is_ok());
    held.count()
}

#[test]
fn case_1_empty_board() {
    let record = bytes("01 00000006 0000 0000 0000");
    assert_eq!(size(&record), sizes(0, 0, 0));
    assert_eq!(compile(&record, &mut []), sizes(0, 0, 0));
    assert_eq!(printed(&record), "p cnf 0 0\n");
}

#[test]
fn case_2_sum_of_two() {
    let board = board(2, 2, 6, &[(&[1, 1], 7)]);
    assert_eq!(size(&record(&board)), sizes(12, 19, 53));
    let p = |x: i32, c: i32| 6 * x + c;
    let expected: Vec<Vec<i32>> = (1..=5).map(|b| vec![p(0, b), p(1, 6 - b)]).collect();
    assert_eq!(clauses_behind_axioms(&board), expected);
    assert_eq!(solutions(&board), 10);
}

#[test]
fn case_3_three_terms() {
    let board = board(3, 0, 3, &[(&[1, 1, -1], -2)]);
    assert_eq!(size(&record(&board)), sizes(15, 24, 72));
    let clause = |x: i32, y: i32, z: i32| vec![x + 2, y + 7, -(z + 12)];
    let expected = [
        clause(-1, -1, 1),
        clause(-1, 0, 2),
        clause(-1, 1, 3),
        clause(0, -1, 2),
        clause(0, 0, 3),
        clause(1, -1, 3),
    ];
    assert_eq!(clauses_behind_axioms(&board), expected);
}

#[test]
fn case_4_edge_of_a_difference() {
    let board = board(2, 0, 4, &[(&[1, -1], -2)]);
    assert_eq!(size(&record(&board)), sizes(12, 18, 50));
    assert!(clauses_behind_axioms(&board).contains(&vec![4, -12]));
    assert_eq!(judge(&record(&board), &[3, 4], &[]), refused(13, 0));
}

#[test]
fn case_5_below_the_least_sum() {
    let below = board(2, 0, 3, &[(&[1, 1], -2)]);
    assert_eq!(clauses_behind_axioms(&below), vec![Vec::<i32>::new()]);
    assert!(printed(&record(&below)).ends_with("\n0\n"));
    let at = board(2, 0, 3, &[(&[1, 1], 0)]);
    assert_eq!(clauses_behind_axioms(&at), [[1, 7], [2, 6]]);
    assert_eq!(solutions(&at), 1);
}

#[test]
fn case_6_equal_clauses() {
    let board = board(2, 0, 3, &[(&[2, 2], 4)]);
    let mut clauses = clauses_behind_axioms(&board);
    assert_eq!(clauses.len(), 6);
    clauses.sort();
    clauses.dedup();
    assert_eq!(clauses.len(), 4);
}

#[test]
fn case_7_one_value() {
    let mut board = board(1, 5, 5, &[]);
    board.clauses.clear();
    assert_eq!(size(&record(&board)), sizes(2, 3, 7));
}

#[test]
fn case_8_models_and_plain_models() {
    let board = board(1, 0, 3, &[(&[1], 1), (&[1], 2)]);
    let record = record(&board);
    assert_eq!(solutions(&board), 3);
    let mut models = 0;
    let mut plain = 0;
    for bits in 0..128_u8 {
        let model: Vec<u8> = (0..7).map(|at| bits >> at & 1).collect();
        let mut values = [0];
        if decode(&record, &model, &mut values, &mut []).is_ok() {
            models += 1;
            let mut back = [9; 7];
            image(&record, &values, &[], &mut back).unwrap();
            plain += usize::from(back.to_vec() == model);
        }
    }
    assert_eq!((models, plain), (7, 3));
}

#[test]
fn case_9_rounding() {
    assert_eq!(primitive(-3, -7), (false, 2));
    assert_eq!(primitive(3, -7), (true, -3));
}

#[test]
fn case_10_list_too_long() {
    let record = record(&board(3, -4_096, 4_095, &[(&[64, 64, 64], 0)]));
    assert_eq!(size(&record), refused(9, 0));
    assert_eq!(compile(&record, &mut []), refused(9, 0));
    assert_eq!(decode(&record, &[], &mut [], &mut []), refused(9, 0));
    assert_eq!(judge(&record, &[], &[]), refused(9, 0));
    assert_eq!(image(&record, &[], &[], &mut []), refused(9, 0));
}

#[test]
fn case_11_coefficient_65() {
    let board = board(3, -4_096, 4_095, &[(&[65, 64, 64], 0)]);
    let mut record = record(&board);
    let place = 11 + 12 + 3;
    assert_eq!(size(&record), refused(7, place));
    record[0] = 9;
    assert_eq!(size(&record), refused(3, 0));
}

#[test]
fn case_12_lengths_of_the_list() {
    let record = record(&board(2, 2, 6, &[(&[1, 1], 7)]));
    let mut list = [77; 54];
    assert_eq!(compile(&record, &mut list[..52]), refused(10, 53));
    assert_eq!(list, [77; 54]);
    assert_eq!(compile(&record, &mut list), sizes(12, 19, 53));
    assert_eq!(list[52..], [0, 77]);
    let mut exact = [77; 53];
    assert_eq!(compile(&record, &mut exact), sizes(12, 19, 53));
    assert_eq!(exact, list[..53]);
}

#[test]
fn case_13_the_whole_program() {
    let case = bytes(CASE_13);
    assert_eq!(case.len(), 44);
    assert_eq!(record(&read(&case).unwrap()), case);
    assert_eq!(size(&case), sizes(10, 17, 53));
    assert_eq!(printed(&case), CASE_13_PRINTED);
}

#[test]
fn case_14_a_model_of_case_13() {
    let case = bytes(CASE_13);
    let mut model = [0, 1, 1, 1, 0, 0, 1, 1, 1, 0];
    let mut values = [7, 7];
    assert_eq!(decode(&case, &model, &mut values, &mut []), Ok(()));
    assert_eq!(values, [0, 1]);
    let mut back = [7; 10];
    assert_eq!(image(&case, &values, &[], &mut back), Ok(()));
    assert_eq!(back, model);
    model[9] = 1;
    let mut values = [7, 7];
    assert_eq!(decode(&case, &model, &mut values, &mut []), refused(13, 15));
    assert_eq!(values, [7, 7]);
}
