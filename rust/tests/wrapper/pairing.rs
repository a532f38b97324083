//! Plain models and solutions pair one to one: Image against the plain model, Decode back, and no other solution.

use crate::trial::{one_comparison, Board, Literal, Setting};
use basmuthar::{decode, image, judge, size};

/// Small boards of several kinds, one without a solution among them.
pub fn boards() -> Vec<Board> {
    let at_most = |terms: &[(i8, u16)], constant| Literal::AtMost(terms.to_vec(), constant);
    let with_selectors = Board {
        bounds: vec![(-1, 1), (0, 2)],
        booleans: 1,
        clauses: vec![
            vec![at_most(&[(2, 0), (-3, 1)], -2), Literal::Negated(1)],
            vec![at_most(&[(1, 0)], 0), at_most(&[(-1, 1)], -1), Literal::Boolean(1)],
        ],
    };
    let booleans_only = Board {
        bounds: vec![],
        booleans: 3,
        clauses: vec![vec![Literal::Boolean(1), Literal::Negated(2)], vec![Literal::Boolean(3)]],
    };
    let impossible_literal = Board {
        bounds: vec![(0, 3)],
        booleans: 0,
        clauses: vec![vec![at_most(&[(1, 0)], -1), at_most(&[(-1, 0)], -2)]],
    };
    let empty_clause = Board { clauses: vec![vec![]], ..booleans_only.clone() };
    vec![
        with_selectors,
        booleans_only,
        impossible_literal,
        empty_clause,
        one_comparison((2, 6), &[1, 1], 7),
        one_comparison((0, 3), &[1, 1, -1], -2),
        one_comparison((-2, 1), &[-3, 2], 1),
        one_comparison((0, 3), &[2, 2], 4),
    ]
}

#[test]
fn judge_accepts_exactly_the_solutions() {
    for board in boards() {
        let record = board.record();
        for setting in board.settings() {
            let accepted = judge(&record, &setting.0, &setting.1).is_ok();
            assert_eq!(accepted, board.is_solution(&setting), "{setting:?} of {board:?}");
        }
    }
}

#[test]
fn image_writes_the_plain_model_and_decode_reads_it_back() {
    for board in boards() {
        let record = board.record();
        let variables = size(&record).unwrap().variables;
        for setting in board.solutions() {
            let mut model = vec![77; variables];
            image(&record, &setting.0, &setting.1, &mut model).unwrap();
            assert_eq!(model, board.plain_model(&setting), "{setting:?} of {board:?}");
            assert_eq!(decoded(&board, &record, &model), Some(setting));
        }
    }
}

#[test]
fn every_model_decodes_to_a_solution_and_every_solution_has_one() {
    for board in boards() {
        let record = board.record();
        let variables = size(&record).unwrap().variables;
        let mut found = Vec::new();
        for bits in 0..1_u32 << variables {
            let model: Vec<u8> = (0..variables).map(|place| (bits >> place & 1) as u8).collect();
            found.extend(decoded(&board, &record, &model));
        }
        found.sort();
        found.dedup();
        assert_eq!(found, board.solutions());
    }
}

/// What a model decodes to, if it is accepted.
fn decoded(board: &Board, record: &[u8], model: &[u8]) -> Option<Setting> {
    let mut values = vec![0; board.bounds.len()];
    let mut booleans = vec![0; board.booleans.into()];
    decode(record, model, &mut values, &mut booleans).ok()?;
    Some((values, booleans))
}
