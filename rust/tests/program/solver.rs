//! The way to a solver and back, with a reply that is written by hand.

use crate::run::shell;

/// The printed example of 01, case 13.
const UNEQUAL_STARTS: &str = "\
p cnf 10 17
-1 0
4 0
-1 2 0
-2 3 0
-3 4 0
-5 0
8 0
-5 6 0
-6 7 0
-7 8 0
9 10 0
-9 1 -6 0
-9 2 -7 0
-9 3 -8 0
-10 -4 7 0
-10 -3 6 0
-10 -2 5 0
";

const NONE: &str =
    "# none: there is no solution\nboards/unequal_starts.board: there is no solution";

fn replied(words: &str) -> (String, Option<i32>) {
    shell(&format!("printf '{words}' | board model boards/unequal_starts.board"))
}

#[test]
fn the_clause_list_is_printed_as_01_has_it() {
    let printed = shell("board cnf boards/unequal_starts.board");
    assert_eq!(printed, (UNEQUAL_STARTS.to_string(), Some(0)));
}

#[test]
fn boards_without_numbers_are_printed_too() {
    assert_eq!(shell("board cnf boards/nothing.board").0, "p cnf 0 0\n");
    assert_eq!(shell("board cnf boards/never.board").0, "p cnf 1 1\n0\n");
}

#[test]
fn a_model_is_read_back() {
    let (words, status) = replied(r"s SATISFIABLE\nv -1 2 3 4 -5 -6\nv 7 8 9 -10 0\n");
    assert_eq!(words, "# a solution, decoded and judged\nx = 0\ny = 1\n");
    assert_eq!(status, Some(0));
}

#[test]
fn a_model_in_the_form_of_minisat_is_read_back() {
    let (words, status) = replied(r"SAT\n-1 2 3 4 -5 -6 7 8 9 -10 0\n");
    assert_eq!(words, "# a solution, decoded and judged\nx = 0\ny = 1\n");
    assert_eq!(status, Some(0));
    let (words, status) = replied(r"UNSAT\n");
    assert!(words.starts_with(NONE), "{words}");
    assert_eq!(status, Some(3));
}

#[test]
fn bytes_that_are_no_utf_8_are_left_out_in_a_comment_and_refused_elsewhere() {
    let (words, status) = replied(r"c caf\351\ns SATISFIABLE\nv -1 2 3 4 -5 -6 7 8 9 -10 0\n");
    assert_eq!(words, "# a solution, decoded and judged\nx = 0\ny = 1\n");
    assert_eq!(status, Some(0));
    let (words, status) = replied(r"s UNSATISFIABLE\n\351\n");
    assert!(words.starts_with("the reply, line 2, column 1: refusal 18: "), "{words}");
    assert_eq!(status, Some(1));
}

#[test]
fn a_solver_that_gave_up_has_a_status_of_its_own() {
    for reply in [r"s UNKNOWN\n", r"INDET\n"] {
        let expected = "the reply: the solver says neither yes nor no\n";
        assert_eq!(replied(reply), (expected.to_string(), Some(4)));
    }
}

#[test]
fn no_solution_is_said_and_has_a_status_of_its_own() {
    let (words, status) = replied(r"s UNSATISFIABLE\n");
    assert!(words.starts_with(NONE), "{words}");
    assert_eq!(status, Some(3));
}

#[test]
fn a_wrong_model_is_refused_at_the_rule_that_it_breaks() {
    let (words, status) = replied(r"s SATISFIABLE\nv -1 2 3 4 -5 -6 7 8 9 10 0\n");
    let expected = "boards/unequal_starts.board, line 5, column 1: \
        refusal 13: a clause does not hold, clause 15 counted from 0\n  x != y\n  ^\n";
    assert_eq!((words.as_str(), status), (expected, Some(1)));
}

#[test]
fn a_model_that_breaks_an_axiom_is_refused_at_the_number() {
    let (words, status) = replied(r"s SATISFIABLE\nv -1 2 3 4 -5 6 -7 8 9 -10 0\n");
    let expected = "boards/unequal_starts.board, line 3, column 11: \
        refusal 13: a clause does not hold, clause 8 counted from 0\n  \
        number x, y : 0 .. 2\n            ^\n";
    assert_eq!((words.as_str(), status), (expected, Some(1)));
}

#[test]
fn wrong_words_after_board_are_answered_with_the_right_ones() {
    let (words, status) = shell("board solve boards/nothing.board");
    let found = "expected words as below, found `board solve boards/nothing.board`\n\nboard record FILE.board";
    assert!(words.starts_with(found), "{words}");
    assert_eq!(status, Some(2));
}
