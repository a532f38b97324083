//! `board why` with scripts for solvers: what it tells where something ends it early, and whom it does not believe.

use crate::fake::{model, yes, Fake, Run, NO};
use crate::run::shell;
use crate::why::{lines_of, TWO_CLASHES};
use std::fs;
use std::time::{Duration, Instant};

/// The number x ends at 7, so its rule cannot be kept, and becomes a clause without literals.
const AT_ODDS: &str = "number x : 0 .. 7\nchoice quiet\nx >= 8\nquiet or not quiet\n";

fn asked_why(board: &str, words: &[&str], script: &str) -> Run {
    let fake = Fake::new(script);
    fs::write(fake.path("x.board"), board).unwrap();
    fake.ended(fake.asking_why(words, &["sh", &fake.path("solver")]))
}

/// A script that says no where both rules are among the clauses, and at any later question does something else.
fn no_then(script: &str) -> String {
    format!("[ \"$(head -n 1 \"$1\")\" = 'p cnf 10 12' ] && {{ {NO}; }}; {script}")
}

/// A script that says no where the rule is there that cannot be kept.
fn truth() -> String {
    format!("grep -qx 0 \"$1\" && {{ {NO}; }}; {}", yes(0))
}

#[test]
fn a_rule_may_be_at_odds_with_the_bounds_of_a_number() {
    let run = asked_why(AT_ODDS, &[], &truth());
    let expected =
        "These 2 lines cannot be kept together; without any one of them, the others can:\n\
        line 3: x >= 8\nline 1: number x : 0 .. 7\n";
    assert_eq!((run.complaint.as_str(), run.printed.as_str(), run.status), ("", expected, Some(0)));
}

#[test]
fn where_there_is_a_solution_there_is_nothing_to_find() {
    let run = asked_why("number x : 0 .. 7\nchoice quiet\nx >= 0\n", &[], &yes(3));
    assert_eq!((run.printed.as_str(), run.status), ("", Some(1)));
    assert!(run.complaint.contains("has a solution; `board place` shows one"), "{}", run.complaint);
}

#[test]
fn a_solver_that_says_no_without_any_rule_is_not_believed() {
    let run = asked_why(AT_ODDS, &[], NO);
    assert!(run.complaint.contains("a board without rules has a solution"), "{}", run.complaint);
    assert_eq!((run.printed.as_str(), run.status), ("", Some(5)));
}

#[test]
fn a_solver_that_says_no_and_yes_in_turn_is_not_believed() {
    let in_turn =
        format!("echo >>\"$0.count\"; [ $(($(wc -l <\"$0.count\") % 2)) = 1 ] && {{ {NO}; }}; ");
    let board = "number x : 0 .. 7\nchoice quiet\nx >= 0\nx <= 7\n";
    let run = asked_why(board, &[], &(in_turn + &yes(3)));
    let words = "? The solver sh contradicts itself: it shows a solution of lines to which it said no before.\n";
    assert!(
        run.complaint.starts_with(&format!("a solution without line 1{words}")),
        "{}",
        run.complaint
    );
    assert_eq!((run.printed.as_str(), run.status), ("", Some(5)));
}

#[test]
fn a_question_without_an_answer_ends_it_with_what_there_is_so_far() {
    let rows = [
        ("echo s UNKNOWN", 4, "says that it gave up"),
        ("echo what a week", 4, "has a reply that is none"),
        ("exit 3", 5, "ended with the error status 3"),
        ("kill -9 $$", 5, "was killed by signal 9"),
        ("kill -INT $PPID; kill -INT $$", 5, "was interrupted"),
    ];
    for (script, status, words) in rows {
        let run = asked_why(AT_ODDS, &[], &no_then(script));
        let asked = "a solution without line 1? The solver sh ";
        assert!(
            run.complaint.starts_with(asked) && run.complaint.contains(words),
            "{}",
            run.complaint
        );
        let so_far = "These 3 lines cannot be kept together. Maybe fewer of them cannot: those with `?` may not be \
            needed.\nline 3?: x >= 8\nline 4?: quiet or not quiet\nline 1?: number x : 0 .. 7\n";
        assert_eq!((run.printed.as_str(), run.status), (so_far, Some(status)), "{script}");
    }
}

#[test]
fn an_interrupt_ends_a_solver_that_has_a_limit_too() {
    let begun = Instant::now();
    let script = no_then("kill -INT $PPID; sleep 60");
    let run = asked_why(AT_ODDS, &["--seconds", "59"], &script);
    assert!(begun.elapsed() < Duration::from_secs(30));
    assert!(run.complaint.contains("was interrupted"), "{}", run.complaint);
    assert_eq!((lines_of(&run.printed), run.status), (vec![3, 4, 1], Some(5)));
}

#[test]
fn whole_machines_are_left_out_first() {
    let script = format!("[ -e \"$0.asked\" ] && exit 3; echo >\"$0.asked\"; {NO}");
    let run = asked_why(TWO_CLASHES, &[], &script);
    assert!(
        run.complaint.starts_with("a solution without 2 lines from 1 to 2? "),
        "{}",
        run.complaint
    );
}

#[test]
fn a_yes_that_its_model_does_not_bear_out_ends_it_with_nothing() {
    let wrong = format!("echo s SATISFIABLE; echo v {}", model(3).replace(" 10 ", " -10 "));
    let run = asked_why(AT_ODDS, &[], &no_then(&wrong));
    assert!(run.complaint.contains("its model is refused"), "{}", run.complaint);
    assert_eq!((run.printed.as_str(), run.status), ("", Some(6)));
}

#[test]
fn a_solver_that_is_missing_is_5() {
    let fake = Fake::new("");
    let run = fake.ended(fake.asking_why(&[], &["no-such-solver"]));
    let words = "a solution with all lines? The solver no-such-solver cannot be started";
    assert!(run.complaint.starts_with(words), "{}", run.complaint);
    assert_eq!((run.printed.as_str(), run.status), ("", Some(5)));
}

#[test]
fn when_its_time_is_up_it_tells_what_it_has_so_far() {
    let begun = Instant::now();
    // Without the rule it has a solution, and whether the other rule is needed it never says.
    let script =
        format!("{}; sleep 60", no_then(&format!("grep -qx 0 \"$1\" || {{ {}; }}", yes(0))));
    let run = asked_why(AT_ODDS, &["--seconds", "1"], &script);
    assert!(begun.elapsed() < Duration::from_secs(30));
    assert!(
        run.complaint.starts_with("a solution without line 4? The solver sh has not replied"),
        "{}",
        run.complaint
    );
    let so_far = "line 3: x >= 8\nline 4?: quiet or not quiet\nline 1: number x : 0 .. 7\n";
    assert!(run.printed.ends_with(so_far), "{}", run.printed);
    assert_eq!(run.status, Some(7));
}

#[test]
fn a_hard_question_is_passed_over_and_asked_again() {
    // At first the solver takes more than a question's share, and later it does not.
    let slow = "[ -e \"$0.slow\" ] || { echo >\"$0.slow\"; sleep 60; }; ";
    let run = asked_why(AT_ODDS, &["--seconds", "40"], &no_then(&(slow.to_string() + &truth())));
    assert_eq!(lines_of(&run.printed), [3, 1], "{}", run.printed);
    assert_eq!((run.complaint.as_str(), run.status), ("", Some(0)));
}

#[test]
fn time_that_is_up_before_anything_is_known_is_7_too() {
    let run = asked_why(AT_ODDS, &["--seconds", "1"], "sleep 60");
    assert!(
        run.complaint.starts_with("a solution with all lines? The solver sh has not replied"),
        "{}",
        run.complaint
    );
    assert_eq!((run.printed.as_str(), run.status), ("", Some(7)));
}

#[test]
fn wrong_seconds_are_wrong_words() {
    for seconds in ["0", "-1", "soon", "1.5", ""] {
        let line = format!("board why boards/never.board --seconds '{seconds}' -- cadical");
        let (words, status) = shell(&line);
        assert!(words.contains("board why FILE.board [--seconds N] -- SOLVER"), "{words}");
        assert_eq!(status, Some(2), "{seconds}");
    }
}

#[test]
fn the_seconds_may_stand_before_the_file() {
    let solver = "sh -c 'echo s UNKNOWN' solver";
    let status = shell(&format!("board why --seconds 9 boards/never.board -- {solver}")).1;
    assert_eq!(status, Some(4));
}
