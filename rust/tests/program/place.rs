//! `board place`: a placement by real solvers, and a status of its own for every way that there is none.

use crate::fake::{model, yes, Fake, Run, NO};
use crate::run::{has, in_project, shell};
use std::fs;

/// The board three_firings has this solution alone.
const THREE_FIRINGS: &str =
    "# a solution, decoded and judged\ncups = 20\nbowls = 32\ntiles = 0\nfestival = yes\n";

fn placed(script: &str) -> Run {
    let fake = Fake::new(script);
    fake.ended(fake.placing(&["sh", &fake.path("solver")]))
}

/// Runs a script, which has to end `board` with this status, nothing printed, and a complaint that has these words.
fn ends(script: &str, status: i32, words: &str) {
    let run = placed(script);
    let complaint = &run.complaint;
    assert_eq!((run.printed.as_str(), run.status), ("", Some(status)), "{script}: {complaint}");
    let asked = complaint.starts_with("a placement of ") && complaint.contains("? The solver sh ");
    assert!(asked && complaint.contains(words), "{script}: {complaint}");
    assert!(complaint.lines().count() >= 2, "it says what to do: {complaint}");
}

#[test]
fn real_solvers_place_a_board() {
    for call in ["cadical -q", "cadical", "minisat", "minisat -verb=0 {cnf} {reply}"] {
        if has(call.split(' ').next().unwrap()) {
            let line = format!("board place boards/three_firings.board -- {call}");
            assert_eq!(shell(&line), (THREE_FIRINGS.to_string(), Some(0)), "{call}");
        }
    }
}

#[test]
fn real_solvers_say_that_there_is_none() {
    for solver in ["cadical", "minisat"] {
        if has(solver) {
            let line = format!("board place boards/week_too_full.board -- {solver}");
            let (words, status) = shell(&line);
            let none =
                "# none: there is no solution\nboards/week_too_full.board: there is no solution";
            assert!(words.starts_with(none), "{words}");
            assert_eq!(status, Some(3));
        }
    }
}

#[test]
fn every_form_of_a_yes_and_of_a_no_is_understood() {
    let bare = format!("echo SAT; echo {}", model(3));
    let chatty = format!("echo c hello; echo; {}", yes(3));
    for script in [yes(3), bare, chatty] {
        let run = placed(&script);
        let expected = "# a solution, decoded and judged\nx = 3\nquiet = no\n";
        assert_eq!((run.printed.as_str(), run.status), (expected, Some(0)), "{script}");
        assert_eq!(run.complaint, "");
    }
    for script in [NO, "echo UNSAT", "echo UNSAT; exit 20", "echo c; echo s UNSATISFIABLE"] {
        let run = placed(script);
        let none = "# none: there is no solution\n";
        assert_eq!((run.printed.as_str(), run.status), (none, Some(3)), "{script}");
        assert!(run.complaint.contains("the solver says no.\n"), "{}", run.complaint);
    }
}

#[test]
fn neither_yes_nor_no_is_4() {
    ends("echo s UNKNOWN", 4, "says that it gave up");
    ends("echo INDET", 4, "says that it gave up");
    ends("", 4, "its reply is empty");
    ends("echo SATISFIABLE, or so", 4, "has a reply that is none");
    ends("echo c nothing to say", 4, "expected a line `s SATISFIABLE`");
}

#[test]
fn a_solver_that_fails_is_5() {
    ends("exit 1", 5, "ended with the error status 1");
    ends("kill -9 $$", 5, "was killed by signal 9");
    ends("echo s UNSATISFIABLE; exit 10", 5, "says no and ends with status 10");
    ends(&format!("echo s SATISFIABLE; echo v {}; {NO}", model(0)), 5, "gives two verdicts");
    ends(&format!("kill -INT $PPID; {}", yes(0)), 5, "was interrupted");
    let fake = Fake::new(NO);
    let run = fake.ended(fake.placing(&["no-such-solver"]));
    assert!(run.complaint.contains("cannot be started: No such file"), "{}", run.complaint);
    assert_eq!((run.printed.as_str(), run.status), ("", Some(5)));
}

#[test]
fn a_placement_that_is_none_is_6_and_is_not_shown() {
    let says = |numbers: &str| format!("echo s SATISFIABLE; echo 'v {numbers}'; exit 10");
    ends(&says(&model(3).replace(" 10 ", " -10 ")), 6, "its model is refused:\n");
    ends(&says("0"), 6, "refusal 13: a clause does not hold");
    ends(&says("1 2"), 6, "with a 0 at their end");
    ends("echo s SATISFIABLE", 6, "its model cannot be read");
}

#[test]
fn the_solver_gets_the_clause_list_as_it_is() {
    let fake = Fake::new("");
    let script = format!("#!/bin/sh\ncat \"$1\" >{}\n{}", fake.path("asked"), yes(0));
    fs::write(fake.path("solver"), script).unwrap();
    assert_eq!(fake.ended(fake.placing(&["sh", &fake.path("solver")])).status, Some(0));
    let list = shell(&format!("board cnf {}", fake.path("x.board"))).0;
    assert_eq!(fs::read_to_string(fake.path("asked")).unwrap(), list);
}

#[test]
fn a_board_that_is_refused_reaches_no_solver() {
    let fake = Fake::new("");
    let asked = fake.path("asked");
    let board = "boards/refused/05_upper_below_lower.board";
    let (words, status) = shell(&format!("board place {board} -- sh -c 'touch {asked}'"));
    assert!(words.contains("line 4, column 21: refusal 5"), "{words}");
    assert_eq!((status, fs::exists(&asked).unwrap()), (Some(1), false));
}

#[test]
fn words_without_a_solver_are_wrong() {
    for words in ["", "--", "cadical", "x -- cadical"] {
        let mut command = in_project("board");
        command.args(["place", "boards/unequal_starts.board"]).args(words.split_whitespace());
        let output = command.output().unwrap();
        assert_eq!(output.status.code(), Some(2), "{words}");
        let complaint = String::from_utf8(output.stderr).unwrap();
        assert!(complaint.contains("board place FILE.board -- SOLVER"), "{complaint}");
    }
}
