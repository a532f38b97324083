//! `board earliest` where the solver is in order: its questions, its clauses, and what it prints.

use crate::fake::{model, yes, Fake, NO};
use crate::run::{has, in_project, shell};
use std::fs;
use std::process::Stdio;

/// What every solver that is in order gets from the board closing_hour; at the earliest hour it has one solution.
const CLOSING_HOUR: &str = "\
# closing at most 0? yes
# closing at most -48? no
# closing at most -24? yes
# closing at most -36? no
# closing at most -30? yes
# closing at most -33? yes
# closing at most -34? no
# the earliest: closing = -33, after 7 questions
# a solution, decoded and judged
tiles = -81
jugs = -59
bowls = -53
lamps = -76
cups = -88
cups_glazed = -67
jugs_thrown = -90
bowls_thrown = -85
closing = -33
bowls_in_small = yes
";

/// A script that says yes with x = 6, or with x = 5 where that is asked for, and otherwise no.
fn at_least_5() -> String {
    let (six, five) = (yes(6), yes(5));
    format!("case $(tail -n 1 \"$1\") in '10 0' | '9 0') {six} ;; '8 0') {five} ;; esac; {NO}")
}

#[test]
fn real_solvers_find_the_earliest_closing_hour() {
    for call in ["cadical -q", "cadical", "minisat", "minisat -verb=0 {cnf} {reply}"] {
        if has(call.split(' ').next().unwrap()) {
            let line = format!("board earliest boards/closing_hour.board closing -- {call}");
            assert_eq!(shell(&line), (CLOSING_HOUR.to_string(), Some(0)), "{call}");
        }
    }
}

#[test]
fn real_solvers_say_that_there_is_no_solution() {
    for solver in ["cadical", "minisat"] {
        if has(solver) {
            let line = format!("board earliest boards/week_too_full.board first -- {solver}");
            let (words, status) = shell(&line);
            let (printed, complaint) = words.split_once("boards/").unwrap();
            assert_eq!(printed, "# first at most 118? no\n# none: there is no solution\n");
            let words = "week_too_full.board: there is no solution: the solver says no to first at most 118";
            assert!(complaint.starts_with(words), "{complaint}");
            assert_eq!(status, Some(3));
        }
    }
}

#[test]
fn a_value_is_found_between_a_no_and_a_yes() {
    let run = Fake::new(&at_least_5()).run(&[]);
    let expected = "\
# x at most 7? yes
# x at most 3? no
# x at most 5? yes
# x at most 4? no
# the earliest: x = 5, after 4 questions
# a solution, decoded and judged
x = 5
quiet = no
";
    assert_eq!((run.printed.as_str(), run.complaint.as_str(), run.status), (expected, "", Some(0)));
}

#[test]
fn what_is_printed_is_what_board_show_reads() {
    let fake = Fake::new(&at_least_5());
    fs::write(fake.path("printed"), fake.run(&[]).printed).unwrap();
    let (board, printed) = (fake.path("x.board"), fake.path("printed"));
    let (words, status) = shell(&format!("board show {board} /dev/stdin <{printed}"));
    assert!(words.ends_with("This is a solution.\n"), "{words}");
    assert_eq!(status, Some(0));
}

#[test]
fn the_solver_gets_the_clause_list_and_the_question_as_its_last_clause() {
    let fake = Fake::new("");
    let script = format!("#!/bin/sh\ncat \"$1\" >>{}\n{}", fake.path("asked"), yes(0));
    fs::write(fake.path("solver"), script).unwrap();
    assert_eq!(fake.run(&[]).status, Some(0));
    let list = shell(&format!("board cnf {}", fake.path("x.board"))).0;
    let asked = |literal| list.replace("p cnf 10 11", "p cnf 10 12") + literal;
    let expected = ["10 0\n", "6 0\n", "4 0\n", "3 0\n"].map(asked).concat();
    assert_eq!(fs::read_to_string(fake.path("asked")).unwrap(), expected);
}

#[test]
fn a_number_with_one_value_takes_one_question() {
    let solver = "sh -c 'echo s SATISFIABLE; echo v -1 2 0'";
    let expected = "# opening at most 5? yes\n# the earliest: opening = 5, after 1 question\n\
        # a solution, decoded and judged\nopening = 5\n";
    let printed = shell(&format!("board earliest boards/one_hour.board opening -- {solver}"));
    assert_eq!(printed, (expected.to_string(), Some(0)));
}

#[test]
fn the_files_may_be_named_anywhere_in_the_words() {
    let clauses = "[ \"$1\" = -q ] && head -n 1 \"${2#--in=}\" | grep -q '^p cnf' || exit 1";
    let reply = format!("printf 'SAT\\n{}\\n' >\"$4\"; echo chatter; exit 10", model(0));
    let fake = Fake::new(&format!("{clauses}; [ \"$3\" = --out ] || exit 1; {reply}"));
    let run = fake.run(&["-q", "--in={cnf}", "--out", "{reply}"]);
    assert_eq!((run.complaint.as_str(), run.status), ("", Some(0)));
    assert!(run.printed.ends_with("x = 0\nquiet = no\n"));
}

#[test]
fn the_clause_file_comes_after_the_other_words() {
    let fake = Fake::new(&format!("[ \"$1 $2\" = '-n 3' ] && [ -s \"$3\" ] || exit 1; {}", yes(0)));
    assert_eq!(fake.run(&["-n", "3"]).status, Some(0));
}

#[test]
fn more_output_than_a_pipe_holds_is_no_trouble() {
    let much = "yes 'c a line of chatter' | head -n 150000";
    let run = Fake::new(&format!("{much}; {much} >&2; {}", yes(0))).run(&[]);
    assert_eq!(run.status, Some(0));
    assert!(run.printed.ends_with("x = 0\nquiet = no\n"));
    assert_eq!(run.complaint.len(), 4 * 150_000 * 20, "four times, as the solver wrote it");
}

#[test]
fn a_reader_that_has_seen_enough_is_no_trouble() {
    let fake = Fake::new(&yes(0));
    let mut command = fake.command(&["sh", &fake.path("solver")]);
    let mut child = command.stdout(Stdio::piped()).stderr(Stdio::piped()).spawn().unwrap();
    drop(child.stdout.take());
    let output = child.wait_with_output().unwrap();
    assert_eq!((output.stderr.len(), output.status.code()), (0, Some(0)));
}

#[test]
fn a_question_is_printed_before_its_reply_is_there() {
    let fake = Fake::new("");
    let printed = fake.path("printed");
    let script = format!("#!/bin/sh\ncat {printed} >>{}\n{}", fake.path("seen"), yes(0));
    fs::write(fake.path("solver"), script).unwrap();
    let mut command = fake.command(&["sh", &fake.path("solver")]);
    assert!(command.stdout(fs::File::create(&printed).unwrap()).status().unwrap().success());
    let seen = fs::read_to_string(fake.path("seen")).unwrap();
    assert!(seen.starts_with("# x at most 7?# x at most 7? yes\n# x at most 3?"), "{seen}");
}

#[test]
fn a_name_that_is_no_number_is_refused() {
    let rows = [
        ("three_firings", "festival", "cups, bowls, tiles), found `festival`, which is a choice"),
        ("three_firings", "mugs", "cups, bowls, tiles), found `mugs`"),
        ("never", "shared", "(it has none), found `shared`, which is a choice"),
    ];
    for (board, name, ending) in rows {
        let line = format!("board earliest boards/{board}.board {name} -- cadical");
        let (words, status) = shell(&line);
        let start = format!("boards/{board}.board: expected the name of a number of the board (");
        assert!(words.starts_with(&start) && words.trim_end().ends_with(ending), "{words}");
        assert_eq!(status, Some(1));
    }
}

#[test]
fn a_board_that_is_refused_is_told_before_any_question() {
    let (words, status) =
        shell("board earliest boards/refused/05_upper_below_lower.board bowls -- cadical");
    assert!(words.contains("line 4, column 21: refusal 5"), "{words}");
    assert_eq!(status, Some(1));
}

#[test]
fn words_without_a_solver_are_wrong() {
    for words in ["x", "x --", "x cadical", "-- cadical", "x y -- cadical", ""] {
        let mut command = in_project("board");
        command.args(["earliest", "boards/unequal_starts.board"]).args(words.split_whitespace());
        let output = command.output().unwrap();
        assert_eq!(output.status.code(), Some(2), "{words}");
        let complaint = String::from_utf8(output.stderr).unwrap();
        assert!(complaint.contains("board earliest FILE.board NAME -- SOLVER"), "{complaint}");
    }
}
