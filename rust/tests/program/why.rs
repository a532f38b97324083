//! `board why`: the lines that are at odds, found by real solvers.

use crate::fake::Fake;
use crate::run::{has, shell};
use std::fs;

/// Two clashes: three jobs that do not fit on the kiln, and two bookings on the loom.
pub const TWO_CLASHES: &str = "\
machine kiln
machine loom
job a on kiln takes 4 : 0 .. 10
job b on kiln takes 4 : 0 .. 10
job c on kiln takes 4 : 0 .. 10
job ana on loom takes 2 : 0 .. 6
job ben on loom takes 2 : 0 .. 6
ana = 3  # Ana's booking
ben = 4  # Ben's booking
closing done
";

/// Asks why a board of this text has no solution, by every solver that is at hand.
fn by_real_solvers(board: &str, look: impl Fn(&str)) {
    let fake = Fake::new("");
    fs::write(fake.path("x.board"), board).unwrap();
    for solver in ["cadical", "minisat"] {
        if has(solver) {
            let run = fake.ended(fake.asking_why(&[], &[solver]));
            assert_eq!(run.status, Some(0), "{solver}: {}", run.complaint);
            look(&run.printed);
        }
    }
}

/// The numbers of the lines that are told, in their order.
pub fn lines_of(printed: &str) -> Vec<usize> {
    let told = printed.lines().filter_map(|line| line.strip_prefix("line "));
    told.map(|line| line[..line.find([':', '?']).unwrap()].parse().unwrap()).collect()
}

#[test]
fn jobs_are_told_then_machines_then_closed_hours() {
    for solver in ["cadical -q", "minisat"] {
        if has(solver.split(' ').next().unwrap()) {
            let (words, status) =
                shell(&format!("board why boards/too_few_nights.board -- {solver}"));
            assert_eq!(lines_of(&words), [7, 8, 9, 10, 4, 5], "{words}");
            assert_eq!(status, Some(0));
        }
    }
}

#[test]
fn bookings_are_told_first_and_the_rule_that_was_made_last() {
    by_real_solvers(TWO_CLASHES, |printed| {
        let expected = "\
These 5 lines cannot be kept together; without any one of them, the others can:
line 8: ana = 3  # Ana's booking
line 9: ben = 4  # Ben's booking
line 6: job ana on loom takes 2 : 0 .. 6
line 7: job ben on loom takes 2 : 0 .. 6
line 2: machine loom
What `board` makes of them:
    ana + 2 <= ben or ben + 2 <= ana  # one at a time on loom
";
        assert_eq!(printed, expected);
    });
}

#[test]
fn an_overfull_machine_is_told_with_the_hours_that_are_wanted_and_those_that_there_are() {
    let board = TWO_CLASHES.replace("ben = 4", "ben <= 4");
    by_real_solvers(&board, |printed| {
        assert_eq!(lines_of(printed), [3, 4, 5, 1], "{printed}");
        let hint = "kiln is overfull: 3 jobs take 12; from 0 until 10 there are 10.\n";
        assert!(printed.ends_with(hint), "{printed}");
    });
}

#[test]
fn machines_between_which_jobs_choose_are_full_together() {
    let job = |name: &str| format!("job {name} on kiln or loom takes 4 : 0 .. 5\n");
    let board = format!("machine kiln\nmachine loom\n{}{}{}", job("a"), job("b"), job("c"));
    by_real_solvers(&board, |printed| {
        assert_eq!(lines_of(printed), [3, 4, 5, 1, 2], "{printed}");
        let hint =
            "kiln and loom together are overfull: 3 jobs take 12; from 0 until 5 there are 10.\n";
        assert!(printed.ends_with(hint), "{printed}");
    });
}

#[test]
fn a_machine_that_is_full_only_by_closed_hours_is_not_called_overfull() {
    let (words, _) = shell("board why boards/too_few_nights.board -- cadical -q");
    let hint =
        "kiln: 4 jobs take 59 h; from Mon 08:00 until Thu 12:00 there are 76 h, 40 h of them open.\n";
    assert!(!has("cadical") || words.ends_with(hint), "{words}");
}

/// Leaves a line's rule out of a text; its place stays.
fn without(board: &str, line: usize) -> String {
    let kept =
        board.lines().enumerate().map(|(index, text)| if index + 1 == line { "" } else { text });
    kept.map(|text| format!("{text}\n")).collect()
}

#[test]
fn of_the_rules_that_are_told_none_can_be_left_out_and_no_other_is_needed() {
    let board = "number a, b, c, d : 0 .. 9\nchoice s\na + 3 <= b\nb + 3 <= c\nc + 3 <= d or s\nd + 1 <= a or s\n\
        not s or c <= 4\nb >= 2\nc + 4 <= d\nd <= 8\n";
    by_real_solvers(board, |printed| {
        let told = lines_of(printed);
        let others = (3..=10).filter(|line| !told.contains(line));
        let alone = others.fold(board.to_string(), |text, line| without(&text, line));
        assert_eq!(placed(&alone), Some(3), "{printed}");
        for line in told.into_iter().filter(|line| *line > 2) {
            assert_eq!(placed(&without(&alone, line)), Some(0), "line {line}: {printed}");
        }
    });
}

/// The status of `board place` on a text.
fn placed(board: &str) -> Option<i32> {
    let fake = Fake::new("");
    fs::write(fake.path("x.board"), board).unwrap();
    let solver = if has("cadical") { "cadical" } else { "minisat" };
    fake.ended(fake.placing(&[solver])).status
}

#[test]
fn a_rule_may_be_at_odds_with_itself() {
    by_real_solvers("choice quiet\nquiet\nnever\n", |printed| {
        assert_eq!(printed, "This line cannot be kept by itself:\nline 3: never\n");
    });
}

#[test]
fn progress_is_shown_on_a_terminal_alone() {
    let line =
        "board why boards/never.board -- sh -c 'grep -qx 0 {cnf} && echo UNSAT || echo SAT 0'";
    let (words, _) = shell(line);
    assert!(!words.contains("question"), "{words}");
    if has("script") {
        let fake = Fake::new(line);
        let (words, _) = shell(&format!("script -qec 'sh {}' /dev/null", fake.path("solver")));
        assert!(words.contains("question 1: a solution with all lines? "), "{words}");
    }
}
