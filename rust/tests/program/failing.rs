//! `board earliest` where the solver is not in order: each way has its status, and words that name the question.

use crate::fake::{model, yes, Fake, NO};

/// Runs a script, which has to end `board` with this status and a complaint that has these words, at this question.
fn ends(script: &str, question: &str, status: i32, words: &str) {
    let run = Fake::new(script).run(&[]);
    assert_eq!(run.status, Some(status), "{script}: {}", run.complaint);
    let asked = format!("{question}? The solver ");
    let complaint = &run.complaint;
    assert!(complaint.contains(&asked) && complaint.contains(words), "{script}: {complaint}");
    assert!(run.printed.ends_with(&format!("# {question}? no answer\n")), "{}", run.printed);
    assert!(complaint.lines().count() >= 2, "it says what to do: {complaint}");
}

/// A script that does this at the question with this literal, and goes on at all others.
fn at(literal: i32, script: &str) -> String {
    format!("[ \"$(tail -n 1 \"$1\")\" = '{literal} 0' ] && {{ {script}; }}; ")
}

#[test]
fn a_solver_that_gives_up_or_says_nothing_is_4() {
    ends("echo s UNKNOWN", "x at most 7", 4, "says that it gave up");
    ends("echo c thinking; echo s UNKNOWN; exit 10", "x at most 7", 4, "says that it gave up");
    ends("", "x at most 7", 4, "its reply is empty");
    ends("exit 20", "x at most 7", 4, "its reply is empty");
    ends("echo c thinking", "x at most 7", 4, "expected a line `s SATISFIABLE`");
    ends("echo no idea", "x at most 7", 4, "line 1, column 1: refusal 18: expected a line of `c`");
    ends("echo s UNSATISFIABLE; echo or not", "x at most 7", 4, "its reply, line 2, column 1");
    ends("printf '\\377\\n'", "x at most 7", 4, "its reply, line 1, column 1");
    for line in ["v 1 0", "v"] {
        let script = format!("echo s UNSATISFIABLE; echo {line}; exit 20");
        ends(&script, "x at most 7", 4, "refusal 18: expected no line of `v` beside a no");
    }
}

#[test]
fn a_later_question_is_named_too() {
    ends(&(at(6, "exit 0") + &yes(4)), "x at most 3", 4, "its reply is empty");
    ends(&(at(6, "exit 3") + &yes(4)), "x at most 3", 5, "ended with the error status 3");
}

#[test]
fn a_reply_file_that_is_not_written_or_says_that_it_gave_up_is_4() {
    let rows = [("echo s UNSATISFIABLE", "is empty"), ("echo INDET >\"$2\"", "that it gave up")];
    for (script, words) in rows {
        let run = Fake::new(script).run(&["{cnf}", "{reply}"]);
        assert_eq!(run.status, Some(4), "{script}");
        assert!(run.complaint.contains(words), "{}", run.complaint);
    }
}

#[test]
fn a_solver_that_cannot_be_started_is_5() {
    let fake = Fake::new(NO);
    let ends = |solver: &str, words: &str| {
        let run = fake.ended(fake.command(&[solver]));
        assert!(
            run.complaint.contains(&format!("cannot be started: {words}")),
            "{}",
            run.complaint
        );
        assert!(run.complaint.contains("Install it"), "{}", run.complaint);
        assert_eq!((run.printed.as_str(), run.status), ("# x at most 7? no answer\n", Some(5)));
    };
    fake.allow("solver", 0o644);
    ends(&fake.path("solver"), "Permission denied");
    ends(&fake.path("no-such-file"), "No such file");
    ends("no-such-solver", "No such file");
    ends("", "No such file");
}

#[test]
fn a_place_where_no_files_can_be_written_is_5() {
    let fake = Fake::new(NO);
    let mut command = fake.command(&["sh", &fake.path("solver")]);
    command.env("TMPDIR", fake.path("no-such-folder"));
    let run = fake.ended(command);
    assert!(
        run.complaint.starts_with("x at most 7? temporary folder: No such"),
        "{}",
        run.complaint
    );
    assert_eq!(run.status, Some(5));
}

#[test]
fn a_solver_that_fails_or_is_killed_is_5() {
    ends("exit 1", "x at most 7", 5, "ended with the error status 1");
    ends("echo parse error; echo; exit 3", "x at most 7", 5, "Its last line: parse error");
    ends("echo s UNSATISFIABLE; exit 1", "x at most 7", 5, "ended with the error status 1");
    ends("kill -9 $$", "x at most 7", 5, "was killed by signal 9");
    ends("echo s UNSATISFIABLE; kill -15 $$", "x at most 7", 5, "was killed by signal 15");
}

#[test]
fn a_solver_that_contradicts_its_own_status_is_5() {
    ends("echo s UNSATISFIABLE; exit 10", "x at most 7", 5, "says no and ends with status 10");
    let says_yes = format!("echo s SATISFIABLE; echo v {}; exit 20", model(0));
    ends(&says_yes, "x at most 7", 5, "says yes and ends with status 20");
    ends("echo s SATISFIABLE; exit 20", "x at most 7", 5, "says yes and ends with status 20");
    let both = format!("echo s SATISFIABLE; echo v {}; {NO}", model(0));
    ends(&both, "x at most 7", 5, "gives two verdicts");
}

#[test]
fn replies_that_contradict_one_another_are_5() {
    let both = |no: i32, shown: i32| {
        format!("it says no to x at most {no}, and shows a solution with x = {shown}")
    };
    let low_then_no = at(6, NO) + &yes(2);
    ends(&low_then_no, "x at most 3", 5, &both(3, 2));
    let same_then_no = at(6, NO) + &yes(3);
    ends(&same_then_no, "x at most 3", 5, &both(3, 3));
    let no_then_low = at(10, &yes(7)) + &at(6, NO) + &yes(2);
    ends(&no_then_low, "x at most 5", 5, &both(3, 2));
    let low_then_higher_then_no = at(10, &yes(2)) + &at(6, &yes(3)) + NO;
    ends(&low_then_higher_then_no, "x at most 2", 5, &both(2, 2));
}

#[test]
fn a_yes_that_its_model_does_not_bear_out_is_6() {
    let says = |numbers: &str| format!("echo s SATISFIABLE; echo 'v {numbers}'; exit 10");
    let refused = "its model is refused:\n";
    ends(&says(&model(3).replace(" 10 ", " -10 ")), "x at most 7", 6, refused);
    ends(&says("0"), "x at most 7", 6, "line 1, column 8: refusal 13: a clause does not hold");
    ends("echo s SATISFIABLE", "x at most 7", 6, "its model cannot be read");
    ends(&says("1 2"), "x at most 7", 6, "with a 0 at their end");
    ends(&says("99 0"), "x at most 7", 6, "18: expected a number from -10 to 10, found `99`");
    let both_signs = model(3).replace(" 0", " 3 0");
    ends(&says(&both_signs), "x at most 7", 6, "19: expected each variable once, found `3` again");
    ends(&yes(4), "x at most 3", 6, "says yes, and its model has x = 4");
}

#[test]
fn an_interrupt_ends_the_questions_and_leaves_no_files() {
    ends("kill -INT $PPID; kill -INT $$", "x at most 7", 5, "was interrupted");
    ends(&format!("kill -INT $PPID; {}", yes(0)), "x at most 7", 5, "was interrupted");
}
