//! `board join`: what it prints, what it tells, and what it refuses.

use crate::fake::Fake;
use crate::run::{in_project, shell};
use std::fs;

const BASE: &str = "machine kiln\njob mugs on kiln takes 2 : 0 .. 9\njob bowls on kiln takes 2 : 0 .. 9\nmugs >= 1\n";

/// Printed where nothing is joined.
const NOT_JOINED: &str = "not joined: what is to be decided stands on standard error\n";

struct Run {
    printed: String,
    told: String,
    status: Option<i32>,
}

/// Joins two copies, which stand in the folder with the base.
fn joined(base: &str, one: &str, two: &str) -> Run {
    let fake = Fake::new("");
    for (name, text) in [("base", base), ("one", one), ("two", two)] {
        fs::write(fake.path(name), text).unwrap();
    }
    let program = env!("CARGO_BIN_EXE_board");
    let mut command = in_project(program);
    let output =
        command.current_dir(fake.path(".")).args(["join", "base", "one", "two"]).output().unwrap();
    Run {
        printed: String::from_utf8(output.stdout).unwrap(),
        told: String::from_utf8(output.stderr).unwrap(),
        status: output.status.code(),
    }
}

/// Joins two copies, which has to be refused with these words and no text printed.
fn refused(base: &str, one: &str, two: &str, words: &str) {
    let run = joined(base, one, two);
    assert_eq!((run.printed.as_str(), run.status), (NOT_JOINED, Some(1)), "{}", run.told);
    assert_eq!(run.told, words);
}

#[test]
fn both_sides_are_in_the_joined_text() {
    let one = format!("{BASE}mugs <= 5\n");
    let two = BASE
        .replace("job bowls", "job cups on kiln takes 1 : 0 .. 9\njob bowls")
        .replace("mugs >= 1\n", "");
    let run = joined(BASE, &one, &two);
    let expected =
        "machine kiln\njob mugs on kiln takes 2 : 0 .. 9\njob cups on kiln takes 1 : 0 .. 9\n\
        job bowls on kiln takes 2 : 0 .. 9\nmugs <= 5\n";
    assert_eq!((run.told.as_str(), run.printed.as_str(), run.status), ("", expected, Some(0)));
}

#[test]
fn a_rule_that_both_change_is_told_and_the_text_is_printed_all_the_same() {
    let [one, two] = ["mugs >= 2", "mugs >= 3"].map(|rule| BASE.replace("mugs >= 1", rule));
    let run = joined(BASE, &one, &two);
    assert_eq!(run.printed, BASE.replace("mugs >= 1", "mugs >= 2\nmugs >= 3"));
    let told = "one, line 4, and two, line 4, change line 4 of base differently:\n  mugs >= 2\n  mugs >= 3\nBoth are kept.\n";
    assert_eq!((run.told.as_str(), run.status), (told, Some(0)));
}

#[test]
fn all_that_is_left_to_people_is_told_at_once() {
    let one = BASE.replace("kiln takes 2", "kiln takes 3");
    let two = BASE.replace("kiln takes 2", "kiln takes 4");
    let told = "\
one, line 2, and two, line 2, change line 2 of base differently:
  job mugs on kiln takes 3 : 0 .. 9
  job mugs on kiln takes 4 : 0 .. 9
Write the same line in both copies, and join again.

one, line 3, and two, line 3, change line 3 of base differently:
  job bowls on kiln takes 3 : 0 .. 9
  job bowls on kiln takes 4 : 0 .. 9
Write the same line in both copies, and join again.
";
    refused(BASE, &one, &two, told);
}

#[test]
fn a_line_that_uses_what_the_other_copy_has_struck_is_told_with_its_place() {
    let one = BASE.replace("job bowls on kiln takes 2 : 0 .. 9\n", "");
    let two = format!("{BASE}choice late\nlate or bowls + 2 <= mugs\n");
    let told = "\
two, line 6, column 9: expected a declared name, a whole number or `not`, found `bowls`
  late or bowls + 2 <= mugs
          ^
`bowls` is declared in base, line 3, and one declares it no more.
Strike this line too, or keep the name, and join again.
";
    refused(BASE, &one, &two, told);
    let parted = BASE.replace("machine kiln", "number a, b : 0 .. 9\nmachine kiln");
    let run = joined(&parted, &parted.replace("a, b", "a"), &format!("{parted}b <= 3\n"));
    let told = "`b` is declared in base, line 1, and one declares it no more.\n";
    assert!(run.told.contains(told), "{}", run.told);
    let machine = BASE.replace("machine kiln", "machine kiln\nmachine loom");
    let other = format!("{machine}job rug on loom takes 3 : 0 .. 9\n");
    let told = "\
two, line 6, column 12: expected the name of a machine that is declared above, found `loom`
  job rug on loom takes 3 : 0 .. 9
             ^
`loom` is declared in base, line 2, and one declares it no more.
Strike this line too, or keep the name, and join again.
";
    refused(&machine, BASE, &other, told);
}

#[test]
fn what_is_no_board_is_refused_before_anything_is_joined() {
    let wrong = format!("{BASE}mugs =< 3\n");
    for (base, one, two, name) in
        [(&*wrong, BASE, BASE, "base"), (BASE, &wrong, BASE, "one"), (BASE, BASE, &wrong, "two")]
    {
        let run = joined(base, one, two);
        assert!(
            run.told.starts_with(&format!("{name}, line 5, column 7: expected ")),
            "{}",
            run.told
        );
        assert_eq!((run.printed.as_str(), run.status), (NOT_JOINED, Some(1)));
    }
    let (words, status) =
        shell("board join boards/never.board boards/never.board no-such-file 2>&1 >/dev/null");
    assert_eq!(
        (words.as_str(), status),
        ("no-such-file: No such file or directory (os error 2)\n", Some(1))
    );
    let (words, status) = shell(
        "board join boards/never.board boards/never.record boards/never.board 2>&1 >/dev/null",
    );
    assert!(words.starts_with("boards/never.record is a record and no text;"), "{words}");
    assert_eq!(status, Some(1));
}

#[test]
fn what_is_not_joined_is_taken_for_no_board() {
    let line = "board join boards/never.board boards/never.board no-such-file 2>/dev/null";
    for command in [
        "place /dev/stdin -- sh -c 'echo SAT; echo 0'",
        "cnf /dev/stdin",
        "why /dev/stdin -- cadical",
    ] {
        let (words, status) = shell(&format!("{line} | board {command}"));
        assert!(words.starts_with("/dev/stdin, line 1, column 5: expected "), "{words}");
        assert_eq!(status, Some(1), "{command}");
    }
}

/// Two copies with jobs that have room each, and none together.
#[test]
fn a_joined_board_that_has_no_room_in_a_record_is_refused() {
    let jobs = |name: &str| -> String {
        (0..45).map(|count| format!("job {name}{count} on kiln takes 2 : 0 .. 300\n")).collect()
    };
    let [one, two] = ["a", "b"].map(|name| format!("machine kiln\n{}", jobs(name)));
    let run = joined("machine kiln\n", &one, &two);
    assert!(
        run.told.starts_with("the joined board, line 74, column 1: the record is full"),
        "{}",
        run.told
    );
    assert_eq!((run.printed.as_str(), run.status), (NOT_JOINED, Some(1)));
}

#[test]
fn a_note_that_cannot_be_told_takes_nothing_away() {
    let fake = Fake::new("");
    let [base, one, two] = ["base", "one", "two"].map(|name| fake.path(name));
    let texts = [
        (&base, BASE.to_string()),
        (&one, BASE.replace(">= 1", ">= 2")),
        (&two, BASE.replace(">= 1", ">= 3")),
    ];
    for (file, text) in texts {
        fs::write(file, text).unwrap();
    }
    let (printed, status) = shell(&format!("board join {base} {one} {two} 2>/dev/full"));
    assert_eq!((printed, status), (BASE.replace("mugs >= 1", "mugs >= 2\nmugs >= 3"), Some(0)));
}

#[test]
fn three_files_are_wanted() {
    for words in ["", "a", "a b", "a b c d"] {
        let (complaint, status) = shell(&format!("board join {words}"));
        assert!(complaint.contains("board join BASE.board COPY1.board COPY2.board"), "{complaint}");
        assert_eq!(status, Some(2), "{words}");
    }
}
