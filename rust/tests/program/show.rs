//! `board show` and `board rules` as a user runs them, and messages for files and values that are not what was meant.

use crate::fake::Fake;
use crate::run::{in_project, shell};
use std::fs;

const WEEK: &str = "\
week from Monday 00:00 step 30 min
machine kiln \"Large kiln\"
job mugs \"Mugs, glaze\" on kiln takes 7 h then 6 h cooling : Mon 07:00 .. Tue 24:00
job plates on kiln takes 8 h : Mon 07:00 .. Tue 24:00
closed : every day 22:00 .. 06:00   # the night
choice festival, rainy
if festival and mugs >= Mon 08:00 then mugs before plates   # mugs sell first
plates - mugs >= 13 h or rainy
";

/// What a command of `board` prints on a board of this text, and its status.
fn on_board(text: &str, command: &str, words: &[&str]) -> (String, Option<i32>) {
    let fake = Fake::new("");
    let file = fake.path("week.board");
    fs::write(&file, text).unwrap();
    let output = in_project("board").arg(command).arg(&file).args(words).output().unwrap();
    let said = [output.stdout, output.stderr].concat();
    (String::from_utf8(said).unwrap().replace(&file, "FILE"), output.status.code())
}

#[test]
fn broken_rules_are_shown_with_clock_hours_and_the_comment_of_their_line() {
    let values = ["--broken", "mugs=Mon 09:00", "plates=Mon 21:00", "festival=yes", "rainy=no"];
    let expected = "\
line 4 (job 2 on kiln) does not hold: mugs + 13 h <= plates or plates + 8 h <= mugs  # one at a time on kiln
    mugs + 13 h = Mon 22:00 is not <= plates = Mon 21:00
    plates + 8 h = Tue 05:00 is not <= mugs = Mon 09:00

line 5 (closed hours and job mugs) does not hold: mugs + 13 h < Mon 22:00 or mugs + 13 h >= Tue 06:00  # the night: nobody unloads
    mugs + 13 h = Mon 22:00 is not < Mon 22:00
    mugs + 13 h = Mon 22:00 is not >= Tue 06:00

line 5 (closed hours and job plates) does not hold: plates + 8 h < Mon 22:00 or plates + 8 h >= Tue 06:00  # the night: nobody unloads
    plates + 8 h = Tue 05:00 is not < Mon 22:00
    plates + 8 h = Tue 05:00 is not >= Tue 06:00

line 7 does not hold: if festival and mugs >= Mon 08:00 then mugs before plates  # mugs sell first
    festival = yes
    mugs = Mon 09:00 is >= Mon 08:00
    mugs + 13 h = Mon 22:00 is not <= plates = Mon 21:00

line 8 does not hold: plates - mugs >= 13 h or rainy
    plates - mugs = 12 h is not >= 13 h
    rainy = no (yes is wanted)

This is no solution: refusal 13: a clause does not hold, clause 0 counted from 0 (line 4).
";
    assert_eq!(on_board(WEEK, "show", &values), (expected.to_string(), Some(1)));
}

#[test]
fn of_a_solution_nothing_is_broken_and_nothing_is_said_not_to_hold() {
    let values = ["mugs=Mon 08:00", "plates=Mon 21:00 ", "festival=no", "rainy=no"];
    let text = WEEK.replace("22:00 .. 06:00", "23:00 .. 04:00");
    let (words, status) = on_board(&text, "show", &values);
    assert!(!words.contains("not hold") && !words.contains("is not"), "{words}");
    assert!(words.starts_with("mugs = Mon 08:00, within Mon 07:00 .. Tue 11:00\n"), "{words}");
    assert!(words.contains("line 7 holds: if festival"), "{words}");
    assert_eq!(status, Some(0));
    let brief = on_board(&text, "show", &[&["--broken"], &values[..]].concat());
    assert_eq!(brief, ("This is a solution.\n".to_string(), Some(0)));
}

#[test]
fn values_outside_their_bounds_are_shown_in_brief_too() {
    let values = ["--broken", "mugs=0", "plates=Tue 12:00", "festival=no", "rainy=no"];
    let (words, status) = on_board(WEEK, "show", &values);
    assert!(words.starts_with("mugs = Mon 00:00, OUTSIDE Mon 07:00 .. Tue 11:00\n"), "{words}");
    assert!(words.ends_with(
        "refusal 14: a value outside its bounds, at index 0 counted from 0 (line 3).\n"
    ));
    assert_eq!(status, Some(1));
}

#[test]
fn values_torn_into_several_words_are_complained_about() {
    let rows: [(&[&str], &str); 5] = [
        (
            &["x", "=", "1"],
            "expected no blanks about `=`; write x=VALUE, or put it in quotes: 'x = VALUE'",
        ),
        (&["x", "=1"], "expected no blanks about `=`; write x=VALUE"),
        (&["x=", "1"], "expected no blanks about `=`; write x=VALUE"),
        (&["x=Tue", "08:00"], "put it in quotes: 'x=Tue 08:00'"),
        (&["x=5000"], "expected a value from -4,096 to 4,095, found 5000"),
    ];
    for (values, words) in rows {
        let (complaint, status) = on_board("number x : 0 .. 3\n", "show", values);
        assert!(complaint.contains(words), "{complaint}");
        assert_eq!(status, Some(1));
    }
    assert_eq!(on_board("number x : 0 .. 3\n", "show", &["x = 1"]).1, Some(0));
}

#[test]
fn a_text_for_a_record_and_a_record_for_a_text_are_told_apart() {
    let rows = [
        (
            "board cnf boards/one_hour.record",
            "is a record and no text; `board text boards/one_hour.record`",
        ),
        ("board show boards/one_hour.record opening=5", "is a record and no text"),
        ("board show boards/one_hour.board boards/one_hour.record", "is a record and no text"),
        (
            "board text boards/one_hour.board",
            "is a text and no record; `board record boards/one_hour.board`",
        ),
        ("printf '\\377\\376n\\0' | board cnf /dev/stdin", "is no text of UTF-8; save it as UTF-8"),
        ("board text boards/refused/03_version.record", "refusal 3: a version other than 1"),
    ];
    for (line, words) in rows {
        let (complaint, status) = shell(line);
        assert!(complaint.contains(words), "{line}: {complaint}");
        assert_eq!(status, Some(1), "{line}");
    }
}

#[test]
fn plain_rules_give_the_same_record() {
    let fake = Fake::new("");
    let (file, rules) = (fake.path("week.board"), fake.path("rules.board"));
    fs::write(&file, WEEK).unwrap();
    let line = format!("board rules {file} >{rules}; board record {rules} >{rules}.record; board record {file} | cmp - {rules}.record");
    assert_eq!(shell(&line), (String::new(), Some(0)));
    let words = fs::read_to_string(&rules).unwrap();
    assert!(words.contains("not festival or mugs < Mon 08:00 or mugs + 13 h <= plates  # line 7: mugs sell first\n"), "{words}");
}
