//! The longer lines: what is complained about in them, and where.

use super::dice::Dice;
use crate::complaint::Spot;
use crate::sheet::read_sheet;

const DECLARED: &str = "week from Monday 00:00 step 30 min\nmachine kiln\nmachine loom\n\
    job mugs on kiln takes 7 h then 6 h cooling : Mon 07:00 .. Sun 20:00\nchoice wet\n";

/// A sixth line, the column of the complaint about it, and its words.
const ROWS: [(&str, usize, &str); 36] = [
    ("week from Tue 00:00 step 1 h", 1, "expected one `week` line only"),
    ("week Tue 00:00 step 1 h", 6, "expected `from`, found `Tue`"),
    (
        "week from Tue 00:00 step 7 min",
        26,
        "expected a step that parts a day evenly, such as 15, 30 or 60 min",
    ),
    ("week from Tue 00:00 step 7", 26, "expected a step, such as `30 min` or `1 h`, found `7`"),
    ("week from today 00:00 step 1 h", 11, "expected a weekday, found `today`"),
    (
        "mugs >= 08:00",
        11,
        "expected `or` or the end of the line (a clock needs its weekday, such as Tue 08:00), found `:`",
    ),
    ("mugs >= tue 08:00", 9, "expected a weekday such as Tue or Tuesday, found `tue`"),
    ("mugs >= Tue 08:00 and wet", 19, "expected `or` or the end of the line (for `and` write a line for each), found `and`"),
    ("mugs + 7.5 h <= 9", 9, "expected a name, a number or a sign, found `.`; there are no fractions: 7 h 30 min is seven and a half hours"),
    ("mugs >= Tue 08:15", 9, "expected clock hours in steps of 30 min"),
    ("mugs >= Tue", 12, "expected a clock such as 08:00, found the end of the line"),
    ("mugs >= Tue 25:00", 13, "expected a clock such as 08:00, found `25`"),
    ("mugs >= Tue 8:5", 13, "expected a clock such as 08:00, found `8`"),
    ("mugs >= Tue 08:60", 13, "expected a clock such as 08:00, found `08`"),
    ("mugs + 20 min <= Tue 08:00", 8, "expected a duration in steps of 30 min"),
    ("number Mon : 0 .. 3", 8, "expected a name, found `Mon`, which is a weekday"),
    ("machine mugs", 9, "expected a new name: `mugs` is declared in line 4"),
    ("machine \"Kiln\"", 9, "expected a name, found `\"Kiln\"`"),
    ("machine laser \"Laser", 15, "expected a `\"` at the end of this text"),
    (
        "machine laser cutter",
        15,
        "expected a text between two `\"`, or the end of the line, found `cutter`",
    ),
    ("job cups takes 3 h", 10, "expected `on`, found `takes`"),
    (
        "job cups on oven takes 3 h",
        13,
        "expected the name of a machine that is declared above, found `oven`",
    ),
    ("job cups on kiln or kiln takes 3 h", 21, "expected each machine once"),
    ("job cups on kiln takes h", 24, "expected a duration, found `h`"),
    (
        "job cups on kiln takes 3 h then 2 h : 0 .. 99",
        37,
        "expected a word that says what for, such as `cooling`, found `:`",
    ),
    ("job cups on kiln takes 3 h from Tue 08:00", 28, "expected `:`, found `from`"),
    (
        "job cups on kiln takes 3 h : Tue 08:00 .. Tue 10:00",
        30,
        "expected room for the whole job, which takes 3 h: here is 2 h",
    ),
    (
        "job cups on kiln takes 3 h : 0 .. 90000",
        30,
        "expected a bound from -4,096 to 4,095, found 89994",
    ),
    (
        "closed every day 21:00 .. 07:00",
        8,
        "expected the name of a machine that is declared above, found `every`",
    ),
    ("closed : every day 21:10 .. 07:00", 20, "expected clock hours in steps of 30 min"),
    ("closed : Tue 08:00 .. Tue 08:00", 10, "expected an end after the begin"),
    (
        "closing done after kiln",
        20,
        "expected the name of a job that is declared above, found `kiln`",
    ),
    ("closing done mugs", 14, "expected `after` or the end of the line, found `mugs`"),
    ("wet before mugs", 5, "expected `or` or the end of the line, found `before`"),
    (
        "mugs before kiln",
        13,
        "expected the name of a job or a number that is declared above, found `kiln`",
    ),
    (
        "if wet or mugs <= 5 then wet",
        8,
        "expected `and` or `then` (for `or` write a line for each), found `or`",
    ),
];

#[test]
fn a_complaint_names_its_place_and_what_was_expected() {
    for (line, column, words) in ROWS {
        let complaint = read_sheet(&format!("{DECLARED}{line}\n")).unwrap_err();
        assert_eq!(complaint.words, words, "{line}");
        assert_eq!(complaint.spot, Spot { line: 6, column }, "{line}");
    }
}

#[test]
fn clock_hours_need_a_week() {
    let rows = [
        (
            "x >= Tue 08:00",
            "clock hours need a line such as `week from Monday 00:00 step 30 min` above",
        ),
        (
            "x + 7 h <= 9",
            "hours and minutes need a line such as `week from Monday 00:00 step 30 min` above",
        ),
        (
            "closed : every day 21:00 .. 07:00",
            "clock hours need a line such as `week from Monday 00:00 step 30 min` above",
        ),
        ("closing done", "expected a job to come after: the board has none"),
    ];
    for (line, words) in rows {
        let complaint = read_sheet(&format!("number x : 0 .. 9\n{line}\n")).unwrap_err();
        assert_eq!((complaint.words.as_str(), complaint.spot.line), (words, 2), "{line}");
    }
}

#[test]
fn signs_that_people_write_have_their_plain_form_told() {
    let rows = [
        ("x ≤ 3", 3, "expected a name, a number or a sign, found `≤`; write `<=`"),
        ("x ≥ 3", 3, "expected a name, a number or a sign, found `≥`; write `>=`"),
        ("x ≠ 3", 3, "expected a name, a number or a sign, found `≠`; write `!=`"),
        ("x − 3 < 2", 3, "expected a name, a number or a sign, found `−`; write `-`"),
    ];
    for (line, column, words) in rows {
        let complaint = read_sheet(&format!("number x : 0 .. 9\n{line}\n")).unwrap_err();
        assert_eq!((complaint.words.as_str(), complaint.spot.column), (words, column), "{line}");
    }
    let complaint = read_sheet("\u{feff}# a board\nnumber x : 0 .. 9\n").unwrap_err();
    assert_eq!(complaint.spot, Spot { line: 1, column: 1 });
    assert!(complaint.words.contains("byte order mark"), "{}", complaint.words);
}

#[test]
fn a_text_may_hold_the_sign_of_a_comment() {
    let sheet = read_sheet("machine kiln \"Kiln #2\" # the old one\n").unwrap();
    assert_eq!(sheet.machines[0].title.as_deref(), Some("Kiln #2"));
}

#[test]
fn any_line_is_read_or_complained_about() {
    let words = "week from Mon Tuesday step 30 min h 08:00 24:00 machine kiln loom \"x\" \" job on takes then cooling \
        closed every day closing after mugs done wet if and or not before never 3 -1 + * <= = : .. , # ä";
    let words: Vec<&str> = words.split(' ').chain(["\n"]).collect();
    let mut dice = Dice::new(5);
    let mut read = 0;
    for _ in 0..40_000 {
        let text: Vec<&str> = (0..dice.between(1, 9)).map(|_| dice.pick(&words)).collect();
        let text = format!("{DECLARED}{}", text.join(" "));
        match read_sheet(&text) {
            Ok(_) => read += 1,
            Err(complaint) => {
                let line = text.lines().nth(complaint.spot.line - 1).unwrap();
                assert!(complaint.spot.column <= line.chars().count() + 1, "{text}");
            }
        }
    }
    assert!(read > 100, "{read}");
}
