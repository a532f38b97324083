//! Complaints: where they stand and what they say was expected.

use super::dice::Dice;
use crate::complaint::Spot;
use crate::sheet::read_sheet;

const DECLARED: &str = "number a, b : 0 .. 3\nchoice s\n";

/// A third line, the column of the complaint about it, and its words.
const ROWS: [(&str, usize, &str); 24] = [
    (
        "a + b <= 3 or shraed",
        15,
        "expected a declared name, a whole number or `not`, found `shraed`",
    ),
    ("a + <= 3", 5, "expected a whole number, or a declared number's name, found `<=`"),
    ("2*3 <= a", 3, "expected a declared number's name, found `3`"),
    ("a + s <= 3", 5, "expected a whole number, or a declared number's name, found `s`"),
    ("a 3", 3, "expected `<=`, `>=`, `<`, `>`, `=`, `!=`, `+` or `-`, found `3`"),
    ("a", 2, "expected `<=`, `>=`, `<`, `>`, `=`, `!=`, `+` or `-`, found the end of the line"),
    ("a * 2 <= 3", 3, "expected `<=`, `>=`, `<`, `>`, `=`, `!=`, `+` or `-`, found `*`"),
    ("a <= b <= 3", 8, "expected `or` or the end of the line, found `<=`"),
    (
        "s or",
        5,
        "expected another alternative after `or`, on the same line, found the end of the line",
    ),
    ("  not a", 7, "expected a declared choice's name, found `a`"),
    ("s <= 3", 3, "expected `or` or the end of the line, found `<=`"),
    ("never s", 7, "expected the end of the line, found `s`"),
    ("a - a <= 3", 1, "expected a comparison with a number's name: here none is left"),
    ("s or 200*a <= 3", 6, "expected a coefficient from -64 to 64, found 200"),
    ("a <= 9999999999", 6, "expected a number up to 1,000,000,000, found 9999999999"),
    ("a % 3", 3, "expected a name, a number or a sign, found `%`"),
    ("number a : 0 .. 3", 8, "expected a new name: `a` is declared in line 1"),
    ("choice t, s", 11, "expected a new name: `s` is declared in line 2"),
    ("number or : 0 .. 3", 8, "expected a name, found `or`"),
    ("number c 0 .. 3", 10, "expected `:`, found `0`"),
    ("number c : 0 3", 14, "expected `..`, found `3`"),
    ("number c : 0 .. # 3", 16, "expected a whole number, found the end of the line"),
    ("number c : 0 .. 40000", 17, "expected a bound from -4,096 to 4,095, found 40000"),
    ("choice t u", 10, "expected `,` or the end of the line, found `u`"),
];

#[test]
fn a_complaint_names_its_place_and_what_was_expected() {
    for (line, column, words) in ROWS {
        let complaint = read_sheet(&format!("{DECLARED}{line}\n")).unwrap_err();
        assert_eq!(complaint.words, words, "{line}");
        assert_eq!(complaint.spot, Spot { line: 3, column }, "{line}");
    }
}

#[test]
fn any_text_is_read_or_complained_about() {
    let words = "a b s number choice or not never 3 64 99999999999 + - * <= = != : .. , # ä %";
    let words: Vec<&str> = words.split(' ').chain(["\n", "\t"]).collect();
    let mut dice = Dice::new(3);
    for _ in 0..20_000 {
        let text: Vec<&str> = (0..dice.between(1, 12)).map(|_| dice.pick(&words)).collect();
        let text = format!("{DECLARED}{}", text.join(dice.pick(&["", " "])));
        if let Err(complaint) = read_sheet(&text) {
            let line = text.lines().nth(complaint.spot.line - 1).unwrap();
            assert!(complaint.spot.column <= line.chars().count() + 1, "{text}");
        }
    }
}

#[test]
fn a_rule_of_too_many_equalities_is_not_spread_out() {
    let rule = vec!["a = b"; 13].join(" or ");
    let complaint = read_sheet(&format!("{DECLARED}{rule}\n")).unwrap_err();
    assert_eq!(complaint.words, "expected fewer `=` in one rule: each doubles its clauses");
    assert_eq!(complaint.spot.column, 12 * "a = b or ".len() + 1);
}

#[test]
fn a_complaint_is_shown_with_its_line_and_a_mark() {
    let text = "number a : 0 .. 3\n\ta <= ä\n";
    let shown = read_sheet(text).unwrap_err().shown("week.board", text);
    let words = "expected a whole number, or a declared number's name, found `ä`";
    assert_eq!(shown, format!("week.board, line 2, column 7: {words}\n  \ta <= ä\n  \t     ^"));
}
