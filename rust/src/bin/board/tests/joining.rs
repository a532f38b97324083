//! Two copies joined: by hand, and drawn.

use super::dice::Dice;
use super::folder::files;
use crate::join::{Joined, Text};
use crate::sheet::read_sheet;
use std::collections::HashSet;
use std::fs;

const BASE: &str = "\
# a board
number a, b : 0 .. 9  # two
choice s
machine kiln
job mugs on kiln takes 2 : 0 .. 20

closed : 3 .. 4
closed : 7 .. 8
# rules
a + 1 <= b
mugs >= 2
s or b <= 7
";

fn text(name: &str, text: &str) -> Text {
    let sheet =
        read_sheet(text).unwrap_or_else(|complaint| panic!("{}", complaint.shown(name, text)));
    Text::of(name, text, &sheet).unwrap()
}

/// The joined text, or what is left to decide; and what is told.
fn joined(base: &str, one: &str, two: &str) -> (Result<String, Vec<String>>, Vec<String>) {
    let (base, one, two) = (text("base", base), text("one", one), text("two", two));
    let joined = Joined::of(&base, [&one, &two]);
    let text = joined.text();
    (if joined.conflicts.is_empty() { Ok(text) } else { Err(joined.conflicts) }, joined.notes)
}

/// The base with a line changed; a change to nothing strikes it, and one to several lines adds some.
fn edited(changes: &[(&str, &str)]) -> String {
    changes.iter().fold(BASE.to_string(), |text, (line, change)| {
        assert!(text.contains(&format!("{line}\n")), "{line}");
        let change = if change.is_empty() { String::new() } else { format!("{change}\n") };
        text.replacen(&format!("{line}\n"), &change, 1)
    })
}

/// Joins two edits, in both orders, which has to give a third with nothing to tell.
fn gives(one: &[(&str, &str)], two: &[(&str, &str)], both: &[(&str, &str)]) {
    let (one, two, both) = (edited(one), edited(two), edited(both));
    assert_eq!(joined(BASE, &one, &two), (Ok(both.clone()), Vec::new()));
    let (other, notes) = joined(BASE, &two, &one);
    assert_eq!((sorted(&other.unwrap()), notes), (sorted(&both), Vec::new()));
}

fn sorted(text: &str) -> Vec<&str> {
    let mut lines: Vec<&str> = text.lines().collect();
    lines.sort_unstable();
    lines
}

/// Joins two edits, in both orders, which has to leave this and nothing else to decide.
fn leaves(one: &[(&str, &str)], two: &[(&str, &str)], conflict: &str) {
    let (one, two) = (edited(one), edited(two));
    assert_eq!(joined(BASE, &one, &two).0, Err(vec![conflict.to_string()]));
    assert_eq!(joined(BASE, &two, &one).0.map_err(|conflicts| conflicts.len()), Err(1));
}

#[test]
fn what_one_side_does_is_done() {
    gives(&[], &[], &[]);
    let rule = ("mugs >= 2", "");
    gives(&[rule], &[], &[rule]);
    gives(&[rule], &[rule], &[rule]);
    let change = ("job mugs on kiln takes 2 : 0 .. 20", "job mugs on kiln takes 3 : 0 .. 20");
    gives(&[change], &[], &[change]);
    gives(&[change], &[change], &[change]);
    gives(&[change], &[rule], &[change, rule]);
    let added = ("machine kiln", "machine kiln\nmachine loom  # new");
    gives(&[added], &[change], &[added, change]);
    let comment = ("# rules", "# all rules");
    gives(&[comment], &[rule], &[comment, rule]);
    let beside = ("number a, b : 0 .. 9  # two", "number a,b:0..9 # both");
    gives(&[beside], &[rule], &[beside, rule]);
    let week = ("# a board", "# a board\nweek from Monday 00:00 step 1 h");
    gives(&[week], &[rule, comment], &[week, rule, comment]);
    gives(&[week, change], &[week], &[week, change]);
}

#[test]
fn what_both_add_is_kept_and_what_they_add_alike_is_kept_once() {
    let end = "s or b <= 7";
    let both = [(end, "s or b <= 7\nmugs <= 9\na >= 1\nmugs = 5")];
    gives(&[(end, "s or b <= 7\nmugs <= 9\na >= 1")], &[(end, "s or b <= 7\nmugs = 5")], &both);
    let loom = ("machine kiln", "machine kiln\nmachine loom\n");
    let also = (end, "s or b <= 7\nmachine  loom # the same\njob rug on loom takes 2 : 0 .. 9");
    let both = [loom, (end, "s or b <= 7\njob rug on loom takes 2 : 0 .. 9")];
    gives(&[loom], &[also], &both);
}

#[test]
fn a_line_that_declares_several_names_may_be_parted() {
    let parted = ("number a, b : 0 .. 9  # two", "number a : 0 .. 9\nnumber b : 0 .. 8");
    gives(&[parted], &[("mugs >= 2", "")], &[parted, ("mugs >= 2", "")]);
    let conflict = "one, lines 2, 3, and two, line 2, change line 2 of base differently:\n  number a : 0 .. 9\n  \
        number b : 0 .. 8\n  number a, b : 0 .. 7\nWrite the same line in both copies, and join again.";
    leaves(&[parted], &[("number a, b : 0 .. 9  # two", "number a, b : 0 .. 7")], conflict);
}

#[test]
fn closed_hours_are_known_again_by_their_machines_and_order() {
    let [early, late] =
        [("closed : 3 .. 4", "closed : 2 .. 4"), ("closed : 7 .. 8", "closed : 7 .. 9")];
    gives(&[early], &[late], &[early, late]);
    gives(&[("closed : 3 .. 4", "")], &[late], &[("closed : 3 .. 4", ""), late]);
    let conflict =
        "one, line 7, and two, line 7, change line 7 of base differently:\n  closed : 2 .. 4\n  \
        closed : 1 .. 4\nWrite the same line in both copies, and join again.";
    leaves(&[early], &[("closed : 3 .. 4", "closed : 1 .. 4")], conflict);
    let added = ("closed : 7 .. 8", "closed : 7 .. 8\nclosed kiln : 10 .. 11");
    gives(&[early], &[added], &[early, added]);
}

#[test]
fn a_declaration_that_both_change_is_left_to_people() {
    let job = "job mugs on kiln takes 2 : 0 .. 20";
    let conflict = "one, line 5, and two, line 6, change line 5 of base differently:\n  job mugs on kiln takes 3 : 0 .. 20\n  \
        number mugs : 0 .. 4\nWrite the same line in both copies, and join again.";
    leaves(
        &[(job, "job mugs on kiln takes 3 : 0 .. 20")],
        &[(job, "number mugs : 0 .. 4"), ("choice s", "choice s\nchoice t")],
        conflict,
    );
}

#[test]
fn a_declaration_that_one_strikes_and_the_other_changes_is_left_to_people() {
    let struck = [("job mugs on kiln takes 2 : 0 .. 20", ""), ("mugs >= 2", "")];
    let conflict = "one has struck line 5 of base, and two, line 5, has changed it:\n  job mugs on kiln takes 2 : 0 .. 20\n  \
        job mugs on kiln takes 4 : 0 .. 20\nStrike it in both copies or in none, and join again.";
    leaves(
        &struck,
        &[("job mugs on kiln takes 2 : 0 .. 20", "job mugs on kiln takes 4 : 0 .. 20")],
        conflict,
    );
}

#[test]
fn a_name_that_both_declare_anew_is_left_to_people() {
    let conflict =
        "one, line 4, and two, line 13, both declare `loom`:\n  choice loom\n  machine loom\n\
        Give one of them another name, or write the same line in both copies, and join again.";
    leaves(
        &[("choice s", "choice s\nchoice loom")],
        &[("s or b <= 7", "s or b <= 7\nmachine loom")],
        conflict,
    );
}

#[test]
fn what_is_new_was_written_for_its_own_week() {
    let conflict = "one has another week than base, for which two, line 11, was written:\n  \
        week from Monday 00:00 step 1 h\n  mugs >= 3\nChange the week in both copies or in none, and join again.";
    leaves(
        &[
            ("# a board", "# a board\nweek from Monday 00:00 step 1 h"),
            ("a + 1 <= b", "a + 2 <= b"),
        ],
        &[("mugs >= 2", "mugs >= 3")],
        conflict,
    );
}

#[test]
fn there_is_one_week() {
    let week = |step: &str| format!("# a board\nweek from Monday 00:00 step {step}");
    let [one, two] = ["1 h", "30 min"].map(week);
    let (one, two) = (edited(&[("# a board", &one)]), edited(&[("# a board", &two)]));
    let conflicts = joined(BASE, &one, &two).0.unwrap_err();
    assert_eq!(conflicts.len(), 1);
    assert!(conflicts[0].starts_with("one, line 2, and two, line 2, both declare `the week`:\n"));
}

#[test]
fn of_rules_that_both_change_both_are_kept_and_told() {
    let [one, two] =
        [("mugs >= 2", "mugs >= 3"), ("mugs >= 2", "mugs >= 4")].map(|change| edited(&[change]));
    let (text, notes) = joined(BASE, &one, &two);
    assert_eq!(text, Ok(edited(&[("mugs >= 2", "mugs >= 3\nmugs >= 4")])));
    let note = "one, line 11, and two, line 11, change line 11 of base differently:\n  mugs >= 3\n  mugs >= 4\nBoth are kept.\n";
    assert_eq!(notes, [note]);
}

#[test]
fn a_rule_that_one_strikes_and_the_other_changes_is_kept_and_told() {
    let struck = edited(&[("mugs >= 2", "")]);
    let changed = edited(&[("mugs >= 2", "mugs >= 3")]);
    let (text, notes) = joined(BASE, &struck, &changed);
    assert_eq!(text, Ok(changed));
    let note = "one has struck line 11 of base, and two, line 11, has changed it:\n  mugs >= 2\n  mugs >= 3\nIt is kept as changed.\n";
    assert_eq!(notes, [note]);
}

/// A copy in which some rules are struck, some comments are changed or added, and some bookings are added.
fn drawn_copy(dice: &mut Dice, text: &str) -> String {
    let sheet = read_sheet(text).unwrap();
    let is_rule = |line: usize| {
        sheet.rules.iter().any(|rule| rule.spot.line == line && rule.made_for.is_none())
    };
    let names: Vec<&str> = sheet.board.numbers.iter().map(|number| number.name.as_str()).collect();
    let mut copy = String::new();
    for (index, line) in text.lines().enumerate() {
        let what = dice.between(0, 12);
        match what {
            0 if is_rule(index + 1) => {}
            1 if is_rule(index + 1) => copy += &format!("{line} # {}\n", dice.between(0, 3)),
            2 => copy += &format!("{line}\n# a comment {}\n", dice.between(0, 3)),
            _ => copy += &format!("{line}\n"),
        }
    }
    let count = if names.is_empty() { 0 } else { dice.between(0, 3) };
    let bookings = (0..count).map(|_| {
        let name = names[dice.between(0, names.len() as i64 - 1) as usize];
        format!("{name} >= {}\n", dice.between(-9, 9))
    });
    copy + &bookings.collect::<String>()
}

#[test]
fn drawn_copies_give_the_same_board_in_both_orders_and_a_copy_alone_is_itself() {
    let mut dice = Dice::new(7);
    for file in files("board") {
        let base = fs::read_to_string(&file).unwrap();
        if base.contains('\r') {
            continue;
        }
        let [one, two] = [(); 2].map(|()| drawn_copy(&mut dice, &base));
        let name = file.display();
        for (left, right) in [(&base, &one), (&one, &base), (&one, &one)] {
            assert_eq!(joined(&base, left, right).0.as_ref(), Ok(&one), "{name}");
        }
        let (text, other) = (joined(&base, &one, &two).0, joined(&base, &two, &one).0);
        let lines = [text.unwrap(), other.unwrap()].map(|text| said(&text));
        assert_eq!(lines[0], lines[1], "{name}");
        let [base, one, two] = [&base, &one, &two].map(|text| set(&said(text)));
        let joined = set(&lines[0]);
        let left = base.iter().filter(|line| one.contains(*line) && two.contains(*line)).cloned();
        let new = one.union(&two).filter(|line| !base.contains(*line)).cloned();
        assert_eq!(joined, left.chain(new).collect::<HashSet<_>>(), "{name}");
    }
}

fn set(lines: &[Vec<String>]) -> HashSet<Vec<String>> {
    lines.iter().cloned().collect()
}

/// What the lines of a text say, in any order.
fn said(text_of_board: &str) -> Vec<Vec<String>> {
    let mut said: Vec<Vec<String>> =
        text("joined", text_of_board).lines.into_iter().map(|line| line.words).collect();
    said.retain(|words| !words.is_empty());
    said.sort();
    said
}
