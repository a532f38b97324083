//! Plain rules: they read back as the same board, and the words of the longer lines stay free as names.

use super::folder::{files, sheet_of};
use crate::commands::rules::plain_words;
use crate::sheet::read_sheet;

#[test]
fn the_plain_rules_of_every_board_read_back_as_the_same_board() {
    for file in files("board") {
        let sheet = sheet_of(&file);
        let words = plain_words(&sheet);
        let back = read_sheet(&words)
            .unwrap_or_else(|complaint| panic!("{}", complaint.shown("", &words)));
        assert_eq!(back.board, sheet.board, "{}", file.display());
        assert!(back.jobs.is_empty() && back.closed.is_empty() && back.closings.is_empty());
    }
}

#[test]
fn each_plain_rule_names_its_line() {
    let text = "week from Monday 00:00 step 1 h\nmachine kiln\n\njob a on kiln takes 7 h then 6 h cooling : Mon 07:00 .. Tue 20:00\n\
        job b on kiln takes 8 h : Mon 07:00 .. Tue 20:00\nclosed : Mon 22:00 .. Tue 06:00 # night\n\
        choice wet # after rain\nif wet then a >= Mon 12:00 # it dries\nclosing done after b\n";
    let expected = "\
week from Monday 00:00 step 1 h
number a : Mon 07:00 .. Tue 07:00  # line 4
number b : Mon 07:00 .. Tue 12:00  # line 5
number done : Mon 15:00 .. Tue 20:00  # line 9
choice wet  # line 7
a + 13 h <= b or b + 8 h <= a  # line 5: one at a time on kiln
a < Mon 22:00 or a >= Tue 06:00  # line 6: night: nobody begins
a + 13 h < Mon 22:00 or a + 13 h >= Tue 06:00  # line 6: night: nobody unloads
b < Mon 22:00 or b >= Tue 06:00  # line 6: night: nobody begins
b + 8 h < Mon 22:00 or b + 8 h >= Tue 06:00  # line 6: night: nobody unloads
not wet or a >= Mon 12:00  # line 8: it dries
b + 8 h <= done  # line 9: b is over by done
";
    assert_eq!(plain_words(&read_sheet(text).unwrap()), expected);
}

#[test]
fn words_that_begin_longer_lines_may_be_names_too() {
    let text = "number week, job, closing, if, before, h, Mon : 0 .. 3\nchoice machine, closed, then, every\n\
        week <= 1\njob + 1 <= closing\nclosing >= 1 or closed\nclosed or machine\nmachine\nif - before <= 2\n\
        if = 1 or then\nh < 3\n3*h <= 2*Mon\nMon > 0\nevery\n";
    let sheet = read_sheet(text).unwrap();
    assert_eq!((sheet.rules.len(), sheet.board.clauses.len()), (11, 12));
    assert!(sheet.rules.iter().all(|rule| rule.made_for.is_none()));
    let text = format!(
        "{text}machine kiln\njob mugs on kiln takes 2 : 0 .. 9\nclosed : 3 .. 4\nclosing done\n"
    );
    assert_eq!(read_sheet(&text).unwrap().jobs.len(), 1);
}
