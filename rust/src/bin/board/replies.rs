//! What solvers print, put into the one form of a reply that the library reads.
//!
//! Comments and blank lines are left out, spaces and carriage returns at the end of a line too, the verdict comes first, minisat's
//! words become those of competitions, numbers have one space between them, and what a yes leaves out is false. All that the solver
//! says of a variable stays as often and as it is said, and a line that is none of a reply stays too, as does a `v` without numbers:
//! what is wrong with them is for the library to say.

use crate::complaint::Spot;
use std::collections::VecDeque;

#[derive(Debug, Clone, Copy, PartialEq, Eq)]
pub enum Verdict {
    Yes,
    No,
    Unknown,
}

#[derive(Debug, Clone, Copy, PartialEq, Eq)]
pub enum Kind {
    Verdict(Verdict),
    Numbers,
    /// No part of a reply.
    Other,
}

/// A line of what a solver prints, without what is skipped: its words from a spot on.
#[derive(Debug, Clone, Copy)]
struct Line<'a> {
    kind: Kind,
    words: &'a str,
    spot: Spot,
}

/// A word of the text, the verdict's line, or a line that is none: where it begins in the text, and where the solver wrote it. What
/// stands before a number in its line belongs to it; a `v` without numbers has an empty word.
#[derive(Debug, Clone, Copy, PartialEq, Eq)]
pub struct Piece<'a> {
    pub at: usize,
    pub kind: Kind,
    pub word: &'a str,
    pub spot: Spot,
}

/// A solver's words in the library's form, as far as they can be put into it.
#[derive(Debug, Default)]
pub struct Formed<'a> {
    pub text: String,
    pub pieces: Vec<Piece<'a>>,
    /// The variables that the solver leaves out and that are not yet in the text, in rising order.
    left_out: VecDeque<u64>,
}

/// Puts what a solver prints about so many SAT variables into the library's form.
pub fn formed(printed: &str, variables: usize) -> Formed<'_> {
    let lines = lines_of(printed);
    let is_verdict = |line: &&Line| matches!(line.kind, Kind::Verdict(_));
    let mut formed = Formed::default();
    lines.iter().filter(is_verdict).for_each(|line| formed.put_line(line));
    if formed.verdicts() == [Verdict::Yes] {
        formed.left_out = left_out(&lines, variables);
    }
    lines.iter().filter(|line| !is_verdict(line)).for_each(|line| formed.put_line(line));
    formed
}

/// The lines that are not skipped. After minisat's `SAT`, lines of numbers have no `v`.
fn lines_of(printed: &str) -> Vec<Line<'_>> {
    let mut has_bare_numbers = false;
    let mut lines = Vec::new();
    for (line, number) in printed.lines().zip(1..) {
        lines.extend(line_of(line, number, has_bare_numbers));
        has_bare_numbers |= without_end(line) == "SAT";
    }
    lines
}

/// A line without the spaces and carriage returns at its end. Any other blank is for the library to refuse.
fn without_end(line: &str) -> &str {
    line.trim_end_matches([' ', '\r'])
}

/// A line without its end, unless it is blank or a comment.
fn line_of(line: &str, number: usize, has_bare_numbers: bool) -> Option<Line<'_>> {
    let (line, spot) = (without_end(line), Spot { line: number, column: 1 });
    if let Some(verdict) = verdict_in(line) {
        return Some(Line { kind: Kind::Verdict(verdict), words: line, spot });
    }
    match line.split_once(' ').unwrap_or((line, "")) {
        ("c", _) => None,
        _ if line.is_empty() => None,
        ("v", "") => Some(Line { kind: Kind::Numbers, words: "", spot }),
        ("v", words) => Some(Line { kind: Kind::Numbers, words, spot: Spot { column: 3, ..spot } }),
        _ if has_bare_numbers && begins_with_a_number(line) => {
            Some(Line { kind: Kind::Numbers, words: line, spot })
        }
        _ => Some(Line { kind: Kind::Other, words: line, spot }),
    }
}

/// Competitions' words, or minisat's.
fn verdict_in(line: &str) -> Option<Verdict> {
    match line {
        "s SATISFIABLE" | "SAT" => Some(Verdict::Yes),
        "s UNSATISFIABLE" | "UNSAT" => Some(Verdict::No),
        "s UNKNOWN" | "INDET" => Some(Verdict::Unknown),
        _ => None,
    }
}

fn begins_with_a_number(line: &str) -> bool {
    line.trim_start_matches(' ').starts_with(|first: char| first.is_ascii_digit() || first == '-')
}

/// The words of a line that are parted by one space or more, each with its spot.
fn words_of<'a>(line: &Line<'a>) -> Vec<(&'a str, Spot)> {
    let mut spot = line.spot;
    let mut words = Vec::new();
    for word in line.words.split(' ') {
        words.push((word, spot));
        spot.column += word.chars().count() + 1;
    }
    words.retain(|(word, _)| !word.is_empty());
    words
}

/// The variable that a word speaks of, if it is a number other than 0.
pub fn variable_of(word: &str) -> Option<u64> {
    word.parse::<i64>().ok().map(i64::unsigned_abs).filter(|variable| *variable > 0)
}

/// Of so many variables those that no line speaks of.
fn left_out(lines: &[Line], variables: usize) -> VecDeque<u64> {
    let mut is_told = vec![false; variables + 1];
    for line in lines.iter().filter(|line| line.kind == Kind::Numbers) {
        for variable in words_of(line).iter().filter_map(|(word, _)| variable_of(word)) {
            if let Some(is_told) = is_told.get_mut(variable as usize) {
                *is_told = true;
            }
        }
    }
    (1..=variables as u64).filter(|variable| !is_told[*variable as usize]).collect()
}

impl<'a> Formed<'a> {
    pub fn verdicts(&self) -> Vec<Verdict> {
        let verdict = |piece: &Piece| match piece.kind {
            Kind::Verdict(verdict) => Some(verdict),
            _ => None,
        };
        self.pieces.iter().filter_map(verdict).collect()
    }

    /// The piece that a byte of the text belongs to.
    pub fn piece_at(&self, offset: usize) -> Option<&Piece<'a>> {
        let index = self.pieces.partition_point(|piece| piece.at <= offset);
        self.pieces[..index].last().filter(|_| offset < self.text.len())
    }

    fn put_line(&mut self, line: &Line<'a>) {
        let text = match line.kind {
            Kind::Numbers => return self.put_numbers(line),
            Kind::Verdict(Verdict::Yes) => "s SATISFIABLE",
            Kind::Verdict(Verdict::No) => "s UNSATISFIABLE",
            Kind::Verdict(Verdict::Unknown) | Kind::Other => line.words,
        };
        self.put(text, line.kind, line.words, line.spot);
        self.text.push('\n');
    }

    /// A line of `v` with these numbers, each behind the variables before it that are left out: a reply in rising order stays so.
    fn put_numbers(&mut self, line: &Line<'a>) {
        let words = words_of(line);
        if words.is_empty() {
            self.put("v", line.kind, "", line.spot);
        }
        for (index, (word, spot)) in words.iter().enumerate() {
            self.put(if index == 0 { "v" } else { "" }, line.kind, word, *spot);
            self.put_left_out_before(word);
            self.text.push(' ');
            self.text += word;
        }
        self.text.push('\n');
    }

    fn put(&mut self, text: &str, kind: Kind, word: &'a str, spot: Spot) {
        self.pieces.push(Piece { at: self.text.len(), kind, word, spot });
        self.text += text;
    }

    /// The variables that are left out, as false: the lesser ones before a number, all that remain before the 0.
    fn put_left_out_before(&mut self, word: &str) {
        let end = if word == "0" { u64::MAX } else { variable_of(word).unwrap_or(0) };
        let count = self.left_out.partition_point(|variable| *variable < end);
        for variable in self.left_out.drain(..count) {
            self.text += &format!(" -{variable}");
        }
    }
}

#[cfg(test)]
mod tests {
    use super::*;

    fn text(printed: &str, variables: usize) -> String {
        formed(printed, variables).text
    }

    #[test]
    fn a_reply_in_its_form_stays_as_it_is() {
        for reply in ["s SATISFIABLE\nv 1 -2\nv 3 0\n", "s SATISFIABLE\nv 0\n", "s UNSATISFIABLE\n"]
        {
            let variables = reply.matches(['1', '2', '3']).count();
            assert_eq!(text(reply, variables), reply);
        }
    }

    #[test]
    fn comments_and_blank_lines_are_left_out() {
        let printed = "c words\nc\n\n  \ns SATISFIABLE\nc s UNSATISFIABLE\nv 1\n\nv 0\nc end\n";
        assert_eq!(text(printed, 1), "s SATISFIABLE\nv 1\nv 0\n");
        assert_eq!(text("c cnf\n", 1), "");
        assert_eq!(text("count\n", 1), "count\n", "no comment");
    }

    #[test]
    fn the_words_of_minisat_become_those_of_competitions() {
        assert_eq!(text("SAT\n1 -2 0\n", 2), "s SATISFIABLE\nv 1 -2 0\n");
        assert_eq!(text("SAT\n0\n", 0), "s SATISFIABLE\nv 0\n");
        assert_eq!(text("UNSAT\n", 2), "s UNSATISFIABLE\n");
        assert_eq!(text("s SATISFIABLE\n1 -2 0\n", 2), "s SATISFIABLE\n1 -2 0\n", "no `SAT`");
        assert_eq!(text("1 0\nSAT\n", 1), "s SATISFIABLE\n1 0\n", "numbers come after `SAT`");
    }

    #[test]
    fn the_verdict_comes_first() {
        assert_eq!(text("v 1\nv 0\ns SATISFIABLE\n", 1), "s SATISFIABLE\nv 1\nv 0\n");
        assert_eq!(text("so\ns UNSATISFIABLE\n", 1), "s UNSATISFIABLE\nso\n");
    }

    #[test]
    fn blanks_carriage_returns_and_the_last_newline_are_set_right() {
        let printed = "s SATISFIABLE \r\nv  1   -2 \r\nv 0\r";
        assert_eq!(text(printed, 2), "s SATISFIABLE\nv 1 -2\nv 0\n");
        assert_eq!(text("s UNSATISFIABLE", 2), "s UNSATISFIABLE\n");
    }

    #[test]
    fn what_a_yes_leaves_out_is_false() {
        assert_eq!(text("s SATISFIABLE\nv 2 0\n", 3), "s SATISFIABLE\nv -1 2 -3 0\n");
        assert_eq!(text("s SATISFIABLE\nv 0\n", 2), "s SATISFIABLE\nv -1 -2 0\n");
        assert_eq!(text("SAT\n-2 5\n0\n", 6), "s SATISFIABLE\nv -1 -2 -3 -4 5\nv -6 0\n");
        assert_eq!(text("s SATISFIABLE\nv 4 -2 0\n", 4), "s SATISFIABLE\nv -1 -3 4 -2 0\n");
        assert_eq!(text("s UNSATISFIABLE\n", 2), "s UNSATISFIABLE\n");
        assert_eq!(text("v 2 0\n", 2), "v 2 0\n", "no verdict");
    }

    #[test]
    fn nothing_that_is_wrong_is_set_right() {
        let rows = [
            ["v 1 -1 0\n", "v 1 1 0\n", "v 1\n", "v 1 0 0\n", "v 1 0\nv 1 0\n", "v 1 2 0\n"],
            ["v 1 x 0\n", "v 1 -0\n", "v 1 +1 0\n", "v 01 0\n", "v 1\t0\n", "v 1 0\nand so on\n"],
            ["v\n", "v\nv 1 0\n", "v 1 0\nv\n", "v\t\nv 1 0\n", "v 1 0\t\n", "v 1 0\u{a0}\n"],
        ];
        for rest in rows.concat() {
            let yes = format!("s SATISFIABLE\n{rest}");
            assert_eq!(text(&yes, 1), yes);
        }
        for verdicts in ["s SATISFIABLE\ns UNSATISFIABLE\n", "s UNSATISFIABLE\n"] {
            for rest in ["v 1 0\n", "v\n"] {
                let reply = format!("{verdicts}{rest}");
                assert_eq!(text(&reply, 1), reply);
            }
        }
    }

    #[test]
    fn a_byte_of_the_text_is_found_where_the_solver_wrote_it() {
        let formed = formed("c hello\nSAT\n 1  -3 0\n", 3);
        assert_eq!(formed.text, "s SATISFIABLE\nv 1 -2 -3 0\n");
        let spot = |offset| formed.piece_at(offset).map(|piece| (piece.word, piece.spot));
        assert_eq!(spot(0), Some(("SAT", Spot { line: 2, column: 1 })));
        for (offsets, word, column) in [(14..17, "1", 2), (17..23, "-3", 5), (23..26, "0", 8)] {
            for offset in offsets {
                assert_eq!(spot(offset), Some((word, Spot { line: 3, column })), "{offset}");
            }
        }
        assert_eq!(spot(26), None);
    }
}
