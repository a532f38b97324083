//! A complaint about a text: where it is, and what was expected there.

/// A place in a text: its line and column, both counted from 1.
#[derive(Debug, Clone, Copy, PartialEq, Eq)]
pub struct Spot {
    pub line: usize,
    pub column: usize,
}

/// Of a line that is longer only a part is shown.
const WIDEST: usize = 200;

#[derive(Debug, Clone, PartialEq, Eq)]
pub struct Complaint {
    pub spot: Spot,
    pub words: String,
    /// What would help, where that needs a sentence of its own.
    pub help: Option<&'static str>,
}

impl Complaint {
    pub fn new(spot: Spot, words: impl Into<String>) -> Complaint {
        let words = words.into();
        Complaint { spot, words, help: None }
    }

    pub fn with_help(self, help: &'static str) -> Complaint {
        Complaint { help: Some(help), ..self }
    }

    /// The complaint with the name of its text, and the line that it is about with a mark below the column.
    pub fn shown(&self, name: &str, text: &str) -> String {
        let Spot { line, column } = self.spot;
        let (about, mark) = part_about(text.lines().nth(line - 1).unwrap_or(""), column - 1);
        let indent: String = about.chars().take(mark).map(blank).collect();
        let words = &self.words;
        let help = self.help.map_or(String::new(), |help| format!("\n{help}"));
        format!("{name}, line {line}, column {column}: {words}\n  {about}\n  {indent}^{help}")
    }
}

/// A line, or the beginning of a long one.
pub fn shortened(line: &str) -> String {
    part_about(line, 0).0
}

/// A line, or the part of a long one about a place, and where in it the place is.
fn part_about(line: &str, place: usize) -> (String, usize) {
    let length = line.chars().count();
    if length <= WIDEST {
        return (line.to_string(), place);
    }
    let start = place.saturating_sub(WIDEST / 2);
    let part: String = line.chars().skip(start).take(WIDEST).collect();
    let before = if start > 0 { ".. " } else { "" };
    let after = if start + WIDEST < length { " .." } else { "" };
    (format!("{before}{part}{after}"), place - start + before.len())
}

/// The value in the size of its field, or the complaint that it has no room there.
pub fn fitted<T: TryFrom<i64>>(value: i64, spot: Spot, expected: &str) -> Result<T, Complaint> {
    T::try_from(value)
        .map_err(|_| Complaint::new(spot, format!("expected {expected}, found {value}")))
}

/// As wide as the character, but blank.
fn blank(character: char) -> char {
    if character == '\t' {
        '\t'
    } else {
        ' '
    }
}

#[cfg(test)]
mod tests {
    use super::*;

    #[test]
    fn of_a_long_line_the_part_about_the_place_is_shown() {
        let text = format!("{}X{}", "a".repeat(5_000), "b".repeat(5_000));
        let shown = Complaint::new(Spot { line: 1, column: 5_001 }, "no X").shown("reply", &text);
        let [words, about, mark] = shown.lines().collect::<Vec<_>>()[..] else {
            panic!("{shown}");
        };
        assert_eq!(words, "reply, line 1, column 5001: no X");
        assert!(about.starts_with("  .. aaa") && about.ends_with("bbb .."), "{about}");
        assert_eq!(about.find('X'), mark.find('^'));
        assert!(about.len() < 250);
    }
}
