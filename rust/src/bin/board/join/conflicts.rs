//! What two copies leave for people to decide, and what they may want to know, in words.

use super::texts::Text;

pub const SAME_LINE: &str = "Write the same line in both copies, and join again.";
pub const BOTH_KEPT: &str = "Both are kept.\n";
pub const ALL_OR_NONE: &str = "Strike it in both copies or in none, and join again.";
pub const KEPT_AS_CHANGED: &str = "It is kept as changed.\n";
const OTHER_NAME: &str =
    "Give one of them another name, or write the same line in both copies, and join again.";
const SAME_WEEK: &str = "Change the week in both copies or in none, and join again.";

/// The base and its copies, whose lines are counted from 0.
pub struct Texts<'a> {
    pub base: &'a Text,
    pub copies: [&'a Text; 2],
}

impl Texts<'_> {
    /// Both copies have changed a line, each in its own way; then comes what is done about it.
    pub fn changed_twice(&self, line: usize, forms: [&[usize]; 2], then: &str) -> String {
        let [one, two] = [self.places(0, forms[0]), self.places(1, forms[1])];
        let (base, number) = (&self.base.name, line + 1);
        let shown = self.shown(0, forms[0]) + &self.shown(1, forms[1]);
        format!("{one}, and {two}, change line {number} of {base} differently:\n{shown}{then}")
    }

    /// One copy has struck a line that the other has changed; then comes what is done about it.
    pub fn struck_and_changed(
        &self,
        line: usize,
        changer: usize,
        forms: &[usize],
        then: &str,
    ) -> String {
        let (base, number, said) = (&self.base.name, line + 1, &self.base.lines[line].text);
        let striker = &self.copies[1 - changer].name;
        let (changed, shown) = (self.places(changer, forms), self.shown(changer, forms));
        format!(
            "{striker} has struck line {number} of {base}, and {changed}, has changed it:\n  {said}\n{shown}{then}"
        )
    }

    /// A name is declared by two lines that say different things.
    pub fn declared_twice(&self, name: &str, one: (&Text, usize), two: (&Text, usize)) -> String {
        let [place, other_place] = [one, two].map(|(text, line)| text.place(line));
        let [said, other_said] = [one, two].map(|(text, line)| &text.lines[line].text);
        format!(
            "{place}, and {other_place}, both declare `{name}`:\n  {said}\n  {other_said}\n{OTHER_NAME}"
        )
    }

    /// A copy has another week than the one for which a line of the other copy was written.
    pub fn another_week(&self, changer: usize, line: usize) -> String {
        let (text, other) = (self.copies[changer], self.copies[1 - changer]);
        let week = text.week().map_or("(no week)", |week| &text.lines[week].text);
        let (place, said) = (other.place(line), &other.lines[line].text);
        let (name, base) = (&text.name, &self.base.name);
        format!("{name} has another week than {base}, for which {place}, was written:\n  {week}\n  {said}\n{SAME_WEEK}")
    }

    /// `copy.board, line 7`, or `copy.board, lines 7, 8`.
    fn places(&self, copy: usize, lines: &[usize]) -> String {
        let numbers: Vec<String> = lines.iter().map(|line| (line + 1).to_string()).collect();
        let ending = if lines.len() == 1 { "" } else { "s" };
        format!("{}, line{ending} {}", self.copies[copy].name, numbers.join(", "))
    }

    fn shown(&self, copy: usize, lines: &[usize]) -> String {
        lines.iter().map(|line| format!("  {}\n", self.copies[copy].lines[*line].text)).collect()
    }
}
