//! The joined text: which lines of the base and the copies are in it, and in which order.

use super::conflicts::{Texts, ALL_OR_NONE, BOTH_KEPT, KEPT_AS_CHANGED, SAME_LINE};
use super::fates::{Fate, Fates};
use super::texts::{Kind, Line, Text};
use std::collections::{HashMap, HashSet};

/// Where a line of the joined text comes from; it is counted from 0.
#[derive(Debug, Clone, Copy, PartialEq, Eq, Hash)]
pub enum Source {
    Base(usize),
    /// The first copy is 0, the second 1.
    Copy(usize, usize),
}

pub struct Joined<'a> {
    texts: Texts<'a>,
    fates: [Fates; 2],
    pub sources: Vec<Source>,
    /// What the copies leave for people to decide.
    pub conflicts: Vec<String>,
    /// What was decided here, and people may want to know.
    pub notes: Vec<String>,
    /// The new lines by their words, each with the copy that it is from.
    news: HashMap<Vec<String>, usize>,
    taken: HashSet<Source>,
}

impl<'a> Joined<'a> {
    pub fn of(base: &'a Text, copies: [&'a Text; 2]) -> Joined<'a> {
        let mut joined = Joined {
            fates: copies.map(|copy| Fates::of(base, copy)),
            texts: Texts { base, copies },
            sources: Vec::new(),
            conflicts: Vec::new(),
            notes: Vec::new(),
            news: HashMap::new(),
            taken: HashSet::new(),
        };
        joined.take_added(None);
        for line in 0..base.lines.len() {
            joined.take_base(line);
            joined.take_added(Some(line));
        }
        joined.find_names_declared_twice();
        joined.find_another_week();
        joined
    }

    pub fn text(&self) -> String {
        self.sources.iter().map(|source| self.line(*source).text.clone() + "\n").collect()
    }

    /// The text that a line comes from, and its place there.
    pub fn origin(&self, source: Source) -> (&'a Text, usize) {
        match source {
            Source::Base(line) => (self.texts.base, line),
            Source::Copy(copy, line) => (self.texts.copies[copy], line),
        }
    }

    /// The copy that declares a name no more, and the line of the base that declares it.
    pub fn struck(&self, name: &str) -> Option<(&'a Text, usize)> {
        let declares =
            |line: &Line| matches!(&line.kind, Kind::Names(names) if names.contains(name));
        let line = self.texts.base.lines.iter().position(declares)?;
        let striker =
            self.texts.copies.into_iter().find(|copy| !copy.lines.iter().any(declares))?;
        Some((striker, line))
    }

    pub fn base(&self) -> &'a Text {
        self.texts.base
    }

    fn line(&self, source: Source) -> &'a Line {
        let (text, line) = self.origin(source);
        &text.lines[line]
    }

    /// What became of a line of the base.
    fn take_base(&mut self, line: usize) {
        let [one, two] = [0, 1].map(|copy: usize| self.fates[copy].of_base[line].clone());
        match (one, two) {
            (Fate::Same(one), Fate::Same(two)) => self.take_same(line, one, two),
            (Fate::Changed(forms), Fate::Same(_)) => self.take_new(0, &forms),
            (Fate::Same(_), Fate::Changed(forms)) => self.take_new(1, &forms),
            (Fate::Changed(one), Fate::Changed(two)) => self.take_both(line, &one, &two),
            (Fate::Changed(forms), Fate::Struck) => self.take_struck(line, 0, &forms),
            (Fate::Struck, Fate::Changed(forms)) => self.take_struck(line, 1, &forms),
            (Fate::Struck, _) | (_, Fate::Struck) => {}
        }
    }

    /// A line that says the same everywhere; a comment that was changed behind it goes along.
    fn take_same(&mut self, line: usize, one: usize, two: usize) {
        let said = &self.texts.base.lines[line].text;
        let sources = [Source::Copy(0, one), Source::Copy(1, two)];
        let other = sources.into_iter().find(|source| self.line(*source).text != *said);
        self.sources.push(other.unwrap_or(Source::Base(line)));
    }

    fn take_both(&mut self, line: usize, one: &[usize], two: &[usize]) {
        let words = |copy: usize, lines: &[usize]| -> Vec<&Vec<String>> {
            lines.iter().map(|line| &self.texts.copies[copy].lines[*line].words).collect()
        };
        let are_alike = words(0, one) == words(1, two);
        match self.texts.base.lines[line].kind {
            _ if are_alike => self.take_new(0, one),
            Kind::Rule(_) => {
                self.notes.push(self.texts.changed_twice(line, [one, two], BOTH_KEPT));
                self.take_new(0, one);
                self.take_new(1, two);
            }
            _ => self.conflicts.push(self.texts.changed_twice(line, [one, two], SAME_LINE)),
        }
    }

    fn take_struck(&mut self, line: usize, changer: usize, forms: &[usize]) {
        let is_rule = matches!(self.texts.base.lines[line].kind, Kind::Rule(_));
        let then = if is_rule { KEPT_AS_CHANGED } else { ALL_OR_NONE };
        let words = self.texts.struck_and_changed(line, changer, forms, then);
        if is_rule {
            self.notes.push(words);
            self.take_new(changer, forms);
        } else {
            self.conflicts.push(words);
        }
    }

    /// The lines that the copies have added behind a line of the base, or before all of them.
    fn take_added(&mut self, behind: Option<usize>) {
        let [one, mut two] = [0, 1].map(|copy| self.added(copy, behind));
        // A comment that both have written at the same place is written once.
        two.retain(|line| !self.is_noted_by_the_first(&one, *line));
        self.take_new(0, &one);
        self.take_new(1, &two);
    }

    fn added(&self, copy: usize, behind: Option<usize>) -> Vec<usize> {
        let added = self.fates[copy].added.iter().filter(|(place, _)| *place == behind);
        added.map(|(_, line)| *line).collect()
    }

    /// Whether a line of the second copy is a comment or blank, and among these lines of the first.
    fn is_noted_by_the_first(&self, lines: &[usize], line: usize) -> bool {
        let [one, two] = self.texts.copies;
        let note = &two.lines[line];
        let is_same = |line: &usize| one.lines[*line].text == note.text;
        note.kind == Kind::Note && lines.iter().any(is_same)
    }

    /// Takes lines of a copy, unless they are taken already or the other copy has the same.
    fn take_new(&mut self, copy: usize, lines: &[usize]) {
        for line in lines {
            let source = Source::Copy(copy, *line);
            let words = &self.texts.copies[copy].lines[*line].words;
            let is_other = !words.is_empty() && self.news.get(words) == Some(&(1 - copy));
            if !is_other && self.taken.insert(source) {
                self.news.insert(words.clone(), copy);
                self.sources.push(source);
            }
        }
    }

    fn find_names_declared_twice(&mut self) {
        let mut declared: HashMap<&str, Source> = HashMap::new();
        let mut twice = Vec::new();
        for (source, name) in self.sources.iter().flat_map(|source| self.names(*source)) {
            if let Some(before) = declared.insert(name, source) {
                let (one, two) = (self.origin(before), self.origin(source));
                twice.push(self.texts.declared_twice(name, one, two));
            }
        }
        self.conflicts.extend(twice);
    }

    /// Hours and steps mean something else in another week, so lines that are new in one copy need the week of the other.
    fn find_another_week(&mut self) {
        let [base, one, two] =
            [self.texts.base, self.texts.copies[0], self.texts.copies[1]].map(Text::week_words);
        let changer = match (one == base, two == base) {
            (false, true) => 0,
            (true, false) => 1,
            _ => return,
        };
        let new_lines =
            self.news.iter().filter(|(words, copy)| !words.is_empty() && **copy != changer);
        let other = self.texts.copies[1 - changer];
        let is_new = |line: &Line| new_lines.clone().any(|(words, _)| *words == line.words);
        if let Some(line) = other.lines.iter().position(is_new) {
            self.conflicts.push(self.texts.another_week(changer, line));
        }
    }

    /// The names that a line declares.
    fn names(&self, source: Source) -> Vec<(Source, &'a str)> {
        match &self.line(source).kind {
            Kind::Names(names) => names.iter().map(|name| (source, name.as_str())).collect(),
            // No name has a blank, so this one stands for nothing else.
            Kind::Week => vec![(source, "the week")],
            _ => Vec::new(),
        }
    }
}
