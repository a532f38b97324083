//! What a copy made of each line of the base, and which of its lines are new.

use super::common::common;
use super::texts::{Kind, Line, Text};
use std::collections::{HashMap, VecDeque};

/// What became of a line of the base; lines are counted from 0.
#[derive(Debug, Clone, PartialEq, Eq)]
pub enum Fate {
    /// It says the same in this line of the copy.
    Same(usize),
    /// These lines of the copy stand for it.
    Changed(Vec<usize>),
    Struck,
}

pub struct Fates {
    /// For each line of the base.
    pub of_base: Vec<Fate>,
    /// The lines that the copy has added, each with the line of the base that it goes behind.
    pub added: Vec<(Option<usize>, usize)>,
}

impl Fates {
    pub fn of(base: &Text, copy: &Text) -> Fates {
        let mut of_base = same_lines(base, copy);
        let mut is_new: Vec<bool> = vec![true; copy.lines.len()];
        for fate in &of_base {
            fate.lines().iter().for_each(|line| is_new[*line] = false);
        }
        changed_lines(base, copy, &mut of_base, &mut is_new);
        let added = added_lines(&of_base, &is_new);
        Fates { of_base, added }
    }
}

impl Fate {
    pub fn lines(&self) -> &[usize] {
        match self {
            Fate::Same(line) => std::slice::from_ref(line),
            Fate::Changed(lines) => lines,
            Fate::Struck => &[],
        }
    }
}

/// Lines that say the same wherever they stand; of comments and blank lines those that stand in the same order.
fn same_lines(base: &Text, copy: &Text) -> Vec<Fate> {
    let [one, other] = [base, copy].map(|text| text.lines.iter().map(said).collect::<Vec<_>>());
    let in_order = common(&one, &other);
    let mut places: HashMap<&[String], VecDeque<usize>> = HashMap::new();
    for (place, line) in copy.lines.iter().enumerate() {
        places.entry(&line.words).or_default().push_back(place);
    }
    let place_of = |(index, line): (usize, &Line)| match line.kind {
        Kind::Note => in_order[index],
        _ => places.get_mut(&line.words[..]).and_then(VecDeque::pop_front),
    };
    let places = base.lines.iter().enumerate().map(place_of);
    places.map(|place| place.map_or(Fate::Struck, Fate::Same)).collect()
}

/// The words of a line, or the whole comment.
fn said(line: &Line) -> String {
    match line.kind {
        Kind::Note => line.text.trim().to_string(),
        _ => line.words.join(" "),
    }
}

/// Finds new lines of the copy that are changed forms of lines that it seems to have struck.
fn changed_lines(base: &Text, copy: &Text, fates: &mut [Fate], is_new: &mut [bool]) {
    let was_new = is_new.to_vec();
    let struck = base.lines.iter().zip(fates).filter(|(_, fate)| **fate == Fate::Struck);
    for (line, fate) in struck {
        let forms = match line.kind {
            // A name is known again wherever it stands, also in several lines or in one with others.
            Kind::Names(_) => forms(line, copy, &was_new),
            _ => forms(line, copy, is_new).into_iter().take(1).collect(),
        };
        if !forms.is_empty() {
            forms.iter().for_each(|place| is_new[*place] = false);
            *fate = Fate::Changed(forms);
        }
    }
}

/// Those lines of the copy among some that may be changed forms of a line.
fn forms(line: &Line, copy: &Text, is_meant: &[bool]) -> Vec<usize> {
    let is_form = |place: &usize| copy.lines[*place].kind.is_form_of(&line.kind);
    (0..copy.lines.len()).filter(|place| is_meant[*place]).filter(is_form).collect()
}

/// An added line goes behind all lines of the base that stand above it in the copy.
fn added_lines(fates: &[Fate], is_new: &[bool]) -> Vec<(Option<usize>, usize)> {
    let mut from: Vec<Option<usize>> = vec![None; is_new.len()];
    for (index, fate) in fates.iter().enumerate().rev() {
        fate.lines().iter().for_each(|place| from[*place] = Some(index));
    }
    let behind = from.iter().scan(None, |behind, from| {
        *behind = (*behind).max(*from);
        Some(*behind)
    });
    let placed = behind.zip(0..).zip(is_new);
    placed.filter(|(_, is_new)| **is_new).map(|(placed, _)| placed).collect()
}
