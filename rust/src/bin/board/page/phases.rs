//! The kinds of phases on a board, each with a pattern of its own: the work itself, cooling, tidying and so on.

use super::html::escaped;
use crate::jobs::Phase;
use crate::sheet::Sheet;

/// So many patterns there are for what comes after the work; further words share the last of them.
const PATTERNS: usize = 4;

/// The words for phases after the first, in the order in which they first stand.
pub struct Kinds(Vec<String>);

impl Kinds {
    pub fn of(sheet: &Sheet) -> Kinds {
        let mut kinds: Vec<String> = Vec::new();
        for word in
            sheet.jobs.iter().flat_map(|job| &job.phases).filter_map(|phase| phase.what.as_ref())
        {
            if !kinds.contains(word) {
                kinds.push(word.clone());
            }
        }
        Kinds(kinds)
    }

    pub fn class_of(&self, phase: &Phase) -> String {
        let Some(word) = &phase.what else {
            return "work".to_string();
        };
        let place = self.0.iter().position(|kind| kind == word).unwrap_or(0);
        format!("then{}", place.min(PATTERNS - 1))
    }

    /// What the patterns mean, for the kinds that stand on a machine's rows.
    pub fn legend(&self, phases: &[&Phase]) -> String {
        let mut told: Vec<String> = Vec::new();
        let mut legend = key("work", "at work");
        for phase in phases {
            let Some(word) = &phase.what else { continue };
            if !told.contains(word) {
                legend += &key(&self.class_of(phase), word);
                told.push(word.clone());
            }
        }
        legend
    }
}

/// A small picture of a pattern, and its word.
pub fn key(class: &str, words: &str) -> String {
    let words = escaped(words);
    format!(
        "<span class=\"key\"><svg width=\"34\" height=\"16\" aria-hidden=\"true\"><rect class=\"{class}\" x=\"1\" y=\"1\" \
         width=\"32\" height=\"14\"/></svg> {words}</span>\n"
    )
}

/// The patterns, which all rows of a page share.
pub const SHAPES: &str = include_str!("patterns.svg");
