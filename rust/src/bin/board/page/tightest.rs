//! The tightest places: the least gaps between jobs on a machine, and the rules that hold with the least room.

use super::bars::{title, Bar};
use super::checked::{numbers_of, part_holds, room_of};
use super::html::{escaped, kept_apart};
use super::look::{why, Look};
use crate::literals::Part;
use crate::sheet::Rule;
use crate::shown::part_words;

/// So many places are shown in all, and so many of them are rules where there are as many.
const MOST: usize = 5;
const RULES: usize = 2;

pub fn tightest(look: &Look) -> String {
    let (gaps, rules) = (gaps(look), rules(look));
    if gaps.is_empty() && rules.is_empty() {
        return String::new();
    }
    let room_for_rules = RULES.max(MOST.saturating_sub(gaps.len())).min(rules.len());
    let gaps = list("Between two jobs", gaps, MOST - room_for_rules);
    let rules = list("Rules with the least room", rules, room_for_rules);
    format!("<h2>The tightest places</h2>\n{gaps}{rules}")
}

/// How tight a place is, and its words.
type Place = (i64, String);

/// The first places of a list, and how many more are as tight as the last of them.
fn list(head: &str, mut places: Vec<Place>, most: usize) -> String {
    places.sort_by_key(|place| place.0);
    let (shown, others) = places.split_at(most.min(places.len()));
    let Some(last) = shown.last() else {
        return String::new();
    };
    let items: String = shown.iter().map(|place| format!("<li>{}</li>\n", place.1)).collect();
    let more = match others.iter().filter(|place| place.0 == last.0).count() {
        0 => String::new(),
        1 => "<p class=\"small\">1 more is as tight as the last of these.</p>\n".to_string(),
        more => format!("<p class=\"small\">{more} more are as tight as the last of these.</p>\n"),
    };
    format!("<h3>{head}</h3>\n<ol>\n{items}</ol>\n{more}")
}

fn gaps(look: &Look) -> Vec<Place> {
    let pairs =
        look.bars.iter().enumerate().flat_map(|(machine, bars)| {
            bars.windows(2).map(move |pair| (machine, &pair[0], &pair[1]))
        });
    let met = pairs.filter(|(_, one, next)| one.end() <= next.begin);
    met.map(|(machine, one, next)| (next.begin - one.end(), gap_words(look, machine, one, next)))
        .collect()
}

fn gap_words(look: &Look, machine: usize, one: &Bar, next: &Bar) -> String {
    let gap = match next.begin - one.end() {
        0 => "no time".to_string(),
        gap => look.duration(gap),
    };
    format!(
        "<b>{gap}</b> on {}: {} until {}, {} from {}",
        kept_apart(look.machine_title(machine)),
        kept_apart(one.title()),
        look.time(one.end()),
        kept_apart(next.title()),
        look.time(next.begin)
    )
}

fn rules(look: &Look) -> Vec<Place> {
    look.sheet
        .rules
        .iter()
        .filter(|rule| !is_of_a_gap(look, rule))
        .filter_map(|rule| place(look, rule))
        .collect()
}

/// Two jobs on one machine: the gaps tell of them.
fn is_of_a_gap(look: &Look, rule: &Rule) -> bool {
    let is_job = |number: &&u16| look.sheet.job_of(**number).is_some();
    rule.made_for.is_some() && numbers_of(rule).iter().filter(is_job).count() > 1
}

/// A rule that holds by a sum alone, with the room that it has.
fn place(look: &Look, rule: &Rule) -> Option<Place> {
    let holding: Vec<&Part> =
        rule.parts.iter().filter(|part| part_holds(part, look.setting)).collect();
    let rooms: Option<Vec<(i64, &Part)>> =
        holding.iter().map(|part| Some((room_of(part, look.setting)?, *part))).collect();
    let (room, part) = rooms?.into_iter().max_by_key(|(room, _)| *room)?;
    let spare = match room {
        0 => "no room".to_string(),
        room if is_of_clocks(look, rule) => look.duration(room),
        room => room.to_string(),
    };
    let sum = escaped(&part_words(look.sheet, part, look.setting, true));
    let jobs = numbers_of(rule).into_iter().filter_map(|number| look.sheet.job_of(number));
    let jobs: Vec<String> = jobs.map(|job| kept_apart(title(job))).collect();
    let about = jobs.join(", ") + &why(rule);
    let about = about.trim_start_matches(": ");
    Some((
        room,
        format!(
            "<b>{spare}</b>, line {}: {sum} <span class=\"name\">{about}</span>",
            rule.spot.line
        ),
    ))
}

fn is_of_clocks(look: &Look, rule: &Rule) -> bool {
    numbers_of(rule).iter().any(|number| look.sheet.clocks.contains(number))
}
