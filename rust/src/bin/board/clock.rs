//! Reading the `week` line, clock hours and durations.

use crate::complaint::Complaint;
use crate::sheet::Sheet;
use crate::week::{is_nearly_a_weekday, parts_a_day, weekday, Week};
use crate::words::{Word, Words};

pub const NEEDS_WEEK: &str = "a line such as `week from Monday 00:00 step 30 min` above";

/// Reads `week from Monday 00:00 step 30 min`.
pub fn read_week(words: &mut Words, sheet: &mut Sheet) -> Result<(), Complaint> {
    let spot = words.spot();
    words.take()?;
    words.word("from")?;
    let Some(day) = weekday_next(words)? else {
        return Err(words.expected("a weekday"));
    };
    words.take()?;
    let minute = words.clock()?;
    words.word("step")?;
    let step_spot = words.spot();
    let Some(step) = take_minutes(words)? else {
        return Err(words.expected("a step, such as `30 min` or `1 h`"));
    };
    if !parts_a_day(step) {
        let words = "expected a step that parts a day evenly, such as 15, 30 or 60 min";
        return Err(Complaint::new(step_spot, words));
    }
    words.end("the end of the line")?;
    if sheet.week.is_some() {
        return Err(Complaint::new(spot, "expected one `week` line only"));
    }
    sheet.week = Some(Week::new(day, minute, step));
    Ok(())
}

fn weekday_next(words: &Words) -> Result<Option<i64>, Complaint> {
    Ok(match words.peek()? {
        Word::Name(name) => weekday(name),
        _ => None,
    })
}

/// Takes clock hours such as `Tue 08:00` or `Tue 08:00 week 2` if a weekday is next; where no week is named, the first.
pub fn take_hours(words: &mut Words, sheet: &Sheet) -> Result<Option<Hours>, Complaint> {
    let (spot, Word::Name(name)) = (words.spot(), words.peek()?) else {
        return Ok(None);
    };
    if sheet.names.contains_key(name) {
        return Ok(None);
    }
    let Some(day) = weekday(name) else {
        let is_meant = sheet.week.is_some() && is_nearly_a_weekday(name);
        return if is_meant {
            Err(words.expected("a weekday such as Tue or Tuesday"))
        } else {
            Ok(None)
        };
    };
    let Some(week) = sheet.week else {
        return Err(Complaint::new(spot, format!("clock hours need {NEEDS_WEEK}")));
    };
    words.take()?;
    let minute = words.clock()?;
    let Some(value) = week.value(day, minute) else {
        let words = format!("expected clock hours in steps of {}", week.step_words());
        return Err(Complaint::new(spot, words));
    };
    let named = take_week_number(words)?;
    let weeks = named.unwrap_or(1) - 1;
    Ok(Some(Hours { value: value + weeks * week.steps_in_a_week(), has_week: named.is_some() }))
}

/// Clock hours as a value, and whether their week was named.
pub struct Hours {
    pub value: i64,
    pub has_week: bool,
}

fn take_week_number(words: &mut Words) -> Result<Option<i64>, Complaint> {
    let is_number = matches!(words.second(), Some(Word::Number(_) | Word::Symbol("-")));
    if words.peek()? != Word::Name("week") || !is_number {
        return Ok(None);
    }
    words.take()?;
    words.integer().map(Some)
}

/// Takes clock hours or a whole number.
pub fn read_value(words: &mut Words, sheet: &Sheet) -> Result<i64, Complaint> {
    match take_hours(words, sheet)? {
        Some(hours) => Ok(hours.value),
        None => words.integer(),
    }
}

/// How long something takes, in steps, and whether it was written in hours or minutes.
pub struct Duration {
    pub steps: i64,
    pub has_unit: bool,
}

/// Takes `7 h`, `30 min`, `7 h 30 min`, or a plain number of steps.
pub fn read_duration(words: &mut Words, sheet: &Sheet) -> Result<Duration, Complaint> {
    let spot = words.spot();
    let Some(minutes) = take_minutes(words)? else {
        let Word::Number(steps) = words.peek()? else {
            return Err(words.expected("a duration"));
        };
        words.take()?;
        return Ok(Duration { steps, has_unit: false });
    };
    let Some(week) = sheet.week else {
        return Err(Complaint::new(spot, format!("hours and minutes need {NEEDS_WEEK}")));
    };
    match week.steps(minutes) {
        Some(steps) => Ok(Duration { steps, has_unit: true }),
        None => {
            let words = format!("expected a duration in steps of {}", week.step_words());
            Err(Complaint::new(spot, words))
        }
    }
}

/// Takes hours and minutes, in minutes, if a number with a unit is next.
fn take_minutes(words: &mut Words) -> Result<Option<i64>, Complaint> {
    let (Word::Number(count), Some(Word::Name(unit))) = (words.peek()?, words.second()) else {
        return Ok(None);
    };
    let minutes = match unit {
        "h" | "hour" | "hours" => 60 * count,
        "min" | "minute" | "minutes" => count,
        _ => return Ok(None),
    };
    words.take()?;
    words.take()?;
    let more =
        if unit.starts_with('h') && minutes_next(words) { take_minutes(words)? } else { None };
    Ok(Some(minutes + more.unwrap_or(0)))
}

fn minutes_next(words: &Words) -> bool {
    matches!(words.second(), Some(Word::Name("min" | "minute" | "minutes")))
}
