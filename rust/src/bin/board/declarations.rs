//! Lines that declare numbers, choices and machines.

use crate::board::Number;
use crate::clock::{read_value, take_hours};
use crate::complaint::{fitted, Complaint, Spot};
use crate::sheet::{Machine, Named, NumberSpots, Sheet};
use crate::week::weekday;
use crate::words::{Word, Words};

pub const BOUND: &str = "a bound from -4,096 to 4,095";

/// Reads `number kiln, loom : 0 .. 167` or `number market : Mon 07:00 .. Sat 12:00`.
pub fn read_numbers(words: &mut Words, sheet: &mut Sheet) -> Result<(), Complaint> {
    words.take()?;
    let names = read_names(words)?;
    words.symbol(":")?;
    let lower_spot = words.spot();
    let hours = take_hours(words, sheet)?;
    let is_clock = hours.is_some();
    let lower = hours.map_or_else(|| words.integer(), |hours| Ok(hours.value))?;
    let lower = fitted(lower, lower_spot, BOUND)?;
    words.symbol("..")?;
    let upper_spot = words.spot();
    let upper = fitted(read_value(words, sheet)?, upper_spot, BOUND)?;
    words.end("the end of the line")?;
    for (name, spot) in names {
        let spots = NumberSpots { name: spot, lower: lower_spot, upper: upper_spot };
        let number = add_number(sheet, &name, (lower, upper), spots)?;
        if is_clock {
            sheet.clocks.insert(number);
        }
    }
    Ok(())
}

/// Reads `choice shared, rainy`.
pub fn read_choices(words: &mut Words, sheet: &mut Sheet) -> Result<(), Complaint> {
    words.take()?;
    let names = read_names(words)?;
    words.end("`,` or the end of the line")?;
    for (name, spot) in names {
        add_choice(sheet, &name, spot)?;
    }
    Ok(())
}

/// Reads `machine kiln_a "Large kiln, back room"`.
pub fn read_machine(words: &mut Words, sheet: &mut Sheet) -> Result<(), Complaint> {
    words.take()?;
    let spot = words.spot();
    let name = words.name()?.to_string();
    let title = words.text()?.map(str::to_string);
    words.end("a text between two `\"`, or the end of the line")?;
    declare(sheet, &name, spot, Named::Machine(sheet.machines.len()))?;
    sheet.machines.push(Machine { name, title, spot });
    Ok(())
}

/// Declares a number, and tells which it is.
pub fn add_number(
    sheet: &mut Sheet,
    name: &str,
    (lower, upper): (i16, i16),
    spots: NumberSpots,
) -> Result<u16, Complaint> {
    let count = sheet.board.numbers.len() as i64 + 1;
    let count: u16 = fitted(count, spots.name, "at most 1,024 numbers")?;
    declare(sheet, name, spots.name, Named::Number(count - 1))?;
    sheet.board.numbers.push(Number { name: name.to_string(), lower, upper });
    sheet.spots.numbers.push(spots);
    Ok(count - 1)
}

/// Declares a choice, and tells which it is.
pub fn add_choice(sheet: &mut Sheet, name: &str, spot: Spot) -> Result<u16, Complaint> {
    let count = sheet.board.choices.len() as i64 + 1;
    let count: u16 = fitted(count, spot, "at most 4,096 choices")?;
    declare(sheet, name, spot, Named::Choice(count))?;
    sheet.board.choices.push(name.to_string());
    sheet.spots.choices.push(spot);
    Ok(count)
}

/// Names parted by commas, each with its place.
fn read_names(words: &mut Words) -> Result<Vec<(String, Spot)>, Complaint> {
    let mut names = Vec::new();
    loop {
        let spot = words.spot();
        names.push((words.name()?.to_string(), spot));
        if !words.take_if(Word::Symbol(","))? {
            return Ok(names);
        }
    }
}

/// Makes a name known, unless it is already.
fn declare(sheet: &mut Sheet, name: &str, spot: Spot, named: Named) -> Result<(), Complaint> {
    if sheet.week.is_some() && weekday(name).is_some() {
        let words = format!("expected a name, found `{name}`, which is a weekday");
        return Err(Complaint::new(spot, words));
    }
    let Some(before) = sheet.names.insert(name.to_string(), named) else {
        return Ok(());
    };
    let line = sheet.line_of(before);
    let words = format!("expected a new name: `{name}` is declared in line {line}");
    Err(Complaint::new(spot, words))
}
