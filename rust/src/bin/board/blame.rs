//! The line that a refusal belongs to: from a place in the record, a clause or a variable back to the text.

use crate::complaint::{Complaint, Spot};
use crate::limits::{full_at, FEWER_NUMBERS, FEWER_RULES, LONGER_STEP, SHORTER_LIST};
use crate::sheet::Sheet;
use basmuthar::{Builder, Field, Part, Refusal, Sizes};

const LONGEST_RECORD: usize = 65_536;
const MOST_CLAUSES: usize = 4_096;
const MOST_NUMBERS: usize = 1_024;
const MOST_CHOICES: usize = 4_096;

/// A refusal of the whole record as a complaint about the text, with what would help where the record is full.
pub fn of_record(sheet: &Sheet, builder: &Builder, refusal: Refusal) -> Option<Complaint> {
    match refusal.number {
        1 => full(sheet, builder.field_at(LONGEST_RECORD)?, refusal),
        9 => {
            let spot = rule_of_too_many(sheet)?;
            let words = format!("{refusal} (too many with this rule)");
            Some(Complaint::new(spot, words).with_help(SHORTER_LIST))
        }
        _ if refusal.has_place() => {
            let field = builder.field_at(refusal.detail as usize)?;
            match field.part {
                Part::AllNumbers | Part::AllChoices | Part::AllRules => full(sheet, field, refusal),
                part => {
                    let words = format!("{refusal} ({})", field.says);
                    let complaint = Complaint::new(part_spot(sheet, part)?, words);
                    let is_late = refusal.number == 5 && sheet.week.is_some();
                    Some(if is_late { complaint.with_help(LONGER_STEP) } else { complaint })
                }
            }
        }
        _ => None,
    }
}

/// What the library refuses of a sheet that is not read to its end.
pub fn of_what_is_read(sheet: &Sheet) -> Option<Complaint> {
    let sheet = sheet.settled();
    let builder = sheet.board.builder();
    let refusal = basmuthar::size(&builder.record()).err()?;
    of_record(&sheet, &builder, refusal)
}

/// The complaint that the record is full at a field, or at the first part that its count has no room for.
fn full(sheet: &Sheet, field: Field, refusal: Refusal) -> Option<Complaint> {
    let clause = match field.part {
        Part::AllRules => Some(MOST_CLAUSES),
        Part::Rule(clause) | Part::Literal(clause, _) => Some(clause),
        _ => None,
    };
    let words = full_at(clause.and_then(|clause| sheet.rule_of_clause(clause)));
    let help = if clause.is_some() { FEWER_RULES } else { FEWER_NUMBERS };
    // Of a record that is too long, the field at its end says nothing more.
    let says = if refusal.has_place() { format!(" ({})", field.says) } else { String::new() };
    let spot = part_spot(sheet, field.part)?;
    Some(Complaint::new(spot, format!("{words}: {refusal}{says}")).with_help(help))
}

/// Where a refusal of values and choices belongs.
pub fn of_setting(sheet: &Sheet, refusal: Refusal) -> Option<Spot> {
    let detail = refusal.detail as usize;
    match refusal.number {
        13 => Some(sheet.spots.clauses.get(detail)?.rule),
        14 => Some(sheet.spots.numbers.get(detail)?.name),
        _ => None,
    }
}

/// Where a refusal of a model belongs: to the rule or the number that the false clause of the list was made for.
pub fn of_model(sheet: &Sheet, refusal: Refusal) -> Option<Spot> {
    if refusal.number != 13 {
        return None;
    }
    let stands_later = |numbers, clauses| {
        let sizes = size_of_first(sheet, numbers, clauses);
        sizes.is_ok_and(|sizes| sizes.clauses as u64 <= refusal.detail)
    };
    let (numbers, clauses) = (sheet.board.numbers.len(), sheet.board.clauses.len());
    match least_count(clauses, |clauses| stands_later(numbers, clauses)) {
        0 => {
            let count = least_count(numbers, |numbers| stands_later(numbers, 0));
            Some(sheet.spots.numbers.get(count.checked_sub(1)?)?.name)
        }
        count => Some(sheet.spots.clauses.get(count - 1)?.rule),
    }
}

/// The spot of a part; a count's is that of the first one that is too many.
fn part_spot(sheet: &Sheet, part: Part) -> Option<Spot> {
    let spots = &sheet.spots;
    match part {
        Part::AllNumbers => spots.numbers.get(MOST_NUMBERS).map(|number| number.name),
        Part::AllChoices => spots.choices.get(MOST_CHOICES).copied(),
        Part::AllRules => spots.clauses.get(MOST_CLAUSES).map(|clause| clause.rule),
        Part::Lower(number) => spots.numbers.get(number).map(|number| number.lower),
        Part::Upper(number) => spots.numbers.get(number).map(|number| number.upper),
        Part::Rule(clause) => spots.clauses.get(clause).map(|clause| clause.rule),
        Part::Literal(clause, literal) => {
            let literals = &spots.clauses.get(clause)?.literals;
            literals.get(literal).copied()
        }
    }
}

/// The rule with which the clause list becomes too long.
fn rule_of_too_many(sheet: &Sheet) -> Option<Spot> {
    let (numbers, clauses) = (sheet.board.numbers.len(), sheet.board.clauses.len());
    let is_accepted = |clauses| size_of_first(sheet, numbers, clauses).is_ok();
    let count = least_count(clauses, is_accepted);
    Some(sheet.spots.clauses.get(count.checked_sub(1)?)?.rule)
}

/// Size of the board with only so many of its numbers and clauses.
fn size_of_first(sheet: &Sheet, numbers: usize, clauses: usize) -> Result<Sizes, Refusal> {
    basmuthar::size(&sheet.board.first(numbers, clauses).builder().record())
}

/// The least count up to a greatest one for which what holds for all lesser counts no longer holds.
fn least_count(greatest: usize, holds: impl Fn(usize) -> bool) -> usize {
    let (mut low, mut high) = (0, greatest);
    while low < high {
        let middle = (low + high) / 2;
        if holds(middle) {
            low = middle + 1;
        } else {
            high = middle;
        }
    }
    low
}
