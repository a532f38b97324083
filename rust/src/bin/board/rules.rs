//! Rules: literals joined by `or`, written in a line or made for one, and turned into clauses of a record.

use crate::blame;
use crate::board::Clause;
use crate::complaint::{fitted, Complaint, Spot};
use crate::limits::{full_for, FEWER_RULES};
use crate::literals::{read_part, Part};
use crate::sheet::{Rule, Sheet};
use crate::words::{Word, Words};
use basmuthar::Literal;

/// The most clauses that one rule may become: as many as a record may have.
const MOST_CLAUSES: usize = 4_096;

/// A clause with the place of each of its literals.
pub type Placed = (Clause, Vec<Spot>);

/// Reads a rule and adds it to the sheet.
pub fn read_rule(words: &mut Words, sheet: &mut Sheet) -> Result<(), Complaint> {
    let spot = words.spot();
    let text = words.rest_of_line().to_string();
    let parts = read_parts(words, sheet)?;
    let comment = words.comment().to_string();
    add_rule(sheet, Drafted { spot, text, comment, made_for: None, parts })
}

/// Makes a rule of this text for the line at this spot.
pub fn make_rule(
    sheet: &mut Sheet,
    spot: Spot,
    text: String,
    comment: String,
    made_for: &str,
) -> Result<(), Complaint> {
    let at_spot = |complaint: Complaint| Complaint::new(spot, complaint.words);
    let mut parts = read_parts(&mut Words::of(&text, spot.line), sheet).map_err(at_spot)?;
    parts.iter_mut().for_each(|part| part.spot = spot);
    let made_for = Some(made_for.to_string());
    add_rule(sheet, Drafted { spot, text, comment, made_for, parts })
}

/// A rule that is not yet on the sheet.
pub struct Drafted {
    pub spot: Spot,
    pub text: String,
    pub comment: String,
    pub made_for: Option<String>,
    pub parts: Vec<Part>,
}

/// Adds a rule with its clauses to the sheet.
pub fn add_rule(sheet: &mut Sheet, drafted: Drafted) -> Result<(), Complaint> {
    let Drafted { spot, text, comment, made_for, parts } = drafted;
    let placed = joined(&parts)?;
    for (clause, _) in &placed {
        fitted::<u8>(clause.len() as i64, spot, "at most 64 literals in a rule")?;
    }
    let first = sheet.rules.last().map_or(0, |rule| rule.clauses.end);
    let clauses = first..first + placed.len();
    if u16::try_from(clauses.end).is_err() {
        // Going on would only take long: what there is by now is refused.
        let here = || Complaint::new(spot, full_for(made_for.as_deref())).with_help(FEWER_RULES);
        return Err(blame::of_what_is_read(sheet).unwrap_or_else(here));
    }
    let machine = None;
    sheet.rules.push(Rule { spot, text, comment, made_for, machine, parts, placed, clauses });
    Ok(())
}

fn read_parts(words: &mut Words, sheet: &Sheet) -> Result<Vec<Part>, Complaint> {
    if words.take_if(Word::Name("never"))? {
        words.end("the end of the line")?;
        return Ok(Vec::new());
    }
    read_alternatives(words, sheet)
}

/// Reads literals joined by `or`, up to the end of the line.
pub fn read_alternatives(words: &mut Words, sheet: &Sheet) -> Result<Vec<Part>, Complaint> {
    let mut parts = vec![read_part(words, sheet)?];
    while words.take_if(Word::Name("or"))? {
        if words.peek()? == Word::End {
            return Err(words.expected("another alternative after `or`, on the same line"));
        }
        parts.push(read_part(words, sheet)?);
    }
    let help = match words.peek()? {
        Word::Name("and") => " (for `and` write a line for each)",
        Word::Symbol(":") => " (a clock needs its weekday, such as Tue 08:00)",
        _ => "",
    };
    words.end(&format!("`or` or the end of the line{help}"))?;
    Ok(parts)
}

/// The clauses that say what the parts joined by `or` say: one for each way to take a row from every part.
fn joined(parts: &[Part]) -> Result<Vec<Placed>, Complaint> {
    let mut clauses = vec![Placed::default()];
    for part in parts {
        if clauses.len() * part.rows.len() > MOST_CLAUSES {
            let words = "expected fewer `=` in one rule: each doubles its clauses";
            return Err(Complaint::new(part.spot, words));
        }
        clauses = clauses
            .iter()
            .flat_map(|clause| part.rows.iter().map(|row| longer(clause, row, part.spot)))
            .collect();
    }
    Ok(clauses)
}

fn longer((clause, spots): &Placed, row: &[Literal], spot: Spot) -> Placed {
    let (mut clause, mut spots) = (clause.clone(), spots.clone());
    clause.extend_from_slice(row);
    spots.extend(row.iter().map(|_| spot));
    (clause, spots)
}
