//! The literal `mugs before plates`.

use crate::complaint::Complaint;
use crate::literals::{Part, Side};
use crate::sheet::{Named, Sheet};
use crate::sums::Sum;
use crate::words::{Word, Words};

/// Takes `mugs before plates` if a job and `before` are next: the one is unloaded when the other begins, or earlier.
pub fn take_before(words: &mut Words, sheet: &Sheet) -> Result<Option<Part>, Complaint> {
    let (spot, Word::Name(name)) = (words.spot(), words.peek()?) else {
        return Ok(None);
    };
    if words.second() != Some(Word::Name("before")) {
        return Ok(None);
    }
    let Some(job) = sheet.jobs.iter().find(|job| job.name == name) else {
        return Err(words.expected("the name of a job that is declared above"));
    };
    words.take()?;
    words.take()?;
    let later = match words.peek()? {
        Word::Name(name) => sheet.names.get(name),
        _ => None,
    };
    let Some(&Named::Number(later)) = later else {
        return Err(words.expected("the name of a job or a number that is declared above"));
    };
    words.take()?;
    let end = Side { text: job.end_words(sheet), sum: Sum::hours(job.number, job.takes) };
    let text = sheet.board.numbers[usize::from(later)].name.clone();
    let begin = Side { text, sum: Sum::hours(later, 0) };
    Part::comparison(end, "<=", begin, spot).map(Some)
}
