//! Closing: the least value of an integer variable, by a solver's replies to questions "at most h?".
//!
//! The call below keeps to what stands at the head of operations.rs; `hours` and `answer` are this file's own.

use crate::library::{basmuthar_closing, Answer, Hours};
use crate::operations::accepted;
use crate::refusal::Refusal;
use std::error::Error;
use std::fmt;

/// How far some replies lead to the least value of an integer variable.
#[derive(Debug, Clone, Copy, PartialEq, Eq)]
pub enum Hour {
    /// The least value over all solutions.
    Found(i32),
    /// There is no solution: the first reply is a no.
    None,
    /// More replies are needed. Where there is a solution, the least value is from `low` to `high`.
    Unfinished {
        low: i32,
        high: i32,
        /// The next question: is there a solution with the variable at most this?
        question: i32,
    },
}

/// Closing: the least value of an integer variable, counted from 0, by the replies so far: 1 is yes, 0 is no.
///
/// The first question is at the variable's upper bound, and a no there means none. Each later one is at half the sum of
/// low and high, rounded down; yes sets high to the question, no sets low to one more, until they are the same. That takes at
/// most 14 replies. What is found is the least value if every reply is true.
///
/// Refuses as [`size`](crate::size) does, then with 22 for an unknown variable, 12 for the first reply byte that is not 0
/// or 1, and 23 for replies after the last question.
pub fn closing(record: &[u8], variable: usize, replies: &[u8]) -> Result<Hour, Refusal> {
    let mut hours = Hours::default();
    let answer = called(record, variable, replies, &mut hours);
    accepted(answer)?;
    let [low, high, question] = hours;
    Ok(match answer[1] {
        0 => Hour::Found(low),
        1 => Hour::None,
        _ => Hour::Unfinished { low, high, question },
    })
}

fn called(record: &[u8], variable: usize, replies: &[u8], hours: &mut Hours) -> Answer {
    let mut answer = Answer::default();
    unsafe {
        basmuthar_closing(
            record.as_ptr(),
            record.len(),
            variable,
            replies.as_ptr(),
            replies.len(),
            hours,
            &mut answer,
        )
    };
    answer
}

/// What stopped [`earliest`] before its end.
#[derive(Debug, Clone, Copy, PartialEq, Eq)]
pub enum Stopped<E> {
    /// The library refused the record or the variable.
    Refused(Refusal),
    /// A question got no reply.
    Asking(E),
}

/// The least value of an integer variable over all solutions, or `None` where there is no solution.
///
/// `ask` is called with one h after another, and replies whether there is a solution with the variable at most h; it is called
/// at most 14 times. The record is looked at before the first question. What `ask` fails with is handed on.
///
/// ```
/// // x in -4..3, and one clause: -2x is at most 3.
/// let record = [
///     1, 0, 0, 0, 20, 0, 1, 0, 0, 0, 1, // one integer variable, no Boolean variable, one clause
///     0xFF, 0xFC, 0, 3, 1, 2, 1, 0xFE, 0, 0, 0, 0, 0, 3,
/// ];
/// let mut asked = Vec::new();
/// let least = basmuthar::earliest(&record, 0, |hour| {
///     asked.push(hour);
///     let has_solution = (-4..=hour).any(|x| basmuthar::judge(&record, &[x], &[]).is_ok());
///     Ok::<bool, std::io::Error>(has_solution)
/// });
/// assert_eq!(least.unwrap(), Some(-1));
/// assert_eq!(asked, [3, -1, -3, -2]);
/// ```
pub fn earliest<E>(
    record: &[u8],
    variable: usize,
    mut ask: impl FnMut(i32) -> Result<bool, E>,
) -> Result<Option<i32>, Stopped<E>> {
    let mut replies = Vec::new();
    loop {
        match closing(record, variable, &replies).map_err(Stopped::Refused)? {
            Hour::Found(value) => return Ok(Some(value)),
            Hour::None => return Ok(None),
            Hour::Unfinished { question, .. } => {
                let is_yes = ask(question).map_err(Stopped::Asking)?;
                replies.push(u8::from(is_yes));
            }
        }
    }
}

impl<E: fmt::Display> fmt::Display for Stopped<E> {
    fn fmt(&self, out: &mut fmt::Formatter) -> fmt::Result {
        match self {
            Stopped::Refused(refusal) => refusal.fmt(out),
            Stopped::Asking(error) => error.fmt(out),
        }
    }
}

impl<E: Error> Error for Stopped<E> {}

#[cfg(test)]
mod tests {
    use super::*;

    /// No Boolean variable, no clause, and x from -4 to 3.
    const RECORD: [u8; 15] = [1, 0, 0, 0, 10, 0, 1, 0, 0, 0, 0, 0xFF, 0xFC, 0, 3];

    fn answered(variable: usize, replies: &[u8]) -> (Answer, Hours) {
        let mut hours = [77, 78, 79];
        (called(&RECORD, variable, replies, &mut hours), hours)
    }

    #[test]
    fn hours_are_written_where_a_value_is_found_or_more_replies_are_needed() {
        assert_eq!(answered(0, &[]), ([0, 2, 0, 0], [-4, 3, 3]));
        assert_eq!(answered(0, &[1, 0]), ([0, 2, 0, 0], [0, 3, 1]));
        assert_eq!(answered(0, &[1, 0, 0, 1]), ([0, 0, 0, 0], [2, 2, 2]));
    }

    #[test]
    fn hours_keep_what_they_held_where_there_is_none_or_a_refusal() {
        assert_eq!(answered(0, &[0]), ([0, 1, 0, 0], [77, 78, 79]));
        assert_eq!(answered(1, &[]), ([22, 1, 0, 0], [77, 78, 79]));
        assert_eq!(answered(0, &[1, 2]), ([12, 1, 0, 0], [77, 78, 79]));
        assert_eq!(answered(0, &[0, 1]), ([23, 1, 0, 0], [77, 78, 79]));
        let mut hours = [77, 78, 79];
        assert_eq!(called(&RECORD[..4], 0, &[], &mut hours), [2, 0, 0, 0]);
        assert_eq!(hours, [77, 78, 79]);
    }

    #[test]
    fn what_stopped_the_questions_is_said_in_its_own_words() {
        let refusal = Refusal { number: 22, detail: 4 };
        assert_eq!(Stopped::<Refusal>::Refused(refusal).to_string(), refusal.to_string());
        assert_eq!(Stopped::Asking("no reply").to_string(), "no reply");
    }
}
