//! Three operations on text: a record's clauses written as text, such text read, and a solver's reply read.
//!
//! The calls below keep to what stands at the head of operations.rs.

use crate::library::{
    basmuthar_read_reply, basmuthar_read_text, basmuthar_write_text, Answer, TOO_SHORT,
};
use crate::operations::{accepted, sizes, Sizes};
use crate::refusal::Refusal;

/// What a solver's reply says.
#[derive(Debug, Clone, Copy, PartialEq, Eq)]
pub enum Reply {
    /// Yes: the lent model is written.
    Model,
    /// No: there is none.
    None,
}

/// How many bytes the text of a record has.
///
/// Refuses as [`size`](crate::size) does.
pub fn text_length(record: &[u8]) -> Result<usize, Refusal> {
    // No text is empty, so that an accepted record is refused with the length wanted.
    match write_text(record, &mut []) {
        Err(Refusal { number: TOO_SHORT, detail }) => Ok(detail as usize),
        told => told,
    }
}

/// Write text: writes the clause list of a record as DIMACS CNF to the first bytes of `text`, and tells how many they are.
///
/// The line `p cnf N M`, then a line for each clause. Later bytes are left. Refuses as [`size`](crate::size) does, and then
/// with 10 where `text` has fewer bytes than [`text_length`] tells.
pub fn write_text(record: &[u8], text: &mut [u8]) -> Result<usize, Refusal> {
    let mut answer = Answer::default();
    unsafe {
        basmuthar_write_text(
            record.as_ptr(),
            record.len(),
            text.as_mut_ptr(),
            text.len(),
            &mut answer,
        )
    };
    accepted(answer)?;
    Ok(answer[1] as usize)
}

/// The text of a record, as [`write_text`] writes it.
///
/// Refuses as [`size`](crate::size) does.
pub fn text(record: &[u8]) -> Result<Vec<u8>, Refusal> {
    let mut text = vec![0; text_length(record)?];
    write_text(record, &mut text)?;
    Ok(text)
}

/// Read text: writes the numbers of clause text to the first K places of `list` and leaves the later ones.
///
/// The first line is `p cnf N M`; after it numbers are parted by runs of spaces or newlines, which may also stand before and
/// after them. Refuses with 18 for bad text, and then with 10 where `list` has fewer than K places.
///
/// ```
/// let mut list = [0; 5];
/// let sizes = basmuthar::read_text(b"p cnf 3 2\n1 -3 0\n2 0\n", &mut list)?;
/// assert_eq!((sizes.variables, sizes.clauses, sizes.numbers), (3, 2, 5));
/// assert_eq!(list, [1, -3, 0, 2, 0]);
/// # Ok::<(), basmuthar::Refusal>(())
/// ```
pub fn read_text(text: &[u8], list: &mut [i32]) -> Result<Sizes, Refusal> {
    let mut answer = Answer::default();
    unsafe {
        basmuthar_read_text(text.as_ptr(), text.len(), list.as_mut_ptr(), list.len(), &mut answer)
    };
    sizes(answer)
}

/// Read reply: a solver's reply about so many SAT variables as a model, or that there is none.
///
/// The reply is the line `s SATISFIABLE`, then lines of `v` and numbers, each after one space, the last of them 0; or the line
/// `s UNSATISFIABLE` alone. Every line ends with a newline, also the last. Byte i of `model` becomes the truth of SAT variable
/// i + 1. Refuses with 18 for a bad reply; then, where it says yes, with 19 for a variable that it lacks or has more than once,
/// and with 11 for the length of `model`.
///
/// ```
/// use basmuthar::{read_reply, Reply};
/// let mut model = [7; 3];
/// assert_eq!(read_reply(3, b"s UNSATISFIABLE\n", &mut model)?, Reply::None);
/// assert_eq!(model, [7; 3]);
/// assert_eq!(read_reply(3, b"s SATISFIABLE\nv -1 3\nv 2 0\n", &mut model)?, Reply::Model);
/// assert_eq!(model, [0, 1, 1]);
/// # Ok::<(), basmuthar::Refusal>(())
/// ```
pub fn read_reply(variables: u32, text: &[u8], model: &mut [u8]) -> Result<Reply, Refusal> {
    let mut answer = Answer::default();
    unsafe {
        basmuthar_read_reply(
            variables,
            text.as_ptr(),
            text.len(),
            model.as_mut_ptr(),
            model.len(),
            &mut answer,
        )
    };
    accepted(answer)?;
    Ok(if answer[1] == 0 { Reply::Model } else { Reply::None })
}
