//! Five operations on slices: Size, Compile, Decode, Judge and Image. Closing and those on text have files of their own.
//!
//! In every call below, each pointer comes from a slice and goes with that slice's own length; the borrow rules keep a
//! list that is written apart from all others. That is all the library asks for.

use crate::library::{
    basmuthar_compile, basmuthar_decode, basmuthar_image, basmuthar_judge, basmuthar_size, Answer,
};
use crate::refusal::Refusal;

/// The three numbers of a record.
#[derive(Debug, Clone, Copy, PartialEq, Eq)]
pub struct Sizes {
    /// N: how many SAT variables there are.
    pub variables: usize,
    /// M: how many clauses there are.
    pub clauses: usize,
    /// K: how many numbers the clause list has.
    pub numbers: usize,
}

/// Size: the three numbers of a record.
///
/// Refuses with 1 to 9 and 15 to 17.
pub fn size(record: &[u8]) -> Result<Sizes, Refusal> {
    let mut answer = Answer::default();
    unsafe { basmuthar_size(record.as_ptr(), record.len(), &mut answer) };
    sizes(answer)
}

/// Compile: writes the clause list to the first K places of `list` and leaves the later ones.
///
/// A clause is its literals and then 0; a negated literal is a negative number. Refuses as [`size`] does, and then with
/// 10 where `list` has fewer than K places.
pub fn compile(record: &[u8], list: &mut [i32]) -> Result<Sizes, Refusal> {
    let mut answer = Answer::default();
    unsafe {
        basmuthar_compile(record.as_ptr(), record.len(), list.as_mut_ptr(), list.len(), &mut answer)
    };
    sizes(answer)
}

/// Decode: writes the value of each integer variable and the byte of each Boolean variable that a model stands for.
///
/// Byte i of `model` is the truth of SAT variable i + 1. Refuses as [`size`] does, then with 11 for the length of
/// `model`, `values` and `booleans`, 12 for a model byte, and 13 for the first clause of the compiled list that does
/// not hold, axioms among them.
pub fn decode(
    record: &[u8],
    model: &[u8],
    values: &mut [i32],
    booleans: &mut [u8],
) -> Result<(), Refusal> {
    let mut answer = Answer::default();
    unsafe {
        basmuthar_decode(
            record.as_ptr(),
            record.len(),
            model.as_ptr(),
            model.len(),
            values.as_mut_ptr(),
            values.len(),
            booleans.as_mut_ptr(),
            booleans.len(),
            &mut answer,
        )
    };
    accepted(answer)
}

/// Judge: accepts exactly a solution of the record.
///
/// Refuses as [`size`] does, then with 11 for the length of `values` and `booleans`, 12 for a Boolean byte, 14 for a
/// value outside its bounds, and 13 for the first clause of the record that does not hold.
pub fn judge(record: &[u8], values: &[i32], booleans: &[u8]) -> Result<(), Refusal> {
    let mut answer = Answer::default();
    unsafe {
        basmuthar_judge(
            record.as_ptr(),
            record.len(),
            values.as_ptr(),
            values.len(),
            booleans.as_ptr(),
            booleans.len(),
            &mut answer,
        )
    };
    accepted(answer)
}

/// Image: as [`judge`], and writes the plain model of the solution.
///
/// In the plain model every SAT variable is true exactly where what it stands for holds. `model` has N places; 11 for
/// its length comes after that for `values` and `booleans`, and before 12.
pub fn image(
    record: &[u8],
    values: &[i32],
    booleans: &[u8],
    model: &mut [u8],
) -> Result<(), Refusal> {
    let mut answer = Answer::default();
    unsafe {
        basmuthar_image(
            record.as_ptr(),
            record.len(),
            values.as_ptr(),
            values.len(),
            booleans.as_ptr(),
            booleans.len(),
            model.as_mut_ptr(),
            model.len(),
            &mut answer,
        )
    };
    accepted(answer)
}

/// N, M and K of a record are at most 2,000,000,000, and of a text N and M are below 2^31 and K below its length: all fit.
pub fn sizes(answer: Answer) -> Result<Sizes, Refusal> {
    accepted(answer)?;
    let [_, variables, clauses, numbers] = answer.map(|number| number as usize);
    Ok(Sizes { variables, clauses, numbers })
}

/// Nothing, or the refusal that an answer stands for.
pub fn accepted(answer: Answer) -> Result<(), Refusal> {
    match answer {
        [0, ..] => Ok(()),
        [number, detail, ..] => Err(Refusal { number, detail }),
    }
}
