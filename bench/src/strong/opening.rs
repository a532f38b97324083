//! One pass over a record from left to right: refusals 1 to 9, first numbers, and the sizes.

use super::board::{Board, Variable, COMPARISON, MOST_INTEGERS};
use super::{Refused, Sizes};

const LONGEST_RECORD: usize = 65_536;
const MOST_BOOLEANS: usize = 4_096;
const MOST_CLAUSES: usize = 4_096;
const MOST_LITERALS: u8 = 64;
const MOST_TERMS: u8 = 3;
const MOST_NUMBERS: u64 = 2_000_000_000;
/// A variable number that no term has.
const NO_VARIABLE: u16 = u16::MAX;

/// Checks the whole record and fills the board.
pub fn open(board: &mut Board) -> Result<Sizes, Refused> {
    check_frame(board.record)?;
    let mut reader = Reader { record: board.record, at: 5 };
    board.integers = reader.count(MOST_INTEGERS)?;
    board.booleans = reader.count(MOST_BOOLEANS)?;
    board.clauses = reader.count(MOST_CLAUSES)?;
    let mut first = board.booleans as i32 + 1;
    for variable in &mut board.variables[..board.integers] {
        let (lower, upper) = reader.bounds()?;
        *variable = Variable { lower, upper, first };
        first += upper - lower + 2;
    }
    board.first_selector = first;
    board.rules = reader.at;
    let mut sizes = Sizes::of_axioms(board);
    for _ in 0..board.clauses {
        count_clause(board, &mut reader, &mut sizes)?;
    }
    if reader.at != board.record.len() {
        return refused(8, reader.at);
    }
    if sizes.numbers > MOST_NUMBERS {
        return refused(9, 0);
    }
    Ok(sizes)
}

/// What is tested before the body, in 01's order.
fn check_frame(record: &[u8]) -> Result<(), Refused> {
    if record.len() > LONGEST_RECORD {
        return refused(1, 0);
    }
    let [version, length @ ..] = match record.first_chunk::<5>() {
        Some(frame) => *frame,
        None => return refused(2, 0),
    };
    if version != 1 {
        return refused(3, 0);
    }
    if u32::from_be_bytes(length) as usize != record.len() - 5 {
        return refused(2, 0);
    }
    Ok(())
}

#[inline(always)]
fn count_clause(board: &Board, reader: &mut Reader, sizes: &mut Sizes) -> Result<(), Refused> {
    let literals = reader.small_count(0, MOST_LITERALS)?;
    let led = u64::from(literals != 1);
    let mut has_line = literals != 1;
    for _ in 0..literals {
        if reader.kind()? == COMPARISON {
            let terms = reader.small_count(1, MOST_TERMS)?;
            let place = reader.at;
            reader.terms(terms, board.integers)?;
            // Sound: the terms and the constant were just checked.
            let comparison = unsafe { board.comparison(place, usize::from(terms)) };
            sizes.add_comparison(&comparison, led);
        } else {
            reader.boolean(board.booleans)?;
            has_line = true;
        }
    }
    if has_line {
        sizes.add_line(u64::from(literals));
    }
    Ok(())
}

struct Reader<'a> {
    record: &'a [u8],
    at: usize,
}

impl Reader<'_> {
    /// The next field's bytes; missing ones are refused before any value is looked at.
    #[inline(always)]
    fn take<const WIDTH: usize>(&mut self) -> Result<[u8; WIDTH], Refused> {
        match self.record[self.at..].first_chunk::<WIDTH>() {
            Some(bytes) => {
                self.at += WIDTH;
                Ok(*bytes)
            }
            None => refused(8, self.at),
        }
    }

    fn count(&mut self, most: usize) -> Result<usize, Refused> {
        let count = usize::from(u16::from_be_bytes(self.take()?));
        if count > most {
            return refused(4, self.at - 2);
        }
        Ok(count)
    }

    #[inline(always)]
    fn small_count(&mut self, least: u8, most: u8) -> Result<u8, Refused> {
        let [count] = self.take()?;
        if count < least || count > most {
            return refused(4, self.at - 1);
        }
        Ok(count)
    }

    #[inline(always)]
    fn bounds(&mut self) -> Result<(i32, i32), Refused> {
        let lower = self.bound(i32::MIN)?;
        let upper = self.bound(lower)?;
        Ok((lower, upper))
    }

    #[inline(always)]
    fn bound(&mut self, least: i32) -> Result<i32, Refused> {
        let bound = i32::from(i16::from_be_bytes(self.take()?));
        if !(-4_096..=4_095).contains(&bound) || bound < least {
            return refused(5, self.at - 2);
        }
        Ok(bound)
    }

    #[inline(always)]
    fn kind(&mut self) -> Result<u8, Refused> {
        let [kind] = self.take()?;
        if kind > COMPARISON {
            return refused(6, self.at - 1);
        }
        Ok(kind)
    }

    #[inline(always)]
    fn boolean(&mut self, booleans: usize) -> Result<(), Refused> {
        let number = usize::from(u16::from_be_bytes(self.take()?));
        if number == 0 || number > booleans {
            return refused(6, self.at - 2);
        }
        Ok(())
    }

    /// A comparison's terms and its constant.
    #[inline(always)]
    fn terms(&mut self, terms: u8, integers: usize) -> Result<(), Refused> {
        let mut earlier = [NO_VARIABLE; 2];
        for _ in 0..terms {
            let coefficient = i8::from_be_bytes(self.take()?);
            if coefficient == 0 || !(-64..=64).contains(&coefficient) {
                return refused(7, self.at - 1);
            }
            let variable = u16::from_be_bytes(self.take()?);
            if usize::from(variable) >= integers {
                return refused(15, self.at - 2);
            }
            if earlier.contains(&variable) {
                return refused(16, self.at - 2);
            }
            earlier = [earlier[1], variable];
        }
        let constant = i32::from_be_bytes(self.take()?);
        if !(-1_000_000..=1_000_000).contains(&constant) {
            return refused(17, self.at - 4);
        }
        Ok(())
    }
}

pub fn refused<T>(number: u64, detail: usize) -> Result<T, Refused> {
    Err(Refused { number, detail: detail as u64 })
}
