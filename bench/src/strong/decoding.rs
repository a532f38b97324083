//! Decode without a walk over clauses: where a model keeps the axioms, a comparison's clauses hold exactly if the
//! comparison holds at the values (000, Proposition 1).

use super::board::{Board, Literal, Variable, COMPARISON, MOST_INTEGERS};
use super::opening::refused;
use super::Refused;

pub type Values = [i32; MOST_INTEGERS];

/// The values of a model of bits that has its length, or refusal 13 with the first clause that does not hold.
pub fn values_of(board: &Board, model: &[u8]) -> Result<Values, Refused> {
    let mut values = [0; MOST_INTEGERS];
    let mut clauses = 0;
    for (&Variable { lower, upper, first }, value) in
        board.variables[..board.integers].iter().zip(&mut values)
    {
        let begin = first as usize - 1;
        let bounds = &model[begin..begin + (upper - lower + 2) as usize];
        *value = lower - 1 + leading_zeros(bounds, clauses)? as i32;
        clauses += bounds.len() as u64 + 1;
    }
    let mut rules =
        Rules { board, model, values: &values, clauses, selector: board.first_selector };
    let mut at = board.rules;
    for _ in 0..board.clauses {
        // Sound: the board was opened, the model has its length, and the values are within bounds.
        at = unsafe { rules.check_rule(at)? };
    }
    Ok(values)
}

/// How many bytes come before the first 1, where zeros and ones are in order and there are both.
fn leading_zeros(bounds: &[u8], clauses: u64) -> Result<usize, Refused> {
    let zeros = bounds.len() - ones(bounds);
    if zeros > 0 && zeros < bounds.len() && ones(&bounds[zeros..]) == bounds.len() - zeros {
        return Ok(zeros);
    }
    let broken = match bounds {
        [1, ..] => 0,
        [.., 0] => 1,
        _ => 2 + bounds.windows(2).position(|two| two == [1, 0]).expect("an order is broken"),
    };
    Err(Refused { number: 13, detail: clauses + broken as u64 })
}

fn ones(bits: &[u8]) -> usize {
    // Sums of up to 255 bytes have room in a byte, and are added many at a time.
    bits.chunks(255).map(|chunk| usize::from(chunk.iter().sum::<u8>())).sum()
}

struct Rules<'a> {
    board: &'a Board<'a>,
    model: &'a [u8],
    values: &'a Values,
    /// Clauses that were found to hold.
    clauses: u64,
    /// The number of the next selector.
    selector: i32,
}

impl Rules<'_> {
    /// Checks the clauses of the rule at this place, and tells where the next begins.
    #[inline(always)]
    unsafe fn check_rule(&mut self, place: usize) -> Result<usize, Refused> {
        let literals = usize::from(self.board.record[place]);
        let begin = place + 1;
        if literals == 1 && self.board.record[begin] == COMPARISON {
            let (literal, end) = self.board.literal(begin);
            self.check_comparison(literal)?;
            return Ok(end);
        }
        let lead = self.selector;
        let end = self.check_line(begin, literals)?;
        if self.selector != lead {
            self.check_led_comparisons(begin..end, lead)?;
        }
        Ok(end)
    }

    /// The clause of Booleans and selectors.
    #[inline(always)]
    unsafe fn check_line(&mut self, mut at: usize, literals: usize) -> Result<usize, Refused> {
        let mut holds = false;
        for _ in 0..literals {
            let (literal, next) = self.board.literal(at);
            at = next;
            holds |= match literal {
                Literal::Boolean { number, wanted } => self.bit(number) == wanted,
                Literal::Comparison { .. } => {
                    self.selector += 1;
                    self.bit(self.selector as usize - 1) == 1
                }
            };
        }
        if !holds {
            return refused(13, self.clauses as usize);
        }
        self.clauses += 1;
        Ok(at)
    }

    /// The comparisons of a rule: where a selector is 0, all its clauses hold by it.
    #[inline(always)]
    unsafe fn check_led_comparisons(
        &mut self,
        literals: std::ops::Range<usize>,
        mut selector: i32,
    ) -> Result<(), Refused> {
        let mut at = literals.start;
        while at < literals.end {
            let (literal, next) = self.board.literal(at);
            at = next;
            if let Literal::Comparison { place, terms } = literal {
                if self.bit(selector as usize) == 1 {
                    self.check_comparison(literal)?;
                } else {
                    self.clauses += self.board.comparison(place, terms).clauses();
                }
                selector += 1;
            }
        }
        Ok(())
    }

    #[inline(always)]
    unsafe fn check_comparison(&mut self, literal: Literal) -> Result<(), Refused> {
        let Literal::Comparison { place, terms } = literal else { return Ok(()) };
        let comparison = self.board.comparison(place, terms);
        if self.board.sum_holds(place, terms, self.values) {
            self.clauses += comparison.clauses();
            return Ok(());
        }
        let offsets = self.board.offsets(place, terms, self.values);
        Err(Refused { number: 13, detail: self.clauses + comparison.first_broken(offsets) })
    }

    /// The byte of a SAT variable.
    #[inline(always)]
    unsafe fn bit(&self, number: usize) -> u8 {
        *self.model.get_unchecked(number - 1)
    }
}
