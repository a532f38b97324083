//! A checked record: where its rules begin, each variable's first number, and comparisons made ready for rows.

pub const MOST_INTEGERS: usize = 1_024;

/// The kind byte of a comparison; 0 and 1 are a Boolean and a negated one.
pub const COMPARISON: u8 = 2;

#[derive(Clone, Copy, Default)]
pub struct Variable {
    pub lower: i32,
    pub upper: i32,
    /// The number of p(x, lower - 1).
    pub first: i32,
}

pub struct Board<'a> {
    pub record: &'a [u8],
    pub integers: usize,
    pub booleans: usize,
    pub clauses: usize,
    /// The place of the first clause.
    pub rules: usize,
    pub variables: [Variable; MOST_INTEGERS],
    pub first_selector: i32,
}

/// A comparison by offsets: a term's offset is 0 at its least value less 1.
///
/// The literal at offset k is base + k / |coefficient| rounded up, for both signs of the coefficient.
#[derive(Clone, Copy)]
pub struct Comparison {
    pub terms: usize,
    /// The coefficients without their signs.
    pub strides: [i32; 3],
    /// The greatest offset of each term.
    pub widths: [i32; 3],
    /// The literal of each term at offset 0.
    pub bases: [i32; 3],
    /// What the offsets of a tuple add up to; below 1 where the constant is below the least sum.
    pub total: i32,
}

/// A literal of a checked record; a comparison by the place of its terms.
#[derive(Clone, Copy)]
pub enum Literal {
    Boolean { number: usize, wanted: u8 },
    Comparison { place: usize, terms: usize },
}

impl<'a> Board<'a> {
    /// A board of which only the bytes are known.
    pub fn of(record: &'a [u8]) -> Board<'a> {
        Board {
            record,
            integers: 0,
            booleans: 0,
            clauses: 0,
            rules: 0,
            variables: [Variable::default(); MOST_INTEGERS],
            first_selector: 0,
        }
    }

    /// A 2-byte number.
    ///
    /// # Safety
    /// The record has two bytes at this place.
    #[inline(always)]
    pub unsafe fn two_bytes(&self, place: usize) -> u16 {
        u16::from_be(self.record.as_ptr().add(place).cast::<u16>().read_unaligned())
    }

    /// The comparison whose terms begin at this place.
    ///
    /// # Safety
    /// Its terms and its constant were checked.
    #[inline(always)]
    pub unsafe fn comparison(&self, place: usize, terms: usize) -> Comparison {
        let record = self.record.as_ptr();
        let mut made =
            Comparison { terms, strides: [1; 3], widths: [0; 3], bases: [0; 3], total: 0 };
        let mut least = 0;
        for index in 0..terms {
            let at = place + 3 * index;
            let coefficient = i32::from(*record.add(at) as i8);
            let number = usize::from(self.two_bytes(at + 1));
            let variable = *self.variables.get_unchecked(number);
            let (stride, span) = (coefficient.abs(), variable.upper - variable.lower);
            made.strides[index] = stride;
            made.widths[index] = stride * span + 1;
            if coefficient > 0 {
                made.bases[index] = variable.first;
                least += coefficient * variable.lower;
            } else {
                made.bases[index] = -(variable.first + span + 1);
                least += coefficient * variable.upper;
            }
        }
        made.total = self.constant(place, terms) - least + 1;
        made
    }

    /// The literal whose kind byte is at this place, and where the next one begins.
    ///
    /// # Safety
    /// The literal was checked.
    #[inline(always)]
    pub unsafe fn literal(&self, at: usize) -> (Literal, usize) {
        let kind = *self.record.as_ptr().add(at);
        if kind == COMPARISON {
            let terms = usize::from(*self.record.as_ptr().add(at + 1));
            (Literal::Comparison { place: at + 2, terms }, at + 6 + 3 * terms)
        } else {
            let number = usize::from(self.two_bytes(at + 1));
            (Literal::Boolean { number, wanted: 1 - kind }, at + 3)
        }
    }

    /// Whether a comparison holds at these values.
    ///
    /// # Safety
    /// The comparison was checked, and there is a value within bounds for each variable.
    #[inline(always)]
    pub unsafe fn sum_holds(&self, place: usize, terms: usize, values: &[i32]) -> bool {
        let record = self.record.as_ptr();
        let mut sum = 0;
        for at in (place..place + 3 * terms).step_by(3) {
            let variable = usize::from(self.two_bytes(at + 1));
            sum += i32::from(*record.add(at) as i8) * values.get_unchecked(variable);
        }
        sum <= self.constant(place, terms)
    }

    /// The offset of each term of a comparison at these values.
    ///
    /// # Safety
    /// As for `sum_holds`.
    pub unsafe fn offsets(&self, place: usize, terms: usize, values: &[i32]) -> [i32; 3] {
        let mut offsets = [0; 3];
        for (index, offset) in offsets[..terms].iter_mut().enumerate() {
            let at = place + 3 * index;
            let number = usize::from(self.two_bytes(at + 1));
            let (variable, value) = (self.variables[number], values[number]);
            let coefficient = i32::from(self.record[at] as i8);
            let steps =
                if coefficient > 0 { value - variable.lower } else { variable.upper - value };
            *offset = coefficient.abs() * steps + 1;
        }
        offsets
    }

    #[inline(always)]
    unsafe fn constant(&self, place: usize, terms: usize) -> i32 {
        let constant = self.record.as_ptr().add(place + 3 * terms).cast::<u32>();
        u32::from_be(constant.read_unaligned()) as i32
    }
}
