//! The clause list of a checked board, written without any further check.

use super::board::{Board, Comparison, COMPARISON};
use super::rows::{rows, Row};

/// Writes the whole list, and tells the place behind it.
///
/// # Safety
/// The board was opened, and there is room for its K numbers.
pub unsafe fn write_list(board: &Board, mut next: *mut i32) -> *mut i32 {
    for variable in &board.variables[..board.integers] {
        let first = variable.first;
        let steps = variable.upper - variable.lower + 1;
        next = put(next, [-first, 0, first + steps, 0]);
        let row = Row { before: [0; 2], x: -first, y: first + 1, step: -1 };
        next = rows::<0>(next, row, steps as usize);
    }
    let mut selector = board.first_selector;
    let mut at = board.rules;
    for _ in 0..board.clauses {
        let literals = usize::from(board.record[at]);
        at += 1;
        if literals == 1 && board.record[at] == COMPARISON {
            let (comparison, end) = read_comparison(board, at);
            next = put_comparison::<false>(next, 0, &comparison);
            at = end;
        } else {
            let lead = selector;
            let begin = at;
            (next, at) = put_line(board, next, at, literals, &mut selector);
            if selector != lead {
                next = put_led_comparisons(board, next, begin..at, -lead);
            }
        }
    }
    next
}

/// Writes a clause of Booleans and selectors, and tells where list and record go on.
#[inline(always)]
unsafe fn put_line(
    board: &Board,
    mut next: *mut i32,
    mut at: usize,
    literals: usize,
    selector: &mut i32,
) -> (*mut i32, usize) {
    let record = board.record.as_ptr();
    for _ in 0..literals {
        let kind = *record.add(at);
        if kind == COMPARISON {
            next = put(next, [*selector]);
            *selector += 1;
            at += 6 + 3 * usize::from(*record.add(at + 1));
        } else {
            let number = i32::from(board.two_bytes(at + 1));
            next = put(next, [if kind == 0 { number } else { -number }]);
            at += 3;
        }
    }
    (put(next, [0]), at)
}

/// Writes the comparisons of a clause; their negated selectors begin with `lead` and fall.
#[inline(always)]
unsafe fn put_led_comparisons(
    board: &Board,
    mut next: *mut i32,
    literals: std::ops::Range<usize>,
    mut lead: i32,
) -> *mut i32 {
    let mut at = literals.start;
    while at < literals.end {
        if *board.record.as_ptr().add(at) == COMPARISON {
            let (comparison, end) = read_comparison(board, at);
            next = put_comparison::<true>(next, lead, &comparison);
            lead -= 1;
            at = end;
        } else {
            at += 3;
        }
    }
    next
}

/// The comparison whose kind byte is at this place, and where it ends.
#[inline(always)]
unsafe fn read_comparison(board: &Board, at: usize) -> (Comparison, usize) {
    let terms = usize::from(*board.record.as_ptr().add(at + 1));
    (board.comparison(at + 2, terms), at + 6 + 3 * terms)
}

#[inline(always)]
unsafe fn put_comparison<const LED: bool>(
    mut next: *mut i32,
    lead: i32,
    comparison: &Comparison,
) -> *mut i32 {
    let total = comparison.total;
    if total < 1 {
        if LED {
            next = put(next, [lead]);
        }
        return put(next, [0]);
    }
    match (comparison.terms, LED) {
        (1, _) if total > comparison.widths[0] => next,
        (1, _) => {
            if LED {
                next = put(next, [lead]);
            }
            let literal = comparison.bases[0] + divide_up(total, comparison.strides[0]);
            put(next, [literal, 0])
        }
        (2, true) => put_pairs::<1>(next, [lead, 0], comparison, 0, total),
        (2, false) => put_pairs::<0>(next, [0, 0], comparison, 0, total),
        _ => put_triples::<LED>(next, lead, comparison),
    }
}

/// A row of pairs for each offset of the first term.
#[inline(always)]
unsafe fn put_triples<const LED: bool>(
    mut next: *mut i32,
    lead: i32,
    comparison: &Comparison,
) -> *mut i32 {
    let Comparison { widths, strides, bases, total, .. } = *comparison;
    let from = (total - widths[1] - widths[2]).max(0);
    let to = widths[0].min(total);
    let mut literal = Stepping::rising(bases[0], strides[0], from);
    for offset in from..=to {
        next = if LED {
            put_pairs::<2>(next, [lead, literal.value], comparison, 1, total - offset)
        } else {
            put_pairs::<1>(next, [literal.value, 0], comparison, 1, total - offset)
        };
        literal.value += literal.step();
    }
    next
}

/// The clauses of terms `one` and `one + 1` whose offsets add up to the total, behind the literals before.
#[inline(always)]
unsafe fn put_pairs<const BEFORE: usize>(
    mut next: *mut i32,
    before: [i32; 2],
    comparison: &Comparison,
    one: usize,
    total: i32,
) -> *mut i32 {
    let Comparison { widths, strides, bases, .. } = comparison;
    let from = (total - widths[one + 1]).max(0);
    let to = widths[one].min(total);
    if to < from {
        return next;
    }
    let count = (to - from + 1) as usize;
    if strides[one] == 1 && strides[one + 1] == 1 {
        let (x, y) = (bases[one] + from, bases[one + 1] + total - from);
        return rows::<BEFORE>(next, Row { before, x, y, step: 1 }, count);
    }
    let mut x = Stepping::rising(bases[one], strides[one], from);
    let mut y = Stepping::falling(bases[one + 1], strides[one + 1], total - from);
    for _ in 0..count {
        for (index, &literal) in before[..BEFORE].iter().enumerate() {
            next.add(index).write(literal);
        }
        next = put(next.add(BEFORE), [x.value, y.value, 0]);
        x.value += x.step();
        y.value -= y.step();
    }
    next
}

/// A literal that steps once for each stride of offsets, without a division.
struct Stepping {
    value: i32,
    stride: i32,
    /// Offsets until it steps.
    left: i32,
}

impl Stepping {
    /// The literal at this offset; offsets rise.
    #[inline(always)]
    fn rising(base: i32, stride: i32, offset: i32) -> Stepping {
        let steps = divide_up(offset, stride);
        Stepping { value: base + steps, stride, left: steps * stride - offset }
    }

    /// The literal at this offset; offsets fall.
    #[inline(always)]
    fn falling(base: i32, stride: i32, offset: i32) -> Stepping {
        let Stepping { value, left, .. } = Stepping::rising(base, stride, offset);
        Stepping { value, stride, left: stride - 1 - left }
    }

    /// How far the literal moves to the next offset: 1 where a stride is over, or else 0.
    #[inline(always)]
    fn step(&mut self) -> i32 {
        let over = self.left == 0;
        self.left = if over { self.stride } else { self.left } - 1;
        i32::from(over)
    }
}

/// Neither number is below 0, and a division without a sign is the faster one.
#[inline(always)]
fn divide_up(offset: i32, stride: i32) -> i32 {
    ((offset + stride - 1) as u32 / stride as u32) as i32
}

#[inline(always)]
unsafe fn put<const COUNT: usize>(next: *mut i32, numbers: [i32; COUNT]) -> *mut i32 {
    next.cast::<[i32; COUNT]>().write(numbers);
    next.add(COUNT)
}
