//! Rows number by number, for any machine.

use super::Row;

/// Writes so many rows, and tells the place behind them.
///
/// # Safety
/// There is room for all of them.
#[inline(always)]
pub unsafe fn rows<const BEFORE: usize>(mut next: *mut i32, row: Row, count: usize) -> *mut i32 {
    let Row { before, mut x, mut y, step } = row;
    for _ in 0..count {
        for (index, &literal) in before[..BEFORE].iter().enumerate() {
            *next.add(index) = literal;
        }
        *next.add(BEFORE) = x;
        *next.add(BEFORE + 1) = y;
        *next.add(BEFORE + 2) = 0;
        next = next.add(BEFORE + 3);
        x += step;
        y -= step;
    }
    next
}
