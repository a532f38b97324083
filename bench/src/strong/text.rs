//! A clause list as text: its exact length first, then number by number, each backwards and two digits at a time.

use super::Sizes;

/// The digits of 0 to 99, two each.
const PAIRS: [u8; 200] = {
    let mut pairs = [b'0'; 200];
    let mut number = 0;
    while number < 100 {
        pairs[2 * number] += (number / 10) as u8;
        pairs[2 * number + 1] += (number % 10) as u8;
        number += 1;
    }
    pairs
};

pub fn first_line(sizes: &Sizes) -> String {
    format!("p cnf {} {}\n", sizes.variables, sizes.clauses)
}

/// How many bytes the numbers take: 0 ends a line, and a space parts any other number from the next.
///
/// Each part's sum fits 32 bits, so that four numbers are looked at together.
pub fn length(list: &[i32]) -> usize {
    let part = |numbers: &[i32]| numbers.iter().map(|&number| bytes(number)).sum::<u32>() as usize;
    list.chunks(1 << 16).map(part).sum()
}

#[inline(always)]
fn bytes(number: i32) -> u32 {
    const POWERS: [u32; 9] =
        [10, 100, 1_000, 10_000, 100_000, 1_000_000, 10_000_000, 100_000_000, 1_000_000_000];
    let size = number.unsigned_abs();
    2 + u32::from(number < 0) + POWERS.iter().map(|&power| u32::from(size >= power)).sum::<u32>()
}

/// Writes the numbers, and tells the place behind them.
///
/// # Safety
/// There is room for the bytes that `length` tells.
pub unsafe fn write(list: &[i32], mut next: *mut u8) -> *mut u8 {
    for &number in list {
        if number == 0 {
            next.cast::<[u8; 2]>().write(*b"0\n");
            next = next.add(2);
        } else {
            next.write(b'-');
            next = next.add(usize::from(number < 0));
            next = write_digits(number.unsigned_abs(), next);
            next.write(b' ');
            next = next.add(1);
        }
    }
    next
}

#[inline(always)]
unsafe fn write_digits(mut number: u32, begin: *mut u8) -> *mut u8 {
    let end = begin.add(written_digits(number));
    let mut at = end;
    while number >= 100 {
        at = at.sub(2);
        at.cast::<[u8; 2]>().write(pair(number % 100));
        number /= 100;
    }
    if number >= 10 {
        at.sub(2).cast::<[u8; 2]>().write(pair(number));
    } else {
        at.sub(1).write(b'0' + number as u8);
    }
    end
}

/// By branches, which neighbouring numbers mostly share.
#[inline(always)]
fn written_digits(number: u32) -> usize {
    number.ilog10() as usize + 1
}

#[inline(always)]
fn pair(number: u32) -> [u8; 2] {
    let at = 2 * number as usize;
    [PAIRS[at], PAIRS[at + 1]]
}
