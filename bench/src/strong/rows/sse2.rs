//! Rows four numbers at a time; every x86-64 machine has SSE2.

use super::Row;
use core::arch::x86_64::{
    __m128i as Four, _mm_add_epi32 as add, _mm_set_epi32, _mm_storeu_si128 as store,
};

/// Writes so many rows, and tells the place behind them.
///
/// # Safety
/// There is room for all of them.
#[inline(always)]
pub unsafe fn rows<const BEFORE: usize>(next: *mut i32, row: Row, count: usize) -> *mut i32 {
    match BEFORE {
        0 => rows_of_three(next, row, count),
        1 => rows_of_four(next, row, count),
        _ => rows_of_five(next, row, count),
    }
}

/// Four numbers in the order of their places.
#[inline(always)]
unsafe fn four(numbers: [i32; 4]) -> Four {
    _mm_set_epi32(numbers[3], numbers[2], numbers[1], numbers[0])
}

/// Four rows at a time fill three stores; the last rows are written apart.
#[inline(always)]
unsafe fn rows_of_three(mut next: *mut i32, row: Row, count: usize) -> *mut i32 {
    let Row { mut x, mut y, step, .. } = row;
    let mut stores = [
        four([x, y, 0, x + step]),
        four([y - step, 0, x + 2 * step, y - 2 * step]),
        four([0, x + 3 * step, y - 3 * step, 0]),
    ];
    let ahead = 4 * step;
    let steps = [
        four([ahead, -ahead, 0, ahead]),
        four([-ahead, 0, ahead, -ahead]),
        four([0, ahead, -ahead, 0]),
    ];
    for _ in 0..count / 4 {
        for (index, numbers) in stores.iter_mut().enumerate() {
            store(next.add(4 * index).cast(), *numbers);
            *numbers = add(*numbers, steps[index]);
        }
        next = next.add(12);
        x += ahead;
        y -= ahead;
    }
    for _ in 0..count % 4 {
        next.write(x);
        next.add(1).write(y);
        next.add(2).write(0);
        next = next.add(3);
        x += step;
        y -= step;
    }
    next
}

#[inline(always)]
unsafe fn rows_of_four(mut next: *mut i32, row: Row, count: usize) -> *mut i32 {
    let mut numbers = four([row.before[0], row.x, row.y, 0]);
    let steps = four([0, row.step, -row.step, 0]);
    for _ in 0..count {
        store(next.cast(), numbers);
        numbers = add(numbers, steps);
        next = next.add(4);
    }
    next
}

#[inline(always)]
unsafe fn rows_of_five(mut next: *mut i32, row: Row, count: usize) -> *mut i32 {
    let mut numbers = four([row.before[0], row.before[1], row.x, row.y]);
    let steps = four([0, 0, row.step, -row.step]);
    for _ in 0..count {
        store(next.cast(), numbers);
        next.add(4).write(0);
        numbers = add(numbers, steps);
        next = next.add(5);
    }
    next
}
