//! Rows: clauses that follow one another and differ only in two literals that step by one.

#[cfg(any(test, not(target_arch = "x86_64")))]
mod plain;
#[cfg(target_arch = "x86_64")]
mod sse2;

#[cfg(not(target_arch = "x86_64"))]
pub use plain::rows;
#[cfg(target_arch = "x86_64")]
pub use sse2::rows;

/// The first clause of some rows: literals before, x, y, 0. From clause to clause x steps by `step`, and y back.
#[derive(Clone, Copy)]
pub struct Row {
    pub before: [i32; 2],
    pub x: i32,
    pub y: i32,
    pub step: i32,
}

#[cfg(all(test, target_arch = "x86_64"))]
mod tests {
    use super::{plain, sse2, Row};

    fn both<const BEFORE: usize>(step: i32, count: usize) {
        let row = Row { before: [-7, 5], x: 100, y: -300, step };
        let (mut one, mut other) = ([77; 200], [77; 200]);
        let length = count * (BEFORE + 3);
        unsafe {
            let end = plain::rows::<BEFORE>(one.as_mut_ptr(), row, count);
            assert_eq!(end.offset_from(one.as_ptr()), length as isize);
            let end = sse2::rows::<BEFORE>(other.as_mut_ptr(), row, count);
            assert_eq!(end.offset_from(other.as_ptr()), length as isize);
        }
        assert_eq!(one, other, "{BEFORE} before, step {step}, {count} rows");
        assert!(one[length..].iter().all(|&number| number == 77));
    }

    #[test]
    fn plain_rows_and_wide_rows_are_equal() {
        for count in 0..30 {
            both::<0>(1, count);
            both::<0>(-1, count);
            both::<1>(1, count);
            both::<2>(1, count);
        }
    }
}
