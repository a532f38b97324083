//! How fast the proved library is, beside a strong peer, the second program, and a fill of memory.

pub mod boards;
pub mod clock;
pub mod goals;
pub mod instructions;
pub mod measures;
pub mod programs;
pub mod solvers;
pub mod strong;
pub mod table;
pub mod words;
