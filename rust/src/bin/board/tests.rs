//! Tests of reading and writing boards.

mod all_values;
mod complaints;
pub mod dice;
mod drawn_jobs;
pub mod folder;
mod hours;
mod jobs;
mod joining;
mod limits;
mod meaning;
mod plain;
mod round_trip;
