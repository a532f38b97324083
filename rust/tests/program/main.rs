//! Tests of the program `board`, run as a user runs it.

mod accident;
mod documents;
mod earliest;
mod failing;
mod fake;
mod join;
mod output;
mod place;
mod replies;
mod run;
mod sheet;
mod show;
mod solver;
mod week;
mod why;
mod why_ends;
