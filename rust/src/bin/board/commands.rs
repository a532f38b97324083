//! What `board` can do, one file for each; a command answers whether all is well, or what stopped it.

pub mod cnf;
pub mod earliest;
pub mod join;
pub mod model;
pub mod place;
pub mod record;
pub mod rules;
pub mod sheet;
pub mod show;
pub mod text;
pub mod why;
