//! What is said where a record is full, and what would help.

use crate::sheet::Rule;

pub const FEWER_RULES: &str = "\
A job needs a rule with each job above it that it may meet on a machine. What would help: narrower hours (jobs that cannot
meet need no rule), a board for each part of the week or each machine, or one job for things that are fired together.";

pub const FEWER_NUMBERS: &str =
    "What would help: a board for each part of the week, or for each machine.";

pub const SHORTER_LIST: &str =
    "What would help: a longer step, narrower hours, or sums of fewer numbers.";

pub const LONGER_STEP: &str = "\
Values go from -4,096 to 4,095 steps. What would help: a longer step, or hours nearer to the beginning of the week.";

/// `the record is full at job 73 on kiln_a`.
pub fn full_at(rule: Option<&Rule>) -> String {
    full_for(rule.and_then(|rule| rule.made_for.as_deref()))
}

/// The same, for what a rule was made for.
pub fn full_for(made_for: Option<&str>) -> String {
    match made_for {
        Some(made_for) => format!("the record is full at {made_for}"),
        None => "the record is full here".to_string(),
    }
}
