//! For each operation a record that takes it longest, in all or for each number of its list.

use super::{built, record, Board, Kind};
use basmuthar::Literal;

/// For Size, and for Compile and Decode by the number: as many terms as a record has room for, all of them of the
/// last variables.
pub fn most_terms() -> Board {
    let comparison = Literal::at_most([(1, 1_023), (1, 1_022), (1, 1_021)], 1);
    let rules = vec![vec![comparison; 64]; 63];
    Board {
        name: "terms",
        title: "4,032 comparisons of three terms over the last of 1,024 variables",
        kind: Kind::Worst,
        record: record(1_024, (0, 0), rules),
        values: vec![0; 1_024],
        booleans: Vec::new(),
    }
}

/// For Judge: as many literals as a record has room for, and of each clause only the last holds.
pub fn most_literals() -> Board {
    let choices = 4_096;
    let mut rule = vec![Literal::yes(choices); 64];
    rule[63] = Literal::no(choices);
    Board {
        name: "literals",
        title: "339 clauses of 64 Booleans, of which the last holds",
        kind: Kind::Worst,
        record: built(Vec::new(), choices, vec![rule; 339]),
        values: Vec::new(),
        booleans: vec![0; usize::from(choices)],
    }
}

/// For Image: as many SAT variables as bounds can give.
pub fn most_bounds() -> Board {
    Board {
        name: "bounds",
        title: "1,024 variables of -4,096 to 4,095, no rule",
        kind: Kind::Worst,
        record: record(1_024, (-4_096, 4_095), Vec::new()),
        values: vec![4_095; 1_024],
        booleans: Vec::new(),
    }
}

/// The shape of `ceiling`, with a list of 40 MB.
pub fn cube() -> Board {
    Board {
        name: "cube",
        title: "64x + 64y + 64z in a record of 39 bytes, 2.5 million clauses",
        kind: Kind::Worst,
        ..cube_up_to(-784_190)
    }
}

/// For Compile and Decode: nearly the longest list that is not refused.
pub fn ceiling() -> Board {
    Board {
        name: "ceiling",
        title: "64x + 64y + 64z in a record of 39 bytes, K just below 2,000,000,000",
        kind: Kind::Huge,
        ..cube_up_to(-754_820)
    }
}

/// In its solution x and y are as large as they can be together.
fn cube_up_to(limit: i32) -> Board {
    let rule = Literal::at_most([(64, 0), (64, 1), (64, 2)], limit);
    let both = limit.div_euclid(64) + 4_096;
    let x = (both / 2).min(4_095);
    Board {
        name: "",
        title: "",
        kind: Kind::Worst,
        record: record(3, (-4_096, 4_095), vec![vec![rule]]),
        values: vec![x, both - x, -4_096],
        booleans: Vec::new(),
    }
}
