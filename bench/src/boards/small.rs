//! Boards of many rules with few clauses each: here reading weighs more than writing.

use super::{built, record, Board, Kind};
use basmuthar::Literal;
use second::boards::dice::Dice;

const RULES: u32 = 4_000;

/// Five of 4,096 Booleans in each clause, the last one negated; no Boolean is true in the solution.
pub fn boolean_clauses() -> Board {
    let choices = 4_096;
    let mut dice = Dice::new(5);
    let mut rules = Vec::new();
    for _ in 0..RULES {
        let mut number = || dice.below(usize::from(choices)) as u16 + 1;
        let numbers = [(); 5].map(|()| number());
        let mut rule: Vec<Literal> = numbers.map(Literal::yes).into();
        rule[4] = Literal::no(numbers[4]);
        if dice.one_in(2) {
            rule[1] = Literal::no(numbers[1]);
        }
        rules.push(rule);
    }
    Board {
        name: "booleans",
        title: "4,000 clauses of five Booleans",
        kind: Kind::Small,
        record: built(Vec::new(), choices, rules),
        values: Vec::new(),
        booleans: vec![0; usize::from(choices)],
    }
}

pub fn two_term_rules_over_1024() -> Board {
    Board {
        name: "over1024",
        title: "4,000 two-term rules over 1,024 variables of 0 to 1",
        kind: Kind::Small,
        record: record(1_024, (0, 1), two_term_rules(1_024)),
        values: vec![0; 1_024],
        booleans: Vec::new(),
    }
}

pub fn two_term_rules_over_16() -> Board {
    Board {
        name: "over16",
        title: "the same 4,000 rules over 16 variables",
        kind: Kind::Small,
        record: record(16, (0, 1), two_term_rules(16)),
        values: vec![0; 16],
        booleans: Vec::new(),
    }
}

/// The same rules for every even count, their variables taken around it; the two of a rule differ by an odd number.
fn two_term_rules(variables: u32) -> Vec<Vec<Literal>> {
    let rule = |number: u32| {
        let (x, y) = (7 * number % variables, (13 * number + 5) % variables);
        vec![Literal::at_most([(1, x as u16), (-1, y as u16)], 0)]
    };
    (0..RULES).map(rule).collect()
}
