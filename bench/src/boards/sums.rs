//! Wide boards of sums of three terms.

use super::{record, Board, Kind};
use basmuthar::Literal;

/// Sums of three neighbours with several coefficients.
pub fn three_term_sums() -> Board {
    let coefficients = [[1, 1, -1], [1, 1, 1], [2, -3, 1], [-1, 5, -2]];
    let values: Vec<i32> = (0..48).map(|index| index * 37 % 101).collect();
    Board {
        name: "sums",
        title: "48 sums of three terms in 0 to 100",
        kind: Kind::Wide,
        record: record(48, (0, 100), neighbours(&values, &coefficients)),
        values,
        booleans: Vec::new(),
    }
}

/// The same shape with coefficients 64, 7 and -3 in every order.
pub fn large_coefficients() -> Board {
    let coefficients = [[64, 7, -3], [-3, 64, 7], [7, -3, 64]];
    let values: Vec<i32> = (0..12).map(|index| index * 37 % 41).collect();
    Board {
        name: "large",
        title: "12 sums with coefficients 64, 7 and -3 in 0 to 40",
        kind: Kind::Wide,
        record: record(12, (0, 40), neighbours(&values, &coefficients)),
        values,
        booleans: Vec::new(),
    }
}

/// A rule on each three neighbours, its limit a little above their sum at the solution.
fn neighbours(values: &[i32], coefficients: &[[i8; 3]]) -> Vec<Vec<Literal>> {
    let mut rules = Vec::new();
    for first in 0..values.len() {
        let variables = [0, 1, 2].map(|place| ((first + place) % values.len()) as u16);
        let row = coefficients[first % coefficients.len()];
        let terms: Vec<(i8, u16)> = row.into_iter().zip(variables).collect();
        let product = |&(a, x): &(i8, u16)| i32::from(a) * values[usize::from(x)];
        let limit = terms.iter().map(product).sum::<i32>() + first as i32 % 7;
        rules.push(vec![Literal::at_most(terms, limit)]);
    }
    rules
}
