//! Wide boards of hours: a workshop's week, a shop, and an open shop; their rules have two terms.

use super::{built, record, Board, Kind};
use basmuthar::Literal;

/// 20 kilns with 10 firings each, in a week of 168 hours. No two firings of a kiln overlap, and each firing has to be
/// over before the next firing of the neighbouring kiln begins. The solution has a firing every 16 hours.
pub fn workshop_week() -> Board {
    let (kilns, firings) = (20, 10);
    let number = |kiln: u16, firing: u16| kiln * firings + firing;
    let mut clauses = Vec::new();
    for kiln in 0..kilns {
        let of_kiln: Vec<u16> = (0..firings).map(|firing| number(kiln, firing)).collect();
        clauses.extend(apart(&of_kiln, firing_hours));
        for firing in 0..firings {
            clauses.push(ended_by(number(kiln, firing), 168));
        }
        for firing in 1..firings {
            let earlier = number((kiln + 1) % kilns, firing - 1);
            clauses.push(vec![Literal::follows(
                earlier,
                firing_hours(earlier),
                number(kiln, firing),
            )]);
        }
    }
    let starts = (0..kilns).flat_map(|_| (0..i32::from(firings)).map(|firing| 16 * firing));
    Board {
        name: "week",
        title: "a workshop's week: 200 firings in 168 hours",
        kind: Kind::Wide,
        record: record(kilns * firings, (0, 167), clauses),
        values: starts.collect(),
        booleans: Vec::new(),
    }
}

/// 10 jobs of 10 operations, each on another machine, in hours 0 to 1,500. The operations of a job follow one another,
/// and those of a machine do not overlap. The solution begins an operation of every job at each hundred.
pub fn shop() -> Board {
    let count = 10;
    let number = |job: u16, operation: u16| job * count + operation;
    let mut clauses = Vec::new();
    for job in 0..count {
        for operation in 1..count {
            let earlier = number(job, operation - 1);
            let hours = operation_hours(earlier);
            clauses.push(vec![Literal::follows(earlier, hours, number(job, operation))]);
        }
    }
    for machine in 0..count {
        let on_machine = |job| number(job, (machine + count - job) % count);
        let of_machine: Vec<u16> = (0..count).map(on_machine).collect();
        clauses.extend(apart(&of_machine, operation_hours));
    }
    let starts = (0..count).flat_map(|_| (0..i32::from(count)).map(|operation| 100 * operation));
    Board {
        name: "shop",
        title: "100 operations in hours 0 to 1,500",
        kind: Kind::Wide,
        record: record(count * count, (0, 1_500), clauses),
        values: starts.collect(),
        booleans: Vec::new(),
    }
}

/// 000's Fig. 6, gp03-01: operation 3i + j of job i on machine j, and variable 9, by which all are over. The solution
/// has three operations at a time, each of another job on another machine.
pub fn open_shop() -> Board {
    let hours =
        |operation: u16| [661, 6, 333, 168, 489, 343, 171, 505, 324][usize::from(operation)];
    let mut clauses = Vec::new();
    for operation in 0..9 {
        clauses.push(vec![Literal::follows(operation, hours(operation), 9)]);
    }
    for index in 0..3 {
        clauses.extend(apart(&[3 * index, 3 * index + 1, 3 * index + 2], hours));
        clauses.extend(apart(&[index, index + 3, index + 6], hours));
    }
    let mut bounds = vec![(0, 1_509); 9];
    bounds.push((1_000, 1_509));
    Board {
        name: "gp03",
        title: "the open shop gp03-01 of 000: 9 operations in hours 0 to 1,509",
        kind: Kind::Wide,
        record: built(bounds, 0, clauses),
        values: vec![0, 661, 1_004, 1_004, 0, 661, 661, 1_004, 0, 1_509],
        booleans: Vec::new(),
    }
}

/// A clause for each pair: one of the two is over before the other begins.
fn apart(numbers: &[u16], hours: impl Fn(u16) -> i32) -> Vec<Vec<Literal>> {
    let mut clauses = Vec::new();
    for (index, &one) in numbers.iter().enumerate() {
        for &other in &numbers[index + 1..] {
            clauses.push(vec![
                Literal::follows(one, hours(one), other),
                Literal::follows(other, hours(other), one),
            ]);
        }
    }
    clauses
}

fn ended_by(firing: u16, end: i32) -> Vec<Literal> {
    vec![Literal::at_most([(1, firing)], end - firing_hours(firing))]
}

/// From 6 to 16 hours.
fn firing_hours(firing: u16) -> i32 {
    6 + i32::from(firing) * 7 % 11
}

/// From 20 to 100 hours.
fn operation_hours(operation: u16) -> i32 {
    20 + i32::from(operation) * 31 % 81
}
