//! Tuples of bounds, one from each range, with a given sum: listing and counting them.

/// A range of bounds, both ends included.
pub type Range = (i64, i64);

/// All tuples with this sum in rising order, the first bound weighing most.
pub fn tuples(ranges: &[Range], sum: i64) -> Vec<Vec<i64>> {
    let mut found = Vec::new();
    extend(ranges, sum, &mut Vec::new(), &mut found);
    found
}

fn extend(ranges: &[Range], sum: i64, tuple: &mut Vec<i64>, found: &mut Vec<Vec<i64>>) {
    if ranges.is_empty() {
        found.push(tuple.clone());
        return;
    }
    let rest = &ranges[1..];
    let (from, to) = first_bounds(ranges, sum);
    for bound in from..=to {
        tuple.push(bound);
        extend(rest, sum - bound, tuple, found);
        tuple.pop();
    }
}

/// How many tuples there are with this sum.
pub fn count_tuples(ranges: &[Range], sum: i64) -> u64 {
    let (from, to) = first_bounds(ranges, sum);
    let rest = &ranges[1..];
    if rest.len() <= 1 {
        return (to - from + 1).max(0) as u64;
    }
    (from..=to)
        .map(|bound| count_tuples(rest, sum - bound))
        .sum()
}

/// Each bound that tuples with this sum have at a place, and how many have it.
pub fn count_by_bound(ranges: &[Range], sum: i64, at: usize) -> Vec<(i64, u64)> {
    let mut others = ranges.to_vec();
    let range = others.remove(at);
    let (from, to) = first_bounds(&[&[range], others.as_slice()].concat(), sum);
    let tuples = |bound: i64| match others.as_slice() {
        [] => 1,
        others => count_tuples(others, sum - bound),
    };
    (from..=to).map(|bound| (bound, tuples(bound))).collect()
}

/// The first bounds that some bounds of the other ranges bring to the sum.
/// For a single range that is the sum itself, where the range has it.
fn first_bounds(ranges: &[Range], sum: i64) -> Range {
    let (low, high) = ranges[0];
    let rest_low: i64 = ranges[1..].iter().map(|range| range.0).sum();
    let rest_high: i64 = ranges[1..].iter().map(|range| range.1).sum();
    (low.max(sum - rest_high), high.min(sum - rest_low))
}

#[cfg(test)]
mod tests {
    use super::*;
    use std::collections::BTreeMap;

    /// All tuples of the ranges in rising order, whatever their sum.
    fn all(ranges: &[Range]) -> Vec<Vec<i64>> {
        let mut found = vec![vec![]];
        for &(low, high) in ranges {
            let longer = found.iter().flat_map(|tuple: &Vec<i64>| {
                (low..=high).map(|bound| [tuple.as_slice(), &[bound]].concat())
            });
            found = longer.collect();
        }
        found
    }

    #[test]
    fn tuples_are_those_with_the_sum() {
        let ranges = [(-3, 4), (0, 2), (-5, 1)];
        for terms in 1..=3 {
            for sum in -20..20 {
                let ranges = &ranges[..terms];
                let mut expected = all(ranges);
                expected.retain(|tuple| tuple.iter().sum::<i64>() == sum);
                assert_eq!(tuples(ranges, sum), expected);
                assert_eq!(count_tuples(ranges, sum), expected.len() as u64);
                for at in 0..terms {
                    assert_eq!(count_by_bound(ranges, sum, at), counted(&expected, at));
                }
            }
        }
    }

    /// Each bound at a place of the tuples, and how often it stands there.
    fn counted(tuples: &[Vec<i64>], at: usize) -> Vec<(i64, u64)> {
        let mut counts = BTreeMap::new();
        for tuple in tuples {
            *counts.entry(tuple[at]).or_default() += 1;
        }
        counts.into_iter().collect()
    }
}
