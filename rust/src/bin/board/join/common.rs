//! The longest list of lines that two texts have in common, in their order.

/// For each line of one text the line of the other that it is, where they have it in common.
pub fn common(one: &[String], other: &[String]) -> Vec<Option<usize>> {
    let counts = counts(one, other);
    let (mut from, mut pairs) = (0, vec![None; one.len()]);
    for (index, line) in one.iter().enumerate() {
        let longest = counts[index][from];
        let is_last = |place: &usize| counts[index + 1][place + 1] + 1 == longest;
        let place = (from..other.len()).find(|place| other[*place] == *line);
        if let Some(place) = place.filter(|place| is_last(place)) {
            pairs[index] = Some(place);
            from = place + 1;
        }
    }
    pairs
}

/// How many lines the texts have in common from each pair of lines on.
fn counts(one: &[String], other: &[String]) -> Vec<Vec<u32>> {
    let mut rows = vec![vec![0; other.len() + 1]];
    for line in one.iter().rev() {
        let row = row(line, other, &rows[rows.len() - 1]);
        rows.push(row);
    }
    rows.reverse();
    rows
}

/// The counts from a line on, by those from the next line on.
fn row(line: &String, other: &[String], below: &[u32]) -> Vec<u32> {
    let mut row = vec![0; other.len() + 1];
    for place in (0..other.len()).rev() {
        row[place] = if other[place] == *line {
            below[place + 1] + 1
        } else {
            below[place].max(row[place + 1])
        };
    }
    row
}

#[cfg(test)]
mod tests {
    use super::*;

    fn pairs(one: &str, other: &str) -> Vec<Option<usize>> {
        let lines = |text: &str| text.split(' ').map(str::to_string).collect::<Vec<_>>();
        common(&lines(one), &lines(other))
    }

    #[test]
    fn as_many_lines_as_can_be_are_found_in_order() {
        assert_eq!(pairs("a b c", "a b c"), [Some(0), Some(1), Some(2)]);
        assert_eq!(pairs("a b c", "x a c"), [Some(1), None, Some(2)]);
        assert_eq!(pairs("- a - b", "- x - b"), [Some(0), None, Some(2), Some(3)]);
        assert_eq!(pairs("a b c d", "c d a b x"), [Some(2), Some(3), None, None]);
        assert_eq!(pairs("a b", "x y"), [None, None]);
        assert_eq!(pairs("a b", "b a b"), [Some(1), Some(2)]);
    }
}
