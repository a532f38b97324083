//! The six comparison signs, each as comparisons of the one form that a record has: sum at most limit.

/// From "sum sign limit" to "factor * sum at most factor * limit + shift".
#[derive(Debug, Clone, Copy)]
pub struct Turn {
    pub factor: i64,
    pub shift: i64,
}

/// Each row has to hold, and a row holds where one of its turns does.
pub type Rows = &'static [&'static [Turn]];

const AT_MOST: Turn = turn(1, 0);
const AT_LEAST: Turn = turn(-1, 0);
const BELOW: Turn = turn(1, -1);
const ABOVE: Turn = turn(-1, -1);

/// A sign, what it turns into, and the sign that holds exactly where it does not.
struct Sign {
    sign: &'static str,
    rows: Rows,
    negated: &'static str,
}

const SIGNS: [Sign; 6] = [
    Sign { sign: "<=", rows: &[&[AT_MOST]], negated: ">" },
    Sign { sign: ">=", rows: &[&[AT_LEAST]], negated: "<" },
    Sign { sign: "<", rows: &[&[BELOW]], negated: ">=" },
    Sign { sign: ">", rows: &[&[ABOVE]], negated: "<=" },
    Sign { sign: "=", rows: &[&[AT_MOST], &[AT_LEAST]], negated: "!=" },
    Sign { sign: "!=", rows: &[&[BELOW, ABOVE]], negated: "=" },
];

const fn turn(factor: i64, shift: i64) -> Turn {
    Turn { factor, shift }
}

/// The comparison sign that a symbol is.
pub fn sign_of(symbol: &str) -> Option<&'static str> {
    SIGNS.iter().map(|row| row.sign).find(|sign| *sign == symbol)
}

/// What a comparison sign turns into.
pub fn rows_of(sign: &str) -> Rows {
    row(sign).rows
}

/// The sign that holds exactly where this one does not.
pub fn negated(sign: &str) -> &'static str {
    row(sign).negated
}

fn row(sign: &str) -> &'static Sign {
    SIGNS.iter().find(|row| row.sign == sign).expect("one of the six signs")
}

#[cfg(test)]
mod tests {
    use super::*;

    fn holds(sign: &str, left: i64, right: i64) -> bool {
        let turn_holds = |turn: &Turn| turn.factor * left <= turn.factor * right + turn.shift;
        rows_of(sign).iter().all(|row| row.iter().any(turn_holds))
    }

    type Meaning = fn(&i64, &i64) -> bool;

    #[test]
    fn a_sign_and_its_rows_say_the_same() {
        let meanings: [(&str, Meaning); 6] = [
            ("<=", i64::le),
            (">=", i64::ge),
            ("<", i64::lt),
            (">", i64::gt),
            ("=", i64::eq),
            ("!=", i64::ne),
        ];
        for (sign, meaning) in meanings {
            for sum in -4..=4 {
                for limit in -4..=4 {
                    let means = meaning(&sum, &limit);
                    assert_eq!(holds(sign, sum, limit), means, "{sum} {sign} {limit}");
                    assert_eq!(holds(negated(sign), sum, limit), !means, "{sum} {sign} {limit}");
                }
            }
        }
    }
}
