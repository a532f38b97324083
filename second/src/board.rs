//! The board: bounded integer variables, Booleans and clauses, and when a clause holds.

/// The bounds of an integer variable.
#[derive(Debug, Clone, Copy, PartialEq, Eq)]
pub struct Bounds {
    pub lower: i64,
    pub upper: i64,
}

/// A coefficient times a variable, which is counted from 0.
#[derive(Debug, Clone, Copy, PartialEq, Eq)]
pub struct Term {
    pub coefficient: i64,
    pub variable: usize,
}

/// Says that the sum of the terms is at most the constant.
#[derive(Debug, Clone, PartialEq, Eq)]
pub struct Comparison {
    pub terms: Vec<Term>,
    pub constant: i64,
}

/// A Boolean or a negated Boolean by its number from 1, or a comparison.
#[derive(Debug, Clone, PartialEq, Eq)]
pub enum Literal {
    Boolean(usize),
    Negated(usize),
    Comparison(Comparison),
}

#[derive(Debug, Clone, PartialEq, Eq)]
pub struct Clause {
    pub literals: Vec<Literal>,
}

#[derive(Debug, Clone, PartialEq, Eq)]
pub struct Board {
    pub variables: Vec<Bounds>,
    pub booleans: usize,
    pub clauses: Vec<Clause>,
}

impl Clause {
    /// The comparisons among the literals, in order.
    pub fn comparisons(&self) -> impl Iterator<Item = &Comparison> {
        self.literals.iter().filter_map(|literal| match literal {
            Literal::Comparison(comparison) => Some(comparison),
            _ => None,
        })
    }

    /// A clause of two or more literals has a selector for each comparison.
    pub fn has_selectors(&self) -> bool {
        self.literals.len() >= 2
    }

    /// Whether some literal holds at these values and Boolean bytes.
    pub fn holds(&self, values: &[i32], booleans: &[u8]) -> bool {
        self.literals.iter().any(|literal| match literal {
            Literal::Boolean(number) => booleans[number - 1] == 1,
            Literal::Negated(number) => booleans[number - 1] == 0,
            Literal::Comparison(comparison) => comparison.holds(values),
        })
    }
}

impl Comparison {
    /// Whether the sum at these values is at most the constant.
    pub fn holds(&self, values: &[i32]) -> bool {
        let sum: i64 = self
            .terms
            .iter()
            .map(|term| term.coefficient * i64::from(values[term.variable]))
            .sum();
        sum <= self.constant
    }
}

impl Board {
    /// The least value of a term within the bounds of its variable.
    pub fn least(&self, term: &Term) -> i64 {
        let bounds = self.variables[term.variable];
        (term.coefficient * bounds.lower).min(term.coefficient * bounds.upper)
    }

    /// The greatest value of a term within the bounds of its variable.
    pub fn greatest(&self, term: &Term) -> i64 {
        let bounds = self.variables[term.variable];
        (term.coefficient * bounds.lower).max(term.coefficient * bounds.upper)
    }

    /// L: the least value of the sum within bounds.
    pub fn least_sum(&self, comparison: &Comparison) -> i64 {
        comparison.terms.iter().map(|term| self.least(term)).sum()
    }

    /// U: the greatest value of the sum within bounds.
    pub fn greatest_sum(&self, comparison: &Comparison) -> i64 {
        let terms = comparison.terms.iter();
        terms.map(|term| self.greatest(term)).sum()
    }
}
