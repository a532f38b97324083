//! Boards for the tests: written as records by the builder, judged and imaged apart from the library.

use basmuthar::Builder;

#[derive(Debug, Clone)]
pub enum Literal {
    Boolean(u16),
    Negated(u16),
    AtMost(Vec<(i8, u16)>, i32),
}

#[derive(Debug, Clone)]
pub struct Board {
    pub bounds: Vec<(i16, i16)>,
    pub booleans: u16,
    pub clauses: Vec<Vec<Literal>>,
}

/// A value for each integer variable and a byte for each Boolean variable.
pub type Setting = (Vec<i32>, Vec<u8>);

/// The board with one clause, one comparison, and these bounds for all of its variables.
pub fn one_comparison(bounds: (i16, i16), coefficients: &[i8], constant: i32) -> Board {
    let terms: Vec<(i8, u16)> = coefficients.iter().copied().zip(0..).collect();
    Board {
        bounds: vec![bounds; coefficients.len()],
        booleans: 0,
        clauses: vec![vec![Literal::AtMost(terms, constant)]],
    }
}

impl Board {
    pub fn record(&self) -> Vec<u8> {
        let mut builder = Builder::new();
        for (lower, upper) in &self.bounds {
            builder.number(*lower, *upper);
        }
        for _ in 0..self.booleans {
            builder.choice();
        }
        for clause in &self.clauses {
            builder.rule(clause.iter().map(Literal::built));
        }
        builder.record()
    }

    /// All settings within the bounds.
    pub fn settings(&self) -> Vec<Setting> {
        let mut settings = vec![(Vec::new(), Vec::new())];
        for &(lower, upper) in &self.bounds {
            let values = |(values, booleans): &Setting| {
                let longer =
                    |value| ([&values[..], &[i32::from(value)]].concat(), booleans.clone());
                (lower..=upper).map(longer).collect::<Vec<_>>()
            };
            settings = settings.iter().flat_map(values).collect();
        }
        for _ in 0..self.booleans {
            let bytes = |(values, booleans): &Setting| {
                [0, 1].map(|byte| (values.clone(), [&booleans[..], &[byte]].concat()))
            };
            settings = settings.iter().flat_map(bytes).collect();
        }
        settings
    }

    pub fn is_solution(&self, setting: &Setting) -> bool {
        let holds = |clause: &Vec<Literal>| clause.iter().any(|literal| literal.holds(setting));
        self.clauses.iter().all(holds)
    }

    pub fn solutions(&self) -> Vec<Setting> {
        let mut settings = self.settings();
        settings.retain(|setting| self.is_solution(setting));
        settings
    }

    /// The model in which each variable is true exactly where what it stands for holds.
    pub fn plain_model(&self, setting: &Setting) -> Vec<u8> {
        let mut model = setting.1.clone();
        for (&(lower, upper), &value) in self.bounds.iter().zip(&setting.0) {
            let order = i32::from(lower) - 1..=i32::from(upper);
            model.extend(order.map(|c| u8::from(value <= c)));
        }
        for clause in self.clauses.iter().filter(|clause| clause.len() >= 2) {
            let comparisons =
                clause.iter().filter(|literal| matches!(literal, Literal::AtMost(..)));
            model.extend(comparisons.map(|literal| u8::from(literal.holds(setting))));
        }
        model
    }
}

impl Literal {
    fn built(&self) -> basmuthar::Literal {
        match self {
            Literal::Boolean(number) => basmuthar::Literal::yes(*number),
            Literal::Negated(number) => basmuthar::Literal::no(*number),
            Literal::AtMost(terms, limit) => basmuthar::Literal::at_most(terms.clone(), *limit),
        }
    }

    fn holds(&self, (values, booleans): &Setting) -> bool {
        match self {
            Literal::Boolean(number) => booleans[usize::from(*number) - 1] == 1,
            Literal::Negated(number) => booleans[usize::from(*number) - 1] == 0,
            Literal::AtMost(terms, constant) => {
                let product = |&(coefficient, variable): &(i8, u16)| {
                    i32::from(coefficient) * values[usize::from(variable)]
                };
                terms.iter().map(product).sum::<i32>() <= *constant
            }
        }
    }
}
