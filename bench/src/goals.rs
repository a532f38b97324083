//! What the library is meant to reach, beside what was measured.

use crate::boards::Kind;
use crate::measures::Measured;
use crate::programs::Operation;

struct Goal {
    words: &'static str,
    limit: Limit,
    found: Found,
}

/// A value for each board that a goal speaks of and that was measured.
type Found = Vec<(&'static str, f64)>;

#[derive(Clone, Copy)]
enum Limit {
    AtMost(f64),
    AtLeast(f64),
    /// The values are only told.
    Nothing,
}

const OTHERS: &[Kind] = &[Kind::Small, Kind::Worst, Kind::Huge];

/// A line for each goal; the other programs are named in the order of their times.
pub fn goals(all: &[Measured], others: &[&str]) -> String {
    let place = |name| others.iter().position(|&other| other == name);
    let (strong, earlier) = (place("strong"), place("earlier"));
    let compile =
        |kinds: &[Kind]| over(all, Operation::Compile, strong, |kind| kinds.contains(&kind));
    let decode =
        |kinds: &[Kind]| over(all, Operation::Decode, earlier, |kind| kinds.contains(&kind));
    let write =
        |kinds: &[Kind]| over(all, Operation::WriteText, strong, |kind| kinds.contains(&kind));
    let (most, least) = (Limit::AtMost, Limit::AtLeast);
    let goals = [
        goal("Compile over strong, wide boards", most(2.5), compile(&[Kind::Wide])),
        goal("Compile over strong, Boolean and small boards", most(6.0), compile(&[Kind::Small])),
        goal(
            "Compile over strong, worst records",
            Limit::Nothing,
            compile(&[Kind::Worst, Kind::Huge]),
        ),
        goal("fill over Compile in %, lists of 1 to 8 MB", least(33.0), shares(all, None)),
        goal("the same of strong", Limit::Nothing, shares(all, strong)),
        goal("instructions for each number, wide boards", most(6.0), values(all, instructions)),
        goal("Compile on 1,024 variables over that on 16", most(1.5), many_over_few(all)),
        goal("Decode over earlier, wide boards", most(0.333), decode(&[Kind::Wide])),
        goal("Decode over earlier, others", Limit::Nothing, decode(OTHERS)),
        goal("WriteText over strong, wide boards", most(3.0), write(&[Kind::Wide])),
        goal("WriteText over strong, Boolean and small boards", most(3.0), write(&[Kind::Small])),
        goal("WriteText over strong, worst records", Limit::Nothing, write(&[Kind::Worst])),
        goal("ReadText over minisat's parser", most(1.0), over_solver(all, "minisat")),
        goal("ReadText over cadical's parser", most(1.0), over_solver(all, "cadical")),
    ];
    goals.iter().map(Goal::line).collect()
}

fn goal(words: &'static str, limit: Limit, found: Found) -> Goal {
    Goal { words, limit, found }
}

/// The library's time over another program's, on boards of some kinds.
fn over(
    all: &[Measured],
    operation: Operation,
    other: Option<usize>,
    is_meant: impl Fn(Kind) -> bool,
) -> Found {
    values(all, |measured| {
        let line = measured.line(operation)?;
        let other = line.others[other?]?;
        is_meant(measured.board.kind).then_some(line.library / other)
    })
}

/// ReadText's time over what a solver's own parser took on the same text.
fn over_solver(all: &[Measured], solver: &str) -> Found {
    values(all, |measured| {
        let found = measured.solvers.iter().find(|(name, _)| *name == solver)?;
        Some(measured.line(Operation::ReadText)?.library / found.1)
    })
}

/// The values of the boards that have one.
fn values(all: &[Measured], value: impl Fn(&Measured) -> Option<f64>) -> Found {
    all.iter().filter_map(|measured| Some((measured.board.name, value(measured)?))).collect()
}

/// A fill's time over that of Compile, of the library or of another program.
fn shares(all: &[Measured], other: Option<usize>) -> Found {
    values(all, |measured| {
        let line = measured.line(Operation::Compile)?;
        let seconds = other.map_or(Some(line.library), |other| line.others[other])?;
        let is_meant = (1_000_000..=8_000_000).contains(&(4 * measured.numbers()));
        is_meant.then_some(100.0 * line.fill? / seconds)
    })
}

fn instructions(measured: &Measured) -> Option<f64> {
    let counted = measured.line(Operation::Compile)?.instructions? as f64;
    (measured.board.kind == Kind::Wide).then_some(counted / measured.numbers() as f64)
}

fn many_over_few(all: &[Measured]) -> Found {
    let seconds = |name| {
        let found = all.iter().find(|measured| measured.board.name == name)?;
        Some(found.line(Operation::Compile)?.library)
    };
    let (many, few) = (seconds("over1024"), seconds("over16"));
    many.zip(few).map(|(many, few)| ("over1024", many / few)).into_iter().collect()
}

impl Goal {
    fn line(&self) -> String {
        let limit = match self.limit {
            Limit::AtMost(limit) => format!(", at most {limit:.2}"),
            Limit::AtLeast(limit) => format!(", at least {limit:.2}"),
            Limit::Nothing => String::new(),
        };
        let verdict = match (self.limit, self.is_reached()) {
            _ if self.found.is_empty() => ": not measured",
            (Limit::Nothing, _) => "",
            (_, true) => ": reached",
            (_, false) => ": not reached",
        };
        let mut line = format!("{}{limit}{verdict}\n", self.words);
        let found = self.found.iter().map(|(name, value)| format!("{name} {value:.2}"));
        let found: Vec<String> = found.collect();
        if !found.is_empty() {
            line.push_str(&format!("    {}\n", found.join(", ")));
        }
        line
    }

    fn is_reached(&self) -> bool {
        self.found.iter().all(|&(_, value)| match self.limit {
            Limit::AtMost(limit) => value <= limit,
            Limit::AtLeast(limit) => value >= limit,
            Limit::Nothing => true,
        })
    }
}

#[cfg(test)]
mod tests {
    use super::*;

    #[test]
    fn a_goal_is_reached_by_every_board_or_not_at_all() {
        let line = |limit, values: &[f64]| {
            let found = values.iter().map(|&value| ("week", value)).collect();
            goal("Compile", limit, found).line()
        };
        let most = Limit::AtMost(2.5);
        assert_eq!(line(most, &[]), "Compile, at most 2.50: not measured\n");
        assert_eq!(line(most, &[2.5]), "Compile, at most 2.50: reached\n    week 2.50\n");
        assert!(line(most, &[2.0, 2.6]).contains("not reached"));
        assert!(line(Limit::AtLeast(33.0), &[32.0, 50.0]).contains("not reached"));
        assert_eq!(line(Limit::Nothing, &[9.0]), "Compile\n    week 9.00\n");
    }
}
