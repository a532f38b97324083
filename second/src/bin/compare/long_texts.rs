//! The longest texts, once in a run: a length beyond 32 bits, and replies of many variables.

use crate::both::{Both, Compared};
use crate::reply_tries::{good, spoil_count};
use crate::tally::{Operation, Tally};
use crate::tries::random_bits;
use second::board::{Board, Bounds, Clause, Comparison, Literal, Term};
use second::boards::dice::Dice;
use second::boards::writing::written;
use second::reading::{GREATEST_BOUND, LEAST_BOUND};
use second::texts::not_once;

/// How many variables the replies have.
const VARIABLES: usize = 70_001;

pub fn all(tally: &mut Tally, dice: &mut Dice) -> Compared<()> {
    let record = written(&long_board()).record;
    let mut both = Both::new(&record, tally);
    let after = both.write_text(8)?;
    let [number, wanted, ..] = after.answer;
    if number != 10 || wanted <= u64::from(u32::MAX) {
        let what = format!("the length is not beyond 32 bits: {after:?}");
        return Err(both.differs(Operation::WriteText, what));
    }
    let model = random_bits(dice, VARIABLES);
    for way in 0..not_once::WAYS.len() {
        spoil_count(&mut both, dice, &model, way)?;
    }
    good(&mut both, dice, &model)
}

/// Many wide variables, and a comparison of the last three: numbers of six digits, so that the length
/// passes 32 bits at a third of the greatest K.
fn long_board() -> Board {
    let bounds = Bounds {
        lower: LEAST_BOUND,
        upper: GREATEST_BOUND,
    };
    let terms = (97..100).map(|variable| Term {
        coefficient: -2,
        variable,
    });
    let comparison = Comparison {
        terms: terms.collect(),
        constant: 5_600,
    };
    let literals = vec![Literal::Comparison(comparison)];
    Board {
        variables: vec![bounds; 100],
        booleans: 0,
        clauses: vec![Clause { literals }],
    }
}
