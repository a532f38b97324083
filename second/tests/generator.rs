//! The random records: the sound are accepted, the damaged refused where they are damaged.

use second::boards::damage::{bad_values, damaged, FIELDS};
use second::boards::dice::Dice;
use second::boards::sound::{common, sound};
use second::boards::writing::{state_length, written};
use second::boards::{ceiling, drawn};
use second::clauses::clause_list;
use second::reading::read;
use second::{size, Refusal};
use std::collections::BTreeSet;

fn refused<T>(number: u8, detail: usize) -> Result<T, Refusal> {
    let detail = detail as u64;
    Err(Refusal { number, detail })
}

#[test]
fn sizes_are_those_of_the_list() {
    for seed in 0..2_000 {
        let drawn = sound(&mut Dice::new(seed));
        let sizes = size(&drawn.record).unwrap_or_else(|no| panic!("{}: {no:?}", drawn.way));
        let list = clause_list(&read(&drawn.record).unwrap());
        let numbers: usize = list.iter().map(|clause| clause.len() + 1).sum();
        assert_eq!(sizes.clauses, list.len() as u64);
        assert_eq!(sizes.numbers, numbers as u64);
        let variables = list.iter().flatten().map(|number| number.unsigned_abs());
        assert!(u64::from(variables.max().unwrap_or(0)) <= sizes.variables);
    }
}

#[test]
fn records_are_read_as_they_were_written() {
    for seed in 0..1_000 {
        let board = common(&mut Dice::new(seed));
        assert_eq!(read(&written(&board).record), Ok(board));
    }
}

#[test]
fn every_bad_value_is_refused_at_its_field() {
    let mut met = BTreeSet::new();
    for seed in 0..100 {
        let board = common(&mut Dice::new(seed));
        let sound = written(&board);
        for &mark in &sound.marks {
            let (number, values) = bad_values(&board, mark.field);
            for value in values {
                let mut bad = sound.clone();
                bad.overwrite(mark, value);
                assert_eq!(size(&bad.record), refused(number, mark.place));
            }
            met.insert(mark.field);
        }
    }
    assert_eq!(met.len(), FIELDS.len());
}

#[test]
fn every_cut_is_refused_at_the_field_it_meets() {
    for seed in 0..100 {
        let sound = written(&common(&mut Dice::new(seed)));
        for mark in &sound.marks {
            for left in 0..mark.width {
                let mut cut = sound.record[..mark.place + left].to_vec();
                state_length(&mut cut);
                assert_eq!(size(&cut), refused(8, mark.place));
            }
        }
    }
}

#[test]
fn records_around_the_ceiling() {
    let mut ways = BTreeSet::new();
    for seed in 0..12 {
        let drawn = ceiling::around(&mut Dice::new(seed));
        match drawn.way.as_str() {
            "K at the ceiling" => {
                assert_eq!(size(&drawn.record).unwrap().numbers, 2_000_000_000);
            }
            _ => assert_eq!(size(&drawn.record), refused(9, 0)),
        }
        ways.insert(drawn.way);
    }
    assert_eq!(ways.len(), 3);
}

#[test]
fn damage_meets_refusals_1_to_8() {
    let mut met = BTreeSet::new();
    for seed in 0..3_000 {
        if let Err(refusal) = size(&damaged(&mut Dice::new(seed)).record) {
            met.insert(refusal.number);
        }
    }
    assert!(met.is_superset(&BTreeSet::from([1, 2, 3, 4, 5, 6, 7, 8])));
}

#[test]
fn a_seed_gives_the_same_record_each_time() {
    for seed in 0..100 {
        assert_eq!(drawn(seed).record, drawn(seed).record);
    }
}
