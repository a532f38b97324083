//! The random texts and replies: the good are read, the spoilt refused where they are spoilt.

use second::boards::dice::Dice;
use second::texts::clause_text::{self, drawn_clauses};
use second::texts::not_once::{self, not_once};
use second::texts::reply_text::{self, drawn_model, numbers_of, ORDERS};
use second::texts::{spoilt_reply, spoilt_text};
use second::{read_reply, read_text, Refusal, Reply, Sizes};

fn refused<T>(number: u8, detail: usize) -> Result<T, Refusal> {
    let detail = detail as u64;
    Err(Refusal { number, detail })
}

#[test]
fn good_texts_are_read() {
    for seed in 0..4_000 {
        let dice = &mut Dice::new(seed);
        let said = drawn_clauses(dice);
        let setting = seed as usize % clause_text::SETTINGS.len();
        let text = clause_text::set(dice, &said, setting).text();
        let mut list = vec![77; said.numbers.len()];
        let sizes = Sizes {
            variables: said.variables,
            clauses: said.clauses,
            numbers: said.numbers.len() as u64,
        };
        assert_eq!(read_text(&text, &mut list), Ok(sizes));
        assert_eq!(list, said.numbers);
    }
}

#[test]
fn spoilt_texts_are_refused_where_they_are_spoilt() {
    for (way, name) in spoilt_text::names().enumerate() {
        for seed in 0..300 {
            let (text, place) = spoilt_text::drawn(&mut Dice::new(seed), way);
            let answer = read_text(&text, &mut [0; 30]);
            let shown = text.escape_ascii();
            assert_eq!(answer, refused(18, place), "{name}: {shown}");
        }
    }
}

#[test]
fn good_replies_are_read() {
    for seed in 0..4_000 {
        let dice = &mut Dice::new(seed);
        let model = drawn_model(dice);
        let numbers = numbers_of(dice, &model, seed as usize % ORDERS.len());
        let setting = dice.below(reply_text::SETTINGS.len());
        let text = reply_text::set(dice, &numbers, setting).text();
        let mut read = vec![9; model.len()];
        let answer = read_reply(model.len() as u32, &text, &mut read);
        assert_eq!(answer, Ok(Reply::Model));
        assert_eq!(read, model);
    }
}

#[test]
fn spoilt_replies_are_refused_where_they_are_spoilt() {
    for (way, name) in spoilt_reply::names().enumerate() {
        for seed in 0..300 {
            let (variables, (text, place)) = spoilt_reply::drawn(&mut Dice::new(seed), way);
            let answer = read_reply(variables, &text, &mut [0; 12]);
            let shown = text.escape_ascii();
            assert_eq!(answer, refused(18, place), "{name}: {shown}");
        }
    }
}

#[test]
fn replies_without_each_variable_once() {
    for (way, name) in not_once::WAYS.iter().enumerate() {
        for seed in 0..500 {
            let dice = &mut Dice::new(seed);
            let model = [drawn_model(dice), vec![1]].concat();
            let spoilt = not_once(dice, way, &model);
            let text = reply_text::set(dice, &spoilt.numbers, 2).text();
            let answer = read_reply(spoilt.variables, &text, &mut [0; 5]);
            let shown = text.escape_ascii();
            let least = spoilt.least as usize;
            assert_eq!(answer, refused(19, least), "{name}: {shown}");
        }
    }
}
