//! The replies that are tried for one record: good, spoilt, and with variables that do not stand once.

use crate::both::{After, Both, Compared};
use crate::first_texts::{MODEL, NO_MODEL};
use crate::tally::Operation;
use crate::text_outcomes::{Became, NONE};
use crate::tries::{near, random_bits};
use second::boards::dice::Dice;
use second::texts::noise::damaged;
use second::texts::not_once::{self, not_once};
use second::texts::reply_text::{self, drawn_model, numbers_of, set, ORDERS, SETTINGS};
use second::texts::spoilt_reply;

/// A model of more bytes is not replied; another one is.
const FEW_VARIABLES: usize = 60;

/// How many times a reply is spoilt.
const SPOILT: usize = 4;

/// How many times it is damaged at any bytes.
const DAMAGED: usize = 4;

/// All tries on replies, around a model of the record's list if one is known.
pub fn all(both: &mut Both, dice: &mut Dice, model: Option<Vec<u8>>) -> Compared<()> {
    let known = model.filter(|model| model.len() <= FEW_VARIABLES);
    let large = dice.one_in(50);
    let model = match known {
        Some(model) if !large => model,
        _ if large => large_model(dice),
        _ => drawn_model(dice),
    };
    good(both, dice, &model)?;
    none(both, dice, model.len())?;
    let spoilt = if large { 1 } else { SPOILT };
    for _ in 0..spoilt {
        spoil(both, dice, &model)?;
    }
    if !model.is_empty() {
        let way = dice.below(not_once::WAYS.len());
        spoil_count(both, dice, &model, way)?;
    }
    Ok(())
}

/// A model of around a power of two bytes, now and then of many.
fn large_model(dice: &mut Dice) -> Vec<u8> {
    let most = if dice.one_in(20) { 13 } else { 10 };
    let variables = (1 << dice.between(5, most)) + dice.between(-1, 1);
    random_bits(dice, variables as usize)
}

/// The model in any order and in any lines, into bytes of this and of other lengths.
pub fn good(both: &mut Both, dice: &mut Dice, model: &[u8]) -> Compared<()> {
    let (order, setting) = (dice.below(ORDERS.len()), dice.below(SETTINGS.len()));
    let numbers = numbers_of(dice, model, order);
    let text = set(dice, &numbers, setting).text();
    let variables = model.len() as u32;
    let after = both.read_reply(variables, &text, model.len())?;
    let expected = After {
        answer: MODEL,
        numbers: Vec::new(),
        bytes: model.to_vec(),
    };
    if after != expected {
        let what = format!("{}: {after:?}, said {model:?}", text.escape_ascii());
        return Err(both.differs(Operation::ReadReply, what));
    }
    both.tally.texts.met(Became::ReplyRead, ORDERS[order]);
    both.tally.texts.met(Became::ReplyRead, SETTINGS[setting]);
    both.read_reply(variables, &text, near(dice, model.len()))?;
    both.read_reply(variables, &text, model.len() + 1)?;
    both.read_reply(variables.saturating_sub(1), &text, model.len())?;
    both.read_reply(variables + 1, &text, near(dice, model.len()))?;
    for _ in 0..DAMAGED {
        let damaged = damaged(dice, &text);
        both.read_reply(variables, &damaged, near(dice, model.len()))?;
    }
    Ok(())
}

/// 'None' for any N and any lent model.
fn none(both: &mut Both, dice: &mut Dice, variables: usize) -> Compared<()> {
    let text = reply_text::NO_MODEL.as_bytes();
    let other = dice.roll() as u32;
    let given = dice.pick(&[variables as u32, 0, u32::MAX, other]);
    let after = both.read_reply(given, text, near(dice, variables))?;
    if after.answer != NO_MODEL {
        let what = format!("{given} variables, none: {after:?}");
        return Err(both.differs(Operation::ReadReply, what));
    }
    both.tally.texts.met(Became::ReplyRead, NONE);
    Ok(())
}

/// A reply spoilt in any way, which has to be refused where it is spoilt.
fn spoil(both: &mut Both, dice: &mut Dice, model: &[u8]) -> Compared<()> {
    let names: Vec<&str> = spoilt_reply::names().collect();
    let way = dice.below(names.len());
    let (order, setting) = (dice.below(ORDERS.len()), dice.below(SETTINGS.len()));
    let numbers = numbers_of(dice, model, order);
    let text = set(dice, &numbers, setting);
    let variables = model.len() as u32;
    let (variables, (text, place)) = match spoilt_reply::spoilt(dice, way, variables.into(), &text)
    {
        Some(spoilt) => (variables, spoilt),
        None => spoilt_reply::drawn(dice, way),
    };
    let after = both.read_reply(variables, &text, near(dice, variables as usize))?;
    refused_with(both, &after, names[way], [18, place as u64, 0, 0])?;
    both.tally.texts.met(Became::ReplyRefused, names[way]);
    Ok(())
}

/// A good reply in which a variable does not stand once.
pub fn spoil_count(both: &mut Both, dice: &mut Dice, model: &[u8], way: usize) -> Compared<()> {
    let spoilt = not_once(dice, way, model);
    let setting = dice.below(SETTINGS.len());
    let text = set(dice, &spoilt.numbers, setting).text();
    let after = both.read_reply(spoilt.variables, &text, near(dice, model.len()))?;
    let name = not_once::WAYS[way];
    refused_with(both, &after, name, [19, u64::from(spoilt.least), 0, 0])?;
    both.tally.texts.met(Became::NotOnce, name);
    Ok(())
}

fn refused_with(both: &Both, after: &After, name: &str, expected: [u64; 4]) -> Compared<()> {
    if after.answer == expected {
        return Ok(());
    }
    let what = format!("{name}: {:?}, not {expected:?}", after.answer);
    Err(both.differs(Operation::ReadReply, what))
}
