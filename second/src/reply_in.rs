//! Replies in: what a solver says of N variables, read into N model bytes.

use crate::refusal::{refusal, refuse_if, Refusal};
use crate::scanning::Scanner;
use std::collections::BTreeMap;

/// What a solver replies.
#[derive(Debug, Clone, Copy, PartialEq, Eq)]
pub enum Reply {
    Model,
    None,
}

/// Reads a reply for N variables; a model is written over the lent bytes, 1 for true and 0 for false.
pub fn read_reply(variables: u32, text: &[u8], model: &mut [u8]) -> Result<Reply, Refusal> {
    let Some(numbers) = read_numbers(variables, text)? else {
        return Ok(Reply::None);
    };
    if let Some(number) = least_not_once(variables, &numbers) {
        return Err(refusal(19, number as usize));
    }
    refuse_if(model.len() != variables as usize, 11, variables as usize)?;
    for number in numbers {
        model[number.unsigned_abs() as usize - 1] = u8::from(number > 0);
    }
    Ok(Reply::Model)
}

/// All numbers of a good reply but its 0, or none where there is no model.
fn read_numbers(variables: u32, text: &[u8]) -> Result<Option<Vec<i64>>, Refusal> {
    let mut scanner = Scanner::of(text);
    scanner.pass(b"s ")?;
    if scanner.next() == Some(b'U') {
        scanner.pass(b"UNSATISFIABLE\n")?;
        scanner.end()?;
        return Ok(None);
    }
    scanner.pass(b"SATISFIABLE\nv")?;
    let mut numbers = Vec::new();
    loop {
        scanner.pass(b" ")?;
        let number = scanner.number(u64::from(variables))?;
        if number == 0 {
            break;
        }
        numbers.push(number);
        if scanner.next() == Some(b'\n') {
            scanner.pass(b"\nv")?;
        }
    }
    scanner.pass(b"\n")?;
    scanner.end()?;
    Ok(Some(numbers))
}

/// The least variable that does not stand exactly once, with either sign.
fn least_not_once(variables: u32, numbers: &[i64]) -> Option<u32> {
    let mut times: BTreeMap<u64, usize> = BTreeMap::new();
    for number in numbers {
        *times.entry(number.unsigned_abs()).or_default() += 1;
    }
    let once = |variable: u32| times.get(&u64::from(variable)) == Some(&1);
    (1..=variables).find(|&variable| !once(variable))
}
