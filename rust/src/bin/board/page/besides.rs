//! Every number and choice that no picture shows.

use super::html::escaped;
use super::look::Look;
use crate::board::Number;
use crate::wording::{bounds_words, yes_or_no};

pub fn besides(look: &Look) -> String {
    let numbers = numbers(look);
    let choices = choices(look);
    let shown = look.setting.numbers.len() - numbers.len();
    let head = match (numbers.len() + choices.len(), shown) {
        (0, 0) => return "<p>This board has no numbers and no choices.</p>\n".to_string(),
        (0, _) => {
            return "<p>Every number and every choice of this board is in the pictures.</p>\n"
                .to_string()
        }
        (_, 0) => "Numbers: no picture shows them",
        _ => "Numbers that no picture shows",
    };
    let rows: String = numbers.into_iter().chain(choices).collect();
    format!("<h2>{head}</h2>\n<ul class=\"values\">\n{rows}</ul>\n")
}

fn numbers(look: &Look) -> Vec<String> {
    let nowhere = look.jobs_nowhere();
    let is_drawn = |number: u16| {
        let job = look.sheet.job_of(number);
        job.is_some_and(|job| !nowhere.iter().any(|other| other.number == job.number))
    };
    let numbers = (0_u16..).zip(&look.sheet.board.numbers).filter(|(number, _)| !is_drawn(*number));
    let row = |(number, declared): (u16, &Number)| {
        let value = look.setting.numbers[usize::from(number)];
        let value = look.sheet.value_words(number, value.into());
        let is_outside = look.checked.outside.contains(&number);
        let outside = if is_outside { "<b>✗ outside</b> " } else { "" };
        let bounds = bounds_words(look.sheet, number).replace(" .. ", " to ");
        let name = escaped(&declared.name);
        format!("<li><b>{name} = {value}</b> <span class=\"name\">{outside}{bounds}</span></li>\n")
    };
    numbers.map(row).collect()
}

/// Choices of a machine are in the pictures: the bar is on it.
fn choices(look: &Look) -> Vec<String> {
    let machines = look.sheet.jobs.iter().flat_map(|job| &job.machines);
    let of_machines: Vec<u16> = machines.filter_map(|on| on.choice).collect();
    let choices = (1_u16..).zip(look.sheet.board.choices.iter().zip(&look.setting.choices));
    let others = choices.filter(|(number, _)| !of_machines.contains(number));
    let row = |(_, (name, byte)): (u16, (&String, &u8))| {
        format!("<li><b>{} = {}</b></li>\n", escaped(name), yes_or_no(*byte))
    };
    others.map(row).collect()
}
