//! Tests of the page: its verdicts, its words, and that nothing in a board's text is more than text.

mod agreement;
mod mischief;
mod tightest;
mod verdicts;
mod weeks;

use super::{page, Page};
use crate::board::Setting;
use crate::opened::Opened;
use crate::sheet::read_sheet;
use crate::values::read_setting;

/// The accident: a start at three for two hours beside one at four.
const ACCIDENT: &str = "week from Saturday 12:00 step 1 h\nmachine kiln \"The shared kiln\"\n\
    job ana \"Ana's mugs\" on kiln takes 2 h : Sat 12:00 .. Sat 18:00\n\
    job ben \"Ben's bowls\" on kiln takes 2 h : Sat 12:00 .. Sat 18:00 # four is the last start\n";

/// A text as if it were a file's.
fn opened(text: &str) -> Opened {
    Opened::of("folder/the.board", text.to_string(), read_sheet(text).unwrap()).unwrap()
}

fn setting_of(opened: &Opened, values: &str) -> Setting {
    let values: &[&str] = if values.is_empty() { &[] } else { &[values] };
    read_setting(values, &opened.sheet).unwrap()
}

fn page_of(text: &str, values: &str) -> Page {
    let opened = opened(text);
    let setting = setting_of(&opened, values);
    page(&opened, &setting)
}

/// The page has all of these words.
fn has(page: &Page, words: &[&str]) {
    for words in words {
        assert!(page.text.contains(words), "{words} is not in {}", page.text);
    }
}

fn has_not(page: &Page, words: &[&str]) {
    for words in words {
        assert!(!page.text.contains(words), "{words} is in {}", page.text);
    }
}
