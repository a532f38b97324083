//! A placed board as one page for the keepers, which needs no script and no network: to be printed, or read on a phone.

mod bars;
mod besides;
mod broken;
mod calendar;
mod checked;
mod days;
mod first;
mod hashes;
mod html;
mod labels;
mod look;
mod machine;
mod phases;
mod picture;
mod table;
#[cfg(test)]
mod tests;
mod tightest;

use crate::board::Setting;
use crate::opened::Opened;
use basmuthar::Refusal;
use hashes::Hashes;
use html::escaped;
use look::Look;
pub use look::Verdict;
use machine::machine_page;

const STYLE: &str = include_str!("page/style.css");

/// Whatever stood in a text, a browser would run no script of this page and fetch nothing for it.
const POLICY: &str = "default-src 'none'; style-src 'unsafe-inline'";

/// The whole page, and what it says before all else.
pub struct Page {
    pub text: String,
    pub verdict: Verdict,
}

/// The page of a placement, with Judge's own answer to it.
pub fn page(opened: &Opened, setting: &Setting) -> Page {
    let judged = basmuthar::judge(&opened.record, &setting.numbers, &setting.choices);
    page_judged(opened, setting, judged)
}

fn page_judged(opened: &Opened, setting: &Setting, judged: Result<(), Refusal>) -> Page {
    let look = Look::new(opened, setting, judged);
    let hashes = Hashes::of(&look);
    let head = hashes.head();
    let machines = 0..look.bars.len();
    let machines: String = machines.map(|machine| machine_page(&look, machine, &head)).collect();
    let text = format!(
        "<!doctype html>\n<html lang=\"en\">\n<head>\n<meta charset=\"utf-8\">\n\
         <meta http-equiv=\"Content-Security-Policy\" content=\"{POLICY}\">\n\
         <meta name=\"viewport\" content=\"width=device-width, initial-scale=1\">\n<title>Placed board: {}</title>\n\
         <style>\n{STYLE}</style>\n</head>\n<body>\n{}{}{machines}</body>\n</html>\n",
        escaped(opened.short_name()),
        phases::SHAPES,
        first::first_page(&look, &hashes)
    );
    Page { text, verdict: look.verdict() }
}
