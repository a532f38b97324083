//! A machine's jobs in a table: the same hours as in the picture, the gap to the next job, and a box to tick.

use super::bars::{Bar, Clash};
use super::html::{escaped, kept_apart};
use super::look::Look;

const HEAD: &str = "<table class=\"jobs\">\n<thead><tr><th>No.</th><th>Job</th><th>Begins</th><th>Ends</th><th>Free again</th>\
    <th>Gap to the next</th><th>Seen</th></tr></thead>\n<tbody>\n";

pub fn table(look: &Look, machine: usize, clashes: &[Clash]) -> String {
    let bars = &look.bars[machine];
    let rows = bars.iter().enumerate().map(|(index, bar)| {
        let gap = gap_words(look, bar, bars.get(index + 1));
        row(look, bar, &look.faults_of(bar, clashes), &gap)
    });
    format!("{HEAD}{}</tbody></table>\n", rows.collect::<String>())
}

fn row(look: &Look, bar: &Bar, faults: &[String], gap: &str) -> String {
    let class = if faults.is_empty() { "" } else { " class=\"faulty\"" };
    let name = match &bar.job.title {
        Some(title) => {
            format!("{} <span class=\"name\">{}</span>", kept_apart(title), escaped(&bar.job.name))
        }
        None => escaped(&bar.job.name),
    };
    let faults: String =
        faults.iter().map(|fault| format!("<div class=\"fault\">✗ {fault}</div>")).collect();
    let [begin, work_end, end] =
        [bar.begin, bar.work_end(), bar.end()].map(|value| look.time(value));
    format!(
        "<tr{class}><td data-is=\"No.\">{}</td><td data-is=\"Job\">{name}{faults}</td>\
         <td data-is=\"Begins\"><b>{begin}</b></td><td data-is=\"Ends\">{work_end}</td>\
         <td data-is=\"Free again\">{end}</td><td data-is=\"Gap to the next\">{gap}</td>\
         <td data-is=\"Seen\"><span class=\"box\"></span></td></tr>\n",
        bar.number
    )
}

fn gap_words(look: &Look, bar: &Bar, next: Option<&Bar>) -> String {
    let Some(next) = next else {
        return "the last one".to_string();
    };
    match next.begin - bar.end() {
        0 => format!("none: no. {} at once", next.number),
        gap if gap > 0 => format!("{} to no. {}", look.duration(gap), next.number),
        gap => format!("<b>✗ no. {} begins {} too early</b>", next.number, look.duration(-gap)),
    }
}
