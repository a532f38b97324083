//! The table of texts in docs/RECORD.md: each text and reply gets the refusal that stands beside it.

use basmuthar::{read_reply, read_text, Refusal};
use std::fs;
use std::path::Path;

/// How many SAT variables the page's replies speak of.
const VARIABLES: u32 = 3;

/// The rows of the table, each a text and the refusal's number and detail.
fn rows(page: &str) -> Vec<(String, String)> {
    let section = page.split("\n## Text, and a solver's reply\n").nth(1).unwrap();
    let section = section.split("\n## ").next().unwrap();
    let lines = section.lines().filter(|line| line.starts_with("| `"));
    let cells = lines.map(|line| line.split(" | ").collect::<Vec<_>>());
    let text = |cell: &str| cell.trim_matches(['|', ' ', '`']).replace('⏎', "\n");
    cells.map(|cells| (text(cells[0]), cells[1].to_string())).collect()
}

fn refusal_of(text: &str) -> Refusal {
    if text.starts_with('p') {
        read_text(text.as_bytes(), &mut []).unwrap_err()
    } else {
        read_reply(VARIABLES, text.as_bytes(), &mut []).unwrap_err()
    }
}

#[test]
fn every_text_of_the_page_gets_its_refusal() {
    let file = Path::new(env!("CARGO_MANIFEST_DIR")).join("../docs/RECORD.md");
    let rows = rows(&fs::read_to_string(file).unwrap());
    assert!(rows.len() >= 8, "only {} rows", rows.len());
    for (text, told) in rows {
        let Refusal { number, detail } = refusal_of(&text);
        assert_eq!(format!("{number} {detail}"), told, "{text:?}");
    }
}
