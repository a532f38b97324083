//! The examples of docs/BOARDS.md: each line after `$` prints what stands below it there.

use crate::run::{has, shell};
use std::fs;
use std::path::Path;

/// A line of shell and what it prints.
struct Example {
    line: String,
    printed: String,
}

/// The examples in the blocks of a document that are marked `console`.
fn examples(document: &str) -> Vec<Example> {
    let mut examples: Vec<Example> = Vec::new();
    let mut is_inside = false;
    for line in document.lines() {
        if line.starts_with("```") {
            is_inside = line == "```console";
        } else if !is_inside {
            continue;
        } else if let Some(command) = line.strip_prefix("$ ") {
            examples.push(Example { line: command.to_string(), printed: String::new() });
        } else if let Some(example) = examples.last_mut() {
            example.printed += &format!("{line}\n");
        }
    }
    examples
}

#[test]
fn examples_print_what_the_document_says() {
    let file = Path::new(env!("CARGO_MANIFEST_DIR")).join("../docs/BOARDS.md");
    let examples = examples(&fs::read_to_string(file).unwrap());
    assert!(examples.len() >= 5);
    let missing: Vec<&str> =
        ["cadical", "minisat"].into_iter().filter(|solver| !has(solver)).collect();
    for Example { line, printed } in examples {
        if !missing.iter().any(|solver| line.contains(solver)) {
            assert_eq!(shell(&line).0, printed, "{line}");
        }
    }
}
