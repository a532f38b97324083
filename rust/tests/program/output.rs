//! Standard output that is closed, full or not to be written to; and what `board` says of itself.

use crate::run::shell;

const COMMANDS: [&str; 7] = [
    "cnf boards/unequal_starts.board",
    "record boards/unequal_starts.board",
    "text boards/unequal_starts.record",
    "show boards/unequal_starts.board x=0 y=1",
    "place boards/unequal_starts.board -- sh -c 'echo s UNSATISFIABLE'",
    "join boards/one_hour.board boards/one_hour.board boards/one_hour.board",
    "--help",
];

#[test]
fn what_cannot_be_written_is_said_with_status_2() {
    let rows = [
        (">&-", "standard output: it is closed.\n"),
        (">/dev/full", "standard output: No space left"),
        ("1</dev/null", "standard output: Bad file descriptor"),
    ];
    for command in COMMANDS {
        for (output, words) in rows {
            let (complaint, status) = shell(&format!("board {command} 2>&1 {output}"));
            assert_eq!(status, Some(2), "{command} {output}");
            // Standard error is joined before output is closed, so the complaint is seen.
            assert!(complaint.starts_with(words), "{command} {output}: {complaint}");
        }
    }
}

#[test]
fn a_reader_that_has_seen_enough_is_no_trouble() {
    let line = "{ board cnf boards/wide_hours.board; echo ended with $? >&2; } | head -n 1";
    let (words, _) = shell(line);
    // `head` may close its input before it prints, so either line may come first.
    let mut lines: Vec<&str> = words.lines().collect();
    lines.sort();
    assert!(lines[0] == "ended with 0" && lines[1].starts_with("p cnf "), "{words}");
    assert_eq!(lines.len(), 2, "{words}");
}

#[test]
fn output_that_goes_nowhere_is_no_trouble() {
    assert_eq!(shell("board cnf boards/wide_hours.board >/dev/null"), (String::new(), Some(0)));
}

#[test]
fn an_error_that_cannot_be_said_keeps_its_status() {
    for output in ["2>&-", "2>/dev/full"] {
        assert_eq!(shell(&format!("board cnf no-such-file {output}")).1, Some(1), "{output}");
    }
}

#[test]
fn help_and_version_go_to_standard_output() {
    for word in ["--help", "-h", "help"] {
        let (words, status) = shell(&format!("board {word} 2>/dev/null"));
        assert!(words.starts_with("board record FILE.board"), "{words}");
        assert_eq!(status, Some(0));
    }
    let version = format!("board {}\n", env!("CARGO_PKG_VERSION"));
    assert_eq!(shell("board --version 2>/dev/null"), (version, Some(0)));
}
