//! Real solvers' replies as they were printed, each with what `board model` makes of it beside it.

use crate::run::shell;
use std::fs;
use std::path::{Path, PathBuf};

/// The replies of tests/replies: BOARD.SOLVER.reply.
fn replies() -> Vec<PathBuf> {
    let folder = Path::new(env!("CARGO_MANIFEST_DIR")).join("tests/replies");
    let files = fs::read_dir(folder).unwrap().map(|entry| entry.unwrap().path());
    files.filter(|file| file.extension().is_some_and(|ending| ending == "reply")).collect()
}

#[test]
fn every_reply_is_read_to_the_values_beside_it() {
    let replies = replies();
    for reply in &replies {
        let name = reply.file_name().unwrap().to_str().unwrap();
        let board = name.split('.').next().unwrap();
        let values = fs::read_to_string(reply.with_extension("values")).unwrap();
        let line = format!("board model boards/{board}.board <rust/tests/replies/{name}");
        let (printed, status) = shell(&format!("{line} 2>/dev/null"));
        let is_none = values == "# none: there is no solution\n";
        assert_eq!((printed, status), (values, Some(if is_none { 3 } else { 0 })), "{name}");
    }
    for solver in ["cadical", "minisat", "picosat"] {
        let is_there = replies.iter().any(|reply| reply.to_str().unwrap().contains(solver));
        assert!(is_there, "no reply of {solver}");
    }
}
