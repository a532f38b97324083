//! `board sheet` and `board place --sheet`: the keepers' page, its status, and the hashes that it names.

use crate::fake::{yes, Fake, NO};
use crate::run::{has, in_project, shell};
use std::fs;
use std::process::Output;

const WEEK: &str = "boards/pottery_week.board boards/pottery_week.values";

/// The page, what is said on standard error, and the status.
fn sheet(words: &str) -> (String, String, Option<i32>) {
    let mut command = in_project("board");
    let Output { status, stdout, stderr } =
        command.arg("sheet").args(words.split_whitespace()).output().unwrap();
    let [page, complaint] = [stdout, stderr].map(|bytes| String::from_utf8(bytes).unwrap());
    (page, complaint, status.code())
}

#[test]
fn a_sound_placement_is_0_and_a_page_of_its_own() {
    let (page, complaint, status) = sheet(WEEK);
    assert_eq!((complaint.as_str(), status), ("", Some(0)));
    assert!(page.starts_with("<!doctype html>") && page.ends_with("</html>\n"));
    for words in [
        "✔ This placement keeps every rule of the board",
        "747 rules and 31 numbers",
        "<bdi>The children&#39;s class</bdi>",
        "<b>done = Sun 11:00</b>",
    ] {
        assert!(page.contains(words), "{words}");
    }
    assert_eq!(page.matches("<section class=\"machine\">").count(), 2);
    assert_eq!(page.matches("<tr><td data-is=\"No.\">").count(), 30, "a row for each job");
    assert_eq!(sheet(WEEK).0, page);
}

#[test]
fn one_value_changed_is_marked_in_words_and_is_1() {
    let values = fs::read_to_string(
        in_project("board").get_current_dir().unwrap().join("boards/pottery_week.values"),
    );
    let fake = Fake::new("");
    let changed = values.unwrap().replace("urn = Tue 20:30", "urn = Tue 10:00");
    fs::write(fake.path("values"), changed).unwrap();
    let (page, complaint, status) =
        sheet(&format!("boards/pottery_week.board {}", fake.path("values")));
    assert_eq!(status, Some(1));
    assert!(complaint.contains("these values are no solution of the board.\n"), "{complaint}");
    for words in [
        "✗ Do not work by this placement",
        "3 of 747 rules are broken.",
        "Clash on <bdi>Large kiln, back room</bdi>, Tue 10:00 to Tue 14:30",
        "Line 8 is broken: <bdi>the night: nobody unloads</bdi>",
        "<li>urn + 14 h = Wed 00:00 is not &lt; Tue 21:00</li>",
        "✗ CLASH of 2 and 3, 10:00 to 14:30",
    ] {
        assert!(page.contains(words), "{words}");
    }
}

#[test]
fn record_and_values_are_named_as_sha256sum_names_them() {
    if !has("sha256sum") {
        return;
    }
    let page = sheet(WEEK).0;
    let record = shell("board record boards/pottery_week.board | sha256sum").0;
    let values =
        shell("sed 's/ *#.*//; /^$/d' boards/pottery_week.values | LC_ALL=C sort | sha256sum").0;
    for (name, sum) in [("bytes, SHA-256", record), ("Values, SHA-256", values)] {
        let hash = &sum[..64];
        assert!(page.contains(&format!("{name} <code>{hash}</code>")), "{name} {hash}");
        assert!(page.contains(&format!("{}…", &hash[..12])), "on the machines' pages too");
    }
}

#[test]
fn place_writes_the_page_that_sheet_writes() {
    let fake = Fake::new(&yes(3));
    let solver = fake.path("solver");
    let [board, page, values] = ["x.board", "page.html", "values"].map(|name| fake.path(name));
    let line = format!("board place --sheet {page} {board} -- sh {solver} >{values}");
    assert_eq!(shell(&line), (String::new(), Some(0)));
    let printed = fs::read_to_string(&values).unwrap();
    assert_eq!(printed, "# a solution, decoded and judged\nx = 3\nquiet = no\n");
    assert_eq!(fs::read_to_string(page).unwrap(), sheet(&format!("{board} {values}")).0);
}

#[test]
fn without_a_placement_there_is_no_page() {
    let fake = Fake::new(NO);
    let (solver, page, board) = (fake.path("solver"), fake.path("page.html"), fake.path("x.board"));
    let (words, status) = shell(&format!("board place --sheet {page} {board} -- sh {solver}"));
    assert!(words.starts_with("# none: there is no solution\n"), "{words}");
    assert_eq!((status, fs::exists(page).unwrap()), (Some(3), false));
}

#[test]
fn a_page_that_cannot_be_written_is_2_and_the_values_are_printed() {
    let fake = Fake::new(&yes(3));
    let (solver, board) = (fake.path("solver"), fake.path("x.board"));
    let page = fake.path("no/such/folder.html");
    let (words, status) = shell(&format!("board place --sheet {page} {board} -- sh {solver}"));
    assert!(
        words.starts_with("# a solution, decoded and judged\nx = 3\nquiet = no\nthe page "),
        "{words}"
    );
    assert!(words.contains("cannot be written: No such file"), "{words}");
    assert!(words.contains("`board sheet` makes the page of them"), "{words}");
    assert_eq!(status, Some(2));
}

#[test]
fn words_and_values_that_are_wrong_are_complained_about() {
    let (page, complaint, status) = sheet("boards/pottery_week.board urn=3");
    assert_eq!((page.as_str(), status), ("", Some(1)));
    assert!(complaint.starts_with("expected a value for tiles_1, "), "{complaint}");
    for line in
        ["board sheet", "board place --sheet page.html", "board place --sheet x.board -- cadical"]
    {
        let (words, status) = shell(line);
        assert!(words.contains("board sheet FILE.board VALUES"), "{words}");
        assert_eq!(status, Some(2), "{line}");
    }
}

#[test]
fn a_page_for_which_standard_output_has_no_room_is_2() {
    for (output, words) in [(">&-", "it is closed"), (">/dev/full", "No space left")] {
        let line = format!("board sheet {WEEK} 2>&1 {output}");
        let (complaint, status) = shell(&line);
        assert!(complaint.starts_with(&format!("standard output: {words}")), "{complaint}");
        assert_eq!(status, Some(2), "{output}");
    }
}
