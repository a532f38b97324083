//! A board that is too large for a record: where it is said, and in which words.

use crate::blame;
use crate::complaint::Complaint;
use crate::limits::{FEWER_NUMBERS, FEWER_RULES, LONGER_STEP};
use crate::sheet::read_sheet;

/// What is complained about in a text, if anything.
fn complaint(text: &str) -> Option<Complaint> {
    let sheet = match read_sheet(text) {
        Ok(sheet) => sheet,
        Err(complaint) => return Some(complaint),
    };
    let builder = sheet.board.builder();
    let refusal = basmuthar::size(&builder.record()).err()?;
    Some(blame::of_record(&sheet, &builder, refusal).unwrap())
}

fn jobs_on_kiln_a(count: usize) -> String {
    let jobs = (1..=count).map(|job| format!("job j{job} on kiln_a takes 2 : 0 .. 300\n"));
    format!("machine kiln_a\n{}", jobs.collect::<String>())
}

#[test]
fn the_job_at_which_the_record_is_full_is_named() {
    assert_eq!(complaint(&jobs_on_kiln_a(72)), None);
    for count in [73, 90, 200, 400] {
        let complaint = complaint(&jobs_on_kiln_a(count)).unwrap();
        let words = &complaint.words;
        assert!(words.starts_with("the record is full at job 73 on kiln_a: refusal 1"), "{words}");
        assert_eq!(complaint.spot.line, 74);
        assert_eq!(complaint.help, Some(FEWER_RULES));
    }
}

#[test]
fn hours_that_cannot_meet_make_room() {
    let job = |job: usize| {
        let (first, last) = (10 * job, 10 * job + 40);
        format!("job j{job} on kiln_a takes 2 : {first} .. {last}\n")
    };
    let jobs: String = (0..200).map(job).collect();
    assert_eq!(complaint(&format!("machine kiln_a\n{jobs}")), None);
}

#[test]
fn too_many_numbers_rules_and_choices_are_said_at_the_first_that_is_too_many() {
    let many = |count: usize, line: &str| {
        (0..count).map(|i| line.replace('#', &i.to_string())).collect::<String>()
    };
    let rows = [
        (many(1_025, "number x# : 0 .. 1\n"), 1_025, "the count of numbers", FEWER_NUMBERS),
        (many(4_098, "choice b#\n"), 4_097, "the count of choices", FEWER_NUMBERS),
        (format!("choice b\n{}", many(4_100, "b\n")), 4_098, "the count of clauses", FEWER_RULES),
    ];
    for (text, line, says, help) in rows {
        let complaint = complaint(&text).unwrap();
        assert!(
            complaint.words.starts_with("the record is full here: refusal 4"),
            "{}",
            complaint.words
        );
        assert!(complaint.words.contains(says), "{}", complaint.words);
        assert_eq!((complaint.spot.line, complaint.help), (line, Some(help)));
    }
}

#[test]
fn hours_that_are_too_far_away_are_said_with_what_would_help() {
    let text = "week from Monday 00:00 step 1 min\nmachine kiln\njob mugs on kiln takes 1 h : Wed 00:00 .. Thu 12:00\n";
    let complaint = complaint(text).unwrap();
    assert!(
        complaint.words.starts_with("refusal 5: a bound outside its range"),
        "{}",
        complaint.words
    );
    assert_eq!((complaint.spot.line, complaint.help), (3, Some(LONGER_STEP)));
}
