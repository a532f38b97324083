//! The worked week: 30 jobs in two kilns in under 60 lines, placed by both solvers.

use crate::run::{has, in_project, shell};
use std::fs;
use std::path::Path;

fn text() -> String {
    let boards = Path::new(env!("CARGO_MANIFEST_DIR")).join("../boards");
    fs::read_to_string(boards.join("pottery_week.board")).unwrap()
}

#[test]
fn the_week_has_30_jobs_in_two_kilns_in_under_60_lines() {
    let text = text();
    let count = |word: &str| text.lines().filter(|line| line.starts_with(word)).count();
    assert_eq!((count("job "), count("machine ")), (30, 2));
    assert!(text.lines().count() < 60);
}

#[test]
fn both_solvers_place_the_week_and_nothing_is_broken() {
    for solver in ["cadical -q", "minisat"] {
        if has(solver.split(' ').next().unwrap()) {
            let place = format!("board place boards/pottery_week.board -- {solver}");
            let (words, status) = shell(&place);
            assert_eq!(
                words.lines().filter(|line| line.contains("# until ")).count(),
                30,
                "{words}"
            );
            assert_eq!(status, Some(0));
            let show = "board show boards/pottery_week.board --broken /dev/stdin";
            let shown = shell(&format!("{place} | {show}"));
            assert_eq!(shown, ("This is a solution.\n".to_string(), Some(0)), "{solver}");
        }
    }
}

/// The table that is printed for a machine is in the order of hours, and no job begins before the one above is over.
#[test]
fn each_machine_has_its_jobs_one_after_another() {
    if !has("cadical") {
        return;
    }
    let (words, _) = shell("board place boards/pottery_week.board -- cadical -q");
    let days = ["Mon", "Tue", "Wed", "Thu", "Fri", "Sat", "Sun"];
    let minutes = |words: &str| -> usize {
        let (day, clock) = words.split_once(' ').unwrap();
        let (hours, minutes) = clock.split_once(':').unwrap();
        let day = days.iter().position(|name| *name == day).unwrap();
        (24 * day + hours.parse::<usize>().unwrap()) * 60 + minutes.parse::<usize>().unwrap()
    };
    let (mut free, mut jobs) = (0, 0);
    for line in words.lines() {
        if line.starts_with("# on ") {
            free = 0;
        } else if let Some((begin, end)) = line.split_once("# until ") {
            let begin = minutes(begin.split_once(" = ").unwrap().1.trim());
            let end = minutes(end.split(": ").next().unwrap());
            assert!(free <= begin && begin < end, "{line}");
            let is_open = |minute: usize| (7 * 60..21 * 60).contains(&(minute % (24 * 60)));
            assert!(is_open(begin) && is_open(end), "{line}");
            (free, jobs) = (end, jobs + 1);
        }
    }
    assert_eq!(jobs, 30);
}

#[test]
fn a_job_on_no_machine_of_the_board_is_told_with_its_place() {
    let output = in_project("sh")
        .arg("-c")
        .arg("sed 's/on kiln_b  /on kiln_c  /' boards/pottery_week.board | board rules /dev/stdin")
        .output()
        .unwrap();
    let complaint = String::from_utf8(output.stderr).unwrap();
    assert!(
        complaint.starts_with("/dev/stdin, line 21, column 41: expected the name of a machine"),
        "{complaint}"
    );
    assert_eq!(output.status.code(), Some(1));
}
