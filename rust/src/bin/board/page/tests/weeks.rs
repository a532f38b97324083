//! Rows of days: bars over midnight, boards longer than a week, and boards without one.

use super::{has, has_not, page_of};
use crate::page::Verdict;

const LONG: &str = "week from Monday 00:00 step 1 h\nmachine loom\n\
    job rug on loom takes 20 h then 6 h tidying : Mon 00:00 .. Sun 24:00 week 9\n\
    job mat on loom takes 5 h : Mon 00:00 .. Sun 24:00 week 9\n";

#[test]
fn a_bar_over_midnight_goes_on_in_the_next_row() {
    let page = page_of(LONG, "rug=Tue 20:00 mat=Mon 08:00");
    has(
        &page,
        &[
            "aria-label=\"Tuesday: no. 2 from 20:00 to 24:00\"",
            "aria-label=\"Wednesday: no. 2 from 00:00 to 22:00\"",
            "aria-label=\"Thursday: nothing\"",
        ],
    );
    assert_eq!(page.text.matches("<path class=\"arrow\"").count(), 2);
    has_not(&page, &["<h3>Week", "left out"]);
}

#[test]
fn only_weeks_in_which_something_begins_or_ends_are_drawn() {
    let page = page_of(LONG, "rug=Sun 23:00 week 2 mat=Mon 08:00 week 7");
    let weeks: Vec<&str> = page.text.split("<h3>Week ").skip(1).map(|rest| &rest[..1]).collect();
    assert_eq!(weeks, ["2", "3", "7"]);
    assert_eq!(page.text.matches("are left out before these").count(), 2);
    assert_eq!(page.text.matches("role=\"img\"").count(), 21);
    has(&page, &["Sun 23:00 week 2", "Mon 08:00 week 7"]);
}

#[test]
fn a_job_up_to_midnight_is_in_one_row() {
    let page = page_of(LONG, "rug=Sat 22:00 mat=Fri 19:00");
    has(
        &page,
        &[
            "aria-label=\"Friday: no. 1 from 19:00 to 24:00\"",
            "aria-label=\"Saturday: no. 2 from 22:00 to 24:00\"",
        ],
    );
    assert_eq!(
        page.text.matches("<path class=\"arrow\"").count(),
        2,
        "at the end of Saturday and the begin of Sunday"
    );
    has_not(&page, &["<h3>Week"]);
}

/// What an attribute of a shape is, without the sign of hundredths.
fn attribute(shape: &str, name: &str) -> String {
    let value = shape.split(&format!("{name}=\"")).nth(1).unwrap();
    value.split(['"', '%']).next().unwrap().to_string()
}

#[test]
fn bars_and_closed_hours_stand_where_their_hours_are() {
    let text = "week from Monday 00:00 step 1 h\nmachine kiln\nclosed : every day 21:00 .. 03:00\n\
        job urn on kiln takes 4 h then 2 h cooling then 3 h drying\njob mug on kiln takes 22 h\n";
    let page = page_of(text, "urn=Mon 06:00 mug=Tue 06:00");
    let monday =
        page.text.split("aria-label=\"Monday").nth(1).unwrap().split("</div>").next().unwrap();
    let expected = [
        ["closed", "0.00", "12.50"],
        ["closed", "87.50", "12.50"],
        ["work", "25.00", "16.67"],
        ["then0", "41.67", "8.33"],
        ["then1", "50.00", "12.50"],
        ["frame", "25.00", "37.50"],
    ];
    let shape = |rect: &str| ["class", " x", "width"].map(|name| attribute(rect, name));
    let drawn: Vec<[String; 3]> = monday.split("<rect ").skip(1).map(shape).collect();
    assert_eq!(drawn, expected);
    has(&page, &["x=\"25.00%\" y=\"13\">06</text>", "x=\"75.00%\" y=\"13\">18</text>"]);
}

#[test]
fn a_clash_over_midnight_is_named_in_both_rows() {
    let page = page_of(LONG, "rug=Tue 20:00 mat=Tue 21:00");
    has(&page, &["Clash on <bdi>loom</bdi>, Tue 21:00 to Wed 02:00"]);
    for words in ["✗ CLASH of 1 and 2, 21:00 to 24:00", "✗ CLASH of 1 and 2, 00:00 to 02:00"] {
        assert_eq!(page.text.matches(words).count(), 2, "once on paper, once on a phone: {words}");
    }
    assert_eq!(
        page.text.matches("<rect class=\"clash\" x=\"").count(),
        3,
        "two rows and the legend"
    );
}

#[test]
fn a_job_that_takes_no_time_is_drawn_and_can_clash() {
    let text = "week from Monday 00:00 step 1 h\nmachine kiln\njob look on kiln takes 0 h\njob urn on kiln takes 30 h\n";
    let page = page_of(text, "urn=Mon 20:00 look=Tue 00:00");
    has(
        &page,
        &[
            "✗ CLASH of 1 and 2, 00:00 to 00:00",
            "Tuesday: no. 1 from 00:00 to 24:00, no. 2 from 00:00 to 00:00",
        ],
    );
    assert_eq!(page.text.matches("<line class=\"cross\"").count(), 2, "in one row only");
    assert_eq!(page_of(text, "urn=Mon 20:00 look=Mon 20:00").verdict, Verdict::Sound);
}

#[test]
fn without_a_week_a_row_has_24_steps() {
    let text =
        "machine loom\njob rug on loom takes 30 : -40 .. 90\njob mat on loom takes 5 : -40 .. 90\n";
    let page = page_of(text, "rug=-10 mat=20");
    assert_eq!(page.verdict, Verdict::Sound);
    has(
        &page,
        &[
            "aria-label=\"-24 to -1: no. 1 from -10 to 0\"",
            "aria-label=\"0 to 23: no. 1 from 0 to 20, no. 2 from 20 to 24\"",
            "<h3>Steps -168 to -1</h3>",
            "none: no. 2 at once",
        ],
    );
}

#[test]
fn a_job_on_no_machine_is_told() {
    let text =
        "week from Monday 00:00 step 1 h\nmachine a\nmachine b\njob rug on a or b takes 3 h\n";
    let page = page_of(text, "rug=Mon 08:00 rug_on_a=no rug_on_b=no");
    has(
        &page,
        &[
            "A job is on no machine",
            "rug: Mon 08:00 to Mon 11:00 on no machine",
            "<b>rug = Mon 08:00</b>",
            "Nothing is placed on this machine.",
        ],
    );
    let page = page_of(text, "rug=Mon 08:00 rug_on_a=yes rug_on_b=yes");
    has(
        &page,
        &[
            "rug: Mon 08:00 to Mon 11:00 on <bdi>a</bdi> and <bdi>b</bdi>",
            "rug is on no two machines",
        ],
    );
}

#[test]
fn a_board_without_jobs_has_all_its_numbers_on_the_first_page() {
    let page = page_of("number x, y : -2 .. 5\nchoice c\nx < y\n", "x=-1 y=4 c=no");
    has(
        &page,
        &[
            "Numbers: no picture shows them",
            "<b>x = -1</b>",
            "<b>y = 4</b>",
            "<b>c = no</b>",
            "-2 to 5",
        ],
    );
    has_not(&page, &["<section class=\"machine\"", "The machines"]);
    has(&page_of("", ""), &["This board has no numbers and no choices.", "0 rules and 0 numbers"]);
}

#[test]
fn the_same_placement_gives_the_same_page() {
    let values = "rug=Sun 23:00 week 2 mat=Mon 08:00 week 7";
    assert_eq!(page_of(LONG, values).text, page_of(LONG, values).text);
}
