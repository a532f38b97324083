//! The tightest places: least gaps and least room first, few of them, and how many more there are.

use super::{has, has_not, page_of};
use crate::page::Page;

const KILN: &str = "week from Monday 00:00 step 30 min\nmachine kiln\n\
    job a \"Ash\" on kiln takes 2 h then 1 h cooling\njob b \"Bowls\" on kiln takes 2 h\n\
    job c \"Cups\" on kiln takes 2 h\njob d \"Dishes\" on kiln takes 2 h\n";

/// The places that a page tells, each without what follows its first tag's end.
fn places(page: &Page) -> Vec<&str> {
    let listed = page.text.split("<ol>").skip(1).flat_map(|list| list.split("</ol>").take(1));
    listed
        .flat_map(|list| list.split("<li><b>").skip(1))
        .map(|item| item.split("</b>").next().unwrap())
        .collect()
}

#[test]
fn the_least_gaps_come_first() {
    let page = page_of(KILN, "a=Mon 08:00 b=Mon 13:00 c=Mon 15:00 d=Mon 17:30");
    assert_eq!(places(&page), ["no time", "30 min", "2 h"]);
    has(&page, &["<b>2 h</b> on <bdi>kiln</bdi>: <bdi>Ash</bdi> until Mon 11:00, <bdi>Bowls</bdi> from Mon 13:00"]);
    has_not(&page, &["Rules with the least room", "as tight as the last"]);
}

#[test]
fn of_rules_the_one_that_holds_with_the_least_room_comes_first() {
    let rules = "a + 4 h <= c\nd >= Mon 17:00 or c >= Mon 23:00\nb < Mon 14:00   # before the guests\nc != d\n";
    let page =
        page_of(&format!("{KILN}{rules}"), "a=Mon 08:00 b=Mon 13:00 c=Mon 15:00 d=Mon 17:30");
    assert_eq!(places(&page), ["no time", "30 min", "2 h", "30 min", "30 min"]);
    has(
        &page,
        &[
            "<b>30 min</b>, line 8: d = Mon 17:30 is &gt;= Mon 17:00 \
             <span class=\"name\"><bdi>Dishes</bdi>, <bdi>Cups</bdi></span>",
            "<b>30 min</b>, line 9: b = Mon 13:00 is &lt; Mon 14:00 \
             <span class=\"name\"><bdi>Bowls</bdi>: <bdi>before the guests</bdi>",
        ],
    );
}

#[test]
fn few_are_told_and_how_many_more_there_are() {
    let jobs: String =
        (1..=8).map(|job| format!("job j{job} on kiln takes 2 : 0 .. 30\n")).collect();
    let values: String = (1..=8).map(|job| format!("j{job} = {}\n", 2 * job)).collect();
    let rules = "j1 <= 2\nj2 <= 4\nj3 <= 6\n";
    let page = page_of(&format!("machine kiln\n{jobs}"), &values);
    assert_eq!(places(&page), ["no time"; 5]);
    has(&page, &["2 more are as tight as the last of these."]);
    let page = page_of(&format!("machine kiln\n{jobs}{rules}"), &values);
    assert_eq!(places(&page), ["no time", "no time", "no time", "no room", "no room"]);
    has(
        &page,
        &["4 more are as tight as the last of these.", "1 more is as tight as the last of these."],
    );
}
