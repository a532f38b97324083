//! What the first page says: sound, broken, not forbidden, or not to be used.

use super::{has, has_not, opened, page_of, setting_of, ACCIDENT};
use crate::page::{page, page_judged, Verdict};
use basmuthar::Refusal;

const SOUND: &str = "ana = Sat 12:00\nben = Sat 15:00\n";
const CLASH: &str = "ana = Sat 15:00\nben = Sat 16:00\n";

#[test]
fn a_sound_placement_is_said_to_be_so() {
    let page = page_of(ACCIDENT, SOUND);
    assert_eq!(page.verdict, Verdict::Sound);
    has(
        &page,
        &[
            "✔ This placement keeps every rule of the board",
            "1 rule and 2 numbers were put to the test.",
            "accepts this placement",
            "Both say the same.",
            "Every number and every choice of this board is in the pictures.",
            "<b>1 h</b> on <bdi>The shared kiln</bdi>: <bdi>Ana&#39;s mugs</bdi> until Sat 14:00, \
             <bdi>Ben&#39;s bowls</bdi> from Sat 15:00",
        ],
    );
    has_not(&page, &["✗", "CLASH", "Do not"]);
}

#[test]
fn the_accident_is_crossed_framed_and_named() {
    let page = page_of(ACCIDENT, CLASH);
    assert_eq!(page.verdict, Verdict::Broken);
    has(
        &page,
        &[
            "✗ Do not work by this placement",
            "1 of 1 rule is broken.",
            "refusal 13: a clause does not hold, clause 0 counted from 0 (line 4)",
            "Clash on <bdi>The shared kiln</bdi>, Sat 16:00 to Sat 17:00",
            "<bdi>Ana&#39;s mugs</bdi> (ana): Sat 15:00 to Sat 17:00 on <bdi>The shared kiln</bdi>",
            "Line 4 forbids this",
            "<li>ana + 2 h = Sat 17:00 is not &lt;= ben = Sat 16:00</li>",
            "<li>ben + 2 h = Sat 18:00 is not &lt;= ana = Sat 15:00</li>",
            "✗ CLASH of 1 and 2, 16:00 to 17:00</text>",
            "<rect class=\"clash\"",
            "<line class=\"cross\"",
            "✗ no. 2 begins 1 h too early",
            "✗ clash with no. 2</div>",
            "Not to be signed as good",
        ],
    );
    has_not(&page, &["✔", "No rule of this board forbids this"]);
}

#[test]
fn an_overlap_that_no_rule_forbids_is_said_to_be_none() {
    let opened = opened(ACCIDENT).only(|_| false).unwrap();
    let setting = setting_of(&opened, CLASH);
    let page = page(&opened, &setting);
    assert_eq!(page.verdict, Verdict::Unforbidden(1));
    has(
        &page,
        &[
            "✗ Look twice before you sign",
            "accepts this placement",
            "<b>No rule of this board forbids this.</b>",
            "✗ CLASH of 1 and 2",
        ],
    );
}

#[test]
fn where_judge_and_the_sums_disagree_the_sheet_is_not_to_be_used() {
    let opened = opened(ACCIDENT);
    let (sound, clash) = (setting_of(&opened, SOUND), setting_of(&opened, CLASH));
    let early = setting_of(&opened, "ana = Sat 11:00\nben = Sat 13:00");
    let refused = |number, detail| Err(Refusal { number, detail });
    let rows = [
        (&sound, refused(13, 0)),
        (&sound, refused(14, 0)),
        (&sound, refused(11, 2)),
        (&clash, Ok(())),
        (&clash, refused(13, 1)),
        (&clash, refused(14, 0)),
        (&early, refused(14, 1)),
        (&early, refused(13, 0)),
    ];
    for (setting, judged) in rows {
        let page = page_judged(&opened, setting, judged);
        assert_eq!(page.verdict, Verdict::Disagreement, "{judged:?}");
        has(
            &page,
            &["<h2>✗ Do not use this sheet</h2>", "They do not agree. Do not use this sheet."],
        );
        has_not(&page, &["Both say the same", "✔"]);
    }
}

#[test]
fn a_number_outside_its_bounds_is_named() {
    let page = page_of(ACCIDENT, "ana = Sat 12:00\nben = Sat 17:00\n");
    assert_eq!(page.verdict, Verdict::Broken);
    has(
        &page,
        &[
            "1 number is outside its bounds.",
            "ben = Sat 17:00; it may be from Sat 12:00 to Sat 16:00, by line 4",
            "refusal 14",
            "✗ outside its hours</div>",
        ],
    );
}

#[test]
fn a_broken_rule_stands_as_it_is_written_with_its_sum() {
    let text = "number cups, bowls : 0 .. 9\nchoice wet\n\
        if wet then cups + 2 <= bowls or bowls > 7   # \"they\" dry & wait\n";
    let page = page_of(text, "cups=4 bowls=5 wet=yes");
    has(
        &page,
        &[
            "Line 3 is broken: <bdi>&quot;they&quot; dry &amp; wait</bdi>",
            "<code>if wet then cups + 2 &lt;= bowls or bowls &gt; 7   # &quot;they&quot; dry &amp; wait</code>",
            "<li>cups + 2 = 6 is not &lt;= bowls = 5</li>",
            "<li>bowls = 5 is not &gt; 7</li>",
            "<li><b>cups = 4</b> <span class=\"name\">0 to 9</span></li>",
            "<li><b>wet = yes</b></li>",
        ],
    );
    has_not(&page, &["class=\"machine\"", "which means"]);
}

#[test]
fn of_many_faults_the_first_are_printed_and_the_screen_has_all() {
    let jobs: String =
        (1..=7).map(|job| format!("job j{job} on kiln takes 2 : 0 .. 30\n")).collect();
    let values: String = (1..=7).map(|job| format!("j{job} = 4\n")).collect();
    let page = page_of(&format!("machine kiln\n{jobs}"), &values);
    let (printed, others) = page.text.split_once("<div class=\"on-screen\">").unwrap();
    assert_eq!(printed.matches("<h3>✗ Clash on").count(), 12);
    assert_eq!(others.matches("<h3>✗ Clash on").count(), 9);
    has(&page, &["✗ 9 more are wrong: the page on a screen has them all."]);
    has_not(&page_of(ACCIDENT, CLASH), &["<div class=\"on-screen\">", "more are wrong"]);
}

#[test]
fn a_job_that_begins_while_another_cools_clashes_with_it() {
    let text = "machine kiln\njob urn on kiln takes 4 then 3 cooling : 0 .. 30\njob mug on kiln takes 2 : 0 .. 30\n";
    let page = page_of(text, "urn=0 mug=5");
    assert_eq!(page.verdict, Verdict::Broken);
    has(
        &page,
        &[
            "Clash on <bdi>kiln</bdi>, 5 to 7",
            "✗ CLASH of 1 and 2, 5 to 7",
            "begins 2 steps too early",
        ],
    );
    assert_eq!(page_of(text, "urn=0 mug=7").verdict, Verdict::Sound);
}
