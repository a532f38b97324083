//! Jobs, closed hours and closings: which values are a solution is tried against what the lines mean.

use super::all_values::{all_values, is_solution};
use crate::sheet::read_sheet;

/// Whether two jobs that take so long are apart.
fn are_apart(one: (i32, i32), other: (i32, i32)) -> bool {
    one.0 + one.1 <= other.0 || other.0 + other.1 <= one.0
}

/// Tries all values of a board against a meaning; both answers have to occur.
fn means(text: &str, meaning: impl Fn(&[i32], &[u8]) -> bool) {
    let sheet =
        read_sheet(text).unwrap_or_else(|complaint| panic!("{}", complaint.shown("", text)));
    let (mut accepted, mut refused) = (0, 0);
    for setting in all_values(&sheet.board) {
        let means = meaning(&setting.numbers, &setting.choices);
        assert_eq!(is_solution(&sheet.board, &setting), means, "{text}{setting:?}");
        *if means { &mut accepted } else { &mut refused } += 1;
    }
    assert!(accepted > 0 && refused > 0, "{text}: {accepted} accepted, {refused} refused");
}

#[test]
fn jobs_on_one_machine_do_not_overlap() {
    let text = "machine kiln\njob a on kiln takes 2 : 0 .. 8\njob b on kiln takes 3 then 1 cooling : 1 .. 9\n\
        job c on kiln takes 1 : 0 .. 5\n";
    means(text, |numbers, _| {
        let [a, b, c] = [(numbers[0], 2), (numbers[1], 4), (numbers[2], 1)];
        are_apart(a, b) && are_apart(a, c) && are_apart(b, c)
    });
}

#[test]
fn a_window_is_for_the_whole_job() {
    let text = "machine kiln\njob a on kiln takes 2 then 3 cooling : -4 .. 8\n";
    let number = &read_sheet(text).unwrap().board.numbers[0];
    assert_eq!((number.lower, number.upper), (-4, 3));
}

#[test]
fn jobs_on_several_machines_are_on_one_and_do_not_overlap_there() {
    let text =
        "machine left\nmachine right\nmachine loom\njob a on left or right takes 2 : 0 .. 5\n\
        job b on right or left takes 3 : 0 .. 5\njob c on right takes 1 : 0 .. 4\n\
        job d on loom takes 4 : 0 .. 5\n";
    means(text, |numbers, choices| {
        let &[a_left, a_right, b_right, b_left] = choices else { panic!("{choices:?}") };
        let [a, b, c] = [(numbers[0], 2), (numbers[1], 3), (numbers[2], 1)];
        let on_one = a_left + a_right == 1 && b_left + b_right == 1;
        let left = a_left * b_left == 0 || are_apart(a, b);
        let right = a_right * b_right == 0 || are_apart(a, b);
        let with_c = (a_right == 0 || are_apart(a, c)) && (b_right == 0 || are_apart(b, c));
        on_one && left && right && with_c
    });
}

#[test]
fn jobs_that_cannot_meet_have_no_rule() {
    let rules = |text: &str| read_sheet(&format!("machine kiln\n{text}")).unwrap().rules.len();
    assert_eq!(rules("job a on kiln takes 2 : 0 .. 5\njob b on kiln takes 2 : 5 .. 9\n"), 0);
    assert_eq!(rules("job a on kiln takes 2 : 5 .. 9\njob b on kiln takes 2 : 0 .. 5\n"), 0);
    assert_eq!(rules("job a on kiln takes 2 : 0 .. 5\njob b on kiln takes 2 : 4 .. 9\n"), 1);
    assert_eq!(
        rules("machine loom\njob a on kiln takes 2 : 0 .. 5\njob b on loom takes 2 : 0 .. 5\n"),
        0
    );
}

/// Quarters of a day: at 0 and 3 of each day the workshop is closed.
#[test]
fn nobody_begins_or_unloads_in_closed_hours() {
    let text = "week from Monday 00:00 step 6 h\nmachine kiln\nclosed : every day 18:00 .. 06:00\n\
        job a on kiln takes 6 h then 12 h cooling : Mon 00:00 .. Sun 24:00\n\
        job b on kiln takes 6 h : Tue 00:00 .. Wed 24:00\n";
    let is_open = |value: i32| matches!(value.rem_euclid(4), 1 | 2);
    means(text, |numbers, _| {
        let [a, b] = [(numbers[0], 3), (numbers[1], 1)];
        let is_open = [a.0, a.0 + a.1, b.0, b.0 + b.1].into_iter().all(is_open);
        is_open && are_apart(a, b)
    });
}

#[test]
fn closed_hours_come_again_every_week_unless_their_week_is_named() {
    let text = |hours: &str| {
        format!(
            "week from Wednesday 12:00 step 12 h\nmachine kiln\n\
             job a on kiln takes 12 h : Wed 12:00 week 0 .. Wed 12:00 week 3\nclosed : {hours}\n"
        )
    };
    // Value 0 is Wed 12:00, so Sat 12:00 is 6 and Mon 12:00 is 10, and a week has 14.
    let is_closed = |value: i32| (6..10).contains(&value.rem_euclid(14));
    means(&text("Sat 12:00 .. Mon 12:00"), |numbers, _| {
        !is_closed(numbers[0]) && !is_closed(numbers[0] + 1)
    });
    let in_week_2 = |value: i32| (20..24).contains(&value);
    means(&text("Sat 12:00 week 2 .. Mon 12:00 week 2"), |numbers, _| {
        !in_week_2(numbers[0]) && !in_week_2(numbers[0] + 1)
    });
}

#[test]
fn closed_hours_may_be_those_of_some_machines() {
    let text = "machine left\nmachine right\nmachine loom\nclosed left, loom : 2 .. 4\n\
        job a on left or right takes 1 : 0 .. 6\njob b on loom takes 2 : 0 .. 6\njob c on right takes 1 : 0 .. 3\n";
    let is_closed = |value: i32| (2..4).contains(&value);
    means(text, |numbers, choices| {
        let (a_left, a_right) = (choices[0] == 1, choices[1] == 1);
        let a_meets = is_closed(numbers[0]) || is_closed(numbers[0] + 1);
        let b_meets = is_closed(numbers[1]) || is_closed(numbers[1] + 2);
        let apart = !a_right || are_apart((numbers[0], 1), (numbers[2], 1));
        a_left != a_right && !(a_left && a_meets) && !b_meets && apart
    });
}

#[test]
fn a_closing_is_not_before_the_end_of_its_jobs() {
    let text = "machine kiln\nmachine loom\nclosing all\njob a on kiln takes 2 : 0 .. 4\njob b on loom takes 1 : 1 .. 5\n\
        closing kilns after a\n";
    means(text, |numbers, _| {
        let &[all, a, b, kilns] = numbers else { panic!("{numbers:?}") };
        a + 2 <= all && b < all && a + 2 <= kilns
    });
    let board = read_sheet(text).unwrap().board;
    let bounds = |index: usize| (board.numbers[index].lower, board.numbers[index].upper);
    assert_eq!((bounds(0), bounds(3)), ((2, 5), (2, 4)), "from the least end to the greatest");
}

#[test]
fn a_job_before_another_is_unloaded_when_it_begins() {
    let text = "machine kiln\nmachine loom\nnumber market : 0 .. 6\njob a on kiln takes 2 then 1 cooling : 0 .. 6\n\
        job b on loom takes 1 : 0 .. 6\nchoice late\na before b\nif not late and b <= 4 then b before market\n";
    means(text, |numbers, choices| {
        let &[market, a, b] = numbers else { panic!("{numbers:?}") };
        a + 3 <= b && (choices[0] == 1 || b > 4 || b < market)
    });
}
