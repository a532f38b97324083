//! The accident that this program is for: two copies of Saturday's board, a firing booked at three for two hours in one, and
//! one at four, the last start, in the other. The old encoder lost a clause, and both firings got the kiln.

use crate::fake::Fake;
use crate::run::{has, shell};

const JOIN: &str =
    "board join boards/join/accident_base.board boards/join/accident_copy_1.board boards/join/accident_copy_2.board";

/// Starts are counted from Saturday 12:00, from 0 to 4. SAT variables 1 to 6 say that Ana's start is at most -1 to 4, 7 to 12
/// the same of Ben's, and 13 that Ana's firing is over when Ben's begins. So this clause says: where 13 is true, Ana starts at
/// two o'clock or earlier, or Ben later than four.
const LOST: &str = "-13 4 -12 0";

/// The joined board in a file.
fn joined(fake: &Fake) -> String {
    let file = fake.path("joined.board");
    assert_eq!(shell(&format!("{JOIN} >{file}")), (String::new(), Some(0)));
    file
}

#[test]
fn each_copy_has_a_placement_and_both_together_have_none() {
    let fake = Fake::new("");
    let board = joined(&fake);
    for solver in ["cadical -q", "minisat"] {
        if has(solver.split(' ').next().unwrap()) {
            for copy in ["1", "2"] {
                let copy = format!("boards/join/accident_copy_{copy}.board");
                assert_eq!(shell(&format!("board place {copy} -- {solver}")).1, Some(0), "{copy}");
            }
            assert_eq!(shell(&format!("board place {board} -- {solver}")).1, Some(3));
            let piped = shell(&format!("{JOIN} | board place /dev/stdin -- {solver}"));
            assert_eq!(piped.1, Some(3), "by a pipe too");
        }
    }
}

#[test]
fn why_names_both_bookings_and_the_kiln() {
    let fake = Fake::new("");
    let board = joined(&fake);
    let expected = "\
These 5 lines cannot be kept together; without any one of them, the others can:
line 10: ana = Sat 15:00  # Ana has booked three o'clock
line 11: ben = Sat 16:00  # Ben has booked four o'clock
line 6: job ana \"Ana, mugs\"  on kiln takes 2 h : Sat 12:00 .. Sat 18:00
line 7: job ben \"Ben, bowls\" on kiln takes 2 h : Sat 12:00 .. Sat 18:00
line 4: machine kiln \"Saturday's kiln\"
What `board` makes of them:
    ana + 2 h <= ben or ben + 2 h <= ana  # one at a time on kiln
";
    for solver in ["cadical -q", "minisat"] {
        if has(solver.split(' ').next().unwrap()) {
            let found = shell(&format!("board why {board} -- {solver}"));
            assert_eq!(found, (expected.to_string(), Some(0)), "{solver}");
        }
    }
}

#[test]
fn the_clause_that_the_old_encoder_lost_is_in_the_list() {
    let fake = Fake::new("");
    let list = shell(&format!("board cnf {}", joined(&fake))).0;
    assert_eq!(list.lines().filter(|line| *line == LOST).count(), 1, "{list}");
}

#[test]
fn without_that_clause_the_accident_happens_again_and_is_refused() {
    if !has("cadical") {
        return;
    }
    let fake = Fake::new("");
    let board = joined(&fake);
    let fewer = "awk 'NR == 1 { $4 -= 1 } { print }'";
    let lost = format!("board cnf {board} | grep -vx -- '{LOST}' | {fewer}");
    let (reply, _) = shell(&format!("{lost} | cadical -q"));
    assert!(reply.starts_with("s SATISFIABLE"), "{reply}");
    let (words, status) = shell(&format!("{lost} | cadical -q | board model {board}"));
    let refused =
        ", line 7, column 1: refusal 13: a clause does not hold, clause 18 counted from 0\n";
    assert!(words.contains(refused), "{words}");
    assert_eq!(status, Some(1));
}
