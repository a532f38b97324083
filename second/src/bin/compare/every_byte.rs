//! Small texts and replies damaged at each byte: struck, doubled, and every byte in its place or before it.

use crate::both::{After, Both, Compared};
use crate::tally::Tally;

const TEXTS: [&str; 12] = [
    "p cnf 0 0\n",
    "p cnf 0 1\n0\n",
    "p cnf 1 1\n-1 0\n",
    "p cnf 3 0\n \n ",
    "p cnf 3 2\n1 -2 0\n3 0\n",
    "p cnf 9 2\n9 -9 0\n0\n",
    "p cnf 10 3\n10 -1 0 0\n-10 0",
    "p cnf 12 1\n\n  12\n-11 \n0 \n ",
    "p cnf 99 1\n99 -98 9 0\n",
    "p cnf 100 12\n1 0 0 0 0 0 0 0 0 0 0 0 100 0\n",
    "p cnf 2147483647 1\n2147483647 -2147483646 0\n",
    "p cnf 1 2147483647\n1 0\n",
];

/// Each with its N.
const REPLIES: [(u32, &str); 12] = [
    (0, "s SATISFIABLE\nv 0\n"),
    (1, "s SATISFIABLE\nv 1 0\n"),
    (1, "s SATISFIABLE\nv -1\nv 0\n"),
    (3, "s SATISFIABLE\nv 1 -2 3 0\n"),
    (3, "s SATISFIABLE\nv -3\nv 2\nv -1\nv 0\n"),
    (3, "s SATISFIABLE\nv 2 3\nv 2 0\n"),
    (4, "s SATISFIABLE\nv 4 -2\nv 1 3 0\n"),
    (10, "s SATISFIABLE\nv 1 -2 10 3 -4 5\nv -9 6 8 -7 0\n"),
    (12, "s SATISFIABLE\nv 11 12\nv 1 2 3 4 5 -6 7 8 9 10 0\n"),
    (4_294_967_295, "s SATISFIABLE\nv 2 -4294967295 1 0\n"),
    (2, "s UNSATISFIABLE\n"),
    (0, "s UNSATISFIABLE\n"),
];

/// Both programs on every damaged text and reply.
pub fn all(tally: &mut Tally) -> Compared<()> {
    let mut both = Both::new(&[], tally);
    for text in TEXTS {
        both.tally.texts.every_byte[0] += 1;
        // Enough for the numbers of most damaged texts, but not of all.
        let lent = text.split_whitespace().count() - 4;
        for damaged in damaged(text.as_bytes()) {
            let after = both.read_text(&damaged, lent)?;
            count(&mut both, &after);
        }
    }
    for (variables, text) in REPLIES {
        both.tally.texts.every_byte[0] += 1;
        let lent = variables.min(20) as usize;
        for damaged in damaged(text.as_bytes()) {
            let after = both.read_reply(variables, &damaged, lent)?;
            count(&mut both, &after);
        }
    }
    Ok(())
}

fn count(both: &mut Both, after: &After) {
    let [_, damaged, read] = &mut both.tally.texts.every_byte;
    *damaged += 1;
    *read += u64::from(after.accepted());
}

/// The text cut, and with each of its bytes struck, doubled, changed or led by another one.
fn damaged(text: &[u8]) -> Vec<Vec<u8>> {
    let mut found = Vec::new();
    for at in 0..text.len() {
        let (before, behind) = text.split_at(at);
        found.push(before.to_vec());
        found.push([before, &behind[..1], behind].concat());
        found.push([before, &behind[1..]].concat());
        for byte in 0..=255 {
            found.push([before, &[byte], &behind[1..]].concat());
            found.push([before, &[byte], behind].concat());
        }
    }
    found.extend((0..=255).map(|byte| [text, &[byte]].concat()));
    found
}
