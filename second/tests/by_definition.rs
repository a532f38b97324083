//! Refusal 18 by its definition: a byte is wrong where no good text begins with the bytes up to and with it.

use second::refusal::{refusal, Refusal};
use second::{read_reply, read_text};

/// The bytes that are tried at each place.
const BYTES: &[u8] = b"0129-+ \nvx\t";

/// Whether all of a text is good, told from its lines and words.
type Good = fn(most: i64, text: &str) -> bool;

/// A number as it is written, from -most to most.
fn is_number(word: &str, most: i64) -> bool {
    let value = word.parse::<i64>();
    value.is_ok_and(|value| value.to_string() == word && value.abs() <= most)
}

/// A first line for N and as many clauses as it says.
fn good_clauses(most: i64, text: &str) -> bool {
    let Some((first, rest)) = text.split_once('\n') else {
        return false;
    };
    let Some(clauses) = first.strip_prefix(&format!("p cnf {most} ")) else {
        return false;
    };
    let words = rest.split([' ', '\n']).filter(|word| !word.is_empty());
    let words: Vec<&str> = words.collect();
    let zeros = words.iter().filter(|&&word| word == "0").count();
    let finished = words.last().is_none_or(|&word| word == "0");
    let numbers = words.iter().all(|word| is_number(word, most));
    finished && numbers && clauses == zeros.to_string()
}

/// The line of a solution, lines of numbers, and a 0 as the last of all.
fn good_reply(most: i64, text: &str) -> bool {
    let Some(lines) = text.strip_suffix('\n') else {
        return false;
    };
    let mut lines = lines.split('\n');
    if lines.next() != Some("s SATISFIABLE") {
        return false;
    }
    let mut numbers = Vec::new();
    for line in lines {
        match line.strip_prefix("v ") {
            Some(words) => numbers.extend(words.split(' ')),
            None => return false,
        }
    }
    let zero = numbers.iter().position(|&word| word == "0");
    let written = numbers.iter().all(|word| is_number(word, most));
    written && zero.is_some_and(|at| at + 1 == numbers.len())
}

/// What finishes a number, and what finishes a text of at most two clauses, or a reply.
const NUMBER_ENDS: [&str; 2] = ["", "1"];
const TEXT_ENDS: [&str; 9] = [
    "", "0", "0 0", " 0", " 0 0", "0\n", " 0\n", "\nv 0\n", "v 0\n",
];

/// Whether a good text begins so.
fn begins_good(good: Good, most: i64, start: &str) -> bool {
    let ends = NUMBER_ENDS.iter();
    let mut ends = ends.flat_map(|end| TEXT_ENDS.map(|last| format!("{start}{end}{last}\n")));
    ends.any(|text| good(most, &text) || good(most, &text[..text.len() - 1]))
}

/// The offset of a number that its last byte takes beyond the most, or else of that byte.
fn place_of_last(most: i64, text: &str) -> usize {
    let separators = |byte: char| byte == ' ' || byte == '\n';
    let start = text.rfind(separators).map_or(0, |at| at + 1);
    let word = &text[start..];
    let beyond = is_number(word, i64::MAX) && !is_number(word, most);
    if beyond {
        start
    } else {
        text.len() - 1
    }
}

/// What a reader answers about bad text, or none where the text is good.
type Reader = fn(most: i64, text: &str) -> Option<Refusal>;

fn clause_reader(_: i64, text: &str) -> Option<Refusal> {
    read_text(text.as_bytes(), &mut [0; 20]).err()
}

/// Refusals 19 and 11 are given to good text alone.
fn reply_reader(most: i64, text: &str) -> Option<Refusal> {
    let refusal = read_reply(most as u32, text.as_bytes(), &mut [0; 20]).err();
    refusal.filter(|refusal| refusal.number == 18)
}

/// Tries every text that goes on from a good start by up to so many bytes; answers how many.
fn try_all(good: Good, reader: Reader, most: i64, start: &str, bytes: usize) -> usize {
    let whole = (!good(most, start)).then(|| refusal(18, start.len()));
    assert_eq!(reader(most, start), whole, "{start:?}");
    if bytes == 0 {
        return 1;
    }
    let mut tried = 1;
    for &byte in BYTES {
        let longer = format!("{start}{}", byte as char);
        if begins_good(good, most, &longer) {
            tried += try_all(good, reader, most, &longer, bytes - 1);
            continue;
        }
        let place = place_of_last(most, &longer);
        for behind in ["", " 0\n", "x", "-"] {
            let text = format!("{longer}{behind}");
            assert_eq!(reader(most, &text), Some(refusal(18, place)), "{text:?}");
            tried += 1;
        }
    }
    tried
}

#[test]
fn clause_texts_of_up_to_six_bytes_behind_the_first_line() {
    let mut tried = 0;
    for most in [0, 1, 2, 12, 20] {
        for clauses in 0..=2 {
            let start = format!("p cnf {most} {clauses}\n");
            tried += try_all(good_clauses, clause_reader, most, &start, 6);
        }
    }
    assert!(tried > 150_000, "{tried}");
}

#[test]
fn replies_of_up_to_nine_bytes_behind_the_first_line() {
    let mut tried = 0;
    for most in [0, 1, 2, 12, 20] {
        tried += try_all(good_reply, reply_reader, most, "s SATISFIABLE\n", 9);
    }
    assert!(tried > 80_000, "{tried}");
}

/// Each byte behind a start of a first line is wrong, where neither of the two lines goes on so.
#[test]
fn first_lines_of_replies() {
    let lines = ["s SATISFIABLE\n", "s UNSATISFIABLE\n"];
    let begins_a_line = |text: &[u8]| lines.iter().any(|line| line.as_bytes().starts_with(text));
    for line in lines {
        for at in 0..line.len() {
            let start = &line.as_bytes()[..at];
            let bad = Err(refusal(18, at));
            assert_eq!(read_reply(1, start, &mut [0]), bad);
            for byte in 0..=255 {
                let text = [start, &[byte]].concat();
                if !begins_a_line(&text) {
                    assert_eq!(read_reply(1, &text, &mut [0]), bad);
                }
            }
        }
    }
}

/// Each byte behind a start of a clause text's first line is wrong, where no first line goes on so.
#[test]
fn first_lines_of_clause_texts() {
    let counts = ["0", "1", "90", "2147483640", "2147483647"];
    for (n, m) in counts.iter().flat_map(|n| counts.map(|m| (n, m))) {
        let line = format!("p cnf {n} {m}\n");
        for at in 0..line.len() {
            let start = &line.as_bytes()[..at];
            let bad = Err(refusal(18, at));
            assert_eq!(read_text(start, &mut []), bad);
            for byte in 0..=255_u8 {
                let text = [start, &[byte]].concat();
                if !begins_first_line(&text) {
                    assert_eq!(read_text(&text, &mut []), bad);
                }
            }
        }
    }
}

/// Whether words and counts of a first line stand there, the last of them perhaps unfinished.
fn begins_first_line(text: &[u8]) -> bool {
    let Ok(text) = std::str::from_utf8(text) else {
        return false;
    };
    let is_count = |word: &str| is_number(word, i64::from(i32::MAX)) && !word.starts_with('-');
    let line = text.strip_suffix('\n').unwrap_or(text);
    let words: Vec<&str> = line.split(' ').collect();
    let ended = line != text;
    match words[..] {
        ["p", "cnf", n, m] => is_count(n) && (is_count(m) || m.is_empty() && !ended),
        ["p", "cnf", n] => !ended && (is_count(n) || n.is_empty()),
        ["p", word] => !ended && "cnf".starts_with(word),
        [word] => !ended && "p".starts_with(word),
        _ => false,
    }
}
