//! The table: what its columns mean, and a line for each board and operation.

use crate::measures::{Line, Measured};
use crate::programs::{Operation, Program};

/// What is said before the table.
pub fn explanation(others: &[Box<dyn Program>], instructions: bool) -> String {
    let mut text = "\
CPU times of one thread for one call. Each program has three warm runs after a call that is not counted, the programs
take turns five times (once where a call takes over 20 ms), and the least is shown. A ratio is the library's time over
that of the program before it: above 1, the library is slower. \"fill\" is the time of a fill of the same list with
zeros, warm too, as a share of Compile's.
strong   a peer written by hand for speed, with all checks of 01; its Decode does not look at every clause
second   the second program, written for comparison and not for speed; - where the board is too large for it
"
    .to_string();
    if others.iter().any(|program| program.name() == "earlier") {
        text.push_str("earlier  the earlier build of the library that was named\n");
    }
    text.push_str(if instructions {
        "instr.   instructions of Compile for each number of its list\n"
    } else {
        "Instructions are not shown: this machine's counter is closed (--valgrind counts them without it).\n"
    });
    text
}

pub fn heading(others: &[Box<dyn Program>], instructions: bool) -> String {
    let mut text = format!("\n{:12}{:>10}", "", "library");
    for program in others {
        text.push_str(&format!("{:>12}{:>8}", program.name(), "ratio"));
    }
    text.push_str(&format!("{:>9}", "fill"));
    text.push_str(if instructions { "  instr.\n" } else { "\n" });
    text
}

/// A board's name and sizes, and its lines.
pub fn rows(measured: &Measured) -> String {
    let [_, variables, clauses, numbers] = measured.sizes.map(grouped);
    let megabytes = measured.numbers() as f64 * 4e-6;
    let mut text = format!(
        "\n{}: {}\n  record {} bytes, N {variables}, M {clauses}, K {numbers}, list {megabytes:.1} MB\n",
        measured.board.name,
        measured.board.title,
        grouped(measured.board.record.len() as u64),
    );
    for line in &measured.lines {
        text.push_str(&row(line, measured.numbers()));
        if line.operation == Operation::ReadText {
            text.push_str(&solvers(line.library, &measured.solvers));
        }
    }
    text
}

/// What solvers said of their own reading, and the library's time over it.
fn solvers(library: f64, seconds: &[(&str, f64)]) -> String {
    let row = |&(name, seconds): &(&str, f64)| {
        let name = format!("{name}'s parser");
        format!("    {name:20}{:>10}{:>8}\n", time(seconds), ratio(library / seconds))
    };
    seconds.iter().map(row).collect()
}

fn row(line: &Line, numbers: u64) -> String {
    let mut text = format!("  {:10}{:>10}", line.operation.name(), time(line.library));
    for other in &line.others {
        text.push_str(&match other {
            Some(seconds) => format!("{:>12}{:>8}", time(*seconds), ratio(line.library / seconds)),
            None => format!("{:>12}{:>8}", "-", "-"),
        });
    }
    if let Some(fill) = line.fill {
        text.push_str(&format!("{:>7.1} %", 100.0 * fill / line.library));
    }
    if let Some(instructions) = line.instructions {
        text.push_str(&format!("{:>8.1}", instructions as f64 / numbers as f64));
    }
    text + "\n"
}

/// Three digits or more, and the unit that fits.
fn time(seconds: f64) -> String {
    match seconds {
        _ if seconds < 1e-3 => format!("{:.2} us", 1e6 * seconds),
        _ if seconds < 1.0 => format!("{:.2} ms", 1e3 * seconds),
        _ => format!("{seconds:.2} s"),
    }
}

/// Three digits or more.
fn ratio(ratio: f64) -> String {
    let places = if ratio < 10.0 { 2 } else { usize::from(ratio < 100.0) };
    format!("{ratio:.places$}")
}

/// A number with a comma after each three digits.
fn grouped(number: u64) -> String {
    let digits = number.to_string();
    let mut text = String::new();
    for (index, digit) in digits.chars().enumerate() {
        if index > 0 && (digits.len() - index).is_multiple_of(3) {
            text.push(',');
        }
        text.push(digit);
    }
    text
}

#[cfg(test)]
mod tests {
    use super::*;

    #[test]
    fn numbers_are_grouped_by_three_digits() {
        let numbers = [0, 999, 1_000, 65_536, 1_999_999_999];
        let expected = ["0", "999", "1,000", "65,536", "1,999,999,999"];
        assert_eq!(numbers.map(grouped), expected);
    }

    #[test]
    fn ratios_have_three_digits_or_more() {
        assert_eq!(
            [0.031, 2.5, 13.31, 1_904_207.4].map(ratio),
            ["0.03", "2.50", "13.3", "1904207"]
        );
    }

    #[test]
    fn times_have_the_unit_that_fits() {
        assert_eq!([4e-7, 2.5e-3, 4.5].map(time), ["0.40 us", "2.50 ms", "4.50 s"]);
    }
}
