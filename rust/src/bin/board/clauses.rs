//! A board's clause list as DIMACS CNF: the text is the library's, and a question is added to it.

use crate::board::Board;
use crate::opened::Opened;
use basmuthar::Sizes;
use std::io::{self, Write};

pub struct Clauses {
    text: Vec<u8>,
    pub sizes: Sizes,
}

impl Clauses {
    /// The clause list of a board, of any size that there is memory for.
    pub fn of(opened: &Opened) -> Result<Clauses, String> {
        let refused = |refusal| opened.refused(refusal, None);
        let mut text = room_for(basmuthar::text_length(&opened.record).map_err(refused)?)?;
        basmuthar::write_text(&opened.record, &mut text).map_err(refused)?;
        Ok(Clauses { text, sizes: opened.sizes })
    }

    /// Writes the text as it is, or with these literals behind it as clauses of their own, which its first line counts.
    pub fn write(&self, out: &mut dyn Write, added: &[i32]) -> io::Result<()> {
        if added.is_empty() {
            out.write_all(&self.text)?;
        } else {
            let Sizes { variables, clauses, .. } = self.sizes;
            writeln!(out, "p cnf {variables} {}", clauses + added.len())?;
            out.write_all(self.after_first_line())?;
        }
        for literal in added {
            writeln!(out, "{literal} 0")?;
        }
        out.flush()
    }

    fn after_first_line(&self) -> &[u8] {
        let first = self.text.iter().take_while(|byte| **byte != b'\n').count();
        &self.text[first + 1..]
    }
}

fn room_for(length: usize) -> Result<Vec<u8>, String> {
    let mut text = Vec::new();
    text.try_reserve_exact(length)
        .map_err(|_| format!("no memory for a clause list of {length} bytes"))?;
    text.resize(length, 0);
    Ok(text)
}

/// The SAT variable that says that a number, counted from 0, is at most an hour within its bounds.
///
/// After the choices each number has one for each hour from its lower bound less 1 to its upper bound.
pub fn at_most(board: &Board, number: usize, hour: i32) -> i32 {
    let (before, from) = board.numbers.split_at(number);
    let hours = before.iter().map(|number| i32::from(number.upper) - i32::from(number.lower) + 2);
    let first = board.choices.len() as i32 + hours.sum::<i32>() + 1;
    first + hour - (i32::from(from[0].lower) - 1)
}

#[cfg(test)]
mod tests {
    use super::*;
    use crate::sheet::read_sheet;

    const TEXT: &str = "number a : -3 .. 2\nchoice s, t\nnumber b : 5 .. 5\nnumber c : 0 .. 4\n\
        a + 3 <= c or s\n";

    #[test]
    fn a_number_is_at_most_an_hour_where_the_library_says_so() {
        let board = read_sheet(TEXT).unwrap().board;
        let record = board.builder().record();
        let mut model = vec![0; basmuthar::size(&record).unwrap().variables];
        for (a, c) in (-3..=2).flat_map(|a| (0..=4).map(move |c| (a, c))) {
            let values = [a, 5, c];
            basmuthar::image(&record, &values, &[1, 0], &mut model).unwrap();
            for (number, value) in values.into_iter().enumerate() {
                let bounds = &board.numbers[number];
                for hour in i32::from(bounds.lower)..=bounds.upper.into() {
                    let byte = model[at_most(&board, number, hour) as usize - 1];
                    assert_eq!(byte == 1, value <= hour, "{number} at {value}, {hour}");
                }
            }
        }
    }

    #[test]
    fn added_literals_are_counted_and_written_last() {
        let sizes = Sizes { variables: 3, clauses: 2, numbers: 5 };
        let clauses = Clauses { text: b"p cnf 3 2\n1 -2 0\n3 0\n".to_vec(), sizes };
        let written = |added: &[i32]| {
            let mut text = Vec::new();
            clauses.write(&mut text, added).unwrap();
            String::from_utf8(text).unwrap()
        };
        assert_eq!(written(&[]), "p cnf 3 2\n1 -2 0\n3 0\n");
        assert_eq!(written(&[-3]), "p cnf 3 3\n1 -2 0\n3 0\n-3 0\n");
    }
}
