//! A solver's reply: read by the library, and what it refuses said in words, at the place in what the solver printed.
//!
//! What solvers print beside the library's form is seen to by replies.rs. A "no" is taken on the solver's word, so a reply of which
//! a part is not understood is no reply.

use crate::complaint::{Complaint, Spot};
use crate::replies::{formed, variable_of, Formed, Kind, Piece, Verdict};
use basmuthar::Refusal;

/// The refusal of a reply with a variable missing or present twice; those that are missing are false before that.
const TWICE: u64 = 19;

#[derive(Debug, PartialEq, Eq)]
pub enum Reply {
    /// A byte for each SAT variable, 0 or 1.
    Model(Vec<u8>),
    NoSolution,
    /// The solver gave up.
    Unknown,
}

/// A reply that cannot be read, and why.
#[derive(Debug, PartialEq, Eq)]
pub struct Unread {
    pub fault: Fault,
    pub complaint: Complaint,
}

#[derive(Debug, Clone, Copy, PartialEq, Eq)]
pub enum Fault {
    /// No verdict, or something that is no part of a reply.
    NoVerdict,
    TwoVerdicts,
    /// The verdict is yes, and its numbers are wrong or not all there.
    NoModel,
}

/// Reads a reply about so many SAT variables. A variable that it leaves out is taken as false.
pub fn read_reply(printed: &str, variables: usize) -> Result<Reply, Unread> {
    let formed = formed(printed, variables);
    if formed.verdicts() == [Verdict::Unknown] {
        return Ok(Reply::Unknown);
    }
    let mut model = vec![0; variables];
    // No record has more than 2^24 SAT variables.
    match basmuthar::read_reply(variables as u32, formed.text.as_bytes(), &mut model) {
        Ok(basmuthar::Reply::Model) => Ok(Reply::Model(model)),
        Ok(basmuthar::Reply::None) => Ok(Reply::NoSolution),
        Err(refusal) => {
            let end = Spot { line: printed.lines().count().max(1), column: 1 };
            Err(unread(&formed, variables, refusal, end))
        }
    }
}

/// A refusal in words, at the piece that it belongs to, or at the end where something is missing.
fn unread(formed: &Formed, variables: usize, refusal: Refusal, end: Spot) -> Unread {
    let piece = match refusal.number {
        TWICE => second_of(formed, refusal.detail),
        _ => formed.piece_at(refusal.detail as usize),
    };
    let (fault, words) = match (&formed.verdicts()[..], piece) {
        ([_, _, ..], _) => (Fault::TwoVerdicts, "expected one verdict only".to_string()),
        (_, Some(piece)) if piece.kind == Kind::Other => {
            let words = "expected a line of `c` or `v`, or the one line of `s`";
            (Fault::NoVerdict, words.to_string())
        }
        ([Verdict::Yes], Some(piece)) => {
            (Fault::NoModel, number_words(formed, piece, variables, refusal))
        }
        ([Verdict::Yes], None) => {
            (Fault::NoModel, "expected lines of `v`, with a 0 at their end".to_string())
        }
        ([], _) => {
            let words = "expected a line `s SATISFIABLE` or `s UNSATISFIABLE`";
            (Fault::NoVerdict, words.to_string())
        }
        _ => (Fault::NoVerdict, "expected no line of `v` beside a no".to_string()),
    };
    let spot = piece.map_or(end, |piece| piece.spot);
    Unread {
        fault,
        complaint: Complaint::new(spot, format!("refusal {}: {words}", refusal.number)),
    }
}

/// The second word that speaks of a variable.
fn second_of<'a, 'b>(formed: &'b Formed<'a>, variable: u64) -> Option<&'b Piece<'a>> {
    let speaks_of_it =
        |piece: &&Piece| piece.kind == Kind::Numbers && variable_of(piece.word) == Some(variable);
    formed.pieces.iter().filter(speaks_of_it).nth(1)
}

/// What is wrong with a number of a yes.
fn number_words(formed: &Formed, piece: &Piece, most: usize, refusal: Refusal) -> String {
    let word = piece.word;
    let mut before = formed.pieces.iter().take_while(|other| other.at < piece.at);
    if word.is_empty() {
        "expected a number in a line of `v`".to_string()
    } else if refusal.number == TWICE {
        format!("expected each variable once, found `{word}` again")
    } else if before.any(|other| other.kind == Kind::Numbers && other.word == "0") {
        format!("expected nothing after the 0, found `{word}`")
    } else {
        format!("expected a number from -{most} to {most}, found `{word}`")
    }
}

#[cfg(test)]
mod tests {
    use super::*;

    #[test]
    fn a_reply_is_read_to_a_byte_for_each_variable() {
        let text = "c a solver's words\ns SATISFIABLE\nv 1 -2\nv 4 0\n";
        assert_eq!(read_reply(text, 5), Ok(Reply::Model(vec![1, 0, 0, 1, 0])));
        assert_eq!(read_reply("s UNSATISFIABLE\n", 5), Ok(Reply::NoSolution));
        assert_eq!(read_reply("c\ns UNKNOWN\n", 5), Ok(Reply::Unknown));
        assert_eq!(read_reply("s SATISFIABLE\nv 0\n", 0), Ok(Reply::Model(vec![])));
    }

    #[test]
    fn the_form_of_minisat_is_read_too() {
        assert_eq!(read_reply("SAT\n1 -2 4 0\n", 5), Ok(Reply::Model(vec![1, 0, 0, 1, 0])));
        assert_eq!(read_reply("SAT\n 2 0\n", 2), Ok(Reply::Model(vec![0, 1])));
        assert_eq!(read_reply("UNSAT\n", 5), Ok(Reply::NoSolution));
        assert_eq!(read_reply("INDET\n", 5), Ok(Reply::Unknown));
    }

    #[test]
    fn a_reply_that_is_not_one_is_complained_about() {
        use Fault::{NoModel, NoVerdict, TwoVerdicts};
        let verdict = "18: expected a line `s SATISFIABLE` or `s UNSATISFIABLE`";
        let line = "18: expected a line of `c` or `v`, or the one line of `s`";
        let two = "18: expected one verdict only";
        let end = "18: expected lines of `v`, with a 0 at their end";
        let beyond = "18: expected a number from -5 to 5, found `6`";
        let no_number = "18: expected a number from -5 to 5, found `x`";
        let after = "18: expected nothing after the 0, found `2`";
        let bare = "18: expected a number in a line of `v`";
        let beside_no = "18: expected no line of `v` beside a no";
        let no_break = "18: expected a number from -5 to 5, found `0\u{a0}`";
        let again = "19: expected each variable once, found `-1` again";
        let rows = [
            ("", NoVerdict, 1, 1, verdict),
            ("c UNKNOWN\n", NoVerdict, 1, 1, verdict),
            ("c\nv 1 2 0\n", NoVerdict, 2, 3, verdict),
            ("SATISFIABLE\n", NoVerdict, 1, 1, line),
            ("s UNSATISFIABLE\ncalculated\n", NoVerdict, 2, 1, line),
            ("s UNSATISFIABLE\nv 1 0\n", NoVerdict, 2, 3, beside_no),
            ("s UNSATISFIABLE\nv\n", NoVerdict, 2, 1, beside_no),
            ("s UNSATISFIABLE\u{a0}\n", NoVerdict, 1, 1, line),
            ("s SATISFIABLE\n1 -2 0\n", NoVerdict, 2, 1, line),
            ("s SATISFIABLE\ns SATISFIABLE\n", TwoVerdicts, 2, 1, two),
            ("SAT\n1 0\ns UNSATISFIABLE\n", TwoVerdicts, 3, 1, two),
            ("s SATISFIABLE\nv 1 -2\n", NoModel, 2, 1, end),
            ("SAT\n", NoModel, 1, 1, end),
            ("s SATISFIABLE\nv\nv 1 0\n", NoModel, 2, 1, bare),
            ("s SATISFIABLE\nv 1 0\nv \n", NoModel, 3, 1, bare),
            ("s SATISFIABLE\nv 1 0\u{a0}\n", NoModel, 2, 5, no_break),
            ("s SATISFIABLE\nv 1 6 0\n", NoModel, 2, 5, beyond),
            ("SAT\n1 x 0\n", NoModel, 2, 3, no_number),
            ("s SATISFIABLE\nv 1 -1 0\n", NoModel, 2, 5, again),
            ("s SATISFIABLE\nv 3 1\nv -1 2 -3 0\n", NoModel, 3, 3, again),
            ("s SATISFIABLE\nv 1 0 2\n", NoModel, 2, 7, after),
            ("s SATISFIABLE\nv 1 0\nv 2 0\n", NoModel, 3, 3, after),
        ];
        for (text, fault, line, column, words) in rows {
            let complaint = Complaint::new(Spot { line, column }, format!("refusal {words}"));
            assert_eq!(read_reply(text, 5), Err(Unread { fault, complaint }), "{text}");
        }
    }
}
