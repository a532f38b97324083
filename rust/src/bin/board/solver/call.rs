//! The words that a solver is called with, and where it writes its reply.

use std::path::Path;

/// Stands for the clause file.
const CNF: &str = "{cnf}";
/// Stands for a file that the solver writes its reply to.
const REPLY: &str = "{reply}";

#[derive(Debug, PartialEq, Eq)]
pub struct Call {
    pub words: Vec<String>,
    /// Whether the reply is in the reply file; otherwise it is the solver's standard output.
    pub has_reply_file: bool,
}

impl Call {
    /// The clause file goes behind the user's words where none of them names it, and for minisat so does the reply file.
    pub fn new(program: &str, words: &[&str], cnf: &str, reply: &str) -> Call {
        let is_named = |mark| words.iter().any(|word| word.contains(mark));
        let (names_cnf, names_reply) = (is_named(CNF), is_named(REPLY));
        let filled = words.iter().map(|word| word.replace(CNF, cnf).replace(REPLY, reply));
        let mut words: Vec<String> = filled.collect();
        if !names_cnf {
            words.push(cnf.to_string());
        }
        let needs_reply = !names_reply && is_minisat(program);
        if needs_reply {
            words.push(reply.to_string());
        }
        Call { words, has_reply_file: names_reply || needs_reply }
    }
}

/// Minisat tells its model only to a file that is named after the clause file.
fn is_minisat(program: &str) -> bool {
    let name = Path::new(program).file_name().and_then(|name| name.to_str());
    name.is_some_and(|name| name.starts_with("minisat"))
}

#[cfg(test)]
mod tests {
    use super::*;

    /// The words of a call in one line, and whether there is a reply file.
    fn called(program: &str, words: &[&str]) -> (String, bool) {
        let call = Call::new(program, words, "t/c", "t/r");
        (call.words.join(" "), call.has_reply_file)
    }

    #[test]
    fn files_stand_where_they_are_named() {
        assert_eq!(called("kissat", &["{cnf}", "-q"]), ("t/c -q".to_string(), false));
        let words = ["--out={reply}", "--in", "{cnf}"];
        assert_eq!(called("other", &words), ("--out=t/r --in t/c".to_string(), true));
        assert_eq!(
            called("sh", &["-c", "a <{cnf} >{reply}"]),
            ("-c a <t/c >t/r".to_string(), true)
        );
    }

    #[test]
    fn the_clause_file_goes_last_where_it_is_not_named() {
        assert_eq!(called("cadical", &[]), ("t/c".to_string(), false));
        assert_eq!(called("cadical", &["-q"]), ("-q t/c".to_string(), false));
        assert_eq!(called("other", &["-o", "{reply}"]), ("-o t/r t/c".to_string(), true));
    }

    #[test]
    fn minisat_is_given_a_reply_file() {
        assert_eq!(called("minisat", &["-verb=0"]), ("-verb=0 t/c t/r".to_string(), true));
        assert_eq!(called("bin/minisat_static", &["{cnf}"]), ("t/c t/r".to_string(), true));
        assert_eq!(called("minisat", &["{cnf}", "{reply}"]), ("t/c t/r".to_string(), true));
        assert_eq!(called("minisat/other", &[]), ("t/c".to_string(), false));
    }
}
