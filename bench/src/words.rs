//! What the words behind the program's name ask for.

use crate::boards::{self, Board, Kind};
use crate::programs::Operation;

pub const HELP: &str = "\
How fast the proved library is, beside a strong peer, the second program and a fill of memory.

    cargo run --release -- [OPTION].. [BOARD]..

BOARD        week shop gp03 sums large booleans over1024 over16 terms literals bounds cube;
             all of these if none is named
ceiling      a board with a list of 8 GB: takes about two minutes
worst        terms literals bounds cube ceiling
--valgrind   counts the instructions of Compile by valgrind, where the machine's counter is closed
--solvers    reads the longer texts by minisat and cadical, too, which tell how long their parsers took
--earlier FILE
             measures an earlier build of the library, too; FILE is made of its libbasmuthar.a:
             cc -shared -o FILE -Wl,--whole-archive EARLIER/libbasmuthar.a -Wl,--no-whole-archive
--once BOARD OPERATION [PROGRAM]
             does one operation (size compile decode judge image writetext readtext readreply) once and measures
             nothing, so that another program can: valgrind --tool=callgrind --toggle-collect=basmuthar_compile, or perf stat, which counts what is
             made ready, too; PROGRAM is library (if none is named), strong, second or earlier
--help       this text
";

#[derive(Default)]
pub struct Wish {
    pub help: bool,
    pub valgrind: bool,
    pub solvers: bool,
    /// The file of an earlier build.
    pub earlier: Option<String>,
    /// An operation to do once on the only board, and the program to do it.
    pub once: Option<(Operation, String)>,
    pub boards: Vec<Board>,
}

/// What is wished for, or what is wrong with a word.
pub fn wish(words: impl IntoIterator<Item = String>) -> Result<Wish, String> {
    let mut words = words.into_iter();
    let mut wish = Wish::default();
    let mut names = Vec::new();
    while let Some(word) = words.next() {
        let mut next = |what| words.next().ok_or(format!("{word} needs {what}"));
        match word.as_str() {
            "--help" => wish.help = true,
            "--valgrind" => wish.valgrind = true,
            "--solvers" => wish.solvers = true,
            "--earlier" => wish.earlier = Some(next("a file")?),
            "--once" => {
                names = vec![next("a board")?];
                let operation = operation(&next("an operation")?)?;
                wish.once = Some((operation, words.next().unwrap_or("library".to_string())));
            }
            _ => names.push(word),
        }
    }
    wish.boards = chosen(&names)?;
    Ok(wish)
}

fn operation(word: &str) -> Result<Operation, String> {
    let mut all = Operation::ALL.into_iter();
    let found = all.find(|operation| operation.name().eq_ignore_ascii_case(word));
    found.ok_or(format!("there is no operation {word}"))
}

/// The boards of these names, in the order of the table.
fn chosen(names: &[String]) -> Result<Vec<Board>, String> {
    let all = boards::all();
    for name in names {
        if name != "worst" && all.iter().all(|board| board.name != name) {
            return Err(format!("there is no board {name}"));
        }
    }
    let worst = names.iter().any(|name| name == "worst");
    let is_chosen = |board: &Board| match board.kind {
        _ if names.iter().any(|name| name == board.name) => true,
        Kind::Worst => worst || names.is_empty(),
        Kind::Huge => worst,
        Kind::Wide | Kind::Small => names.is_empty(),
    };
    Ok(all.into_iter().filter(is_chosen).collect())
}

#[cfg(test)]
mod tests {
    use super::*;

    fn names(words: &[&str]) -> Result<Vec<&'static str>, String> {
        let wish = wish(words.iter().map(|word| word.to_string()))?;
        Ok(wish.boards.iter().map(|board| board.name).collect())
    }

    #[test]
    fn boards_are_chosen_by_name_and_the_ceiling_only_where_asked_for() {
        let usual = names(&[]).unwrap();
        assert_eq!((usual.len(), usual.contains(&"ceiling")), (12, false));
        assert!(usual.iter().all(|name| HELP.contains(name)));
        assert_eq!(names(&["sums", "--valgrind", "week"]).unwrap(), ["week", "sums"]);
        let worst = ["terms", "literals", "bounds", "cube", "ceiling"];
        assert_eq!(names(&["worst"]).unwrap(), worst);
    }

    #[test]
    fn wrong_words_are_told() {
        assert_eq!(names(&["weak"]).unwrap_err(), "there is no board weak");
        assert_eq!(names(&["--earlier"]).unwrap_err(), "--earlier needs a file");
        assert_eq!(names(&["--once", "week", "sort"]).unwrap_err(), "there is no operation sort");
    }

    #[test]
    fn an_operation_is_done_once_by_the_library_unless_another_is_named() {
        let once = |words: &[&str]| wish(words.iter().map(|word| word.to_string())).unwrap().once;
        let library = Some((Operation::Compile, "library".to_string()));
        assert_eq!(once(&["--once", "week", "compile"]), library);
        let strong = Some((Operation::Size, "strong".to_string()));
        assert_eq!(once(&["--once", "week", "Size", "strong"]), strong);
    }
}
