//! A board on the desk: every program is compared with the library, and then measured.

use crate::boards::{Board, Kind};
use crate::clock::least_seconds;
use crate::instructions::Counter;
use crate::programs::{Answer, Desk, Library, Operation, Program};
use crate::solvers::reading_seconds;
use std::hint::black_box;

/// All measures of a board.
pub struct Measured {
    pub board: Board,
    pub sizes: Answer,
    pub lines: Vec<Line>,
    /// Seconds that solvers take to read its text, where they were asked.
    pub solvers: Vec<(&'static str, f64)>,
}

/// The measures of an operation.
pub struct Line {
    pub operation: Operation,
    pub library: f64,
    /// Seconds of the other programs in their order, but for those that the board is too large for.
    pub others: Vec<Option<f64>>,
    /// Compile's alone: seconds of a fill of its list, and its instructions.
    pub fill: Option<f64>,
    pub instructions: Option<u64>,
}

impl Measured {
    /// K.
    pub fn numbers(&self) -> u64 {
        self.sizes[3]
    }

    /// None where the board is too large for the operation.
    pub fn line(&self, operation: Operation) -> Option<&Line> {
        self.lines.iter().find(|line| line.operation == operation)
    }
}

/// Runs all programs on a board, first for what they answer, then for how long they take.
pub fn measured(
    board: Board,
    others: &[Box<dyn Program>],
    counter: &Counter,
    with_solvers: bool,
) -> Measured {
    let mut desk = laid_out(&board);
    let sizes = Library.run(Operation::Size, &mut desk);
    let mut lines = Vec::new();
    for operation in operations(&board) {
        let present = |program: &dyn Program| {
            let few = !operation.goes_through_clauses() || sizes[2] <= program.most_clauses();
            program.does(operation) && few
        };
        let others: Vec<Option<&dyn Program>> = others
            .iter()
            .map(|program| Some(program.as_ref()).filter(|&one| present(one)))
            .collect();
        compare(&board, operation, &others, &mut desk);
        let mut line = line(operation, &others, &mut desk);
        if operation == Operation::Compile {
            line.instructions = counter.of_compile(&board, || {
                black_box(Library.run(operation, &mut desk));
            });
        }
        lines.push(line);
    }
    let solvers = if with_solvers { reading_seconds(&desk.text) } else { Vec::new() };
    Measured { board, sizes, lines, solvers }
}

/// A text of gigabytes is neither written nor read.
pub fn operations(board: &Board) -> impl Iterator<Item = Operation> {
    let huge = board.kind == Kind::Huge;
    Operation::ALL.into_iter().filter(move |operation| !huge || !operation.is_of_text())
}

/// A board's record and solution, its text and a reply with its model, and room for its list and its model.
pub fn laid_out(board: &Board) -> Desk {
    let mut desk = Desk {
        record: board.record.clone(),
        values: board.values.clone(),
        booleans: board.booleans.clone(),
        ..Desk::default()
    };
    let sizes = Library.run(Operation::Size, &mut desk);
    let [0, variables, _, numbers] = sizes else {
        panic!("{} is refused: {sizes:?}", board.name);
    };
    desk.list = vec![0; numbers as usize];
    desk.model = vec![0; variables as usize];
    Library.run(Operation::Image, &mut desk);
    if board.kind != Kind::Huge {
        let [10, length, ..] = Library.run(Operation::WriteText, &mut desk) else {
            panic!("{}: a text has room in no bytes", board.name);
        };
        desk.text = vec![0; length as usize];
        Library.run(Operation::WriteText, &mut desk);
        desk.reply = reply_of(&desk.model);
    }
    desk
}

/// As solvers print it: some numbers in each line.
fn reply_of(model: &[u8]) -> Vec<u8> {
    let mut reply = "s SATISFIABLE".to_string();
    for (index, &byte) in model.iter().enumerate() {
        let line = if index % 12 == 0 { "\nv" } else { "" };
        let sign = if byte == 0 { "-" } else { "" };
        reply.push_str(&format!("{line} {sign}{}", index + 1));
    }
    reply.push_str(if model.is_empty() { "\nv 0\n" } else { " 0\n" });
    reply.into_bytes()
}

/// Every program has to answer and write what the library does.
fn compare(board: &Board, operation: Operation, others: &[Option<&dyn Program>], desk: &mut Desk) {
    let expected = outcome(&Library, operation, desk);
    assert_eq!(expected.0[0], 0, "{}: {operation:?} is accepted", board.name);
    for program in others.iter().flatten() {
        let found = outcome(*program, operation, desk);
        assert!(found == expected, "{}: {operation:?} of {}", board.name, program.name());
    }
    if let Some(source) = operation.source() {
        let written = outcome(&Library, source, desk).1;
        assert!(written == expected.1, "{}: {operation:?} gives what was written", board.name);
    }
    assert_eq!(desk.values, board.values, "{}: {operation:?} leaves the solution", board.name);
}

/// What an operation answers, and the sum of what it writes over blank lists.
fn outcome(program: &dyn Program, operation: Operation, desk: &mut Desk) -> (Answer, u64) {
    match operation {
        Operation::Size | Operation::Judge => {}
        Operation::Compile | Operation::ReadText => desk.list.fill(i32::MIN),
        Operation::Image | Operation::ReadReply => desk.model.fill(2),
        Operation::WriteText => desk.text.fill(0),
        Operation::Decode => {
            desk.values.fill(i32::MIN);
            desk.booleans.fill(2);
        }
    }
    let answer = program.run(operation, desk);
    let sum = match operation {
        Operation::Size | Operation::Judge => 0,
        Operation::Compile | Operation::ReadText => {
            checksum(desk.list.iter().map(|&number| number as u64))
        }
        Operation::Image | Operation::ReadReply => checksum(bytes(&desk.model)),
        Operation::WriteText => checksum(bytes(&desk.text)),
        Operation::Decode => {
            let values = desk.values.iter().map(|&value| value as u64);
            checksum(values.chain(bytes(&desk.booleans)))
        }
    };
    (answer, sum)
}

fn bytes(list: &[u8]) -> impl Iterator<Item = u64> + '_ {
    list.iter().map(|&byte| u64::from(byte))
}

/// A sum in which order counts, so that a list of gigabytes need not be kept twice.
fn checksum(numbers: impl Iterator<Item = u64>) -> u64 {
    numbers.fold(0, |sum, number| (sum.rotate_left(5) ^ number).wrapping_mul(0x9E37_79B9_7F4A_7C15))
}

/// The times of the library, of the other programs, and for Compile of a fill.
fn line(operation: Operation, others: &[Option<&dyn Program>], desk: &mut Desk) -> Line {
    let programs: Vec<&dyn Program> = others.iter().flatten().copied().collect();
    let has_fill = operation == Operation::Compile;
    let candidates = 1 + programs.len() + usize::from(has_fill);
    let seconds = least_seconds(candidates, |candidate| {
        let program = match candidate {
            0 => &Library,
            _ if candidate > programs.len() => return black_box(&mut desk.list[..]).fill(0),
            _ => programs[candidate - 1],
        };
        black_box(program.run(operation, black_box(desk)));
    });
    let mut seconds = seconds.into_iter();
    let mut next = || seconds.next().expect("every candidate has a time");
    Line {
        operation,
        library: next(),
        others: others.iter().map(|other| other.map(|_| next())).collect(),
        fill: has_fill.then(next),
        instructions: None,
    }
}

#[cfg(test)]
mod tests {
    use super::*;
    use crate::boards;
    use crate::programs::{Second, Strong};

    /// The program with a byte of Image wrong.
    struct Wrong;

    impl Program for Wrong {
        fn name(&self) -> &'static str {
            "wrong"
        }

        fn does(&self, _: Operation) -> bool {
            true
        }

        fn run(&self, operation: Operation, desk: &mut Desk) -> Answer {
            let answer = Library.run(operation, desk);
            if operation == Operation::Image {
                desk.model[0] ^= 1;
            }
            answer
        }
    }

    fn compare_all(board: &Board, others: &[Option<&'static dyn Program>]) {
        let mut desk = laid_out(board);
        for operation in operations(board) {
            let does =
                |other: Option<&'static dyn Program>| other.filter(|one| one.does(operation));
            let others: Vec<_> = others.iter().copied().map(does).collect();
            compare(board, operation, &others, &mut desk);
        }
    }

    #[test]
    fn all_programs_are_equal_on_the_boards() {
        for board in boards::all().iter().filter(|board| board.kind != Kind::Huge) {
            let small = board.kind != Kind::Worst;
            let second = small.then_some(&Second as &dyn Program);
            compare_all(board, &[Some(&Strong), second]);
        }
    }

    #[test]
    #[should_panic(expected = "over16: Image of wrong")]
    fn a_wrong_byte_is_found() {
        let all = boards::all();
        let board = all.iter().find(|board| board.name == "over16").expect("there is over16");
        compare_all(board, &[Some(&Wrong)]);
    }

    #[test]
    fn order_counts_in_a_checksum() {
        let sums =
            [[1, 2, 0], [2, 1, 0], [1, 0, 2], [1, 2, 3]].map(|list| checksum(list.into_iter()));
        assert!((1..4).all(|index| !sums[..index].contains(&sums[index])), "{sums:?}");
    }
}
