//! The programs that are measured, behind one face.

mod earlier;
mod library;
mod peer;
mod second;

pub use self::earlier::Earlier;
pub use self::library::Library;
pub use self::peer::Strong;
pub use self::second::Second;

/// As in the C interface: {0, N, M, K} for Size, Compile and ReadText, {0, length, 0, 0} for WriteText, {0, 0, 0, 0} for
/// the others, or {refusal, detail, 0, 0}.
pub type Answer = [u64; 4];

pub const ACCEPTED: Answer = [0; 4];

#[derive(Debug, Clone, Copy, PartialEq, Eq)]
pub enum Operation {
    Size,
    Compile,
    Decode,
    Judge,
    Image,
    WriteText,
    ReadText,
    ReadReply,
}

impl Operation {
    pub const ALL: [Operation; 8] = [
        Operation::Size,
        Operation::Compile,
        Operation::Decode,
        Operation::Judge,
        Operation::Image,
        Operation::WriteText,
        Operation::ReadText,
        Operation::ReadReply,
    ];

    pub fn name(self) -> &'static str {
        match self {
            Operation::Size => "Size",
            Operation::Compile => "Compile",
            Operation::Decode => "Decode",
            Operation::Judge => "Judge",
            Operation::Image => "Image",
            Operation::WriteText => "WriteText",
            Operation::ReadText => "ReadText",
            Operation::ReadReply => "ReadReply",
        }
    }

    /// Whether it looks at every clause of the list, or writes it.
    pub fn goes_through_clauses(self) -> bool {
        matches!(self, Operation::Compile | Operation::Decode | Operation::WriteText)
    }

    /// A reader's: the operation that leaves what it has to leave.
    pub fn source(self) -> Option<Operation> {
        match self {
            Operation::ReadText => Some(Operation::Compile),
            Operation::ReadReply => Some(Operation::Image),
            _ => None,
        }
    }

    /// Whether it writes or reads text.
    pub fn is_of_text(self) -> bool {
        matches!(self, Operation::WriteText | Operation::ReadText | Operation::ReadReply)
    }
}

/// Everything that the operations read and write.
#[derive(Debug, Clone, Default, PartialEq, Eq)]
pub struct Desk {
    pub record: Vec<u8>,
    /// Compile and ReadText write it.
    pub list: Vec<i32>,
    /// Image and ReadReply write it, and Decode reads it.
    pub model: Vec<u8>,
    /// Judge and Image read them, and Decode writes them.
    pub values: Vec<i32>,
    pub booleans: Vec<u8>,
    /// WriteText writes it, and ReadText reads it.
    pub text: Vec<u8>,
    /// ReadReply reads it.
    pub reply: Vec<u8>,
}

pub trait Program {
    fn name(&self) -> &'static str;

    /// Whether it has this operation.
    fn does(&self, operation: Operation) -> bool;

    /// Operations that go through the clauses of a board are left out where it has more of them than this.
    fn most_clauses(&self) -> u64 {
        u64::MAX
    }

    fn run(&self, operation: Operation, desk: &mut Desk) -> Answer;
}
