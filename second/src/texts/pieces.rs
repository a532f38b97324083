//! A text in pieces: one of them can be changed, and it is known where the text is then wrong.

use super::Spoilt;
use crate::boards::dice::Dice;

#[derive(Debug, Clone, Copy, PartialEq, Eq)]
pub enum Kind {
    /// A word of a line, as it must be.
    Word,
    /// The one space that stands between two parts of a line.
    Space,
    /// N or M of the first line.
    Count,
    /// The newline that ends a line.
    LineEnd,
    /// A literal or a 0.
    Number,
    /// Spaces and newlines around the numbers of clause text.
    Gap,
}

#[derive(Debug, Clone)]
struct Piece {
    kind: Kind,
    bytes: Vec<u8>,
}

#[derive(Debug, Clone, Default)]
pub struct Pieces {
    list: Vec<Piece>,
}

impl Pieces {
    pub fn put(&mut self, kind: Kind, bytes: impl AsRef<[u8]>) {
        let bytes = bytes.as_ref().to_vec();
        self.list.push(Piece { kind, bytes });
    }

    pub fn text(&self) -> Vec<u8> {
        self.before(self.list.len())
    }

    /// The text up to this piece.
    pub fn before(&self, at: usize) -> Vec<u8> {
        let pieces = self.list[..at].iter();
        pieces.flat_map(|piece| piece.bytes.clone()).collect()
    }

    pub fn bytes(&self, at: usize) -> &[u8] {
        &self.list[at].bytes
    }

    /// Where the pieces of this kind are in the list of pieces.
    pub fn all(&self, kind: Kind) -> Vec<usize> {
        let places = 0..self.list.len();
        places.filter(|&at| self.list[at].kind == kind).collect()
    }

    /// One of the pieces of this kind, if there is any.
    pub fn any(&self, dice: &mut Dice, kind: Kind) -> Option<usize> {
        let places = self.all(kind);
        (!places.is_empty()).then(|| dice.pick(&places))
    }

    /// The text with other bytes for a piece, which is wrong from one of these bytes on.
    pub fn changed(&self, at: usize, bytes: impl AsRef<[u8]>, wrong: usize) -> Spoilt {
        let mut text = self.before(at);
        let place = text.len() + wrong;
        text.extend(bytes.as_ref());
        for piece in &self.list[at + 1..] {
            text.extend(&piece.bytes);
        }
        (text, place)
    }

    /// The text with bytes put before a piece, or at the end, wrong from one of these bytes on.
    pub fn inserted(&self, at: usize, bytes: impl AsRef<[u8]>, wrong: usize) -> Spoilt {
        let mut longer = self.clone();
        let bytes = bytes.as_ref().to_vec();
        let kind = Kind::Word;
        longer.list.insert(at, Piece { kind, bytes });
        (longer.text(), self.before(at).len() + wrong)
    }

    /// How many pieces there are.
    pub fn count(&self) -> usize {
        self.list.len()
    }
}
