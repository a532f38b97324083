//! Words in a day's row: as much of a bar's text as has room, and the numbers that have none inside their bars.
//!
//! Rows are as wide as the page, which is known only on paper; so the words are written twice, and one of them is shown.

use super::days::Piece;
use super::html::{columns, cut, escaped};

/// How wide a row and a sign are, and the class of the words that are shown there.
pub struct Medium {
    class: &'static str,
    row: f64,
    sign: f64,
}

/// The inner width of a row on A4, and on a phone of 390 pixels, with room to spare.
pub const MEDIA: [Medium; 2] = [
    Medium { class: "paper", row: 650.0, sign: 8.0 },
    Medium { class: "phone", row: 310.0, sign: 9.0 },
];

/// Before and behind the words, and where a bar comes from the day before.
const MARGIN: f64 = 4.0;
const ARROW: f64 = 9.0;
/// A title that is cut down to fewer signs says nothing.
const SHORTEST: i64 = 5;

/// A bar's words at a height: its number and title in a line, and its clock below, as far as there is room.
pub fn inside(piece: &Piece, share: f64, is_faulty: bool, clock: &str) -> String {
    let words = MEDIA.iter().map(|medium| {
        let Some(first) = medium.first_line(piece, share, is_faulty) else {
            return String::new();
        };
        let x = if piece.comes { MARGIN + ARROW } else { MARGIN };
        let class = medium.class;
        let mut words = format!("<text class=\"{class} strong\" x=\"{x}\" y=\"15\">{first}</text>");
        if !piece.comes && medium.room(piece, share) >= columns(clock) {
            words += &format!("<text class=\"{class}\" x=\"{x}\" y=\"30\">{clock}</text>");
        }
        words
    });
    words.collect()
}

/// The numbers of the bars that have no room for them, below their begins; those that would meet stand together.
pub fn below(pieces: &[(&Piece, f64, f64, bool)], y: i64) -> String {
    let lines = MEDIA.iter().map(|medium| {
        let mut groups: Vec<(f64, String)> = Vec::new();
        for (piece, place, share, is_faulty) in pieces {
            if medium.first_line(piece, *share, *is_faulty).is_some() {
                continue;
            }
            let number = number_words(piece.bar.number, *is_faulty);
            match groups.last_mut() {
                Some((before, words)) if *before + medium.share(words) > *place => {
                    *words += &format!(", {number}");
                }
                _ => groups.push((*place, number)),
            }
        }
        groups.iter().map(|(x, words)| medium.below(*x, words, y)).collect::<String>()
    });
    lines.collect()
}

/// A line of words from a place on, or as far to the left as they need.
pub fn line(place: f64, words: &str, y: i64, class: &str) -> String {
    let lines = MEDIA.iter().map(|medium| {
        let x = place.min(100.0 - medium.share(words)).max(0.0);
        let medium = medium.class;
        format!(
            "<text class=\"{medium} {class}\" x=\"{x:.2}%\" y=\"{y}\">{}</text>",
            escaped(words)
        )
    });
    lines.collect()
}

impl Medium {
    /// How many signs have room in a piece that takes a share of the row.
    fn room(&self, piece: &Piece, share: f64) -> i64 {
        let arrows =
            if piece.comes { ARROW } else { 0.0 } + if piece.goes_on { ARROW } else { 0.0 };
        ((share * self.row / 100.0 - MARGIN - arrows) / self.sign) as i64
    }

    /// The number with as much of the title as there is room for, or nothing if there is none for the number.
    fn first_line(&self, piece: &Piece, share: f64, is_faulty: bool) -> Option<String> {
        let number = number_words(piece.bar.number, is_faulty);
        let room = self.room(piece, share);
        if columns(&number) > room {
            return None;
        }
        let left = room - columns(&number) - 1;
        let title = piece.bar.title();
        if left < SHORTEST.min(columns(title)) {
            return Some(number);
        }
        // A title that is read from right to left must not carry the number with it.
        Some(format!("{number} &#x2068;{}&#x2069;", escaped(&cut(title, left))))
    }

    fn share(&self, words: &str) -> f64 {
        columns(words) as f64 * self.sign * 100.0 / self.row
    }

    fn below(&self, place: f64, words: &str, y: i64) -> String {
        let x = place.min(100.0 - self.share(words)).max(0.0);
        format!("<text class=\"{} strong\" x=\"{x:.2}%\" y=\"{y}\">{words}</text>", self.class)
    }
}

fn number_words(number: usize, is_faulty: bool) -> String {
    let mark = if is_faulty { "✗" } else { "" };
    format!("{mark}{number}")
}

#[cfg(test)]
mod tests {
    use super::*;
    use crate::board::Setting;
    use crate::page::bars::bars_on;
    use crate::page::calendar::Calendar;
    use crate::page::days::pieces_of;
    use crate::sheet::read_sheet;

    /// Four jobs of an hour each, one after another from 08:00 on.
    fn with_pieces<T>(look: impl Fn(&[Piece]) -> T) -> T {
        let jobs = ["Mugs, glaze", "Urn", "Plates", "Bowls"].iter().enumerate();
        let jobs: String = jobs
            .map(|(index, title)| format!("job j{index} \"{title}\" on kiln takes 1 h\n"))
            .collect();
        let sheet = read_sheet(&format!("week from Monday 00:00 step 1 h\nmachine kiln\n{jobs}"));
        let sheet = sheet.unwrap();
        let setting = Setting { numbers: vec![8, 9, 10, 11], choices: Vec::new() };
        let bars = bars_on(&sheet, &setting, 0);
        look(&pieces_of(&bars, Calendar { week: sheet.week }, 0))
    }

    /// The first lines in a bar that takes this share of the row, on paper and on a phone.
    fn first_lines(piece: &Piece, share: f64) -> [Option<String>; 2] {
        [&MEDIA[0], &MEDIA[1]].map(|medium| medium.first_line(piece, share, false))
    }

    #[test]
    fn a_bar_has_as_much_of_its_title_as_there_is_room_for() {
        let isolated = |number, title| Some(format!("{number} &#x2068;{title}&#x2069;"));
        let number = |number: &str| Some(number.to_string());
        with_pieces(|pieces| {
            assert_eq!(first_lines(&pieces[0], 50.0)[0], isolated(1, "Mugs, glaze"));
            assert_eq!(first_lines(&pieces[0], 13.0), [isolated(1, "Mugs, g…"), number("1")]);
            assert_eq!(first_lines(&pieces[0], 5.0), [number("1"), number("1")]);
            assert_eq!(first_lines(&pieces[1], 8.0)[0], isolated(2, "Urn"), "short, and whole");
            assert_eq!(first_lines(&pieces[0], 2.0), [number("1"), None]);
            assert_eq!(first_lines(&pieces[0], 1.0), [None, None]);
        });
    }

    #[test]
    fn numbers_without_room_stand_below_and_join_where_they_would_meet() {
        with_pieces(|pieces| {
            let placed = |places: [f64; 4]| {
                let rows: Vec<(&Piece, f64, f64, bool)> = pieces
                    .iter()
                    .zip(places)
                    .map(|(piece, place)| (piece, place, 1.0, false))
                    .collect();
                below(&rows, 50)
            };
            let apart = placed([10.0, 30.0, 50.0, 99.9]);
            assert_eq!(apart.matches("<text").count(), 8, "{apart}");
            assert!(
                apart.contains(">4</text>") && !apart.contains("99.9"),
                "within the row: {apart}"
            );
            let close = placed([10.0, 11.0, 12.0, 60.0]);
            let joined = "<text class=\"paper strong\" x=\"10.00%\" y=\"50\">1, 2, 3</text>";
            assert!(close.starts_with(joined), "{close}");
            assert_eq!(close.matches("<text").count(), 4, "{close}");
            let rows: Vec<(&Piece, f64, f64, bool)> =
                pieces.iter().map(|piece| (piece, 10.0, 30.0, false)).collect();
            assert_eq!(below(&rows, 50), "", "all have room inside");
        });
    }
}
