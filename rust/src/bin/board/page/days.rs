//! A day's row: the pieces of bars that are in it, one below the other where they meet.

use super::bars::Bar;
use super::calendar::{Calendar, DAY, HOUR};

/// The part of a bar that is in a day, in minutes.
pub struct Piece<'a> {
    pub bar: &'a Bar<'a>,
    pub from: i64,
    pub to: i64,
    /// Whether the bar comes from the day before.
    pub comes: bool,
    /// Whether it goes on in the next day.
    pub goes_on: bool,
    pub lane: usize,
}

pub fn pieces_of<'a>(bars: &'a [Bar<'a>], calendar: Calendar, day: i64) -> Vec<Piece<'a>> {
    let (first, last) = (day * DAY, day * DAY + DAY);
    let mut lanes: Vec<i64> = Vec::new();
    let mut pieces = Vec::new();
    for bar in bars {
        let (begin, end) = (calendar.minute(bar.begin), calendar.minute(bar.end()));
        if begin >= last || (end <= first && begin < first) {
            continue;
        }
        let (from, to) = (begin.max(first), end.min(last));
        let lane = lanes.iter().position(|taken| *taken <= from).unwrap_or(lanes.len());
        lanes.resize(lanes.len().max(lane + 1), from);
        lanes[lane] = to;
        pieces.push(Piece { bar, from, to, comes: begin < first, goes_on: end > last, lane });
    }
    pieces
}

/// The hours of a day that are drawn, in minutes.
#[derive(Debug, Clone, Copy, PartialEq, Eq)]
pub struct Span {
    pub from: i64,
    pub to: i64,
}

const WHOLE_DAY: Span = Span { from: 0, to: DAY };
/// Shorter rows would make the bars look longer than they are.
const SHORTEST: i64 = 8 * HOUR;
/// A row that is not much shorter than a day is a whole one.
const LONGEST: i64 = 16 * HOUR;

/// The whole day, or fewer hours where all bars are within them.
pub fn span_of(bars: &[Bar], calendar: Calendar) -> Span {
    let (mut from, mut to) = (DAY, 0);
    for bar in bars {
        let (begin, end) = (calendar.minute(bar.begin), calendar.minute(bar.end()));
        let midnight = begin.div_euclid(DAY) * DAY;
        from = from.min(begin - midnight);
        to = to.max(end - midnight);
    }
    let from = from.div_euclid(2 * HOUR) * 2 * HOUR;
    let to = (to + 2 * HOUR - 1).div_euclid(2 * HOUR) * 2 * HOUR;
    let to = to.max(from + SHORTEST);
    if bars.is_empty() || calendar.week.is_none() || to > DAY || to - from > LONGEST {
        WHOLE_DAY
    } else {
        Span { from, to }
    }
}

impl Span {
    pub fn is_whole_day(&self) -> bool {
        *self == WHOLE_DAY
    }

    /// Where a minute is in its day's row, in hundredths of the row.
    pub fn place(&self, minute: i64, day: i64) -> f64 {
        let since = (minute - day * DAY).clamp(self.from, self.to) - self.from;
        since as f64 * 100.0 / (self.to - self.from) as f64
    }

    pub fn hours(&self) -> impl Iterator<Item = i64> {
        self.from / HOUR..=self.to / HOUR
    }
}

#[cfg(test)]
mod tests {
    use super::*;
    use crate::board::Setting;
    use crate::page::bars::bars_on;
    use crate::sheet::read_sheet;

    const TEXT: &str = "week from Monday 00:00 step 1 h\nmachine kiln\n\
        job a on kiln takes 4 h\njob b on kiln takes 4 h\njob c on kiln takes 2 h\n";

    fn with_bars<T>(begins: [i32; 3], look: impl Fn(&[Bar], Calendar) -> T) -> T {
        let sheet = read_sheet(TEXT).unwrap();
        let setting = Setting { numbers: begins.to_vec(), choices: Vec::new() };
        look(&bars_on(&sheet, &setting, 0), Calendar { week: sheet.week })
    }

    #[test]
    fn a_bar_over_midnight_is_in_two_rows() {
        with_bars([22, 2, 60], |bars, calendar| {
            let rows = |day| {
                let pieces = pieces_of(bars, calendar, day);
                let row = |piece: &Piece| {
                    (
                        piece.bar.number,
                        piece.from / HOUR,
                        piece.to / HOUR,
                        piece.comes,
                        piece.goes_on,
                    )
                };
                pieces.iter().map(row).collect::<Vec<_>>()
            };
            assert_eq!(rows(0), [(1, 2, 6, false, false), (2, 22, 24, false, true)]);
            assert_eq!(rows(1), [(2, 24, 26, true, false)]);
            assert_eq!(rows(3), []);
        });
    }

    #[test]
    fn bars_that_meet_are_one_below_the_other() {
        with_bars([8, 10, 12], |bars, calendar| {
            let pieces = pieces_of(bars, calendar, 0);
            assert_eq!(pieces.iter().map(|piece| piece.lane).collect::<Vec<_>>(), [0, 1, 0]);
        });
    }

    #[test]
    fn fewer_hours_are_drawn_only_where_every_bar_is_within_them() {
        let hours = |begins| with_bars(begins, span_of);
        assert_eq!(hours([9, 33, 14]), Span { from: 8 * HOUR, to: 16 * HOUR });
        assert_eq!(hours([9, 33, 46]), Span { from: 8 * HOUR, to: DAY }, "a bar up to midnight");
        assert!(hours([22, 33, 14]).is_whole_day(), "a bar over midnight");
        assert!(hours([1, 33, 16]).is_whole_day(), "bars from early to late");
    }
}
