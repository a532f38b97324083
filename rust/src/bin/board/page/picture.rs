//! A machine's days as pictures: a row for each day, drawn in shares of the row so that words keep their size everywhere.

use super::bars::{Bar, Clash};
use super::calendar::{DAY, HOUR};
use super::days::{pieces_of, span_of, Piece, Span};
use super::html::escaped;
use super::labels;
use super::look::Look;
use super::phases::Kinds;

/// Heights in a row: a bar, the distance to the bar below, and a line of words.
const BAR: i64 = 36;
const LANE: i64 = 40;
const LINE: i64 = 18;

pub struct Picture<'a> {
    look: &'a Look<'a>,
    machine: usize,
    clashes: &'a [Clash<'a>],
    /// The numbers of the bars that something is wrong with.
    faulty: Vec<usize>,
    kinds: &'a Kinds,
    pub span: Span,
}

impl<'a> Picture<'a> {
    pub fn new(
        look: &'a Look<'a>,
        machine: usize,
        clashes: &'a [Clash<'a>],
        kinds: &'a Kinds,
    ) -> Picture<'a> {
        let bars = &look.bars[machine];
        let is_faulty = |bar: &&Bar| !look.faults_of(bar, clashes).is_empty();
        let faulty = bars.iter().filter(is_faulty).map(|bar| bar.number).collect();
        let span = span_of(bars, look.calendar);
        Picture { look, machine, clashes, faulty, kinds, span }
    }

    /// The rows of all weeks in which something begins or ends.
    pub fn rows(&self) -> String {
        let sevens = self.sevens();
        let mut page = self.hour_lines();
        let mut before = -1;
        for seven in &sevens {
            if sevens.len() > 1 || *seven != 0 {
                page += &format!("<h3>{}</h3>\n", self.look.calendar.seven_words(*seven));
            }
            if before + 1 < *seven {
                page += "<p>Days in which nothing begins or ends on this machine are left out before these.</p>\n";
            }
            page += &self.axis();
            page +=
                &self.look.calendar.days_of(*seven).map(|day| self.row(day)).collect::<String>();
            before = *seven;
        }
        page
    }

    fn sevens(&self) -> Vec<i64> {
        let calendar = self.look.calendar;
        let both = |bar: &Bar| {
            // A job that ends at midnight is not in the next day.
            let last = bar.end().max(bar.begin + 1);
            [calendar.minute(bar.begin), calendar.minute(last) - 1]
        };
        let minutes = self.look.bars[self.machine].iter().flat_map(both);
        let mut sevens: Vec<i64> = minutes.map(|minute| calendar.seven_of(minute)).collect();
        sevens.sort();
        sevens.dedup();
        sevens
    }

    /// Lines for the hours, which every row of this machine shows.
    fn hour_lines(&self) -> String {
        let line = |hour: i64| {
            let x = self.span.place(hour * HOUR, 0);
            let class = if hour % 6 == 0 { "six" } else { "hour" };
            format!("<line class=\"{class}\" x1=\"{x:.2}%\" x2=\"{x:.2}%\" y1=\"0\" y2=\"100%\"/>")
        };
        let lines: String = self.span.hours().map(line).collect();
        let id = self.machine;
        format!("<svg class=\"kept\" aria-hidden=\"true\"><defs><g id=\"hours{id}\">{lines}</g></defs></svg>\n")
    }

    /// The hours above the rows: fewer of them on a phone.
    fn axis(&self) -> String {
        let has_week = self.look.calendar.week.is_some();
        let word = |hour: i64| {
            let x = self.span.place(hour * HOUR, 0);
            let class = if (hour - self.span.from / HOUR) % 4 == 0 { "both" } else { "paper" };
            let words = if has_week { format!("{hour:02}") } else { format!("+{hour}") };
            format!("<text class=\"{class} hours\" x=\"{x:.2}%\" y=\"13\">{words}</text>")
        };
        let words: String = self.span.hours().filter(|hour| hour % 2 == 0).map(word).collect();
        format!("<div class=\"day axis\"><span></span><svg height=\"16\" aria-hidden=\"true\">{words}</svg></div>\n")
    }

    fn row(&self, day: i64) -> String {
        let pieces = pieces_of(&self.look.bars[self.machine], self.look.calendar, day);
        let lanes = pieces.iter().map(|piece| piece.lane + 1).max().unwrap_or(1) as i64;
        let depth = lanes * LANE;
        let placed: Vec<(&Piece, f64, f64, bool)> = pieces
            .iter()
            .map(|piece| (piece, self.x(piece.from, day), self.share(piece), self.is_faulty(piece)))
            .collect();
        let below = labels::below(&placed, depth + LINE - 5);
        let mut height = if below.is_empty() { depth } else { depth + LINE };
        let mut inner = self.closed(day);
        inner += &format!("<use href=\"#hours{}\"/>", self.machine);
        inner += &pieces.iter().map(|piece| self.piece(piece, day)).collect::<String>();
        for clash in self.clashes {
            inner += &self.clash(clash, day, depth, &mut height);
        }
        // Words come last, so that nothing is drawn over them.
        inner += &pieces.iter().map(|piece| self.words(piece, day)).collect::<String>();
        inner += &below;
        let calendar = self.look.calendar;
        let words = escaped(&self.row_words(&pieces, day));
        format!(
            "<div class=\"day\"><span>{}</span><svg height=\"{height}\" role=\"img\" aria-label=\"{words}\">\
             {inner}</svg></div>\n",
            calendar.short_day_words(day)
        )
    }

    fn x(&self, minute: i64, day: i64) -> f64 {
        self.span.place(minute, day)
    }

    fn share(&self, piece: &Piece) -> f64 {
        let day = piece.from.div_euclid(DAY);
        self.x(piece.to, day) - self.x(piece.from, day)
    }

    fn is_faulty(&self, piece: &Piece) -> bool {
        self.faulty.contains(&piece.bar.number)
    }

    /// The closed hours of a day.
    fn closed(&self, day: i64) -> String {
        let calendar = self.look.calendar;
        let (first, last) = (day * DAY, day * DAY + DAY);
        let values = [first, last].map(|minute| calendar.value_before(minute));
        let lines = self.look.sheet.closed.iter();
        let hours = lines.flat_map(|closed| closed.on(self.machine, values[0], values[1]));
        let minutes = hours.map(|(from, to)| (calendar.minute(from), calendar.minute(to)));
        let places = minutes.map(|(from, to)| (self.x(from, day), self.x(to, day)));
        let drawn = places.filter(|(from, to)| from < to);
        drawn.map(|(from, to)| rectangle("closed", from, to, 0, "100%")).collect()
    }

    /// A piece of a bar: its phases, its frame, and marks where it comes from or goes on.
    fn piece(&self, piece: &Piece, day: i64) -> String {
        let top = piece.lane as i64 * LANE + 2;
        let (from, to) = (self.x(piece.from, day), self.x(piece.to, day));
        let mut inner = self.phases(piece, day, top);
        let class = if self.is_faulty(piece) { "frame faulty" } else { "frame" };
        inner += &rectangle(class, from, to, top, &BAR.to_string());
        if piece.comes {
            inner += &arrow(from, top, 1);
        }
        if piece.goes_on {
            inner += &arrow(to, top, -9);
        }
        inner
    }

    /// The words in a piece of a bar, which end where it ends.
    fn words(&self, piece: &Piece, day: i64) -> String {
        let top = piece.lane as i64 * LANE + 2;
        let (from, width) = (self.x(piece.from, day), self.share(piece));
        let clock = self.look.calendar.clock(piece.from, false);
        let words = labels::inside(piece, width, self.is_faulty(piece), &clock);
        format!("<svg x=\"{from:.2}%\" y=\"{top}\" width=\"{width:.2}%\" height=\"{BAR}\">{words}</svg>")
    }

    fn phases(&self, piece: &Piece, day: i64, top: i64) -> String {
        let mut begin = piece.bar.begin;
        let mut shapes = String::new();
        for phase in &piece.bar.job.phases {
            let minutes =
                [begin, begin + phase.steps].map(|value| self.look.calendar.minute(value));
            let (from, to) = (minutes[0].max(piece.from), minutes[1].min(piece.to));
            if from < to {
                let class = self.kinds.class_of(phase);
                shapes +=
                    &rectangle(&class, self.x(from, day), self.x(to, day), top, &BAR.to_string());
            }
            begin += phase.steps;
        }
        shapes
    }

    /// What two bars share in a day: crossed, framed, and named in words below the bars.
    fn clash(&self, clash: &Clash, day: i64, depth: i64, height: &mut i64) -> String {
        let calendar = self.look.calendar;
        let [begin, end] = [clash.from, clash.to].map(|value| calendar.minute(value));
        let (from, to) = (begin.max(day * DAY), end.min(day * DAY + DAY));
        // What takes no time meets at one minute, which is in one day only.
        let is_here = if begin == end { begin.div_euclid(DAY) == day } else { from < to };
        if !is_here {
            return String::new();
        }
        let (left, right) = (self.x(from, day), self.x(to, day));
        let words = format!(
            "✗ CLASH of {} and {}, {} to {}",
            clash.one.number,
            clash.other.number,
            calendar.clock(from, false),
            calendar.clock(to, from < to)
        );
        *height += LINE;
        let bottom = depth - 1;
        let crossed = [(1, bottom), (bottom, 1)].map(|(one, other)| {
            format!("<line class=\"cross\" x1=\"{left:.2}%\" y1=\"{one}\" x2=\"{right:.2}%\" y2=\"{other}\"/>")
        });
        rectangle("clash", left, right, 0, &depth.to_string())
            + &crossed.concat()
            + &labels::line(left, &words, *height - 5, "clashing")
    }

    /// A row in words, for those who do not see it.
    fn row_words(&self, pieces: &[Piece], day: i64) -> String {
        let calendar = self.look.calendar;
        let words: Vec<String> = pieces
            .iter()
            .map(|piece| {
                let (from, to) = (
                    calendar.clock(piece.from, false),
                    calendar.clock(piece.to, piece.from < piece.to),
                );
                format!("no. {} from {from} to {to}", piece.bar.number)
            })
            .collect();
        let words = if words.is_empty() { "nothing".to_string() } else { words.join(", ") };
        format!("{}: {words}", calendar.day_words(day))
    }
}

fn rectangle(class: &str, from: f64, to: f64, y: i64, height: &str) -> String {
    // What takes no time at all is still to be seen.
    let width = (to - from).max(0.25);
    format!("<rect class=\"{class}\" x=\"{from:.2}%\" y=\"{y}\" width=\"{width:.2}%\" height=\"{height}\"/>")
}

/// A mark that a bar goes on beyond its row, so many pixels beside a place.
fn arrow(place: f64, top: i64, beside: i64) -> String {
    format!(
        "<svg class=\"over\" x=\"{place:.2}%\" y=\"{top}\"><path class=\"arrow\" d=\"M{beside} 11l8 7l-8 7z\"/></svg>"
    )
}
