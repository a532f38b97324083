//! A week of clock hours: values as weekday and clock, and durations in hours and minutes.

const HOUR: i64 = 60;
const DAY: i64 = 24 * HOUR;
const WEEK: i64 = 7 * DAY;

const DAYS: [&str; 7] =
    ["Monday", "Tuesday", "Wednesday", "Thursday", "Friday", "Saturday", "Sunday"];

/// Where value 0 stands, counted in minutes from Monday 00:00, and how many minutes a step has.
#[derive(Debug, Clone, Copy, PartialEq, Eq)]
pub struct Week {
    start: i64,
    step: i64,
}

/// The number of a weekday, which is written in full or by its first three letters; Monday is 0.
pub fn weekday(name: &str) -> Option<i64> {
    let day = DAYS.iter().position(|day| *day == name || &day[..3] == name)?;
    Some(day as i64)
}

/// Whether a name is a weekday but for large and small letters.
pub fn is_nearly_a_weekday(name: &str) -> bool {
    let is_written = |word: &str| word.eq_ignore_ascii_case(name);
    DAYS.iter().any(|day| is_written(day) || is_written(&day[..3]))
}

/// Whether a step parts every day evenly, so that each clock hour is the same on all days.
pub fn parts_a_day(step: i64) -> bool {
    step > 0 && DAY % step == 0
}

/// The name of a day, counted from Monday of the first week.
pub fn day_name(day: i64) -> &'static str {
    DAYS[day.rem_euclid(7) as usize]
}

impl Week {
    /// A week whose value 0 is at this minute of a weekday.
    pub fn new(day: i64, minute: i64, step: i64) -> Week {
        Week { start: day * DAY + minute, step }
    }

    pub fn steps_in_a_day(&self) -> i64 {
        DAY / self.step
    }

    pub fn steps_in_a_week(&self) -> i64 {
        WEEK / self.step
    }

    /// The value of a minute of a weekday in the first week, if it is not between two steps. A day's last minute is
    /// followed by 24:00, which is at the end of the week where the week begins at 00:00 of the next day.
    pub fn value(&self, day: i64, minute: i64) -> Option<i64> {
        let since = day * DAY + minute - self.start;
        let since =
            if minute == DAY { (since - 1).rem_euclid(WEEK) + 1 } else { since.rem_euclid(WEEK) };
        self.steps(since)
    }

    /// The first value at a minute of any day, if it is not between two steps.
    pub fn value_of_day(&self, minute: i64) -> Option<i64> {
        self.steps((minute - self.start).rem_euclid(DAY))
    }

    /// How many steps there are in so many minutes, if they are whole.
    pub fn steps(&self, minutes: i64) -> Option<i64> {
        (minutes % self.step == 0).then_some(minutes / self.step)
    }

    /// The minute of a value, counted from Monday 00:00 of the first week.
    pub fn minute(&self, value: i64) -> i64 {
        self.start + value * self.step
    }

    /// `Tue 08:00`, with its week where that is not the first.
    pub fn words(&self, value: i64) -> String {
        let minute = self.minute(value).rem_euclid(WEEK);
        let day = &DAYS[(minute / DAY) as usize][..3];
        let (hours, minutes) = (minute % DAY / HOUR, minute % HOUR);
        let week = match value.div_euclid(self.steps_in_a_week()) {
            0 => String::new(),
            weeks => format!(" week {}", weeks + 1),
        };
        format!("{day} {hours:02}:{minutes:02}{week}")
    }

    /// `7 h 30 min`.
    pub fn duration_words(&self, steps: i64) -> String {
        minutes_words(steps * self.step)
    }

    pub fn step_words(&self) -> String {
        minutes_words(self.step)
    }

    /// The line that declares the week.
    pub fn line(&self) -> String {
        let day = DAYS[(self.start / DAY) as usize];
        let (hours, minutes) = (self.start % DAY / HOUR, self.start % HOUR);
        format!("week from {day} {hours:02}:{minutes:02} step {}", self.step_words())
    }
}

fn minutes_words(minutes: i64) -> String {
    let sign = if minutes < 0 { "-" } else { "" };
    match (minutes.abs() / HOUR, minutes.abs() % HOUR) {
        (hours, 0) => format!("{sign}{hours} h"),
        (0, minutes) => format!("{sign}{minutes} min"),
        (hours, minutes) => format!("{sign}{hours} h {minutes} min"),
    }
}

#[cfg(test)]
mod tests {
    use super::*;

    #[test]
    fn values_and_words_are_the_same_hours() {
        let week = Week::new(0, 0, 30);
        let rows = [(0, "Mon 00:00"), (64, "Tue 08:00"), (335, "Sun 23:30")];
        for (value, words) in rows {
            assert_eq!(week.words(value), words);
        }
        assert_eq!(week.value(1, 8 * HOUR), Some(64));
        assert_eq!(week.value(6, DAY), Some(336), "the end of the week");
        assert_eq!(week.value(0, DAY), week.value(1, 0));
        assert_eq!(week.value(0, 15), None);
        assert_eq!(
            (week.words(336), week.words(-1)),
            ("Mon 00:00 week 2".into(), "Sun 23:30 week 0".into())
        );
    }

    #[test]
    fn a_week_may_begin_on_any_day_and_hour() {
        let week = Week::new(2, 6 * HOUR, 60);
        assert_eq!((week.words(0), week.words(18)), ("Wed 06:00".into(), "Thu 00:00".into()));
        for value in 0..168 {
            let words = week.words(value);
            let (day, clock) = words.split_once(' ').unwrap();
            let hour: i64 = clock[..2].parse().unwrap();
            assert_eq!(week.value(weekday(day).unwrap(), hour * HOUR), Some(value), "{words}");
        }
        assert_eq!(week.value(1, DAY), week.value(2, 0));
        assert_eq!(week.value_of_day(5 * HOUR), Some(23));
        assert_eq!(week.line(), "week from Wednesday 06:00 step 1 h");
    }

    #[test]
    fn durations_are_hours_and_minutes() {
        let week = Week::new(0, 0, 30);
        let words = [26, 1, 15, 0, -3].map(|steps| week.duration_words(steps));
        assert_eq!(words, ["13 h", "30 min", "7 h 30 min", "0 h", "-1 h 30 min"]);
        assert_eq!((week.steps(90), week.steps(45)), (Some(3), None));
        assert!(parts_a_day(90) && !parts_a_day(7) && !parts_a_day(0));
    }
}
