//! Days on the page: the day and the minute of a value, and what a row of a day is called.

use crate::week::{day_name, Week};

pub const HOUR: i64 = 60;
pub const DAY: i64 = 24 * HOUR;
const ROWS: i64 = 7;

/// Where a board has no week, each step is drawn as an hour, and a row has 24 of them.
#[derive(Clone, Copy)]
pub struct Calendar {
    pub week: Option<Week>,
}

impl Calendar {
    pub fn minute(&self, value: i64) -> i64 {
        self.week.map_or(value * HOUR, |week| week.minute(value))
    }

    /// The last value that is not after a minute.
    pub fn value_before(&self, minute: i64) -> i64 {
        let [zero, one] = [0, 1].map(|value| self.minute(value));
        (minute - zero).div_euclid(one - zero)
    }

    /// The seven days that a minute is in, counted from those of value 0.
    pub fn seven_of(&self, minute: i64) -> i64 {
        (minute.div_euclid(DAY) - self.first_day()).div_euclid(ROWS)
    }

    pub fn days_of(&self, seven: i64) -> impl Iterator<Item = i64> {
        let first = self.first_day() + seven * ROWS;
        first..first + ROWS
    }

    fn first_day(&self) -> i64 {
        self.minute(0).div_euclid(DAY)
    }

    /// `Monday`, or the values of a row where there is no week.
    pub fn day_words(&self, day: i64) -> String {
        match self.week {
            Some(_) => day_name(day).to_string(),
            None => format!("{} to {}", day * 24, day * 24 + 23),
        }
    }

    /// What fits beside a row.
    pub fn short_day_words(&self, day: i64) -> String {
        match self.week {
            Some(_) => day_name(day)[..3].to_string(),
            None => (day * 24).to_string(),
        }
    }

    /// `Week 2`, or the days where weeks do not begin at midnight.
    pub fn seven_words(&self, seven: i64) -> String {
        match self.week {
            Some(_) if self.minute(0) % DAY == 0 => format!("Week {}", seven + 1),
            Some(_) => format!("Days {} to {}", seven * ROWS + 1, seven * ROWS + ROWS),
            None => {
                let days: Vec<i64> = self.days_of(seven).collect();
                format!("Steps {} to {}", days[0] * 24, days[6] * 24 + 23)
            }
        }
    }

    /// `07:30`, or the value where there is no week; the end of a day is 24:00.
    pub fn clock(&self, minute: i64, is_end: bool) -> String {
        let of_day = match minute.rem_euclid(DAY) {
            0 if is_end => DAY,
            of_day => of_day,
        };
        match self.week {
            Some(_) => format!("{:02}:{:02}", of_day / HOUR, of_day % HOUR),
            None => (minute / HOUR).to_string(),
        }
    }
}

#[cfg(test)]
mod tests {
    use super::*;

    #[test]
    fn seven_days_begin_with_the_day_of_value_0() {
        let calendar = Calendar { week: Some(Week::new(2, 6 * HOUR, 60)) };
        let minutes = [-7, -6, 0, 161, 162].map(|value| calendar.minute(value));
        assert_eq!(minutes.map(|minute| calendar.seven_of(minute)), [-1, 0, 0, 0, 1]);
        let days: Vec<String> = calendar.days_of(0).map(|day| calendar.day_words(day)).collect();
        assert_eq!((days[0].as_str(), days[6].as_str()), ("Wednesday", "Tuesday"));
        assert_eq!(calendar.seven_words(1), "Days 8 to 14");
    }

    #[test]
    fn a_board_without_a_week_has_rows_of_24_steps() {
        let calendar = Calendar { week: None };
        assert_eq!(calendar.seven_of(calendar.minute(168)), 1);
        assert_eq!(
            (calendar.day_words(-1), calendar.clock(-HOUR, false)),
            ("-24 to -1".into(), "-1".into())
        );
    }

    #[test]
    fn the_end_of_a_day_is_not_the_begin_of_the_next() {
        let calendar = Calendar { week: Some(Week::new(0, 0, 30)) };
        assert_eq!(calendar.clock(DAY, true), "24:00");
        assert_eq!(calendar.clock(DAY, false), "00:00");
    }
}
