//! Dates.

use std::fmt;
use std::str::FromStr;
use std::time::{SystemTime, UNIX_EPOCH};

/// The names of the months and of the days of the week, the first of January 1970 having been a Thursday.
const MONTHS: [&str; 12] = [
    "January",
    "February",
    "March",
    "April",
    "May",
    "June",
    "July",
    "August",
    "September",
    "October",
    "November",
    "December",
];
const WEEKDAYS: [&str; 7] = ["Thursday", "Friday", "Saturday", "Sunday", "Monday", "Tuesday", "Wednesday"];

/// The first year whose dates are known here.
const FIRST_YEAR: u64 = 1970;
/// The last one.
const LAST_YEAR: u64 = 9999;

/// A day from 1970 to 9999: how many days it is behind the first of January 1970.
#[derive(Clone, Copy, Debug, PartialEq, Eq)]
pub struct Date {
    days: u64,
}

/// Whether a year has a 29th of February.
fn is_leap(year: u64) -> bool {
    year.is_multiple_of(4) && (!year.is_multiple_of(100) || year.is_multiple_of(400))
}

/// How many days a year has.
fn days_of_year(year: u64) -> u64 {
    if is_leap(year) { 366 } else { 365 }
}

/// How many days a month, from 0 on, of a year has.
fn days_of_month(year: u64, month: usize) -> u64 {
    match month {
        1 if is_leap(year) => 29,
        1 => 28,
        3 | 5 | 8 | 10 => 30,
        _ => 31,
    }
}

impl Date {
    /// Today's date at Greenwich.
    pub fn today() -> Date {
        let since = SystemTime::now().duration_since(UNIX_EPOCH).unwrap_or_default();
        Date { days: since.as_secs() / 86_400 }
    }

    /// Its year, month, from 0 on, and day of the month.
    fn parts(self) -> (u64, usize, u64) {
        let (mut left, mut year, mut month) = (self.days, FIRST_YEAR, 0);
        while left >= days_of_year(year) {
            left -= days_of_year(year);
            year += 1;
        }
        while left >= days_of_month(year, month) {
            left -= days_of_month(year, month);
            month += 1;
        }
        (year, month, left + 1)
    }
}

impl fmt::Display for Date {
    /// In words, as in `Tuesday, 17 November 2026`.
    fn fmt(&self, out: &mut fmt::Formatter<'_>) -> fmt::Result {
        let (year, month, day) = self.parts();
        write!(out, "{}, {day} {} {year}", WEEKDAYS[(self.days % 7) as usize], MONTHS[month])
    }
}

/// A text that is no date.
#[derive(Clone, Copy, Debug, PartialEq, Eq)]
pub struct NoDate;

impl fmt::Display for NoDate {
    fn fmt(&self, out: &mut fmt::Formatter<'_>) -> fmt::Result {
        write!(out, "a date is YYYY-MM-DD, as 2026-11-17, from {FIRST_YEAR} on")
    }
}

impl FromStr for Date {
    type Err = NoDate;

    fn from_str(text: &str) -> Result<Date, NoDate> {
        let fields: Vec<&str> = text.split('-').collect();
        let is_plain = text.bytes().all(|byte| byte.is_ascii_digit() || byte == b'-');
        let [year, month, day] = fields[..] else { return Err(NoDate) };
        if !is_plain || [year.len(), month.len(), day.len()] != [4, 2, 2] {
            return Err(NoDate);
        }
        let number = |field: &str| field.parse::<u64>().map_err(|_| NoDate);
        let (year, month, day) = (number(year)?, number(month)?, number(day)?);
        if !(FIRST_YEAR..=LAST_YEAR).contains(&year) || !(1..=12).contains(&month) {
            return Err(NoDate);
        }
        let month = month as usize - 1;
        if !(1..=days_of_month(year, month)).contains(&day) {
            return Err(NoDate);
        }
        let years: u64 = (FIRST_YEAR..year).map(days_of_year).sum();
        let months: u64 = (0..month).map(|before| days_of_month(year, before)).sum();
        Ok(Date { days: years + months + day - 1 })
    }
}

#[cfg(test)]
mod tests {
    use super::*;

    #[test]
    fn dates_in_words() {
        for (text, words) in [
            ("1970-01-01", "Thursday, 1 January 1970"),
            ("2000-02-29", "Tuesday, 29 February 2000"),
            ("2026-11-17", "Tuesday, 17 November 2026"),
            ("2026-12-31", "Thursday, 31 December 2026"),
            ("2100-03-01", "Monday, 1 March 2100"),
        ] {
            assert_eq!(text.parse().map(|date: Date| date.to_string()), Ok(words.to_string()));
        }
    }

    #[test]
    fn what_is_no_date_is_not_read() {
        for text in [
            "",
            "2026",
            "2026-11",
            "2026-13-01",
            "2026-00-01",
            "2026-11-31",
            "2100-02-29",
            "1969-12-31",
            "26-11-17",
            "2026-11-17-",
            "+026-11-17",
        ] {
            assert_eq!(text.parse::<Date>(), Err(NoDate), "{text}");
        }
    }
}
