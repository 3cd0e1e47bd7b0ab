//! Days of the Gregorian calendar, and the dates that values hold (02, Real calendar days).
//!
//! Every day has a number: how many days it comes after March 1 of year 0. A year, a month and a day are
//! a day of the calendar exactly where the day of their number has that year, month and day again. A
//! year is counted from March on here, so that the day that not every year has is its last.

use crate::{Date, Time};

/// The date in eight digits YYYYMMDD, where it is a day.
pub(crate) fn date(value: &[u8]) -> Option<Date> {
    let [year, month, day] = numbers(b"YYYYMMDD", b"YMD", value)?;
    day_of(year, month, day)
}

/// The date and the time in MM/DD/YYYY HH:NN:SS, where they are a day and a time of day.
pub(crate) fn date_with_time(value: &[u8]) -> Option<(Date, Time)> {
    let [year, month, day, hour, minute, second] =
        numbers(b"MM/DD/YYYY HH:NN:SS", b"YMDHNS", value)?;
    let date = day_of(year, month, day)?;
    if hour > 23 || minute > 59 || second > 59 {
        return None;
    }
    let time = Time {
        hour,
        minute,
        second,
    };
    Some((date, time))
}

/// For each letter the number that a value has in its places of the pattern. They must all be digits,
/// and all other places have the pattern's own bytes.
fn numbers<const LETTERS: usize>(
    pattern: &[u8],
    letters: &[u8; LETTERS],
    value: &[u8],
) -> Option<[u32; LETTERS]> {
    if value.len() != pattern.len() {
        return None;
    }
    let mut numbers = [0; LETTERS];
    for (&byte, wanted) in value.iter().zip(pattern) {
        match letters.iter().position(|letter| letter == wanted) {
            Some(n) if byte.is_ascii_digit() => {
                numbers[n] = numbers[n] * 10 + u32::from(byte - b'0')
            }
            None if byte == *wanted => {}
            _ => return None,
        }
    }
    Some(numbers)
}

/// The day of a year, a month and a day of it, where there is one in the years 1 to 9999.
fn day_of(year: u32, month: u32, day: u32) -> Option<Date> {
    let date = Date { year, month, day };
    let is_day = (1..=9999).contains(&year) && date_of(number_of(date)) == date;
    is_day.then_some(date)
}

/// The number of a date from year 1 on. A month or a day that there is not counts on from the last one,
/// or back from the first, to a day of another month.
fn number_of(date: Date) -> u32 {
    // Months from March of year 0 on.
    let months = date.year * 12 + date.month - 3;
    days_before_year(months / 12) + days_before_month(months % 12) + date.day - 1
}

/// The date of a number.
fn date_of(number: u32) -> Date {
    // No year has more than 366 days, so the search begins at the year or at one before it.
    let mut year = number / 366;
    while days_before_year(year + 1) <= number {
        year += 1;
    }
    let in_year = number - days_before_year(year);
    let mut month = 11;
    while days_before_month(month) > in_year {
        month -= 1;
    }
    // Months from January of year 0 on.
    let months = year * 12 + month + 2;
    Date {
        year: months / 12,
        month: months % 12 + 1,
        day: in_year - days_before_month(month) + 1,
    }
}

/// The number of a year's March 1: 365 days for each year before it, and one more for every fourth
/// year, but for every hundredth that is no four-hundredth.
fn days_before_year(year: u32) -> u32 {
    365 * year + year / 4 - year / 100 + year / 400
}

/// How many days of a year come before one of its months, which count from 0 for March. From March on,
/// and again from August on, five months have 31, 30, 31, 30 and 31 days, which is 153.
fn days_before_month(month: u32) -> u32 {
    (153 * month + 2) / 5
}

#[cfg(test)]
mod tests {
    use super::*;

    #[test]
    fn numbers_of_a_pattern() {
        assert_eq!(numbers(b"AB-A", b"AB", b"12-3"), Some([13, 2]));
        assert_eq!(numbers(b"AB-A", b"BA", b"12-3"), Some([2, 13]));
        assert_eq!(numbers(b"AB-A", b"A", b"1B-3"), Some([13]));
        for value in [
            &b""[..],
            b"12-",
            b"12-34",
            b"12+3",
            b"1--3",
            b"x2-3",
            b"12-/",
            b"12-:",
        ] {
            assert_eq!(numbers(b"AB-A", b"AB", value), None);
        }
    }

    #[test]
    fn days_have_numbers_without_gaps() {
        let first = Date {
            year: 1,
            month: 1,
            day: 1,
        };
        let last = Date {
            year: 9999,
            month: 12,
            day: 31,
        };
        let numbers = number_of(first)..=number_of(last);
        assert_eq!(numbers.clone().count(), 3_652_059);
        let mut before = None;
        for number in numbers {
            let date = date_of(number);
            assert_eq!(number_of(date), number);
            // Dates go up with their numbers.
            let order = Some((date.year, date.month, date.day));
            assert!(before < order);
            before = order;
        }
    }

    #[test]
    fn known_numbers() {
        let number = |year, month, day| number_of(Date { year, month, day });
        assert_eq!(number(0, 3, 1), 0);
        assert_eq!(number(0, 3, 31), 30);
        assert_eq!(number(0, 4, 1), 31);
        assert_eq!(number(1, 2, 28), 364);
        assert_eq!(number(1, 3, 1), 365);
        assert_eq!(number(4, 2, 29), 1460);
        assert_eq!(number(4, 3, 1), 1461);
        assert_eq!(number(400, 2, 29), 146_096);
        assert_eq!(number(400, 3, 1), 146_097);
        // The first day of 1970 is the 719,163rd of the calendar.
        assert_eq!(number(1970, 1, 1) - number(1, 1, 1) + 1, 719_163);
        // What is no day counts on, and a zero counts back.
        assert_eq!(number(2023, 2, 31), number(2023, 3, 3));
        assert_eq!(number(2023, 13, 1), number(2024, 1, 1));
        assert_eq!(number(2023, 0, 31), number(2022, 12, 31));
        assert_eq!(number(2023, 1, 0), number(2022, 12, 31));
        assert_eq!(number(1, 0, 0), number(0, 11, 30));
    }
}
