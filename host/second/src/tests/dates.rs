//! 02, Real calendar days.

use super::onie::image as onie;
use super::*;
use crate::dates::{date, date_with_time};

/// The place of the date in the images that are made here.
const FBOSS_PLACE: u64 = 19;
const ONIE_PLACE: u64 = 11;

/// Days, by the years and months at whose edges they are.
const DAYS: [(u32, u32, u32); 30] = [
    (1, 1, 1),
    (1, 12, 31),
    (4, 2, 29),
    (96, 2, 29),
    (100, 2, 28),
    (400, 2, 29),
    (1582, 10, 4),
    (1582, 10, 5),
    (1582, 10, 10),
    (1582, 10, 14),
    (1582, 10, 15),
    (1900, 2, 28),
    (1900, 3, 1),
    (1999, 12, 31),
    (2000, 1, 1),
    (2000, 2, 29),
    (2013, 2, 3),
    (2023, 1, 31),
    (2023, 2, 28),
    (2023, 3, 31),
    (2023, 4, 30),
    (2023, 5, 31),
    (2023, 6, 30),
    (2023, 9, 30),
    (2023, 11, 30),
    (2024, 2, 29),
    (2100, 2, 28),
    (9996, 2, 29),
    (9999, 2, 28),
    (9999, 12, 31),
];

/// Dates that are no days, next to some that are.
const NO_DAYS: [(u32, u32, u32); 36] = [
    (0, 0, 0),
    (0, 1, 1),
    (0, 2, 29),
    (0, 12, 31),
    (1, 0, 1),
    (1, 1, 0),
    (1, 2, 29),
    (4, 2, 30),
    (100, 2, 29),
    (400, 2, 30),
    (1700, 2, 29),
    (1800, 2, 29),
    (1900, 2, 29),
    (2000, 2, 30),
    (2023, 0, 0),
    (2023, 0, 31),
    (2023, 1, 32),
    (2023, 2, 0),
    (2023, 2, 29),
    (2023, 2, 30),
    (2023, 2, 31),
    (2023, 3, 32),
    (2023, 4, 31),
    (2023, 6, 31),
    (2023, 9, 31),
    (2023, 11, 31),
    (2023, 12, 32),
    (2023, 13, 1),
    (2023, 20, 1),
    (2023, 99, 99),
    (2024, 2, 30),
    (2100, 2, 29),
    (9999, 2, 29),
    (9999, 12, 0),
    (9999, 12, 32),
    (9999, 13, 1),
];

/// Times of day, at the edges of the hour, the minute and the second.
const TIMES: [(u32, u32, u32); 7] = [
    (0, 0, 0),
    (0, 0, 59),
    (0, 59, 0),
    (12, 34, 56),
    (22, 1, 1),
    (23, 0, 0),
    (23, 59, 59),
];

/// The last day of a month, as the calendar is usually told. What is no month has none.
fn last_day(year: u32, month: u32) -> u32 {
    let leap = matches!((year % 4, year % 100, year % 400), (0, 1.., _) | (_, _, 0));
    match month {
        1 | 3 | 5 | 7 | 8 | 10 | 12 => 31,
        4 | 6 | 9 | 11 => 30,
        2 if leap => 29,
        2 => 28,
        _ => 0,
    }
}

fn is_day(year: u32, month: u32, day: u32) -> bool {
    year > 0 && (1..=last_day(year, month)).contains(&day)
}

fn fboss_text(year: u32, month: u32, day: u32) -> Vec<u8> {
    format!("{year:04}{month:02}{day:02}").into_bytes()
}

fn onie_text(date: (u32, u32, u32), time: (u32, u32, u32)) -> Vec<u8> {
    let ((year, month, day), (hour, minute, second)) = (date, time);
    format!("{month:02}/{day:02}/{year:04} {hour:02}:{minute:02}:{second:02}").into_bytes()
}

fn of(year: u32, month: u32, day: u32) -> Date {
    Date { year, month, day }
}

fn with_time(date: (u32, u32, u32), time: (u32, u32, u32)) -> (Date, Time) {
    let (hour, minute, second) = time;
    let time = Time {
        hour,
        minute,
        second,
    };
    (of(date.0, date.1, date.2), time)
}

fn entry_bytes(code: u8, value: &[u8]) -> Vec<u8> {
    [&[code, u8::try_from(value.len()).unwrap()], value].concat()
}

/// An FBOSS image with the required fields, a date, and an unnamed entry.
fn fboss_with(value: &[u8]) -> Vec<u8> {
    fboss(&[&required()[..], &entry_bytes(13, value), &[21, 1, 0]].concat())
}

/// An ONIE image with a date and an unnamed entry.
fn onie_with(value: &[u8]) -> Vec<u8> {
    onie(&[&entry_bytes(0x25, value)[..], &[0x26, 1, 0]].concat())
}

/// Every call takes a date: in images, as a field to write and as a new value. It has this reading in
/// every edition that has the format.
fn taken(format: u32, value: &[u8], reading: Reading) {
    let length = value.len() as u32;
    let (image, editions, n, record, old) = match format {
        FBOSS => {
            let place = FBOSS_PLACE as u32;
            let record = with_reading(13, 269, place, place + 2, length, reading);
            let old = fboss_with(b"20130203");
            (fboss_with(value), &EDITIONS[..], 5, record, old)
        }
        _ => {
            let place = ONIE_PLACE as u32;
            let record = with_reading(0x25, 1061, place, place + 2, length, reading);
            let old = onie_with(b"06/15/2023 12:34:56");
            (onie_with(value), &EDITIONS[2..], 0, record, old)
        }
    };
    let count = n as usize + 2;
    for &edition in editions {
        assert_eq!(check(format, edition, &image), Ok(count));
        let entries = list(format, edition, &image, count).unwrap();
        assert_eq!(entries[n as usize], record);
        assert_eq!(entry(format, edition, &image, n), Ok(record));
        let part = (record.value_place as usize, value.len());
        assert_eq!(super::value(format, edition, &image, n), Ok(part));
        let walk = Walk {
            format,
            edition,
            entry: n,
        };
        assert_eq!(step(walk, &image).0, Ok(record));

        let room = image.len();
        let made = edited(format, edition, &old, n, value, room);
        assert_eq!(made, Ok(image.clone()));
        // Back again, and to itself.
        let old_value = &old[record.value_place as usize..][..value.len()];
        let made = edited(format, edition, &image, n, old_value, room);
        assert_eq!(made, Ok(old.clone()));
        let made = edited(format, edition, &image, n, value, room);
        assert_eq!(made, Ok(image.clone()));

        let made = written(format, edition, &fields_with(format, value), 100).unwrap();
        assert_eq!(entry(format, edition, &made, n), Ok(record));
    }
}

/// No call takes a value as a date: 7 at the entry in an image, at the field's number in a write, and at
/// the old entry in an edit.
fn refused_date(format: u32, value: &[u8]) {
    let (image, editions, n, place, old) = match format {
        FBOSS => {
            let old = fboss_with(b"20130203");
            (fboss_with(value), &EDITIONS[..], 5, FBOSS_PLACE, old)
        }
        _ => {
            let old = onie_with(b"06/15/2023 12:34:56");
            (onie_with(value), &EDITIONS[2..], 0, ONIE_PLACE, old)
        }
    };
    for &edition in editions {
        all_refuse(format, edition, &image, 7, place);
        assert_eq!(
            edited(format, edition, &old, n, value, 300),
            refused(7, place)
        );
        assert_eq!(
            written(format, edition, &fields_with(format, value), 300),
            refused(7, n)
        );
    }
}

/// Every call's answer to an image that is refused, whatever entry it is asked for.
fn all_refuse(format: u32, edition: u32, image: &[u8], number: u32, place: u64) {
    assert_eq!(check(format, edition, image), refused(number, place));
    assert_eq!(list(format, edition, image, 0), refused(number, place));
    assert_eq!(list(format, edition, image, 99), refused(number, place));
    for n in [0, 1, 5, 99, u64::MAX] {
        let walk = Walk {
            format,
            edition,
            entry: n,
        };
        assert_eq!(entry(format, edition, image, n), refused(number, place));
        assert_eq!(value(format, edition, image, n), refused(number, place));
        assert_eq!(step(walk, image), (refused(number, place), walk));
        for new in [&b""[..], b"N", b"20130203", b"06/15/2023 12:34:56"] {
            let made = edited(format, edition, image, n, new, 300);
            assert_eq!(made, refused(number, place));
        }
    }
    if format == ONIE {
        assert_eq!(
            vendor_read(format, edition, image, 300),
            refused(number, place)
        );
    }
    let input = [&[format as u8, edition as u8], image].concat();
    assert_eq!(
        program::output(&input),
        format!("refused {number} at {place}\n")
    );
}

/// The required fields of a format, and a date as the last.
fn fields_with(format: u32, value: &[u8]) -> Vec<(u32, &'static [u8], &[u8])> {
    match format {
        FBOSS => vec![
            (1, b"", b"N"),
            (8, b"", b"\x04"),
            (9, b"", b"\x05"),
            (10, b"", b"\x06"),
            (11, b"", b"S"),
            (13, b"", value),
        ],
        _ => vec![(0x25, b"", value)],
    }
}

mod calendar {
    use super::*;

    #[test]
    fn a_cycle_of_400_years() {
        for first in [1, 2, 100, 1201, 1583, 1970, 2000, 9600] {
            let mut days = 0;
            for year in first..first + 400 {
                let mut in_year = 0;
                for month in 0..=13 {
                    for day in 0..=32 {
                        let given = date(&fboss_text(year, month, day));
                        in_year += usize::from(given.is_some());
                    }
                }
                assert_eq!(in_year, if last_day(year, 2) == 29 { 366 } else { 365 });
                days += in_year;
            }
            assert_eq!(days, 146_097);
        }
    }

    #[test]
    fn the_edges_of_every_month() {
        let mut leap_years = 0;
        for year in 0..=9999 {
            for month in 0..=13 {
                for day in [0, 1, 27, 28, 29, 30, 31, 32] {
                    let expected = is_day(year, month, day).then_some(of(year, month, day));
                    assert_eq!(date(&fboss_text(year, month, day)), expected);
                    if (month, day, expected.is_some()) == (2, 29, true) {
                        leap_years += 1;
                    }
                }
            }
        }
        assert_eq!(leap_years, 2_424);
    }

    #[test]
    fn every_two_digits_of_a_month_and_of_a_day() {
        for year in [0, 1, 4, 1582, 1900, 2000, 2023, 2024, 9999] {
            let mut days = 0;
            for month in 0..=99 {
                for day in 0..=99 {
                    let expected = is_day(year, month, day).then_some(of(year, month, day));
                    assert_eq!(date(&fboss_text(year, month, day)), expected);
                    let text = onie_text((year, month, day), (23, 59, 59));
                    let expected = expected.map(|_| with_time((year, month, day), (23, 59, 59)));
                    assert_eq!(date_with_time(&text), expected);
                    days += usize::from(expected.is_some());
                }
            }
            let expected = match year {
                0 => 0,
                4 | 2000 | 2024 => 366,
                _ => 365,
            };
            assert_eq!(days, expected);
        }
    }

    #[test]
    fn years_of_each_kind() {
        for (year, leap) in [
            (1, false),
            (2, false),
            (3, false),
            (4, true),
            (100, false),
            (104, true),
            (200, false),
            (300, false),
            (400, true),
            (1600, true),
            (1700, false),
            (1800, false),
            (1900, false),
            (1904, true),
            (1996, true),
            (2000, true),
            (2001, false),
            (2100, false),
            (2400, true),
            (9900, false),
            (9996, true),
            (9999, false),
        ] {
            assert!(date(&fboss_text(year, 2, 28)).is_some());
            assert_eq!(date(&fboss_text(year, 2, 29)).is_some(), leap);
            assert!(date(&fboss_text(year, 2, 30)).is_none());
            assert!(date(&fboss_text(year, 3, 1)).is_some());
        }
    }

    /// Ten days of 1582 were left out where the calendar was new. It has them.
    #[test]
    fn no_day_is_left_out() {
        for day in 1..=31 {
            assert_eq!(date(&fboss_text(1582, 10, day)), Some(of(1582, 10, day)));
        }
        for day in 1..=30 {
            assert_eq!(date(&fboss_text(1752, 9, day)), Some(of(1752, 9, day)));
        }
    }
}

mod fboss_dates {
    use super::*;

    #[test]
    fn days() {
        for (year, month, day) in DAYS {
            let reading = Reading::Date(of(year, month, day));
            taken(FBOSS, &fboss_text(year, month, day), reading);
        }
        taken(FBOSS, b"15821010", Reading::Date(of(1582, 10, 10)));
        taken(FBOSS, b"20000229", Reading::Date(of(2000, 2, 29)));
        taken(FBOSS, b"00040229", Reading::Date(of(4, 2, 29)));
    }

    #[test]
    fn no_days() {
        for (year, month, day) in NO_DAYS {
            refused_date(FBOSS, &fboss_text(year, month, day));
        }
        // The board that got into stock.
        refused_date(FBOSS, b"20230231");
        refused_date(FBOSS, b"19000229");
        refused_date(FBOSS, b"00000101");
    }

    #[test]
    fn other_forms() {
        for value in [
            &b""[..],
            b"2",
            b"2013020",
            b"201302030",
            b"020130203",
            b"20130203 ",
            b" 20130203",
            b"2013203",
            b"130203",
            b"2013-02-03",
            b"2013 203",
            b"201302 3",
            b" 0130203",
            b"+0130203",
            b"-0010203",
            b"02032013",
            b"03022013",
            b"20132103",
            b"0x7DD203",
            b"02/03/2013",
            b"06/15/2023 12:34:56",
        ] {
            refused_date(FBOSS, value);
        }
        for length in (0..=20).filter(|&length| length != 8) {
            for digit in [b'0', b'1', b'2'] {
                refused_date(FBOSS, &vec![digit; length]);
            }
        }
        taken(FBOSS, b"11111111", Reading::Date(of(1111, 11, 11)));
        refused_date(FBOSS, b"00000000");
        refused_date(FBOSS, b"22222222");
    }

    /// Each byte in each place of 2013-02-03.
    #[test]
    fn each_byte() {
        let digits = b"0123456789";
        for (place, fitting) in [
            (0, &digits[..]),
            (1, digits),
            (2, digits),
            (3, digits),
            // Months 02 and 12.
            (4, b"01"),
            // Months 01 to 09.
            (5, b"123456789"),
            // Days 03, 13 and 23.
            (6, b"012"),
            (7, b"123456789"),
        ] {
            for byte in 0..=255 {
                let mut value = *b"20130203";
                value[place] = byte;
                let number = |part: &[u8]| {
                    let digits = part.iter();
                    digits.fold(0, |number, digit| number * 10 + u32::from(digit - b'0'))
                };
                if fitting.contains(&byte) {
                    let expected = of(
                        number(&value[..4]),
                        number(&value[4..6]),
                        number(&value[6..]),
                    );
                    assert_eq!(date(&value), Some(expected));
                    taken(FBOSS, &value, Reading::Date(expected));
                } else {
                    assert_eq!(date(&value), None);
                    refused_date(FBOSS, &value);
                }
            }
        }
    }

    #[test]
    fn seven_where_it_was() {
        let bad = entry_bytes(13, b"20230231");
        let good = entry_bytes(13, b"20230228");
        let late = [
            // Entry by entry, 7 before 8, and both before a field that is missing.
            (&[&bad[..], &bad].concat(), 7, 4),
            (&[&good[..], &bad].concat(), 7, 14),
            (&[&good[..], &good].concat(), 8, 14),
            (&[&good[..], &good, &bad].concat(), 8, 14),
            (&[&[1, 0, 1, 0], &bad[..]].concat(), 8, 6),
            (&[&bad[..], &[1, 0, 1, 0]].concat(), 7, 4),
            (&bad, 7, 4),
            (&good, 11, 0),
        ];
        for edition in EDITIONS {
            for &(entries, number, place) in &late {
                assert_eq!(
                    check(FBOSS, edition, &fboss(entries)),
                    refused(number, place)
                );
            }
            // The check and the frames come first.
            let mut image = fboss_with(b"20230231");
            let stored = image.len() - 2;
            image[stored] ^= 1;
            assert_eq!(check(FBOSS, edition, &image), refused(10, stored as u64));
            image[29] = 0;
            assert_eq!(check(FBOSS, edition, &image), refused(6, 29));
            image[2] = 4;
            assert_eq!(check(FBOSS, edition, &image), refused(4, 0));
        }
    }

    #[test]
    fn writes_in_order() {
        for edition in EDITIONS {
            let with = |more: &[(u32, &'static [u8], &[u8])], room| {
                let parts = [&fields_with(FBOSS, b"20240229")[..], more].concat();
                written(FBOSS, edition, &parts, room)
            };
            assert!(with(&[], 33).is_ok());
            assert_eq!(with(&[], 32), refused(12, 0));
            // A second one that is no day is that first.
            assert_eq!(with(&[(13, b"", b"20240230")], 99), refused(7, 6));
            assert_eq!(with(&[(13, b"", b"20240301")], 99), refused(8, 6));
            let wrong: [(u32, &[u8], &[u8]); 2] = [(13, b"", b"20240230"), (21, b"", b"")];
            assert_eq!(written(FBOSS, edition, &wrong, 0), refused(7, 0));
            let [no_day, unnamed] = wrong;
            let other_way = [unnamed, no_day];
            assert_eq!(written(FBOSS, edition, &other_way, 0), refused(14, 0));
            // A part that is not inside comes before what it holds.
            let (mut fields, values) = fields(&wrong[..1]);
            fields[0].value_len = 9;
            assert_eq!(
                write(FBOSS, edition, &fields, &values, &mut []),
                refused(13, 0)
            );
        }
    }

    #[test]
    fn edits_in_order() {
        let image = fboss_with(b"20240229");
        for edition in EDITIONS {
            for (n, value, room, number, place) in [
                (7, &b"20240230"[..], 0, 13, 0),
                (6, b"20240230", 0, 14, 29),
                (5, b"20240230", 0, 7, 19),
                (5, b"20240301", 0, 12, 0),
                (5, b"20240301", 35, 12, 0),
            ] {
                assert_eq!(
                    edited(FBOSS, edition, &image, n, value, room),
                    refused(number, place)
                );
            }
            assert!(edited(FBOSS, edition, &image, 5, b"20240301", 36).is_ok());
        }
    }
}

mod onie_dates {
    use super::*;

    #[test]
    fn days() {
        for date in DAYS {
            for time in TIMES {
                let (day, clock) = with_time(date, time);
                taken(
                    ONIE,
                    &onie_text(date, time),
                    Reading::DateWithTime(day, clock),
                );
            }
        }
    }

    #[test]
    fn no_days() {
        for date in NO_DAYS {
            for time in TIMES {
                refused_date(ONIE, &onie_text(date, time));
            }
        }
        for value in [
            b"02/31/2023 12:34:56",
            b"02/29/1900 00:00:00",
            b"01/01/0000 00:00:00",
            b"00/00/0000 00:00:00",
            b"99/99/9999 99:99:99",
            b"02/30/2023 24:60:60",
            // The day before the month, and the minute before the hour.
            b"31/12/1999 23:59:59",
            b"12/31/1999 59:23:00",
        ] {
            refused_date(ONIE, value);
        }
    }

    #[test]
    fn hours_minutes_and_seconds() {
        let date = (2024, 2, 29);
        for number in 0..=99 {
            for other in [0, 1, 23] {
                for (time, fits) in [
                    ((number, other, other), number < 24),
                    ((other, number, other), number < 60),
                    ((other, other, number), number < 60),
                ] {
                    let value = onie_text(date, time);
                    if fits {
                        let (day, clock) = with_time(date, time);
                        taken(ONIE, &value, Reading::DateWithTime(day, clock));
                    } else {
                        refused_date(ONIE, &value);
                    }
                }
            }
        }
        // There is no leap second, and the day does not end with an hour 24.
        refused_date(ONIE, b"12/31/2016 23:59:60");
        refused_date(ONIE, b"12/31/2016 24:00:00");
        refused_date(ONIE, b"12/31/2016 23:60:00");
    }

    #[test]
    fn other_forms() {
        for value in [
            &b""[..],
            b"20230615",
            b"06/15/2023",
            b"06/15/2023 ",
            b"06/15/2023 12:34",
            b"06/15/2023 12:34:5",
            b"06/15/2023 12:34:056",
            b" 06/15/2023 12:34:56",
            b"06/15/2023 12:34:56 ",
            b"06/15/2023 12:34:56\x00",
            b"6/15/2023 12:34:56",
            b"06/15/23 12:34:56",
            b"06-15-2023 12:34:56",
            b"06/15/2023T12:34:56",
            b"06/15/2023 12-34-56",
            b"06/15/2023 12:34.56",
            b"2023/06/15 12:34:56",
            b"2023-06-15 12:34:56",
            b"06/15/2023 -1:34:56",
            b"+6/15/2023 12:34:56",
            b" 6/15/2023 12:34:56",
            b"06/15/ 023 12:34:56",
        ] {
            refused_date(ONIE, value);
        }
        for length in 0..=30 {
            refused_date(ONIE, &vec![b'1'; length]);
        }
    }

    /// Each byte in each place of 2023-06-15 12:34:56.
    #[test]
    fn each_byte() {
        let any = &b"0123456789"[..];
        let fitting: [&[u8]; 19] = [
            // Month 06, and months 01 to 09.
            b"0",
            b"123456789",
            b"/",
            // Days 05, 15 and 25.
            b"012",
            any,
            b"/",
            any,
            any,
            any,
            any,
            b" ",
            // Hours 02, 12 and 22.
            b"012",
            any,
            b":",
            b"012345",
            any,
            b":",
            b"012345",
            any,
        ];
        for (place, fitting) in fitting.into_iter().enumerate() {
            for byte in 0..=255 {
                let mut value = *b"06/15/2023 12:34:56";
                value[place] = byte;
                let number = |from: usize, to: usize| {
                    let digits = value[from..to].iter();
                    digits.fold(0, |number, digit| number * 10 + u32::from(digit - b'0'))
                };
                if fitting.contains(&byte) {
                    let (day, clock) = with_time(
                        (number(6, 10), number(0, 2), number(3, 5)),
                        (number(11, 13), number(14, 16), number(17, 19)),
                    );
                    taken(ONIE, &value, Reading::DateWithTime(day, clock));
                } else {
                    refused_date(ONIE, &value);
                }
            }
        }
    }

    #[test]
    fn seven_where_it_was() {
        let bad = entry_bytes(0x25, b"02/29/2023 00:00:00");
        let good = entry_bytes(0x25, b"02/28/2023 00:00:00");
        for (entries, number, place) in [
            ([&bad[..], &bad].concat(), 7, 11),
            ([&good[..], &bad].concat(), 7, 32),
            ([&good[..], &good].concat(), 8, 32),
            ([&good[..], &good, &bad].concat(), 8, 32),
            ([&bad[..], b"\x21\x00\x21\x00"].concat(), 7, 11),
            ([b"\x21\x00\x21\x00", &bad[..]].concat(), 8, 13),
        ] {
            all_refuse(ONIE, 3, &onie(&entries), number, place);
        }
        let mut image = onie(&bad);
        let stored = image.len() - 4;
        image[stored] ^= 1;
        all_refuse(ONIE, 3, &image, 10, stored as u64);
        image[9..11].copy_from_slice(&[0x08, 0x01]);
        all_refuse(ONIE, 3, &image, 5, 9);
        // Editions 1 and 2 don't have the format.
        for edition in [1, 2] {
            all_refuse(ONIE, edition, &image, 16, 0);
        }

        let no_day: (u32, &[u8], &[u8]) = (0x25, b"", b"02/29/2023 00:00:00");
        let day: (u32, &[u8], &[u8]) = (0x25, b"", b"02/28/2023 00:00:00");
        let unnamed: (u32, &[u8], &[u8]) = (0x26, b"", b"");
        assert_eq!(written(ONIE, 3, &[day], 37), refused(12, 0));
        assert!(written(ONIE, 3, &[day], 38).is_ok());
        assert_eq!(written(ONIE, 3, &[no_day, unnamed], 0), refused(7, 0));
        assert_eq!(written(ONIE, 3, &[unnamed, no_day], 0), refused(14, 0));
        assert_eq!(written(ONIE, 3, &[day, day], 0), refused(8, 1));
        assert_eq!(written(ONIE, 3, &[day, no_day], 0), refused(7, 1));

        let image = onie_with(b"02/28/2023 00:00:00");
        for (n, value, number, place) in [
            (2, &b"02/29/2023 00:00:00"[..], 13, 0),
            (1, b"02/29/2023 00:00:00", 14, 32),
            (0, b"02/29/2023 00:00:00", 7, 11),
            (0, b"03/01/2023 00:00:00", 12, 0),
        ] {
            assert_eq!(edited(ONIE, 3, &image, n, value, 0), refused(number, place));
        }
    }
}

/// A date is where the code has that rule, and nowhere else.
#[test]
fn other_entries_hold_any_text() {
    for edition in EDITIONS {
        // Another text field, and the same code number in another format.
        let entries = [&required()[..], &entry_bytes(12, b"20230231")].concat();
        let record = entry(FBOSS, edition, &fboss(&entries), 5).unwrap();
        assert_eq!(record.reading, Reading::Text);
        let entries = [&required()[..], &entry_bytes(0x25, b"02/31/2023 24:60:60")].concat();
        let record = entry(FBOSS, edition, &fboss(&entries), 5).unwrap();
        assert_eq!((record.kind, record.reading), (0, Reading::Plain));
        let vpd = b"\x01\x08mfg_date\x0820230231\x00";
        assert_eq!(entry(VPD, edition, vpd, 0).unwrap().reading, Reading::Plain);
    }
    let entries = [
        entry_bytes(13, b"20230231"),
        entry_bytes(0x23, b"02/31/2023 24:60:60"),
    ]
    .concat();
    let readings: Vec<_> = list(ONIE, 3, &onie(&entries), 2)
        .unwrap()
        .into_iter()
        .map(|entry| (entry.kind, entry.reading))
        .collect();
    assert_eq!(readings, [(0, Reading::Plain), (1059, Reading::Text)]);
}

/// Reading 8 carries year, month and day, and reading 9 hour, minute and second too.
#[test]
fn byte_form() {
    let words = |record: &[u8]| -> Vec<u32> {
        let words = record.chunks(4);
        words
            .map(|word| u32::from_le_bytes(word.try_into().unwrap()))
            .collect()
    };
    let image = fboss_with(b"20240229");
    for edition in EDITIONS {
        let frame = if edition < 4 { 0 } else { 10 };
        let expected = [13, 269, 19, 21, 0, 21, 8, frame, 8, 2024, 2, 29, 0, 0, 0, 0];
        let mut record = [0xA5; 64];
        assert_eq!(
            bytes::entry(FBOSS, edition, &image, 5, &mut record),
            1 << 32
        );
        assert_eq!(words(&record), expected);
        let mut records = vec![0xA5; 7 * 64];
        assert_eq!(bytes::list(FBOSS, edition, &image, &mut records), 7 << 32);
        assert_eq!(words(&records[5 * 64..6 * 64]), expected);
        let mut walk = [FBOSS, edition, 5, 0].map(u32::to_le_bytes).concat();
        let mut record = [0xA5; 64];
        assert_eq!(bytes::step(&mut walk, &image, &mut record), 1 << 32);
        assert_eq!(words(&record), expected);
    }
    for (value, date, time) in [
        (b"02/29/2024 23:58:59", [2024, 2, 29], [23, 58, 59]),
        (b"12/31/9999 00:00:00", [9999, 12, 31], [0, 0, 0]),
        (b"01/01/0001 01:02:03", [1, 1, 1], [1, 2, 3]),
    ] {
        let image = onie_with(value);
        let mut record = [0xA5; 64];
        assert_eq!(bytes::entry(ONIE, 3, &image, 0, &mut record), 1 << 32);
        let head = [0x25, 1061, 11, 13, 0, 13, 19, 0, 9];
        let expected = [&head[..], &date, &time, &[0]].concat();
        assert_eq!(words(&record), expected);
    }
    // A refused one leaves the record.
    let mut record = [0xA5; 64];
    let image = fboss_with(b"20230231");
    assert_eq!(
        bytes::entry(FBOSS, 1, &image, 0, &mut record),
        7 << 59 | FBOSS_PLACE
    );
    assert_eq!(record, [0xA5; 64]);
}
