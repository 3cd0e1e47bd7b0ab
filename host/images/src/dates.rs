//! Generated days of the calendar and times of day, and what comes near them (02, Real calendar days).

use crate::image::Format;
use crate::random::Random;

/// Years at the edges of the calendar's rules, and some between.
const YEARS: [usize; 14] = [
    1, 4, 96, 100, 400, 1582, 1900, 1999, 2000, 2023, 2024, 2100, 9996, 9999,
];

/// The code of a format's date, where it has one.
pub fn code(format: Format) -> Option<u8> {
    match format {
        Format::Fboss => Some(13),
        Format::Vpd | Format::Tiny => None,
        Format::Onie => Some(0x25),
    }
}

/// A year, a month and a day as FBOSS has them: YYYYMMDD.
pub fn fboss_text([year, month, day]: [usize; 3]) -> Vec<u8> {
    format!("{year:04}{month:02}{day:02}").into_bytes()
}

/// A year, a month and a day, an hour, a minute and a second as ONIE has them: MM/DD/YYYY HH:NN:SS.
pub fn onie_text([year, month, day]: [usize; 3], [hour, minute, second]: [usize; 3]) -> Vec<u8> {
    format!("{month:02}/{day:02}/{year:04} {hour:02}:{minute:02}:{second:02}").into_bytes()
}

fn last_day(year: usize, month: usize) -> usize {
    match month {
        4 | 6 | 9 | 11 => 30,
        2 => match (year % 400, year % 100, year % 4) {
            (0, _, _) | (_, 1.., 0) => 29,
            _ => 28,
        },
        _ => 31,
    }
}

/// A year, a month and a day of it, with many of those at the edges.
pub fn day(random: &mut Random) -> [usize; 3] {
    let year = match random.below(4) {
        0 => random.between(1, 9999),
        _ => random.pick(&YEARS),
    };
    let month = match random.below(4) {
        0 => 2,
        _ => random.between(1, 12),
    };
    let last = last_day(year, month);
    let day = match random.below(4) {
        0 => last,
        1 => random.pick(&[1, 9, 10, 28]),
        _ => random.between(1, last),
    };
    [year, month, day]
}

/// A year, a month and a day that are no day of the calendar. Most come near one.
pub fn no_day(random: &mut Random) -> [usize; 3] {
    let [year, month, day] = day(random);
    match random.below(8) {
        0 | 1 => [year, month, last_day(year, month) + 1],
        2 => [random.pick(&[1, 100, 1900, 2023, 2100, 9999]), 2, 29],
        3 => [year, 2, random.pick(&[30, 31])],
        4 => [year, random.pick(&[4, 6, 9, 11]), 31],
        5 => [year, month, random.pick(&[0, 0, 32, 32, 40, 99])],
        6 => [year, random.pick(&[0, 0, 13, 13, 20, 99]), day],
        _ => [0, month, day],
    }
}

/// An hour, a minute and a second, with many of those at the edges.
pub fn time(random: &mut Random) -> [usize; 3] {
    [23, 59, 59].map(|last| match random.below(4) {
        0 => 0,
        1 => last,
        _ => random.between(0, last),
    })
}

/// An hour, a minute and a second, of which one is past its last.
pub fn no_time(random: &mut Random) -> [usize; 3] {
    let mut time = time(random);
    let at = random.below(3);
    let past = [24, 60, 60][at];
    time[at] = random.pick(&[past, past, past + 1, 99]);
    time
}
