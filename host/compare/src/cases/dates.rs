//! The cases of 02, Real calendar days.

use images::checks::check16;
use images::dates::{fboss_text, onie_text};
use images::fields::List;
use images::image::{Entry, Format, Image};

use super::*;
use crate::comparison::{hex, BLOCK};

/// Each year of the sweeps with the last day of its February. Year 0 has no days.
const YEARS: [(usize, usize); 9] = [
    (0, 0),
    (1, 28),
    (4, 29),
    (1582, 28),
    (1900, 28),
    (2000, 29),
    (2023, 28),
    (2024, 29),
    (9999, 28),
];

/// Whether a year with such a February has a day.
fn is_day(february: usize, month: usize, day: usize) -> bool {
    let last = match month {
        2 => february,
        4 | 6 | 9 | 11 => 30,
        1..=12 => 31,
        _ => 0,
    };
    february > 0 && (1..=last).contains(&day)
}

/// Images of one format with a date in them.
struct Dated {
    format: Format,
    /// The entries before the date, and the one after it, a text that looks like a date and is no day.
    before: &'static [(u8, &'static [u8])],
    after: (u8, &'static [u8]),
    code: u8,
    /// The place of the date's entry. Its number is that of the entries before it.
    place: usize,
    /// A date, which edits begin with.
    old: &'static [u8],
}

const FBOSS_DATE: Dated = Dated {
    format: Format::Fboss,
    before: &[
        (1, b"N"),
        (8, b"\x04"),
        (9, b"\x05"),
        (10, b"\x06"),
        (11, b"S"),
    ],
    after: (12, b"20230231"),
    code: 13,
    place: 19,
    old: b"20130203",
};

const ONIE_DATE: Dated = Dated {
    format: Format::Onie,
    before: &[(0x21, b"name")],
    after: (0x23, b"02/31/2023 24:60:60"),
    code: 0x25,
    place: 17,
    old: b"06/15/2023 12:34:56",
};

impl Dated {
    fn parts<'a>(&'a self, value: &'a [u8]) -> impl Iterator<Item = (u8, &'a [u8])> {
        let date = (self.code, value);
        self.before.iter().copied().chain([date, self.after])
    }

    fn image(&self, value: &[u8]) -> Vec<u8> {
        let parts = self.parts(value);
        let entries = parts.map(|(code, value)| Entry::new(code, value.to_vec()));
        Image::new(self.format, entries.collect()).bytes()
    }

    fn fields(&self, value: &[u8]) -> List {
        let mut list = List::default();
        for (code, value) in self.parts(value) {
            list.add(code.into(), b"", value);
        }
        list
    }

    /// The record of the date's entry, where the value is a date.
    fn record(&self, value: &[u8]) -> Vec<u8> {
        let [place, length] = [self.place, value.len()].map(|number| number as u32);
        let (code, value_place) = (u32::from(self.code), place + 2);
        let kind = self.format.number() * 256 + code;
        let frame = 2 + length;
        let head = [
            code,
            kind,
            place,
            value_place,
            0,
            value_place,
            length,
            frame,
        ];
        let reading = match self.format {
            Format::Fboss => fboss_reading(value),
            _ => onie_reading(value),
        };
        record(&[&head[..], &reading].concat())
    }

    /// Every call on a value as a date: in an image, as a field, and as the new value of an edit. Where
    /// it is one, each gives its record or the image, and else each is refused 7.
    fn held(&self, compare: &mut Comparison, value: &[u8], is_date: bool) {
        let what = &String::from_utf8_lossy(value);
        let (image, old) = (self.image(value), self.image(self.old));
        let list = self.fields(value);
        let fields = list.bytes();
        let format = self.format.number();
        let (length, n) = (image.len(), self.before.len() as u64);
        let count = self.before.len() + 2;
        for &edition in self.format.editions() {
            let walk = walk_bytes(format, edition, n);
            let check = Call::check(format, edition, &image);
            let edit = Call::check(format, edition, &old).edit(n, value, length);
            let write = Call::write(format, edition, &fields, &list.values, length);
            if is_date {
                let record = in_edition(edition, &self.record(value));
                let part = part(self.place as u64 + 2, value.len() as u64);
                let back = check.edit(n, self.old, old.len());
                compare.case(what, &check, given(count), None);
                compare.case(what, &check.list(count * RECORD), given(count), None);
                compare.case(what, &check.entry(n, RECORD), given(1), Some(&record));
                compare.case(what, &check.step(&walk, RECORD), given(1), Some(&record));
                compare.case(what, &check.value(n), part, None);
                compare.case(what, &back, given(old.len()), Some(&old));
                compare.case(what, &edit, given(length), Some(&image));
                compare.case(what, &write, given(length), Some(&image));
            } else {
                let refusal = refused(7, self.place as u64);
                for call in [
                    check,
                    check.list(count * RECORD),
                    check.entry(n, RECORD),
                    check.entry(0, RECORD),
                    check.value(n),
                    check.step(&walk, RECORD),
                    check.edit(n, self.old, 99),
                    check.edit(0, b"other", 99),
                    edit,
                ] {
                    compare.case(what, &call, refusal, None);
                }
                if self.format == Format::Onie {
                    compare.case(what, &check.vendor_read(99, BLOCK), refusal, None);
                }
                compare.case(what, &write, refused(7, n), None);
            }
        }
    }
}

/// The number in decimal digits.
fn number(digits: &[u8]) -> u32 {
    let digits = digits.iter();
    digits.fold(0, |number, digit| number * 10 + u32::from(digit - b'0'))
}

/// The reading of an FBOSS date, as words.
fn fboss_reading(value: &[u8]) -> Vec<u32> {
    let date = [0..4, 4..6, 6..8].map(|places| number(&value[places]));
    [&[8][..], &date].concat()
}

/// The reading of an ONIE date with its time, as words.
pub fn onie_reading(value: &[u8]) -> Vec<u32> {
    let date = [6..10, 0..2, 3..5].map(|places| number(&value[places]));
    let time = [11..13, 14..16, 17..19].map(|places| number(&value[places]));
    [&[9][..], &date, &time].concat()
}

/// The dates that the papers give, the board of the request among them, and those next to them; and
/// images with a date, record by record.
pub fn examples(compare: &mut Comparison) {
    for (date, is_day) in [
        ([2023, 2, 31], false),
        ([1582, 10, 10], true),
        ([1582, 10, 4], true),
        ([1582, 10, 5], true),
        ([1582, 10, 14], true),
        ([1582, 10, 15], true),
        ([1752, 9, 3], true),
        ([1900, 2, 28], true),
        ([1900, 2, 29], false),
        ([1900, 3, 1], true),
        ([2000, 2, 29], true),
        ([2000, 2, 30], false),
        ([4, 2, 29], true),
        ([4, 2, 30], false),
        ([3, 2, 29], false),
        ([100, 2, 29], false),
        ([400, 2, 29], true),
        ([2100, 2, 29], false),
        ([2400, 2, 29], true),
        ([0, 0, 0], false),
        ([0, 1, 1], false),
        ([0, 2, 29], false),
        ([0, 12, 31], false),
        ([1, 1, 1], true),
        ([1, 1, 0], false),
        ([1, 0, 1], false),
        ([9999, 12, 31], true),
        ([9999, 12, 32], false),
        ([9999, 13, 1], false),
        ([9999, 99, 99], false),
        ([2013, 2, 3], true),
        ([2023, 6, 15], true),
    ] {
        compare.next_case();
        FBOSS_DATE.held(compare, &fboss_text(date), is_day);
        for time in [[0, 0, 0], [12, 34, 56], [23, 59, 59]] {
            ONIE_DATE.held(compare, &onie_text(date, time), is_day);
        }
        for time in [[24, 0, 0], [23, 60, 0], [23, 59, 60]] {
            ONIE_DATE.held(compare, &onie_text(date, time), false);
        }
    }

    for edition in EDITIONS {
        let image = FBOSS_DATE.image(b"20240229");
        let records = [
            record(&[1, 257, 4, 6, 0, 6, 1, 3, 1]),
            record(&[8, 264, 7, 9, 0, 9, 1, 3, 2, 4]),
            record(&[9, 265, 10, 12, 0, 12, 1, 3, 2, 5]),
            record(&[10, 266, 13, 15, 0, 15, 1, 3, 2, 6]),
            record(&[11, 267, 16, 18, 0, 18, 1, 3, 1]),
            record(&[13, 269, 19, 21, 0, 21, 8, 10, 8, 2024, 2, 29]),
            record(&[12, 268, 29, 31, 0, 31, 8, 10, 1]),
        ];
        let check = Call::check(FBOSS, edition, &image);
        listed(compare, &check, "an FBOSS date", &records);
    }
    let image = ONIE_DATE.image(b"02/29/2024 23:58:59");
    let date = [
        0x25, 1061, 17, 19, 0, 19, 19, 21, 9, 2024, 2, 29, 23, 58, 59,
    ];
    let records = [
        record(&[0x21, 1057, 11, 13, 0, 13, 4, 6, 1]),
        record(&date),
        record(&[0x23, 1059, 38, 40, 0, 40, 19, 21, 1]),
    ];
    let check = Call::check(ONIE, 3, &image);
    listed(compare, &check, "an ONIE date", &records);
}

/// In an image 7 stays where it was in the order: after the frames and the check, entry by entry with 8,
/// and before a field that is missing.
pub fn order_in_images(compare: &mut Comparison) {
    let date = |value: &[u8]| Entry::new(13, value.to_vec()).bytes(Format::Fboss);
    let (day, no_day) = (date(b"20230228"), date(b"20230229"));
    for (entries, number, place) in [
        (no_day.clone(), 7, 4),
        (day.clone(), 11, 0),
        ([&no_day[..], &no_day].concat(), 7, 4),
        ([&day[..], &no_day].concat(), 7, 14),
        ([&day[..], &day].concat(), 8, 14),
        ([&day[..], &day, &no_day].concat(), 8, 14),
        ([b"\x01\x00\x01\x00", &no_day[..]].concat(), 8, 6),
        ([&no_day[..], b"\x01\x00\x01\x00"].concat(), 7, 4),
        ([&no_day[..], b"\x08\x00"].concat(), 7, 4),
        ([&day[..], b"\x08\x00", &no_day].concat(), 7, 14),
    ] {
        let mut image = [b"\xFB\xFB\x05\xFF", &entries[..]].concat();
        let check = check16(&image).to_be_bytes();
        image.extend(b"\xFA\x02");
        image.extend(check);
        checked(compare, FBOSS, &hex(&image), refused(number, place));
        let stored = image.len() - 2;
        image[stored] ^= 1;
        checked(compare, FBOSS, &hex(&image), refused(10, stored as u64));
        image[stored - 1] = 3;
        checked(compare, FBOSS, &hex(&image), refused(6, stored as u64 - 2));
    }

    let date = |value: &[u8]| Entry::new(0x25, value.to_vec()).bytes(Format::Onie);
    let (day, no_day) = (date(b"02/28/2023 23:59:59"), date(b"02/28/2023 23:59:60"));
    for (entries, number, place) in [
        (no_day.clone(), 7, 11),
        ([&no_day[..], &no_day].concat(), 7, 11),
        ([&day[..], &no_day].concat(), 7, 32),
        ([&day[..], &day].concat(), 8, 32),
        ([&day[..], &day, &no_day].concat(), 8, 32),
        ([b"\x21\x00\x21\x00", &no_day[..]].concat(), 8, 13),
        ([&no_day[..], b"\x21\x00\x21\x00"].concat(), 7, 11),
        ([&day[..], b"\x2C\x00", &no_day].concat(), 7, 32),
    ] {
        let mut image = onie::image(&entries);
        checked_in(compare, ONIE, 3, &hex(&image), refused(number, place));
        for edition in [1, 2] {
            checked_in(compare, ONIE, edition, &hex(&image), refused(16, 0));
        }
        let stored = image.len() - 4;
        image[stored] ^= 1;
        let wrong_check = refused(10, stored as u64);
        checked_in(compare, ONIE, 3, &hex(&image), wrong_check);
        image[10] += 1;
        checked_in(compare, ONIE, 3, &hex(&image), refused(5, 9));
    }
}

/// In a write 7 comes after 14 and 13 of a field and before 8, and in an edit after 13 and 14. It comes
/// before 12 in both.
pub fn order_in_writes_and_edits(compare: &mut Comparison) {
    for (dated, no_day, day, unnamed) in [
        (FBOSS_DATE, &b"20230229"[..], &b"20240229"[..], 21_u8),
        (
            ONIE_DATE,
            b"02/29/2023 00:00:00",
            b"02/29/2024 00:00:00",
            0x26,
        ),
    ] {
        let n = dated.before.len() as u64;
        let format = dated.format.number();
        for &edition in dated.format.editions() {
            // More fields, after the date and the text that follows it.
            compare.next_case();
            let list = dated.fields(dated.old);
            let values = [&list.values[..], no_day, day].concat();
            let (start, length) = (list.values.len() as u32, no_day.len() as u32);
            let code = u32::from(dated.code);
            let wrong = [code, 0, 0, start, length];
            let again = [code, 0, 0, start + length, length];
            let outside = [code, 0, 0, start + length, length + 1];
            let not_named = [u32::from(unnamed), 0, 0, start, length];
            for (more, answer) in [
                (&[wrong][..], refused(7, n + 2)),
                (&[again], refused(8, n + 2)),
                (&[outside], refused(13, n + 2)),
                (&[not_named], refused(14, n + 2)),
                (&[wrong, not_named], refused(7, n + 2)),
                (&[not_named, wrong], refused(14, n + 2)),
                (&[], refused(12, 0)),
            ] {
                let mut fields = list.bytes();
                fields.extend(more.iter().flatten().flat_map(|word| word.to_le_bytes()));
                let write = Call::write(format, edition, &fields, &values, 20);
                compare.case("order in a write", &write, answer, None);
            }

            // The last entry is an unnamed one.
            compare.next_case();
            let parts = dated.parts(dated.old).chain([(unnamed, no_day)]);
            let entries = parts.map(|(code, value)| Entry::new(code, value.to_vec()));
            let image = Image::new(dated.format, entries.collect()).bytes();
            let check = Call::check(format, edition, &image);
            let place = dated.place as u64;
            let last = dated.place + 4 + dated.old.len() + dated.after.1.len();
            for (n, value, answer) in [
                (n + 3, no_day, refused(13, 0)),
                (n + 2, no_day, refused(14, last as u64)),
                (n, no_day, refused(7, place)),
                (n, day, refused(12, 0)),
            ] {
                for room in [0, image.len() - 1] {
                    let edit = check.edit(n, value, room);
                    compare.case("order in an edit", &edit, answer, None);
                }
            }
            // A text may look like a date and be none.
            let text = check.edit(n + 1, no_day, image.len());
            compare.case("a text", &text, given(image.len()), None);
        }
    }
}

/// Every day number to 32 of every month number to 13, of the years at the edges, as an FBOSS date.
pub fn fboss_days(compare: &mut Comparison) {
    for (year, february) in YEARS {
        for month in 0..=13 {
            for day in 0..=32 {
                compare.next_case();
                let is_day = is_day(february, month, day);
                FBOSS_DATE.held(compare, &fboss_text([year, month, day]), is_day);
            }
        }
    }
}

/// The same days as ONIE dates, at one of a few times.
pub fn onie_days(compare: &mut Comparison) {
    let times = [[0, 0, 0], [12, 34, 56], [23, 59, 59]];
    for (year, february) in YEARS {
        for month in 0..=13 {
            for day in 0..=32 {
                compare.next_case();
                let is_day = is_day(february, month, day);
                let time = times[(month + day) % times.len()];
                ONIE_DATE.held(compare, &onie_text([year, month, day], time), is_day);
            }
        }
    }
}

/// February 29 of every year: a day in every fourth, but for the hundredths that are no
/// four-hundredths.
pub fn leap_days(compare: &mut Comparison) {
    for century in 0..100 {
        compare.next_case();
        for year in century * 100..century * 100 + 100 {
            let leap = year > 0
                && match year % 100 {
                    0 => century % 4 == 0,
                    rest => rest % 4 == 0,
                };
            // Every edition has leap years.
            let edition = EDITIONS[(year + year / 4) % EDITIONS.len()];
            let date = fboss_text([year, 2, 29]);
            let image = FBOSS_DATE.image(&date);
            let list = FBOSS_DATE.fields(&date);
            let fields = list.bytes();
            let check = Call::check(FBOSS, edition, &image);
            let write = Call::write(FBOSS, edition, &fields, &list.values, image.len());
            let record = in_edition(edition, &FBOSS_DATE.record(&date));
            if leap {
                compare.case("leap day", &check.entry(5, RECORD), given(1), Some(&record));
                compare.case("leap day", &write, given(image.len()), Some(&image));
            } else {
                compare.case("no leap day", &check.entry(5, RECORD), refused(7, 19), None);
                compare.case("no leap day", &write, refused(7, 5), None);
            }

            let date = onie_text([year, 2, 29], [23, 59, 59]);
            let image = ONIE_DATE.image(&date);
            let old = ONIE_DATE.image(ONIE_DATE.old);
            let edit = Call::check(ONIE, 3, &old).edit(1, &date, old.len());
            let entry = Call::check(ONIE, 3, &image).entry(1, RECORD);
            let record = in_edition(3, &ONIE_DATE.record(&date));
            if leap {
                compare.case("leap day", &entry, given(1), Some(&record));
                compare.case("leap day", &edit, given(old.len()), Some(&image));
            } else {
                compare.case("no leap day", &entry, refused(7, 17), None);
                compare.case("no leap day", &edit, refused(7, 17), None);
            }
        }
    }
}

/// Hours, minutes and seconds at their edges, all together, and each of them from 00 to 99.
pub fn times(compare: &mut Comparison) {
    let date = [2024, 2, 29];
    let edges = [0, 1, 22, 23, 24, 25, 59, 60, 61, 99];
    let fits = |[hour, minute, second]: [usize; 3]| hour <= 23 && minute <= 59 && second <= 59;
    for hour in edges {
        for minute in edges {
            compare.next_case();
            for second in edges {
                let time = [hour, minute, second];
                ONIE_DATE.held(compare, &onie_text(date, time), fits(time));
            }
        }
    }
    for number in 0..=99 {
        compare.next_case();
        for other in [0, 23] {
            for time in [
                [number, other, other],
                [other, number, other],
                [other, other, number],
            ] {
                ONIE_DATE.held(compare, &onie_text(date, time), fits(time));
            }
        }
    }
}

/// The bytes that may stand in each place of 20130203 and of 06/15/2023 12:34:56, the others as they
/// are.
const FBOSS_FITTING: [&[u8]; 8] = [DIGIT, DIGIT, DIGIT, DIGIT, b"01", NO_ZERO, b"012", NO_ZERO];
const ONIE_FITTING: [&[u8]; 19] = [
    b"0", NO_ZERO, b"/", b"012", DIGIT, b"/", DIGIT, DIGIT, DIGIT, DIGIT, b" ", b"012", DIGIT,
    b":", b"012345", DIGIT, b":", b"012345", DIGIT,
];
const DIGIT: &[u8] = b"0123456789";
const NO_ZERO: &[u8] = b"123456789";

/// Every byte in each place of a date.
pub fn every_byte(compare: &mut Comparison) {
    for byte in 0..=255 {
        compare.next_case();
        for (place, fitting) in FBOSS_FITTING.iter().enumerate() {
            let mut value = FBOSS_DATE.old.to_vec();
            value[place] = byte;
            FBOSS_DATE.held(compare, &value, fitting.contains(&byte));
        }
        compare.next_case();
        for (place, fitting) in ONIE_FITTING.iter().enumerate() {
            let mut value = ONIE_DATE.old.to_vec();
            value[place] = byte;
            ONIE_DATE.held(compare, &value, fitting.contains(&byte));
        }
    }
}

/// Values that are no date by their form: of every other length, with other marks, and with the numbers
/// in another order.
pub fn forms(compare: &mut Comparison) {
    for length in 0..=40 {
        compare.next_case();
        for digit in [b'0', b'1', b'2'] {
            let value = vec![digit; length];
            // 1111-11-11 is a day.
            FBOSS_DATE.held(compare, &value, (length, digit) == (8, b'1'));
            ONIE_DATE.held(compare, &value, false);
        }
        for dated in [FBOSS_DATE, ONIE_DATE] {
            // The date cut off, and with more bytes after it or before it.
            let whole = dated.old.len();
            let mut value = dated.old.to_vec();
            value.resize(length, b'0');
            dated.held(compare, &value, length == whole);
            if length > whole {
                let mut value = vec![b'0'; length - whole];
                value.extend(dated.old);
                dated.held(compare, &value, false);
            }
        }
    }
    for value in [
        &b"2013 203"[..],
        b"201302 3",
        b" 0130203",
        b"+0130203",
        b"-0010203",
        b"2013020\n",
        b"02032013",
        b"03022013",
        b"20133112",
        b"2013/2/3",
        b"2013-2-3",
        b"2O130203",
        b"0x7DD203",
        b"\x32\x30\x31\x33\xB0\x32\x30\x33",
        b"02/03/2013",
        b"2013-02-03",
    ] {
        compare.next_case();
        FBOSS_DATE.held(compare, value, false);
        ONIE_DATE.held(compare, value, false);
    }
    for value in [
        b"2023/06/15 12:34:56",
        b"15/06/2023 12:34:56",
        b"06/2023/15 12:34:56",
        b"06/15/2023 56:34:12",
        b"12:34:56 06/15/2023",
        b"06-15-2023 12:34:56",
        b"06/15/2023T12:34:56",
        b"06/15/2023 12-34-56",
        b"06/15/2023 12.34.56",
        b"06:15:2023 12/34/56",
        b"06/15/2023/12:34:56",
        b"06 15 2023 12 34 56",
        b" 6/15/2023 12:34:56",
        b"06/15/+023 12:34:56",
        b"06/15/-023 12:34:56",
        b"06/15/2023 12:34: 6",
        b"06/15/2023 -1:34:56",
        b"6/15/2023 12:34:56 ",
        b"06/15/2023  2:34:56",
        b"O6/15/2O23 12:34:56",
    ] {
        compare.next_case();
        ONIE_DATE.held(compare, value, false);
        FBOSS_DATE.held(compare, value, false);
    }
}
