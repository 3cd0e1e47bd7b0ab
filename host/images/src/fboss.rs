//! Generated FBOSS entries (01, FBOSS v5).

use crate::dates;
use crate::image::Entry;
use crate::random::Random;

/// The codes that every image must have.
pub const REQUIRED: [u8; 5] = [1, 8, 9, 10, 11];

/// The codes that edition 1 names, and those that edition 2 adds.
pub const NAMED: [&[u8]; 2] = [
    &[1, 2, 3, 4, 5, 6, 7, 8, 9, 10, 11, 12, 13, 14, 15, 16],
    &[17, 18, 19, 20],
];

/// A code that an entry may have and no edition names.
pub fn unnamed(random: &mut Random) -> u8 {
    match random.below(4) {
        0 => random.pick(&[21, 249, 251, 254]),
        _ => random.between(21, 249) as u8,
    }
}

/// A value that keeps the rule of a code.
pub fn kept(random: &mut Random, code: u8) -> Vec<u8> {
    match code {
        3 => random.text(8),
        4 | 5 => random.text(12),
        8..=10 => random.bytes(1),
        13 => dates::fboss_text(dates::day(random)),
        17..=20 => random.bytes(8),
        _ => {
            let length = random.byte_length();
            match code {
                1..=16 => random.text(length),
                _ => random.bytes(length),
            }
        }
    }
}

/// A value of at most 255 bytes that breaks the rule of a named code.
pub fn broken(random: &mut Random, code: u8) -> Vec<u8> {
    if code == 13 && random.once_in(2) {
        return dates::fboss_text(dates::no_day(random));
    }
    let mut value = kept(random, code);
    let of_any_length = !matches!(code, 3..=5 | 8..=10 | 13 | 17..=20);
    let of_any_bytes = matches!(code, 8..=10 | 17..=20);
    if of_any_bytes || (!of_any_length && random.once_in(2)) {
        if random.once_in(2) {
            value.pop();
        } else {
            value.push(b'0');
        }
    } else {
        let wrong: &[u8] = match code {
            13 => b"/: A\x1F\x7F\xB0",
            _ => b"\x00\x0A\x1F\x7F\x80\xA0\xFF",
        };
        if value.is_empty() {
            value.push(b'A');
        }
        let place = random.below(value.len());
        value[place] = random.pick(wrong);
    }
    value
}

/// The entries of an image that edition 1 accepts. Later editions accept it but for one in a few,
/// which have an entry that edition 1 does not name twice, or with a wrong value.
pub fn entries(random: &mut Random) -> Vec<Entry> {
    let mut codes = REQUIRED.to_vec();
    let often = random.between(1, 8);
    for &code in NAMED.concat().iter() {
        if !REQUIRED.contains(&code) && random.once_in(often) {
            codes.push(code);
        }
    }
    for _ in 0..random.pick(&[0, 0, 1, 2, 5]) {
        codes.push(unnamed(random));
    }
    if random.once_in(4) {
        random.shuffle(&mut codes);
    }
    let mut entries: Vec<Entry> = codes
        .iter()
        .map(|&code| Entry::new(code, kept(random, code)))
        .collect();
    if random.once_in(8) {
        let code = random.pick(NAMED[1]);
        let value = match random.below(2) {
            0 => broken(random, code),
            _ => kept(random, code),
        };
        let place = random.between(0, entries.len());
        entries.insert(place, Entry::new(code, value));
    }
    entries
}

/// Entries that fill an image to exactly this length, with values of about one length.
pub fn filling(random: &mut Random, length: usize, value_length: usize) -> Vec<Entry> {
    let mut entries: Vec<Entry> = REQUIRED
        .iter()
        .map(|&code| match code {
            8..=10 => Entry::new(code, random.bytes(1)),
            _ => Entry::new(code, Vec::new()),
        })
        .collect();
    // The header, the end and the required entries have 21 bytes.
    let mut left = length - 21;
    while left >= 2 {
        let mut value = value_length.min(left - 2);
        // An entry has at least two bytes, so one byte is never left over.
        if left - 2 - value == 1 {
            value = if value < 255 { value + 1 } else { value - 1 };
        }
        entries.push(Entry::new(unnamed(random), random.bytes(value)));
        left -= 2 + value;
    }
    random.shuffle(&mut entries);
    entries
}
