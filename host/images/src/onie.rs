//! Generated ONIE entries (02, ONIE images and edition 3).

use crate::dates;
use crate::image::{Entry, Format, ONIE_LONGEST};
use crate::random::Random;

/// The codes that each edition adds, from edition 1 on.
pub const NAMED: [&[u8]; 3] = [
    &[],
    &[],
    &[
        0x21, 0x22, 0x23, 0x24, 0x25, 0x2A, 0x2B, 0x2C, 0x2D, EXTENSION,
    ],
];

/// The code of a vendor extension, which may repeat.
pub const EXTENSION: u8 = 0xFD;

/// The codes whose value is text of any length.
pub const TEXTS: [u8; 5] = [0x21, 0x22, 0x23, 0x2B, 0x2D];

/// The header and the end of an image have so many bytes, and its entries the rest.
const AROUND: usize = 17;

/// A code that an entry may have and no edition names.
pub fn unnamed(random: &mut Random) -> u8 {
    loop {
        let code = match random.below(3) {
            // Those next to named ones, most of which have names in the public specification.
            0 => random.pick(&[0x20, 0x26, 0x27, 0x28, 0x29, 0x2E, 0x2F, 0xFC]),
            1 => random.pick(&[0x01, 0x02, 0x80, 0xFA, 0xFB]),
            _ => random.between(0x01, 0xFD) as u8,
        };
        if !NAMED.concat().contains(&code) {
            return code;
        }
    }
}

/// A value that keeps the rule of a code.
pub fn kept(random: &mut Random, code: u8) -> Vec<u8> {
    match code {
        0x24 => random.bytes(6),
        0x25 => dates::onie_text(dates::day(random), dates::time(random)),
        0x2A => random.bytes(2),
        0x2C => random.picks(b"AABCMYZZ", 2),
        EXTENSION => extension(random),
        _ => {
            let length = random.byte_length();
            match TEXTS.contains(&code) {
                true => random.text(length),
                false => random.bytes(length),
            }
        }
    }
}

/// A value of at most 255 bytes that breaks the rule of a named code.
pub fn broken(random: &mut Random, code: u8) -> Vec<u8> {
    if code == 0x25 && random.once_in(2) {
        return match random.below(5) {
            0 | 1 => dates::onie_text(dates::no_day(random), dates::time(random)),
            2 | 3 => dates::onie_text(dates::day(random), dates::no_time(random)),
            _ => dates::onie_text(dates::no_day(random), dates::no_time(random)),
        };
    }
    let mut value = kept(random, code);
    let of_any_bytes = matches!(code, 0x24 | 0x2A);
    if code == EXTENSION {
        value.truncate(random.below(4));
    } else if of_any_bytes || (matches!(code, 0x25 | 0x2C) && random.once_in(2)) {
        if random.once_in(2) {
            value.pop();
        } else {
            value.push(b'0');
        }
    } else {
        let wrong: &[u8] = match code {
            // None of them is a mark of a date or a digit.
            0x25 => b"-.;,TZ\x00\x1F\x7F\xB0\xFF",
            0x2C => b"@[az09 \x00\xC1\xFF",
            _ => b"\x00\x0A\x1F\x7F\x80\xA0\xFF",
        };
        if value.is_empty() {
            value.push(b'A');
        }
        let place = random.below(value.len());
        value[place] = match code {
            // A mark in the place of a digit, or a digit in the place of a mark.
            0x25 if random.once_in(2) => match value[place] {
                b'0'..=b'9' => random.pick(b"/ :"),
                _ => b'0',
            },
            _ => random.pick(wrong),
        };
    }
    value
}

/// A vendor extension: any bytes, the number of an enterprise and a version, or those and no more.
fn extension(random: &mut Random) -> Vec<u8> {
    let length = match random.below(16) {
        0 => random.pick(&[250, 254, 255]),
        1..=4 => 0,
        _ => random.between(0, 30),
    };
    let mut value = match random.below(3) {
        0 => b"\x00\x00\x1F\x79\x00".to_vec(),
        1 => b"\x00\x00\x1F\x79".to_vec(),
        _ => random.bytes(4),
    };
    value.extend(random.bytes(length));
    value.truncate(255);
    value
}

/// The entries of an image that edition 3 accepts.
pub fn entries(random: &mut Random) -> Vec<Entry> {
    let often = random.between(1, 6);
    let mut codes: Vec<u8> = NAMED
        .concat()
        .into_iter()
        .filter(|_| random.once_in(often))
        .collect();
    for _ in 0..random.pick(&[0, 0, 1, 2, 5]) {
        codes.push(unnamed(random));
    }
    let more = random.pick(&[0, 0, 0, 1, 2, 7]);
    codes.extend(vec![EXTENSION; more]);
    if random.once_in(2) {
        random.shuffle(&mut codes);
    }
    let mut left = ONIE_LONGEST - AROUND;
    let mut entries = Vec::new();
    for code in codes {
        let entry = Entry::new(code, kept(random, code));
        let size = entry.bytes(Format::Onie).len();
        if size <= left {
            left -= size;
            entries.push(entry);
        }
    }
    entries
}

/// Entries that fill an image to exactly this length, with values of about one length.
pub fn filling(random: &mut Random, length: usize, value_length: usize) -> Vec<Entry> {
    let mut entries = Vec::new();
    let mut left = length - AROUND;
    while left >= 2 {
        let mut value = value_length.min(left - 2);
        // An entry has at least two bytes, so one byte is never left over.
        if left - 2 - value == 1 {
            value = if value < 255 { value + 1 } else { value - 1 };
        }
        let code = match random.below(4) {
            0 if value >= 4 => EXTENSION,
            _ => unnamed(random),
        };
        entries.push(Entry::new(code, random.bytes(value)));
        left -= 2 + value;
    }
    entries
}

/// Codes and values of fields with which a write declares this length: extensions of 255 bytes, and
/// what is left over as a text.
pub fn fields_declaring(random: &mut Random, length: usize) -> Vec<Entry> {
    let mut left = length - 6;
    let mut entries = Vec::new();
    while left > 257 {
        // So that not one byte is left over.
        let value = if left == 258 { 254 } else { 255 };
        entries.push(Entry::new(EXTENSION, random.bytes(value)));
        left -= 2 + value;
    }
    if left >= 2 {
        let code = random.pick(&TEXTS);
        entries.push(Entry::new(code, random.text(left - 2)));
    }
    if random.once_in(2) {
        random.shuffle(&mut entries);
    }
    entries
}
