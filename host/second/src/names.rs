//! What the editions name, the rules of named entries and their readings.

use crate::dates;
use crate::formats::{Edition, Format, ONIE_EXTENSION, POOL, VPD_INFO, VPD_STRING};
use crate::{Identity, Reading};

/// Whether an edition names a code.
pub(crate) fn is_named(format: Format, edition: Edition, code: u8) -> bool {
    let since_edition_one = match format {
        Format::Fboss => matches!(code, 1..=16),
        Format::Vpd => code == VPD_STRING,
        Format::Tiny => matches!(code, 0x01 | 0x10 | 0x11 | 0x60 | 0x61 | 0x62),
        Format::Onie => false,
    };
    let since_edition_two = match format {
        Format::Fboss => matches!(code, 17..=20),
        Format::Vpd => code == VPD_INFO,
        Format::Tiny => matches!(code, 0x80 | 0x81),
        Format::Onie => false,
    };
    let since_edition_three = match format {
        Format::Fboss | Format::Vpd | Format::Tiny => false,
        Format::Onie => matches!(code, 0x21..=0x25 | 0x2A..=0x2D | ONIE_EXTENSION),
    };
    since_edition_one
        || (since_edition_two && edition >= Edition::Two)
        || (since_edition_three && edition >= Edition::Three)
}

/// The kind of an entry that an edition names.
pub(crate) fn kind(format: Format, code: u8) -> u32 {
    format.number() * 256 + u32::from(code)
}

/// The codes that an image must have, in every edition.
pub(crate) fn required(format: Format) -> &'static [u8] {
    match format {
        Format::Fboss => &[1, 8, 9, 10, 11],
        Format::Vpd | Format::Tiny | Format::Onie => &[],
    }
}

/// Whether a named code may come more than once.
pub(crate) fn may_repeat(format: Format, code: u8) -> bool {
    (format, code) == (Format::Onie, ONIE_EXTENSION)
}

/// Whether a named entry keeps the rule of its code, as a reader has it.
///
/// The new value of an edit comes here too, so the rule also says how long a value may be.
pub(crate) fn keeps_rule(format: Format, code: u8, key: &[u8], value: &[u8]) -> bool {
    match (format, code) {
        (Format::Fboss, 3) => value.len() == 8 && is_text(value),
        (Format::Fboss, 4 | 5) => value.len() == 12 && is_text(value),
        (Format::Fboss, 8..=10) => value.len() == 1,
        (Format::Fboss, 13) => dates::date(value).is_some(),
        (Format::Fboss, 17..=20) => value.len() == 8,
        (Format::Fboss, _) => value.len() <= 255 && is_text(value),

        (Format::Vpd, VPD_INFO) => value.len() == 4,
        (Format::Vpd, _) => !key.is_empty(),

        (Format::Tiny, POOL) => value.len() <= 255,
        (Format::Tiny, 0x61 | 0x62) => match *value {
            [_, _, major, minor, _, _] => is_revision(major, minor),
            _ => false,
        },
        (Format::Tiny, 0x80 | 0x81) => match *value {
            [_, _, major, minor, _, _, low, high] => {
                is_revision(major, minor) && u16::from_le_bytes([low, high]) <= 9999
            }
            _ => false,
        },
        (Format::Tiny, _) => value.len() == usize::from(code >> 4),

        (Format::Onie, 0x24) => value.len() == 6,
        (Format::Onie, 0x25) => dates::date_with_time(value).is_some(),
        (Format::Onie, 0x2A) => value.len() == 2,
        (Format::Onie, 0x2C) => value.len() == 2 && value.iter().all(u8::is_ascii_uppercase),
        (Format::Onie, ONIE_EXTENSION) => (4..=255).contains(&value.len()),
        (Format::Onie, _) => value.len() <= 255 && is_text(value),
    }
}

/// Whether a field keeps the rule of its code, as a writer has it: the reader's rule, and for VPD
/// type 01h a key that is all in the narrow alphabet (02, VPD names with dots).
pub(crate) fn keeps_writers_rule(format: Format, code: u8, key: &[u8], value: &[u8]) -> bool {
    let in_alphabet = match (format, code) {
        (Format::Vpd, VPD_STRING) => key.iter().all(|&byte| is_key_byte(byte)),
        _ => true,
    };
    keeps_rule(format, code, key, value) && in_alphabet
}

fn is_text(value: &[u8]) -> bool {
    value.iter().all(|byte| matches!(byte, 0x20..=0x7E))
}

/// The alphabet of a key to be written: a-z, A-Z, 0-9 and underscore.
fn is_key_byte(byte: u8) -> bool {
    byte.is_ascii_alphanumeric() || byte == b'_'
}

/// The major part is 00 to 99, or 0A to 0Z with the top bit on. The minor part is 00 to 99.
fn is_revision(major: u8, minor: u8) -> bool {
    matches!(major, 0..=99 | 128..=153) && minor <= 99
}

/// What the value of a named entry means. The value keeps its rule.
pub(crate) fn reading(format: Format, code: u8, value: &[u8]) -> Reading {
    match (format, code, value) {
        (Format::Fboss, 8..=10, &[number]) => Reading::Number(u32::from(number)),
        (Format::Fboss, 13, _) => dates::date(value).map_or(Reading::Plain, Reading::Date),
        (Format::Fboss, 17..=20, &[b0, b1, b2, b3, b4, b5, c0, c1]) => Reading::Addresses {
            base: address([b0, b1, b2, b3, b4, b5]),
            count: u32::from(u16::from_be_bytes([c0, c1])),
        },
        (Format::Fboss, _, _) => Reading::Text,

        (Format::Vpd, _, _) => Reading::Plain,

        (Format::Tiny, 0x10, &[number]) => Reading::StringNumber(u32::from(number)),
        (Format::Tiny, 0x11, &[byte]) => Reading::TestFlags {
            byte,
            passed: (0..4).map(|bit| byte >> bit & 1).sum(),
        },
        (Format::Tiny, 0x60, &[b0, b1, b2, b3, b4, b5]) => Reading::Addresses {
            base: address([b0, b1, b2, b3, b4, b5]),
            count: 1,
        },
        (Format::Tiny, 0x61 | 0x62, &[serial, part, major, minor, free0, free1]) => {
            Reading::Identity(Identity {
                serial,
                part,
                major,
                minor,
                free0,
                free1,
            })
        }
        (Format::Tiny, 0x80 | 0x81, &[serial, part, major, minor, free0, free1, low, high]) => {
            let identity = Identity {
                serial,
                part,
                major,
                minor,
                free0,
                free1,
            };
            Reading::IdentityWithBatch(identity, u32::from(u16::from_le_bytes([low, high])))
        }
        (Format::Tiny, _, _) => Reading::Plain,

        (Format::Onie, 0x24, &[b0, b1, b2, b3, b4, b5]) => Reading::Addresses {
            base: address([b0, b1, b2, b3, b4, b5]),
            count: 1,
        },
        (Format::Onie, 0x25, _) => dates::date_with_time(value)
            .map_or(Reading::Plain, |(date, time)| {
                Reading::DateWithTime(date, time)
            }),
        (Format::Onie, 0x2A, &[high, low]) => {
            Reading::Number(u32::from(u16::from_be_bytes([high, low])))
        }
        (Format::Onie, ONIE_EXTENSION, _) => Reading::Plain,
        (Format::Onie, _, _) => Reading::Text,
    }
}

/// A 48-bit address, high byte first.
fn address(bytes: [u8; 6]) -> u64 {
    bytes
        .iter()
        .fold(0, |base, &byte| base << 8 | u64::from(byte))
}

#[cfg(test)]
mod tests {
    use super::*;

    #[test]
    fn the_editions_name_these_and_no_others() {
        let named = |format, edition| -> Vec<u8> {
            (0..=255)
                .filter(|&code| is_named(format, edition, code))
                .collect()
        };
        assert_eq!(
            named(Format::Fboss, Edition::One),
            (1..=16).collect::<Vec<u8>>()
        );
        assert_eq!(
            named(Format::Fboss, Edition::Two),
            (1..=20).collect::<Vec<u8>>()
        );
        assert_eq!(named(Format::Vpd, Edition::One), [0x01]);
        assert_eq!(named(Format::Vpd, Edition::Two), [0x01, 0xFE]);
        assert_eq!(
            named(Format::Tiny, Edition::One),
            [0x01, 0x10, 0x11, 0x60, 0x61, 0x62]
        );
        assert_eq!(
            named(Format::Tiny, Edition::Two),
            [0x01, 0x10, 0x11, 0x60, 0x61, 0x62, 0x80, 0x81]
        );
        for format in [Format::Fboss, Format::Vpd, Format::Tiny] {
            assert_eq!(named(format, Edition::Three), named(format, Edition::Two));
        }
        assert_eq!(
            named(Format::Onie, Edition::Three),
            [0x21, 0x22, 0x23, 0x24, 0x25, 0x2A, 0x2B, 0x2C, 0x2D, 0xFD]
        );
        for format in [Format::Fboss, Format::Vpd, Format::Tiny, Format::Onie] {
            assert_eq!(named(format, Edition::Four), named(format, Edition::Three));
        }
    }

    #[test]
    fn one_code_may_repeat() {
        for format in [Format::Fboss, Format::Vpd, Format::Tiny, Format::Onie] {
            for code in 0..=255 {
                let extension = format == Format::Onie && code == 0xFD;
                assert_eq!(may_repeat(format, code), extension);
            }
        }
    }

    #[test]
    fn fboss_rules() {
        let keeps = |code, value: &[u8]| keeps_rule(Format::Fboss, code, b"", value);
        for code in [1, 2, 6, 7, 11, 12, 14, 15, 16] {
            assert!(keeps(code, b""));
            assert!(keeps(code, b" ~"));
            assert!(keeps(code, &[b'x'; 255]));
            assert!(!keeps(code, &[b'x'; 256]));
            assert!(!keeps(code, &[0x1F]));
            assert!(!keeps(code, &[0x7F]));
        }
        for (code, length) in [(3, 8), (4, 12), (5, 12)] {
            for other in 0..20 {
                assert_eq!(keeps(code, &vec![b'x'; other]), other == length);
            }
            assert!(!keeps(code, &vec![0x80; length]));
        }
        for code in 8..=10 {
            assert!(!keeps(code, &[]));
            assert!(keeps(code, &[255]));
            assert!(!keeps(code, &[0, 0]));
        }
        for code in 17..=20 {
            assert!(!keeps(code, &[0; 7]));
            assert!(keeps(code, &[255; 8]));
            assert!(!keeps(code, &[0; 9]));
        }
    }

    #[test]
    fn vpd_rules() {
        let reader = |code, key: &[u8], value: &[u8]| keeps_rule(Format::Vpd, code, key, value);
        let writer =
            |code, key: &[u8], value: &[u8]| keeps_writers_rule(Format::Vpd, code, key, value);
        for keeps in [reader, writer] {
            assert!(keeps(VPD_STRING, b"azAZ09_", b""));
            assert!(!keeps(VPD_STRING, b"", b""));
            assert!(!keeps(VPD_STRING, b"", b"1234"));
            for key in [&b""[..], b"gVpdInfo", b"lab.rack", b"\x00\xFF\x80"] {
                assert!(!keeps(VPD_INFO, key, b""));
                assert!(!keeps(VPD_INFO, key, b"123"));
                assert!(keeps(VPD_INFO, key, b"1234"));
                assert!(!keeps(VPD_INFO, key, b"12345"));
            }
        }
        assert!(reader(VPD_STRING, b"lab.rack", b"x"));
        assert!(!writer(VPD_STRING, b"lab.rack", b"x"));
        for byte in 0..=255u8 {
            let good = b"abcdefghijklmnopqrstuvwxyzABCDEFGHIJKLMNOPQRSTUVWXYZ0123456789_";
            for key in [
                &[byte][..],
                &[byte, b'k'],
                &[b'k', byte, b'k'],
                &[b'k', byte],
            ] {
                assert!(reader(VPD_STRING, key, b"x"));
                assert_eq!(writer(VPD_STRING, key, b"x"), good.contains(&byte));
                assert!(reader(VPD_INFO, key, b"1234"));
                assert!(writer(VPD_INFO, key, b"1234"));
            }
        }
    }

    /// The last byte before each range of the alphabet, its first, its last, and the first after it.
    #[test]
    fn both_sides_of_the_alphabet() {
        for (range, outside) in [
            ([0x30, 0x39], [0x2F, 0x3A]),
            ([0x41, 0x5A], [0x40, 0x5B]),
            ([0x5F, 0x5F], [0x5E, 0x60]),
            ([0x61, 0x7A], [0x60, 0x7B]),
        ] {
            for (bytes, written) in [(range, true), (outside, false)] {
                for key in bytes.map(|byte: u8| [byte]) {
                    assert!(keeps_rule(Format::Vpd, VPD_STRING, &key, b""));
                    let keeps = keeps_writers_rule(Format::Vpd, VPD_STRING, &key, b"");
                    assert_eq!(keeps, written);
                }
            }
        }
    }

    /// Outside VPD 01h a writer's rule is the reader's, whatever key is given.
    #[test]
    fn one_rule_for_reader_and_writer() {
        for (format, code, value) in [
            (Format::Fboss, 1, &b"text"[..]),
            (Format::Fboss, 1, b"\x00"),
            (Format::Fboss, 13, b"20130203"),
            (Format::Fboss, 13, b"20130229"),
            (Format::Fboss, 13, b"20131303"),
            (Format::Tiny, POOL, b"any"),
            (Format::Tiny, 0x10, b""),
            (Format::Tiny, 0x10, b"1"),
            (Format::Onie, 0x21, b"text"),
            (Format::Onie, 0x25, b"02/29/2024 23:59:59"),
            (Format::Onie, 0x25, b"02/29/2023 23:59:59"),
            (Format::Onie, 0x2C, b"cz"),
        ] {
            for key in [&b""[..], b"k", b"lab.rack"] {
                assert_eq!(
                    keeps_writers_rule(format, code, key, value),
                    keeps_rule(format, code, key, value)
                );
            }
        }
    }

    #[test]
    fn tiny_rules() {
        let keeps = |code, value: &[u8]| keeps_rule(Format::Tiny, code, b"", value);
        assert!(keeps(POOL, &[0; 255]));
        assert!(!keeps(POOL, &[0; 256]));
        for (code, length) in [
            (0x10, 1),
            (0x11, 1),
            (0x60, 6),
            (0x61, 6),
            (0x62, 6),
            (0x80, 8),
            (0x81, 8),
        ] {
            for other in 0..20 {
                assert_eq!(keeps(code, &vec![0; other]), other == length);
            }
        }
        for major in 0..=255 {
            let good = major <= 99 || (128..=153).contains(&major);
            assert_eq!(keeps(0x61, &[255, 255, major, 99, 255, 255]), good);
            assert_eq!(keeps(0x81, &[255, 255, major, 99, 255, 255, 0, 0]), good);
        }
        assert!(!keeps(0x62, &[0, 0, 0, 100, 0, 0]));
        assert!(!keeps(0x80, &[0, 0, 0, 100, 0, 0, 0, 0]));
        assert!(keeps(0x80, &[0, 0, 0, 0, 0, 0, 0x0F, 0x27]));
        assert!(!keeps(0x80, &[0, 0, 0, 0, 0, 0, 0x10, 0x27]));
    }

    #[test]
    fn onie_rules() {
        let keeps = |code, value: &[u8]| keeps_rule(Format::Onie, code, b"", value);
        for code in [0x21, 0x22, 0x23, 0x2B, 0x2D] {
            assert!(keeps(code, b""));
            assert!(keeps(code, b" ~"));
            assert!(keeps(code, &[b'x'; 255]));
            assert!(!keeps(code, &[b'x'; 256]));
            for byte in 0..=255 {
                assert_eq!(keeps(code, &[b'x', byte]), (0x20..=0x7E).contains(&byte));
            }
        }
        for (code, length) in [(0x24, 6), (0x2A, 2)] {
            for other in 0..20 {
                assert_eq!(keeps(code, &vec![0x00; other]), other == length);
                assert_eq!(keeps(code, &vec![0xFF; other]), other == length);
            }
        }
        for length in 0..300 {
            let keeps = keeps(0xFD, &vec![0xEE; length]);
            assert_eq!(keeps, (4..=255).contains(&length));
        }
    }

    #[test]
    fn onie_countries() {
        let keeps = |value: &[u8]| keeps_rule(Format::Onie, 0x2C, b"", value);
        for value in [&b""[..], b"C", b"CZE", b"CZ "] {
            assert!(!keeps(value));
        }
        for byte in 0..=255u8 {
            let capital = matches!(byte, 0x41..=0x5A);
            assert_eq!(keeps(&[byte, b'Z']), capital);
            assert_eq!(keeps(&[b'A', byte]), capital);
        }
    }

    #[test]
    fn test_flags_count_the_low_four_bits() {
        for byte in 0..=255u8 {
            let passed = (byte & 0x0F).count_ones() as u8;
            assert_eq!(
                reading(Format::Tiny, 0x11, &[byte]),
                Reading::TestFlags { byte, passed }
            );
        }
    }
}
