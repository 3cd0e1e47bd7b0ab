//! 02, ONIE images and edition 3.

use super::*;

/// An image without entries.
const EMPTY: [u8; 17] = [
    0x54, 0x6C, 0x76, 0x49, 0x6E, 0x66, 0x6F, 0x00, 0x01, 0x00, 0x06, 0xFE, 0x04, 0xD4, 0x43, 0x1C,
    0x18,
];

/// An image as ONIE's own tool makes it. Of its codes 26h, 28h and 29h are unnamed.
const SWITCH: &[u8; 200] = b"TlvInfo\x00\x01\x00\xBD\
    \x21\x19Czechlight BiDi Amplifier\
    \x22\x17sdn-bidi-cplusl-1572-g2\
    \x23\x0A0123456789\
    \x24\x06\x00\x11\x22\xAA\xBB\xCC\
    \x25\x1306/15/2023 12:34:56\
    \x26\x01\x02\
    \x28\x0Farm-clearfog-r1\
    \x29\x072019.05\
    \x2A\x02\x00\x03\
    \x2B\x0CManufacturer\
    \x2C\x02CZ\
    \x2D\x06CESNET\
    \xFD\x1D\x00\x00\x1F\x79\x00\x08DQ000MPW\x00\x09\x00\x00\x00\x00\x00\x00\x00\x00\x00\x02\x60\x51\x4B\
    \xFE\x04\x8A\x76\x25\xF8";

/// The values that keep the rule of each named code, and how they are read.
const NAMED: [(u8, &[u8], Reading); 10] = [
    (0x21, b"name", Reading::Text),
    (0x22, b"", Reading::Text),
    (0x23, b" ~", Reading::Text),
    (
        0x24,
        b"\xFE\xDC\xBA\x98\x76\x54",
        Reading::Addresses {
            base: 0xFEDC_BA98_7654,
            count: 1,
        },
    ),
    (
        0x25,
        b"02/29/2024 23:59:58",
        Reading::DateWithTime(
            Date {
                year: 2024,
                month: 2,
                day: 29,
            },
            Time {
                hour: 23,
                minute: 59,
                second: 58,
            },
        ),
    ),
    (0x2A, b"\x12\x34", Reading::Number(0x1234)),
    (0x2B, b"maker", Reading::Text),
    (0x2C, b"AZ", Reading::Text),
    (0x2D, b"vendor", Reading::Text),
    (0xFD, b"\x00\xFF\x80\x7F", Reading::Plain),
];

/// An image with these bytes as entries, with the right length and check.
pub(super) fn image(entries: &[u8]) -> Vec<u8> {
    let length = u16::try_from(entries.len() + 6).unwrap();
    declared(length, &[entries, &[0xFE, 0x04]].concat())
}

/// An image that declares a length and has these bytes after its header. The right check over all of
/// them follows.
fn declared(length: u16, rest: &[u8]) -> Vec<u8> {
    let header = [&b"TlvInfo\0\x01"[..], &length.to_be_bytes()].concat();
    let mut image = [&header, rest].concat();
    image.extend(check32(&image).to_be_bytes());
    image
}

/// Checks an image whose length is right for these bytes after its header, its check not among them.
fn check_frames(rest: &[u8]) -> Result<usize, Refusal> {
    let header = [&b"TlvInfo\0\x01"[..], &(rest.len() as u16).to_be_bytes()].concat();
    check(ONIE, 3, &[&header, rest].concat())
}

fn entry_bytes(code: u8, value: &[u8]) -> Vec<u8> {
    [&[code, value.len() as u8], value].concat()
}

/// Every call's answer to an image that is refused.
fn all_refuse(edition: u32, image: &[u8], number: u32, place: u64) {
    let walk = Walk {
        format: ONIE,
        edition,
        entry: 0,
    };
    assert_eq!(check(ONIE, edition, image), refused(number, place));
    assert_eq!(list(ONIE, edition, image, 9), refused(number, place));
    assert_eq!(entry(ONIE, edition, image, 0), refused(number, place));
    assert_eq!(value(ONIE, edition, image, 0), refused(number, place));
    assert_eq!(step(walk, image), (refused(number, place), walk));
    let made = edited(ONIE, edition, image, 0, b"", 3_000);
    assert_eq!(made, refused(number, place));
    assert_eq!(string(ONIE, edition, image, 0), refused(16, 0));
}

mod known {
    use super::*;

    #[test]
    fn older_editions_do_not_have_the_format() {
        for edition in [1, 2] {
            for image in [&EMPTY[..], SWITCH, b"", &[0; 65_537]] {
                all_refuse(edition, image, 16, 0);
            }
            assert_eq!(written(ONIE, edition, &[], 100), refused(16, 0));
            assert_eq!(
                written(ONIE, edition, &[(0x99, b"", b"")], 65_537),
                refused(16, 0)
            );
            assert_eq!(
                edited(ONIE, edition, &EMPTY, 9, b"", 65_537),
                refused(16, 0)
            );
        }
    }

    #[test]
    fn an_unknown_edition_is_that() {
        for edition in [0, 5, 9, 257, 259, 260, u32::MAX] {
            for image in [&EMPTY[..], SWITCH, b"", &[0; 65_537]] {
                all_refuse(edition, image, 1, 0);
            }
            assert_eq!(written(ONIE, edition, &[], 65_537), refused(1, 0));
        }
        assert_eq!(check(5, 9, &EMPTY), refused(16, 0));
        assert_eq!(check(260, 3, &EMPTY), refused(16, 0));
    }

    #[test]
    fn then_too_long_then_the_image() {
        let mut image = EMPTY.to_vec();
        image.resize(65_536, 0xFF);
        assert_eq!(check(ONIE, 3, &image), Ok(0));
        assert_eq!(edited(ONIE, 3, &image, 0, b"", 65_536), refused(13, 0));
        assert_eq!(edited(ONIE, 3, &image, 0, b"", 65_537), refused(2, 0));
        image.push(0xFF);
        all_refuse(3, &image, 2, 0);
        image[0] = 0;
        all_refuse(3, &image, 2, 0);
        assert_eq!(written(ONIE, 3, &[], 65_537), refused(2, 0));
    }

    #[test]
    fn no_strings_in_any_edition() {
        for edition in [0, 1, 2, 3, 4, 5, 9] {
            for image in [&EMPTY[..], b"", &[0; 65_537]] {
                assert_eq!(string(ONIE, edition, image, 0), refused(16, 0));
            }
        }
    }

    #[test]
    fn the_program() {
        let output = |edition, image: &[u8]| program::output(&[&[4, edition], image].concat());
        assert_eq!(output(3, &EMPTY), "format 4 edition 3 entries 0\n");
        let one = image(b"\x2C\x02CZ");
        for edition in [3, 4] {
            assert_eq!(
                output(edition, &one),
                format!("format 4 edition {edition} entries 1\n0 1068 13 0 13 2\n")
            );
        }
        assert_eq!(output(2, &one), "refused 16 at 0\n");
        assert_eq!(output(5, &one), "refused 1 at 0\n");
        assert_eq!(output(3, &one[..11]), "refused 5 at 9\n");
    }
}

mod header {
    use super::*;

    #[test]
    fn no_entries() {
        assert_eq!(image(&[]), EMPTY);
        assert_eq!(check(ONIE, 3, &EMPTY), Ok(0));
        assert_eq!(list(ONIE, 3, &EMPTY, 0), Ok(vec![]));
        assert_eq!(entry(ONIE, 3, &EMPTY, 0), refused(13, 0));
    }

    #[test]
    fn shorter_than_the_header() {
        for length in 0..11 {
            all_refuse(3, &SWITCH[..length], 3, 0);
            // It comes before a wrong version.
            all_refuse(3, &b"TlvInfo\x00\x02\x00\x00"[..length], 3, 0);
        }
        // From the header on it is the declared length that is past the image.
        for length in 11..SWITCH.len() {
            all_refuse(3, &SWITCH[..length], 5, 9);
        }
        assert_eq!(check(ONIE, 3, SWITCH), Ok(13));
    }

    #[test]
    fn magic_then_version_then_length() {
        for place in 0..8 {
            for byte in 0..=255 {
                let mut image = EMPTY.to_vec();
                if byte == image[place] {
                    continue;
                }
                image[place] = byte;
                assert_eq!(check(ONIE, 3, &image), refused(3, 0));
                // Before the version, and before the declared length.
                image[8..11].copy_from_slice(&[2, 0xFF, 0xFF]);
                assert_eq!(check(ONIE, 3, &image), refused(3, 0));
            }
        }
        for version in (0..=255).filter(|&version| version != 1) {
            let mut image = EMPTY.to_vec();
            image[8] = version;
            all_refuse(3, &image, 4, 0);
            image[9..11].copy_from_slice(&[0xFF, 0xFF]);
            all_refuse(3, &image, 4, 0);
            assert_eq!(check(ONIE, 3, &image[..11]), refused(4, 0));
        }
    }

    #[test]
    fn a_declared_length_above_2048() {
        // Whatever the image has there, and however long it is.
        let mut large = image(&[0x30, 0].repeat(1_021));
        assert_eq!((large.len(), &large[9..11]), (2_059, &[0x08, 0x00][..]));
        assert_eq!(check(ONIE, 3, &large), Ok(1_021));
        large.resize(65_536, 0);
        assert_eq!(check(ONIE, 3, &large), Ok(1_021));
        for length in [2_049_u16, 2_050, 4_096, 0x8000, 0xFFFF] {
            let mut image = large.clone();
            image[9..11].copy_from_slice(&length.to_be_bytes());
            all_refuse(3, &image, 5, 9);
        }
        // An image that is right but for that.
        let larger = image(&[&[0x30, 0].repeat(1_020)[..], &[0x30, 1, 0]].concat());
        assert_eq!((larger.len(), &larger[9..11]), (2_060, &[0x08, 0x01][..]));
        all_refuse(3, &larger, 5, 9);
    }

    #[test]
    fn a_declared_length_past_the_image() {
        for length in 0..=300_u16 {
            let mut image = EMPTY.to_vec();
            image[9..11].copy_from_slice(&length.to_be_bytes());
            let expected = match length {
                0 => refused(5, 11),
                // The end's code, its length, and not all of its value.
                1..=5 => refused(5, 11),
                6 => Ok(0),
                _ => refused(5, 9),
            };
            assert_eq!(check(ONIE, 3, &image), expected);
        }
        // It comes before a forbidden code.
        assert_eq!(
            check(ONIE, 3, b"TlvInfo\x00\x01\x00\x02\x00"),
            refused(5, 9)
        );
        assert_eq!(
            check(ONIE, 3, b"TlvInfo\x00\x01\x00\x01\x00"),
            refused(6, 11)
        );
    }

    #[test]
    fn a_declared_length_that_leaves_bytes_after_the_check() {
        let mut over = EMPTY.to_vec();
        over.extend([0xFF; 8]);
        for length in 7..=14 {
            over[10] = length;
            // The check is wrong too, since the length is among what it covers, and this is first.
            all_refuse(3, &over, 5, 9);
            // With a right check it is the same.
            let check = check32(&over[..13]);
            over[13..17].copy_from_slice(&check.to_be_bytes());
            all_refuse(3, &over, 5, 9);
        }
        over[10] = 6;
        all_refuse(3, &over, 10, 13);
        // It comes before 7 and 8, and a broken frame before it.
        assert_eq!(check_frames(b"\x2C\x00\xFE\x04....\x00"), refused(5, 9));
        assert_eq!(check_frames(b"\x2C\x00\xFE\x04...."), refused(10, 15));
        assert_eq!(check_frames(b"\x00\x00\xFE\x04....\x00"), refused(6, 11));
        // A second end is after the first.
        assert_eq!(check_frames(b"\xFE\x04....\xFE\x04...."), refused(5, 9));
    }

    #[test]
    fn nothing_after_the_declared_length_is_looked_at() {
        for after in [&[0x00][..], &[0xFF; 100], b"TlvInfo", b"\xFE\x04\x00\x00"] {
            let image = [SWITCH, after].concat();
            assert_eq!(
                list(ONIE, 3, &image, 13),
                Ok(list(ONIE, 3, SWITCH, 13).unwrap())
            );
            // An edit leaves it out.
            let made = edited(ONIE, 3, &image, 12, &SWITCH[165..194], 200);
            assert_eq!(made, Ok(SWITCH.to_vec()));
        }
    }
}

mod frames {
    use super::*;

    #[test]
    fn entries_run_past_the_room() {
        assert_eq!(check_frames(b""), refused(5, 11));
        assert_eq!(check_frames(b"\x21"), refused(5, 11));
        assert_eq!(check_frames(b"\x21\x01"), refused(5, 11));
        assert_eq!(check_frames(b"\x21\x03ab"), refused(5, 11));
        // No end in the room: at the place of the next entry.
        assert_eq!(check_frames(b"\x21\x02ab"), refused(5, 15));
        assert_eq!(check_frames(b"\x21\x02ab\x30\x00"), refused(5, 17));
        assert_eq!(check_frames(b"\x21\x02ab\x30"), refused(5, 15));
        // The room ends with the declared length, not with the image.
        let mut image = image(b"\x21\x04abcd");
        for (length, expected) in [
            (5, refused(5, 11)),
            (6, refused(5, 17)),
            (7, refused(5, 17)),
            (8, refused(5, 17)),
            (11, refused(5, 17)),
            (12, Ok(1)),
        ] {
            image[10] = length;
            assert_eq!(check(ONIE, 3, &image), expected);
        }
    }

    #[test]
    fn forbidden_codes() {
        for code in [0x00, 0xFF] {
            // Before a missing length byte, and whatever follows.
            assert_eq!(check_frames(&[code]), refused(6, 11));
            assert_eq!(check_frames(&[code, 200]), refused(6, 11));
            assert_eq!(check_frames(&[0x30, 0, code]), refused(6, 13));
            all_refuse(3, &image(&[0x30, 0, code, 0]), 6, 13);
        }
    }

    #[test]
    fn the_end() {
        assert_eq!(check_frames(&[0xFE]), refused(5, 11));
        assert_eq!(check_frames(&[0x30, 0, 0xFE]), refused(5, 13));
        for length in (0..=255).filter(|&length| length != 4) {
            // Its value missing or not.
            assert_eq!(check_frames(&[0xFE, length]), refused(6, 11));
            assert_eq!(
                check_frames(&[&[0xFE, length][..], &[0; 300]].concat()),
                refused(6, 11)
            );
            let entries = [&[0x30, 0, 0xFE, length][..], &vec![0; length.into()]].concat();
            all_refuse(3, &image(&entries), 6, 13);
        }
        for missing in 0..4 {
            let rest = [&[0x30, 0, 0xFE, 4][..], &[0; 4][..missing]].concat();
            assert_eq!(check_frames(&rest), refused(5, 13));
        }
        assert_eq!(check_frames(&[0xFE, 4, 0, 0, 0, 0]), refused(10, 13));
    }

    #[test]
    fn the_check() {
        // Each bit of everything that the check covers, and of the check itself.
        for bit in 0..EMPTY.len() * 8 {
            let mut image = EMPTY.to_vec();
            image[bit / 8] ^= 1 << (bit % 8);
            let expected = match bit / 8 {
                0..=7 => refused(3, 0),
                8 => refused(4, 0),
                // Any other length is too long or too short.
                9 => refused(5, 9),
                10 if image[10] < 6 => refused(5, 11),
                10 => refused(5, 9),
                11 if image[11] == 0xFF => refused(6, 11),
                // Another code has no value's end, or no end after it.
                11 => refused(5, 17),
                12 => refused(6, 11),
                _ => refused(10, 13),
            };
            assert_eq!(check(ONIE, 3, &image), expected);
        }
        // Low byte first, over too little, over too much, and without the final change.
        let right = check32(&SWITCH[..196]);
        assert_eq!(right.to_be_bytes(), SWITCH[196..]);
        for wrong in [
            right.swap_bytes(),
            !right,
            right.reverse_bits(),
            check32(&SWITCH[..194]),
            check32(&SWITCH[..195]),
            check32(&SWITCH[11..196]),
            check32(SWITCH),
        ] {
            let mut image = SWITCH.to_vec();
            image[196..].copy_from_slice(&wrong.to_be_bytes());
            all_refuse(3, &image, 10, 196);
        }
    }

    #[test]
    fn the_check_comes_before_rules_and_after_frames() {
        let mut image = image(b"\x2C\x02cz\x24\x00\x24\x00");
        assert_eq!(check(ONIE, 3, &image), refused(7, 11));
        image[21] ^= 1;
        assert_eq!(check(ONIE, 3, &image), refused(10, 21));
        image[17] = 0xFF;
        assert_eq!(check(ONIE, 3, &image), refused(6, 17));
    }

    #[test]
    fn unnamed_codes() {
        let named = NAMED.map(|(code, _, _)| code);
        for code in (0x01..=0xFD).filter(|code| !named.contains(code)) {
            // Twice the same, with bytes that are no text.
            let entries = [code, 2, 0x00, 0xFF, code, 0];
            let image = image(&entries);
            let code = u32::from(code);
            assert_eq!(
                list(ONIE, 3, &image, 2),
                Ok(vec![plain(code, 0, 11, 13, 2), plain(code, 0, 15, 17, 0)])
            );
            assert_eq!(edited(ONIE, 3, &image, 1, b"", 100), refused(14, 15));
        }
        // These have names in the public specification, and none here.
        for code in [0x26, 0x27, 0x28, 0x29, 0x2E, 0x2F] {
            assert!(!named.contains(&code));
        }
    }
}

mod named_entries {
    use super::*;

    #[test]
    fn the_switch() {
        let text = Reading::Text;
        let date = Reading::DateWithTime(
            Date {
                year: 2023,
                month: 6,
                day: 15,
            },
            Time {
                hour: 12,
                minute: 34,
                second: 56,
            },
        );
        let expected = vec![
            with_reading(0x21, 1057, 11, 13, 25, text),
            with_reading(0x22, 1058, 38, 40, 23, text),
            with_reading(0x23, 1059, 63, 65, 10, text),
            with_reading(
                0x24,
                1060,
                75,
                77,
                6,
                Reading::Addresses {
                    base: 0x0011_22AA_BBCC,
                    count: 1,
                },
            ),
            with_reading(0x25, 1061, 83, 85, 19, date),
            plain(0x26, 0, 104, 106, 1),
            plain(0x28, 0, 107, 109, 15),
            plain(0x29, 0, 124, 126, 7),
            with_reading(0x2A, 1066, 133, 135, 2, Reading::Number(3)),
            with_reading(0x2B, 1067, 137, 139, 12, text),
            with_reading(0x2C, 1068, 151, 153, 2, text),
            with_reading(0x2D, 1069, 155, 157, 6, text),
            plain(0xFD, 1277, 163, 165, 29),
        ];
        assert_eq!(check(ONIE, 3, SWITCH), Ok(13));
        assert_eq!(list(ONIE, 3, SWITCH, 13), Ok(expected.clone()));
        assert_eq!(list(ONIE, 3, SWITCH, 12), refused(12, 0));
        let mut walk = Walk {
            format: ONIE,
            edition: 3,
            entry: 0,
        };
        for (n, record) in (0..).zip(&expected) {
            assert_eq!(entry(ONIE, 3, SWITCH, n), Ok(*record));
            let part = (record.value_place as usize, record.value_len as usize);
            assert_eq!(value(ONIE, 3, SWITCH, n), Ok(part));
            let (given, next) = step(walk, SWITCH);
            assert_eq!(given, Ok(*record));
            assert_eq!(next.entry, n + 1);
            walk = next;
        }
        assert_eq!(step(walk, SWITCH), (refused(13, 0), walk));
        assert_eq!(entry(ONIE, 3, SWITCH, 13), refused(13, 0));
        assert_eq!(value(ONIE, 3, SWITCH, u64::MAX), refused(13, 0));
    }

    #[test]
    fn each_named_code() {
        for (code, bytes, reading) in NAMED {
            let image = image(&entry_bytes(code, bytes));
            let length = bytes.len() as u32;
            let code = u32::from(code);
            let record = with_reading(code, 1024 + code, 11, 13, length, reading);
            assert_eq!(list(ONIE, 3, &image, 1), Ok(vec![record]));
        }
    }

    #[test]
    fn broken_rules() {
        let broken: [(u8, &[&[u8]]); 10] = [
            (0x21, &[b"\x1F", b"a\x7F", b"\x00", b"\xFF"]),
            (0x22, &[b"\x1F", b"a\x7F", b"\x00", b"\xFF"]),
            (0x23, &[b"\x1F", b"a\x7F", b"\x00", b"\xFF"]),
            (0x24, &[b"", b"12345", b"1234567", b"12345678"]),
            (
                0x25,
                &[
                    b"",
                    b"01/02/2003 04:05:0",
                    b"01/02/2003 04:05:060",
                    b"01-02-2003 04:05:06",
                    b"01/02/2003T04:05:06",
                    b"01/02/2003 04-05-06",
                    b"O1/02/2003 04:05:06",
                    b"01/02/2003 04:05:0 ",
                    b"2003/01/02 04:05:06",
                    b"99/00/0000 29:60:99",
                    b"02/29/2003 04:05:06",
                    b"01/02/2003 24:00:00",
                ],
            ),
            (0x2A, &[b"", b"1", b"123"]),
            (0x2B, &[b"\x1F", b"a\x7F", b"\x00", b"\xFF"]),
            (
                0x2C,
                &[b"", b"C", b"CZE", b"cz", b"Cz", b"C@", b"[C", b"C1"],
            ),
            (0x2D, &[b"\x1F", b"a\x7F", b"\x00", b"\xFF"]),
            (0xFD, &[b"", b"1", b"12", b"123"]),
        ];
        for ((code, kept, _), (broken_code, values)) in NAMED.into_iter().zip(broken) {
            assert_eq!(code, broken_code);
            for value in values {
                let before = entry_bytes(0x30, b"\xFF");
                let bad = entry_bytes(code, value);
                all_refuse(3, &image(&[&before[..], &bad].concat()), 7, 14);
                // In a write it is at the field's number, in an edit at the old entry's place.
                let parts: [(u32, &[u8], &[u8]); 2] =
                    [(0xFD, b"", b"1234"), (code.into(), b"", value)];
                assert_eq!(written(ONIE, 3, &parts, 300), refused(7, 1));
                let good = entry_bytes(code, kept);
                let good = image(&[&before[..], &good].concat());
                assert_eq!(edited(ONIE, 3, &good, 1, value, 300), refused(7, 14));
            }
        }
    }

    #[test]
    fn only_the_extension_may_repeat() {
        for (code, value, _) in NAMED {
            let one = entry_bytes(code, value);
            let again = image(&[&one[..], &entry_bytes(0x30, b""), &one].concat());
            let parts: [(u32, &[u8], &[u8]); 2] = [(code.into(), b"", value); 2];
            if code == 0xFD {
                assert_eq!(check(ONIE, 3, &again), Ok(3));
                let two = image(&[&one[..], &one].concat());
                assert_eq!(written(ONIE, 3, &parts, 300), Ok(two));
            } else {
                all_refuse(3, &again, 8, 13 + one.len() as u64);
                assert_eq!(written(ONIE, 3, &parts, 300), refused(8, 1));
            }
        }
        let many = entry_bytes(0xFD, b"same").repeat(340);
        assert_eq!(check(ONIE, 3, &image(&many)), Ok(340));
        // Each of them has to keep the rule.
        let third = [&many[..12], &entry_bytes(0xFD, b"123"), &many[..6]].concat();
        all_refuse(3, &image(&third), 7, 23);
    }

    #[test]
    fn rules_and_repeats_entry_by_entry() {
        let wrong_then_twice = image(b"\x2C\x01C\x21\x00\x21\x00");
        all_refuse(3, &wrong_then_twice, 7, 11);
        let twice_then_wrong = image(b"\x21\x00\x21\x00\x2C\x01C");
        all_refuse(3, &twice_then_wrong, 8, 13);
        // A second one that is wrong by itself is that first.
        let wrong_and_twice = image(b"\x2C\x02CZ\x2C\x02cz");
        all_refuse(3, &wrong_and_twice, 7, 15);
    }

    #[test]
    fn nothing_is_required() {
        for (code, bytes, _) in NAMED {
            let parts: [(u32, &[u8], &[u8]); 1] = [(code.into(), b"", bytes)];
            assert_eq!(
                written(ONIE, 3, &parts, 300),
                Ok(image(&entry_bytes(code, bytes)))
            );
        }
    }
}

mod writes_and_edits {
    use super::*;

    /// Values of 255 bytes in extensions, and a text, with which the declared length is this.
    fn filling(length: usize) -> Vec<(u32, Vec<u8>)> {
        let mut parts = vec![(0xFD, vec![0xEE; 255]); 7];
        parts.push((0x21, vec![b'x'; length - 6 - 7 * 257 - 2]));
        parts
    }

    fn lent(parts: &[(u32, Vec<u8>)]) -> Vec<(u32, &[u8], &[u8])> {
        let parts = parts.iter();
        parts
            .map(|(code, value)| (*code, &b"key"[..], &value[..]))
            .collect()
    }

    #[test]
    fn no_fields() {
        assert_eq!(written(ONIE, 3, &[], 17), Ok(EMPTY.to_vec()));
        assert_eq!(written(ONIE, 3, &[], 65_536), Ok(EMPTY.to_vec()));
        assert_eq!(written(ONIE, 3, &[], 16), refused(12, 0));
        assert_eq!(written(ONIE, 3, &[], 0), refused(12, 0));
        let mut out = [0xA5; 20];
        assert_eq!(write(ONIE, 3, &[], b"", &mut out), Ok(17));
        assert_eq!(out[..17], EMPTY);
        assert_eq!(out[17..], [0xFF; 3]);
    }

    #[test]
    fn the_named_entries_of_the_switch() {
        let entries = list(ONIE, 3, SWITCH, 13).unwrap();
        let named: Vec<_> = entries.iter().filter(|entry| entry.kind != 0).collect();
        let part = |place: u32, length: u32| &SWITCH[place as usize..][..length as usize];
        let parts: Vec<_> = named
            .iter()
            // Outside VPD a key is given for nothing.
            .map(|entry| {
                (
                    entry.code,
                    &b"key"[..],
                    part(entry.value_place, entry.value_len),
                )
            })
            .collect();
        let without = [&SWITCH[11..104], &SWITCH[133..194]].concat();
        let expected = image(&without);
        assert_eq!(written(ONIE, 3, &parts, 200), Ok(expected.clone()));
        assert_eq!(
            written(ONIE, 3, &parts, expected.len()),
            Ok(expected.clone())
        );
        assert_eq!(written(ONIE, 3, &parts, expected.len() - 1), refused(12, 0));
    }

    #[test]
    fn codes_that_are_not_written() {
        let named = NAMED.map(|(code, _, _)| u32::from(code));
        for code in (0..=300).chain([0x2100, 0x0100_0021, u32::MAX]) {
            if !named.contains(&code) {
                let parts: [(u32, &[u8], &[u8]); 2] = [(0x21, b"", b"x"), (code, b"", b"1234")];
                assert_eq!(written(ONIE, 3, &parts, 100), refused(14, 1));
                // Before a part that is not inside.
                let field = Field {
                    code,
                    key_place: 0,
                    key_len: 0,
                    value_place: 9,
                    value_len: 9,
                };
                assert_eq!(write(ONIE, 3, &[field], b"", &mut []), refused(14, 0));
            }
        }
    }

    #[test]
    fn refusals_of_a_write_in_order() {
        let field = |code, value_place, value_len| Field {
            code,
            key_place: u64::MAX,
            key_len: u64::MAX,
            value_place,
            value_len,
        };
        let result = |fields: &[Field]| write(ONIE, 3, fields, b"CZcz", &mut [0; 10]);
        // The key is never a reason, and 12 is the last.
        assert_eq!(result(&[field(0x2C, 0, 2)]), refused(12, 0));
        assert_eq!(result(&[field(0x2C, 2, 2)]), refused(7, 0));
        assert_eq!(result(&[field(0x2C, 3, 2)]), refused(13, 0));
        assert_eq!(result(&[field(0x2C, 5, 0)]), refused(13, 0));
        assert_eq!(result(&[field(0x2E, 5, 0)]), refused(14, 0));
        assert_eq!(
            result(&[field(0x2C, 0, 2), field(0x2C, 0, 2)]),
            refused(8, 1)
        );
        assert_eq!(
            result(&[field(0x2C, 0, 2), field(0x2C, 2, 2)]),
            refused(7, 1)
        );
        assert_eq!(
            result(&[field(0x2C, 0, 2), field(0x2C, 3, 2)]),
            refused(13, 1)
        );
        assert_eq!(
            result(&[field(0x2C, 2, 2), field(0xFE, 0, 4)]),
            refused(7, 0)
        );
    }

    #[test]
    fn values_above_255_bytes() {
        let long = [b'x'; 256];
        for code in [0x21, 0x22, 0x23, 0x2B, 0x2D, 0xFD] {
            for (length, fits) in [(4, true), (254, true), (255, true), (256, false)] {
                let value = &long[..length];
                let one = written(ONIE, 3, &[(code, b"", value)], 3_000);
                let old = image(&entry_bytes(code as u8, b"1234"));
                let edited = edited(ONIE, 3, &old, 0, value, 3_000);
                if fits {
                    let expected = image(&entry_bytes(code as u8, value));
                    assert_eq!(one, Ok(expected.clone()));
                    assert_eq!(edited, Ok(expected));
                } else {
                    assert_eq!(one, refused(7, 0));
                    assert_eq!(edited, refused(7, 11));
                }
            }
        }
    }

    #[test]
    fn the_longest_image() {
        for (length, fits) in [(2_047, true), (2_048, true), (2_049, false)] {
            let parts = filling(length);
            let parts = lent(&parts);
            for room in [2_058, 2_059, 2_060, 65_536] {
                let made = written(ONIE, 3, &parts, room);
                if fits && room >= length + 11 {
                    let made = made.unwrap();
                    assert_eq!(made.len(), length + 11);
                    assert_eq!(made[9..11], (length as u16).to_be_bytes());
                    assert_eq!(check(ONIE, 3, &made), Ok(8));
                } else {
                    assert_eq!(made, refused(12, 0));
                }
            }
        }
        // Far above, where the length does not fit its two bytes either.
        let parts = vec![(0xFD, vec![0; 255]); 255];
        assert_eq!(written(ONIE, 3, &lent(&parts), 65_536), refused(12, 0));
        let parts = vec![(0xFD, vec![0; 255]); 300];
        assert_eq!(written(ONIE, 3, &lent(&parts), 65_536), refused(12, 0));
        // Every other reason comes before it.
        let mut parts = vec![(0xFD, vec![0; 255]); 300];
        parts.push((0xFD, vec![0; 256]));
        assert_eq!(written(ONIE, 3, &lent(&parts), 65_536), refused(7, 300));
    }

    #[test]
    fn an_edit_to_the_longest_image() {
        let full = written(ONIE, 3, &lent(&filling(2_047)), 3_000).unwrap();
        let old = list(ONIE, 3, &full, 8).unwrap()[7];
        let room = |value_len| edited(ONIE, 3, &full, 7, &vec![b'y'; value_len], 3_000);
        let length = old.value_len as usize;
        let made = room(length + 1).unwrap();
        assert_eq!((made.len(), &made[9..11]), (2_059, &[0x08, 0x00][..]));
        assert_eq!(check(ONIE, 3, &made), Ok(8));
        assert_eq!(room(length + 2), refused(12, 0));
        assert_eq!(room(255), refused(12, 0));
        // The rule comes before the room.
        assert_eq!(room(256), refused(7, old.place.into()));
        // With less room lent than the image needs.
        let value = vec![b'y'; length + 1];
        assert_eq!(edited(ONIE, 3, &full, 7, &value, 2_058), refused(12, 0));
        assert!(edited(ONIE, 3, &full, 7, &value, 2_059).is_ok());
    }

    #[test]
    fn an_edit_keeps_all_other_bytes() {
        for (n, place, old, new) in [
            (0, 11, 25, &b"Another"[..]),
            (3, 75, 6, b"\x02\x00\x00\x00\x00\x01"),
            (4, 83, 19, b"12/31/1999 23:59:59"),
            (8, 133, 2, b"\xFF\xFF"),
            (10, 151, 2, b"DE"),
            (11, 155, 6, b""),
            (12, 163, 29, b"\x00\x00\x1F\x79"),
        ] {
            let entries = [
                &SWITCH[11..place + 1],
                &[new.len() as u8],
                new,
                &SWITCH[place + 2 + old..194],
            ]
            .concat();
            let expected = image(&entries);
            assert_eq!(edited(ONIE, 3, SWITCH, n, new, 300), Ok(expected.clone()));
            let length = expected.len();
            assert_eq!(edited(ONIE, 3, SWITCH, n, new, length), Ok(expected));
            assert_eq!(edited(ONIE, 3, SWITCH, n, new, length - 1), refused(12, 0));
        }
    }

    #[test]
    fn refusals_of_an_edit_in_order() {
        assert_eq!(edited(ONIE, 3, SWITCH, 13, b"", 0), refused(13, 0));
        assert_eq!(edited(ONIE, 3, SWITCH, 5, b"", 0), refused(14, 104));
        assert_eq!(edited(ONIE, 3, SWITCH, 7, b"\xFF", 0), refused(14, 124));
        assert_eq!(edited(ONIE, 3, SWITCH, 10, b"cz", 0), refused(7, 151));
        assert_eq!(edited(ONIE, 3, SWITCH, 10, b"CZ", 0), refused(12, 0));
        let mut broken = SWITCH.to_vec();
        broken[199] ^= 1;
        assert_eq!(edited(ONIE, 3, &broken, 13, b"", 0), refused(10, 196));
    }

    #[test]
    fn byte_form() {
        let mut record = [0xA5; 64];
        let words = |record: &[u8]| -> Vec<u32> {
            let words = record.chunks(4);
            words
                .map(|word| u32::from_le_bytes(word.try_into().unwrap()))
                .collect()
        };
        for (n, expected) in [
            (0, [0x21, 1057, 11, 13, 0, 13, 25, 0, 1, 0, 0, 0]),
            (
                3,
                [0x24, 1060, 75, 77, 0, 77, 6, 0, 3, 0x0011, 0x22AA_BBCC, 1],
            ),
            (4, [0x25, 1061, 83, 85, 0, 85, 19, 0, 9, 2023, 6, 15]),
            (5, [0x26, 0, 104, 106, 0, 106, 1, 0, 0, 0, 0, 0]),
            (8, [0x2A, 1066, 133, 135, 0, 135, 2, 0, 2, 3, 0, 0]),
            (12, [0xFD, 1277, 163, 165, 0, 165, 29, 0, 0, 0, 0, 0]),
        ] {
            assert_eq!(bytes::entry(ONIE, 3, SWITCH, n, &mut record), 1 << 32);
            assert_eq!(words(&record)[..12], expected);
            // Only a date with its time carries more.
            let more = if n == 4 { [12, 34, 56, 0] } else { [0; 4] };
            assert_eq!(words(&record)[12..], more);
        }
    }
}
