//! The cases of the scope document, the examples of the sources, and the order of refusals.

use crate::checks::{check16, check32, check8};
use crate::*;

mod add_and_remove;
mod dates;
mod frame_lengths;
mod onie;
mod room;
mod vendor;

const FBOSS: u32 = 1;
const VPD: u32 = 2;
const TINY: u32 = 3;
const ONIE: u32 = 4;

/// The editions that there are. All of them have FBOSS, VPD and Tiny.
const EDITIONS: [u32; 4] = [1, 2, 3, 4];

/// One VPD entry with the key "SKU" and the value "A7".
const SKU: [u8; 9] = [0x01, 0x03, 0x53, 0x4B, 0x55, 0x02, 0x41, 0x37, 0x00];

fn refused<T>(number: u32, place: u64) -> Result<T, Refusal> {
    Err(Refusal { number, place })
}

/// An FBOSS image with these bytes as entries, ended with the right check.
fn fboss(entries: &[u8]) -> Vec<u8> {
    let mut image = [&[0xFB, 0xFB, 0x05, 0xFF], entries].concat();
    let check = check16(&image);
    image.extend([250, 2]);
    image.extend(check.to_be_bytes());
    image
}

/// The entries of an FBOSS image with just the required fields.
fn required() -> Vec<u8> {
    vec![1, 1, b'N', 8, 1, 4, 9, 1, 5, 10, 1, 6, 11, 1, b'S']
}

/// A Tiny image with these bytes as entries, with the right length and check.
fn tiny(entries: &[u8]) -> Vec<u8> {
    let length = u8::try_from(entries.len() + 4).unwrap();
    let mut image = [&[0x56, 0x02, length], entries].concat();
    image.push(check8(&image));
    image
}

/// Fields and the values they lie in, from codes, keys and values.
fn fields(parts: &[(u32, &[u8], &[u8])]) -> (Vec<Field>, Vec<u8>) {
    let mut values = Vec::new();
    let fields = parts
        .iter()
        .map(|&(code, key, value)| {
            let key_place = values.len() as u64;
            values.extend(key);
            let value_place = values.len() as u64;
            values.extend(value);
            Field {
                code,
                key_place,
                key_len: key.len() as u64,
                value_place,
                value_len: value.len() as u64,
            }
        })
        .collect();
    (fields, values)
}

/// Writes into that many bytes, and shows that a refusal leaves them as they were.
fn written(
    format: u32,
    edition: u32,
    parts: &[(u32, &[u8], &[u8])],
    room: usize,
) -> Result<Vec<u8>, Refusal> {
    let (fields, values) = fields(parts);
    let mut out = vec![0xA5; room];
    let result = write(format, edition, &fields, &values, &mut out);
    finished(result, out)
}

/// Edits into that many bytes, and shows that a refusal leaves them as they were.
fn edited(
    format: u32,
    edition: u32,
    image: &[u8],
    n: u64,
    value: &[u8],
    room: usize,
) -> Result<Vec<u8>, Refusal> {
    let mut out = vec![0xA5; room];
    let result = edit(format, edition, image, n, value, &mut out);
    finished(result, out)
}

/// The image made, where all that follows it is FFh.
fn finished(result: Result<usize, Refusal>, out: Vec<u8>) -> Result<Vec<u8>, Refusal> {
    match result {
        Ok(length) => {
            let (image, after) = out.split_at(length);
            assert!(after.iter().all(|&byte| byte == 0xFF));
            Ok(image.to_vec())
        }
        Err(refusal) => {
            assert!(out.iter().all(|&byte| byte == 0xA5));
            Err(refusal)
        }
    }
}

fn plain(code: u32, kind: u32, place: u32, value_place: u32, value_len: u32) -> Entry {
    with_reading(code, kind, place, value_place, value_len, Reading::Plain)
}

fn with_reading(
    code: u32,
    kind: u32,
    place: u32,
    value_place: u32,
    value_len: u32,
    reading: Reading,
) -> Entry {
    Entry {
        code,
        kind,
        place,
        key_place: value_place,
        key_len: 0,
        value_place,
        value_len,
        // Without a key, the frame is what comes before the value, and the value.
        frame_len: value_place - place + value_len,
        reading,
    }
}

mod both_sides_of_each_line {
    use super::*;

    #[test]
    fn fboss_header_alone() {
        for edition in EDITIONS {
            assert_eq!(
                check(FBOSS, edition, &[0xFB, 0xFB, 0x05, 0xFF]),
                refused(5, 4)
            );
            assert_eq!(
                check(FBOSS, edition, &[0xFB, 0xFB, 0x04, 0xFF]),
                refused(4, 0)
            );
        }
    }

    #[test]
    fn vpd_of_no_bytes_and_of_one() {
        for edition in EDITIONS {
            assert_eq!(check(VPD, edition, &[]), refused(5, 0));
            assert_eq!(check(VPD, edition, &[0x00]), Ok(0));
            assert_eq!(check(VPD, edition, &[0xFF]), Ok(0));
        }
    }

    #[test]
    fn the_sku_image() {
        let sku = Entry {
            code: 1,
            kind: 513,
            place: 0,
            key_place: 2,
            key_len: 3,
            value_place: 6,
            value_len: 2,
            frame_len: 8,
            reading: Reading::Plain,
        };
        for edition in EDITIONS {
            assert_eq!(check(VPD, edition, &SKU), Ok(1));
            assert_eq!(list(VPD, edition, &SKU, 1), Ok(vec![sku]));
        }
    }

    #[test]
    fn vpd_lengths() {
        for edition in EDITIONS {
            assert_eq!(check(VPD, edition, &[0x01, 0, 0, 0]), refused(7, 0));
            assert_eq!(
                check(VPD, edition, &[0x01, 0x80, 0x80, 0x80, 0x80]),
                refused(6, 0)
            );
            let image = [0x01, 0x80, 0x01, 0x41, 0x00, 0x00];
            assert_eq!(check(VPD, edition, &image), Ok(1));
            assert_eq!(value(VPD, edition, &image, 0), Ok((5, 0)));
        }
    }

    #[test]
    fn a_vpd_key_twice() {
        let image = [0x01, 0x01, 0x41, 0x00, 0x01, 0x01, 0x41, 0x00, 0x00];
        assert_eq!(check(VPD, 1, &image), refused(8, 4));
        assert_eq!(check(VPD, 2, &image), refused(8, 4));
    }

    #[test]
    fn vpd_info_in_both_editions() {
        let image = [0xFE, 0x01, 0x41, 0x03, 0x01, 0x02, 0x03, 0x00];
        assert_eq!(check(VPD, 1, &image), Ok(1));
        assert_eq!(entry(VPD, 1, &image, 0).unwrap().kind, 0);
        assert_eq!(check(VPD, 2, &image), refused(7, 0));
    }

    #[test]
    fn the_smallest_tiny_images() {
        for edition in EDITIONS {
            assert_eq!(check(TINY, edition, &[0x56, 0x02, 0x04, 0x6F]), Ok(0));
            assert_eq!(
                check(TINY, edition, &[0x56, 0x02, 0x04, 0x6E]),
                refused(10, 3)
            );
            assert_eq!(check(TINY, edition, &[0x56, 0x02, 0x03]), refused(5, 2));
        }
    }

    #[test]
    fn the_sku_image_edited() {
        for edition in EDITIONS {
            let mut out = [0xA5; 10];
            assert_eq!(edit(VPD, edition, &SKU, 0, b"B", &mut out), Ok(8));
            assert_eq!(
                out,
                [0x01, 0x03, 0x53, 0x4B, 0x55, 0x01, 0x42, 0x00, 0xFF, 0xFF]
            );
            let mut out = [0xA5; 7];
            assert_eq!(edit(VPD, edition, &SKU, 0, b"B", &mut out), refused(12, 0));
            assert_eq!(out, [0xA5; 7]);
        }
    }

    #[test]
    fn the_program() {
        let input = [&[2, 2], &SKU[..]].concat();
        assert_eq!(
            program::output(&input),
            "format 2 edition 2 entries 1\n0 513 2 3 6 2\n"
        );
        assert_eq!(program::output(&[]), "refused 16 at 0\n");
        assert_eq!(program::output(&[2]), "refused 16 at 0\n");
        assert_eq!(program::output(&[2, 2]), "refused 5 at 0\n");
        assert_eq!(program::output(&[2, 0, 0]), "refused 1 at 0\n");
        assert_eq!(program::output(&[2, 5, 0]), "refused 1 at 0\n");
        for edition in EDITIONS {
            assert_eq!(
                program::output(&[2, edition as u8, 0]),
                format!("format 2 edition {edition} entries 0\n")
            );
        }
        assert_eq!(
            program::output(&[3, 1, 0x56, 0x02, 0x04, 0x6E]),
            "refused 10 at 3\n"
        );
        let mut longest = vec![0; 65_536];
        longest[..2].copy_from_slice(&[2, 1]);
        assert_eq!(program::output(&longest), "format 2 edition 1 entries 0\n");
        longest.push(0);
        assert_eq!(program::output(&longest), "refused 2 at 0\n");
        longest[..2].copy_from_slice(&[9, 9]);
        assert_eq!(program::output(&longest), "refused 2 at 0\n");
    }
}

mod source_examples {
    use super::*;

    /// The full example of FBOSS v5, with its fill up to 2000h bytes.
    fn juice() -> Vec<u8> {
        let mut image = b"\xfb\xfb\x05\xff\x01\x0dFIRST_SQUEEZE\x02\x0820123456\x03\x08SYSA1234\
            \x04\x0cPCBA1234567 \x05\x0cPCB12345678 \x06\x0cMYODM1234567\x07\x0dOS123456789AB\
            \x08\x01\x01\x09\x01\x00\x0a\x01\x01\x0b\x0dPS1234567890A\x0c\x07UNA_MAS\
            \x0d\x0820130203\x0e\x05TERZO\x0f\x09JUICETORY\x10\x07BUDOKAN\
            \x11\x08\x11\x22\x33\x44\x55\x66\x01\x02\x12\x08\x12\x34\x56\x78\x9a\xbc\x03\x04\
            \x13\x08\x66\x55\x44\x33\x22\x11\x02\x00\x14\x08\xfe\xdc\xba\x98\x76\x54\x00\x02\
            \xfa\x02\xd5\xc6"
            .to_vec();
        assert_eq!(image.len(), 0xD2);
        image.resize(0x2000, 0xFF);
        image
    }

    fn juice_values() -> Vec<(u32, &'static [u8], Reading)> {
        let addresses = |base, count| Reading::Addresses { base, count };
        vec![
            (1, b"FIRST_SQUEEZE", Reading::Text),
            (2, b"20123456", Reading::Text),
            (3, b"SYSA1234", Reading::Text),
            (4, b"PCBA1234567 ", Reading::Text),
            (5, b"PCB12345678 ", Reading::Text),
            (6, b"MYODM1234567", Reading::Text),
            (7, b"OS123456789AB", Reading::Text),
            (8, b"\x01", Reading::Number(1)),
            (9, b"\x00", Reading::Number(0)),
            (10, b"\x01", Reading::Number(1)),
            (11, b"PS1234567890A", Reading::Text),
            (12, b"UNA_MAS", Reading::Text),
            (
                13,
                b"20130203",
                Reading::Date(Date {
                    year: 2013,
                    month: 2,
                    day: 3,
                }),
            ),
            (14, b"TERZO", Reading::Text),
            (15, b"JUICETORY", Reading::Text),
            (16, b"BUDOKAN", Reading::Text),
            (
                17,
                b"\x11\x22\x33\x44\x55\x66\x01\x02",
                addresses(0x1122_3344_5566, 258),
            ),
            (
                18,
                b"\x12\x34\x56\x78\x9a\xbc\x03\x04",
                addresses(0x1234_5678_9ABC, 772),
            ),
            (
                19,
                b"\x66\x55\x44\x33\x22\x11\x02\x00",
                addresses(0x6655_4433_2211, 512),
            ),
            (
                20,
                b"\xfe\xdc\xba\x98\x76\x54\x00\x02",
                addresses(0xFEDC_BA98_7654, 2),
            ),
        ]
    }

    fn juice_entries(edition: u32) -> Vec<Entry> {
        let mut place = 4;
        juice_values()
            .into_iter()
            .map(|(code, value, reading)| {
                let length = value.len() as u32;
                let entry = if edition == 1 && code > 16 {
                    plain(code, 0, place, place + 2, length)
                } else {
                    with_reading(code, 256 + code, place, place + 2, length, reading)
                };
                place += 2 + length;
                entry
            })
            .collect()
    }

    #[test]
    fn fboss_twenty_entries() {
        let image = juice();
        for edition in EDITIONS {
            let entries = juice_entries(edition);
            assert_eq!(check(FBOSS, edition, &image), Ok(20));
            assert_eq!(list(FBOSS, edition, &image, 20), Ok(entries.clone()));
            assert_eq!(list(FBOSS, edition, &image, 19), refused(12, 0));
            for (n, (entry_n, (_, bytes, _))) in entries.iter().zip(juice_values()).enumerate() {
                assert_eq!(entry(FBOSS, edition, &image, n as u64), Ok(*entry_n));
                let (place, length) = value(FBOSS, edition, &image, n as u64).unwrap();
                assert_eq!(&image[place..place + length], bytes);
            }
            assert_eq!(entry(FBOSS, edition, &image, 20), refused(13, 0));
            assert_eq!(entry(FBOSS, edition, &image, u64::MAX), refused(13, 0));
            assert_eq!(value(FBOSS, edition, &image, 20), refused(13, 0));
        }
    }

    #[test]
    fn fboss_check_mismatch() {
        let mut image = juice();
        image[0xD0..0xD2].copy_from_slice(&[0xA6, 0xB7]);
        assert_eq!(check(FBOSS, 2, &image), refused(10, 0xD0));
    }

    #[test]
    fn fboss_walked() {
        let image = juice();
        for edition in EDITIONS {
            let mut walk = Walk {
                format: FBOSS,
                edition,
                entry: 0,
            };
            for (n, expected) in juice_entries(edition).into_iter().enumerate() {
                assert_eq!(walk.entry, n as u64);
                let (given, next) = step(walk, &image);
                assert_eq!(given, Ok(expected));
                walk = next;
            }
            assert_eq!(step(walk, &image), (refused(13, 0), walk));
            assert_eq!(walk.entry, 20);
        }
    }

    #[test]
    fn fboss_written() {
        let values = juice_values();
        let parts: Vec<_> = values
            .iter()
            // Outside VPD a key is given for nothing.
            .map(|&(code, value, _)| (code, &b"key"[..], value))
            .collect();
        assert_eq!(written(FBOSS, 2, &parts, 0x2000).unwrap(), juice()[..0xD2]);
        assert_eq!(written(FBOSS, 2, &parts, 0xD2).unwrap(), juice()[..0xD2]);
        assert_eq!(written(FBOSS, 2, &parts, 0xD1), refused(12, 0));
        assert_eq!(written(FBOSS, 1, &parts, 0x2000), refused(14, 16));
    }

    #[test]
    fn fboss_edited() {
        let image = juice();
        for edition in EDITIONS {
            let made = edited(FBOSS, edition, &image, 0, b"LAST_SQUEEZE", 0x2000).unwrap();
            let mut expected = image[4..0xCE].to_vec();
            expected.splice(1..15, *b"\x0cLAST_SQUEEZE");
            assert_eq!(made, fboss(&expected));
            assert_eq!(check(FBOSS, edition, &made), Ok(20));
        }
        let value = [9; 8];
        assert_eq!(
            edited(FBOSS, 1, &image, 19, &value, 0x2000),
            refused(14, 0xC4)
        );
        let made = edited(FBOSS, 2, &image, 19, &value, 0x2000).unwrap();
        assert_eq!(made[..0xC6], image[..0xC6]);
        assert_eq!(made[0xC6..0xCE], value);
        assert_eq!(edited(FBOSS, 2, &image, 20, &value, 0x2000), refused(13, 0));
    }

    #[test]
    fn vpd_encoding_example() {
        let image = b"\x01\x04UUID\x100123456789ABCDEF\x01\x073G_IMEI\x0eAABBBBBB-CC-DD\
            \x01\x0cethernet_mac\x06\x2a\x02\x03\xb3\xd5\x7c\x00";
        let expected: [(&[u8], &[u8]); 3] = [
            (b"UUID", b"0123456789ABCDEF"),
            (b"3G_IMEI", b"AABBBBBB-CC-DD"),
            (b"ethernet_mac", b"\x2a\x02\x03\xb3\xd5\x7c"),
        ];
        for edition in EDITIONS {
            let entries = list(VPD, edition, image, 3).unwrap();
            assert_eq!(entries.len(), 3);
            for (entry, (key, value)) in entries.iter().zip(expected) {
                let part = |place: u32, length: u32| &image[place as usize..][..length as usize];
                assert_eq!((entry.code, entry.kind), (1, 513));
                assert_eq!(part(entry.key_place, entry.key_len), key);
                assert_eq!(part(entry.value_place, entry.value_len), value);
                assert_eq!(entry.reading, Reading::Plain);
            }
            let places: Vec<_> = entries.iter().map(|entry| entry.place).collect();
            assert_eq!(places, [0, 23, 47]);

            let parts = expected.map(|(key, value)| (1, key, value));
            assert_eq!(
                written(VPD, edition, &parts, image.len()),
                Ok(image.to_vec())
            );
            assert_eq!(
                written(VPD, edition, &parts, image.len() - 1),
                refused(12, 0)
            );
        }
    }

    #[test]
    fn vpd_long_string_example() {
        let mut image = b"\x01\x03any\x84\x82\x01".to_vec();
        image.resize(image.len() + 65_793, b'x');
        image.push(0);
        assert_eq!(check(VPD, 1, &image), refused(2, 0));
        image.truncate(65_536);
        assert_eq!(check(VPD, 1, &image), refused(5, 0));
        let long = vec![b'x'; 65_793];
        assert_eq!(
            written(VPD, 1, &[(1, b"any", &long)], 65_536),
            refused(12, 0)
        );
    }
}

mod header_and_arguments {
    use super::*;

    const ALL_FORMATS: [u32; 8] = [0, 1, 2, 3, 4, 5, 260, u32::MAX];
    const ALL_EDITIONS: [u32; 10] = [0, 1, 2, 3, 4, 5, 9, 259, 260, u32::MAX];

    #[test]
    fn format_then_edition_then_length() {
        let long = vec![0; 65_537];
        let long_out = &mut vec![0; 65_537][..];
        for format in ALL_FORMATS {
            for edition in ALL_EDITIONS {
                let first = match (format, edition) {
                    (0 | 5.., _) => 16,
                    (_, 0 | 5..) => 1,
                    (4, 1 | 2) => 16,
                    _ => 2,
                };
                assert_eq!(check(format, edition, &long), refused(first, 0));
                assert_eq!(list(format, edition, &long, 0), refused(first, 0));
                assert_eq!(entry(format, edition, &long, 0), refused(first, 0));
                assert_eq!(value(format, edition, &long, 0), refused(first, 0));
                let walk = Walk {
                    format,
                    edition,
                    entry: 0,
                };
                assert_eq!(step(walk, &long), (refused(first, 0), walk));
                assert_eq!(
                    edit(format, edition, &long, 0, b"", &mut []),
                    refused(first, 0)
                );
                assert_eq!(
                    edit(format, edition, &[], 0, b"", long_out),
                    refused(first, 0)
                );
                assert_eq!(
                    write(format, edition, &[], b"", long_out),
                    refused(first, 0)
                );
                let first = if format == 3 { first } else { 16 };
                assert_eq!(string(format, edition, &long, 0), refused(first, 0));
            }
        }
        assert!(long_out.iter().all(|&byte| byte == 0));
        assert_eq!(check(VPD, 1, &long[..65_536]), Ok(0));
    }

    #[test]
    fn lent_values_may_be_long() {
        let values = vec![b'x'; 70_000];
        let field = Field {
            code: 1,
            key_place: 69_999,
            key_len: 1,
            value_place: 70_000,
            value_len: 0,
        };
        let mut out = [0; 5];
        assert_eq!(write(VPD, 1, &[field], &values, &mut out), Ok(5));
        assert_eq!(out, [1, 1, b'x', 0, 0]);
        assert_eq!(edited(VPD, 1, &SKU, 0, &values, 65_536), refused(12, 0));
    }

    #[test]
    fn fboss_header() {
        let good = fboss(&required());
        assert_eq!(check(FBOSS, 1, &good), Ok(5));
        for length in 0..4 {
            assert_eq!(check(FBOSS, 1, &good[..length]), refused(3, 0));
        }
        // A short header is refused 3 whatever its version.
        assert_eq!(check(FBOSS, 1, &[0xFB, 0xFB, 0x04]), refused(3, 0));
        let with = |place: usize, byte| {
            let mut image = good.clone();
            image[place] = byte;
            check(FBOSS, 1, &image)
        };
        assert_eq!(with(0, 0xFA), refused(3, 0));
        assert_eq!(with(1, 0xFA), refused(3, 0));
        assert_eq!(with(2, 4), refused(4, 0));
        assert_eq!(with(3, 0xFE), refused(3, 0));
        assert_eq!(check(FBOSS, 1, &[0xFB, 0x00, 4, 0]), refused(3, 0));
        assert_eq!(check(FBOSS, 1, &[0xFB, 0xFB, 4, 0]), refused(4, 0));
    }

    #[test]
    fn tiny_header() {
        let good = [0x56, 0x02, 0x04, 0x6F];
        for length in 0..3 {
            assert_eq!(check(TINY, 1, &good[..length]), refused(3, 0));
        }
        assert_eq!(check(TINY, 1, &[0x56, 0x01]), refused(3, 0));
        assert_eq!(check(TINY, 1, &[0x57, 0x01, 0]), refused(3, 0));
        assert_eq!(check(TINY, 1, &[0x56, 0x01, 0]), refused(4, 0));
        for length in 0..=255 {
            let image = [0x56, 0x02, length, 0x6F];
            let expected = if length == 4 { Ok(0) } else { refused(5, 2) };
            assert_eq!(check(TINY, 1, &image), expected);
        }
    }
}

mod frames_of_images {
    use super::*;

    fn check_fboss(entries: &[u8]) -> Result<usize, Refusal> {
        let image = [&[0xFB, 0xFB, 0x05, 0xFF], entries].concat();
        let results = EDITIONS.map(|edition| check(FBOSS, edition, &image));
        assert_eq!(results, [results[0]; EDITIONS.len()]);
        results[0]
    }

    #[test]
    fn fboss_frames() {
        assert_eq!(check_fboss(&[0]), refused(6, 4));
        assert_eq!(check_fboss(&[255]), refused(6, 4));
        assert_eq!(check_fboss(&[1]), refused(5, 4));
        assert_eq!(check_fboss(&[1, 1]), refused(5, 4));
        assert_eq!(check_fboss(&[1, 1, b'x']), refused(5, 7));
        assert_eq!(check_fboss(&[1, 1, b'x', 0]), refused(6, 7));
        // The length of code 250 is looked at before its value.
        assert_eq!(check_fboss(&[250]), refused(5, 4));
        assert_eq!(check_fboss(&[250, 1]), refused(6, 4));
        assert_eq!(check_fboss(&[250, 3]), refused(6, 4));
        assert_eq!(check_fboss(&[250, 2]), refused(5, 4));
        assert_eq!(check_fboss(&[250, 2, 0]), refused(5, 4));
        assert_eq!(check_fboss(&[250, 2, 0, 0]), refused(10, 6));
        // A broken frame is reported before a broken rule, a second code and a wrong check.
        assert_eq!(check_fboss(&[8, 0, 8, 0, 9, 200]), refused(5, 8));
        assert_eq!(check_fboss(&[8, 0, 8, 0, 250, 2, 0, 0]), refused(10, 10));
    }

    #[test]
    fn nothing_after_the_end_is_looked_at() {
        let mut image = fboss(&required());
        image.extend([0, 0, 255, 1]);
        assert_eq!(check(FBOSS, 1, &image), Ok(5));
        let mut image = SKU.to_vec();
        image.extend([2, 2]);
        assert_eq!(check(VPD, 1, &image), Ok(1));
        let mut image = tiny(&[]);
        image.extend([0, 0]);
        assert_eq!(check(TINY, 1, &image), Ok(0));
    }

    #[test]
    fn unnamed_fboss_codes() {
        for code in (21..=249).chain(251..=254) {
            let mut entries = required();
            // Twice the same, with bytes that are no text.
            entries.extend([code, 2, 0x00, 0xFF, code, 0]);
            let image = fboss(&entries);
            for edition in EDITIONS {
                let entries = list(FBOSS, edition, &image, 7).unwrap();
                assert_eq!(entries[5], plain(u32::from(code), 0, 19, 21, 2));
                assert_eq!(entries[6], plain(u32::from(code), 0, 23, 25, 0));
                assert_eq!(
                    edited(FBOSS, edition, &image, 6, b"x", 100),
                    refused(14, 23)
                );
            }
        }
    }

    fn check_vpd(image: &[u8]) -> Result<usize, Refusal> {
        let results = EDITIONS.map(|edition| check(VPD, edition, image));
        assert_eq!(results, [results[0]; EDITIONS.len()]);
        results[0]
    }

    #[test]
    fn vpd_frames() {
        for code in 2..=0xFD {
            assert_eq!(check_vpd(&[code]), refused(6, 0));
            assert_eq!(check_vpd(&[1, 1, b'k', 0, code]), refused(6, 4));
        }
        for code in [0x01, 0xFE] {
            assert_eq!(check_vpd(&[code]), refused(5, 0));
            assert_eq!(check_vpd(&[code, 0x80, 0x80, 0x80]), refused(5, 0));
            assert_eq!(check_vpd(&[code, 0x80, 0x80, 0x80, 0x80]), refused(6, 0));
            assert_eq!(check_vpd(&[code, 2]), refused(5, 0));
            assert_eq!(check_vpd(&[code, 2, b'k']), refused(5, 0));
            assert_eq!(check_vpd(&[code, 1, b'k']), refused(5, 0));
            assert_eq!(check_vpd(&[code, 1, b'k', 0x80]), refused(5, 0));
            assert_eq!(
                check_vpd(&[code, 1, b'k', 0x80, 0x80, 0x80, 0x80]),
                refused(6, 0)
            );
            assert_eq!(check_vpd(&[code, 1, b'k', 2, 0]), refused(5, 0));
            // The entry is whole, but no end follows.
            assert_eq!(check_vpd(&[code, 1, b'k', 4, 0, 0, 0, 0]), refused(5, 8));
            assert_eq!(check_vpd(&[code, 1, b'k', 4, 0, 0, 0, 0, 0]), Ok(1));
            // A key that runs past the room comes before the length of the value.
            assert_eq!(
                check_vpd(&[code, 0xFF, 0xFF, 0xFF, 0x7F, 0x80, 0x80, 0x80, 0x80]),
                refused(5, 0)
            );
        }
        // A broken frame is reported before a broken rule.
        assert_eq!(check_vpd(&[1, 0, 0, 1, 0, 0, 9]), refused(6, 6));
    }

    #[test]
    fn vpd_named_entries() {
        // A second info header is refused by the edition that names it, whatever its key.
        let image = [0xFE, 0, 4, 1, 2, 3, 4, 0xFE, 1, b'k', 4, 1, 2, 3, 4, 0];
        assert_eq!(check(VPD, 1, &image), Ok(2));
        assert_eq!(check(VPD, 2, &image), refused(8, 7));
        // Keys are compared byte for byte, and only among entries of type 01h.
        let image = [
            1, 1, b'k', 0, 1, 1, b'K', 0, 0xFE, 1, b'k', 4, 0, 0, 0, 0, 0xFF,
        ];
        assert_eq!(check(VPD, 1, &image), Ok(3));
        assert_eq!(check(VPD, 2, &image), Ok(3));
        let kinds = |edition| -> Vec<u32> {
            let entries = list(VPD, edition, &image, 3).unwrap();
            entries.iter().map(|entry| entry.kind).collect()
        };
        assert_eq!(kinds(1), [513, 513, 0]);
        assert_eq!(kinds(2), [513, 513, 766]);
        // An empty key has the place that it has in the frame.
        let image = [0xFE, 0x80, 0, 4, 1, 2, 3, 4, 0];
        let entry = entry(VPD, 2, &image, 0).unwrap();
        assert_eq!((entry.key_place, entry.key_len), (3, 0));
        assert_eq!((entry.value_place, entry.value_len), (4, 4));
        // The first of two breaks is reported, and a broken rule before a second key.
        let image = [1, 1, b'k', 0, 1, 1, b'k', 0, 1, 0, 0, 0];
        assert_eq!(check(VPD, 1, &image), refused(8, 4));
        let image = [1, 1, b'k', 0, 1, 0, 0, 1, 1, b'k', 0, 0];
        assert_eq!(check(VPD, 1, &image), refused(7, 4));
        // A key outside the writer's alphabet breaks nothing in between.
        let image = [1, 1, b'k', 0, 1, 1, b'-', 0, 1, 1, b'k', 0, 0];
        assert_eq!(check(VPD, 1, &image), refused(8, 8));
    }

    fn check_tiny(entries: &[u8]) -> Result<usize, Refusal> {
        let results = EDITIONS.map(|edition| check(TINY, edition, &tiny(entries)));
        assert_eq!(results, [results[0]; EDITIONS.len()]);
        results[0]
    }

    #[test]
    fn tiny_frames() {
        assert_eq!(check_tiny(&[0x00]), refused(6, 3));
        assert_eq!(check_tiny(&[0x01]), refused(5, 3));
        assert_eq!(check_tiny(&[0x01, 1]), refused(5, 3));
        assert_eq!(check_tiny(&[0x01, 1, 0x00]), Ok(1));
        assert_eq!(check_tiny(&[0x01, 0]), Ok(1));
        assert_eq!(check_tiny(&[0x02, 0, 0x0F, 1, 7, 0x02, 0]), Ok(3));
        assert_eq!(check_tiny(&[0x10]), refused(5, 3));
        assert_eq!(check_tiny(&[0x10, 1]), Ok(1));
        assert_eq!(check_tiny(&[0x10, 1, 0x60, 1, 2, 3, 4, 5]), refused(5, 5));
        // An entry after the pool is refused before anything else about it.
        assert_eq!(check_tiny(&[0x01, 0, 0x00]), refused(9, 5));
        assert_eq!(check_tiny(&[0x01, 0, 0xFF]), refused(9, 5));
        assert_eq!(check_tiny(&[0x01, 0, 0x01, 0]), refused(9, 5));
        // Id 1 with length 6 is no pool.
        assert_eq!(check_tiny(&[0x61, 0, 0, 0, 0, 0, 0, 0x10, 0]), Ok(2));
        // The check byte is outside the room.
        assert_eq!(
            check(TINY, 1, &[0x56, 0x02, 0x05, 0x10, 0x00]),
            refused(5, 3)
        );
        assert_eq!(
            check(TINY, 1, &[0x56, 0x02, 0x04, 0x00, 0x10]),
            refused(10, 3)
        );
        // The check comes before rules.
        let mut image = tiny(&[0x61, 0, 0, 100, 0, 0, 0]);
        assert_eq!(check(TINY, 1, &image), refused(7, 3));
        image[10] ^= 1;
        assert_eq!(check(TINY, 1, &image), refused(10, 10));
    }

    #[test]
    fn tiny_named_entries() {
        let entries = [
            &[0x10, 0x02][..],
            &[0x11, 0xFB],
            &[0x60, 1, 2, 3, 4, 5, 6],
            &[0x61, 1, 2, 153, 99, b'a', b'b'],
            &[0x62, 3, 4, 99, 0, 0xFF, 0],
            &[0x80, 5, 6, 128, 7, 8, 9, 0x0F, 0x27],
            &[0x81, 0, 0, 0, 0, 0, 0, 0x01, 0x00],
            &[0xF0; 16],
            &[0x01, 3, 0x41, 0xC2, 0x43],
        ]
        .concat();
        let image = tiny(&entries);
        let identity = |serial, part, major, minor, free0, free1| Identity {
            serial,
            part,
            major,
            minor,
            free0,
            free1,
        };
        let mut expected = vec![
            with_reading(0x10, 784, 3, 4, 1, Reading::StringNumber(2)),
            with_reading(
                0x11,
                785,
                5,
                6,
                1,
                Reading::TestFlags {
                    byte: 0xFB,
                    passed: 3,
                },
            ),
            with_reading(
                0x60,
                864,
                7,
                8,
                6,
                Reading::Addresses {
                    base: 0x0102_0304_0506,
                    count: 1,
                },
            ),
            with_reading(
                0x61,
                865,
                14,
                15,
                6,
                Reading::Identity(identity(1, 2, 153, 99, b'a', b'b')),
            ),
            with_reading(
                0x62,
                866,
                21,
                22,
                6,
                Reading::Identity(identity(3, 4, 99, 0, 0xFF, 0)),
            ),
            with_reading(
                0x80,
                896,
                28,
                29,
                8,
                Reading::IdentityWithBatch(identity(5, 6, 128, 7, 8, 9), 9999),
            ),
            with_reading(
                0x81,
                897,
                37,
                38,
                8,
                Reading::IdentityWithBatch(identity(0, 0, 0, 0, 0, 0), 1),
            ),
            plain(0xF0, 0, 46, 47, 15),
            plain(0x01, 769, 62, 64, 3),
        ];
        assert_eq!(list(TINY, 2, &image, 9), Ok(expected.clone()));
        assert_eq!(list(TINY, 3, &image, 9), Ok(expected.clone()));
        expected[5] = plain(0x80, 0, 28, 29, 8);
        expected[6] = plain(0x81, 0, 37, 38, 8);
        assert_eq!(list(TINY, 1, &image, 9), Ok(expected));
    }

    #[test]
    fn tiny_rules_differ_by_edition_only_in_what_is_named() {
        let image = tiny(&[0x80, 0, 0, 100, 0, 0, 0, 0, 0, 0x80, 0, 0, 0, 0, 0, 0, 0, 0]);
        assert_eq!(check(TINY, 1, &image), Ok(2));
        assert_eq!(check(TINY, 2, &image), refused(7, 3));
        let image = tiny(&[0x10, 0, 0x11, 0, 0x10, 0]);
        assert_eq!(check(TINY, 1, &image), refused(8, 7));
        assert_eq!(check(TINY, 2, &image), refused(8, 7));
    }

    #[test]
    fn fboss_rules_then_required_fields() {
        for missing in [1, 8, 9, 10, 11] {
            let all = required();
            let entries: Vec<u8> = all
                .chunks(3)
                .filter(|entry| entry[0] != missing)
                .flatten()
                .copied()
                .collect();
            assert_eq!(check(FBOSS, 1, &fboss(&entries)), refused(11, 0));
            assert_eq!(check(FBOSS, 2, &fboss(&entries)), refused(11, 0));
        }
        assert_eq!(check(FBOSS, 1, &fboss(&[])), refused(11, 0));
        let bad_rule = [&required()[..], &[13, 0]].concat();
        assert_eq!(check(FBOSS, 1, &fboss(&bad_rule)), refused(7, 19));
        let twice = [&required()[..], &[1, 0]].concat();
        assert_eq!(check(FBOSS, 1, &fboss(&twice)), refused(8, 19));
        // The same bytes under a code that only edition 2 names.
        let late = [&required()[..], &[17, 0, 17, 0]].concat();
        assert_eq!(check(FBOSS, 1, &fboss(&late)), Ok(7));
        assert_eq!(check(FBOSS, 2, &fboss(&late)), refused(7, 19));
        // Too few records or a wrong number come after a missing field.
        assert_eq!(list(FBOSS, 1, &fboss(&[]), 0), refused(11, 0));
        assert_eq!(entry(FBOSS, 1, &fboss(&[]), 9), refused(11, 0));
    }
}

mod strings {
    use super::*;

    #[test]
    fn strings_of_a_pool() {
        let image = tiny(&[0x10, 1, 0x01, 7, b'a', 0xE2, 0x80, b'c', b'd', 0xE5, b'f']);
        for edition in EDITIONS {
            let given = |number| string(TINY, edition, &image, number);
            assert_eq!(given(0), Ok((7, 2)));
            assert_eq!(given(1), Ok((9, 1)));
            assert_eq!(given(2), Ok((10, 3)));
            assert_eq!(given(3), refused(15, 0));
            assert_eq!(given(u64::MAX), refused(15, 0));
        }
    }

    #[test]
    fn no_strings() {
        assert_eq!(string(TINY, 1, &tiny(&[]), 0), refused(15, 0));
        assert_eq!(string(TINY, 1, &tiny(&[0x01, 0]), 0), refused(15, 0));
        assert_eq!(string(TINY, 1, &tiny(&[0x01, 1, 0x7F]), 0), refused(15, 0));
        assert_eq!(string(TINY, 1, &tiny(&[0x01, 1, 0x80]), 0), Ok((5, 1)));
        // Id 1 with another length is no pool.
        assert_eq!(string(TINY, 1, &tiny(&[0x11, 0x80]), 0), refused(15, 0));
        assert_eq!(string(TINY, 1, &[0x56, 2, 4, 0], 0), refused(10, 3));
        assert_eq!(string(VPD, 1, &SKU, 0), refused(16, 0));
        assert_eq!(string(FBOSS, 9, &[], 0), refused(16, 0));
        assert_eq!(string(TINY, 9, &[], 0), refused(1, 0));
    }
}

mod writes {
    use super::*;

    const NAMES: [(u32, &[u8], &[u8]); 5] = [
        (1, b"", b"N"),
        (8, b"", b"\x04"),
        (9, b"", b"\x05"),
        (10, b"", b"\x06"),
        (11, b"", b"S"),
    ];

    #[test]
    fn fboss_of_required_fields() {
        let image = fboss(&required());
        assert_eq!(written(FBOSS, 1, &NAMES, 23), Ok(image.clone()));
        assert_eq!(written(FBOSS, 2, &NAMES, 100), Ok(image));
        assert_eq!(written(FBOSS, 1, &NAMES, 22), refused(12, 0));
        for missing in 0..5 {
            let mut parts = NAMES.to_vec();
            parts.remove(missing);
            assert_eq!(written(FBOSS, 1, &parts, 100), refused(11, 0));
            // A missing field is reported before an output that is too small.
            assert_eq!(written(FBOSS, 1, &parts, 0), refused(11, 0));
        }
    }

    #[test]
    fn fboss_refusals() {
        let with = |code, value: &[u8]| {
            let mut parts = NAMES.to_vec();
            parts.push((code, b"", value));
            written(FBOSS, 2, &parts, 1000)
        };
        assert!(with(2, &[b'x'; 255]).is_ok());
        assert_eq!(with(2, &[b'x'; 256]), refused(7, 5));
        assert!(with(13, b"20240229").is_ok());
        assert_eq!(with(13, b"20230229"), refused(7, 5));
        assert_eq!(with(13, b"20241301"), refused(7, 5));
        assert_eq!(with(1, b"again"), refused(8, 5));
        assert_eq!(with(1, b"\x00"), refused(7, 5));
        for code in [0, 21, 250, 255, 256, 257, u32::MAX] {
            assert_eq!(with(code, b"x"), refused(14, 5));
        }
        assert!(with(17, &[0; 8]).is_ok());
        assert_eq!(
            written(FBOSS, 1, &[(17, b"", &[0; 8])], 100),
            refused(14, 0)
        );
    }

    #[test]
    fn parts_must_lie_inside() {
        let field = |code, key_place, key_len, value_place, value_len| Field {
            code,
            key_place,
            key_len,
            value_place,
            value_len,
        };
        let result = |format, field| {
            let mut out = [0xA5; 100];
            let result = write(format, 2, &[field], b"k12345", &mut out);
            finished(result, out.to_vec())
        };
        let far = u64::MAX;
        assert!(result(VPD, field(1, 0, 1, 1, 5)).is_ok());
        assert!(result(VPD, field(1, 0, 1, 6, 0)).is_ok());
        assert_eq!(result(VPD, field(1, 0, 1, 7, 0)), refused(13, 0));
        assert_eq!(result(VPD, field(1, 0, 1, 1, 6)), refused(13, 0));
        assert_eq!(result(VPD, field(1, 0, 7, 1, 5)), refused(13, 0));
        assert_eq!(result(VPD, field(1, far, far, 1, 5)), refused(13, 0));
        assert_eq!(result(VPD, field(1, 0, 1, far, 1)), refused(13, 0));
        assert_eq!(result(VPD, field(2, far, far, far, 1)), refused(14, 0));
        // Parts outside come before the rule.
        assert_eq!(result(VPD, field(1, 0, 0, 1, 6)), refused(13, 0));
        assert_eq!(result(VPD, field(1, 0, 0, 1, 5)), refused(7, 0));
        // Outside VPD the key is never a reason.
        assert!(result(TINY, field(0x10, far, far, 0, 1)).is_ok());
        assert_eq!(result(TINY, field(0x10, far, far, 6, 1)), refused(13, 0));
        assert_eq!(result(FBOSS, field(1, far, far, 0, 6)), refused(11, 0));
    }

    #[test]
    fn vpd_writes() {
        assert_eq!(written(VPD, 1, &[], 1), Ok(vec![0]));
        assert_eq!(written(VPD, 1, &[], 3), Ok(vec![0]));
        assert_eq!(written(VPD, 1, &[], 0), refused(12, 0));
        let info: (u32, &[u8], &[u8]) = (0xFE, b"gVpdInfo", b"\x09\0\0\0");
        assert_eq!(written(VPD, 1, &[info], 100), refused(14, 0));
        assert_eq!(
            written(VPD, 2, &[info], 100),
            Ok(b"\xfe\x08gVpdInfo\x04\x09\0\0\0\0".to_vec())
        );
        assert_eq!(written(VPD, 2, &[info, info], 100), refused(8, 1));
        // A second one that is wrong by itself is that first.
        let wrong: (u32, &[u8], &[u8]) = (0xFE, b"gVpdInfo", b"\x09\0\0");
        assert_eq!(written(VPD, 2, &[info, wrong], 100), refused(7, 1));
        assert_eq!(
            written(VPD, 2, &[(1, b"a", b"1"), (1, b"a", b"2")], 100),
            refused(8, 1)
        );
        assert_eq!(
            written(VPD, 2, &[(1, b"a", b"1"), (1, b"b c", b"2")], 100),
            refused(7, 1)
        );
        for length in [0, 1, 127, 128, 16_383, 16_384, 65_528] {
            let value = vec![0xEE; length];
            let image = written(VPD, 2, &[(1, b"k", &value)], 65_536).unwrap();
            let (place, given) = super::value(VPD, 2, &image, 0).unwrap();
            assert_eq!(image[place..place + given], value);
        }
        let value = vec![0; 65_529];
        assert_eq!(
            written(VPD, 2, &[(1, b"k", &value)], 65_536).unwrap().len(),
            65_536
        );
        let value = vec![0; 65_530];
        assert_eq!(
            written(VPD, 2, &[(1, b"k", &value)], 65_536),
            refused(12, 0)
        );
    }

    #[test]
    fn a_great_many_fields_on_the_same_bytes() {
        let values = vec![b'a'; 1 << 16];
        let fields: Vec<Field> = (1..=1000)
            .map(|key_len| Field {
                code: 1,
                key_place: 0,
                key_len,
                value_place: 0,
                value_len: 1 << 16,
            })
            .collect();
        let mut out = vec![0xA5; 65_536];
        assert_eq!(write(VPD, 1, &fields, &values, &mut out), refused(12, 0));
        assert!(out.iter().all(|&byte| byte == 0xA5));
    }

    #[test]
    fn tiny_writes() {
        assert_eq!(written(TINY, 1, &[], 4), Ok(vec![0x56, 2, 4, 0x6F]));
        assert_eq!(written(TINY, 1, &[], 3), refused(12, 0));
        let parts: [(u32, &[u8], &[u8]); 3] = [
            (0x10, b"ignored", b"\x00"),
            (0x60, b"", b"\x01\x02\x03\x04\x05\x06"),
            (0x01, b"", b"\xC1"),
        ];
        let image = tiny(&[0x10, 0, 0x60, 1, 2, 3, 4, 5, 6, 0x01, 1, 0xC1]);
        assert_eq!(written(TINY, 1, &parts, 300), Ok(image));

        let pool: (u32, &[u8], &[u8]) = (0x01, b"", b"\xC1");
        assert_eq!(written(TINY, 1, &[pool, pool], 300), refused(9, 1));
        assert_eq!(
            written(TINY, 1, &[pool, (0x10, b"", b"too long")], 300),
            refused(9, 1)
        );
        assert_eq!(
            written(TINY, 1, &[pool, (0x80, b"", b"")], 300),
            refused(14, 1)
        );
        assert_eq!(
            written(TINY, 1, &[(0x10, b"", b""), pool], 300),
            refused(7, 0)
        );
        assert_eq!(
            written(TINY, 1, &[(0x10, b"", b"1"), (0x10, b"", b"1")], 300),
            refused(8, 1)
        );
        assert_eq!(
            written(TINY, 1, &[(0x10, b"", b"1"), (0x12, b"", b"1")], 300),
            refused(14, 1)
        );
    }

    #[test]
    fn tiny_total_length() {
        let with_pool = |length: usize, room| {
            let pool = vec![0x80; length];
            written(TINY, 1, &[(0x01, b"", &pool)], room)
        };
        let image = with_pool(249, 300).unwrap();
        assert_eq!((image.len(), image[2]), (255, 255));
        assert_eq!(check(TINY, 1, &image), Ok(1));
        assert_eq!(with_pool(249, 254), refused(12, 0));
        assert_eq!(with_pool(250, 300), refused(12, 0));
        assert_eq!(with_pool(255, 300), refused(12, 0));
        assert_eq!(with_pool(256, 300), refused(7, 0));
    }
}

mod edits {
    use super::*;

    #[test]
    fn vpd_keeps_other_bytes() {
        // Lengths with leading zero groups, and FFh as the end.
        let image = [
            0xFE, 0x80, 0x00, 0x80, 0x01, 0x09, // Unnamed in edition 1.
            0x01, 0x80, 0x01, b'k', 0x80, 0x80, 0x02, 0x0A, 0x0B, //
            0x01, 0x01, b'l', 0x80, 0x00, //
            0xFF, 0x55,
        ];
        assert_eq!(
            edited(VPD, 1, &image, 1, b"v", 100).unwrap(),
            [
                0xFE, 0x80, 0x00, 0x80, 0x01, 0x09, //
                0x01, 0x80, 0x01, b'k', 0x01, b'v', //
                0x01, 0x01, b'l', 0x80, 0x00, //
                0x00,
            ]
        );
        assert_eq!(edited(VPD, 1, &image, 0, b"1234", 100), refused(14, 0));
        assert_eq!(edited(VPD, 2, &image, 0, b"1234", 100), refused(7, 0));
        assert_eq!(edited(VPD, 1, &image, 3, b"v", 100), refused(13, 0));
        let long = [7; 128];
        let made = edited(VPD, 1, &image, 2, &long, 200).unwrap();
        assert_eq!(made[..18], image[..18]);
        assert_eq!(made[18..20], [0x81, 0x00]);
        assert_eq!(made[20..148], long);
        assert_eq!(made[148..], [0x00]);
    }

    #[test]
    fn an_edit_with_the_same_value_shortens_the_length() {
        let image = [0x01, 0x01, b'k', 0x80, 0x80, 0x80, 0x01, b'v', 0x00];
        assert_eq!(
            edited(VPD, 2, &image, 0, b"v", 9).unwrap(),
            [0x01, 0x01, b'k', 0x01, b'v', 0x00]
        );
        assert_eq!(edited(VPD, 2, &image, 0, b"v", 5), refused(12, 0));
    }

    #[test]
    fn refusals_of_an_edit_in_order() {
        let image = fboss(&[&required()[..], &[21, 0]].concat());
        assert_eq!(edited(FBOSS, 1, &image, 6, b"", 0), refused(13, 0));
        assert_eq!(edited(FBOSS, 1, &image, 5, b"", 0), refused(14, 19));
        assert_eq!(edited(FBOSS, 1, &image, 1, b"", 0), refused(7, 7));
        assert_eq!(edited(FBOSS, 1, &image, 1, b"1", 0), refused(12, 0));
        assert_eq!(
            edited(FBOSS, 1, &image, 0, &[b'x'; 256], 1000),
            refused(7, 4)
        );
        assert_eq!(edited(FBOSS, 1, &image[..20], 9, b"", 0), refused(5, 19));
    }

    #[test]
    fn tiny_edits() {
        let image = tiny(&[0x02, 1, 9, 0x10, 0, 0x01, 2, 0xC1, 0xC2]);
        assert_eq!(
            edited(TINY, 1, &image, 1, b"\x07", 100),
            Ok(tiny(&[0x02, 1, 9, 0x10, 7, 0x01, 2, 0xC1, 0xC2]))
        );
        assert_eq!(
            edited(TINY, 1, &image, 2, b"", 100),
            Ok(tiny(&[0x02, 1, 9, 0x10, 0, 0x01, 0]))
        );
        assert_eq!(edited(TINY, 1, &image, 0, b"\x07", 100), refused(14, 3));
        assert_eq!(edited(TINY, 1, &image, 1, b"", 100), refused(7, 6));
        assert_eq!(edited(TINY, 1, &image, 1, b"12", 100), refused(7, 6));
        let longest = [0x80; 256];
        assert_eq!(edited(TINY, 1, &image, 2, &longest, 300), refused(7, 8));
        assert_eq!(
            edited(TINY, 1, &image, 2, &longest[..245], 300),
            refused(12, 0)
        );
        let made = edited(TINY, 1, &image, 2, &longest[..244], 300).unwrap();
        assert_eq!(made.len(), 255);
        assert_eq!(check(TINY, 1, &made), Ok(3));
    }
}

/// 02, VPD names with dots: a reader takes any key of at least one byte, a writer only those of the
/// narrow alphabet.
mod vpd_names {
    use super::*;

    /// The key "lab.rack" with the value "A7".
    const LAB: &[u8] = b"\x01\x08lab.rack\x02A7\x00";

    /// The bytes of the writer's alphabet.
    const ALPHABET: &[u8] = b"abcdefghijklmnopqrstuvwxyzABCDEFGHIJKLMNOPQRSTUVWXYZ0123456789_";

    /// Keys that no writer takes for a 01h.
    const UNWRITTEN: [&[u8]; 20] = [
        b"lab.rack",
        b".",
        b"..",
        b"lab.",
        b".rack",
        b"lab rack",
        b"lab-rack",
        b"lab/rack",
        b"\"",
        b"'",
        b"\x00",
        b"\x00\x00",
        b"lab\x00",
        b"\x01",
        b"\n",
        b"\x7F",
        b"\xFE",
        b"\xFF",
        // No UTF-8, and UTF-8 of a letter that is none of the alphabet.
        b"\xC3\x28",
        "é".as_bytes(),
    ];

    /// One entry of a key's shortest length form and a value of at most 127 bytes.
    fn one(code: u8, key: &[u8], value: &[u8]) -> Vec<u8> {
        let lengths = [key, value].map(|part| u8::try_from(part.len()).unwrap());
        assert!(lengths.iter().all(|&length| length < 0x80));
        [&[code, lengths[0]], key, &[lengths[1]], value].concat()
    }

    /// An image of these entries of type 01h.
    fn of_keys(keys: &[&[u8]]) -> Vec<u8> {
        let mut image: Vec<u8> = keys.iter().flat_map(|key| one(1, key, b"")).collect();
        image.push(0);
        image
    }

    /// The key of each entry that an edition lists, all of them of type 01h and named.
    fn keys_read(edition: u32, image: &[u8]) -> Result<Vec<&[u8]>, Refusal> {
        let entries = list(VPD, edition, image, usize::MAX)?;
        assert_eq!(check(VPD, edition, image), Ok(entries.len()));
        let key = |entry: &Entry| {
            assert_eq!((entry.code, entry.kind), (1, 513));
            assert_eq!(entry.reading, Reading::Plain);
            &image[entry.key_place as usize..][..entry.key_len as usize]
        };
        Ok(entries.iter().map(key).collect())
    }

    #[test]
    fn a_dotted_name_is_read_by_every_call() {
        let record = Entry {
            code: 1,
            kind: 513,
            place: 0,
            key_place: 2,
            key_len: 8,
            value_place: 11,
            value_len: 2,
            frame_len: 13,
            reading: Reading::Plain,
        };
        for edition in EDITIONS {
            assert_eq!(check(VPD, edition, LAB), Ok(1));
            assert_eq!(list(VPD, edition, LAB, 1), Ok(vec![record]));
            assert_eq!(list(VPD, edition, LAB, 0), refused(12, 0));
            assert_eq!(entry(VPD, edition, LAB, 0), Ok(record));
            assert_eq!(entry(VPD, edition, LAB, 1), refused(13, 0));
            assert_eq!(value(VPD, edition, LAB, 0), Ok((11, 2)));
            assert_eq!(string(VPD, edition, LAB, 0), refused(16, 0));
            let walk = Walk {
                format: VPD,
                edition,
                entry: 0,
            };
            let (given, next) = step(walk, LAB);
            assert_eq!((given, next.entry), (Ok(record), 1));
            assert_eq!(step(next, LAB), (refused(13, 0), next));

            let input = [&[2, edition as u8], LAB].concat();
            let head = format!("format 2 edition {edition} entries 1\n");
            assert_eq!(program::output(&input), head + "0 513 2 8 11 2\n");
        }
    }

    #[test]
    fn any_bytes_are_a_key() {
        for edition in EDITIONS {
            for first in 0..=255 {
                let key = [first];
                assert_eq!(keys_read(edition, &of_keys(&[&key])), Ok(vec![&key[..]]));
                for key in [[first, 0x00], [0xFF, first], [b'.', first]] {
                    assert_eq!(keys_read(edition, &of_keys(&[&key])), Ok(vec![&key[..]]));
                }
            }
            // All keys of one byte at once, and all of two bytes with one first byte.
            let all: Vec<[u8; 1]> = (0..=255).map(|byte| [byte]).collect();
            let all: Vec<&[u8]> = all.iter().map(|key| &key[..]).collect();
            assert_eq!(keys_read(edition, &of_keys(&all)), Ok(all));
            let all: Vec<[u8; 2]> = (0..=255).map(|byte| [0x2E, byte]).collect();
            let all: Vec<&[u8]> = all.iter().map(|key| &key[..]).collect();
            assert_eq!(keys_read(edition, &of_keys(&all)), Ok(all));
            assert_eq!(
                keys_read(edition, &of_keys(&UNWRITTEN)),
                Ok(UNWRITTEN.to_vec())
            );
        }
    }

    #[test]
    fn keys_compare_as_bytes() {
        for edition in EDITIONS {
            for key in UNWRITTEN {
                let second = one(1, key, b"").len() as u64;
                assert_eq!(
                    check(VPD, edition, &of_keys(&[key, key])),
                    refused(8, second)
                );
                let image = of_keys(&[key, b"between", key]);
                assert_eq!(check(VPD, edition, &image), refused(8, second + 10));
                // Another form of its length is the same key.
                let mut image = one(1, key, b"first");
                let place = image.len() as u64;
                image.extend([0x01, 0x80, 0x80, key.len() as u8]);
                image.extend(key);
                image.extend([0x80, 0x00, 0x00]);
                assert_eq!(check(VPD, edition, &image), refused(8, place));
            }
            // Keys that a comparison as text, up to a zero byte or without case could confuse.
            let near: [&[u8]; 18] = [
                b"lab.rack",
                b"Lab.rack",
                b"lab.racK",
                b"lab.rac",
                b"lab.rack.",
                b"lab.rack\x00",
                b"\x00lab.rack",
                b"lab.rack ",
                b"lab_rack",
                b"lab\xAErack",
                b"\x00",
                b"\x00\x00",
                b"\x80",
                b"\x81",
                b"\xFF",
                "é".as_bytes(),
                "e\u{301}".as_bytes(),
                b"\xE9",
            ];
            assert_eq!(keys_read(edition, &of_keys(&near)), Ok(near.to_vec()));
        }
    }

    #[test]
    fn an_empty_key_is_refused() {
        for edition in EDITIONS {
            assert_eq!(check(VPD, edition, &of_keys(&[b""])), refused(7, 0));
            assert_eq!(check(VPD, edition, &of_keys(&[b"", b""])), refused(7, 0));
            assert_eq!(check(VPD, edition, &of_keys(&[b".", b""])), refused(7, 4));
            // Its length in another form, and a value that is there.
            let image = b"\x01\x80\x80\x00\x04\x01\x01\x01\x01\x00";
            assert_eq!(check(VPD, edition, image), refused(7, 0));
            // It comes before a key that is there twice, and after one.
            let image = of_keys(&[b".", b"", b"."]);
            assert_eq!(check(VPD, edition, &image), refused(7, 4));
            let image = of_keys(&[b".", b".", b""]);
            assert_eq!(check(VPD, edition, &image), refused(8, 4));
            // Every call refuses the image alike, and an edit of another entry too.
            let image = of_keys(&[b"a.b", b""]);
            assert_eq!(list(VPD, edition, &image, 0), refused(7, 6));
            assert_eq!(entry(VPD, edition, &image, 0), refused(7, 6));
            assert_eq!(value(VPD, edition, &image, 0), refused(7, 6));
            assert_eq!(edited(VPD, edition, &image, 0, b"v", 50), refused(7, 6));

            assert_eq!(written(VPD, edition, &[(1, b"", b"v")], 50), refused(7, 0));
            let parts: [(u32, &[u8], &[u8]); 2] = [(1, b"k", b""), (1, b"", b"")];
            assert_eq!(written(VPD, edition, &parts, 50), refused(7, 1));
        }
    }

    #[test]
    fn an_edit_of_a_dotted_entry() {
        for edition in EDITIONS {
            assert_eq!(
                edited(VPD, edition, LAB, 0, b"B", 20),
                Ok(b"\x01\x08lab.rack\x01B\x00".to_vec())
            );
            assert_eq!(
                edited(VPD, edition, LAB, 0, b"", 12),
                Ok(b"\x01\x08lab.rack\x00\x00".to_vec())
            );
            assert_eq!(edited(VPD, edition, LAB, 0, b"A7", 14), Ok(LAB.to_vec()));
            assert_eq!(edited(VPD, edition, LAB, 0, b"A7", 13), refused(12, 0));
            assert_eq!(edited(VPD, edition, LAB, 1, b"B", 20), refused(13, 0));
            // Zero groups before the key's length stay, those before the value's length go.
            let image = b"\x01\x80\x80\x08lab.rack\x80\x02A7\xFFrest";
            assert_eq!(
                edited(VPD, edition, image, 0, b"B7", 20),
                Ok(b"\x01\x80\x80\x08lab.rack\x02B7\x00".to_vec())
            );
            for key in UNWRITTEN {
                let image = of_keys(&[key]);
                let expected = [&one(1, key, b"new")[..], &[0]].concat();
                assert_eq!(edited(VPD, edition, &image, 0, b"new", 50), Ok(expected));
            }
        }
    }

    #[test]
    fn an_edit_next_to_a_dotted_entry() {
        for edition in EDITIONS {
            let entries: [&[u8]; 4] = [
                b"\x01\x80\x08lab.rack\x80\x80\x01x",
                b"\x01\x03SKU\x02A7",
                b"\x01\x02\x00\xFF\x80\x00",
                b"\xFE\x03a.b\x04\x01\x02\x03\x04",
            ];
            let image = [&entries.concat()[..], &[0xFF]].concat();
            let with = |n: usize, entry: &[u8]| {
                let mut entries = entries;
                entries[n] = entry;
                Ok([&entries.concat()[..], &[0x00]].concat())
            };
            assert_eq!(
                edited(VPD, edition, &image, 1, b"B", 60),
                with(1, b"\x01\x03SKU\x01B")
            );
            assert_eq!(
                edited(VPD, edition, &image, 0, b"yz", 60),
                with(0, b"\x01\x80\x08lab.rack\x02yz")
            );
            assert_eq!(
                edited(VPD, edition, &image, 2, b"v", 60),
                with(2, b"\x01\x02\x00\xFF\x01v")
            );
            let info = edited(VPD, edition, &image, 3, b"4321", 60);
            match edition {
                1 => assert_eq!(info, refused(14, 29)),
                _ => assert_eq!(info, with(3, b"\xFE\x03a.b\x044321")),
            }
            // The value's rule is looked at, whatever the key.
            let wrong = edited(VPD, edition, &image, 3, b"432", 60);
            assert_eq!(wrong, refused(if edition == 1 { 14 } else { 7 }, 29));
        }
    }

    #[test]
    fn a_write_of_a_dotted_name() {
        let good: [(u32, &[u8], &[u8]); 3] = [(1, b"a", b"1"), (1, b"B_9", b""), (1, b"_", b"3")];
        for edition in EDITIONS {
            assert!(written(VPD, edition, &good, 60).is_ok());
            for key in UNWRITTEN {
                for number in 0..=good.len() {
                    let mut parts = good.to_vec();
                    parts.insert(number, (1, key, b"v"));
                    let refusal = refused(7, number as u64);
                    assert_eq!(written(VPD, edition, &parts, 200), refusal);
                    // It comes before the same key in a later field, and before an output that is
                    // too small.
                    parts.insert(number, (1, key, b"v"));
                    assert_eq!(written(VPD, edition, &parts, 0), refusal);
                    // A field before it that is refused comes first.
                    parts.insert(0, (2, b"k", b""));
                    assert_eq!(written(VPD, edition, &parts, 200), refused(14, 0));
                }
            }
            // A part outside the values comes before the alphabet.
            let (mut list, values) = fields(&[(1, b"a.b", b"v")]);
            list[0].value_len = 2;
            let mut out = [0xA5; 20];
            let result = write(VPD, edition, &list, &values, &mut out);
            assert_eq!(finished(result, out.to_vec()), refused(13, 0));
        }
    }

    #[test]
    fn both_sides_of_the_alphabet() {
        for byte in 0..=255u8 {
            for key in [
                vec![byte],
                vec![byte, b'k', b'k'],
                vec![b'k', byte, b'k'],
                vec![b'k', b'k', byte],
            ] {
                let image = [&one(1, &key, b"v")[..], &[0]].concat();
                let writes = if ALPHABET.contains(&byte) {
                    Ok(image.clone())
                } else {
                    refused(7, 1)
                };
                for edition in EDITIONS {
                    assert_eq!(keys_read(edition, &image), Ok(vec![&key[..]]));
                    let parts = [(1, &b"ok"[..], &b""[..]), (1, &key, b"v")];
                    let made = written(VPD, edition, &parts, 50);
                    assert_eq!(made.map(|made| made[5..].to_vec()), writes);
                }
            }
        }
        // The two sides of each range, by hand.
        for (byte, writes) in [
            (0x2F, false),
            (0x30, true),
            (0x39, true),
            (0x3A, false),
            (0x40, false),
            (0x41, true),
            (0x5A, true),
            (0x5B, false),
            (0x5E, false),
            (0x5F, true),
            (0x60, false),
            (0x61, true),
            (0x7A, true),
            (0x7B, false),
        ] {
            assert_eq!(check(VPD, 1, &of_keys(&[&[byte]])), Ok(1));
            assert_eq!(written(VPD, 1, &[(1, &[byte], b"")], 5).is_ok(), writes);
        }
    }

    #[test]
    fn an_info_header_has_any_key() {
        let info = [1, 2, 3, 4];
        for key in UNWRITTEN.into_iter().chain([&b""[..], b"gVpdInfo"]) {
            let image = [&one(0xFE, key, &info)[..], &[0]].concat();
            assert_eq!(check(VPD, 1, &image), Ok(1));
            assert_eq!(check(VPD, 2, &image), Ok(1));
            let parts = [(0xFE, key, &info[..])];
            assert_eq!(written(VPD, 1, &parts, 50), refused(14, 0));
            assert_eq!(written(VPD, 2, &parts, 50), Ok(image.clone()));
            let made = [&one(0xFE, key, b"4321")[..], &[0]].concat();
            assert_eq!(edited(VPD, 2, &image, 0, b"4321", 50), Ok(made));
            if key.is_empty() {
                continue;
            }
            // A 01h of the same key is not its second.
            let image = [one(1, key, b""), one(0xFE, key, &info), vec![0]].concat();
            assert_eq!(check(VPD, 1, &image), Ok(2));
            assert_eq!(check(VPD, 2, &image), Ok(2));
            let image = [one(0xFE, key, &info), one(1, key, b""), vec![0]].concat();
            assert_eq!(check(VPD, 1, &image), Ok(2));
            assert_eq!(check(VPD, 2, &image), Ok(2));
        }
        let parts: [(u32, &[u8], &[u8]); 2] = [(0xFE, b"k", &info), (1, b"k", b"")];
        assert!(written(VPD, 2, &parts, 50).is_ok());
    }

    /// The frame of a 01h with an empty value has its key and three bytes more.
    #[test]
    fn as_many_keys_as_there_can_be() {
        let mut keys: Vec<Vec<u8>> = (0..=255).map(|byte| vec![byte]).collect();
        let two = (0..=u16::MAX).map(|two| two.to_be_bytes().to_vec());
        keys.extend(two.take((65_535 - 256 * 4) / 5));
        assert_eq!(keys.len(), 13_158);
        let of = |keys: &[Vec<u8>]| of_keys(&keys.iter().map(|key| &key[..]).collect::<Vec<_>>());
        let image = of(&keys);
        assert_eq!(image.len(), 65_535);
        for edition in EDITIONS {
            let expected: Vec<&[u8]> = keys.iter().map(|key| &key[..]).collect();
            assert_eq!(keys_read(edition, &image), Ok(expected));
            assert_eq!(list(VPD, edition, &image, 13_157), refused(12, 0));
            for first in [0, 255, 256, 13_156] {
                let mut keys = keys.clone();
                keys[13_157] = keys[first].clone();
                assert_eq!(check(VPD, edition, &of(&keys)), refused(8, 65_529));
            }
            let mut keys = keys.clone();
            keys.push(vec![0xFF, 0xFF]);
            assert_eq!(check(VPD, edition, &of(&keys)), refused(2, 0));
        }
    }
}

mod byte_form {
    use super::*;

    const DONE: u64 = 1 << 32;

    fn packed(number: u64, place: u64) -> u64 {
        number << 59 | place
    }

    fn words(bytes: &[u8]) -> Vec<u32> {
        bytes
            .chunks(4)
            .map(|word| u32::from_le_bytes(word.try_into().unwrap()))
            .collect()
    }

    fn field(words: [u32; 5]) -> Vec<u8> {
        words.into_iter().flat_map(u32::to_le_bytes).collect()
    }

    #[test]
    fn answers() {
        assert_eq!(bytes::check(VPD, 2, &SKU), DONE);
        assert_eq!(bytes::check(VPD, 2, &[0]), 0);
        assert_eq!(bytes::check(0, 2, &SKU), packed(16, 0));
        assert_eq!(bytes::check(TINY, 1, &[0x56, 2, 4, 0]), packed(10, 3));
        assert_eq!(bytes::value(VPD, 2, &SKU, 0), 2 << 32 | 6);
        assert_eq!(bytes::value(VPD, 2, &SKU, 1), packed(13, 0));
        let image = tiny(&[0x01, 3, 0x41, 0xC2, 0xC3]);
        assert_eq!(bytes::string(TINY, 2, &image, 0), 2 << 32 | 5);
        assert_eq!(bytes::string(TINY, 2, &image, 1), 1 << 32 | 7);
        assert_eq!(bytes::string(TINY, 2, &image, 2), packed(15, 0));
    }

    #[test]
    fn records() {
        let image = tiny(&[
            0x60, 1, 2, 3, 4, 5, 6, 0x80, 9, 8, 7, 6, 5, 4, 0x0F, 0x27, 0x11, 0x1F,
        ]);
        let mut records = vec![0xA5; 64 * 4 + 63];
        assert_eq!(bytes::list(TINY, 2, &image, &mut records), 3 << 32);
        assert_eq!(
            words(&records[..64]),
            [
                0x60,
                864,
                3,
                4,
                0,
                4,
                6,
                0,
                3,
                0x0102,
                0x0304_0506,
                1,
                0,
                0,
                0,
                0
            ]
        );
        assert_eq!(
            words(&records[64..128]),
            [0x80, 896, 10, 11, 0, 11, 8, 0, 7, 9, 8, 7, 6, 5, 4, 9999]
        );
        assert_eq!(
            words(&records[128..192]),
            [0x11, 785, 19, 20, 0, 20, 1, 0, 5, 0x1F, 4, 0, 0, 0, 0, 0]
        );
        assert!(records[192..].iter().all(|&byte| byte == 0xA5));

        let mut few = vec![0xA5; 64 * 3 - 1];
        assert_eq!(bytes::list(TINY, 2, &image, &mut few), packed(12, 0));
        assert!(few.iter().all(|&byte| byte == 0xA5));
        assert_eq!(bytes::list(VPD, 2, &[0], &mut []), 0);
    }

    #[test]
    fn each_reading() {
        let mut record = [0xA5; 64];
        assert_eq!(bytes::entry(VPD, 1, &SKU, 0, &mut record), DONE);
        assert_eq!(
            words(&record),
            [1, 513, 0, 2, 3, 6, 2, 0, 0, 0, 0, 0, 0, 0, 0, 0]
        );
        let image = fboss(&required());
        assert_eq!(bytes::entry(FBOSS, 1, &image, 0, &mut record), DONE);
        assert_eq!(words(&record)[8..], [1, 0, 0, 0, 0, 0, 0, 0]);
        assert_eq!(bytes::entry(FBOSS, 1, &image, 2, &mut record), DONE);
        assert_eq!(words(&record)[8..], [2, 5, 0, 0, 0, 0, 0, 0]);
        let image = tiny(&[0x10, 7, 0x62, 1, 2, 3, 4, 5, 6]);
        assert_eq!(bytes::entry(TINY, 1, &image, 0, &mut record), DONE);
        assert_eq!(words(&record)[8..], [4, 7, 0, 0, 0, 0, 0, 0]);
        assert_eq!(bytes::entry(TINY, 1, &image, 1, &mut record), DONE);
        assert_eq!(words(&record)[8..], [6, 1, 2, 3, 4, 5, 6, 0]);
    }

    #[test]
    fn a_record_that_is_cut_short() {
        let mut record = [0xA5; 63];
        assert_eq!(bytes::entry(VPD, 1, &SKU, 0, &mut record), packed(12, 0));
        assert_eq!(bytes::entry(VPD, 1, &SKU, 1, &mut record), packed(13, 0));
        assert_eq!(record, [0xA5; 63]);
        let mut record = [0xA5; 70];
        assert_eq!(bytes::entry(VPD, 1, &SKU, 0, &mut record), DONE);
        assert_eq!(record[64..], [0xA5; 6]);
    }

    #[test]
    fn walks() {
        let mut walk = [0xA5; 18];
        walk[..16].copy_from_slice(&[2, 0, 0, 0, 1, 0, 0, 0, 0, 0, 0, 0, 0, 0, 0, 0]);
        let start = walk;
        let mut record = [0xA5; 64];
        assert_eq!(
            bytes::step(&mut walk, &SKU, &mut record[..63]),
            packed(12, 0)
        );
        assert_eq!(bytes::step(&mut walk, &[], &mut record), packed(5, 0));
        assert_eq!(
            bytes::step(&mut walk[..15], &SKU, &mut record),
            packed(16, 0)
        );
        assert_eq!((walk, record), (start, [0xA5; 64]));

        assert_eq!(bytes::step(&mut walk, &SKU, &mut record), DONE);
        let mut moved = start;
        moved[8] = 1;
        assert_eq!(walk, moved);
        assert_eq!(words(&record)[..2], [1, 513]);
        assert_eq!(bytes::step(&mut walk, &SKU, &mut record), packed(13, 0));
        assert_eq!(walk, moved);

        // The entry number has 64 bits.
        walk[15] = 1;
        assert_eq!(bytes::step(&mut walk, &SKU, &mut record), packed(13, 0));
    }

    #[test]
    fn writes_and_edits() {
        let mut fields = field([1, 0, 3, 3, 2]);
        let mut out = [0xA5; 10];
        assert_eq!(bytes::write(VPD, 1, &fields, b"SKUA7", &mut out), 9 << 32);
        assert_eq!(out[..9], SKU);
        assert_eq!(out[9], 0xFF);
        // A last field that is cut short counts as none.
        fields.extend([9; 19]);
        assert_eq!(bytes::write(VPD, 1, &fields, b"SKUA7", &mut out), 9 << 32);
        fields.push(9);
        assert_eq!(
            bytes::write(VPD, 1, &fields, b"SKUA7", &mut out),
            packed(14, 1)
        );
        let far = field([1, u32::MAX, u32::MAX, 0, 0]);
        assert_eq!(
            bytes::write(VPD, 1, &far, b"SKUA7", &mut out),
            packed(13, 0)
        );
        assert_eq!(bytes::edit(VPD, 1, &SKU, 0, b"B", &mut out), 8 << 32);
        assert_eq!(bytes::edit(VPD, 1, &SKU, 1, b"B", &mut out), packed(13, 0));
    }
}

/// Images and fields drawn at random, the same ones in every run.
mod drawn {
    use super::add_and_remove::{added, removed};
    use super::*;

    struct Draw(u64);

    impl Draw {
        fn below(&mut self, limit: u64) -> u64 {
            self.0 ^= self.0 << 13;
            self.0 ^= self.0 >> 7;
            self.0 ^= self.0 << 17;
            self.0 % limit
        }

        fn byte(&mut self) -> u8 {
            self.below(256) as u8
        }

        fn bytes(&mut self, limit: u64) -> Vec<u8> {
            (0..self.below(limit)).map(|_| self.byte()).collect()
        }

        /// A year, a month and a day that are mostly a day of the calendar.
        fn near_a_day(&mut self) -> [u64; 3] {
            let year = [0, 1, 1900, 2000, 2023, 2024, 9999][self.below(7) as usize];
            [year, self.below(14), self.below(33)]
        }

        /// Entries that often keep their frames and sometimes their rules.
        fn image(&mut self, format: u32) -> Vec<u8> {
            let mut entries = Vec::new();
            for _ in 0..self.below(6) {
                match format {
                    FBOSS if self.below(6) == 0 => {
                        let [year, month, day] = self.near_a_day();
                        entries.extend([13, 8]);
                        entries.extend(format!("{year:04}{month:02}{day:02}").bytes());
                    }
                    FBOSS => {
                        let code = 1 + self.below(24) as u8;
                        let length = [1, 8, 12][self.below(3) as usize];
                        entries.extend([code, length]);
                        entries.extend((0..length).map(|_| b'0' + self.below(4) as u8));
                    }
                    VPD => {
                        let code = [0x01, 0x01, 0x01, 0xFE][self.below(4) as usize];
                        let key = match self.below(8) {
                            0 => vec![self.byte()],
                            1 => vec![b'a' + self.below(4) as u8, b'.'],
                            2 => self.bytes(4),
                            _ => vec![b'a' + self.below(8) as u8],
                        };
                        // Zero groups before a length, three at most.
                        let [before_key, before_value] = [7, 7].map(|limit| {
                            let groups = self.below(limit) as usize;
                            vec![0x80; groups.saturating_sub(3)]
                        });
                        entries.push(code);
                        entries.extend(before_key);
                        entries.push(key.len() as u8);
                        entries.extend(key);
                        entries.extend(before_value);
                        entries.push(4);
                        entries.extend((0..4).map(|_| self.byte()));
                    }
                    ONIE if self.below(6) == 0 => {
                        let [year, month, day] = self.near_a_day();
                        let [hour, minute, second] = [25, 61, 61].map(|limit| self.below(limit));
                        let date = format!("{month:02}/{day:02}/{year:04}");
                        entries.extend([0x25, 19]);
                        entries.extend(date.bytes());
                        entries.extend(format!(" {hour:02}:{minute:02}:{second:02}").bytes());
                    }
                    ONIE => {
                        let (code, length) = [
                            (0x21, 3),
                            (0x2D, 0),
                            (0x24, 6),
                            (0x2A, 2),
                            (0x26, 1),
                            (0xFD, 4),
                            (0xFD, 7),
                        ][self.below(7) as usize];
                        entries.extend([code, length]);
                        entries.extend((0..length).map(|_| b' ' + self.below(95) as u8));
                    }
                    _ => {
                        let code = [0x10, 0x11, 0x60, 0x61, 0x62, 0x80, 0x81, 0x30, 0x01]
                            [self.below(9) as usize];
                        entries.push(code);
                        let length = match code >> 4 {
                            0 => {
                                entries.push(3);
                                3
                            }
                            length => length,
                        };
                        entries.extend((0..length).map(|_| self.below(110) as u8));
                    }
                }
            }
            let mut image = match format {
                FBOSS => fboss(&[&required()[..], &entries].concat()),
                VPD => [&entries[..], &[0]].concat(),
                ONIE => onie::image(&entries),
                _ => tiny(&entries),
            };
            if self.below(3) == 0 {
                let place = self.below(image.len() as u64) as usize;
                image[place] = self.byte();
            }
            if self.below(5) == 0 {
                image.truncate(self.below(image.len() as u64) as usize);
            }
            image
        }
    }

    #[test]
    fn all_calls_agree_on_any_image() {
        let mut draw = Draw(0x9E37_79B9_7F4A_7C15);
        let mut accepted = 0;
        for round in 0..40_000 {
            let format = 1 + round % 4;
            let image = if draw.below(10) == 0 {
                draw.bytes(40)
            } else {
                draw.image(format)
            };
            for edition in EDITIONS {
                match check(format, edition, &image) {
                    Ok(count) => {
                        accepted += 1;
                        agree(&mut draw, format, edition, &image, count);
                    }
                    Err(refusal) => {
                        assert_eq!(list(format, edition, &image, 99), Err(refusal));
                        assert_eq!(entry(format, edition, &image, 0), Err(refusal));
                        assert_eq!(value(format, edition, &image, 0), Err(refusal));
                        assert_eq!(edited(format, edition, &image, 0, b"", 9), Err(refusal));
                        assert_eq!(removed(format, edition, &image, 0, 9), Err(refusal));
                        let field = (1, &b"k"[..], &b"v"[..]);
                        assert_eq!(added(format, edition, &image, field, 9), Err(refusal));
                        if format == TINY {
                            assert_eq!(string(format, edition, &image, 0), Err(refusal));
                        }
                    }
                }
            }
        }
        // The draw is of use only where it meets both answers often.
        assert!(accepted > 13_000);
        assert!(accepted < 120_000);
    }

    fn agree(draw: &mut Draw, format: u32, edition: u32, image: &[u8], count: usize) {
        let entries = list(format, edition, image, count).unwrap();
        assert_eq!(entries.len(), count);
        frame_lengths::tile(format, edition, image);
        for (n, listed) in entries.iter().enumerate() {
            let n = n as u64;
            assert_eq!(entry(format, edition, image, n), Ok(*listed));
            let place = (listed.value_place as usize, listed.value_len as usize);
            assert_eq!(value(format, edition, image, n), Ok(place));

            // An edit changes this value, and leaves the code, kind, key and value of all others.
            let new = match draw.below(3) {
                0 => draw.bytes(12),
                _ => vec![b'0'; place.1],
            };
            let made = edited(format, edition, image, n, &new, 300);
            // No value of a 01h is wrong, whatever its key.
            assert!(made.is_ok() || (format, listed.code) != (VPD, 1));
            if let Ok(made) = made {
                frame_lengths::tile(format, edition, &made);
                let after = list(format, edition, &made, count).unwrap();
                assert_eq!(after.len(), count);
                for (m, (old, after)) in entries.iter().zip(&after).enumerate() {
                    let (key, old_value) = parts(image, old);
                    let expected = if m as u64 == n { &new } else { old_value };
                    assert_eq!((after.code, after.kind), (old.code, old.kind));
                    assert_eq!(parts(&made, after), (key, expected));
                }
            }
        }
        add_and_remove::agree(format, edition, image, &entries);
        if count > 0 {
            assert_eq!(list(format, edition, image, count - 1), refused(12, 0));
        }
        assert_eq!(entry(format, edition, image, count as u64), refused(13, 0));

        // Where all entries are named, writing them again gives the same entries, but for a 01h whose
        // key a writer refuses.
        if entries.iter().all(|entry| entry.kind != 0) {
            let again: Vec<_> = entries
                .iter()
                .map(|entry| {
                    let (key, value) = parts(image, entry);
                    (entry.code, key, value)
                })
                .collect();
            let unwritten = again.iter().position(|&(code, key, _)| {
                let in_alphabet = |byte: &u8| byte.is_ascii_alphanumeric() || *byte == b'_';
                format == VPD && code == 1 && !key.iter().all(in_alphabet)
            });
            let made = written(format, edition, &again, 300);
            if let Some(number) = unwritten {
                assert_eq!(made, refused(7, number as u64));
                return;
            }
            let made = made.unwrap();
            frame_lengths::tile(format, edition, &made);
            let after = list(format, edition, &made, count).unwrap();
            for (old, after) in entries.iter().zip(&after) {
                assert_eq!((after.kind, after.reading), (old.kind, old.reading));
                assert_eq!(parts(&made, after), parts(image, old));
            }
        }
    }

    fn parts<'a>(image: &'a [u8], entry: &Entry) -> (&'a [u8], &'a [u8]) {
        let part = |place: u32, length: u32| &image[place as usize..][..length as usize];
        (
            part(entry.key_place, entry.key_len),
            part(entry.value_place, entry.value_len),
        )
    }

    /// Edition 3 names nothing new in the older formats (02, ONIE images and edition 3), and edition 4
    /// nothing new in any. It gives word 7 of a record besides (02, Entries remember their whole frame).
    #[test]
    fn editions_three_and_four_name_nothing_new() {
        let mut draw = Draw(0x2545_F491_4F6C_DD1D);
        for round in 0..20_000 {
            let format = 1 + round % 4;
            let image = draw.image(format);
            let value = draw.bytes(12);
            let n = draw.below(5);
            let codes = match format {
                FBOSS => [1, 8, 9, 10, 11, 20, 21, 13],
                VPD => [1, 1, 1, 1, 0xFE, 0xFE, 2, 1],
                TINY => [0x10, 0x11, 0x60, 0x61, 0x80, 0x81, 0x01, 0x12],
                _ => [0x21, 0x24, 0x2A, 0x2D, 0xFD, 0xFD, 0x26, 0x21],
            };
            let fields: Vec<u8> = (0..draw.below(8) as usize)
                .flat_map(|field| {
                    let length = draw.below(9) as u32;
                    [codes[field], field as u32, 1, field as u32, length]
                })
                .flat_map(u32::to_le_bytes)
                .collect();
            let all = |edition: u32| {
                let mut records = vec![0xA5; 20 * 64];
                let mut record = vec![0xA5; 64];
                let mut stepped = vec![0xA5; 64];
                let mut walk = [format, edition, n as u32, 0]
                    .map(u32::to_le_bytes)
                    .concat();
                let mut edited = vec![0xA5; 120];
                let mut written = vec![0xA5; 120];
                let mut added = vec![0xA5; 120];
                let mut removed = vec![0xA5; 120];
                let values = b"01010101abcdefgh";
                let answers = [
                    bytes::check(format, edition, &image),
                    bytes::list(format, edition, &image, &mut records),
                    bytes::entry(format, edition, &image, n, &mut record),
                    bytes::value(format, edition, &image, n),
                    bytes::string(format, edition, &image, n),
                    bytes::step(&mut walk, &image, &mut stepped),
                    bytes::edit(format, edition, &image, n, &value, &mut edited),
                    bytes::write(format, edition, &fields, values, &mut written),
                    bytes::add(format, edition, &image, &fields, values, &mut added),
                    bytes::remove(format, edition, &image, n, &mut removed),
                ];
                let made = [walk.split_off(8), edited, written, added, removed];
                (answers, [records, record, stepped], made)
            };
            if format != ONIE {
                assert_eq!(all(2), all(3));
            }
            let (answers, [mut records, mut record, mut stepped], made) = all(4);
            let given = match answers[1] >> 59 {
                0 => (answers[1] >> 32) as usize,
                _ => 0,
            };
            let records_given = records.chunks_mut(64).take(given);
            let one_each = [(&mut record, answers[2]), (&mut stepped, answers[5])];
            let one_each = one_each.into_iter().filter(|(_, answer)| answer >> 59 == 0);
            for record in records_given.chain(one_each.map(|(record, _)| &mut record[..])) {
                assert!(record[28..32] != [0; 4]);
                record[28..32].fill(0);
            }
            assert_eq!((answers, [records, record, stepped], made), all(3));
        }
    }

    #[test]
    fn byte_calls_take_any_lengths() {
        let mut draw = Draw(0x0123_4567_89AB_CDEF);
        for _ in 0..20_000 {
            let format = draw.below(6) as u32;
            let edition = draw.below(6) as u32;
            let image = draw.image(format.clamp(1, 4));
            let fields = draw.bytes(90);
            let values = draw.bytes(30);
            let mut out = draw.bytes(90);
            let mut record = draw.bytes(200);
            let mut walk = draw.bytes(20);
            let n = draw.below(4);
            bytes::check(format, edition, &image);
            bytes::list(format, edition, &image, &mut record);
            bytes::entry(format, edition, &image, n, &mut record);
            bytes::value(format, edition, &image, n);
            bytes::string(format, edition, &image, n);
            bytes::step(&mut walk, &image, &mut record);
            bytes::write(format, edition, &fields, &values, &mut out);
            bytes::edit(format, edition, &image, n, &values, &mut out);
            bytes::add(format, edition, &image, &fields, &values, &mut out);
            bytes::remove(format, edition, &image, n, &mut out);
        }
    }
}
