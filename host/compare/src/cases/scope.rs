//! The cases of 01: both sides of each line, and every named tag of Tiny.

use images::image::{Entry, Format, Image, LONGEST};

use super::*;

/// The one entry of this image has the key "SKU" and the value "A7".
pub const SKU: &str = "01 03 53 4B 55 02 41 37 00";

/// 01, Both sides of each line.
pub fn both_sides_of_each_line(compare: &mut Comparison) {
    checked(compare, FBOSS, "FB FB 05 FF", refused(5, 4));
    checked(compare, FBOSS, "FB FB 04 FF", refused(4, 0));
    checked(compare, VPD, "", refused(5, 0));
    checked(compare, VPD, "00", given(0));
    checked(compare, VPD, "FF", given(0));

    let sku = bytes(SKU);
    for edition in EDITIONS {
        let check = Call::check(VPD, edition, &sku);
        let sku_record = record(&[1, 513, 0, 2, 3, 6, 2, 8]);
        listed(compare, &check, SKU, &[sku_record]);
    }

    checked(compare, VPD, "01 00 00 00", refused(7, 0));
    checked(compare, VPD, "01 80 80 80 80", refused(6, 0));
    let long_key_length = bytes("01 80 01 41 00 00");
    for edition in EDITIONS {
        let check = Call::check(VPD, edition, &long_key_length);
        let one = record(&[1, 513, 0, 3, 1, 5, 0, 5]);
        listed(compare, &check, "01 80 01 41 00 00", &[one]);
    }
    checked(compare, VPD, "01 01 41 00 01 01 41 00 00", refused(8, 4));

    let info = bytes("FE 01 41 03 01 02 03 00");
    let check = Call::check(VPD, 1, &info);
    let unnamed = record(&[0xFE, 0, 0, 2, 1, 4, 3, 7]);
    listed(compare, &check, "FE in edition 1", &[unnamed]);
    checked_in(compare, VPD, 2, "FE 01 41 03 01 02 03 00", refused(7, 0));

    checked(compare, TINY, "56 02 04 6F", given(0));
    checked(compare, TINY, "56 02 04 6E", refused(10, 3));
    checked(compare, TINY, "56 02 03", refused(5, 2));

    for edition in EDITIONS {
        compare.next_case();
        let check = Call::check(VPD, edition, &sku);
        let edited = bytes("01 03 53 4B 55 01 42 00 FF FF");
        compare.case(
            "SKU edited",
            &check.edit(0, b"B", 10),
            given(8),
            Some(&edited),
        );
        compare.case("SKU edited", &check.edit(0, b"B", 7), refused(12, 0), None);
    }

    // 84 82 01 reads 65,793, which no image can hold: too long with it, past the room without.
    let mut long = bytes("01 03 61 6E 79 84 82 01");
    long.resize(8 + 65_793 + 1, 0x00);
    for edition in EDITIONS {
        compare.next_case();
        let check = Call::check(VPD, edition, &long);
        compare.case("84 82 01", &check, refused(2, 0), None);
        let check = Call::check(VPD, edition, &long[..LONGEST]);
        compare.case("84 82 01", &check, refused(5, 0), None);
    }
}

/// A Tiny image with every named tag.
pub fn every_tag_image() -> Vec<u8> {
    let entries = vec![
        Entry::new(0x10, vec![2]),
        Entry::new(0x11, vec![0xF5]),
        Entry::new(0x60, vec![0x02, 0x11, 0x22, 0x33, 0x44, 0x55]),
        Entry::new(0x61, vec![0, 1, 0x80, 99, b'a', b'b']),
        Entry::new(0x62, vec![1, 0, 99, 0, 0, 0xFF]),
        Entry::new(0x80, vec![0, 1, 153, 7, b'c', b'd', 0x0F, 0x27]),
        Entry::new(0x81, vec![2, 2, 0, 99, b'e', b'f', 0x34, 0x12]),
        Entry::new(0x01, b"S\xB1P\xB2\xC1tail".to_vec()),
    ];
    Image::new(Format::Tiny, entries).bytes()
}

/// 01, Tiny version 2: every named tag in all editions, and the strings of a pool.
pub fn every_tag(compare: &mut Comparison) {
    let image = every_tag_image();
    for edition in EDITIONS {
        let kind = |code| match (edition, code) {
            (1, 0x80 | 0x81) => 0,
            _ => 768 + code,
        };
        let mut records = vec![
            record(&[0x10, kind(0x10), 3, 4, 0, 4, 1, 2, 4, 2]),
            record(&[0x11, kind(0x11), 5, 6, 0, 6, 1, 2, 5, 0xF5, 2]),
            record(&[
                0x60,
                kind(0x60),
                7,
                8,
                0,
                8,
                6,
                7,
                3,
                0x0211,
                0x2233_4455,
                1,
            ]),
            record(&[
                0x61,
                kind(0x61),
                14,
                15,
                0,
                15,
                6,
                7,
                6,
                0,
                1,
                0x80,
                99,
                0x61,
                0x62,
            ]),
            record(&[
                0x62,
                kind(0x62),
                21,
                22,
                0,
                22,
                6,
                7,
                6,
                1,
                0,
                99,
                0,
                0,
                0xFF,
            ]),
        ];
        match edition {
            1 => {
                records.push(record(&[0x80, 0, 28, 29, 0, 29, 8, 9]));
                records.push(record(&[0x81, 0, 37, 38, 0, 38, 8, 9]));
            }
            _ => {
                let batch = [
                    0x80, 896, 28, 29, 0, 29, 8, 9, 7, 0, 1, 153, 7, 0x63, 0x64, 9999,
                ];
                records.push(record(&batch));
                let batch = [
                    0x81, 897, 37, 38, 0, 38, 8, 9, 7, 2, 2, 0, 99, 0x65, 0x66, 0x1234,
                ];
                records.push(record(&batch));
            }
        }
        records.push(record(&[0x01, kind(0x01), 46, 48, 0, 48, 9, 11]));
        let check = Call::check(TINY, edition, &image);
        listed(compare, &check, "every tag", &records);

        compare.next_case();
        for (number, answer) in [
            (0, part(48, 2)),
            (1, part(50, 2)),
            (2, part(52, 1)),
            (3, refused(15, 0)),
            (u64::MAX, refused(15, 0)),
        ] {
            compare.case("strings", &check.string(number), answer, None);
        }
    }
}
