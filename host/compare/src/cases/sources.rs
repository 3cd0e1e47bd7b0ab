//! The examples and reference values of the source documents 000 and 002.

use images::checks::check16;
use images::fields::List;
use images::image::FBOSS_HEADER;

use super::*;

/// 000, Checksum: each reference value is that of a part of an image, so that the image is accepted
/// only where the check of that part has the value.
///
/// Two bytes bring the check to its start, the stream follows, and then its check as two bytes,
/// which bring the check to 0. Zero bytes leave it there.
pub fn reference_checks(compare: &mut Comparison) {
    let streams: [(&[u8], u16); 4] = [
        (b"", 0x1D0F),
        (b"A", 0x9479),
        (b"123456789", 0xE5CC),
        (&[b'A'; 256], 0xE938),
    ];
    for (stream, check) in streams {
        let mut image = FBOSS_HEADER.to_vec();
        image.extend([1, 0, 8, 1, 0, 9, 1, 0, 10, 1, 0, 11, 0]);
        let entries = if stream.len() == 256 {
            // Code, length and value of an entry of code 65 and length 65 can all be "A": three such
            // entries, and the first bytes of a fourth.
            image.extend([200, 2]);
            bring_to_start(&mut image);
            image.extend(stream);
            image.extend(check.to_be_bytes());
            image.extend([0; 4 * 67 - 256 - 2]);
            10
        } else {
            image.extend([200, stream.len() as u8 + 4]);
            bring_to_start(&mut image);
            image.extend(stream);
            image.extend(check.to_be_bytes());
            6
        };
        image.extend([0xFA, 0x02, 0x00, 0x00]);
        for edition in EDITIONS {
            compare.next_case();
            let call = Call::check(FBOSS, edition, &image);
            compare.case("reference check", &call, given(entries), None);
        }
    }
}

/// Adds the two bytes after which the check is 1D0Fh.
fn bring_to_start(image: &mut Vec<u8>) {
    for two in 0..=u16::MAX {
        image.extend(two.to_be_bytes());
        if check16(image) == 0x1D0F {
            return;
        }
        image.truncate(image.len() - 2);
    }
}

/// 000, Example: the image without the bytes after its end.
pub fn fboss_example_image() -> Vec<u8> {
    bytes(
        "fb fb 05 ff 01 0d 46 49 52 53 54 5f 53 51 55 45 45 5a 45 02 08 32 30 31 32 33 34 35 36 03 08 53
         59 53 41 31 32 33 34 04 0c 50 43 42 41 31 32 33 34 35 36 37 20 05 0c 50 43 42 31 32 33 34 35 36
         37 38 20 06 0c 4d 59 4f 44 4d 31 32 33 34 35 36 37 07 0d 4f 53 31 32 33 34 35 36 37 38 39 41 42
         08 01 01 09 01 00 0a 01 01 0b 0d 50 53 31 32 33 34 35 36 37 38 39 30 41 0c 07 55 4e 41 5f 4d 41
         53 0d 08 32 30 31 33 30 32 30 33 0e 05 54 45 52 5a 4f 0f 09 4a 55 49 43 45 54 4f 52 59 10 07 42
         55 44 4f 4b 41 4e 11 08 11 22 33 44 55 66 01 02 12 08 12 34 56 78 9a bc 03 04 13 08 66 55 44 33
         22 11 02 00 14 08 fe dc ba 98 76 54 00 02 fa 02 d5 c6",
    )
}

/// 000, Example: each entry's value length, and its reading as words.
const FBOSS_EXAMPLE: [(u32, &[u32]); 20] = [
    (13, &[1]),
    (8, &[1]),
    (8, &[1]),
    (12, &[1]),
    (12, &[1]),
    (12, &[1]),
    (13, &[1]),
    (1, &[2, 1]),
    (1, &[2, 0]),
    (1, &[2, 1]),
    (13, &[1]),
    (7, &[1]),
    (8, &[8, 2013, 2, 3]),
    (5, &[1]),
    (9, &[1]),
    (7, &[1]),
    (8, &[3, 0x1122, 0x3344_5566, 258]),
    (8, &[3, 0x1234, 0x5678_9ABC, 772]),
    (8, &[3, 0x6655, 0x4433_2211, 512]),
    (8, &[3, 0xFEDC, 0xBA98_7654, 2]),
];

fn fboss_example_records(edition: u32) -> Vec<Vec<u8>> {
    let mut place = 4;
    let mut records = Vec::new();
    for (code, (length, reading)) in (1..).zip(FBOSS_EXAMPLE) {
        let value = place + 2;
        let mut words = vec![code, 256 + code, place, value, 0, value, length, 2 + length];
        words.extend(reading);
        if edition == 1 && code > 16 {
            words.truncate(8);
            words[1] = 0;
        }
        records.push(record(&words));
        place += 2 + length;
    }
    records
}

/// 000, Example: read, written from its fields, and edited.
pub fn fboss_example(compare: &mut Comparison) {
    let short = fboss_example_image();
    let mut whole = short.clone();
    whole.resize(0x2000, 0xFF);
    let mut fields = List::default();
    let mut place = 4;
    for (code, (length, _)) in (1..).zip(FBOSS_EXAMPLE) {
        let value = &short[place + 2..][..length as usize];
        fields.add(code, &[], value);
        place += 2 + length as usize;
    }
    let field_bytes = fields.bytes();

    for edition in EDITIONS {
        let records = fboss_example_records(edition);
        for image in [&short, &whole] {
            let check = Call::check(FBOSS, edition, image);
            listed(compare, &check, "000's example", &records);
        }

        compare.next_case();
        let mut wrong = whole.clone();
        wrong[208..210].copy_from_slice(&[0xA6, 0xB7]);
        let check = Call::check(FBOSS, edition, &wrong);
        compare.case("000's mismatch", &check, refused(10, 208), None);

        compare.next_case();
        let write = |room| Call::write(FBOSS, edition, &field_bytes, &fields.values, room);
        if edition == 1 {
            compare.case("000 written", &write(0x2000), refused(14, 16), None);
        } else {
            compare.case("000 written", &write(210), given(210), Some(&short));
            compare.case("000 written", &write(0x2000), given(210), Some(&whole));
            compare.case("000 written", &write(209), refused(12, 0), None);
        }

        // The product name becomes one byte shorter, and everything after it moves.
        compare.next_case();
        let check = Call::check(FBOSS, edition, &whole);
        let mut edited = [&short[..4], &[1, 12], b"SECOND_CRUSH", &short[19..206]].concat();
        let right = check16(&edited);
        edited.extend([0xFA, 0x02]);
        edited.extend(right.to_be_bytes());
        let call = check.edit(0, b"SECOND_CRUSH", 209);
        compare.case("000 edited", &call, given(209), Some(&edited));
    }
}

/// 002, Encoding example.
pub fn vpd_example_image() -> Vec<u8> {
    [
        &b"\x01\x04UUID\x100123456789ABCDEF"[..],
        b"\x01\x073G_IMEI\x0EAABBBBBB-CC-DD",
        b"\x01\x0Cethernet_mac\x06\x2A\x02\x03\xB3\xD5\x7C",
        b"\x00",
    ]
    .concat()
}

/// 002, Encoding example: read, written from its fields, and edited.
pub fn vpd_example(compare: &mut Comparison) {
    let image = vpd_example_image();
    let records = [
        record(&[1, 513, 0, 2, 4, 7, 16, 23]),
        record(&[1, 513, 23, 25, 7, 33, 14, 24]),
        record(&[1, 513, 47, 49, 12, 62, 6, 21]),
    ];
    let mut fields = List::default();
    fields.add(1, b"UUID", b"0123456789ABCDEF");
    fields.add(1, b"3G_IMEI", b"AABBBBBB-CC-DD");
    fields.add(1, b"ethernet_mac", b"\x2A\x02\x03\xB3\xD5\x7C");
    let field_bytes = fields.bytes();
    let mut with_rest = image.clone();
    with_rest.resize(80, 0xFF);
    for edition in EDITIONS {
        let check = Call::check(VPD, edition, &image);
        listed(compare, &check, "002's example", &records);
        compare.next_case();
        let write = |room| Call::write(VPD, edition, &field_bytes, &fields.values, room);
        compare.case("002 written", &write(69), given(69), Some(&image));
        compare.case("002 written", &write(80), given(69), Some(&with_rest));
        compare.case("002 written", &write(68), refused(12, 0), None);
        compare.next_case();
        let edited = [&image[..23], b"\x01\x073G_IMEI\x00", &image[47..]].concat();
        compare.case(
            "002 edited",
            &check.edit(1, b"", 55),
            given(55),
            Some(&edited),
        );
    }
}
