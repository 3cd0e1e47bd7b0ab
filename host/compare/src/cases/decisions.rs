//! The examples of DECISIONS.

use images::fields::List;
use images::image::{Entry, Format, Image, LONGEST, ONIE_LONGEST};
use images::random::Random;
use images::vpd::{self, Rule};
use images::{fboss, onie, tiny};

use super::scope::SKU;
use super::*;

/// DECISIONS, D1, D4 to D7 and D14 to D20.
pub fn on_reading(compare: &mut Comparison) {
    let image = bytes("FE 00 04 01 02 03 04 00");
    let check = Call::check(VPD, 2, &image);
    listed(
        compare,
        &check,
        "D1",
        &[record(&[0xFE, 766, 0, 2, 0, 3, 4, 7])],
    );

    let sku = bytes(SKU);
    for edition in EDITIONS {
        compare.next_case();
        let check = Call::check(VPD, edition, &sku);
        let walk = |n| walk_bytes(VPD, edition, n);
        compare.case("D4", &check.value(0), part(6, 2), None);
        compare.case("D6", &check.entry(1 << 32, RECORD), refused(13, 0), None);
        compare.case("D7", &check.entry(0, 63), refused(12, 0), None);
        compare.case("D7", &check.entry(1, 63), refused(13, 0), None);
        compare.case("D7", &check.step(&walk(0), 63), refused(12, 0), None);
        compare.case("D7", &check.step(&walk(1), 63), refused(13, 0), None);
        compare.case("D20", &check.step(&walk(1), RECORD), refused(13, 0), None);
        compare.case(
            "D20",
            &check.step(&walk(u64::MAX), RECORD),
            refused(13, 0),
            None,
        );
        compare.case(
            "cut walk",
            &check.step(&walk(0)[..15], RECORD),
            refused(16, 0),
            None,
        );
        compare.case("no walk", &check.step(&[], 0), refused(16, 0), None);
    }

    let header = "FB FB 05 FF";
    for (rest, answer) in [
        ("FA", refused(5, 4)),
        ("FA 02", refused(5, 4)),
        ("FA 02 7D", refused(5, 4)),
        ("FA 03", refused(6, 4)),
        ("FA 00", refused(6, 4)),
        ("FA 02 1D 0F", refused(10, 6)),
        ("FA 02 7D E4", refused(11, 0)),
    ] {
        checked(compare, FBOSS, &format!("{header} {rest}"), answer);
    }
    for (image, answer) in [
        ("FB FB 04", refused(3, 0)),
        ("FB FB 04 00", refused(4, 0)),
        ("FB FB 05 00", refused(3, 0)),
    ] {
        checked(compare, FBOSS, image, answer);
    }
    for (image, answer) in [
        ("56 02", refused(3, 0)),
        ("56 03", refused(3, 0)),
        ("56 03 00", refused(4, 0)),
    ] {
        checked(compare, TINY, image, answer);
    }
    for (image, answer) in [
        ("01 05 41", refused(5, 0)),
        ("01 80 80 80", refused(5, 0)),
        ("01 01 41 80 80 80 80", refused(6, 0)),
        ("01 01 41 00 01 80 01 41 00 00", refused(8, 4)),
    ] {
        checked(compare, VPD, image, answer);
    }
    let two_infos = "FE 01 41 04 01 02 03 04 FE 01 42 04 01 02 03 04 00";
    checked_in(compare, VPD, 1, two_infos, given(2));
    checked_in(compare, VPD, 2, two_infos, refused(8, 8));
    let one_key = bytes("01 01 41 00 FE 01 41 04 01 02 03 04 00");
    let check = Call::check(VPD, 2, &one_key);
    let records = [
        record(&[1, 513, 0, 2, 1, 4, 0, 4]),
        record(&[0xFE, 766, 4, 6, 1, 8, 4, 8]),
    ];
    listed(compare, &check, "D17", &records);

    checked_in(
        compare,
        VPD,
        2,
        "FE 03 2E 2E 20 04 01 02 03 04 00",
        given(1),
    );
    checked(
        compare,
        FBOSS,
        "FB FB 05 FF 01 00 08 01 01 09 01 01 0A 01 01 0B 00 11 08 02 00 00 00 00 01 00 00 FA 02 12 06",
        given(6),
    );
    for (image, strings) in [
        ("56 02 06 10 07 A2", vec![]),
        ("56 02 06 01 00 F5", vec![]),
        ("56 02 08 01 02 41 42 56", vec![]),
        (
            "56 02 0A 01 04 41 C2 C3 44 82",
            vec![part(5, 2), part(7, 1)],
        ),
        ("56 02 04 6F", vec![]),
    ] {
        let image = bytes(image);
        for edition in EDITIONS {
            compare.next_case();
            let check = Call::check(TINY, edition, &image);
            for (number, &answer) in (0..).zip(&strings) {
                compare.case("D19", &check.string(number), answer, None);
            }
            for number in [strings.len() as u64, 7, u64::MAX] {
                compare.case("D19", &check.string(number), refused(15, 0), None);
            }
        }
    }
    compare.next_case();
    for (format, edition, answer) in [
        (1, 9, 16),
        (2, 1, 16),
        (0, 1, 16),
        (259, 1, 16),
        (3, 9, 1),
        (3, 0, 1),
        (3, 5, 1),
    ] {
        let call = Call::check(format, edition, &sku).string(0);
        compare.case("D19", &call, refused(answer, 0), None);
    }
}

/// One write of fields whose parts are given, into so many bytes.
fn written(
    compare: &mut Comparison,
    what: &str,
    (format, edition): (u32, u32),
    words: &[[u32; 5]],
    values: &[u8],
    (room, answer, out): (usize, u64, Option<&[u8]>),
) {
    compare.next_case();
    let fields: Vec<u8> = words
        .iter()
        .flatten()
        .flat_map(|word| word.to_le_bytes())
        .collect();
    let call = Call::write(format, edition, &fields, values, room);
    compare.case(what, &call, answer, out);
}

/// DECISIONS, D2, D3 and D8 to D13.
pub fn on_writing(compare: &mut Comparison) {
    for edition in EDITIONS {
        compare.next_case();
        let long_forms = bytes("01 80 03 53 4B 55 80 02 41 37 00");
        let edited = bytes("01 80 03 53 4B 55 01 42 00 FF FF");
        let check = Call::check(VPD, edition, &long_forms);
        compare.case("D2", &check.edit(0, b"B", 11), given(9), Some(&edited));

        compare.next_case();
        let erased_end = bytes("01 03 53 4B 55 02 41 37 FF AA BB");
        let edited = bytes("01 03 53 4B 55 01 42 00");
        let check = Call::check(VPD, edition, &erased_end);
        compare.case("D13", &check.edit(0, b"B", 8), given(8), Some(&edited));
        compare.case("D13", &check.edit(0, b"B", 7), refused(12, 0), None);
        compare.case("D13", &check.edit(1, b"B", 8), refused(13, 0), None);
        let broken = bytes("01 00 00 00");
        let check = Call::check(VPD, edition, &broken);
        compare.case("D13", &check.edit(5, b"B", 8), refused(7, 0), None);
        let with_info = bytes("01 03 53 4B 55 02 41 37 FE 00 04 01 02 03 04 00");
        let check = Call::check(VPD, edition, &with_info);
        let answer = match edition {
            1 => refused(14, 8),
            _ => refused(7, 8),
        };
        compare.case("D13", &check.edit(1, b"abc", 20), answer, None);
    }

    let values = bytes("53 4B 55 41 37");
    let empty_at_end = bytes("01 03 53 4B 55 00 00 FF FF FF");
    for (field, answer, out) in [
        ([1, 0, 3, 5, 0], given(7), Some(&empty_at_end[..])),
        ([1, 0, 3, 6, 0], refused(13, 0), None),
        ([1, 0, 3, 4, 2], refused(13, 0), None),
        ([1, 0, 3, u32::MAX, 2], refused(13, 0), None),
        ([257, 0, 3, 5, 0], refused(14, 0), None),
    ] {
        written(
            compare,
            "D3, D6",
            (VPD, 1),
            &[field],
            &values,
            (10, answer, out),
        );
    }

    let trailing = b"PCBA1234567 ";
    let mut low = *trailing;
    low[11] = 0x1F;
    let required = [
        [1, 0, 0, 0, 0],
        [8, 0, 0, 0, 1],
        [9, 0, 0, 0, 1],
        [10, 0, 0, 0, 1],
        [11, 0, 0, 0, 0],
    ];
    for edition in EDITIONS {
        for (value, length, answer) in [
            (trailing, 12, given(35)),
            (trailing, 11, refused(7, 5)),
            (&low, 12, refused(7, 5)),
        ] {
            let fields = [&required[..], &[[4, 0, 0, 0, length]]].concat();
            written(
                compare,
                "D8",
                (FBOSS, edition),
                &fields,
                value,
                (35, answer, None),
            );
        }
        let letters = [b'A'; 256];
        let text = |length| {
            let mut fields = required;
            fields[0][4] = length;
            fields
        };
        let outcome = (300, given(276), None);
        written(
            compare,
            "D9",
            (FBOSS, edition),
            &text(255),
            &letters,
            outcome,
        );
        let outcome = (300, refused(7, 0), None);
        written(
            compare,
            "D9",
            (FBOSS, edition),
            &text(256),
            &letters,
            outcome,
        );
    }

    for (format, fields, answer) in [
        (VPD, [[1, 0, 0, 0, 1], [2, 0, 1, 0, 1]], refused(7, 0)),
        (TINY, [[1, 0, 0, 0, 2], [0x20, 0, 0, 9, 9]], refused(14, 1)),
        (TINY, [[1, 0, 0, 0, 2], [0x10, 0, 0, 9, 1]], refused(13, 1)),
        (TINY, [[1, 0, 0, 0, 2], [0x10, 0, 0, 0, 2]], refused(9, 1)),
        (TINY, [[1, 0, 0, 0, 2], [1, 0, 0, 0, 2]], refused(9, 1)),
    ] {
        written(
            compare,
            "D10",
            (format, 1),
            &fields,
            &values,
            (64, answer, None),
        );
    }

    let end_only = bytes("00");
    let empty_tiny = bytes("56 02 04 6F");
    for edition in EDITIONS {
        for (format, room, answer, out) in [
            (FBOSS, 8, refused(11, 0), None),
            (FBOSS, 0, refused(11, 0), None),
            (VPD, 1, given(1), Some(&end_only[..])),
            (VPD, 0, refused(12, 0), None),
            (TINY, 4, given(4), Some(&empty_tiny[..])),
            (TINY, 3, refused(12, 0), None),
            (TINY, 0, refused(12, 0), None),
        ] {
            written(
                compare,
                "D11",
                (format, edition),
                &[],
                &[],
                (room, answer, out),
            );
        }
    }
}

/// DECISIONS, D5, D9 and D12: lengths on both sides of a line.
pub fn on_lengths(compare: &mut Comparison) {
    let mut ended = vec![0; LONGEST + 1];
    for edition in EDITIONS {
        compare.next_case();
        let longest = Call::check(VPD, edition, &ended[..LONGEST]);
        let too_long = Call::check(VPD, edition, &ended);
        compare.case("D5", &longest, given(0), None);
        compare.case("D5", &too_long, refused(2, 0), None);
        let call = Call::check(FBOSS, edition, &ended[..1]).edit(0, b"", LONGEST + 1);
        compare.case("D5", &call, refused(2, 0), None);
    }
    ended.clear();

    let letters = vec![b'A'; 70_000];
    let mut full = bytes("01 01 41 83 FF 79");
    full.resize(LONGEST - 1, b'A');
    full.push(0);
    for edition in EDITIONS {
        let one = |length| [[1, 0, 1, 0, length]];
        let mut vpd = |fields: &[[u32; 5]], room, answer, out| {
            written(
                compare,
                "D9",
                (VPD, edition),
                fields,
                &letters,
                (room, answer, out),
            );
        };
        vpd(&one(65_529), LONGEST, given(LONGEST), Some(&full));
        vpd(&one(65_529), LONGEST - 1, refused(12, 0), None);
        vpd(&one(65_530), LONGEST, refused(12, 0), None);
        vpd(&one(65_530), LONGEST + 1, refused(2, 0), None);
        let twice = [[1, 0, 1, 0, 70_000], [1, 0, 1, 0, 1]];
        vpd(&twice, LONGEST, refused(8, 1), None);
    }

    // The same lines in an edit, and a lent part whose length needs more than 16 bits.
    let small = bytes("01 01 41 00 00");
    for edition in EDITIONS {
        compare.next_case();
        let check = Call::check(VPD, edition, &small);
        let mut edited = |length: usize, room, answer, out| {
            let call = check.edit(0, &letters[..length], room);
            compare.case("D9", &call, answer, out);
        };
        edited(65_529, LONGEST, given(LONGEST), Some(&full));
        edited(65_529, LONGEST - 1, refused(12, 0), None);
        edited(65_530, LONGEST, refused(12, 0), None);
        edited(65_536, LONGEST, refused(12, 0), None);
        edited(65_537, LONGEST, refused(12, 0), None);
        for records in [65_535, 65_536, 65_537] {
            let call = check.list(records * RECORD);
            compare.case("D5", &call, given(1), None);
        }
    }

    let pool =
        |length: usize| Image::new(Format::Tiny, vec![Entry::new(1, vec![b'A'; length])]).bytes();
    let largest = pool(249);
    for edition in EDITIONS {
        let one = |length| [[1, 0, 0, 0, length]];
        let mut tiny = |length, answer, out| {
            written(
                compare,
                "D12",
                (TINY, edition),
                &one(length),
                &letters,
                (255, answer, out),
            );
        };
        tiny(249, given(255), Some(&largest));
        tiny(250, refused(12, 0), None);
        tiny(255, refused(12, 0), None);
        tiny(256, refused(7, 0), None);

        compare.next_case();
        let small = bytes("56 02 07 01 01 C1 8F");
        let edited = bytes("56 02 08 01 02 41 C2 DF");
        let check = Call::check(TINY, edition, &small);
        compare.case("D12", &check.edit(0, b"A\xC2", 8), given(8), Some(&edited));
        compare.case(
            "D12",
            &check.edit(0, &letters[..249], 255),
            given(255),
            Some(&largest),
        );
        compare.case(
            "D12",
            &check.edit(0, &letters[..250], 300),
            refused(12, 0),
            None,
        );
        compare.case(
            "D12",
            &check.edit(0, &letters[..256], 300),
            refused(7, 3),
            None,
        );
    }
}

/// DECISIONS, Largest entry counts: images with as many entries as 65,536 bytes can hold, or ONIE's
/// 2,059, with one entry twice, and writes of as many fields.
pub fn largest_images(compare: &mut Comparison) {
    let mut random = Random::of_input(0, 0, 0);
    let mut mixed = vpd::distinct(Rule::Reader, 13_158);
    random.shuffle(&mut mixed);
    let images = [
        (
            Format::Fboss,
            fboss::filling(&mut random, LONGEST, 0),
            32_762,
            1..=4,
        ),
        (Format::Vpd, vpd::shortest(LONGEST), 21_845, 1..=1),
        (
            Format::Vpd,
            vpd::filling(&mut random, Rule::Reader, LONGEST, 0),
            13_158,
            1..=4,
        ),
        (Format::Vpd, mixed, 13_158, 1..=4),
        (
            Format::Vpd,
            vpd::filling(&mut random, Rule::Writer, LONGEST, 0),
            11_605,
            1..=4,
        ),
        (Format::Tiny, tiny::shortest(&mut random), 125, 1..=4),
        (
            Format::Onie,
            onie::filling(&mut random, ONIE_LONGEST, 0),
            1_021,
            3..=4,
        ),
    ];
    for (format, entries, count, editions) in images {
        let image = Image::new(format, entries).bytes();
        for edition in editions {
            compare.next_case();
            let check = Call::check(format.number(), edition, &image);
            compare.case("largest", &check, given(count), None);
            compare.case("largest", &check.list(count * RECORD), given(count), None);
            compare.case(
                "largest",
                &check.list((count - 1) * RECORD),
                refused(12, 0),
                None,
            );
            for n in [0, count / 2, count - 1, count] {
                let n = n as u64;
                compare.call(&check.entry(n, RECORD));
                compare.call(&check.value(n));
                compare.call(&check.step(&walk_bytes(check.format, edition, n), RECORD));
                compare.call(&check.edit(n, b"", LONGEST));
            }
        }
    }

    // One key less, as many as fit, and one more, with which the image has 65,540 bytes.
    for count in [13_157, 13_158, 13_159] {
        let entries = vpd::distinct(Rule::Reader, count);
        let image = Image::new(Format::Vpd, entries).bytes();
        for edition in EDITIONS {
            compare.next_case();
            let check = Call::check(VPD, edition, &image);
            if count == 13_159 {
                compare.case("too many keys", &check, refused(2, 0), None);
                continue;
            }
            compare.case("as many keys", &check, given(count), None);
            let length = LONGEST - 1 - (13_158 - count) * 5;
            let edit = |value, room| check.edit(count as u64 - 1, value, room);
            compare.case("edited", &edit(b"", length), given(length), Some(&image));
            compare.case("edited", &edit(b"", length - 1), refused(12, 0), None);
            let [longest, longer] = [0, 1].map(|more| vec![b'v'; LONGEST - length + more]);
            compare.case("edited", &edit(&longest, LONGEST), given(LONGEST), None);
            compare.case("edited", &edit(&longer, LONGEST), refused(12, 0), None);
        }
    }

    // The last of the keys becomes one of the others: the one before it, one from the middle, the
    // first of the same length, and the first of all. Its frame begins at the same place.
    for (rule, first_as_long) in [(Rule::Reader, 256), (Rule::Writer, 63 + 63 * 63)] {
        let entries = vpd::filling(&mut random, rule, LONGEST, 0);
        let last = entries.len() - 1;
        for other in [last - 1, 8_000, first_as_long, 0] {
            let mut entries = entries.clone();
            entries[last].key = entries[other].key.clone();
            let image = Image::new(Format::Vpd, entries).bytes();
            for edition in EDITIONS {
                compare.next_case();
                let place = LONGEST as u64 - 7;
                compare.case(
                    "a key twice",
                    &Call::check(VPD, edition, &image),
                    refused(8, place),
                    None,
                );
            }
        }
    }

    for (count, room, answer) in [
        (11_605, LONGEST, given(LONGEST)),
        (11_605, LONGEST - 1, refused(12, 0)),
        (11_606, LONGEST, refused(12, 0)),
    ] {
        compare.next_case();
        let mut list = List::default();
        for number in 0..count {
            list.add(1, &vpd::numbered_key(Rule::Writer, number), &[]);
        }
        let fields = list.bytes();
        let call = Call::write(VPD, 1, &fields, &list.values, room);
        compare.case("as many keys", &call, answer, None);
        list.add(1, &vpd::numbered_key(Rule::Writer, 4_000), b"again");
        let fields = list.bytes();
        let call = Call::write(VPD, 1, &fields, &list.values, room);
        compare.case("a key twice", &call, refused(8, count as u64), None);
    }

    // A field's number that needs more than 16 bits.
    for (key, number) in [(&b"A"[..], 8), (b"lab.rack", 7)] {
        compare.next_case();
        let mut list = List::default();
        for number in 0..70_000 {
            list.add(1, &vpd::numbered_key(Rule::Writer, number), &[]);
        }
        list.add(1, key, &[]);
        let fields = list.bytes();
        let call = Call::write(VPD, 2, &fields, &list.values, LONGEST);
        compare.case("many fields", &call, refused(number, 70_000), None);
    }
}
