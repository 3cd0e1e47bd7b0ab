//! The cases of 02, Entries remember their whole frame.

use images::fields::List;
use images::generate::{large, valid};
use images::image::{around as image, Entry, Format, Image, FORMATS, LONGEST};
use images::random::Random;

use super::onie::SWITCH;
use super::scope::every_tag_image;
use super::sources::{fboss_example_image, vpd_example_image};
use super::*;
use crate::call::count;
use crate::comparison::BLOCK;

/// 000's example: code, length byte and value.
const FBOSS_EXAMPLE: [usize; 20] = [
    15, 10, 10, 14, 14, 14, 15, 3, 3, 3, 15, 9, 10, 7, 11, 9, 10, 10, 10, 10,
];

/// 002's example: type, two length bytes, key and value.
const VPD_EXAMPLE: [usize; 3] = [23, 24, 21];

/// Every named tag of Tiny, of which the pool alone has a length byte.
const EVERY_TAG: [usize; 8] = [2, 2, 7, 7, 7, 9, 9, 11];

/// The switch: code, length byte and value.
const SWITCH_FRAMES: [usize; 13] = [27, 25, 12, 8, 21, 3, 17, 9, 4, 14, 4, 8, 31];

/// The frames of an image in all editions that have its format and accept it, alone and with bytes after
/// the end. The first edition of the format does.
fn held(compare: &mut Comparison, what: &str, format: Format, image: &[u8], lengths: &[usize]) {
    for &edition in format.editions() {
        compare.next_case();
        for after in [&b""[..], b"\x01\x01k\x01v\x00", &[0xFF; 70]] {
            let image = [image, after].concat();
            let check = Call::check(format.number(), edition, &image);
            let (answer, _) = compare.call(&check);
            if edition == format.editions()[0] || answer >> 59 == 0 {
                compare.frames_case(what, &check, lengths);
            }
        }
    }
}

/// Edition 4 is known, for every format, and edition 5 is not, in any call: 1, after 16 for a format that
/// there is not, for a string outside Tiny and for a vendor call outside ONIE, and before all else.
pub fn known(compare: &mut Comparison) {
    let mut fields = List::default();
    fields.add(1, b"SKU", b"A7");
    let field_bytes = fields.bytes();
    let pieces = 17_u32.to_le_bytes();
    let long = vec![0; LONGEST + 1];
    for (format, image, lengths) in [
        (Format::Fboss, fboss_example_image(), &FBOSS_EXAMPLE[..]),
        (Format::Vpd, vpd_example_image(), &VPD_EXAMPLE),
        (Format::Tiny, every_tag_image(), &EVERY_TAG),
        (Format::Onie, SWITCH.to_vec(), &SWITCH_FRAMES),
    ] {
        compare.next_case();
        let number = format.number();
        let check = Call::check(number, 4, &image);
        compare.case("edition 4", &check, given(lengths.len()), None);
        compare.frames_case("edition 4", &check, lengths);
        for edition in [0, 5, 6, 255, 256, 260, 1 << 16 | 4, 1 << 31 | 4, u32::MAX] {
            for image in [&image[..], b"", &long] {
                compare.next_case();
                let what = "an unknown edition";
                let refusal = refused(1, 0);
                let refused_unless = |has: bool| if has { refusal } else { refused(16, 0) };
                let check = Call::check(number, edition, image);
                let walk = walk_bytes(number, edition, 0);
                compare.case(what, &check, refusal, None);
                compare.case(what, &check.value(0), refusal, None);
                let of_string = refused_unless(format == Format::Tiny);
                compare.case(what, &check.string(0), of_string, None);
                for room in [0, 63, RECORD, 20 * RECORD] {
                    compare.case(what, &check.list(room), refusal, None);
                    compare.case(what, &check.entry(0, room), refusal, None);
                    compare.case(what, &check.step(&walk, room), refusal, None);
                }
                for room in [0, 300, LONGEST + 1] {
                    let values = &fields.values;
                    let write = Call::write(number, edition, &field_bytes, values, room);
                    compare.case(what, &write, refusal, None);
                    compare.case(what, &check.edit(0, b"A7", room), refusal, None);
                    compare.case(what, &check.add(&field_bytes, values, room), refusal, None);
                    compare.case(what, &check.remove(0, room), refusal, None);
                    let of_vendor = refused_unless(format == Format::Onie);
                    let read = check.vendor_read(room, BLOCK);
                    compare.vendor_case(what, &read, of_vendor, [&[], &[]]);
                    let write = Call::vendor_write(number, edition, b"S", 0, &pieces, room);
                    compare.vendor_case(what, &write, of_vendor, [&[], &[]]);
                }
            }
        }
        for edition in [4, 5] {
            for format in [0, 5, 256 + number, u32::MAX] {
                let check = Call::check(format, edition, &image);
                compare.case("no format", &check, refused(16, 0), None);
            }
        }
    }
}

/// Images of every format whose frame lengths are worked out by hand.
pub fn examples(compare: &mut Comparison) {
    use Format::{Fboss, Onie, Tiny, Vpd};
    held(
        compare,
        "000",
        Fboss,
        &fboss_example_image(),
        &FBOSS_EXAMPLE,
    );
    held(compare, "002", Vpd, &vpd_example_image(), &VPD_EXAMPLE);
    held(compare, "tags", Tiny, &every_tag_image(), &EVERY_TAG);
    held(compare, "switch", Onie, SWITCH, &SWITCH_FRAMES);

    // No entries: the end is where the first would be.
    held(compare, "none", Vpd, b"\x00", &[]);
    held(compare, "none", Vpd, b"\xFF", &[]);
    held(compare, "none", Tiny, &bytes("56 02 04 6F"), &[]);
    held(compare, "none", Onie, &image(Onie, b""), &[]);

    // Values with the bytes of an end in them, of the longest kind and with nothing.
    let mut fboss = b"\x01\x04\x20~ ~\x08\x01\xFA\x09\x01\x02\x0A\x01\x00\x0B\x00\xC8\x04\xFA\x02\xFA\x02\xF9\x00\x15\xFF".to_vec();
    fboss.extend([0xFA; 255]);
    let lengths = [6, 3, 3, 3, 2, 6, 2, 257];
    held(compare, "FBOSS", Fboss, &image(Fboss, &fboss), &lengths);

    let mut tiny = b"\x10\x07\x03\x00\x0F\x02\xF0\x00\x60\x01\x02\x03\x04\x05\x06".to_vec();
    tiny.push(0xF1);
    tiny.extend([0x00; 15]);
    tiny.extend(b"\x1F\x00\x01\x00");
    let lengths = [2, 2, 4, 7, 16, 2, 2];
    held(compare, "Tiny", Tiny, &image(Tiny, &tiny), &lengths);
    // Tags without a length byte from one value byte to 15, and those with one.
    let mut tiny = Vec::new();
    for length in 1..=15 {
        tiny.push(length << 4 | 0x0A);
        tiny.extend(vec![length; length.into()]);
    }
    for length in [0, 1, 15, 16, 17] {
        tiny.extend([0x0A, length]);
        tiny.extend(vec![0x0A; length.into()]);
    }
    let lengths = [
        2, 3, 4, 5, 6, 7, 8, 9, 10, 11, 12, 13, 14, 15, 16, 2, 3, 17, 18, 19,
    ];
    held(compare, "tag lengths", Tiny, &image(Tiny, &tiny), &lengths);
    let pool = [&[0x01, 249][..], &[0xFF; 249]].concat();
    held(compare, "longest pool", Tiny, &image(Tiny, &pool), &[251]);
    let many = [0x02, 0].repeat(125);
    held(compare, "125", Tiny, &image(Tiny, &many), &[2; 125]);

    let mut onie =
        b"\x2D\x00\x2C\x02CZ\x99\x00\xFD\x06\xFE\x04\xFE\x04\xFE\x04\x21\x01A\x30\xFF".to_vec();
    onie.extend([0xFE; 255]);
    let lengths = [2, 4, 2, 8, 3, 257];
    held(compare, "ONIE", Onie, &image(Onie, &onie), &lengths);

    // 01's two examples, a key's length in two bytes, and an info header, with a key and without.
    held(compare, "SKU", Vpd, b"\x01\x03SKU\x02A7\x00", &[8]);
    held(compare, "80 01", Vpd, b"\x01\x80\x01A\x00\x00", &[5]);
    held(compare, "FE", Vpd, b"\xFE\x01A\x03\x01\x02\x03\x00", &[7]);
    held(
        compare,
        "FE",
        Vpd,
        b"\xFE\x00\x04\x01\x02\x03\x04\xFF",
        &[7],
    );
    held(compare, "FE", Vpd, b"\xFE\x00\x00\xFE\x00\x00\x00", &[3, 3]);
    let zeros = b"\xFE\x80\x80\x80\x00\x80\x80\x80\x00\x01\x01A\x00\x00";
    held(compare, "FE 80 80 80 00", Vpd, zeros, &[9, 4]);
    let mixed = b"\x01\x80\x08lab.rack\x80\x80\x01x\x01\x03SKU\x02A7\
        \x01\x80\x80\x02\x00\xFF\x80\x00\xFE\x80\x80\x80\x03a.b\x80\x80\x80\x04\x01\x02\x03\x04\
        \x01\x01\x01\x01\x01\x00";
    held(compare, "mixed", Vpd, mixed, &[15, 8, 8, 16, 5]);
    // The longest frame that there is: all of an image but its end.
    let mut longest = b"\x01\x01k\x83\xFF\x79".to_vec();
    longest.resize(LONGEST - 1, 0x00);
    longest.push(0x00);
    for edition in EDITIONS {
        compare.next_case();
        let check = Call::check(VPD, edition, &longest);
        compare.frames_case("the longest frame", &check, &[65_535]);
    }
}

/// An edit of an image, and the frames of what it makes: of the whole output and of its part up to the
/// length given, in all editions that accept it.
fn held_edit(
    compare: &mut Comparison,
    what: &str,
    (format, image): (Format, &[u8]),
    (n, value): (u64, &[u8]),
    lengths: &[usize],
) {
    for &edition in format.editions() {
        compare.next_case();
        let check = Call::check(format.number(), edition, image);
        for more in [0, 1, 70] {
            let room = crate::frames::header(check.format) + lengths.iter().sum::<usize>() + more;
            let room = room + end_length(format);
            let edit = check.edit(n, value, room);
            let (answer, made) = compare.call(&edit);
            if answer != given(room - more) {
                compare.case(what, &edit, given(room - more), None);
                continue;
            }
            for made in [&made[..], &made[..count(answer)]] {
                for &edition in format.editions() {
                    let check = Call::check(format.number(), edition, made);
                    compare.frames_case(what, &check, lengths);
                }
            }
        }
    }
}

/// How many bytes the end of a format has.
fn end_length(format: Format) -> usize {
    match format {
        Format::Fboss => 4,
        Format::Vpd | Format::Tiny => 1,
        Format::Onie => 6,
    }
}

/// Edits of images of every format. What stands before and after the entry keeps its frame.
pub fn edited(compare: &mut Comparison) {
    use Format::{Fboss, Onie, Tiny, Vpd};
    let text = [b'x'; 255];
    let fboss = image(
        Fboss,
        b"\xF9\x02\x00\x00\x01\x03abc\x08\x01\x04\x09\x01\x05\x0A\x01\x06\x0B\x00\xC8\x01\x00",
    );
    for (n, value, lengths) in [
        (1, &b""[..], [4, 2, 3, 3, 3, 2, 3]),
        (1, b"abc", [4, 5, 3, 3, 3, 2, 3]),
        (1, b"abcd", [4, 6, 3, 3, 3, 2, 3]),
        (1, &text, [4, 257, 3, 3, 3, 2, 3]),
        (2, b"\xFA", [4, 5, 3, 3, 3, 2, 3]),
        (5, b"serial", [4, 5, 3, 3, 3, 8, 3]),
        (5, &text, [4, 5, 3, 3, 3, 257, 3]),
    ] {
        held_edit(compare, "FBOSS", (Fboss, &fboss), (n, value), &lengths);
    }
    let tiny = image(Tiny, b"\x03\x00\x10\x02\x11\x0F\x2A\x00\x00\x01\x03ABC");
    for (n, value, lengths) in [
        (1, &b"\x09"[..], [2, 2, 2, 3, 5]),
        (2, b"\xF0", [2, 2, 2, 3, 5]),
        (4, b"", [2, 2, 2, 3, 2]),
        (4, b"ABCD", [2, 2, 2, 3, 6]),
        (4, &text[..240], [2, 2, 2, 3, 242]),
    ] {
        held_edit(compare, "Tiny", (Tiny, &tiny), (n, value), &lengths);
    }
    let onie = image(
        Onie,
        b"\x99\x01\xFE\x21\x03abc\xFD\x04\xFE\x04\xFE\x04\x2D\x00",
    );
    for (n, value, lengths) in [
        (1, &b""[..], [3, 2, 6, 2]),
        (1, &text, [3, 257, 6, 2]),
        (2, b"\xFE\x04\xFE\x04\xFE", [3, 5, 7, 2]),
        (2, &text, [3, 5, 257, 2]),
        (3, b"v", [3, 5, 6, 3]),
        (3, &text, [3, 5, 6, 257]),
    ] {
        held_edit(compare, "ONIE", (Onie, &onie), (n, value), &lengths);
    }
    // The value's length becomes the shortest, and the key's stays as it is stored.
    let vpd = b"\x01\x80\x80\x01A\x80\x80\x80\x02xy\x01\x01B\x80\x00\x01\x80\x02CD\x01z\xFFafter";
    for (n, value, lengths) in [
        (0, &b"xy"[..], [8, 5, 7]),
        (0, b"", [6, 5, 7]),
        (0, &[0x00; 127], [133, 5, 7]),
        (0, &[0xFF; 128], [135, 5, 7]),
        (0, &[0x01; 16_383], [16_390, 5, 7]),
        (0, &[0x00; 16_384], [16_392, 5, 7]),
        (1, b"", [11, 4, 7]),
        (1, b"1", [11, 5, 7]),
        (1, &[0x00; 127], [11, 131, 7]),
        (1, &[0x00; 128], [11, 133, 7]),
        (2, b"z", [11, 5, 7]),
        (2, b"", [11, 5, 6]),
        (2, &[0x00; 128], [11, 5, 135]),
    ] {
        held_edit(compare, "VPD", (Vpd, vpd), (n, value), &lengths);
    }
    // An info header, which edition 1 does not edit, beside an entry that it does.
    let vpd = b"\xFE\x80\x00\x80\x04\x01\x02\x03\x04\x01\x01A\x80\x80\x01x\x00";
    held_edit(compare, "beside FE", (Vpd, vpd), (1, b"y"), &[9, 5]);
    for edition in [2, 3, 4] {
        compare.next_case();
        let edit = Call::check(VPD, edition, vpd).edit(0, b"4321", 99);
        let (answer, made) = compare.call(&edit);
        compare.case("FE", &edit, given(16), None);
        let check = Call::check(VPD, edition, &made[..count(answer)]);
        compare.frames_case("FE", &check, &[8, 7]);
    }
}

/// The bytes of a VPD length in so many bytes: zero groups (80h) stand before its own.
fn in_bytes(bytes: usize, length: usize) -> Vec<u8> {
    let groups = [length >> 21, length >> 14, length >> 7, length];
    let mut stored: Vec<u8> = groups[4 - bytes..]
        .iter()
        .map(|group| (group % 128 + 128) as u8)
        .collect();
    stored[bytes - 1] -= 128;
    stored
}

/// The lengths that the sweeps of stored forms take, with the fewest bytes that hold each.
const LENGTHS: [(usize, usize); 12] = [
    (0, 1),
    (1, 1),
    (4, 1),
    (126, 1),
    (127, 1),
    (128, 2),
    (129, 2),
    (300, 2),
    (16_383, 2),
    (16_384, 3),
    (16_385, 3),
    (30_000, 3),
];

/// One VPD entry whose lengths are stored in so many bytes each.
fn stored_in(code: u8, [key_bytes, value_bytes]: [usize; 2], key: &[u8], value: &[u8]) -> Vec<u8> {
    let key_length = in_bytes(key_bytes, key.len());
    let value_length = in_bytes(value_bytes, value.len());
    [&[code], &key_length[..], key, &value_length, value].concat()
}

/// Key and value lengths in each form that can hold them, of a 01h and of an FEh, alone, before an entry,
/// after one and between two.
pub fn vpd_lengths(compare: &mut Comparison) {
    let (first, last) = (
        &b"\x01\x80\x02SK\x80\x80\x00"[..],
        &b"\x01\x01S\x80\x80\x80\x01s"[..],
    );
    for (key_length, key_shortest) in LENGTHS {
        for (value_length, value_shortest) in LENGTHS {
            let key = vec![b'k'; key_length];
            let value = vec![0x81; value_length];
            for key_bytes in key_shortest..=4 {
                for value_bytes in value_shortest..=4 {
                    compare.next_case();
                    let frame = 1 + key_bytes + key_length + value_bytes + value_length;
                    for code in [0x01, 0xFE] {
                        let one = stored_in(code, [key_bytes, value_bytes], &key, &value);
                        for (before, after, lengths) in [
                            (&b""[..], &b""[..], &[frame][..]),
                            (b"", last, &[frame, 8]),
                            (first, b"", &[8, frame]),
                            (first, last, &[8, frame, 8]),
                        ] {
                            let image = [before, &one, after, b"\x00"].concat();
                            // An empty key breaks the rule of 01h, and a value of another length FEh's.
                            let kept = match code {
                                0x01 => key_length > 0,
                                _ => value_length == 4,
                            };
                            for edition in EDITIONS {
                                let check = Call::check(VPD, edition, &image);
                                if kept || (code == 0xFE && edition == 1) {
                                    compare.frames_case("lengths", &check, lengths);
                                } else {
                                    let refusal = refused(7, before.len() as u64);
                                    compare.case("lengths", &check, refusal, None);
                                }
                            }
                        }
                    }
                }
            }
        }
    }
}

/// Edits of entries whose lengths are stored in each form: the key's stays, the value's is the shortest,
/// and the frames around stay.
pub fn vpd_edits(compare: &mut Comparison) {
    for key_bytes in 1..=4 {
        for value_bytes in 1..=4 {
            let one = stored_in(0x01, [key_bytes, value_bytes], b"KEY", b"old");
            let before = stored_in(0x01, [value_bytes, key_bytes], b"before", b"");
            let after = stored_in(0x01, [4, value_bytes], b"after", b"a");
            let image = [&before[..], &one, &after, b"\xFF"].concat();
            let around = [7 + value_bytes + key_bytes, 11 + value_bytes];
            for (length, shortest) in LENGTHS {
                let value = vec![0x82; length];
                let frame = 4 + key_bytes + shortest + length;
                let lengths = [around[0], frame, around[1]];
                held_edit(
                    compare,
                    "stored forms edited",
                    (Format::Vpd, &image),
                    (1, &value),
                    &lengths,
                );
            }
        }
    }
}

/// A value of every length that a format's one length byte holds: read, written and edited.
pub fn value_lengths(compare: &mut Comparison) {
    for length in 0..=255 {
        let value = vec![b'~'; length];
        let entries = [
            (
                Format::Fboss,
                200,
                0x0B,
                &b"\x01\x00\x08\x01\x01\x09\x01\x01\x0A\x01\x01"[..],
                &[2, 3, 3, 3][..],
            ),
            (Format::Tiny, 0x02, 0x01, b"\x10\x01", &[2]),
            (Format::Onie, 0x30, 0x2D, b"\x21\x01n", &[3]),
        ];
        for (format, unnamed, code, first, lengths) in entries {
            if format == Format::Tiny && length > 200 {
                continue;
            }
            let with = |value: &[u8]| {
                let middle = Entry::new(unnamed, b"u".to_vec()).bytes(format);
                let last = Entry::new(code, value.to_vec()).bytes(format);
                image(format, &[first, &middle, &last].concat())
            };
            let all = [lengths, &[3, 2 + length]].concat();
            held(compare, "every length", format, &with(&value), &all);
            let n = lengths.len() as u64 + 1;
            held_edit(
                compare,
                "every length",
                (format, &with(b"old")),
                (n, &value),
                &all,
            );
            // An unnamed entry of that length.
            let last = Entry::new(unnamed, value.clone()).bytes(format);
            let named = Entry::new(code, b"o".to_vec()).bytes(format);
            let order = match format {
                // Nothing comes after the pool.
                Format::Tiny => [first, &last, &named].concat(),
                _ => [first, &named, &last].concat(),
            };
            let all = match format {
                Format::Tiny => [lengths, &[2 + length, 3]].concat(),
                _ => [lengths, &[3, 2 + length]].concat(),
            };
            held(
                compare,
                "every length",
                format,
                &image(format, &order),
                &all,
            );
        }
        // Written: each field's frame is as short as it can be.
        compare.next_case();
        let mut list = List::default();
        list.add(1, b"a", &value);
        list.add(1, &vec![b'k'; length + 1], b"v");
        let fields = list.bytes();
        let shortest = |length: usize| if length < 128 { 1 } else { 2 };
        let lengths = [
            3 + shortest(length) + length,
            3 + shortest(length + 1) + length + 1,
        ];
        for edition in EDITIONS {
            let room = lengths[0] + lengths[1] + 1;
            for more in [0, 9] {
                let write = Call::write(VPD, edition, &fields, &list.values, room + more);
                let (_, made) = compare.call(&write);
                compare.case("written", &write, given(room), None);
                let check = Call::check(VPD, edition, &made);
                compare.frames_case("written", &check, &lengths);
            }
        }
    }
}

/// Generated images, whose frames are as long as the bytes that they were made of.
pub fn generated(compare: &mut Comparison) {
    let hold = |compare: &mut Comparison, image: &Image| {
        let lengths: Vec<usize> = image
            .entries
            .iter()
            .map(|entry| entry.bytes(image.format).len())
            .collect();
        let bytes = image.bytes();
        for &edition in image.format.editions() {
            let check = Call::check(image.format.number(), edition, &bytes);
            let (answer, _) = compare.call(&check);
            if answer >> 59 == 0 {
                compare.frames_case("generated", &check, &lengths);
            }
        }
    };
    for format in FORMATS {
        for input in 0..500 {
            compare.next_case();
            let mut random = Random::of_input(6, format.number(), input);
            let image = valid(&mut random, format);
            if image.bytes().len() <= 8_192 {
                hold(compare, &image);
            }
        }
    }
    // Large ones are listed alone: entry by entry takes long.
    for format in FORMATS {
        for input in 0..4 {
            compare.next_case();
            let mut random = Random::of_input(7, format.number(), input);
            let image = large(&mut random, format);
            let bytes = image.bytes();
            for &edition in format.editions() {
                let check = Call::check(format.number(), edition, &bytes);
                let (answer, _) = compare.call(&check);
                if answer >> 59 == 0 {
                    compare.call(&check.list(count(answer) * RECORD));
                }
            }
        }
    }
}
