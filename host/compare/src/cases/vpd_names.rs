//! The cases of 02, VPD names with dots: a reader takes any key of at least one byte, a writer only
//! those of the alphabet, and an edit keeps the key as it is.

use images::fields::List;
use images::image::{Entry, Format, Image, LONGEST};
use images::random::Random;
use images::vpd::{self, Rule};

use super::*;
use crate::comparison::hex;

/// The one entry of this image has the key "lab.rack" and the value "A7".
const LAB: &[u8] = b"\x01\x08lab.rack\x02A7\x00";

/// The writer's alphabet (01, VPD 2.0).
pub const ALPHABET: &[u8] = b"abcdefghijklmnopqrstuvwxyzABCDEFGHIJKLMNOPQRSTUVWXYZ0123456789_";

/// Keys that no writer takes. A comparison as text, up to a zero byte, without case or without marks
/// could confuse some, and some have the bytes of an end or of a whole entry.
const UNWRITTEN: [&[u8]; 32] = [
    b"lab.rack",
    b"Lab.rack",
    b"lab.racK",
    b"lab.rac",
    b"lab.rack.",
    b".lab.rack",
    b"lab.rack\x00",
    b"\x00lab.rack",
    b"lab.rack ",
    b"lab.\x00rack",
    b"lab-rack",
    b"lab/rack",
    b"lab\xAErack",
    b".",
    b"..",
    b"\x00",
    b"\x00\x00",
    b"\x00\x00\x00",
    b"\xFF",
    b"\xFF\xFF",
    b"\x7F",
    b"\x80",
    b"\x81",
    b"\"",
    b"\n",
    b"\xC3\x28",
    b"\xC3\xA9",
    b"e\xCC\x81",
    b"\xE9",
    b"\x01\x01A\x00",
    b"\xFE\x00\x04\x01\x02\x03\x04",
    b"\x80\x80\x80\x80",
];

/// The bytes of one entry, its lengths below 128.
fn entry(code: u8, key: &[u8], value: &[u8]) -> Vec<u8> {
    Entry::with_key(code, key.to_vec(), value.to_vec()).bytes(Format::Vpd)
}

/// An image of entries, as their bytes.
fn image(entries: &[Vec<u8>]) -> Vec<u8> {
    [&entries.concat()[..], &[0x00]].concat()
}

/// An image of 01h entries with these keys and empty values.
fn of_keys(keys: &[&[u8]]) -> Vec<u8> {
    let entries: Vec<Vec<u8>> = keys.iter().map(|key| entry(1, key, b"")).collect();
    image(&entries)
}

/// The record of a named 01h whose lengths have one byte each.
fn record_of(place: usize, key: &[u8], value: &[u8]) -> Vec<u8> {
    let [place, key, value] = [place, key.len(), value.len()].map(|number| number as u32);
    record(&[
        1,
        513,
        place,
        place + 2,
        key,
        place + 3 + key,
        value,
        3 + key + value,
    ])
}

/// What every call refuses, in all editions.
fn refused_image(compare: &mut Comparison, image: &[u8], number: u64, place: usize) {
    checked(compare, VPD, &hex(image), refused(number, place as u64));
}

/// Any key of at least one byte is read, and keys compare as bytes.
pub fn read(compare: &mut Comparison) {
    for edition in EDITIONS {
        let check = Call::check(VPD, edition, LAB);
        let lab = record_of(0, b"lab.rack", b"A7");
        listed(compare, &check, "lab.rack", &[lab]);
        compare.case("lab.rack", &check.list(0), refused(12, 0), None);
        compare.case("lab.rack", &check.entry(0, 63), refused(12, 0), None);
        compare.case("lab.rack", &check.string(0), refused(16, 0), None);

        let long_forms = b"\x01\x80\x80\x08lab.rack\x80\x02A7\xFFrest";
        let check = Call::check(VPD, edition, long_forms);
        let lab = record(&[1, 513, 0, 4, 8, 14, 2, 16]);
        listed(compare, &check, "lab.rack, long forms", &[lab]);

        let all = of_keys(&UNWRITTEN);
        let mut place = 0;
        let records = UNWRITTEN.map(|key| {
            place += 3 + key.len();
            record_of(place - 3 - key.len(), key, b"")
        });
        let check = Call::check(VPD, edition, &all);
        listed(compare, &check, "keys of any bytes", &records);
    }

    let all = of_keys(&UNWRITTEN);
    let (entries, place) = (&all[..all.len() - 1], all.len() - 1);
    for key in UNWRITTEN {
        // The key a second time: next to itself, after all others, and with another form of its
        // length.
        let first = entry(1, key, b"1");
        let second = entry(1, key, b"22");
        refused_image(compare, &image(&[first.clone(), second]), 8, first.len());
        let again = image(&[entries.to_vec(), entry(1, key, b"")]);
        refused_image(compare, &again, 8, place);
        let mut long_form = Entry::with_key(1, key.to_vec(), Vec::new());
        long_form.zero_groups = [3, 1];
        let again = image(&[entries.to_vec(), long_form.bytes(Format::Vpd)]);
        refused_image(compare, &again, 8, place);

        // An FEh may have any key, that of a 01h too, and does not come twice with it.
        let info = entry(0xFE, key, b"1234");
        for both in [[first.clone(), info.clone()], [info, first]] {
            checked(compare, VPD, &hex(&image(&both)), given(2));
        }
    }

    // An empty key, alone, in other forms, before and after a key that comes twice.
    for (image, number, place) in [
        (of_keys(&[b""]), 7, 0),
        (of_keys(&[b"", b""]), 7, 0),
        (b"\x01\x80\x80\x80\x00\x00\x00".to_vec(), 7, 0),
        (b"\x01\x80\x00\x04\x01\x01\x41\x00\x00".to_vec(), 7, 0),
        (of_keys(&[b"lab.rack", b""]), 7, 11),
        (of_keys(&[b".", b"", b"."]), 7, 4),
        (of_keys(&[b".", b".", b""]), 8, 4),
        (of_keys(&[b"-", b"k", b"/", b"k"]), 8, 12),
    ] {
        refused_image(compare, &image, number, place);
    }
    let infos = image(&[entry(0xFE, b"a.b", b"1234"), entry(0xFE, b"", b"1234")]);
    checked_in(compare, VPD, 1, &hex(&infos), given(2));
    checked_in(compare, VPD, 2, &hex(&infos), refused(8, 10));
}

/// An edit of an entry, and of the one next to it, keeps the bytes of its key.
pub fn edited(compare: &mut Comparison) {
    for edition in EDITIONS {
        compare.next_case();
        let check = Call::check(VPD, edition, LAB);
        for (value, made) in [
            (&b"B"[..], &b"\x01\x08lab.rack\x01B\x00\xFF\xFF"[..]),
            (b"", b"\x01\x08lab.rack\x00\x00\xFF\xFF\xFF"),
            (b"A7", b"\x01\x08lab.rack\x02A7\x00\xFF"),
            (b"1.3", b"\x01\x08lab.rack\x031.3\x00"),
        ] {
            let length = 12 + value.len();
            let call = check.edit(0, value, 15);
            compare.case("lab.rack edited", &call, given(length), Some(made));
            let call = check.edit(0, value, length - 1);
            compare.case("lab.rack edited", &call, refused(12, 0), None);
        }
        let call = check.edit(1, b"B", 15);
        compare.case("lab.rack edited", &call, refused(13, 0), None);

        // Of the edited entry the key's length stays as it is stored, and of the others everything.
        compare.next_case();
        let parts: [&[u8]; 4] = [
            b"\x01\x80\x08lab.rack\x80\x80\x01x",
            b"\x01\x03SKU\x02A7",
            b"\x01\x80\x80\x02\x00\xFF\x80\x00",
            b"\xFE\x03a.b\x04\x01\x02\x03\x04",
        ];
        let image = [&parts.concat()[..], b"\xFF after the end"].concat();
        let check = Call::check(VPD, edition, &image);
        for (n, value, part) in [
            (0, &b"yz"[..], &b"\x01\x80\x08lab.rack\x02yz"[..]),
            (1, b"B", b"\x01\x03SKU\x01B"),
            (2, b".", b"\x01\x80\x80\x02\x00\xFF\x01."),
            (3, b"4321", b"\xFE\x03a.b\x044321"),
        ] {
            let mut parts = parts;
            parts[n] = part;
            let made = [&parts.concat()[..], &[0x00]].concat();
            let call = check.edit(n as u64, value, made.len());
            if n == 3 && edition == 1 {
                compare.case("next to lab.rack", &call, refused(14, 31), None);
            } else {
                let length = given(made.len());
                compare.case("next to lab.rack", &call, length, Some(&made));
            }
        }
        let number = match edition {
            1 => 14,
            _ => 7,
        };
        let call = check.edit(3, b"432", 100);
        compare.case("a.b edited", &call, refused(number, 31), None);

        for key in UNWRITTEN {
            compare.next_case();
            let [old, new] = [&b"old"[..], b"newer"].map(|value| {
                let before = entry(1, b"before", b"\x00");
                [before, entry(1, key, value), entry(1, b"after", b"")]
            });
            let (old, new) = (self::image(&old), self::image(&new));
            let check = Call::check(VPD, edition, &old);
            let call = check.edit(1, b"newer", new.len());
            compare.case("any key edited", &call, given(new.len()), Some(&new));
        }
    }
}

/// A write refuses a key outside the alphabet at its field's number, and so an empty one.
pub fn written(compare: &mut Comparison) {
    let good: [(u32, &[u8], &[u8]); 4] = [
        (1, b"a", b"1"),
        (1, b"B_9", b""),
        (1, b"_", b"."),
        (1, b"0Z", b"4"),
    ];
    let listed = |fields: &[(u32, &[u8], &[u8])]| {
        let mut list = List::default();
        for &(code, key, value) in fields {
            list.add(code, key, value);
        }
        (list.bytes(), list.values)
    };
    for edition in EDITIONS {
        for key in UNWRITTEN.into_iter().chain([&b""[..]]) {
            for number in 0..=good.len() {
                compare.next_case();
                let mut write = |fields: &[(u32, &[u8], &[u8])], room, answer| {
                    let (fields, values) = listed(fields);
                    let call = Call::write(VPD, edition, &fields, &values, room);
                    compare.case("a key that no writer takes", &call, answer, None);
                };
                let refusal = refused(7, number as u64);
                let mut fields = good.to_vec();
                fields.insert(number, (1, key, b"v"));
                write(&fields, 100, refusal);
                // It comes before what is wrong with later fields, and before 12.
                fields.insert(number + 1, (1, key, b"v"));
                fields.push((2, b"k", b""));
                write(&fields, 100, refusal);
                write(&fields, 0, refusal);
                // It comes after what is wrong with a field before it.
                fields.insert(0, (1, b"twice", b""));
                fields.insert(1, (1, b"twice", b""));
                write(&fields, 100, refused(8, 1));
            }
        }

        // A part outside the values comes first.
        compare.next_case();
        let (mut fields, values) = listed(&[(1, b"a.b", b"v")]);
        fields[16] = 2;
        let call = Call::write(VPD, edition, &fields, &values, 20);
        compare.case("13, then 7", &call, refused(13, 0), None);
        // A key that is too long for the output is still 7.
        let (fields, values) = listed(&[(1, &[b'.'; 70_000], b"")]);
        let call = Call::write(VPD, edition, &fields, &values, LONGEST);
        compare.case("7, then 12", &call, refused(7, 0), None);

        // A second FEh whose value is wrong is 7, and else 8, whatever the keys.
        if edition > 1 {
            for (key, value, number) in [
                (&b"a.b"[..], &b"123"[..], 7),
                (b"a.b", b"1234", 8),
                (b"", b"1234", 8),
            ] {
                compare.next_case();
                let (fields, values) = listed(&[(0xFE, b"a.b", b"1234"), (0xFE, key, value)]);
                let call = Call::write(VPD, edition, &fields, &values, 100);
                compare.case("7, then 8", &call, refused(number, 1), None);
                let image = image(&[entry(0xFE, b"a.b", b"1234"), entry(0xFE, key, value)]);
                checked_in(compare, VPD, edition, &hex(&image), refused(number, 10));
            }
        }

        // An FEh is written with any key, and none.
        for key in UNWRITTEN.into_iter().chain([&b""[..], b"gVpdInfo"]) {
            compare.next_case();
            let (fields, values) = listed(&[(0xFE, key, b"1234"), (1, b"k", b"")]);
            let made = image(&[entry(0xFE, key, b"1234"), entry(1, b"k", b"")]);
            let call = Call::write(VPD, edition, &fields, &values, made.len());
            match edition {
                1 => compare.case("FEh", &call, refused(14, 0), None),
                _ => compare.case("FEh", &call, given(made.len()), Some(&made)),
            }
        }
    }
}

/// Each byte alone, and at the start, in the middle and at the end of a key: read by every call and
/// edited, and written exactly where it is of the alphabet.
pub fn every_key_byte(compare: &mut Comparison) {
    for byte in 0..=255 {
        for key in [
            &[byte][..],
            &[byte, b'k', b'k'],
            &[b'k', byte, b'k'],
            &[b'k', b'k', byte],
        ] {
            let what = format!("key {}", hex(key));
            let [before, after] = [b"b", b"a"].map(|key| entry(1, key, b""));
            let whole = |value: &[u8]| {
                let entries = [before.clone(), entry(1, key, value), after.clone()];
                image(&entries)
            };
            // The keys next to it are other keys, unless it is one of them.
            let twice = match key {
                b"b" => Some(4),
                b"a" => Some(9),
                _ => None,
            };
            let (old, new) = (whole(b"v"), whole(b"new"));
            let mut list = List::default();
            list.add(1, b"b", b"");
            list.add(1, key, b"v");
            list.add(1, b"a", b"");
            let fields = list.bytes();
            for edition in EDITIONS {
                if let Some(place) = twice {
                    checked_in(compare, VPD, edition, &hex(&old), refused(8, place));
                } else {
                    let records = [
                        record_of(0, b"b", b""),
                        record_of(4, key, b"v"),
                        record_of(8 + key.len(), b"a", b""),
                    ];
                    let check = Call::check(VPD, edition, &old);
                    listed(compare, &check, &what, &records);
                    let call = check.edit(1, b"new", new.len());
                    compare.case(&what, &call, given(new.len()), Some(&new));
                }
                compare.next_case();
                let call = Call::write(VPD, edition, &fields, &list.values, old.len());
                match twice {
                    _ if !ALPHABET.contains(&byte) => {
                        compare.case(&what, &call, refused(7, 1), None)
                    }
                    Some(4) => compare.case(&what, &call, refused(8, 1), None),
                    Some(_) => compare.case(&what, &call, refused(8, 2), None),
                    None => compare.case(&what, &call, given(old.len()), Some(&old)),
                }
            }
        }
    }

    // Every pair of keys of one byte: the same key exactly where it is the same byte.
    for first in 0..=255 {
        compare.next_case();
        for second in 0..=255 {
            let image = of_keys(&[&[first], &[second]]);
            let answer = match first == second {
                true => refused(8, 4),
                false => given(2),
            };
            for edition in EDITIONS {
                let check = Call::check(VPD, edition, &image);
                compare.case("two keys", &check, answer, None);
            }
        }
    }
}

/// From one key to hundreds, in order and not: all distinct, and the last the same as another.
pub fn numbers_of_keys(compare: &mut Comparison) {
    let mut random = Random::of_input(0, 2, 0);
    for count in (1..=8).chain(126..=132).chain(510..=516) {
        for in_order in [true, false] {
            let mut entries = vpd::distinct(Rule::Reader, count);
            if !in_order {
                random.shuffle(&mut entries);
            }
            let last = count - 1;
            let before_last = Image::new(Format::Vpd, entries[..last].to_vec()).bytes();
            let place = before_last.len() as u64 - 1;
            for edition in EDITIONS {
                compare.next_case();
                let all = Image::new(Format::Vpd, entries.clone()).bytes();
                let check = Call::check(VPD, edition, &all);
                compare.case("distinct keys", &check, given(count), None);
                compare.call(&check.list(count * RECORD));
                compare.call(&check.edit(last as u64, b"value", all.len() + 5));
                for other in (0..last).step_by(1 + count / 100) {
                    let mut entries = entries.clone();
                    entries[last].key = entries[other].key.clone();
                    let image = Image::new(Format::Vpd, entries).bytes();
                    let check = Call::check(VPD, edition, &image);
                    compare.case("a key twice", &check, refused(8, place), None);
                }
            }
        }
    }
}
