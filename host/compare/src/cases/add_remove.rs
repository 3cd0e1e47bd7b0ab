//! The cases of 02, Add and remove fields.

use images::fields::List;
use images::generate::{kept, named};
use images::image::{around, Entry, Format, Image, FORMATS, LONGEST};
use images::onie::EXTENSION;
use images::random::Random;
use images::vpd::{self, Rule};

use super::onie::SWITCH;
use super::scope::{every_tag_image, SKU};
use super::sources::{fboss_example_image, vpd_example_image};
use super::vpd_names::ALPHABET;
use super::*;
use crate::call::count;
use crate::changes::ended;

/// A field's code, key and value.
type Part<'a> = (u32, &'a [u8], &'a [u8]);

/// The editions that have an address block in FBOSS, an info header in VPD and a batch in Tiny.
const FROM_TWO: [u32; 3] = [2, 3, 4];

/// The required fields of FBOSS, texts empty.
const REQUIRED: &[u8] = b"\x01\x00\x08\x01\x01\x09\x01\x01\x0A\x01\x01\x0B\x00";

/// A pool of two strings and an unfinished tail.
const POOL: &[u8] = b"\x01\x04A\xC2\xC3D";

/// The bytes of a field, and the values in which its parts lie.
fn lent((code, key, value): Part) -> (Vec<u8>, Vec<u8>) {
    let mut list = List::default();
    list.add(code, key, value);
    (list.bytes(), list.values)
}

/// The bytes of a field from its words.
fn words(words: [u32; 5]) -> Vec<u8> {
    words.into_iter().flat_map(u32::to_le_bytes).collect()
}

/// A call that makes this image: into an output as long as it, into longer ones, where FFh follows, and into
/// shorter ones.
fn makes(compare: &mut Comparison, what: &str, call: &Call, made: &[u8]) {
    for more in [0, 1, 40] {
        let out = [made, &vec![0xFF; more]].concat();
        if out.len() <= LONGEST {
            let room = out.len();
            compare.case(what, &Call { room, ..*call }, given(made.len()), Some(&out));
        }
    }
    for room in [made.len() - 1, 0] {
        compare.case(what, &Call { room, ..*call }, refused(12, 0), None);
    }
}

/// An add to an image makes another, in these editions.
fn adds(
    compare: &mut Comparison,
    format: Format,
    editions: &[u32],
    image: &[u8],
    part: Part,
    made: &[u8],
) {
    let (field, values) = lent(part);
    for &edition in editions {
        compare.next_case();
        let call = Call::check(format.number(), edition, image).add(&field, &values, 0);
        makes(compare, "added", &call, made);
    }
}

/// A removal from an image makes another, in these editions.
fn removes(
    compare: &mut Comparison,
    format: Format,
    editions: &[u32],
    image: &[u8],
    n: u64,
    made: &[u8],
) {
    for &edition in editions {
        compare.next_case();
        let call = Call::check(format.number(), edition, image).remove(n, 0);
        makes(compare, "removed", &call, made);
    }
}

/// An add is refused with this number at place 0, whatever the room.
fn add_refused(
    compare: &mut Comparison,
    format: Format,
    editions: &[u32],
    image: &[u8],
    part: Part,
    number: u64,
) {
    let (field, values) = lent(part);
    for &edition in editions {
        compare.next_case();
        let check = Call::check(format.number(), edition, image);
        for room in [0, image.len(), LONGEST] {
            let call = check.add(&field, &values, room);
            compare.case("refused", &call, refused(number, 0), None);
        }
    }
}

/// A removal is refused so, whatever the room.
fn remove_refused(
    compare: &mut Comparison,
    format: Format,
    editions: &[u32],
    image: &[u8],
    n: u64,
    (number, place): (u64, u64),
) {
    for &edition in editions {
        compare.next_case();
        let check = Call::check(format.number(), edition, image);
        for room in [0, image.len(), LONGEST] {
            let call = check.remove(n, room);
            compare.case("refused", &call, refused(number, place), None);
        }
    }
}

/// Images of every format and a field that may be added to each.
fn images() -> [(Format, Vec<u8>, Part<'static>); 4] {
    [
        (
            Format::Fboss,
            around(Format::Fboss, REQUIRED),
            (12, b"", b"N"),
        ),
        (Format::Vpd, bytes(SKU), (1, b"rev", b"B")),
        (
            Format::Tiny,
            around(Format::Tiny, POOL),
            (0x11, b"", b"\x0F"),
        ),
        (Format::Onie, SWITCH.to_vec(), (0xFD, b"", b"1234")),
    ]
}

/// 16, then 1, then 2 for image and output, then the image's own at their places, whatever field and number
/// are: right ones, wrong ones, and a field that is cut short.
pub fn known(compare: &mut Comparison) {
    let long = vec![0; LONGEST + 1];
    let far = words([u32::MAX; 5]);
    for (format, image, part) in images() {
        let (field, values) = lent(part);
        let number = format.number();
        let mut refuse = |format: u32, edition: u32, image: &[u8], room: usize, answer: u64| {
            compare.next_case();
            let check = Call::check(format, edition, image);
            for field in [&field[..], &far, &field[..19], b""] {
                let add = check.add(field, &values, room);
                compare.case("before the field", &add, answer, None);
            }
            for n in [0, 99, u64::MAX] {
                let remove = check.remove(n, room);
                compare.case("before the number", &remove, answer, None);
            }
        };
        let format_and_edition = [0, 5, 256 + number, 1 << 31, u32::MAX];
        for room in [0, 300, LONGEST + 1] {
            for image in [&image[..], b"", &long] {
                for format in format_and_edition {
                    for edition in [0, 1, 4, 5] {
                        refuse(format, edition, image, room, refused(16, 0));
                    }
                }
                for edition in [0, 5, 260, u32::MAX] {
                    refuse(number, edition, image, room, refused(1, 0));
                }
                if format == Format::Onie {
                    for edition in [1, 2] {
                        refuse(number, edition, image, room, refused(16, 0));
                    }
                }
            }
        }
        for &edition in format.editions() {
            refuse(number, edition, &image, LONGEST + 1, refused(2, 0));
            refuse(number, edition, b"", LONGEST + 1, refused(2, 0));
            for room in [0, 300, LONGEST, LONGEST + 1] {
                refuse(number, edition, &long, room, refused(2, 0));
            }
            let short = match format {
                Format::Vpd => refused(5, 0),
                _ => refused(3, 0),
            };
            for room in [0, 300, LONGEST] {
                refuse(number, edition, b"", room, short);
            }
        }
    }
    // 3 to 11, each at its place.
    let end = "FA 02 00 00";
    for (format, image, answer) in [
        (FBOSS, "FB FA 05 FF", refused(3, 0)),
        (FBOSS, "FB FB 04 FF", refused(4, 0)),
        (FBOSS, "FB FB 05 FF 01 02 41", refused(5, 4)),
        (FBOSS, "FB FB 05 FF 00", refused(6, 4)),
        (FBOSS, "FB FB 05 FF FA 02 1D 0F", refused(10, 6)),
        (FBOSS, "FB FB 05 FF FA 02 7D E4", refused(11, 0)),
        (FBOSS, &format!("FB FB 05 FF 01 00 {end}"), refused(10, 8)),
        (VPD, "01 01 41 00 02", refused(6, 4)),
        (VPD, "01 00 00 00", refused(7, 0)),
        (VPD, "01 01 41 00 01 01 41 00 00", refused(8, 4)),
        (TINY, "56 02 03", refused(5, 2)),
        (TINY, "56 02 08 01 00 10 00 00", refused(9, 5)),
        (TINY, "56 02 04 6E", refused(10, 3)),
    ] {
        let image = bytes(image);
        for edition in EDITIONS {
            compare.next_case();
            let check = Call::check(format, edition, &image);
            for field in [&far[..], &words([1, 0, 0, 0, 0]), b""] {
                for room in [0, 100] {
                    compare.case("own", &check.add(field, b"", room), answer, None);
                    compare.case("own", &check.remove(7, room), answer, None);
                }
            }
        }
    }
}

/// What was added stands after the last entry, in Tiny before the pool, with shortest lengths, and every other
/// byte of the entries stays; what was removed is gone, and no more.
pub fn examples(compare: &mut Comparison) {
    use Format::{Fboss, Onie, Tiny, Vpd};
    let sku = bytes(SKU);
    let made = bytes("01 03 53 4B 55 02 41 37 01 03 72 65 76 01 42 00");
    for after in [&b"\x00"[..], b"\xFF", b"\x00more", b"\xFF\x01\x01A\x00\x00"] {
        let image = [&sku[..8], after].concat();
        adds(compare, Vpd, &EDITIONS, &image, (1, b"rev", b"B"), &made);
        removes(compare, Vpd, &EDITIONS, &image, 0, b"\x00");
    }
    removes(compare, Vpd, &EDITIONS, &made, 1, &sku);
    removes(compare, Vpd, &EDITIONS, &made, 0, b"\x01\x03rev\x01B\x00");
    for none in [
        &b"\x00"[..],
        b"\xFF",
        b"\xFF\xFF\xFF\xFF\xFF\xFF\xFF\xFF\xFF\xFF\xFF\xFF",
    ] {
        adds(compare, Vpd, &EDITIONS, none, (1, b"SKU", b"A7"), &sku);
    }
    for key in [&b""[..], b"SKU", b"lab.rack", b"\x00"] {
        let made = [&sku[..8], b"\xFE", &[key.len() as u8], key, b"\x041234\x00"].concat();
        adds(compare, Vpd, &FROM_TWO, &sku, (0xFE, key, b"1234"), &made);
        add_refused(compare, Vpd, &[1], &sku, (0xFE, key, b"1234"), 14);
        removes(compare, Vpd, &FROM_TWO, &made, 1, &sku);
        remove_refused(compare, Vpd, &[1], &made, 1, (14, 8));
    }

    let old = bytes("FB FB 05 FF 01 00 08 01 01 09 01 01 0A 01 01 0B 00 FA 02 22 9E");
    let new = bytes("FB FB 05 FF 01 00 08 01 01 09 01 01 0A 01 01 0B 00 11 08 02 00 00 00 00 01 00 00 FA 02 12 06");
    let block = &b"\x02\x00\x00\x00\x00\x01\x00\x00"[..];
    adds(compare, Fboss, &FROM_TWO, &old, (17, b"", block), &new);
    add_refused(compare, Fboss, &[1], &old, (17, b"", block), 14);
    removes(compare, Fboss, &FROM_TWO, &new, 5, &old);
    remove_refused(compare, Fboss, &[1], &new, 5, (14, 17));
    let old = bytes("FB FB 05 FF 01 00 C8 02 AA BB 08 01 01 09 01 01 0A 01 01 0B 00 FA 02 DE 5E");
    let new = bytes(
        "FB FB 05 FF 01 00 C8 02 AA BB 08 01 01 09 01 01 0A 01 01 0B 00 02 01 41 FA 02 56 91",
    );
    for after in [&b""[..], b"\xFA\x02\x00\x00", &[0xFF; 99]] {
        let [old_image, new_image] = [&old, &new].map(|image| [&image[..], after].concat());
        adds(
            compare,
            Fboss,
            &EDITIONS,
            &old_image,
            (2, b"key", b"A"),
            &new,
        );
        removes(compare, Fboss, &EDITIONS, &new_image, 6, &old);
    }
    remove_refused(compare, Fboss, &EDITIONS, &new, 1, (14, 6));
    for n in [0, 2, 3, 4, 5] {
        remove_refused(compare, Fboss, &EDITIONS, &new, n, (11, 0));
    }
    for n in [7, 8, 1 << 32, 6 | 1 << 32, u64::MAX] {
        remove_refused(compare, Fboss, &EDITIONS, &new, n, (13, 0));
    }

    let none = bytes("56 02 04 6F");
    let number = bytes("56 02 06 10 07 A2");
    let pool = bytes("56 02 06 01 00 F5");
    adds(
        compare,
        Tiny,
        &EDITIONS,
        &none,
        (0x10, b"", b"\x07"),
        &number,
    );
    removes(compare, Tiny, &EDITIONS, &number, 0, &none);
    adds(compare, Tiny, &EDITIONS, &none, (0x01, b"", b""), &pool);
    removes(compare, Tiny, &EDITIONS, &pool, 0, &none);
    let pool = bytes("56 02 0A 01 04 41 C2 C3 44 82");
    let flags = bytes("56 02 0C 11 0F 01 04 41 C2 C3 44 36");
    adds(
        compare,
        Tiny,
        &EDITIONS,
        &pool,
        (0x11, b"", b"\x0F"),
        &flags,
    );
    removes(compare, Tiny, &EDITIONS, &flags, 0, &pool);
    let two = bytes("56 02 0E 10 07 03 00 01 04 41 C2 C3 44 43");
    let three = bytes("56 02 10 10 07 03 00 11 0F 01 04 41 C2 C3 44 6D");
    let no_pool = bytes("56 02 08 10 07 03 00 5F");
    for after in [&b""[..], b"\x01\x00", &[0xFF; 99]] {
        let [two_image, three_image] = [&two, &three].map(|image| [&image[..], after].concat());
        adds(
            compare,
            Tiny,
            &EDITIONS,
            &two_image,
            (0x11, b"", b"\x0F"),
            &three,
        );
        removes(compare, Tiny, &EDITIONS, &three_image, 2, &two);
        // The pool goes though a string number points to it, and comes back last.
        removes(compare, Tiny, &EDITIONS, &two_image, 2, &no_pool);
    }
    adds(
        compare,
        Tiny,
        &EDITIONS,
        &no_pool,
        (0x01, b"", b"A\xC2\xC3D"),
        &two,
    );
    remove_refused(compare, Tiny, &EDITIONS, &two, 1, (14, 5));
    add_refused(compare, Tiny, &EDITIONS, &two, (0x01, b"", b""), 8);
    add_refused(compare, Tiny, &EDITIONS, &two, (0x03, b"", b""), 14);
    // Tags of id 1 are no pool, and nothing goes before them.
    let not_pool = around(Tiny, b"\x61\x00\x00\x00\x00\x00\x00\x31\x01\x02\x03");
    let made = around(
        Tiny,
        b"\x61\x00\x00\x00\x00\x00\x00\x31\x01\x02\x03\x10\x09",
    );
    adds(
        compare,
        Tiny,
        &EDITIONS,
        &not_pool,
        (0x10, b"", b"\x09"),
        &made,
    );
    let batch = &b"\x00\x01\x02\x03AB\x0F\x27"[..];
    let made = around(Tiny, &[&b"\x10\x07\x03\x00\x80"[..], batch, POOL].concat());
    adds(compare, Tiny, &FROM_TWO, &two, (0x80, b"", batch), &made);
    add_refused(compare, Tiny, &[1], &two, (0x80, b"", batch), 14);
    removes(compare, Tiny, &FROM_TWO, &made, 2, &two);
    remove_refused(compare, Tiny, &[1], &made, 2, (14, 7));

    let none = bytes("54 6C 76 49 6E 66 6F 00 01 00 06 FE 04 D4 43 1C 18");
    let one = bytes("54 6C 76 49 6E 66 6F 00 01 00 0A 2A 02 00 03 FE 04 B5 64 87 ED");
    adds(compare, Onie, &[3], &none, (0x2A, b"", b"\x00\x03"), &one);
    removes(compare, Onie, &[3], &one, 0, &none);
    let one = bytes("54 6C 76 49 6E 66 6F 00 01 00 0E 99 00 FD 04 00 00 1F 79 FE 04 05 86 34 E2");
    let two = bytes("54 6C 76 49 6E 66 6F 00 01 00 15 99 00 FD 04 00 00 1F 79 FD 05 00 00 1F 79 00 FE 04 C0 46 6C B9");
    let other =
        bytes("54 6C 76 49 6E 66 6F 00 01 00 0F 99 00 FD 05 00 00 1F 79 00 FE 04 9D 68 35 E8");
    for after in [&b""[..], b"\xFE\x04", &[0xFF; 99]] {
        let [one_image, two_image] = [&one, &two].map(|image| [&image[..], after].concat());
        let extension = (0xFD, &b""[..], &b"\x00\x00\x1F\x79\x00"[..]);
        adds(compare, Onie, &[3], &one_image, extension, &two);
        removes(compare, Onie, &[3], &two_image, 2, &one);
        removes(compare, Onie, &[3], &two_image, 1, &other);
    }
    remove_refused(compare, Onie, &[3], &two, 0, (14, 11));
    remove_refused(compare, Onie, &[3], &two, 3, (13, 0));
    // The same value again, and one of three alike.
    let again = around(Onie, &b"\xFD\x04same".repeat(3));
    let less = around(Onie, &b"\xFD\x04same".repeat(2));
    adds(compare, Onie, &[3], &less, (0xFD, b"", b"same"), &again);
    for n in 0..3 {
        removes(compare, Onie, &[3], &again, n, &less);
    }
}

/// 13, then 14, then 7, then 8, then 12, all at place 0.
pub fn order_of_adds(compare: &mut Comparison) {
    let sku = bytes(SKU);
    let values = b"SKU.A7";
    for edition in EDITIONS {
        for (field, number) in [
            // Key, then value outside; of a code that is named and of one that isn't.
            ([1, 3, 4, 0, 0], 13),
            ([1, 7, 0, 0, 0], 13),
            ([1, 0, 3, 6, 1], 13),
            ([2, 7, 0, 0, 0], 13),
            ([2, 0, 0, 7, 0], 13),
            ([0x101, 0, 3, 6, 1], 13),
            ([u32::MAX, 7, 0, 7, 0], 13),
            // Not named, whatever the key and the value are.
            ([0, 6, 0, 6, 0], 14),
            ([2, 6, 0, 6, 0], 14),
            ([0xFF, 0, 3, 4, 2], 14),
            ([0x101, 0, 3, 4, 2], 14),
            ([0x101, 3, 1, 4, 2], 14),
            ([1 << 31 | 1, 0, 3, 4, 2], 14),
            // Outside the alphabet, then there already, then no room.
            ([1, 0, 4, 4, 2], 7),
            ([1, 6, 0, 4, 2], 7),
            ([1, 0, 3, 4, 2], 8),
            ([1, 0, 3, 0, 0], 8),
            ([1, 0, 2, 4, 2], 12),
        ] {
            compare.next_case();
            let field = words(field);
            for room in [0, 8, 9, 13] {
                let call = Call::check(VPD, edition, &sku).add(&field, values, room);
                compare.case("order", &call, refused(number, 0), None);
            }
        }
    }
    // An info header is there: its value, then itself, whatever the keys.
    let info = b"\xFE\x01k\x041234\x00";
    for key in [&b"k"[..], b"", b"other", b"."] {
        add_refused(
            compare,
            Format::Vpd,
            &FROM_TWO,
            info,
            (0xFE, key, b"123"),
            7,
        );
        add_refused(
            compare,
            Format::Vpd,
            &FROM_TWO,
            info,
            (0xFE, key, b"1234"),
            8,
        );
        add_refused(compare, Format::Vpd, &[1], info, (0xFE, key, b"1234"), 14);
    }
    let made = b"\xFE\x01k\x041234\x01\x01k\x00\x00";
    adds(compare, Format::Vpd, &EDITIONS, info, (1, b"k", b""), made);

    // Outside VPD the key is no reason for 13, wherever it lies.
    for (format, image, (code, _, value)) in images() {
        if format == Format::Vpd {
            continue;
        }
        let length = value.len() as u32;
        for &edition in format.editions() {
            for key in [[0, 0], [0, 1], [u32::MAX, 1], [u32::MAX; 2], [1 << 31; 2]] {
                compare.next_case();
                let check = Call::check(format.number(), edition, &image);
                let add = |code, place, length| words([code, key[0], key[1], place, length]);
                let right = add(code, 0, length);
                let (answer, made) = compare.call(&check.add(&right, value, image.len() + 20));
                let call = check.add(&right, value, 0);
                compare.case("key", &call, refused(12, 0), None);
                let (plain, _) = lent((code, b"", value));
                let call = check.add(&plain, value, image.len() + 20);
                compare.case("key", &call, answer, Some(&made));
                for (code, place, length, number) in [
                    (code, 0, length + 1, 13),
                    (code, length + 1, 0, 13),
                    (0, 0, length + 1, 13),
                    (code + 256, 0, length + 1, 13),
                    (code + 256, 0, length, 14),
                    (0, length, 0, 14),
                ] {
                    let field = add(code, place, length);
                    let call = check.add(&field, value, 0);
                    compare.case("order", &call, refused(number, 0), None);
                }
            }
        }
    }
    // A wrong value of a field that is there, and a right one.
    for (format, image, code, wrong, right) in [
        (
            Format::Fboss,
            around(Format::Fboss, REQUIRED),
            8,
            &b"12"[..],
            &b"1"[..],
        ),
        (
            Format::Fboss,
            around(Format::Fboss, REQUIRED),
            1,
            b"\x1F",
            b"N",
        ),
        (
            Format::Tiny,
            around(Format::Tiny, b"\x10\x00"),
            0x10,
            b"",
            b"\x00",
        ),
        (
            Format::Tiny,
            around(Format::Tiny, POOL),
            0x01,
            &[0; 256],
            b"",
        ),
        (
            Format::Onie,
            around(Format::Onie, b"\x2A\x02\x00\x00"),
            0x2A,
            b"1",
            b"12",
        ),
    ] {
        add_refused(
            compare,
            format,
            format.editions(),
            &image,
            (code, b"", wrong),
            7,
        );
        add_refused(
            compare,
            format,
            format.editions(),
            &image,
            (code, b"", right),
            8,
        );
    }
    // A day that there is not, and one that there is.
    let fboss = around(Format::Fboss, REQUIRED);
    let day = around(Format::Fboss, &[REQUIRED, b"\x0D\x0820240229"].concat());
    add_refused(
        compare,
        Format::Fboss,
        &EDITIONS,
        &fboss,
        (13, b"", b"20230231"),
        7,
    );
    adds(
        compare,
        Format::Fboss,
        &EDITIONS,
        &fboss,
        (13, b"", b"20240229"),
        &day,
    );
}

/// 13 at 0, 14 at the entry, 11 at 0, 12 at 0.
pub fn order_of_removals(compare: &mut Comparison) {
    let entries = [REQUIRED, b"\xC8\x00\x02\x01A\x11\x07"].concat();
    let image = around(Format::Fboss, &[&entries[..], b"1234567"].concat());
    // Edition 1 does not name 17, whose value later editions refuse, at its place.
    let later = [2, 3, 4];
    for n in [0, 1, 5, 6, 7, 99] {
        remove_refused(compare, Format::Fboss, &later, &image, n, (7, 22));
    }
    for (n, answer) in [
        (8, (13, 0)),
        (5, (14, 17)),
        (7, (14, 22)),
        (0, (11, 0)),
        (1, (11, 0)),
        (2, (11, 0)),
        (3, (11, 0)),
        (4, (11, 0)),
    ] {
        remove_refused(compare, Format::Fboss, &[1], &image, n, answer);
    }
    let left = [REQUIRED, b"\xC8\x00\x11\x071234567"].concat();
    removes(
        compare,
        Format::Fboss,
        &[1],
        &image,
        6,
        &around(Format::Fboss, &left),
    );

    // Numbers that are an entry's only in part.
    let sku = bytes(SKU);
    for n in [
        1,
        1 << 8,
        1 << 16,
        1 << 31,
        1 << 32,
        1 << 59,
        1 << 63,
        u64::MAX,
    ] {
        remove_refused(compare, Format::Vpd, &EDITIONS, &sku, n, (13, 0));
    }
}

/// How long an image can be: L to 255, a declared length to 2,048, and 65,536 bytes.
pub fn lengths(compare: &mut Comparison) {
    use Format::{Fboss, Onie, Tiny, Vpd};
    // A pool of each length, to an image of one entry.
    let number = around(Tiny, b"\x10\x07");
    for length in 0..=256 {
        let pool = vec![0xC1; length];
        let part: Part = (0x01, b"", &pool);
        match length {
            0..=247 => {
                let made = around(
                    Tiny,
                    &[b"\x10\x07\x01", &[length as u8][..], &pool].concat(),
                );
                adds(compare, Tiny, &[1, 4], &number, part, &made);
            }
            248..=255 => add_refused(compare, Tiny, &[1, 4], &number, part, 12),
            _ => add_refused(compare, Tiny, &[1, 4], &number, part, 7),
        }
    }
    // Before a pool that leaves just enough room, and one byte too little.
    for length in 240..=249 {
        let pool = [b"\x01", &[length][..], &vec![0x41; length.into()]].concat();
        let image = around(Tiny, &pool);
        let made = around(Tiny, &[b"\x11\x0F", &pool[..]].concat());
        let part: Part = (0x11, b"", b"\x0F");
        match length {
            ..=247 => adds(compare, Tiny, &EDITIONS, &image, part, &made),
            _ => add_refused(compare, Tiny, &EDITIONS, &image, part, 12),
        }
        removes(compare, Tiny, &EDITIONS, &image, 0, &bytes("56 02 04 6F"));
    }

    // Seven of 257 bytes are 1,799 of 2,048, and the end has six.
    let full = [&b"\x99\xFF"[..], &[0x00; 255]].concat().repeat(7);
    let image = around(Onie, &full);
    for length in (0..=4).chain(238..=256) {
        let text = vec![b'x'; length];
        let part: Part = (0x21, b"", &text);
        match length {
            ..=241 => {
                let made = around(Onie, &[&full[..], b"\x21", &[length as u8], &text].concat());
                adds(compare, Onie, &[3], &image, part, &made);
                removes(compare, Onie, &[3], &made, 7, &image);
            }
            242..=255 => add_refused(compare, Onie, &[3], &image, part, 12),
            _ => add_refused(compare, Onie, &[3], &image, part, 7),
        }
    }

    // An entry of nine bytes to images that leave from eight to ten.
    for left in 7..=11 {
        let length = LONGEST - 1 - 6 - left;
        let groups = [
            length >> 14 | 0x80,
            length >> 7 & 0x7F | 0x80,
            length & 0x7F,
        ];
        let groups = groups.map(|group| group as u8);
        let old = [&b"\x01\x01k"[..], &groups, &vec![0x00; length], b"\x00"].concat();
        let part: Part = (1, b"abc", b"def");
        let made = [&old[..old.len() - 1], b"\x01\x03abc\x03def\x00"].concat();
        for edition in [1, 4] {
            match left {
                9.. => {
                    adds(compare, Vpd, &[edition], &old, part, &made);
                    removes(compare, Vpd, &[edition], &made, 1, &old);
                    removes(
                        compare,
                        Vpd,
                        &[edition],
                        &made,
                        0,
                        b"\x01\x03abc\x03def\x00",
                    );
                }
                _ => add_refused(compare, Vpd, &[edition], &old, part, 12),
            }
        }
        // FBOSS likewise, unnamed entries of 257 bytes and one that fills.
        let mut entries = REQUIRED.to_vec();
        let all = LONGEST - 8 - left;
        while entries.len() + 257 + 2 <= all {
            entries.extend(b"\xC8\xFF");
            entries.extend([0xFA; 255]);
        }
        let rest = all - entries.len() - 2;
        let (one, other) = (rest / 2, rest - rest / 2);
        let two = rest > 255;
        if two {
            entries.extend([0xC9, (one - 2) as u8]);
            entries.extend(vec![0x00; one - 2]);
        }
        let rest = if two { other } else { rest };
        entries.extend([0xCA, rest as u8]);
        entries.extend(vec![0x00; rest]);
        let old = around(Fboss, &entries);
        let part: Part = (12, b"", b"1234567");
        match left {
            9.. => {
                let made = around(Fboss, &[&entries[..], b"\x0C\x071234567"].concat());
                adds(compare, Fboss, &[1], &old, part, &made);
                let n = count(compare.call(&Call::check(FBOSS, 1, &old)).0) as u64;
                removes(compare, Fboss, &[1], &made, n, &old);
            }
            _ => add_refused(compare, Fboss, &[1], &old, part, 12),
        }
    }
    // A value or a key of any length breaks no rule in VPD, so what does not fit is 12.
    let sku = bytes(SKU);
    let long = vec![b'k'; 70_000];
    add_refused(compare, Vpd, &EDITIONS, &sku, (1, b"a", &long), 12);
    add_refused(compare, Vpd, &EDITIONS, &sku, (1, &long, b""), 12);
    add_refused(compare, Vpd, &EDITIONS, &sku, (1, b"SKU", &long), 8);
    add_refused(compare, Vpd, &EDITIONS, &sku, (1, b".", &long), 7);
    add_refused(
        compare,
        Fboss,
        &EDITIONS,
        &around(Fboss, REQUIRED),
        (12, b"", &long),
        7,
    );
    // Lengths on both sides of one more length byte.
    for length in [0, 127, 128, 16_383, 16_384] {
        let shortest: &[u8] = match length {
            0 => b"\x00",
            127 => b"\x7F",
            128 => b"\x81\x00",
            16_383 => b"\xFF\x7F",
            _ => b"\x81\x80\x00",
        };
        let part = vec![b'k'; length];
        let made = [&sku[..8], b"\x01\x01a", shortest, &part, b"\x00"].concat();
        adds(compare, Vpd, &[1, 4], &sku, (1, b"a", &part), &made);
        if length > 0 {
            let made = [&sku[..8], b"\x01", shortest, &part, b"\x00\x00"].concat();
            adds(compare, Vpd, &[1, 4], &sku, (1, &part, b""), &made);
        }
    }
}

/// Each byte alone, and at the start, in the middle and at the end of a key: added exactly where it is of the
/// alphabet, to an image that has such keys, which stay.
pub fn every_key_byte(compare: &mut Comparison) {
    let image = b"\x01\x80\x08lab.rack\x80\x80\x01x\x01\x02\x00\xFF\x00\xFF";
    for byte in 0..=255 {
        for key in [
            &[byte][..],
            &[byte, b'k', b'k'],
            &[b'k', byte, b'k'],
            &[b'k', b'k', byte],
        ] {
            let part: Part = (1, key, b"v");
            if ALPHABET.contains(&byte) {
                let new = Entry::with_key(1, key.to_vec(), b"v".to_vec());
                let entries = [&image[..image.len() - 1], &new.bytes(Format::Vpd)].concat();
                adds(
                    compare,
                    Format::Vpd,
                    &EDITIONS,
                    image,
                    part,
                    &around(Format::Vpd, &entries),
                );
                add_refused(
                    compare,
                    Format::Vpd,
                    &[1],
                    &around(Format::Vpd, &entries),
                    part,
                    8,
                );
            } else {
                add_refused(compare, Format::Vpd, &EDITIONS, image, part, 7);
            }
        }
    }
    for key in [
        &b""[..],
        b"lab.rack",
        b"\x00\xFF",
        b"lab.rack.",
        b"lab rack",
    ] {
        add_refused(compare, Format::Vpd, &EDITIONS, image, (1, key, b"v"), 7);
    }
}

/// Added to images of few keys and of hundreds: the key of any entry is there already, and one that differs in
/// case or by a byte is not.
pub fn numbers_of_keys(compare: &mut Comparison) {
    for count in [1, 2, 8, 130, 514, 3_000] {
        let entries = vpd::distinct(Rule::Writer, count);
        let image = Image::new(Format::Vpd, entries.clone()).bytes();
        for entry in entries.iter().step_by(1 + count / 20) {
            let part: Part = (1, &entry.key, b"v");
            add_refused(compare, Format::Vpd, &[1, 4], &image, part, 8);
        }
        let last: Part = (1, &entries[count - 1].key, b"v");
        add_refused(compare, Format::Vpd, &[1, 4], &image, last, 8);
    }
    let sku = bytes(SKU);
    for key in [&b"sku"[..], b"SKu", b"SK", b"SKUU", b"_SKU", b"KSU"] {
        let new = Entry::with_key(1, key.to_vec(), b"v".to_vec());
        let entries = [&sku[..8], &new.bytes(Format::Vpd)].concat();
        let made = around(Format::Vpd, &entries);
        adds(compare, Format::Vpd, &EDITIONS, &sku, (1, key, b"v"), &made);
    }
}

/// A field of every code to 300, to an image that has every entry and to one that has as few as there can be,
/// with a value that keeps the code's rule and with values of each length.
pub fn every_code(compare: &mut Comparison) {
    let few = [
        (Format::Fboss, around(Format::Fboss, REQUIRED)),
        (Format::Vpd, b"\xFF".to_vec()),
        (Format::Tiny, around(Format::Tiny, b"")),
        (Format::Onie, around(Format::Onie, b"")),
    ];
    let all = [
        (Format::Fboss, fboss_example_image()),
        (Format::Vpd, vpd_example_image()),
        (Format::Tiny, every_tag_image()),
        (Format::Onie, SWITCH.to_vec()),
    ];
    for (format, image) in few.into_iter().chain(all) {
        for &edition in format.editions() {
            let names = named(format, edition);
            let check = Call::check(format.number(), edition, &image);
            let entries = second::list(check.format, edition, &image, 99).unwrap_or_default();
            for code in (0..=300).chain([1 << 16 | 1, u32::MAX]) {
                compare.next_case();
                let mut random = Random::of_input(7, format.number(), code.into());
                let value = kept(&mut random, format, code as u8);
                let (field, values) = lent((code, b"newkey", &value));
                let call = check.add(&field, &values, 9_000);
                let is_named = u8::try_from(code).is_ok_and(|code| names.contains(&code));
                let there = entries.iter().any(|entry| entry.code == code);
                let repeats = matches!((format, code), (Format::Vpd, 1) | (Format::Onie, 0xFD));
                if !is_named {
                    compare.case("code", &call, refused(14, 0), None);
                } else if there && !repeats {
                    compare.case("code", &call, refused(8, 0), None);
                } else {
                    // What an image can hold is at most 255 bytes in Tiny.
                    let (answer, _) = compare.call(&call);
                    let too_long = format == Format::Tiny && answer == refused(12, 0);
                    if answer >> 59 != 0 && !too_long {
                        compare.wrong(&call, "a field that is not there yet is added", answer);
                    }
                }
                for length in 0..=20 {
                    let (field, values) = lent((code, b"newkey", &vec![b'1'; length]));
                    compare.call(&check.add(&field, &values, image.len() + 40));
                }
            }
        }
    }
}

/// Every entry of the small images removed, in every edition, and all that can be, from the front, from the
/// back and from the middle, until an image without entries is left or the required ones are.
pub fn every_entry(compare: &mut Comparison) {
    for (format, image, last) in [
        (Format::Fboss, fboss_example_image(), 5),
        (Format::Vpd, vpd_example_image(), 0),
        (Format::Tiny, every_tag_image(), 0),
        (
            Format::Onie,
            around(Format::Onie, &SWITCH[11..SWITCH.len() - 6]),
            3,
        ),
    ] {
        for &edition in format.editions() {
            let entries = |image: &[u8]| {
                second::list(format.number(), edition, image, 99).unwrap_or_default()
            };
            for (n, entry) in entries(&image).iter().enumerate() {
                let [place, length] = [entry.place, entry.frame_len].map(|number| number as usize);
                let required = format == Format::Fboss && matches!(entry.code, 1 | 8..=11);
                if entry.kind == 0 {
                    let answer = (14, u64::from(entry.place));
                    remove_refused(compare, format, &[edition], &image, n as u64, answer);
                } else if required {
                    remove_refused(compare, format, &[edition], &image, n as u64, (11, 0));
                } else {
                    let whole = ended(format, &image);
                    let start = crate::frames::header(format.number());
                    let end = crate::frames::end(format.number(), &image).unwrap_or(start);
                    let left = [&whole[start..place], &whole[place + length..end]].concat();
                    let made = around(format, &left);
                    removes(compare, format, &[edition], &image, n as u64, &made);
                }
            }
            for way in 0..3 {
                compare.next_case();
                let mut image = image.clone();
                loop {
                    let list = entries(&image);
                    let required = |code| format == Format::Fboss && matches!(code, 1 | 8..=11);
                    let can_go: Vec<usize> = (0..list.len())
                        .filter(|&n| list[n].kind != 0 && !required(list[n].code))
                        .collect();
                    let Some(&n) = can_go.get(match way {
                        0 => 0,
                        1 => can_go.len().saturating_sub(1),
                        _ => can_go.len() / 2,
                    }) else {
                        break;
                    };
                    let call = Call::check(format.number(), edition, &image);
                    let (answer, mut made) = compare.call(&call.remove(n as u64, image.len()));
                    made.truncate(count(answer));
                    image = made;
                }
                let unnamed = match (format, edition) {
                    (Format::Fboss, 1) => 4,
                    (Format::Tiny, 1) => 2,
                    _ => 0,
                };
                let check = Call::check(format.number(), edition, &image);
                compare.case("what is left", &check, given(last + unnamed), None);
            }
        }
    }
}

/// A VPD image whose lengths are in longer forms: an add and a removal keep each of them.
pub fn vpd_forms(compare: &mut Comparison) {
    let entry = |code, key: &[u8], value: &[u8], groups| Entry {
        zero_groups: groups,
        ..Entry::with_key(code, key.to_vec(), value.to_vec())
    };
    for key_groups in 0..=3 {
        for value_groups in 0..=3 {
            for length in [0, 1, 127, 128, 300] {
                let groups = [key_groups, value_groups];
                let value = vec![0x01; length];
                let entries = [
                    entry(1, b"a.b", &value, groups),
                    entry(0xFE, b"", b"1234", groups),
                    entry(1, &[b'k'; 130], b"", [value_groups, key_groups]),
                ];
                let mut image = Image::new(Format::Vpd, entries.to_vec());
                image.vpd_end = 0xFF;
                image.after = b"after".to_vec();
                let bytes = entries.clone().map(|entry| entry.bytes(Format::Vpd));
                let made = [&bytes.concat()[..], b"\x01\x01k\x01v\x00"].concat();
                let part: Part = (1, b"k", b"v");
                adds(compare, Format::Vpd, &[1, 4], &image.bytes(), part, &made);
                for n in 0..3 {
                    let mut left = bytes.to_vec();
                    left.remove(n);
                    let made = [&left.concat()[..], b"\x00"].concat();
                    let from = if n == 1 { 2 } else { 1 };
                    removes(
                        compare,
                        Format::Vpd,
                        &[from, 4],
                        &image.bytes(),
                        n as u64,
                        &made,
                    );
                }
            }
        }
    }
}

/// Field bytes of every length to 45: fewer than 20 are 13, and those past 20 are not looked at.
pub fn field_lengths(compare: &mut Comparison) {
    for (format, image, part) in images() {
        let (field, values) = lent(part);
        for &edition in format.editions() {
            let check = Call::check(format.number(), edition, &image);
            let room = image.len() + 20;
            let (answer, made) = compare.call(&check.add(&field, &values, room));
            for length in 0..=45 {
                compare.next_case();
                for more in [0x00, 0xFF, 0x01] {
                    let mut field = field.clone();
                    field.resize(length, more);
                    let call = check.add(&field, &values, room);
                    match length {
                        ..=19 => compare.case("cut short", &call, refused(13, 0), None),
                        _ => compare.case("and more", &call, answer, Some(&made)),
                    }
                }
            }
            // A second field after the first, which is the one that counts.
            let twice = [&field[..], &words([0, 9, 9, 9, 9])].concat();
            let call = check.add(&twice, &values, room);
            compare.case("two fields", &call, answer, Some(&made));
            let twice = [&words([0; 5])[..], &field].concat();
            let call = check.add(&twice, &values, room);
            compare.case("two fields", &call, refused(14, 0), None);
        }
    }
}

/// Parts that are inside the values and outside them, with places and lengths up to 2^32 - 1 and sums that
/// wrap, of key and value.
pub fn field_parts(compare: &mut Comparison) {
    let edges = [
        0,
        1,
        3,
        4,
        5,
        0x7FFF_FFFF,
        1 << 31,
        u32::MAX - 4,
        u32::MAX - 3,
        u32::MAX,
    ];
    for (format, image, (code, _, _)) in images() {
        let edition = format.editions()[0];
        let check = Call::check(format.number(), edition, &image);
        for place in edges {
            for length in edges {
                for key_length in [0, 3] {
                    compare.next_case();
                    let inside = u64::from(place) + u64::from(length) <= 4;
                    let call = |field: &[u32; 5]| words(*field);
                    // The value's part at these, then the key's.
                    let field = call(&[code, 0, key_length, place, length]);
                    let call_value = check.add(&field, b"abcd", 0);
                    let (answer, _) = compare.call(&call_value);
                    if (answer == refused(13, 0)) == inside {
                        compare.wrong(&call_value, "a value inside, or not", answer);
                    }
                    let field = call(&[code, place, length, 0, key_length]);
                    let call_key = check.add(&field, b"abcd", 0);
                    let (answer, _) = compare.call(&call_key);
                    let refused_for_key = format == Format::Vpd && !inside;
                    if (answer == refused(13, 0)) != refused_for_key {
                        compare.wrong(&call_key, "a key inside, or not", answer);
                    }
                    // No values at all.
                    compare.call(&check.add(&field, b"", 99));
                }
            }
        }
    }
}

/// Images built from none, field by field, by every edition: what a write of all of them makes, in Tiny with
/// the pool last whenever it comes. Then taken down again.
pub fn built_up(compare: &mut Comparison) {
    for format in FORMATS {
        for &edition in format.editions() {
            for round in 0..12 {
                compare.next_case();
                let mut random = Random::of_input(8, format.number(), round);
                let required: &[u8] = match format {
                    Format::Fboss => &[1, 8, 9, 10, 11],
                    _ => &[],
                };
                let mut codes = named(format, edition);
                codes.retain(|code| !required.contains(code));
                if format == Format::Vpd {
                    codes.extend([1; 5]);
                }
                if format == Format::Onie {
                    codes.extend([EXTENSION; 3]);
                }
                random.shuffle(&mut codes);
                let mut entries: Vec<Entry> = required
                    .iter()
                    .map(|&code| Entry::new(code, kept(&mut random, format, code)))
                    .collect();
                let start = Image::new(format, entries.clone()).bytes();
                let mut image = start.clone();
                for (number, &code) in codes.iter().enumerate() {
                    let key = match format {
                        Format::Vpd => format!("key_{number}").into_bytes(),
                        _ => Vec::new(),
                    };
                    let mut value = kept(&mut random, format, code);
                    if format == Format::Tiny {
                        value.truncate(40);
                    }
                    let entry = Entry::with_key(code, key, value);
                    let is_pool = |entry: &Entry| format == Format::Tiny && entry.code == 0x01;
                    let before_pool = usize::from(entries.last().is_some_and(is_pool));
                    entries.insert(entries.len() - before_pool, entry.clone());
                    let made = Image::new(format, entries.clone()).bytes();
                    let (field, values) = lent((code.into(), &entry.key, &entry.value));
                    let check = Call::check(format.number(), edition, &image);
                    let call = check.add(&field, &values, made.len());
                    compare.case("built up", &call, given(made.len()), Some(&made));
                    image = made;
                }
                let mut list = List::default();
                for entry in &entries {
                    list.add(entry.code.into(), &entry.key, &entry.value);
                }
                let fields = list.bytes();
                let number = format.number();
                let write = Call::write(number, edition, &fields, &list.values, image.len());
                compare.case("as written", &write, given(image.len()), Some(&image));

                while entries.len() > required.len() {
                    let n = random.between(required.len(), entries.len() - 1);
                    entries.remove(n);
                    let made = Image::new(format, entries.clone()).bytes();
                    let check = Call::check(format.number(), edition, &image);
                    let call = check.remove(n as u64, made.len());
                    compare.case("taken down", &call, given(made.len()), Some(&made));
                    image = made;
                }
                let check = Call::check(format.number(), edition, &image);
                compare.case("taken down", &check, given(required.len()), None);
                if image != start {
                    compare.wrong(&check, "what was built up is taken down whole", 0);
                }
            }
        }
    }
}

/// An image that editions from 2 on refuse so, in an add and in a removal.
fn own_refused(
    compare: &mut Comparison,
    format: Format,
    image: &[u8],
    (number, place): (u64, u64),
) {
    for edition in FROM_TWO {
        compare.next_case();
        let check = Call::check(format.number(), edition, image);
        for call in [check.add(&[0; 20], b"", 99), check.remove(0, 99)] {
            compare.case("own", &call, refused(number, place), None);
        }
    }
}

/// What an older edition does not name, it does not judge: it changes an image that newer ones refuse, and of
/// one that they accept they read on.
pub fn older_editions(compare: &mut Comparison) {
    let image = b"\xFE\x01A\x03\x01\x02\x03\xFE\x00\x00\x00";
    let made = b"\xFE\x01A\x03\x01\x02\x03\xFE\x00\x00\x01\x01k\x00\x00";
    adds(compare, Format::Vpd, &[1], image, (1, b"k", b""), made);
    removes(compare, Format::Vpd, &[1], made, 2, image);
    add_refused(compare, Format::Vpd, &FROM_TWO, image, (1, b"k", b""), 7);
    remove_refused(compare, Format::Vpd, &FROM_TWO, made, 2, (7, 0));
    for n in [0, 1] {
        let place = 7 * n;
        remove_refused(compare, Format::Vpd, &[1], made, n, (14, place));
    }
    let twice = around(Format::Tiny, b"\x80\x00\x00\xFF\xFF\x00\x00\xFF\xFF\x81\x00\x00\x00\x00\x00\x00\x00\x00\x81\x00\x00\x00\x00\x00\x00\x00\x00\x01\x00");
    let entries = &twice[3..twice.len() - 3];
    let made = around(Format::Tiny, &[entries, b"\x11\x0F\x01\x00"].concat());
    adds(
        compare,
        Format::Tiny,
        &[1],
        &twice,
        (0x11, b"", b"\x0F"),
        &made,
    );
    own_refused(compare, Format::Tiny, &twice, (7, 3));
    for (n, place) in [(0, 3), (1, 12), (2, 21)] {
        remove_refused(compare, Format::Tiny, &[1], &twice, n, (14, place));
    }
    // Codes of address blocks come twice.
    let blocks = [REQUIRED, b"\x11\x0812345678\x11\x00"].concat();
    let image = around(Format::Fboss, &blocks);
    let made = around(Format::Fboss, &[&blocks[..], b"\x02\x00"].concat());
    adds(compare, Format::Fboss, &[1], &image, (2, b"", b""), &made);
    own_refused(compare, Format::Fboss, &image, (7, 27));
    add_refused(
        compare,
        Format::Fboss,
        &[1],
        &image,
        (17, b"", b"12345678"),
        14,
    );
    removes(compare, Format::Fboss, &[1], &made, 7, &image);
}
