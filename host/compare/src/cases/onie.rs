//! The cases of 02, ONIE images and edition 3.

use images::checks::check32;
use images::fields::List;
use images::image::{Entry, Format, Image, LONGEST, ONIE_LONGEST};
use images::onie::{self, EXTENSION, TEXTS};
use images::random::Random;

use super::*;
use crate::comparison::hex;

/// An image without entries.
const EMPTY: &str = "54 6C 76 49 6E 66 6F 00 01 00 06 FE 04 D4 43 1C 18";

/// An image as ONIE's own tool makes it, with 003's vendor extension. Its codes 26h, 28h and 29h,
/// device version, platform name and ONIE version, are unnamed.
pub const SWITCH: &[u8; 200] = b"TlvInfo\x00\x01\x00\xBD\
    \x21\x19Czechlight BiDi Amplifier\
    \x22\x17sdn-bidi-cplusl-1572-g2\
    \x23\x0A0123456789\
    \x24\x06\x00\x11\x22\xAA\xBB\xCC\
    \x25\x1306/15/2023 12:34:56\
    \x26\x01\x02\
    \x28\x0Farm-clearfog-r1\
    \x29\x072019.05\
    \x2A\x02\x00\x03\
    \x2B\x0CManufacturer\
    \x2C\x02CZ\
    \x2D\x06CESNET\
    \xFD\x1D\x00\x00\x1F\x79\x00\x08DQ000MPW\x00\x09\x00\x00\x00\x00\x00\x00\x00\x00\x00\x02\x60\x51\x4B\
    \xFE\x04\x8A\x76\x25\xF8";

/// The place of the switch's end, and its number of entries.
const SWITCH_END: usize = 194;
const SWITCH_ENTRIES: u64 = 13;

type Values = &'static [&'static [u8]];

/// Each named code with values that keep its rule and values that break it.
const RULES: [(u8, Values, Values); 10] = [
    (0x21, TEXT, NO_TEXT),
    (0x22, TEXT, NO_TEXT),
    (0x23, TEXT, NO_TEXT),
    (
        0x24,
        &[b"\x00\x00\x00\x00\x00\x00", b"\xFF\xFE\x80\x7F\x01\x00"],
        &[b"", b"1", b"12345", b"1234567", b"12345678"],
    ),
    (
        0x25,
        &[
            b"06/15/2023 12:34:56",
            b"01/01/0001 00:00:00",
            b"12/31/9999 23:59:59",
            b"02/29/2024 20:02:29",
        ],
        &[
            b"",
            b"06/15/2023",
            b"06/15/2023 12:34:5",
            b"06/15/2023 12:34:567",
            b"06-15-2023 12:34:56",
            b"06/15-2023 12:34:56",
            b"06/15/2023T12:34:56",
            b"06/15/2023 12-34:56",
            b"06/15/2023 12:34.56",
            b"o6/15/2023 12:34:56",
            b" 6/15/2023 12:34:56",
            b"06/15/2023 12:34: 6",
            b"06/15/202: 12:34:56",
            b"06/15/202/ 12:34:56",
            b"2023/06/15 12:34:56",
            b"06/15/2023 12:34:5\xB6",
            b"06/15/2023 12:34:5\x00",
            b"00/00/0000 00:00:00",
            b"99/99/9999 99:99:99",
            b"02/30/2023 24:60:60",
            b"02/31/2023 12:34:56",
            b"06/15/2023 24:00:00",
        ],
    ),
    (
        0x2A,
        &[b"\x00\x00", b"\x00\x03", b"\x03\x00", b"\xFF\xFF"],
        &[b"", b"\x03", b"\x00\x00\x03"],
    ),
    (0x2B, TEXT, NO_TEXT),
    (
        0x2C,
        &[b"CZ", b"AZ", b"ZA", b"AA"],
        &[
            b"", b"C", b"CZE", b"CZ ", b"cz", b"Cz", b"cZ", b"C@", b"@Z", b"C[", b"[Z", b"C1",
            b" C", b"C\xDA", b"\x00Z",
        ],
    ),
    (0x2D, TEXT, NO_TEXT),
    (
        EXTENSION,
        &[
            b"1234",
            b"\x00\x00\x1F\x79",
            b"\x00\xFF\x80\x7F\x1F",
            &[0xFF; 255],
        ],
        &[b"", b"1", b"12", b"\x00\x00\x1F"],
    ),
];

const TEXT: Values = &[b"", b" ", b"~", b"name ~ 1", &[b'x'; 255]];
const NO_TEXT: Values = &[
    b"\x1F",
    b"\x7F",
    b"\x00",
    b"name\x00",
    b"a\nb",
    b"\x80",
    b"\xFF",
    b"\xC3\xA9",
];

/// The bytes of one entry, its value at most 255 bytes long.
pub fn entry(code: u8, value: &[u8]) -> Vec<u8> {
    Entry::new(code, value.to_vec()).bytes(Format::Onie)
}

/// An image whose entries have these bytes, right but for what they make wrong.
pub fn image(entries: &[u8]) -> Vec<u8> {
    let rest = [entries, b"\xFE\x04"].concat();
    let mut image = declaring(rest.len() + 4, &rest);
    image.extend(check32(&image).to_be_bytes());
    image
}

/// A header that declares a length, and bytes after it.
fn declaring(length: usize, rest: &[u8]) -> Vec<u8> {
    let length = (length as u16).to_be_bytes();
    [b"TlvInfo\x00\x01", &length[..], rest].concat()
}

/// A header that declares the length of the bytes after it.
fn framed(rest: &[u8]) -> Vec<u8> {
    declaring(rest.len(), rest)
}

/// What every call on an image refuses.
fn refused_image(compare: &mut Comparison, image: &[u8], number: u64, place: usize) {
    checked_in(compare, ONIE, 3, &hex(image), refused(number, place as u64));
    compare.case(
        "string",
        &Call::check(ONIE, 3, image).string(0),
        refused(16, 0),
        None,
    );
}

/// The fields of a write, from codes and values.
fn list_of(fields: &[(u32, &[u8])]) -> List {
    let mut list = List::default();
    for &(code, value) in fields {
        // Outside VPD a key is given for nothing.
        list.add(code, b"key", value);
    }
    list
}

/// The record of an entry, from its code, its place, its value's length and its reading's words.
fn record_of(code: u8, place: usize, length: usize, reading: &[u32]) -> Vec<u8> {
    let [place, length] = [place, length].map(|number| number as u32);
    let (code, value) = (u32::from(code), place + 2);
    let kind = match onie::NAMED[2].contains(&(code as u8)) {
        true => 1024 + code,
        false => 0,
    };
    let head = [code, kind, place, value, 0, value, length, 2 + length];
    let words = [&head[..], reading].concat();
    record(&words)
}

/// The reading of a value that keeps the rule of a named code, as words.
fn reading_of(code: u8, value: &[u8]) -> Vec<u32> {
    let number = |bytes: &[u8]| {
        let bytes = bytes.iter();
        bytes.fold(0, |number, &byte| number << 8 | u32::from(byte))
    };
    match code {
        0x24 => vec![3, number(&value[..2]), number(&value[2..]), 1],
        0x25 => dates::onie_reading(value),
        0x2A => vec![2, number(value)],
        EXTENSION => vec![0],
        _ => vec![1],
    }
}

/// Format and edition together: 16 with editions 1 and 2, 1 with an unknown edition, and 16 for a
/// string in any case.
pub fn known(compare: &mut Comparison) {
    let list = list_of(&[(0x21, b"name")]);
    let fields = list.bytes();
    let long = vec![0; LONGEST + 1];
    for (edition, number) in [
        (0, 1),
        (1, 16),
        (2, 16),
        (5, 1),
        (6, 1),
        (9, 1),
        (255, 1),
        (256, 1),
        (257, 1),
        (258, 1),
        (259, 1),
        (260, 1),
        (u32::MAX, 1),
    ] {
        for image in [&bytes(EMPTY)[..], SWITCH, b"", b"TlvInfo", &long] {
            compare.next_case();
            let check = Call::check(ONIE, edition, image);
            let walk = walk_bytes(ONIE, edition, 0);
            let refusal = refused(number, 0);
            for room in [0, RECORD] {
                compare.case("known", &check.list(room), refusal, None);
                compare.case("known", &check.entry(0, room), refusal, None);
                compare.case("known", &check.step(&walk, room), refusal, None);
            }
            compare.case("known", &check, refusal, None);
            compare.case("known", &check.value(0), refusal, None);
            compare.case("known", &check.string(0), refused(16, 0), None);
            for room in [0, 300, LONGEST + 1] {
                let write = Call::write(ONIE, edition, &fields, &list.values, room);
                compare.case("known", &check.edit(0, b"n", room), refusal, None);
                compare.case("known", &write, refusal, None);
            }
        }
    }
    for edition in [3, 4, 5, 9] {
        compare.next_case();
        for format in [0, 5, 260, u32::MAX] {
            let check = Call::check(format, edition, SWITCH);
            compare.case("no format", &check, refused(16, 0), None);
        }
    }

    // Then 2, and then the image.
    compare.next_case();
    let mut whole = bytes(EMPTY);
    whole.resize(LONGEST, 0xFF);
    let check = Call::check(ONIE, 3, &whole);
    compare.case("longest", &check, given(0), None);
    compare.case("longest", &check.edit(0, b"", 65_537), refused(2, 0), None);
    compare.case(
        "longest",
        &check.edit(0, b"", LONGEST),
        refused(13, 0),
        None,
    );
    whole.push(0xFF);
    for first in [b'T', b't'] {
        whole[0] = first;
        let check = Call::check(ONIE, 3, &whole);
        compare.case("too long", &check, refused(2, 0), None);
        compare.case("too long", &check.list(0), refused(2, 0), None);
        compare.case("too long", &check.edit(0, b"", 20), refused(2, 0), None);
    }
    let write = |room| Call::write(ONIE, 3, &fields, &list.values, room);
    compare.case("too long", &write(LONGEST + 1), refused(2, 0), None);
    compare.case("longest", &write(LONGEST), given(23), None);
    for edition in [0, 1, 2, 3, 4, 5, 9] {
        for image in [&bytes(EMPTY)[..], b"", &long] {
            let string = Call::check(ONIE, edition, image).string(0);
            compare.case("string", &string, refused(16, 0), None);
        }
    }
}

/// The image without entries, and the switch record by record, alone and with bytes after it.
pub fn read(compare: &mut Comparison) {
    checked_in(compare, ONIE, 3, EMPTY, given(0));
    let empty = bytes(EMPTY);
    listed(compare, &Call::check(ONIE, 3, &empty), "no entries", &[]);

    let records = [
        record_of(0x21, 11, 25, &[1]),
        record_of(0x22, 38, 23, &[1]),
        record_of(0x23, 63, 10, &[1]),
        record_of(0x24, 75, 6, &[3, 0x0011, 0x22AA_BBCC, 1]),
        record_of(0x25, 83, 19, &[9, 2023, 6, 15, 12, 34, 56]),
        record_of(0x26, 104, 1, &[0]),
        record_of(0x28, 107, 15, &[0]),
        record_of(0x29, 124, 7, &[0]),
        record_of(0x2A, 133, 2, &[2, 3]),
        record_of(0x2B, 137, 12, &[1]),
        record_of(0x2C, 151, 2, &[1]),
        record_of(0x2D, 155, 6, &[1]),
        record_of(0xFD, 163, 29, &[0]),
    ];
    let after: [&[u8]; 6] = [
        b"",
        b"\x00",
        b"\xFF",
        &[0xFF; 3_000],
        b"\xFE\x04\x00\x00\x00\x00",
        b"TlvInfo\x00\x02\xFF\xFF",
    ];
    for after in after {
        let whole = [SWITCH, after].concat();
        let check = Call::check(ONIE, 3, &whole);
        listed(compare, &check, "the switch", &records);
        let few = records.len() * RECORD - 1;
        compare.case("the switch", &check.list(few), refused(12, 0), None);
        compare.case("the switch", &check.entry(0, 63), refused(12, 0), None);
    }

    // Each named code with each value, alone and between two unnamed entries.
    for (code, kept, _) in RULES {
        for value in kept {
            let reading = reading_of(code, value);
            let one = entry(code, value);
            let alone = image(&one);
            let check = Call::check(ONIE, 3, &alone);
            let records = [record_of(code, 11, value.len(), &reading)];
            listed(compare, &check, "one entry", &records);

            let between = [b"\x30\x02\x00\xFF", &one[..], b"\x30\x00"].concat();
            let between = image(&between);
            let check = Call::check(ONIE, 3, &between);
            let records = [
                record_of(0x30, 11, 2, &[0]),
                record_of(code, 15, value.len(), &reading),
                record_of(0x30, 17 + value.len(), 0, &[0]),
            ];
            listed(compare, &check, "three entries", &records);
        }
    }

    // Every code that no edition names, twice, with bytes that are no text.
    for code in 0x01..=0xFD {
        if !onie::NAMED[2].contains(&code) {
            let twice = image(&[&entry(code, b"\x00\xFF")[..], &entry(code, b"")].concat());
            let check = Call::check(ONIE, 3, &twice);
            let records = [record_of(code, 11, 2, &[0]), record_of(code, 15, 0, &[0])];
            listed(compare, &check, "unnamed", &records);
            compare.case("unnamed", &check.edit(1, b"", 99), refused(14, 15), None);
        }
    }
}

/// 3 for the length and the magic, 4 for the version, and 5 at 9 for the declared length.
pub fn header(compare: &mut Comparison) {
    let empty = bytes(EMPTY);
    for length in 0..11 {
        refused_image(compare, &SWITCH[..length], 3, 0);
        refused_image(compare, &b"TlvInfo\x00\x02\xFF\xFF"[..length], 3, 0);
    }
    for length in 11..SWITCH.len() {
        refused_image(compare, &SWITCH[..length], 5, 9);
    }
    for place in 0..9 {
        let number = if place < 8 { 3 } else { 4 };
        for byte in (0..=255).filter(|&byte| byte != empty[place]) {
            let mut image = empty.clone();
            image[place] = byte;
            refused_image(compare, &image, number, 0);
            // Before the declared length.
            image[9..11].copy_from_slice(&[0xFF, 0xFF]);
            let check = Call::check(ONIE, 3, &image[..11]);
            compare.case("before 5", &check, refused(number, 0), None);
        }
    }
    // The magic comes before the version.
    refused_image(
        compare,
        b"TlvInfo\x01\x02\x00\x06\xFE\x04\xD4\x43\x1C\x18",
        3,
        0,
    );

    // Past the image, and above 2,048 whatever the image has there: before what the walk would say.
    for (length, rest, number, place) in [
        (0, &b""[..], 5, 11),
        (1, b"", 5, 9),
        (1, b"\x00", 6, 11),
        (2, b"\x00", 5, 9),
        (6, b"\xFE\x04\xD4\x43\x1C", 5, 9),
        (7, b"\xFE\x04\xD4\x43\x1C\x18", 5, 9),
        (2_048, b"\xFE\x04\xD4\x43\x1C\x18", 5, 9),
        (2_049, b"\xFE\x04\xD4\x43\x1C\x18", 5, 9),
        (2_049, b"\x00", 5, 9),
        (0x0600, b"\xFE\x04\xD4\x43\x1C\x18", 5, 9),
        (0xFFFF, b"", 5, 9),
    ] {
        refused_image(compare, &declaring(length, rest), number, place);
    }
    let most = b"\x30\x00".repeat(1_021);
    let mut largest = image(&most);
    compare.next_case();
    compare.case("2,048", &Call::check(ONIE, 3, &largest), given(1_021), None);
    largest.resize(LONGEST, 0x00);
    compare.case("2,048", &Call::check(ONIE, 3, &largest), given(1_021), None);
    let more = image(&[&most[2..], b"\x30\x01\x00"].concat());
    let mut after = more.clone();
    after.resize(LONGEST, 0x00);
    for more in [more, after] {
        compare.next_case();
        let check = Call::check(ONIE, 3, &more);
        compare.case("2,049", &check, refused(5, 9), None);
        compare.case("2,049", &check.list(0), refused(5, 9), None);
        compare.case("2,049", &check.edit(0, b"", 17), refused(5, 9), None);
    }

    // Bytes after the check: after the walk, and before the check and the rules.
    for (rest, number, place) in [
        (&b"\xFE\x04\xD4\x43\x1C\x18\x00"[..], 5, 9),
        (b"\xFE\x04\xD4\x43\x1C\x18\xFF", 5, 9),
        (b"\xFE\x04....\xFE\x04....", 5, 9),
        (b"\xFE\x04....\x21\x00\xFE\x04....", 5, 9),
        (b"\x2C\x00\xFE\x04....\x00", 5, 9),
        (b"\x21\x00\x21\x00\xFE\x04....\x00", 5, 9),
        (b"\x00\x00\xFE\x04....\x00", 6, 11),
        (b"\x21\x09\xFE\x04....\x00", 5, 11),
        (b"\xFE\x04....", 10, 13),
        (b"\x2C\x00\xFE\x04....", 10, 15),
        (b"\x21\x00\x21\x00\xFE\x04....", 10, 17),
    ] {
        refused_image(compare, &framed(rest), number, place);
    }
    for more in 1..20 {
        let mut over = declaring(6 + more, b"\xFE\x04");
        over.extend(check32(&over).to_be_bytes());
        over.extend(vec![0xFF; more]);
        // The check is right, and it is the length that is not.
        refused_image(compare, &over, 5, 9);
    }
}

/// 6 and 5 of the walk, each at its entry, and 10 at the stored check.
pub fn frames(compare: &mut Comparison) {
    for (rest, number, place) in [
        // Where the entries run out.
        (&b""[..], 5, 11),
        (b"\x21", 5, 11),
        (b"\x21\x01", 5, 11),
        (b"\x21\x03ab", 5, 11),
        (b"\x21\x02ab", 5, 15),
        (b"\x21\x02ab\x30", 5, 15),
        (b"\x21\x02ab\x30\x00", 5, 17),
        (b"\x21\x02ab\x30\xFF\xFE\x04....", 5, 15),
        // Codes that no entry has, before a missing length byte.
        (b"\x00", 6, 11),
        (b"\xFF", 6, 11),
        (b"\x00\xFF", 6, 11),
        (b"\xFF\xFF", 6, 11),
        (b"\x30\x00\x00", 6, 13),
        (b"\x30\x00\xFF", 6, 13),
        (b"\x30\x01\x00\x00\x00", 6, 14),
        // The end.
        (b"\xFE", 5, 11),
        (b"\x30\x00\xFE", 5, 13),
        (b"\xFE\x03", 6, 11),
        (b"\xFE\x03...", 6, 11),
        (b"\xFE\x05", 6, 11),
        (b"\xFE\x05.....", 6, 11),
        (b"\xFE\x00\xFE\x04....", 6, 11),
        (b"\xFE\xFF\xFE\x04....", 6, 11),
        (b"\xFE\x04", 5, 11),
        (b"\xFE\x04.", 5, 11),
        (b"\xFE\x04..", 5, 11),
        (b"\xFE\x04...", 5, 11),
        (b"\x30\x00\xFE\x04...", 5, 13),
        (b"\xFE\x04\xD4\x43\x1C\x19", 10, 13),
        (b"\xFE\x04\x18\x1C\x43\xD4", 10, 13),
        (b"\x30\x00\xFE\x04....", 10, 15),
    ] {
        refused_image(compare, &framed(rest), number, place);
        // The room ends with the declared length, whatever follows.
        let mut longer = framed(rest);
        longer.extend(b"\xFE\x04\xD4\x43\x1C\x18");
        refused_image(compare, &longer, number, place);
    }
    for length in (0..=255).filter(|&length| length != 4) {
        refused_image(compare, &framed(&[0xFE, length]), 6, 11);
        let wrong_end = [&[0x30, 0, 0xFE, length][..], &vec![0; length.into()]].concat();
        refused_image(compare, &image(&wrong_end), 6, 13);
    }

    // The check: each wrong bit, low byte first, and over too little or too much.
    let right = check32(&SWITCH[..SWITCH_END + 2]);
    let mut wrong: Vec<u32> = (0..32).map(|bit| right ^ 1 << bit).collect();
    wrong.extend([
        right.swap_bytes(),
        right.reverse_bits(),
        !right,
        0,
        u32::MAX,
    ]);
    wrong.extend([
        check32(&SWITCH[..SWITCH_END]),
        check32(&SWITCH[..SWITCH_END + 1]),
        check32(&SWITCH[11..SWITCH_END + 2]),
        check32(&SWITCH[11..SWITCH_END]),
        check32(&SWITCH[..]),
    ]);
    for wrong in wrong {
        let mut image = SWITCH.to_vec();
        image[SWITCH_END + 2..].copy_from_slice(&wrong.to_be_bytes());
        refused_image(compare, &image, 10, SWITCH_END + 2);
    }
    // One bit of any value that may be any bytes, or is text in either case.
    for place in (40..63)
        .chain(77..83)
        .chain(135..137)
        .chain(165..SWITCH_END)
    {
        let mut image = SWITCH.to_vec();
        image[place] ^= 1;
        refused_image(compare, &image, 10, SWITCH_END + 2);
    }
}

/// 7 and 8, entry by entry: each named code with values that break its rule, read, written and as
/// the new value of an edit, and each of them a second time.
pub fn rules(compare: &mut Comparison) {
    for (code, kept, broken) in RULES {
        let good = entry(code, kept[0]);
        let old = image(&[b"\x30\x01\xFF", &good[..], b"\x31\x00"].concat());
        for value in broken {
            let bad = entry(code, value);
            refused_image(compare, &image(&bad), 7, 11);
            let later = [b"\x30\x01\xFF", &bad[..], b"\x31\x00"].concat();
            refused_image(compare, &image(&later), 7, 14);

            compare.next_case();
            let check = Call::check(ONIE, 3, &old);
            compare.case("7", &check.edit(1, value, 999), refused(7, 14), None);
            compare.case("7", &check.edit(1, value, 0), refused(7, 14), None);
            let list = list_of(&[(0xFD, b"1234"), (code.into(), value)]);
            let fields = list.bytes();
            for room in [999, 0] {
                let write = Call::write(ONIE, 3, &fields, &list.values, room);
                compare.case("7", &write, refused(7, 1), None);
            }
        }
        for value in kept {
            // Twice, next to each other and not, with the same value and another.
            for first in [&kept[0], value] {
                let one = entry(code, first);
                let next = [&one[..], &entry(code, value)].concat();
                let apart = [&one[..], b"\x30\x00", &entry(code, value)].concat();
                let list = list_of(&[(code.into(), first), (code.into(), value)]);
                let fields = list.bytes();
                let write = Call::write(ONIE, 3, &fields, &list.values, 600);
                if code == EXTENSION {
                    checked_in(compare, ONIE, 3, &hex(&image(&next)), given(2));
                    checked_in(compare, ONIE, 3, &hex(&image(&apart)), given(3));
                    let mut made = image(&next);
                    let length = made.len();
                    made.resize(600, 0xFF);
                    compare.case("FDh twice", &write, given(length), Some(&made));
                } else {
                    refused_image(compare, &image(&next), 8, 11 + one.len());
                    refused_image(compare, &image(&apart), 8, 13 + one.len());
                    compare.case("8", &write, refused(8, 1), None);
                }
            }
        }
        // A second one that is wrong by itself is that first.
        let wrong = entry(code, broken[0]);
        refused_image(
            compare,
            &image(&[&good[..], &wrong].concat()),
            7,
            11 + good.len(),
        );
    }
    for (entries, number, place) in [
        (&b"\x2C\x01C\x21\x00\x21\x00"[..], 7, 11),
        (b"\x21\x00\x21\x00\x2C\x01C", 8, 13),
        (b"\xFD\x041234\xFD\x03123\x30\x00", 7, 17),
        (b"\xFD\x041234\x22\x00\xFD\x041234\x22\x00", 8, 25),
    ] {
        refused_image(compare, &image(entries), number, place);
    }

    // Each byte of a text and of a country.
    for byte in 0..=255u8 {
        let capital = byte.is_ascii_uppercase();
        let text = (0x20..=0x7E).contains(&byte);
        let mut values = vec![
            (0x2C, vec![byte, b'Z'], capital),
            (0x2C, vec![b'A', byte], capital),
        ];
        for code in TEXTS {
            values.push((code, vec![byte], text));
            values.push((code, vec![b'a', byte, b'z'], text));
        }
        compare.next_case();
        for (code, value, fits) in values {
            let one = image(&entry(code, &value));
            let (answer, write_answer) = match fits {
                true => (given(1), given(one.len())),
                false => (refused(7, 11), refused(7, 0)),
            };
            compare.case("each byte", &Call::check(ONIE, 3, &one), answer, None);
            let list = list_of(&[(code.into(), &value)]);
            let fields = list.bytes();
            let write = Call::write(ONIE, 3, &fields, &list.values, one.len());
            let made = fits.then_some(&one[..]);
            compare.case("each byte", &write, write_answer, made);
        }
    }

    // Each length of each named code.
    for (code, _, _) in RULES {
        for length in 0..=255 {
            compare.next_case();
            let value = vec![b'A'; length];
            let fits = match code {
                0x24 => length == 6,
                0x25 => false,
                0x2A | 0x2C => length == 2,
                EXTENSION => length >= 4,
                _ => true,
            };
            let one = image(&entry(code, &value));
            let answer = match fits {
                true => given(1),
                false => refused(7, 11),
            };
            compare.case("each length", &Call::check(ONIE, 3, &one), answer, None);
        }
    }
}

/// Writes: the image without fields, the switch's named entries, codes that are 14, values above 255
/// bytes, and declared lengths on both sides of 2,048.
pub fn written(compare: &mut Comparison) {
    let empty = bytes(EMPTY);
    for room in [17, 18, 100, LONGEST] {
        compare.next_case();
        let mut made = empty.clone();
        made.resize(room, 0xFF);
        let write = Call::write(ONIE, 3, &[], &[], room);
        compare.case("no fields", &write, given(17), Some(&made));
    }
    for room in [0, 1, 11, 16] {
        let write = Call::write(ONIE, 3, &[], &[], room);
        compare.case("no fields", &write, refused(12, 0), None);
    }

    // The named entries of the switch, without the three that a write can't have.
    let places = [11, 38, 63, 75, 83, 133, 137, 151, 155, 163];
    let parts = places.map(|place| {
        let length = usize::from(SWITCH[place + 1]);
        let value = &SWITCH[place + 2..place + 2 + length];
        (u32::from(SWITCH[place]), value)
    });
    let without = [&SWITCH[11..104], &SWITCH[133..SWITCH_END]].concat();
    let made = image(&without);
    let list = list_of(&parts);
    let fields = list.bytes();
    for (room, fits) in [
        (0, false),
        (170, false),
        (171, true),
        (172, true),
        (400, true),
    ] {
        compare.next_case();
        let mut out = made.clone();
        out.resize(room, 0xFF);
        let write = Call::write(ONIE, 3, &fields, &list.values, room);
        match fits {
            true => compare.case("the switch", &write, given(171), Some(&out)),
            false => compare.case("the switch", &write, refused(12, 0), None),
        }
    }

    // Codes that are no field's: 00h, FEh, FFh, unnamed ones, and those above 255.
    for code in (0..=300).chain([0x2100, 0x0100_0021, 1 << 31 | 0x21, u32::MAX]) {
        let named = u8::try_from(code).is_ok_and(|code| onie::NAMED[2].contains(&code));
        if !named {
            compare.next_case();
            for (fields, number) in [
                (&[(code, &b"1234"[..])][..], 0),
                (&[(0x21, b"name"), (code, b"1234")], 1),
                (&[(0xFD, b"1234"), (0xFD, b"1234"), (code, b"")], 2),
                (&[(code, b""), (code, b""), (0x2C, b"cz")], 0),
            ] {
                let list = list_of(fields);
                let bytes = list.bytes();
                let write = Call::write(ONIE, 3, &bytes, &list.values, 300);
                compare.case("14", &write, refused(14, number), None);
            }
        }
    }

    // The order: 14, 13, 7 and 8 of a field before the next field, and 12 after all of them.
    let lent = b"CZcz";
    for (words, answer) in [
        (&[[0x2C, 0, 0, 0, 2]][..], refused(12, 0)),
        (&[[0x2C, 9, 9, 0, 2]], refused(12, 0)),
        (&[[0x2C, u32::MAX, u32::MAX, 0, 2]], refused(12, 0)),
        (&[[0x2C, 0, 0, 2, 2]], refused(7, 0)),
        (&[[0x2C, 0, 0, 3, 2]], refused(13, 0)),
        (&[[0x2C, 0, 0, 5, 0]], refused(13, 0)),
        (&[[0x2C, 0, 0, 4, 0]], refused(7, 0)),
        (&[[0x21, 0, 0, 4, 0]], refused(12, 0)),
        (&[[0x21, 0, 0, u32::MAX, 5]], refused(13, 0)),
        (&[[0x26, 0, 0, 5, 0]], refused(14, 0)),
        (&[[0x2C, 0, 0, 0, 2], [0x2C, 0, 0, 0, 2]], refused(8, 1)),
        (&[[0x2C, 0, 0, 0, 2], [0x2C, 0, 0, 2, 2]], refused(7, 1)),
        (&[[0x2C, 0, 0, 0, 2], [0x2C, 0, 0, 3, 2]], refused(13, 1)),
        (&[[0x2C, 0, 0, 2, 2], [0xFE, 0, 0, 0, 4]], refused(7, 0)),
        (&[[0xFD, 0, 0, 0, 4], [0xFD, 0, 0, 0, 4]], refused(12, 0)),
        (&[[0xFD, 0, 0, 0, 4], [0xFD, 0, 0, 0, 3]], refused(7, 1)),
    ] {
        compare.next_case();
        let fields = words.iter().flatten();
        let fields: Vec<u8> = fields.flat_map(|word: &u32| word.to_le_bytes()).collect();
        let write = Call::write(ONIE, 3, &fields, lent, 17);
        compare.case("order", &write, answer, None);
    }

    // Values on both sides of 255 bytes.
    let long = [b'x'; 300];
    for code in TEXTS.into_iter().chain([EXTENSION]) {
        compare.next_case();
        for length in [254, 255, 256, 257, 300] {
            let list = list_of(&[(code.into(), &long[..length])]);
            let fields = list.bytes();
            let write = Call::write(ONIE, 3, &fields, &list.values, 600);
            let answer = match length {
                254 | 255 => given(19 + length),
                _ => refused(7, 0),
            };
            compare.case("255", &write, answer, None);
        }
    }

    // Declared lengths up to 2,048, into outputs that are long enough and not.
    let mut random = Random::of_input(0, ONIE, 0);
    for length in (6..=12)
        .chain([255, 256, 257, 511, 512, 513])
        .chain(2_040..=2_056)
    {
        if length == 7 {
            // An entry has at least two bytes.
            continue;
        }
        compare.next_case();
        let entries = onie::fields_declaring(&mut random, length);
        let parts: Vec<(u32, &[u8])> = entries
            .iter()
            .map(|entry| (entry.code.into(), &entry.value[..]))
            .collect();
        let list = list_of(&parts);
        let fields = list.bytes();
        let made = Image::new(Format::Onie, entries.clone()).bytes();
        for room in [length + 10, length + 11, length + 12, LONGEST] {
            let write = Call::write(ONIE, 3, &fields, &list.values, room);
            if length <= 2_048 && room >= length + 11 {
                let mut out = made.clone();
                out.resize(room, 0xFF);
                compare.case("2,048", &write, given(length + 11), Some(&out));
            } else {
                compare.case("2,048", &write, refused(12, 0), None);
            }
        }
    }
    // Far above it, where two bytes can't hold the length, and where the sum is large.
    for count in [255, 256, 300, 5_000] {
        compare.next_case();
        let mut fields = vec![[0xFD, 0, 0, 0, 255]; count];
        let bytes = |fields: &[[u32; 5]]| -> Vec<u8> {
            let words = fields.iter().flatten();
            words.flat_map(|word| word.to_le_bytes()).collect()
        };
        let all = bytes(&fields);
        let write = Call::write(ONIE, 3, &all, &long, LONGEST);
        compare.case("far above", &write, refused(12, 0), None);
        fields.push([0xFD, 0, 0, 0, 256]);
        let all = bytes(&fields);
        let write = Call::write(ONIE, 3, &all, &long, LONGEST);
        compare.case("7, then 12", &write, refused(7, count as u64), None);
    }
}

/// Edits: the value and its length become new, and the declared length and the check. All other
/// entries keep their bytes.
pub fn edited(compare: &mut Comparison) {
    let after = [&SWITCH[..], b"\x00\xFF after the end"].concat();
    for whole in [&SWITCH[..], &after] {
        let check = Call::check(ONIE, 3, whole);
        for (n, place, new) in [
            (0, 11, &b""[..]),
            (0, 11, b"Czechlight BiDi Amplifier"),
            (0, 11, &[b'x'; 255]),
            (1, 38, b"sdn-roadm-line-g2"),
            (2, 63, b"9876543210"),
            (3, 75, b"\xFE\xDC\xBA\x98\x76\x54"),
            (4, 83, b"02/29/2000 23:59:59"),
            (8, 133, b"\xFF\x00"),
            (9, 137, b" "),
            (10, 151, b"DE"),
            (11, 155, b"Vendor 2"),
            (12, 163, b"\x00\x00\x1F\x79"),
            (12, 163, &[0x00; 255]),
        ] {
            compare.next_case();
            let old = usize::from(SWITCH[place + 1]);
            let kept = &SWITCH[11..place];
            let rest = &SWITCH[place + 2 + old..SWITCH_END];
            let made = image(&[kept, &entry(SWITCH[place], new), rest].concat());
            let length = made.len();
            for room in [length, length + 1, length + 100, LONGEST] {
                let mut out = made.clone();
                out.resize(room, 0xFF);
                let call = check.edit(n, new, room);
                compare.case("edited", &call, given(length), Some(&out));
            }
            let call = check.edit(n, new, length - 1);
            compare.case("edited", &call, refused(12, 0), None);
        }
        compare.next_case();
        for (n, new, answer) in [
            (SWITCH_ENTRIES, &b""[..], refused(13, 0)),
            (u64::MAX, b"", refused(13, 0)),
            (5, b"\x02", refused(14, 104)),
            (6, b"", refused(14, 107)),
            (7, b"\xFF", refused(14, 124)),
            (0, b"\x00", refused(7, 11)),
            (0, &[b'x'; 256], refused(7, 11)),
            (3, b"12345", refused(7, 75)),
            (4, b"20230615", refused(7, 83)),
            (4, b"99/99/9999 99:99:99", refused(7, 83)),
            (4, b"02/29/1900 23:59:59", refused(7, 83)),
            (8, b"3", refused(7, 133)),
            (10, b"cz", refused(7, 151)),
            (12, b"123", refused(7, 163)),
            (12, &[0; 256], refused(7, 163)),
        ] {
            for room in [0, 1_000] {
                compare.case("refused", &check.edit(n, new, room), answer, None);
            }
        }
    }

    // To a declared length of 2,048 and past it, from one below.
    let mut random = Random::of_input(0, ONIE, 1);
    for length in [2_040, 2_047, 2_048] {
        let mut entries = onie::fields_declaring(&mut random, length);
        entries.sort_by_key(|entry| entry.code == EXTENSION);
        let full = Image::new(Format::Onie, entries.clone()).bytes();
        let old = entries[0].value.len();
        let check = Call::check(ONIE, 3, &full);
        for new in (old - 3..old + 12).chain([254, 255, 256]) {
            compare.next_case();
            let value = vec![b'v'; new];
            let declared = length - old + new;
            let made = {
                let mut entries = entries.clone();
                entries[0].value = value.clone();
                Image::new(Format::Onie, entries).bytes()
            };
            for room in [ONIE_LONGEST - 1, ONIE_LONGEST, ONIE_LONGEST + 1, LONGEST] {
                let call = check.edit(0, &value, room);
                if new > 255 {
                    compare.case("7, then 12", &call, refused(7, 11), None);
                } else if declared <= 2_048 && room >= made.len() {
                    let mut out = made.clone();
                    out.resize(room, 0xFF);
                    compare.case("2,048", &call, given(made.len()), Some(&out));
                } else {
                    compare.case("2,048", &call, refused(12, 0), None);
                }
            }
        }
    }
}

/// Every declared length to past the longest: of the image without entries, of one that is full of
/// the shortest entries, and of one that is right for it.
pub fn declared_lengths(compare: &mut Comparison) {
    let mut empty = bytes(EMPTY);
    empty.resize(2_200, 0xFF);
    let mut full = image(&b"\x30\x00".repeat(1_021));
    full.resize(2_200, 0xFF);
    let right_for = |length: usize| {
        let entries = b"\x30\x00".repeat((length - 6) / 2);
        match length % 2 {
            0 => image(&entries),
            // An odd length has an entry of three bytes.
            _ => image(&[&entries[2..], b"\x30\x01\x00"].concat()),
        }
    };
    let lengths = (0..=2_150).chain([4_096, 0x7FFF, 0x8000, 0xFFFE, 0xFFFF]);
    for length in lengths {
        compare.next_case();
        let stored = (length as u16).to_be_bytes();
        let past = (length > 2_048).then_some(refused(5, 9));

        empty[9..11].copy_from_slice(&stored);
        let answer = past.unwrap_or(match length {
            0..=5 => refused(5, 11),
            6 => given(0),
            _ => refused(5, 9),
        });
        compare.case("without", &Call::check(ONIE, 3, &empty), answer, None);

        full[9..11].copy_from_slice(&stored);
        let answer = past.unwrap_or(match length {
            0..=2_041 => refused(5, 11 + length as u64 / 2 * 2),
            2_042..=2_047 => refused(5, 2_053),
            _ => given(1_021),
        });
        let check = Call::check(ONIE, 3, &full);
        compare.case("full", &check, answer, None);
        compare.case("full", &check.list(1_021 * RECORD), answer, None);

        if length == 6 || (8..=2_150).contains(&length) {
            let right = right_for(length);
            let check = Call::check(ONIE, 3, &right);
            let count = (length - 6) / 2;
            let answer = past.unwrap_or(given(count));
            compare.case("right", &check, answer, None);
            compare.case("right", &check.list(count * RECORD), answer, None);
            // One byte less than it declares, and one more.
            let cut = &right[..right.len() - 1];
            compare.case("cut", &Call::check(ONIE, 3, cut), refused(5, 9), None);
            let more = [&right[..], b"\x00"].concat();
            compare.case("more", &Call::check(ONIE, 3, &more), answer, None);
        }
    }
}
