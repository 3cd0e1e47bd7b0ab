//! The cases of 02, Vendor blocks for the optics lab, and of 003.

use images::checks::check32;
use images::image::{seal, Entry, Format, Image, LONGEST, ONIE_LONGEST};
use images::onie::EXTENSION;
use images::random::Random;
use images::vendor::{self, block, extension, extensions, payload, Writing, PREFIX};

use super::onie::{entry, image, SWITCH};
use super::*;
use crate::call::block_bytes;
use crate::comparison::BLOCK;
use crate::plan;

/// The payload of 003's example: the serial DQ000MPW, and all offsets 0.
const EXAMPLE: &[u8; 24] =
    b"\x08DQ000MPW\x00\x09\x00\x00\x00\x00\x00\x00\x00\x00\x00\x02\x60\x51\x4B";
const SERIAL: &[u8; 8] = b"DQ000MPW";

/// 003's example as one vendor extension, and as two.
const ONE: &[u8] = b"\xFD\x1D\x00\x00\x1F\x79\x00\x08DQ000MPW\x00\x09\x00\x00\x00\x00\x00\x00\x00\x00\x00\x02\x60\x51\x4B";
const TWO: [&[u8]; 2] = [
    b"\xFD\x1C\x00\x00\x1F\x79\x00\x08DQ000MPW\x00\x09\x00\x00\x00\x00\x00\x00\x00\x00\x00\x02\x60\x51",
    b"\xFD\x06\x00\x00\x1F\x79\x00\x4B",
];

/// Offsets at the edges, each at another place in each line.
const OFFSETS: [[i8; 8]; 5] = [
    [0; 8],
    [-128, -127, -2, -1, 0, 1, 24, 127],
    [127, -128, 126, 0, -1, 64, -64, 2],
    [-128; 8],
    [-1, 127, -1, 127, -1, 127, -1, 127],
];

/// Values of vendor extensions that hold no piece: four bytes of the prefix, another fifth byte, a
/// wrong byte at each place, the prefix late, or nothing like it.
const FOREIGN: [&[u8]; 14] = [
    b"\x00\x00\x1F\x79",
    b"\x00\x00\x1F\x79\x01",
    b"\x00\x00\x1F\x79\x01\x08DQ000MPW",
    b"\x00\x00\x1F\x79\x80\x00",
    b"\x00\x00\x1F\x79\xFF\x00\x00",
    b"\x00\x00\x1F\x78\x00\x00",
    b"\x00\x00\x1E\x79\x00\x00",
    b"\x00\x01\x1F\x79\x00\x00",
    b"\x01\x00\x1F\x79\x00\x00",
    b"\x79\x1F\x00\x00\x00\x00",
    b"\x00\x00\x00\x1F\x79\x00",
    b"\x00\x1F\x79\x00\x00",
    b"\x00\x00\x00\x00\x00",
    b"other\x00\x00\x1F\x79\x00",
];

/// An image with a payload in as many pieces as it needs.
fn amplifier(payload: &[u8]) -> Vec<u8> {
    let pieces = payload.chunks(vendor::LONGEST_PIECE).map(extension);
    Image::new(Format::Onie, pieces.collect()).bytes()
}

/// A read that gives a payload: into memory that just fits and into more, and 12 where the buffer or
/// the block is short.
fn reads(compare: &mut Comparison, what: &str, image: &[u8], payload: &[u8], offsets: [i8; 8]) {
    compare.next_case();
    let check = Call::check(ONIE, 3, image);
    let length = payload.len();
    let block = block_bytes(usize::from(payload[0]), offsets);
    for (room, block_room) in [(length, BLOCK), (length + 1, BLOCK + 1), (3_000, 60)] {
        let call = check.vendor_read(room, block_room);
        compare.vendor_case(what, &call, given(length), [payload, &block]);
    }
    for (room, block_room) in [
        (length - 1, BLOCK),
        (length, BLOCK - 1),
        (0, BLOCK),
        (length, 0),
        (0, 0),
    ] {
        let call = check.vendor_read(room, block_room);
        compare.vendor_case(what, &call, refused(12, 0), [&[], &[]]);
    }
}

/// A read that is refused, whatever the buffer and the block.
fn refuses(compare: &mut Comparison, what: &str, image: &[u8], number: u64, place: u64) {
    compare.next_case();
    let check = Call::check(ONIE, 3, image);
    for (room, block_room) in [(3_000, BLOCK), (0, BLOCK), (3_000, 0), (0, 0), (24, 47)] {
        let call = check.vendor_read(room, block_room);
        compare.vendor_case(what, &call, refused(number, place), [&[], &[]]);
    }
}

/// Format and edition: 16 for any format but 4, then 1, then 16 for editions 1 and 2; then 2 for the
/// image, the buffer and the output, before anything is said of them.
pub fn known(compare: &mut Comparison) {
    let example = image(ONE);
    let mut long = example.clone();
    long.resize(LONGEST + 1, 0xFF);
    let images: [&[u8]; 5] = [
        &example,
        b"",
        b"TlvInfo\x00\x02\x00\x06",
        &image(b""),
        &long,
    ];
    let writes: [(&[u8], &[u32]); 3] = [(SERIAL, &[24]), (SERIAL, &[251]), (&[b'S'; 256], &[])];
    let nothing: [&[u8]; 2] = [&[], &[]];

    for format in [
        0,
        1,
        2,
        3,
        4,
        5,
        6,
        255,
        256,
        257,
        258,
        259,
        260,
        1 << 16 | 4,
        1 << 31 | 4,
        u32::MAX,
    ] {
        for edition in [
            0,
            1,
            2,
            3,
            4,
            5,
            255,
            256,
            257,
            258,
            259,
            260,
            1 << 16 | 3,
            1 << 31 | 3,
            1 << 16 | 4,
            1 << 31 | 4,
            u32::MAX,
        ] {
            let number = match (format, edition) {
                (4, 3 | 4) => continue,
                (4, 1 | 2) => 16,
                (4, _) => 1,
                _ => 16,
            };
            compare.next_case();
            for image in images {
                for (room, block_room) in [(24, BLOCK), (0, 0), (LONGEST + 1, BLOCK)] {
                    let call = Call::check(format, edition, image).vendor_read(room, block_room);
                    compare.vendor_case("known", &call, refused(number, 0), nothing);
                }
            }
            for (serial, pieces) in writes {
                let pieces = piece_bytes(pieces);
                for room in [29, 0, LONGEST + 1] {
                    let call = Call::vendor_write(format, edition, serial, 0, &pieces, room);
                    compare.vendor_case("known", &call, refused(number, 0), nothing);
                }
            }
        }
    }

    compare.next_case();
    for image in images {
        for block_room in [BLOCK, 0, LONGEST + 1] {
            let call = Call::check(ONIE, 3, image).vendor_read(LONGEST + 1, block_room);
            compare.vendor_case("2", &call, refused(2, 0), nothing);
        }
    }
    for room in [24, 0, LONGEST, LONGEST + 1] {
        let call = Call::check(ONIE, 3, &long).vendor_read(room, BLOCK);
        compare.vendor_case("2", &call, refused(2, 0), nothing);
    }
    for (serial, pieces) in writes {
        let pieces = piece_bytes(pieces);
        let call = Call::vendor_write(ONIE, 3, serial, 0, &pieces, LONGEST + 1);
        compare.vendor_case("2", &call, refused(2, 0), nothing);
    }
    // At the longest nothing is too long, and a block may have any length.
    let block = block_bytes(8, [0; 8]);
    for (length, room, block_room) in [
        (example.len(), LONGEST, BLOCK),
        (LONGEST, 24, BLOCK),
        (LONGEST, LONGEST, BLOCK),
        (example.len(), 24, LONGEST + 1),
    ] {
        let call = Call::check(ONIE, 3, &long[..length]).vendor_read(room, block_room);
        compare.vendor_case("longest", &call, given(24), [EXAMPLE, &block]);
    }
    let pieces = piece_bytes(&[24]);
    let call = Call::vendor_write(ONIE, 3, SERIAL, 0, &pieces, LONGEST);
    compare.vendor_case("longest", &call, given(29), [&ONE[2..], &[]]);
}

/// 003's example and other payloads, however they are cut and whatever stands around the pieces.
pub fn read(compare: &mut Comparison) {
    let no_offsets = [0; 8];
    reads(compare, "003, one", &image(ONE), EXAMPLE, no_offsets);
    let two = TWO.concat();
    reads(compare, "003, two", &image(&two), EXAMPLE, no_offsets);
    reads(compare, "the switch", SWITCH, EXAMPLE, no_offsets);
    let after = [&image(ONE)[..], ONE, &[0xFF; 99]].concat();
    reads(compare, "bytes after", &after, EXAMPLE, no_offsets);

    // Every way to cut it in three, empty pieces among them, with other entries around.
    let other = [
        Entry::new(0x21, b"name".to_vec()),
        Entry::new(EXTENSION, PREFIX[..4].to_vec()),
        Entry::new(0x30, [&PREFIX[..], b"\x01\x02"].concat()),
        Entry::new(EXTENSION, b"\x00\x00\x1F\x79\x01\x08".to_vec()),
    ];
    for first in 0..=EXAMPLE.len() {
        for second in first..=EXAMPLE.len() {
            let lengths = [first, second - first, EXAMPLE.len() - second];
            let pieces = extensions(EXAMPLE, &lengths);
            let around: Vec<Entry> = (other.iter().zip(&pieces))
                .flat_map(|(other, piece)| [other.clone(), piece.clone()])
                .chain([other[3].clone()])
                .collect();
            compare.next_case();
            let block = block_bytes(8, no_offsets);
            for entries in [pieces, around] {
                let image = Image::new(Format::Onie, entries).bytes();
                let call = Call::check(ONIE, 3, &image).vendor_read(24, BLOCK);
                compare.vendor_case("cut", &call, given(24), [EXAMPLE, &block]);
            }
        }
    }
    let each = Image::new(Format::Onie, extensions(EXAMPLE, &[1; 24])).bytes();
    reads(compare, "a byte a piece", &each, EXAMPLE, no_offsets);
    let empty = extension(b"").bytes(Format::Onie);
    let around = [&empty[..], &empty, ONE, &empty].concat();
    reads(compare, "empty", &image(&around), EXAMPLE, no_offsets);
    let most = [&empty.repeat(287)[..], ONE].concat();
    reads(compare, "many empty", &image(&most), EXAMPLE, no_offsets);

    for value in FOREIGN {
        let foreign = entry(EXTENSION, value);
        let between = [&foreign[..], TWO[0], &foreign, TWO[1], &foreign].concat();
        reads(compare, "foreign", &image(&between), EXAMPLE, no_offsets);
        refuses(compare, "foreign alone", &image(&foreign), 17, 0);
    }
    // Each other code that an entry may have, with the same value: a piece only as FDh.
    for code in 0x01..=0xFC {
        let other = entry(code, &ONE[2..]);
        if matches!(code, 0x21..=0x25 | 0x2A..=0x2D) {
            refuses(compare, "named", &image(&other), 7, 11);
        } else {
            refuses(compare, "unnamed", &image(&other), 17, 0);
            let beside = [&other[..], TWO[0], &other, TWO[1]].concat();
            reads(compare, "unnamed", &image(&beside), EXAMPLE, no_offsets);
        }
    }

    // Every length of a serial, of any bytes, and offsets at the edges.
    for length in 0..=255 {
        let serial: Vec<u8> = (0..length).map(|place| (place * 167 + 91) as u8).collect();
        let offsets = OFFSETS[length % OFFSETS.len()];
        let one = payload(&serial, &block(offsets));
        reads(compare, "serial", &amplifier(&one), &one, offsets);
    }
    // Each value of each offset.
    for place in 0..8 {
        for offset in i8::MIN..=i8::MAX {
            compare.next_case();
            let mut offsets = [0; 8];
            offsets[place] = offset;
            let mut bytes = [0x00; 9];
            bytes[1 + place] = offset as u8;
            let one = payload(SERIAL, &bytes);
            let image = amplifier(&one);
            let call = Call::check(ONIE, 3, &image).vendor_read(24, BLOCK);
            let block = block_bytes(8, offsets);
            compare.vendor_case("offset", &call, given(24), [&one, &block]);
        }
    }
    // 003: 18h is 24 tenths of a decibel, and FEh is -2.
    let one = payload(SERIAL, b"\x00\x18\xFE\x80\x7F\xFF\x00\x01\x81");
    let offsets = [24, -2, -128, 127, -1, 0, 1, -127];
    reads(compare, "18h and FEh", &amplifier(&one), &one, offsets);
}

/// 17 to 20, in this order, after the image's own refusals and before 12.
pub fn payloads(compare: &mut Comparison) {
    // The image's own, each with a payload that is right and with none.
    for entries in [ONE, b""] {
        let right = image(entries);
        let end = right.len();
        let check = end as u64 - 4;
        let after = check - 2;
        for length in 0..11 {
            refuses(compare, "3", &right[..length], 3, 0);
        }
        for length in 11..end {
            refuses(compare, "5", &right[..length], 5, 9);
        }
        for (place, byte, number, at) in [
            (7, 0x01, 3, 0),
            (8, 0x02, 4, 0),
            (9, 0x08, 5, 9),
            (11, 0x00, 6, 11),
            (11, 0xFF, 6, 11),
            (end - 6, 0x00, 6, after),
            (end - 5, 0x03, 6, after),
            (end - 1, right[end - 1] ^ 1, 10, check),
        ] {
            let mut wrong = right.clone();
            wrong[place] = byte;
            refuses(compare, "the image's own", &wrong, number, at);
        }
        let twice = [entries, b"\x21\x00\x21\x00"].concat();
        refuses(compare, "8", &image(&twice), 8, after + 2);
        let short = [entries, b"\xFD\x03\x00\x00\x1F"].concat();
        refuses(compare, "7", &image(&short), 7, after);
    }

    // 17: no matching entry. With one that is empty it is 18.
    refuses(compare, "no entries", &image(b""), 17, 0);
    refuses(compare, "no extension", &image(b"\x21\x04name"), 17, 0);
    let empty = extension(b"").bytes(Format::Onie);
    for count in [1, 2, 291] {
        refuses(compare, "empty", &image(&empty.repeat(count)), 18, 0);
    }
    let foreign = entry(EXTENSION, FOREIGN[0]);
    for entries in [
        [&foreign[..], &empty].concat(),
        [&empty[..], &foreign].concat(),
    ] {
        refuses(compare, "empty and foreign", &image(&entries), 18, 0);
    }

    // 18: the example cut short anywhere or with bytes after it, the check right for what is left,
    // and each length of serial and block that it can say.
    for length in 1..40 {
        let mut cut = EXAMPLE.to_vec();
        cut.resize(length, 0x00);
        if length != EXAMPLE.len() {
            refuses(compare, "length", &amplifier(&cut), 18, 0);
            vendor::seal(&mut cut);
            refuses(compare, "length, sealed", &amplifier(&cut), 18, 0);
        }
    }
    let [a, b] = [&EXAMPLE[..12], &EXAMPLE[12..]].map(|piece| extension(piece).bytes(Format::Onie));
    for entries in [
        [&b[..], &a].concat(),
        [&a[..], &a, &b].concat(),
        [&a[..], &b, &b].concat(),
        a.clone(),
        b.clone(),
        [ONE, ONE].concat(),
    ] {
        refuses(compare, "pieces", &image(&entries), 18, 0);
    }
    for place in [0, 9, 10] {
        for byte in 0..=255 {
            let mut other = EXAMPLE.to_vec();
            other[place] = byte;
            vendor::seal(&mut other);
            if !is_as_long_as_its_parts(&other) {
                refuses(compare, "a length", &amplifier(&other), 18, 0);
            }
        }
    }
    for (serial, block) in [
        (0, 0x0900),
        (255, 0xFFFF),
        (0, 0xFFFF),
        (255, 0),
        (1, 0x0109),
    ] {
        let [high, low] = u16::to_be_bytes(block);
        let mut other = [&[serial][..], &vec![0x00; serial.into()], &[high, low]].concat();
        other.extend([0; 9 + 4]);
        vendor::seal(&mut other);
        refuses(compare, "two lengths", &amplifier(&other), 18, 0);
    }

    // 19: each wrong bit of the check and of what it is over; the check over too little or too much.
    for place in (1..9).chain(11..24) {
        for bit in 0..8 {
            let mut wrong = EXAMPLE.to_vec();
            wrong[place] ^= 1 << bit;
            refuses(compare, "a bit", &amplifier(&wrong), 19, 0);
        }
    }
    let covered = &EXAMPLE[..20];
    let right = check32(covered);
    for wrong in [
        right.swap_bytes(),
        right.reverse_bits(),
        !right,
        0,
        u32::MAX,
        check32(&covered[..19]),
        check32(&covered[1..]),
        check32(EXAMPLE),
        check32(&covered[..9]),
        check32(&[&PREFIX, covered].concat()),
    ] {
        let wrong = [covered, &wrong.to_be_bytes()].concat();
        refuses(compare, "another check", &amplifier(&wrong), 19, 0);
    }

    // 20: each other version, and each other length of a block, with a right check.
    for version in 1..=255 {
        let mut other = block(OFFSETS[1]);
        other[0] = version;
        let other = payload(SERIAL, &other);
        refuses(compare, "version", &amplifier(&other), 20, 0);
    }
    for length in (0..=300).filter(|&length| length != 9) {
        for byte in [0x00, 0x01] {
            let other = payload(SERIAL, &vec![byte; length]);
            refuses(compare, "block", &amplifier(&other), 20, 0);
        }
    }
    // As long as an image can hold: eight entries of 255 bytes at most.
    for length in 1_950..=1_964 {
        let other = payload(SERIAL, &vec![0x00; length]);
        let image = amplifier(&other);
        let answer = match image.len() {
            0..=ONIE_LONGEST => (20, 0),
            _ => (5, 9),
        };
        refuses(compare, "longest", &image, answer.0, answer.1);
    }

    // What is wrong in several ways is refused for the first of them.
    for block in [&[0x01; 9][..], &[0x00; 8], &[0x00; 10], &[]] {
        let mut wrong = payload(b"S", block);
        let last = wrong.len() - 1;
        wrong[last] ^= 1;
        refuses(compare, "19, then 20", &amplifier(&wrong), 19, 0);
        let longer = [&wrong[..], b"\x00"].concat();
        refuses(compare, "18, then 19", &amplifier(&longer), 18, 0);
        refuses(compare, "18, then 19", &amplifier(&wrong[..last]), 18, 0);
        let mut longer = [&payload(b"S", block)[..], b"\x00"].concat();
        vendor::seal(&mut longer);
        refuses(compare, "18, then 20", &amplifier(&longer), 18, 0);
    }
}

/// Whether a payload's two lengths can be read and make up its own.
fn is_as_long_as_its_parts(payload: &[u8]) -> bool {
    let serial = usize::from(payload[0]);
    match payload.get(serial + 1..serial + 3) {
        Some(length) => {
            let block = usize::from(length[0]) << 8 | usize::from(length[1]);
            payload.len() == serial + block + 7
        }
        None => false,
    }
}

/// The lengths of pieces as they lie in lent bytes.
fn piece_bytes(pieces: &[u32]) -> Vec<u8> {
    pieces.iter().flat_map(|word| word.to_le_bytes()).collect()
}

/// A write of these pieces: the values into memory that just fits and into more, and 12 into less.
fn writes(compare: &mut Comparison, what: &str, serial: &[u8], offsets: [i8; 8], pieces: &[u32]) {
    compare.next_case();
    let payload = payload(serial, &block(offsets));
    let mut rest = &payload[..];
    let mut values = Vec::new();
    for &piece in pieces {
        let (piece, after) = rest.split_at(piece as usize);
        values.extend([&PREFIX, piece].concat());
        rest = after;
    }
    let length = values.len();
    let writing = Writing::new(serial.to_vec(), offsets, pieces.to_vec());
    let pieces = writing.piece_bytes();
    let write = |room| Call::vendor_write(ONIE, 3, serial, writing.offsets, &pieces, room);
    for room in [length, length + 1, length + 100, LONGEST] {
        compare.vendor_case(what, &write(room), given(length), [&values, &[]]);
    }
    for room in [length - 1, 16 + serial.len(), 0] {
        if room < length {
            compare.vendor_case(what, &write(room), refused(12, 0), [&[], &[]]);
        }
    }
}

/// A write that is 18, whatever the output.
fn refuses_write(compare: &mut Comparison, what: &str, serial: usize, pieces: &[u8]) {
    compare.next_case();
    let serial = vec![b'S'; serial];
    for room in [600, 0, LONGEST] {
        let call = Call::vendor_write(ONIE, 3, &serial, 0, pieces, room);
        compare.vendor_case(what, &call, refused(18, 0), [&[], &[]]);
    }
}

/// A write of 003's serial and offsets.
fn write(pieces: &[u8], room: usize) -> Call<'_> {
    Call::vendor_write(ONIE, 3, SERIAL, 0, pieces, room)
}

/// Writes: 003's example in one piece and in two, and 18 for the serial and for the pieces.
pub fn written(compare: &mut Comparison) {
    compare.next_case();
    let [one, two] = [&[24][..], &[23, 1]].map(piece_bytes);
    let values = [&TWO[0][2..], &TWO[1][2..]].concat();
    compare.vendor_case("003, one", &write(&one, 29), given(29), [&ONE[2..], &[]]);
    compare.vendor_case("003, two", &write(&two, 34), given(34), [&values, &[]]);
    compare.vendor_case("003, one", &write(&one, 28), refused(12, 0), [&[], &[]]);
    compare.vendor_case("003, two", &write(&two, 33), refused(12, 0), [&[], &[]]);

    for offsets in OFFSETS {
        for pieces in [
            &[24][..],
            &[23, 1],
            &[1, 23],
            &[0, 24],
            &[24, 0],
            &[0, 12, 0, 0, 12, 0],
            &[1; 24],
            &[9, 2, 9, 4],
        ] {
            writes(compare, "written", SERIAL, offsets, pieces);
        }
    }
    // Each value of each offset, the others another.
    for place in 0..8 {
        for offset in i8::MIN..=i8::MAX {
            compare.next_case();
            let mut offsets = [-1; 8];
            offsets[place] = offset;
            let word = !(0xFF << (8 * place)) | u64::from(offset as u8) << (8 * place);
            let call = Call::vendor_write(ONIE, 3, SERIAL, word, &one, 29);
            let values = [&PREFIX[..], &payload(SERIAL, &block(offsets))].concat();
            compare.vendor_case("offset", &call, given(29), [&values, &[]]);
        }
    }
    for length in 0..=255 {
        let serial: Vec<u8> = (0..length).map(|place| (place * 89 + 7) as u8).collect();
        let total = 16 + length as u32;
        let offsets = OFFSETS[length % OFFSETS.len()];
        let half = total / 2;
        writes(compare, "serial", &serial, offsets, &[half, total - half]);
        match total {
            0..=250 => writes(compare, "serial", &serial, offsets, &[total]),
            _ => {
                writes(compare, "250", &serial, offsets, &[250, total - 250]);
                writes(compare, "250", &serial, offsets, &[total - 250, 250]);
                // One piece more than 250 bytes long, alone and with the rest.
                refuses_write(compare, "above 250", length, &piece_bytes(&[total]));
                let long = [total - 251, 251];
                refuses_write(compare, "251", length, &piece_bytes(&long));
                let long = [251, total - 251];
                refuses_write(compare, "251", length, &piece_bytes(&long));
            }
        }
        for pieces in [
            &[half, total - half - 1][..],
            &[half, total - half + 1],
            &[half],
            &[],
            &[0],
        ] {
            refuses_write(compare, "one off", length, &piece_bytes(pieces));
        }
    }
    for (serial, pieces) in [
        (8, &[0, 0, 0][..]),
        (8, &[24, 24]),
        (8, &[8]),
        (8, &[20]),
        (8, &[29]),
        (8, &[24, 251]),
        (8, &[251, 24]),
        // Words whose low bits, or whose sum of 32 bits, are right.
        (8, &[1 << 8 | 24]),
        (8, &[1 << 16 | 24]),
        (8, &[1 << 31 | 24]),
        (8, &[24 << 24]),
        (8, &[u32::MAX, 25]),
        (8, &[25, u32::MAX]),
        (8, &[24, 1 << 31, 1 << 31]),
        (8, &[1 << 31, 24, 1 << 31]),
        (8, &[u32::MAX - 23, 24, 24]),
        (8, &[u32::MAX]),
        // A serial above 255 bytes, the pieces right for it or for what is left of its length.
        (256, &[136, 136]),
        (256, &[250, 22]),
        (256, &[16]),
        (257, &[250, 23]),
        (257, &[17]),
        (300, &[250, 66]),
        (300, &[60]),
        (65_536, &[16]),
        (70_000, &[]),
    ] {
        refuses_write(compare, "18", serial, &piece_bytes(pieces));
    }

    // A last length that is cut short counts as none.
    for cut in 1..4 {
        for last in [[0; 4], [1, 0, 0, 0], [1, 1, 1, 1], [0xFF; 4]] {
            compare.next_case();
            let pieces = [&one[..], &last[..cut]].concat();
            let call = write(&pieces, 40);
            compare.vendor_case("cut short", &call, given(29), [&ONE[2..], &[]]);
        }
        refuses_write(compare, "cut short", 8, &one[..cut]);
        refuses_write(compare, "cut short", 8, &two[..4 + cut]);
    }

    // Empty pieces have a prefix each: as many as an output can hold, and one more.
    for (empty, fits) in [
        (13_100, true),
        (13_101, true),
        (13_102, false),
        (20_000, false),
    ] {
        compare.next_case();
        let mut pieces = vec![0; empty];
        pieces.push(24);
        let pieces = piece_bytes(&pieces);
        let call = write(&pieces, LONGEST);
        if fits {
            let values = [&PREFIX.repeat(empty + 1)[..], EXAMPLE].concat();
            compare.vendor_case("many", &call, given(values.len()), [&values, &[]]);
        } else {
            compare.vendor_case("too many", &call, refused(12, 0), [&[], &[]]);
        }
    }
    // Pieces of at most 250 bytes whose sum wraps to the payload's length in 8, 16 and 32 bits.
    for lost in [1_u64 << 8, 1 << 16, 1 << 32] {
        compare.next_case();
        let sum = lost + 24;
        let mut pieces = 250_u32.to_le_bytes().repeat((sum / 250) as usize);
        pieces.extend(((sum % 250) as u32).to_le_bytes());
        let call = write(&pieces, LONGEST);
        compare.vendor_case("wraps", &call, refused(18, 0), [&[], &[]]);
    }
}

/// What was written reads back, put into an image with other fields around it: every length of a
/// serial, cut in several ways.
pub fn read_back(compare: &mut Comparison) {
    let mut random = Random::of_input(3, ONIE, 0);
    for length in 0..=255 {
        let total = 16 + length;
        let whole = match total {
            0..=250 => vec![total],
            _ => vec![250, total - 250],
        };
        let few = vec![total / 3, 0, total / 3, total - total / 3 * 2];
        let random_cut = vendor::lengths(&mut random, total);
        for lengths in [whole, few, random_cut] {
            compare.next_case();
            let pieces = lengths.into_iter().map(|length| length as u32).collect();
            let offsets = OFFSETS[length % OFFSETS.len()];
            let writing = Writing::new(random.bytes(length), offsets, pieces);
            let bytes = writing.piece_bytes();
            let (serial, offsets) = (&writing.serial, writing.offsets);
            let write = Call::vendor_write(ONIE, 3, serial, offsets, &bytes, 0);
            plan::read_back(compare, &mut random, &writing, &write);
        }
    }
}

/// Each byte of an amplifier's vendor extensions with each of its 256 values: the payload's check as
/// it was and made right again, the image's right in both.
pub fn every_byte(compare: &mut Comparison) {
    let one = payload(SERIAL, &block(OFFSETS[1]));
    let lengths = [10, 0, 3, 11];
    let entries = extensions(&one, &lengths);
    let right = Image::new(Format::Onie, entries).bytes();
    // The places of the check's bytes, the last four of the payload, in the last piece.
    let end = right.len() - 6;
    for place in 11..end {
        for value in 0..=255 {
            compare.next_case();
            let mut changed = right.clone();
            changed[place] = value;
            seal(Format::Onie, &mut changed);
            let call = Call::check(ONIE, 3, &changed).vendor_read(24, BLOCK);
            compare.call(&call);

            let mut at = 11;
            let mut covered = Vec::new();
            for length in lengths {
                covered.extend(&changed[at + 7..at + 7 + length]);
                at += 7 + length;
            }
            vendor::seal(&mut covered);
            changed[end - 4..end].copy_from_slice(&covered[20..]);
            seal(Format::Onie, &mut changed);
            let call = Call::check(ONIE, 3, &changed).vendor_read(24, BLOCK);
            compare.call(&call);
        }
    }
}
