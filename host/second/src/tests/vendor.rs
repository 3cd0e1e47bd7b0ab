//! 02, Vendor blocks for the optics lab.

use super::onie::image;
use super::*;

/// The payload of 003's example: the serial DQ000MPW, and all offsets 0.
const EXAMPLE: &[u8; 24] =
    b"\x08DQ000MPW\x00\x09\x00\x00\x00\x00\x00\x00\x00\x00\x00\x02\x60\x51\x4B";

/// 003's example as one vendor extension, and as two.
const ONE: &[u8] = b"\xFD\x1D\x00\x00\x1F\x79\x00\x08DQ000MPW\x00\x09\x00\x00\x00\x00\x00\x00\x00\x00\x00\x02\x60\x51\x4B";
const TWO: &[u8] = b"\xFD\x1C\x00\x00\x1F\x79\x00\x08DQ000MPW\x00\x09\x00\x00\x00\x00\x00\x00\x00\x00\x00\x02\x60\x51\
    \xFD\x06\x00\x00\x1F\x79\x00\x4B";

const PREFIX: &[u8; 5] = b"\x00\x00\x1F\x79\x00";

/// A payload of these parts, with the right check.
fn payload(serial: &[u8], block: &[u8]) -> Vec<u8> {
    let block_length = (block.len() as u16).to_be_bytes();
    sealed(&[&[serial.len() as u8], serial, &block_length, block].concat())
}

/// Bytes and their check.
fn sealed(bytes: &[u8]) -> Vec<u8> {
    [bytes, &check32(bytes).to_be_bytes()].concat()
}

/// The block with these offsets.
fn block(offsets: [i8; 8]) -> Vec<u8> {
    [&[0x00][..], &offsets.map(|offset| offset as u8)].concat()
}

/// A vendor extension with any value.
fn foreign(value: &[u8]) -> Vec<u8> {
    [&[0xFD, value.len() as u8], value].concat()
}

/// A vendor extension with a piece of a payload.
fn extension(piece: &[u8]) -> Vec<u8> {
    foreign(&[PREFIX, piece].concat())
}

/// The extensions of a payload, cut into pieces of these lengths.
fn cut(payload: &[u8], lengths: &[usize]) -> Vec<u8> {
    let mut rest = payload;
    let mut entries = Vec::new();
    for &length in lengths {
        let (piece, after) = rest.split_at(length);
        entries.extend(extension(piece));
        rest = after;
    }
    assert!(rest.is_empty());
    entries
}

/// The image with a payload in as many pieces as it needs.
fn amplifier(payload: &[u8]) -> Vec<u8> {
    let pieces: Vec<u8> = payload.chunks(250).flat_map(extension).collect();
    image(&pieces)
}

/// The answer of a vendor read and what it wrote: the payload, and the twelve words of the block.
/// Shows that a refusal leaves buffer and block as they were, and that bytes past them stay.
fn read_into(
    format: u32,
    edition: u32,
    image: &[u8],
    rooms: [usize; 2],
) -> Result<(Vec<u8>, Vec<i32>), Refusal> {
    let [mut buffer, mut block] = rooms.map(|room| vec![0xA5; room]);
    let answer = bytes::vendor_read(format, edition, image, &mut buffer, &mut block);
    let number = (answer >> 59) as u32;
    let (length, used) = match number {
        0 => ((answer >> 32) as usize, 48),
        _ => (0, 0),
    };
    assert!(buffer[length..].iter().all(|&byte| byte == 0xA5));
    assert!(block[used..].iter().all(|&byte| byte == 0xA5));
    if number != 0 {
        let place = answer << 5 >> 5;
        return Err(Refusal { number, place });
    }
    assert_eq!(answer as u32, 0);
    buffer.truncate(length);
    let words = block[..48].chunks(4);
    let words = words.map(|word| i32::from_le_bytes(word.try_into().unwrap()));
    Ok((buffer, words.collect()))
}

fn read(image: &[u8]) -> Result<(Vec<u8>, Vec<i32>), Refusal> {
    read_into(ONIE, 3, image, [3_000, 48])
}

/// What a read gives of a payload with these offsets.
fn gives(payload: &[u8], offsets: [i8; 8]) -> Result<(Vec<u8>, Vec<i32>), Refusal> {
    let serial = i32::from(payload[0]);
    let mut words = vec![1, serial, 3 + serial, 9];
    words.extend(offsets.map(i32::from));
    Ok((payload.to_vec(), words))
}

/// The values that a vendor write puts out into so many bytes. Shows that a refusal leaves the output
/// as it was, and that bytes past the values stay.
fn written_into(
    format: u32,
    edition: u32,
    serial: &[u8],
    offsets: [i8; 8],
    pieces: &[u32],
    room: usize,
) -> Result<Vec<u8>, Refusal> {
    let mut out = vec![0xA5; room];
    let result = vendor_write(format, edition, serial, offsets, pieces, &mut out);
    let length = result.unwrap_or(0);
    assert!(out[length..].iter().all(|&byte| byte == 0xA5));
    out.truncate(length);
    result.map(|_| out)
}

fn written(serial: &[u8], offsets: [i8; 8], pieces: &[u32]) -> Result<Vec<u8>, Refusal> {
    written_into(ONIE, 3, serial, offsets, pieces, 65_536)
}

mod read {
    use super::*;

    #[test]
    fn the_example_in_one_piece_and_in_two() {
        for entries in [ONE, TWO] {
            let image = image(entries);
            let words = vec![1, 8, 11, 9, 0, 0, 0, 0, 0, 0, 0, 0];
            assert_eq!(read(&image), Ok((EXAMPLE.to_vec(), words)));
            let read = vendor_read(ONIE, 3, &image, 24).unwrap();
            assert_eq!(read.bytes, EXAMPLE);
            assert_eq!(&read.bytes[read.serial], b"DQ000MPW");
            assert_eq!(&read.bytes[read.block], [0; 9]);
            assert_eq!(read.offsets, [0; 8]);
        }
        assert_eq!(payload(b"DQ000MPW", &[0; 9]), EXAMPLE);
        assert_eq!(cut(EXAMPLE, &[24]), ONE);
        assert_eq!(cut(EXAMPLE, &[23, 1]), TWO);
    }

    #[test]
    fn however_it_is_cut() {
        let around = [
            &b"\x21\x04name"[..],
            b"\x30\x02\x00\xFF",
            b"\x2C\x02CZ",
            b"\x30\x00",
        ];
        for first in 0..=24 {
            for second in first..=24 {
                let lengths = [first, second - first, 24 - second];
                let pieces = cut(EXAMPLE, &lengths);
                assert_eq!(read(&image(&pieces)), gives(EXAMPLE, [0; 8]));
                // With other entries around each.
                let mut between = Vec::new();
                let mut rest = &pieces[..];
                for (length, other) in lengths.into_iter().zip(around) {
                    let (piece, after) = rest.split_at(7 + length);
                    between.extend([other, piece].concat());
                    rest = after;
                }
                between.extend(around[3]);
                assert_eq!(read(&image(&between)), gives(EXAMPLE, [0; 8]));
            }
        }
        let each = cut(EXAMPLE, &[1; 24]);
        assert_eq!(read(&image(&each)), gives(EXAMPLE, [0; 8]));
    }

    #[test]
    fn pieces_go_in_image_order() {
        let [a, b] = [&EXAMPLE[..12], &EXAMPLE[12..]].map(extension);
        let right = [&a[..], &b].concat();
        let turned = [&b[..], &a].concat();
        assert_eq!(read(&image(&right)), gives(EXAMPLE, [0; 8]));
        assert_eq!(read(&image(&turned)), refused(18, 0));
    }

    #[test]
    fn pieces_that_are_the_prefix_alone() {
        let empty = extension(b"");
        assert_eq!(empty, b"\xFD\x05\x00\x00\x1F\x79\x00");
        let around = [&empty[..], &empty, ONE, &empty].concat();
        assert_eq!(read(&image(&around)), gives(EXAMPLE, [0; 8]));
        // They match, so it is the payload that is not as long as its parts.
        assert_eq!(read(&image(&empty)), refused(18, 0));
        assert_eq!(read(&image(&empty.repeat(290))), refused(18, 0));
    }

    #[test]
    fn extensions_that_do_not_match() {
        let others: [&[u8]; 10] = [
            // Four bytes of the prefix, and no more.
            b"\x00\x00\x1F\x79",
            b"\x00\x00\x1F\x79\x01",
            b"\x00\x00\x1F\x79\x01\x08DQ000MPW",
            b"\x00\x00\x1F\x79\xFF\x00",
            b"\x00\x00\x1F\x78\x00\x00",
            b"\x00\x00\x1E\x79\x00\x00",
            b"\x00\x01\x1F\x79\x00\x00",
            b"\x01\x00\x1F\x79\x00\x00",
            b"\x79\x1F\x00\x00\x00\x00",
            b"\x00\x00\x00\x1F\x79\x00",
        ];
        for value in others {
            let other = foreign(value);
            assert_eq!(read(&image(&other)), refused(17, 0));
            let between = [&other[..], &TWO[..30], &other, &TWO[30..], &other].concat();
            assert_eq!(read(&image(&between)), gives(EXAMPLE, [0; 8]));
        }
        // The fifth byte is none of the first piece, even where it would fit.
        let late = [foreign(b"\x00\x00\x1F\x79"), foreign(b"\x00")].concat();
        assert_eq!(read(&image(&late)), refused(7, 17));
    }

    #[test]
    fn only_extensions_match() {
        assert_eq!(read(&image(b"")), refused(17, 0));
        for code in [0x01, 0x20, 0x26, 0x2F, 0xFC] {
            let mut other = ONE.to_vec();
            other[0] = code;
            assert_eq!(read(&image(&other)), refused(17, 0));
            let beside = [&other[..], ONE].concat();
            assert_eq!(read(&image(&beside)), gives(EXAMPLE, [0; 8]));
        }
    }

    #[test]
    fn a_payload_that_is_not_as_long_as_its_parts() {
        // Cut short anywhere, with a right check where there is room for one, and one byte longer.
        for length in 1..EXAMPLE.len() {
            assert_eq!(read(&amplifier(&EXAMPLE[..length])), refused(18, 0));
            let checked = sealed(&EXAMPLE[..length]);
            if length != 20 {
                assert_eq!(read(&amplifier(&checked)), refused(18, 0));
            }
        }
        for more in [1, 2, 3, 4, 226] {
            let longer = [&EXAMPLE[..], &vec![0; more]].concat();
            assert_eq!(read(&amplifier(&longer)), refused(18, 0));
        }
        // A length that can't be read, or only the first.
        assert_eq!(read(&amplifier(b"\x00")), refused(18, 0));
        assert_eq!(read(&amplifier(b"\xFF")), refused(18, 0));
        assert_eq!(read(&amplifier(b"\x00\x00")), refused(18, 0));
        assert_eq!(read(&amplifier(b"\x00\xFF\xFF")), refused(18, 0));
        // A serial of every length.
        let mut all = EXAMPLE.to_vec();
        for length in 0..=255 {
            all[0] = length;
            let checked = sealed(&all[..20]);
            let expected = match length {
                8 => gives(EXAMPLE, [0; 8]),
                // Parts that happen to fill the payload have a block that is not nine bytes long.
                _ => match parts_of(&checked) == checked.len() {
                    true => refused(20, 0),
                    false => refused(18, 0),
                },
            };
            assert_eq!(read(&amplifier(&checked)), expected);
        }
    }

    /// How long a payload would be by its two lengths, or nothing where they can't be read.
    fn parts_of(payload: &[u8]) -> usize {
        let serial = usize::from(payload[0]);
        match payload.get(serial + 1..serial + 3) {
            Some(length) => 7 + serial + usize::from(length[0]) * 256 + usize::from(length[1]),
            None => 0,
        }
    }

    #[test]
    fn a_block_length_high_byte_first() {
        let mut turned = EXAMPLE[..20].to_vec();
        turned.swap(9, 10);
        assert_eq!(read(&amplifier(&sealed(&turned))), refused(18, 0));
        // 300 bytes of block are 01 2C.
        let long = payload(b"S", &[0; 300]);
        assert_eq!(long[2..4], [0x01, 0x2C]);
        assert_eq!(read(&amplifier(&long)), refused(20, 0));
    }

    #[test]
    fn a_wrong_check() {
        for place in 20..24 {
            for bit in 0..8 {
                let mut wrong = EXAMPLE.to_vec();
                wrong[place] ^= 1 << bit;
                assert_eq!(read(&amplifier(&wrong)), refused(19, 0));
            }
        }
        // A changed byte of serial or block, without a new check.
        for place in (1..9).chain(11..20) {
            let mut wrong = EXAMPLE.to_vec();
            wrong[place] ^= 0x80;
            assert_eq!(read(&amplifier(&wrong)), refused(19, 0));
        }
        // Low byte first, and over one byte less or more.
        let covered = &EXAMPLE[..20];
        for check in [
            check32(covered).to_le_bytes(),
            check32(&covered[..19]).to_be_bytes(),
            check32(&covered[1..]).to_be_bytes(),
            check32(EXAMPLE).to_be_bytes(),
        ] {
            assert_eq!(
                read(&amplifier(&[covered, &check].concat())),
                refused(19, 0)
            );
        }
    }

    #[test]
    fn another_version_and_other_lengths_of_a_block() {
        for version in 1..=255 {
            let other = [&[version][..], &[0; 8]].concat();
            assert_eq!(
                read(&amplifier(&payload(b"DQ000MPW", &other))),
                refused(20, 0)
            );
        }
        for length in (0..=60).filter(|&length| length != 9) {
            for byte in [0x00, 0x01] {
                let other = payload(b"S", &vec![byte; length]);
                assert_eq!(read(&amplifier(&other)), refused(20, 0));
            }
        }
        assert_eq!(payload(b"", b"").len(), 7);
        assert_eq!(read(&amplifier(&payload(b"", b""))), refused(20, 0));
    }

    #[test]
    fn serials_of_any_bytes_and_any_length() {
        for length in [0, 1, 2, 8, 233, 234, 235, 254, 255] {
            for byte in [b'S', 0x00, 0xFF, 0x7F] {
                let one = payload(&vec![byte; length], &[0; 9]);
                assert_eq!(one.len(), 16 + length);
                assert_eq!(read(&amplifier(&one)), gives(&one, [0; 8]));
            }
        }
    }

    #[test]
    fn offsets_are_signed() {
        let line = [-128, -127, -2, -1, 0, 1, 24, 127];
        for turn in 0..8 {
            let mut offsets = line;
            offsets.rotate_left(turn);
            let one = payload(b"DQ000MPW", &block(offsets));
            assert_eq!(read(&amplifier(&one)), gives(&one, offsets));
        }
        // 003: 18h is 24, and FEh is -2.
        let one = payload(b"", b"\x00\x18\xFE\x80\x7F\xFF\x00\x01\x81");
        let offsets = [24, -2, -128, 127, -1, 0, 1, -127];
        assert_eq!(read(&amplifier(&one)), gives(&one, offsets));
        for byte in 0..=255_u8 {
            for place in 0..8 {
                let mut offsets = [0; 8];
                offsets[place] = byte as i8;
                let one = payload(b"", &block(offsets));
                assert_eq!(one[4 + place], byte);
                assert_eq!(read(&amplifier(&one)), gives(&one, offsets));
            }
        }
    }

    #[test]
    fn bytes_after_the_image_are_not_looked_at() {
        let after = [image(&TWO[..30]), TWO[30..].to_vec()].concat();
        assert_eq!(read(&after), refused(18, 0));
        let after = [image(TWO), ONE.to_vec()].concat();
        assert_eq!(read(&after), gives(EXAMPLE, [0; 8]));
    }

    #[test]
    fn buffer_and_block_that_are_too_short() {
        let example = image(TWO);
        for (rooms, fits) in [
            ([24, 48], true),
            ([25, 48], true),
            ([24, 49], true),
            ([65_536, 1_000], true),
            ([23, 48], false),
            ([24, 47], false),
            ([23, 47], false),
            ([0, 48], false),
            ([24, 0], false),
            ([0, 0], false),
        ] {
            let expected = match fits {
                true => gives(EXAMPLE, [0; 8]),
                false => refused(12, 0),
            };
            assert_eq!(read_into(ONIE, 3, &example, rooms), expected);
        }
        assert!(vendor_read(ONIE, 3, &example, 24).is_ok());
        assert_eq!(vendor_read(ONIE, 3, &example, 23), refused(12, 0));
        // The largest payload that one image can hold.
        let largest = payload(&[0xFF; 255], &[0; 9]);
        let largest = amplifier(&largest);
        assert!(read_into(ONIE, 3, &largest, [271, 48]).is_ok());
        assert_eq!(read_into(ONIE, 3, &largest, [270, 48]), refused(12, 0));
    }
}

mod refusals_in_order {
    use super::*;

    /// Images with a refusal each: none, the image's own, 17, 18, 19 and 20.
    fn images() -> Vec<(Vec<u8>, u32, u64)> {
        let example = image(ONE);
        let mut wrong_check = example.clone();
        *wrong_check.last_mut().unwrap() ^= 1;
        let check_place = example.len() as u64 - 4;
        let mut wrong_payload = EXAMPLE.to_vec();
        wrong_payload[23] ^= 1;
        vec![
            (example, 0, 0),
            (b"TlvInfo".to_vec(), 3, 0),
            (b"TlvInfo\x00\x02\x00\x06".to_vec(), 4, 0),
            (b"TlvInfo\x00\x01\x00\x06".to_vec(), 5, 9),
            (image(b"\x00\x00"), 6, 11),
            (image(b"\xFD\x03\x00\x00\x1F"), 7, 11),
            (image(&[ONE, b"\x21\x00\x21\x00"].concat()), 8, 44),
            (wrong_check, 10, check_place),
            (image(b"\x21\x04name"), 17, 0),
            (amplifier(&EXAMPLE[..23]), 18, 0),
            (amplifier(&wrong_payload), 19, 0),
            (amplifier(&payload(b"S", &[0x01; 9])), 20, 0),
        ]
    }

    #[test]
    fn of_a_read() {
        for (image, number, place) in images() {
            for format in [0, 1, 2, 3, 5, 255, 257, 260, 1 << 31, u32::MAX] {
                for edition in [0, 1, 2, 3, 4, 5, 9, u32::MAX] {
                    for rooms in [[24, 48], [0, 0], [65_537, 48]] {
                        let result = read_into(format, edition, &image, rooms);
                        assert_eq!(result, refused(16, 0));
                    }
                }
            }
            for (edition, first) in [
                (0, 1),
                (5, 1),
                (6, 1),
                (257, 1),
                (259, 1),
                (260, 1),
                (u32::MAX, 1),
                (1, 16),
                (2, 16),
            ] {
                for rooms in [[24, 48], [0, 0], [65_537, 48], [65_537, 0]] {
                    assert_eq!(
                        read_into(ONIE, edition, &image, rooms),
                        refused(first, 0),
                        "edition {edition}"
                    );
                }
            }
            // The buffer is too long, or the image is.
            assert_eq!(read_into(ONIE, 3, &image, [65_537, 48]), refused(2, 0));
            assert_eq!(read_into(ONIE, 3, &image, [65_537, 0]), refused(2, 0));
            let mut long = image.clone();
            long.resize(65_537, 0xFF);
            assert_eq!(read_into(ONIE, 3, &long, [0, 0]), refused(2, 0));
            assert_eq!(read_into(ONIE, 3, &long, [65_537, 0]), refused(2, 0));
            // A block is no output, however long it is.
            if number != 0 {
                for rooms in [[24, 48], [0, 48], [24, 0], [0, 0], [65_536, 70_000]] {
                    assert_eq!(read_into(ONIE, 3, &image, rooms), refused(number, place));
                }
            } else {
                assert!(read_into(ONIE, 3, &image, [24, 70_000]).is_ok());
                assert_eq!(read_into(ONIE, 3, &image, [23, 70_000]), refused(12, 0));
            }
        }
    }

    /// A payload that is wrong in two or three ways gives the first of them.
    #[test]
    fn of_a_payload() {
        // Too long, a wrong check, another version.
        let block = [0x01; 9];
        let mut wrong = payload(b"S", &block);
        assert_eq!(read(&amplifier(&wrong)), refused(20, 0));
        *wrong.last_mut().unwrap() ^= 1;
        assert_eq!(read(&amplifier(&wrong)), refused(19, 0));
        wrong.push(0);
        assert_eq!(read(&amplifier(&wrong)), refused(18, 0));
        assert_eq!(
            read_into(ONIE, 3, &amplifier(&wrong), [0, 0]),
            refused(18, 0)
        );
        // A block of another length whose check is wrong.
        let mut wrong = payload(b"S", &[0; 8]);
        wrong[5] ^= 1;
        assert_eq!(read(&amplifier(&wrong)), refused(19, 0));
    }

    #[test]
    fn of_a_write() {
        let result = |format, edition, pieces: &[u32], room| {
            written_into(format, edition, b"DQ000MPW", [0; 8], pieces, room)
        };
        for pieces in [&[24][..], &[], &[251]] {
            for room in [0, 100, 65_537] {
                for format in [0, 1, 2, 3, 5, 257, 260, u32::MAX] {
                    for edition in [0, 1, 2, 3, 4, 5, u32::MAX] {
                        assert_eq!(result(format, edition, pieces, room), refused(16, 0));
                    }
                }
                for edition in [0, 5, 9, 257, 259, 260, u32::MAX] {
                    assert_eq!(result(ONIE, edition, pieces, room), refused(1, 0));
                }
                for edition in [1, 2] {
                    assert_eq!(result(ONIE, edition, pieces, room), refused(16, 0));
                }
            }
            assert_eq!(result(ONIE, 3, pieces, 65_537), refused(2, 0));
        }
        assert_eq!(result(ONIE, 3, &[23], 0), refused(18, 0));
        assert_eq!(result(ONIE, 3, &[24], 0), refused(12, 0));
        assert_eq!(result(ONIE, 3, &[24], 28), refused(12, 0));
        assert!(result(ONIE, 3, &[24], 29).is_ok());
        let long = [b'S'; 256];
        assert_eq!(
            written_into(ONIE, 3, &long, [0; 8], &[250, 22], 0),
            refused(18, 0)
        );
    }
}

mod write {
    use super::*;

    #[test]
    fn the_example_in_one_piece_and_in_two() {
        let values = |entries: &[&[u8]]| -> Vec<u8> {
            let values = entries.iter().map(|entry| &entry[2..]);
            values.flatten().copied().collect()
        };
        let serial = b"DQ000MPW";
        assert_eq!(written(serial, [0; 8], &[24]), Ok(values(&[ONE])));
        assert_eq!(
            written(serial, [0; 8], &[23, 1]),
            Ok(values(&[&TWO[..30], &TWO[30..]]))
        );
    }

    /// Puts the values that were written into an image and reads them.
    fn back(serial: &[u8], offsets: [i8; 8], pieces: &[u32]) {
        let values = written(serial, offsets, pieces).unwrap();
        let expected = payload(serial, &block(offsets));
        assert_eq!(values.len(), 5 * pieces.len() + expected.len());
        let mut rest = &values[..];
        let mut entries = b"\x21\x04name".to_vec();
        for &piece in pieces {
            let (value, after) = rest.split_at(5 + piece as usize);
            entries.extend(foreign(value));
            entries.extend(b"\xFD\x04\x00\x00\x1F\x79");
            rest = after;
        }
        assert_eq!(read(&image(&entries)), gives(&expected, offsets));
        // Exactly as much room as is needed, and one byte less.
        let room = values.len();
        let into = |room| written_into(ONIE, 3, serial, offsets, pieces, room);
        assert_eq!(into(room), Ok(values));
        assert_eq!(into(room - 1), refused(12, 0));
    }

    #[test]
    fn what_was_written_reads_back() {
        for serial in [0, 1, 8, 233, 234, 235, 254, 255] {
            let length = 16 + serial as u32;
            let serial = vec![0xEE; serial];
            for offsets in [
                [0; 8],
                [-128; 8],
                [127; 8],
                [-1; 8],
                [-128, -1, 0, 1, 127, 24, -2, 64],
            ] {
                let half = length / 2;
                back(&serial, offsets, &[half, length - half]);
                back(&serial, offsets, &[0, half, 0, 0, length - half, 0]);
                match length {
                    0..=250 => back(&serial, offsets, &[length]),
                    _ => back(&serial, offsets, &[250, length - 250]),
                }
            }
        }
        back(b"DQ000MPW", [0; 8], &[1; 24]);
        back(b"", [-128; 8], &[4, 3, 2, 1, 0, 6]);
    }

    #[test]
    fn pieces_that_do_not_fit() {
        for (serial, pieces) in [
            // One off each way, none, and only empty ones.
            (8, &[23][..]),
            (8, &[25]),
            (8, &[12, 11]),
            (8, &[12, 13]),
            (8, &[]),
            (8, &[0, 0, 0]),
            (0, &[]),
            (0, &[15]),
            (0, &[17]),
            // Above 250, whether they sum to the payload or not.
            (235, &[251]),
            (239, &[255]),
            (240, &[256]),
            (236, &[1, 251]),
            (236, &[251, 1]),
            (236, &[251]),
            (8, &[24, 251]),
            // Numbers whose sum would wrap to the payload's length.
            (8, &[u32::MAX, 25]),
            (8, &[25, u32::MAX]),
            (8, &[1 << 31, 1 << 31, 24]),
            (8, &[24, 1 << 31, 1 << 31]),
            (8, &[u32::MAX - 23, 24, 24]),
            (8, &[256 + 24]),
            (8, &[65_536 + 24]),
            (8, &[1 << 31]),
            (8, &[u32::MAX]),
            // A serial that is too long.
            (256, &[250, 22]),
            (256, &[136, 136]),
            (256, &[16]),
            (300, &[250, 66]),
            (65_536, &[16]),
        ] {
            for room in [65_536, 0] {
                let result = written_into(ONIE, 3, &vec![b'S'; serial], [0; 8], pieces, room);
                assert_eq!(result, refused(18, 0), "{serial} {pieces:?}");
            }
        }
        let serial = [b'S'; 234];
        assert!(written(&serial, [0; 8], &[250]).is_ok());
        assert!(written(&serial, [0; 8], &[0, 250, 0]).is_ok());
    }

    /// Pieces of at most 250 bytes whose sum is the payload's length and as much as a sum of 8, 16
    /// or 32 bits loses.
    #[test]
    fn sums_that_would_wrap() {
        for lost in [1_u64 << 8, 1 << 16, 1 << 32] {
            let sum = lost + 24;
            let mut pieces = vec![250; (sum / 250) as usize];
            pieces.push((sum % 250) as u32);
            let result = written_into(ONIE, 3, b"DQ000MPW", [0; 8], &pieces, 65_536);
            assert_eq!(result, refused(18, 0));
        }
    }

    #[test]
    fn pieces_without_number() {
        // Empty pieces have their prefixes: as many as an output can hold, and one more.
        for (empty, fits) in [(13_101, true), (13_102, false)] {
            let mut pieces = vec![0; empty];
            pieces.push(24);
            let result = written(b"DQ000MPW", [0; 8], &pieces);
            if fits {
                let expected = [PREFIX.repeat(empty + 1), EXAMPLE.to_vec()].concat();
                assert_eq!(expected.len(), 65_534);
                assert_eq!(result, Ok(expected));
            } else {
                assert_eq!(result, refused(12, 0));
            }
        }
    }

    #[test]
    fn byte_form() {
        let mut out = [0xA5; 40];
        let mut result = |serial: &[u8], offsets, pieces: &[u8]| {
            out.fill(0xA5);
            let answer = bytes::vendor_write(ONIE, 3, serial, offsets, pieces, &mut out);
            (answer, out)
        };
        // Offset k lies in bits 8k to 8k + 7.
        let offsets = 0x81_01_00_FF_7F_80_FE_18;
        let (answer, made) = result(b"S", offsets, &[17, 0, 0, 0]);
        assert_eq!(answer, 22 << 32);
        let expected = payload(b"S", b"\x00\x18\xFE\x80\x7F\xFF\x00\x01\x81");
        assert_eq!(made[..5], *PREFIX);
        assert_eq!(made[5..22], expected);
        assert_eq!(made[22..], [0xA5; 18]);
        // A length is four bytes, low byte first, and one that is cut short counts as none.
        for rest in 0..4 {
            let pieces = [&[17, 0, 0, 0][..], &[1, 1, 1, 1][..rest]].concat();
            assert_eq!(result(b"S", offsets, &pieces).0, 22 << 32);
            assert_eq!(result(b"S", offsets, &[17, 0, 0, 0][..rest]).0, 18 << 59);
        }
        for pieces in [
            [17, 0, 0, 1],
            [17, 0, 1, 0],
            [17, 1, 0, 0],
            [0, 0, 0, 17],
            [251, 0, 0, 0],
        ] {
            assert_eq!(result(b"S", offsets, &pieces), (18 << 59, [0xA5; 40]));
        }
        let two = [8, 0, 0, 0, 9, 0, 0, 0];
        assert_eq!(result(b"S", offsets, &two).0, 27 << 32);
    }
}
