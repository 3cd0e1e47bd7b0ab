//! 02, Machine-room file.

use super::*;

/// A board of a room: its number, the format of its row, and its body.
type Board<'a> = (u32, u8, &'a [u8]);

/// A new body, with its format at full width.
type New<'a> = (u32, &'a [u8]);

/// The file of no boards.
const NONE: &[u8] = b"\x52\x4D\x01\x00\x00\x00\x00\x00";

/// Images without entries.
const NO_VPD: &[u8] = b"\x00";
const NO_TINY: &[u8] = b"\x56\x02\x04\x6F";
const NO_ONIE: &[u8] = b"TlvInfo\x00\x01\x00\x06\xFE\x04\xD4\x43\x1C\x18";

/// Board numbers on both sides of every line that a number of 32 bits has.
const NUMBERS: [u32; 8] = [
    0,
    1,
    0xFF,
    0x100,
    0x7FFF_FFFF,
    0x8000_0000,
    0xFFFF_FFFE,
    0xFFFF_FFFF,
];

/// Bytes from their hexadecimal text.
fn hex(text: &str) -> Vec<u8> {
    text.split_whitespace()
        .map(|pair| u8::from_str_radix(pair, 16).unwrap())
        .collect()
}

/// A file of these boards, in the order given.
fn file(boards: &[Board]) -> Vec<u8> {
    let mut file = b"\x52\x4D\x01\x00".to_vec();
    file.extend((boards.len() as u16).to_be_bytes());
    file.extend([0, 0]);
    for &(number, format, body) in boards {
        file.extend(number.to_be_bytes());
        file.extend([format, 0]);
        file.extend((body.len() as u16).to_be_bytes());
    }
    for (_, _, body) in boards {
        file.extend(*body);
    }
    file
}

/// A VPD image of one entry that is so long in all.
fn long_vpd(length: usize) -> Vec<u8> {
    // Type, one byte of key length, one of key, three of value length, and the end.
    let value = length - 7;
    let lengths = [value >> 14, value >> 7, value].map(|group| group as u8 & 0x7F);
    let mut image = vec![1, 1, b'k', lengths[0] | 0x80, lengths[1] | 0x80, lengths[2]];
    image.resize(length - 1, b'v');
    image.push(0);
    image
}

/// The file that a call made in `out`, where all that follows it is as it was.
fn made(result: Result<usize, Refusal>, out: Vec<u8>) -> Result<Vec<u8>, Refusal> {
    let length = result.unwrap_or(0);
    assert!(out[length..].iter().all(|&byte| byte == 0xA5));
    result.map(|length| out[..length].to_vec())
}

fn added(edition: u32, file: &[u8], board: u32, new: New, room: usize) -> Result<Vec<u8>, Refusal> {
    let mut out = vec![0xA5; room];
    let result = room_add(1, edition, file, board, new.0, new.1, &mut out);
    made(result, out)
}

fn replaced(
    edition: u32,
    file: &[u8],
    board: u32,
    new: New,
    room: usize,
) -> Result<Vec<u8>, Refusal> {
    let mut out = vec![0xA5; room];
    let result = room_replace(1, edition, file, board, new.0, new.1, &mut out);
    made(result, out)
}

fn removed(edition: u32, file: &[u8], board: u32, room: usize) -> Result<Vec<u8>, Refusal> {
    let mut out = vec![0xA5; room];
    let result = room_remove(1, edition, file, board, &mut out);
    made(result, out)
}

/// All four calls refuse a file so, whatever the board, the new body and the room.
fn all_refuse(edition: u32, file: &[u8], number: u32, place: u64) {
    for board in [0, 7, u32::MAX] {
        for room in [0, file.len(), 65_536] {
            for new in [(2, NO_VPD), (2, b""), (9, NO_VPD)] {
                let out = added(edition, file, board, new, room);
                assert_eq!(out, refused(number, place));
                let out = replaced(edition, file, board, new, room);
                assert_eq!(out, refused(number, place));
            }
            let out = removed(edition, file, board, room);
            assert_eq!(out, refused(number, place));
        }
        let part = room_fetch(1, edition, file, board);
        assert_eq!(part, refused(number, place));
    }
}

/// A call that makes this file: with just room enough and with more, and 12 with less.
fn makes(call: impl Fn(usize) -> Result<Vec<u8>, Refusal>, file: &[u8]) {
    for room in [file.len(), file.len() + 1, file.len() + 40, 65_536] {
        assert_eq!(call(room), Ok(file.to_vec()));
    }
    for room in [0, 7, file.len() - 1] {
        assert_eq!(call(room), refused(12, 0));
    }
    assert_eq!(call(65_537), refused(2, 0));
}

/// Boards come and go, byte by byte.
#[test]
fn by_hand() {
    let one = hex("52 4D 01 00 00 01 00 00 01 02 03 04 02 00 00 01 00");
    let below = hex(
        "52 4D 01 00 00 02 00 00 01 02 03 03 03 00 00 04 01 02 03 04 02 00 00 01 \
         56 02 04 6F 00",
    );
    let three = hex(
        "52 4D 01 00 00 03 00 00 01 02 03 03 03 00 00 04 01 02 03 04 02 00 00 01 \
         80 00 00 00 02 00 00 09 56 02 04 6F 00 01 03 53 4B 55 02 41 37 00",
    );
    let other = hex(
        "52 4D 01 00 00 03 00 00 01 02 03 03 03 00 00 04 01 02 03 04 03 00 00 05 \
         80 00 00 00 02 00 00 09 56 02 04 6F 56 02 04 6F AA 01 03 53 4B 55 02 41 37 00",
    );
    let without = hex(
        "52 4D 01 00 00 02 00 00 01 02 03 03 03 00 00 04 80 00 00 00 02 00 00 09 \
         56 02 04 6F 01 03 53 4B 55 02 41 37 00",
    );
    for edition in EDITIONS {
        let (middle, tiny) = (0x0102_0304, (3, NO_TINY));
        makes(|room| added(edition, NONE, middle, (2, NO_VPD), room), &one);
        makes(|room| added(edition, &one, middle - 1, tiny, room), &below);
        makes(
            |room| added(edition, &below, 0x8000_0000, (2, &SKU), room),
            &three,
        );
        // What follows an image's end inside a body is kept.
        let new = (3, &b"\x56\x02\x04\x6F\xAA"[..]);
        makes(|room| replaced(edition, &three, middle, new, room), &other);
        makes(|room| removed(edition, &three, middle, room), &without);
        makes(|room| removed(edition, &other, middle, room), &without);
        makes(
            |room| added(edition, &without, middle, (2, NO_VPD), room),
            &three,
        );
        makes(|room| removed(edition, &one, middle, room), NONE);

        assert_eq!(room_fetch(1, edition, &one, middle), Ok((16, 1)));
        assert_eq!(room_fetch(1, edition, &other, middle - 1), Ok((32, 4)));
        assert_eq!(room_fetch(1, edition, &other, middle), Ok((36, 5)));
        assert_eq!(room_fetch(1, edition, &other, 0x8000_0000), Ok((41, 9)));
    }
}

/// The byte form of the four calls: the new file's length, and a part as its place and its length.
#[test]
fn in_bytes() {
    let one = file(&[(7, 2, NO_VPD)]);
    let mut out = [0xA5; 40];
    assert_eq!(
        bytes::room_add(1, 4, NONE, 7, 2, NO_VPD, &mut out),
        17 << 32
    );
    assert_eq!(out[..17], one);
    assert_eq!(out[17..], [0xA5; 23]);
    assert_eq!(bytes::room_fetch(1, 4, &one, 7), 1 << 32 | 16);
    assert_eq!(bytes::room_fetch(1, 4, &one, 8), 22 << 59);
    assert_eq!(
        bytes::room_add(1, 4, &one, 7, 2, NO_VPD, &mut out),
        23 << 59
    );
    let with_tiny = bytes::room_replace(1, 4, &one, 7, 3, NO_TINY, &mut out);
    assert_eq!(with_tiny, 20 << 32);
    assert_eq!(out[..20], file(&[(7, 3, NO_TINY)]));
    assert_eq!(bytes::room_remove(1, 4, &one, 7, &mut out), 8 << 32);
    assert_eq!(out[..8], *NONE);
    // Format 9 of the only body, at 16.
    let nine = file(&[(7, 9, NO_VPD)]);
    assert_eq!(bytes::room_fetch(1, 4, &nine, 7), 16 << 59 | 16);
}

/// The edition comes first, then the lengths of file and output, then the form that is told.
#[test]
fn known() {
    let one = file(&[(7, 2, NO_VPD)]);
    let long = vec![0; 65_537];
    let mut out = vec![0xA5; 65_537];
    for edition in [0, 1, 2, 3, 4, 5, 6, 257, u32::MAX] {
        for form in [0, 1, 2, 257, u32::MAX] {
            for (file, in_file) in [(&one[..], 22), (NONE, 22), (b"", 21), (&long, 2)] {
                for room in [0, 100, 65_536, 65_537] {
                    let expected = match (edition, room) {
                        (0 | 5.., _) => 1,
                        (_, 65_537) => 2,
                        _ if in_file == 2 => 2,
                        _ if form != 1 => 21,
                        _ => in_file,
                    };
                    let out = &mut out[..room];
                    let result = room_replace(form, edition, file, 8, 9, b"", out);
                    assert_eq!(result, refused(expected, 0));
                    let result = room_remove(form, edition, file, 8, out);
                    assert_eq!(result, refused(expected, 0));
                    let result = room_add(form, edition, file, 7, 9, b"", out);
                    let expected_add = match (expected, file.len()) {
                        (22, 8) => 16,
                        (22, _) => 23,
                        (number, _) => number,
                    };
                    assert_eq!(result, refused(expected_add, 0));
                    if room <= 65_536 {
                        let result = room_fetch(form, edition, file, 8);
                        assert_eq!(result, refused(expected, 0));
                    }
                }
            }
        }
    }
}

/// Each byte of the head: magic, form, zeros and count.
#[test]
fn head() {
    for length in 0..8 {
        all_refuse(2, &NONE[..length], 21, 0);
    }
    assert_eq!(room_fetch(1, 2, NONE, 7), refused(22, 0));
    all_refuse(2, &[NONE, b"\x00"].concat(), 21, 0);
    let one = file(&[(7, 2, NO_VPD)]);
    for right in [NONE, &one] {
        for place in 0..8 {
            for byte in 0..=255 {
                let mut wrong = right.to_vec();
                wrong[place] = byte;
                if wrong != right {
                    all_refuse(2, &wrong, 21, 0);
                }
            }
        }
    }
    // A count low byte first.
    let mut wrong = one.clone();
    wrong[4..6].copy_from_slice(&[1, 0]);
    all_refuse(2, &wrong, 21, 0);
}

/// Rows past the end, lengths, the rows' zero bytes, and a file that does not end with its last body.
#[test]
fn contents() {
    let boards: [Board; 3] = [(1, 2, &SKU), (2, 3, NO_TINY), (9, 2, NO_VPD)];
    let right = file(&boards);
    assert_eq!(room_fetch(1, 2, &right, 9), Ok((45, 1)));
    for length in 0..right.len() {
        all_refuse(2, &right[..length], 21, 0);
    }
    for more in [1, 2, 8, 300] {
        let longer = [&right[..], &vec![0; more]].concat();
        all_refuse(2, &longer, 21, 0);
    }
    for row in [8, 16, 24] {
        for zero in [1, 0x80, 0xFF] {
            let mut wrong = right.clone();
            wrong[row + 5] = zero;
            all_refuse(2, &wrong, 21, 0);
        }
        for (high, low) in [
            (0, 0),
            (0, 2),
            (0, 10),
            (0, 3),
            (0, 5),
            (1, 1),
            (0xFF, 0xFF),
        ] {
            let mut wrong = right.clone();
            wrong[row + 6..row + 8].copy_from_slice(&[high, low]);
            all_refuse(2, &wrong, 21, 0);
        }
    }
    // A length of 0 whose sum is right, at each row, and alone.
    all_refuse(2, &file(&[(1, 2, b""), (2, 2, NO_VPD)]), 21, 0);
    all_refuse(2, &file(&[(1, 2, NO_VPD), (2, 2, b"")]), 21, 0);
    all_refuse(2, &file(&[(1, 2, b"")]), 21, 0);
    // Lengths 0 and 1 of a row for which a byte more is there.
    let mut wrong = file(&[(1, 2, NO_VPD)]);
    wrong[15] = 0;
    all_refuse(2, &wrong, 21, 0);
    wrong[15] = 1;
    assert_eq!(room_fetch(1, 2, &wrong, 1), Ok((16, 1)));
    // Lengths that are one off each way and sum up: the bodies are others.
    let mut moved = file(&[(1, 2, b"\x00\xAA"), (2, 2, b"\x00\xBB")]);
    assert_eq!(room_fetch(1, 2, &moved, 2), Ok((26, 2)));
    (moved[15], moved[23]) = (1, 3);
    assert_eq!(room_fetch(1, 2, &moved, 1), refused(6, 25));
    (moved[15], moved[23]) = (3, 1);
    assert_eq!(room_fetch(1, 2, &moved, 1), refused(6, 27));
    // A format byte is left to its body's check.
    let unknown = file(&[(1, 2, NO_VPD), (2, 0, NO_VPD), (3, 255, NO_VPD)]);
    assert_eq!(room_fetch(1, 2, &unknown, 1), refused(16, 33));
}

/// Board numbers rise strictly, as numbers without a sign.
#[test]
fn rising() {
    for (at, &a) in NUMBERS.iter().enumerate() {
        for (other, &b) in NUMBERS.iter().enumerate() {
            let two = file(&[(a, 2, NO_VPD), (b, 3, NO_TINY)]);
            if at < other {
                assert_eq!(room_fetch(1, 1, &two, a), Ok((24, 1)));
                assert_eq!(room_fetch(1, 1, &two, b), Ok((25, 4)));
            } else {
                all_refuse(1, &two, 21, 0);
            }
        }
    }
    let board = |number| (number, 2, NO_VPD);
    for last in [0, 3, 4, 5] {
        let wrong = file(&[board(4), board(5), board(last)]);
        all_refuse(1, &wrong, 21, 0);
        let wrong = file(&[board(6), board(last), board(7), board(8)]);
        all_refuse(1, &wrong, 21, 0);
    }
    let right = file(&[board(4), board(5), board(6)]);
    assert_eq!(room_fetch(1, 1, &right, 6), Ok((34, 1)));
}

/// 22 and 23, at place 0, before any body is looked at: boards there, in each gap, below and above all.
#[test]
fn boards() {
    let there = [1, 3, 0x7FFF_FFFF, 0x8000_0000, 0xFFFF_FFFE];
    let absent = [0, 2, 4, 0x7FFF_FFFE, 0x8000_0001, 0xFFFF_FFFD, 0xFFFF_FFFF];
    for body in [NO_VPD, b"\x02"] {
        let boards = there.map(|number| (number, 2, body));
        let room = file(&boards);
        for number in there {
            let out = added(4, &room, number, (9, b""), 0);
            assert_eq!(out, refused(23, 0));
        }
        for number in absent {
            assert_eq!(room_fetch(1, 4, &room, number), refused(22, 0));
            assert_eq!(removed(4, &room, number, 0), refused(22, 0));
            let out = replaced(4, &room, number, (9, b""), 0);
            assert_eq!(out, refused(22, 0));
        }
    }
    // Each number added to those, in its place.
    let boards = there.map(|number| (number, 2, NO_VPD));
    for number in absent {
        let mut more = boards.to_vec();
        more.push((number, 3, NO_TINY));
        more.sort();
        makes(
            |room| added(4, &file(&boards), number, (3, NO_TINY), room),
            &file(&more),
        );
    }
    for at in 0..there.len() {
        let mut less = boards.to_vec();
        less.remove(at);
        makes(
            |room| removed(4, &file(&boards), there[at], room),
            &file(&less),
        );
        let mut other = boards.to_vec();
        other[at] = (there[at], 4, NO_ONIE);
        makes(
            |room| replaced(4, &file(&boards), there[at], (4, NO_ONIE), room),
            &file(&other),
        );
    }
    for number in NUMBERS {
        assert_eq!(room_fetch(1, 4, NONE, number), refused(22, 0));
        let one = file(&[(number, 2, NO_VPD)]);
        makes(|room| added(4, NONE, number, (2, NO_VPD), room), &one);
        makes(|room| removed(4, &one, number, room), NONE);
    }
}

/// A stored body's own refusals, each at its place in the file: the first body's, whatever the board.
#[test]
fn stored_bodies() {
    // A body, its format, and what its check refuses.
    let wrong: [(u8, &[u8], u32, u64); 14] = [
        (9, NO_VPD, 16, 0),
        (0, NO_VPD, 16, 0),
        (1, b"\xFB\xFA\x05\xFF", 3, 0),
        (1, b"\xFB\xFB\x04\xFF", 4, 0),
        (1, b"\xFB\xFB\x05\xFF", 5, 4),
        (1, b"\xFB\xFB\x05\xFF\xFA\x02\x1D\x0F", 10, 6),
        (1, b"\xFB\xFB\x05\xFF\xFA\x02\x7D\xE4", 11, 0),
        (2, b"\x02", 6, 0),
        (2, b"\x01\x00\x00\x00", 7, 0),
        (2, b"\x01\x01\x41\x00\x01\x01\x41\x00\x00", 8, 4),
        (3, b"\x56\x02\x03", 5, 2),
        (3, b"\x56\x02\x08\x01\x00\x10\x00\x00", 9, 5),
        (3, b"\x56\x02\x04\x6E", 10, 3),
        (4, &NO_ONIE[..16], 5, 9),
    ];
    for (format, body, number, place) in wrong {
        assert_eq!(
            check(format.into(), 4, body),
            refused(number, place),
            "{body:?}"
        );
        all_refuse_there(&[(7, format, body)], number, 16 + place);
        let first = [(6, format, body), (7, 3, NO_TINY), (8, 2, &SKU)];
        all_refuse_there(&first, number, 32 + place);
        let middle = [(6, 3, NO_TINY), (7, format, body), (8, 2, &SKU)];
        all_refuse_there(&middle, number, 36 + place);
        let last = [(6, 3, NO_TINY), (7, 2, &SKU), (8, format, body)];
        all_refuse_there(&last, number, 45 + place);
        // Of two wrong ones the first.
        for (other_format, other, other_number, other_place) in wrong {
            let both = [(6, format, body), (8, other_format, other)];
            all_refuse_there(&both, number, 24 + place);
            let place = other_place;
            let both = [(6, other_format, other), (8, format, body)];
            all_refuse_there(&both, other_number, 24 + place);
        }
    }
    // ONIE is there from edition 3 on.
    let onie = file(&[(7, 4, NO_ONIE), (8, 2, NO_VPD)]);
    for (edition, part) in [
        (1, None),
        (2, None),
        (3, Some((24, 17))),
        (4, Some((24, 17))),
    ] {
        let expected = part.map_or(refused(16, 24), Ok);
        assert_eq!(room_fetch(1, edition, &onie, 7), expected);
    }
    // What an older edition accepts, a newer one may refuse.
    let info = file(&[(7, 2, b"\xFE\x01\x41\x03\x01\x02\x03\x00")]);
    assert_eq!(room_fetch(1, 1, &info, 7), Ok((16, 8)));
    assert_eq!(room_fetch(1, 2, &info, 7), refused(7, 16));
}

/// All four calls refuse a body of these boards so, after 22 and 23.
fn all_refuse_there(boards: &[Board], number: u32, place: u64) {
    let room = file(boards);
    let expected = refused(number, place);
    for &(board, _, _) in boards {
        assert_eq!(room_fetch(1, 4, &room, board), refused(number, place));
        for out in [0, 8, 200] {
            assert_eq!(removed(4, &room, board, out), expected);
            // Before the new body's own, and before 12.
            for new in [(2, NO_VPD), (9, b"")] {
                assert_eq!(replaced(4, &room, board, new, out), expected);
                assert_eq!(added(4, &room, board + 90, new, out), expected);
                assert_eq!(added(4, &room, board, new, out), refused(23, 0));
            }
        }
        assert_eq!(room_fetch(1, 4, &room, board + 90), refused(22, 0));
    }
}

/// The new body's own refusals, at places in it, before 12: the format at full width, then the length.
#[test]
fn new_bodies() {
    let long = vec![0; 65_537];
    let room = file(&[(7, 2, &SKU)]);
    let cases: [(u32, &[u8], u32, u64); 16] = [
        (0, NO_VPD, 16, 0),
        (5, NO_VPD, 16, 0),
        (9, NO_VPD, 16, 0),
        (256 + 2, NO_VPD, 16, 0),
        (256 + 1, NO_VPD, 16, 0),
        (u32::MAX, NO_VPD, 16, 0),
        (9, b"", 16, 0),
        (9, &long, 16, 0),
        (1, b"", 3, 0),
        (2, b"", 5, 0),
        (3, b"", 3, 0),
        (2, &long, 2, 0),
        (2, b"\x01\x01\x41\x00\x01\x01\x41\x00\x00", 8, 4),
        (3, b"\x56\x02\x04\x6E", 10, 3),
        (4, &NO_ONIE[..16], 5, 9),
        (1, b"\xFB\xFB\x05\xFF", 5, 4),
    ];
    for (format, body, number, place) in cases {
        for out in [0, 17, 200, 65_536] {
            let expected = refused(number, place);
            assert_eq!(added(4, &room, 8, (format, body), out), expected);
            assert_eq!(added(4, NONE, 8, (format, body), out), expected);
            assert_eq!(replaced(4, &room, 7, (format, body), out), expected);
        }
    }
    for (edition, number) in [(1, 16), (2, 16), (3, 12), (4, 12)] {
        let out = added(edition, &room, 8, (4, NO_ONIE), 0);
        assert_eq!(out, refused(number, 0));
    }
    // Accepted, and longer than a file can hold.
    let mut whole = long[..65_536].to_vec();
    for body in [&whole[..], &long_vpd(65_536)] {
        assert!(check(2, 4, body).is_ok());
        assert_eq!(added(4, NONE, 8, (2, body), 65_536), refused(12, 0));
        assert_eq!(replaced(4, &room, 7, (2, body), 65_536), refused(12, 0));
        let out = replaced(4, &room, 7, (2, body), 65_537);
        assert_eq!(out, refused(2, 0));
    }
    whole[0] = 0x02;
    assert_eq!(added(4, NONE, 8, (2, &whole), 65_536), refused(6, 0));
}

/// 65,536 bytes in all, and one more: one long body, and two.
#[test]
fn longest() {
    let body = long_vpd(65_520);
    let full = file(&[(7, 2, &body)]);
    assert_eq!(full.len(), 65_536);
    assert_eq!(full[14..16], [0xFF, 0xF0]);
    assert_eq!(room_fetch(1, 4, &full, 7), Ok((16, 65_520)));
    assert_eq!(removed(4, &full, 7, 8), Ok(NONE.to_vec()));
    for (new, expected) in [
        (long_vpd(65_519), Ok(65_535)),
        (long_vpd(65_520), Ok(65_536)),
        (long_vpd(65_521), refused(12, 0)),
        (long_vpd(65_535), refused(12, 0)),
        (long_vpd(65_536), refused(12, 0)),
    ] {
        let small = file(&[(7, 3, NO_TINY)]);
        for made in [
            added(4, NONE, 7, (2, &new), 65_536),
            replaced(4, &full, 7, (2, &new), 65_536),
            replaced(4, &small, 7, (2, &new), 65_536),
        ] {
            assert_eq!(made.as_ref().map(Vec::len).map_err(|&r| r), expected);
            if let Ok(made) = made {
                assert_eq!(made, file(&[(7, 2, &new)]));
            }
        }
    }
    assert_eq!(added(4, &full, 8, (2, NO_VPD), 65_536), refused(12, 0));
    // A file of one byte more, whose contents are right, is too long.
    let mut more = file(&[(7, 2, &long_vpd(65_521))]);
    assert_eq!(more.len(), 65_537);
    all_refuse(4, &more, 2, 0);
    more.truncate(65_536);
    all_refuse(4, &more, 21, 0);
    // A second body of one byte just fits.
    let body = long_vpd(65_536 - 8 - 16 - 1);
    let one = file(&[(7, 2, &body)]);
    let two = file(&[(7, 2, &body), (8, 2, NO_VPD)]);
    assert_eq!(two.len(), 65_536);
    assert_eq!(added(4, &one, 8, (2, NO_VPD), 65_536), Ok(two));
    assert_eq!(added(4, &one, 8, (2, b"\x00\x00"), 65_536), refused(12, 0));
    // The row of a longest length says 65,535, for which no file has room.
    let mut row = file(&[(7, 2, &body)]);
    row[14..16].copy_from_slice(&[0xFF, 0xFF]);
    all_refuse(4, &row, 21, 0);
}

/// As many boards as there can be, 7,280 of one byte: none more goes in, and each can be fetched.
#[test]
fn most_boards() {
    let boards: Vec<Board> = (0..7_280).map(|n| (n * 9 + 4, 2, NO_VPD)).collect();
    let full = file(&boards);
    assert_eq!(full.len(), 65_528);
    for (n, board) in [(0, 4), (1, 13), (3_640, 32_764), (7_279, 65_515)] {
        assert_eq!(room_fetch(1, 2, &full, board), Ok((58_248 + n, 1)));
        let mut left = boards.clone();
        left.remove(n);
        let left = file(&left);
        assert_eq!(removed(2, &full, board, 65_519), Ok(left.clone()));
        assert_eq!(removed(2, &full, board, 65_518), refused(12, 0));
        assert_eq!(
            added(2, &left, board, (2, NO_VPD), 65_528),
            Ok(full.clone())
        );
        // Eight bytes are left over.
        let long = [0; 9];
        let made = replaced(2, &full, board, (2, &long), 65_536).unwrap();
        assert_eq!(made.len(), 65_536);
        let long = [0; 10];
        assert_eq!(
            replaced(2, &full, board, (2, &long), 65_536),
            refused(12, 0)
        );
    }
    for board in [0, 5, 65_516] {
        assert_eq!(room_fetch(1, 2, &full, board), refused(22, 0));
        let out = added(2, &full, board, (2, NO_VPD), 65_536);
        assert_eq!(out, refused(12, 0));
    }
    // One row more leaves the last board without a body.
    let more: Vec<Board> = (0..7_281).map(|n| (n, 2, NO_VPD)).collect();
    let more = file(&more);
    assert_eq!(more.len(), 65_537);
    all_refuse(2, &more, 2, 0);
    all_refuse(2, &more[..65_536], 21, 0);
    // As many rows as a file has room for, with no bodies.
    let rows = [b"\x52\x4D\x01\x00\x1F\xFF\x00\x00", &full[8..]].concat();
    all_refuse(2, &[&rows[..], &[0; 8]].concat(), 21, 0);
}

/// Rooms that are built up in any order have the same bytes, and taken down in any order end as none.
#[test]
fn built_up() {
    let required = fboss(&required());
    let boards: [Board; 5] = [
        (0, 3, NO_TINY),
        (1, 1, &required),
        (0x7FFF_FFFF, 2, &SKU),
        (0x8000_0000, 2, NO_VPD),
        (0xFFFF_FFFF, 4, NO_ONIE),
    ];
    let whole = file(&boards);
    for start in 0..5 {
        for step in 1..5 {
            let order: Vec<usize> = (0..5).map(|n| (start + n * step) % 5).collect();
            let mut room = NONE.to_vec();
            for &n in &order {
                let (number, format, body) = boards[n];
                room = added(3, &room, number, (format.into(), body), 300).unwrap();
            }
            assert_eq!(room, whole);
            for &n in &order {
                let (number, _, body) = boards[n];
                let (place, length) = room_fetch(1, 3, &room, number).unwrap();
                assert_eq!(room[place..place + length], *body);
                room = removed(3, &room, number, 300).unwrap();
            }
            assert_eq!(room, NONE);
        }
    }
}
