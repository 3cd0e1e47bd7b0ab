//! The cases of 02, Machine-room file.

use images::image::{around, Format, Image, FORMATS, LONGEST};
use images::random::Random;
use images::room::{file, head, long_vpd, row, shortest, Board, EDGES, FORMS, MOST, NO_FORMATS};
use images::{damage, generate};

use super::onie::SWITCH;
use super::scope::{every_tag_image, SKU};
use super::sources::{fboss_example_image, vpd_example_image};
use super::*;
use crate::call::count;
use crate::room_plan;

/// Images without entries.
const NO_VPD: &[u8] = b"\x00";
const NO_TINY: &[u8] = b"\x56\x02\x04\x6F";
const NO_ONIE: &[u8] = b"TlvInfo\x00\x01\x00\x06\xFE\x04\xD4\x43\x1C\x18";

/// New bodies with their formats: accepted, empty, of no format, and broken.
const NEW: [(u32, &[u8]); 5] = [
    (2, NO_VPD),
    (3, NO_TINY),
    (2, b""),
    (9, NO_VPD),
    (3, b"\x56\x02\x04\x6E"),
];

/// A format byte, a body, and the number and the place of what its check refuses.
type Broken = (u8, &'static [u8], u64, u64);

/// Bodies that their check refuses, in every edition.
const BROKEN: [Broken; 17] = [
    (0, NO_VPD, 16, 0),
    (5, NO_VPD, 16, 0),
    (9, NO_VPD, 16, 0),
    (255, b"\x02", 16, 0),
    (1, b"\xFB", 3, 0),
    (1, b"\xFB\xFB\x05\xFE", 3, 0),
    (1, b"\xFB\xFB\x04\xFF", 4, 0),
    (1, b"\xFB\xFB\x05\xFF", 5, 4),
    (1, b"\xFB\xFB\x05\xFF\xFA\x02\x1D\x0F", 10, 6),
    (1, b"\xFB\xFB\x05\xFF\xFA\x02\x7D\xE4", 11, 0),
    (2, b"\x02", 6, 0),
    (2, b"\x01\x01\x41\x00\x01\x00\x00\x00", 7, 4),
    (2, b"\x01\x01\x41\x00\x01\x01\x41\x00\x00", 8, 4),
    (3, b"\x56\x02\x03", 5, 2),
    (3, b"\x56\x02\x05\x00\x00", 6, 3),
    (3, b"\x56\x02\x08\x01\x00\x10\x00\x00", 9, 5),
    (3, b"\x56\x02\x04\x6E", 10, 3),
];

fn board(number: u32, format: u8, body: &[u8]) -> Board {
    Board::new(number, format, body)
}

/// A room of five boards, whose bodies are examples of every format, some with bytes after their end.
fn examples() -> [Board; 5] {
    [
        board(0, 3, &every_tag_image()),
        board(4, 2, &[&vpd_example_image()[..], b"\xFF\xFE"].concat()),
        board(5, 1, &fboss_example_image()[..210]),
        board(0x7FFF_FFFF, 2, NO_VPD),
        board(0x8000_0000, 3, b"\x56\x02\x04\x6F\x56\x02\x04\x6E"),
    ]
}

/// A call that makes this file: into an output as long as it and into longer ones, which stay as they were
/// past it, and into shorter ones.
fn makes(compare: &mut Comparison, what: &str, call: &Call, made: &[u8]) {
    for room in [made.len(), made.len() + 1, made.len() + 40] {
        if room <= LONGEST {
            compare.room_case(what, &Call { room, ..*call }, given(made.len()), made);
        }
    }
    for room in [made.len() - 1, 0] {
        compare.room_case(what, &Call { room, ..*call }, refused(12, 0), b"");
    }
    let room = LONGEST + 1;
    compare.room_case(what, &Call { room, ..*call }, refused(2, 0), b"");
}

/// All four calls on a file refuse so, whatever the board, the new body and the room.
fn all_refuse(
    compare: &mut Comparison,
    what: &str,
    (form, edition): (u32, u32),
    file: &[u8],
    number: u64,
) {
    compare.next_case();
    let answer = refused(number, 0);
    for board in [0, 7, u32::MAX] {
        let fetch = Call::fetch(form, edition, file, board);
        compare.room_case(what, &fetch, answer, b"");
        for room in [0, file.len().min(LONGEST)] {
            let (format, body) = NEW[(board as usize + room) % NEW.len()];
            compare.room_case(what, &fetch.add_board(format, body, room), answer, b"");
            compare.room_case(what, &fetch.replace_board(format, body, room), answer, b"");
            compare.room_case(what, &fetch.remove_board(room), answer, b"");
        }
    }
}

/// 21 in every edition.
fn wrong_contents(compare: &mut Comparison, what: &str, file: &[u8]) {
    for edition in EDITIONS {
        all_refuse(compare, what, (1, edition), file, 21);
    }
}

/// The edition comes first, then 2 for file and output, then the form that is told; then 22 and 23.
pub fn known(compare: &mut Comparison) {
    let one = file(&[board(7, 2, NO_VPD)]);
    let broken = file(&[board(7, 9, b"\x02")]);
    let long = vec![0; LONGEST + 1];
    let files: [(&[u8], u64); 6] = [
        (&one, 22),
        (&broken, 22),
        (&head(0), 22),
        (b"", 21),
        (&one[..16], 21),
        (&long, 2),
    ];
    for edition in [0, 1, 2, 3, 4, 5, 6, 256, 257, 260, 1 << 31 | 4, u32::MAX] {
        for form in FORMS.into_iter().chain([3, 256, 1 << 16 | 1, 1 << 31 | 1]) {
            for (file, in_file) in files {
                compare.next_case();
                for room in [0, 40, LONGEST, LONGEST + 1] {
                    let number = match edition {
                        1..=4 if room > LONGEST || in_file == 2 => 2,
                        1..=4 if form != 1 => 21,
                        1..=4 => in_file,
                        _ => 1,
                    };
                    let fetch = Call::fetch(form, edition, file, 8);
                    for (format, body) in NEW {
                        let replace = fetch.replace_board(format, body, room);
                        compare.room_case("known", &replace, refused(number, 0), b"");
                        if number < 22 || file.len() > 8 {
                            let number = if number == 22 { 23 } else { number };
                            let there = Call::fetch(form, edition, file, 7);
                            let add = there.add_board(format, body, room);
                            compare.room_case("known", &add, refused(number, 0), b"");
                        }
                    }
                    let remove = fetch.remove_board(room);
                    compare.room_case("known", &remove, refused(number, 0), b"");
                    if room <= LONGEST {
                        compare.room_case("known", &fetch, refused(number, 0), b"");
                    }
                }
            }
        }
    }
}

/// Each byte of the head of a file without boards and of one with two, and files shorter than a head.
pub fn heads(compare: &mut Comparison) {
    for length in 0..8 {
        wrong_contents(compare, "short", &head(0)[..length]);
        wrong_contents(compare, "short", &vec![0; length]);
    }
    let two = file(&[board(7, 2, NO_VPD), board(9, 3, NO_TINY)]);
    for right in [&head(0), &two] {
        for place in 0..8 {
            for byte in 0..=255 {
                let mut wrong = right.to_vec();
                wrong[place] = byte;
                if wrong != *right {
                    all_refuse(compare, "head", (1, 2), &wrong, 21);
                }
            }
        }
        for form in [0, 2, 3, 257, u32::MAX] {
            // The form that is told is none, whatever the file's own byte says.
            let mut file = right.to_vec();
            file[2] = form as u8;
            all_refuse(compare, "form", (form, 2), &file, 21);
            all_refuse(compare, "form", (form, 2), right, 21);
        }
    }
    for more in [1, 8, 9, 300] {
        let longer = [head(0), vec![0; more]].concat();
        wrong_contents(compare, "after no boards", &longer);
    }
}

/// Rows and bodies: what lies past the end, what is left over, zero bytes, and lengths.
pub fn contents(compare: &mut Comparison) {
    let boards = examples();
    let right = file(&boards);
    for length in 0..right.len() {
        all_refuse(compare, "cut", (1, 4), &right[..length], 21);
    }
    for more in [1, 2, 8, 255, 256, 257, 300, 512, 4_096, 32_768] {
        let longer = [&right[..], &vec![0; more]].concat();
        wrong_contents(compare, "after", &longer);
    }
    for n in 0..boards.len() {
        let row = 8 + 8 * n;
        for zero in 1..=255 {
            let mut wrong = right.clone();
            wrong[row + 5] = zero;
            all_refuse(compare, "zero", (1, 4), &wrong, 21);
        }
        let length = boards[n].body.len() as u16;
        for other in (0..=300).chain([0x7FFF, 0x8000, 0xFFFE, 0xFFFF, length.swap_bytes()]) {
            if other != length {
                let mut wrong = right.clone();
                wrong[row + 6..row + 8].copy_from_slice(&other.to_be_bytes());
                all_refuse(compare, "length", (1, 4), &wrong, 21);
            }
        }
        // No body, and all other lengths right.
        let mut none = boards.to_vec();
        none[n].body.clear();
        wrong_contents(compare, "no body", &file(&none));
        // One board more or less than there are rows.
        let mut less = boards.to_vec();
        less.remove(n);
        let less = file(&less);
        wrong_contents(compare, "count", &[&head(5), &less[8..]].concat());
        wrong_contents(compare, "count", &[&head(3), &less[8..]].concat());
    }
    // Counts whose rows would end at the file's end, before it and after it.
    for rows in 0..40 {
        let rows = vec![0; 8 * rows];
        for count in 1..42 {
            let wrong = [&head(count)[..], &rows].concat();
            all_refuse(compare, "rows", (1, 4), &wrong, 21);
        }
    }
    // A sum that is right in its low 8 or 16 bits only, and a count whose rows are.
    let mut random = Random::of_input(8, 0, 3);
    for (stored, told) in [
        ([300, 4], [44, 4]),
        ([300, 4], [556, 4]),
        ([4, 700], [4, 188]),
        ([4, 1], [65_535, 6]),
        ([1, 4], [6, 65_535]),
        ([300, 1], [33_068, 32_769]),
    ] {
        let bodies = stored.map(|length| long_vpd(&mut random, length));
        let mut wrong = file(&[board(7, 2, &bodies[0]), board(9, 2, &bodies[1])]);
        for (row, length) in [8, 16].into_iter().zip(told) {
            wrong[row + 6..row + 8].copy_from_slice(&u16::to_be_bytes(length));
        }
        wrong_contents(compare, "low bits", &wrong);
    }
    for count in [256 + 5, 8_192 + 5, 16_384 + 5, 32_768 + 5, 57_344 + 5] {
        wrong_contents(compare, "low bits", &[&head(count), &right[8..]].concat());
    }
    for count in [256, 8_190, 8_191, 8_192, 65_535] {
        let mut wrong = head(count);
        for length in [8, 9, 16, 65_528, 65_535, 65_536] {
            wrong.resize(length, 0x00);
            all_refuse(compare, "rows", (1, 4), &wrong, 21);
        }
    }
}

/// Rows that rise, by one and by more, that stand still and that fall, as numbers without a sign.
pub fn rising(compare: &mut Comparison) {
    for a in EDGES {
        for b in EDGES {
            let two = file(&[board(a, 2, NO_VPD), board(b, 3, NO_TINY)]);
            if a < b {
                for edition in EDITIONS {
                    compare.next_case();
                    let fetch = |board| Call::fetch(1, edition, &two, board);
                    compare.room_case("rising", &fetch(a), part(24, 1), b"");
                    compare.room_case("rising", &fetch(b), part(25, 4), b"");
                }
            } else {
                wrong_contents(compare, "not rising", &two);
            }
        }
    }
    // Each row of five in the place of each other, and with its number.
    let boards = examples();
    for n in 0..5 {
        for other in (0..5).filter(|&other| other != n) {
            let mut moved = boards.to_vec();
            moved.swap(n, other);
            wrong_contents(compare, "out of order", &file(&moved));
            let mut twice = boards.to_vec();
            twice[n].number = boards[other].number;
            wrong_contents(compare, "twice", &file(&twice));
        }
    }
    // Each bit of a number, above and below another.
    for bit in 0..32 {
        let middle = 0x5555_5555_u32;
        let other = middle ^ 1 << bit;
        for pair in [[middle, other], [other, middle]] {
            let two = file(&pair.map(|number| board(number, 2, NO_VPD)));
            if pair[0] < pair[1] {
                compare.next_case();
                let fetch = Call::fetch(1, 2, &two, pair[1]);
                compare.room_case("a bit", &fetch, part(25, 1), b"");
            } else {
                wrong_contents(compare, "a bit", &two);
            }
        }
    }
}

/// 22 and 23 at place 0, before any body is looked at: boards that are there, in each gap, below and above all.
pub fn boards(compare: &mut Comparison) {
    let there = [1, 3, 4, 0x7FFF_FFFF, 0x8000_0000, 0xFFFF_FFFE];
    let mut sought = EDGES.to_vec();
    for number in there {
        sought.extend([number - 1, number, number + 1]);
        // Numbers that have some of its bytes.
        sought.extend([number.swap_bytes(), number & 0xFFFF, number << 8]);
    }
    sought.sort();
    sought.dedup();
    for (format, body) in [(2, NO_VPD), (9, NO_VPD), (2, &b"\x02"[..])] {
        let room = file(&there.map(|number| board(number, format, body)));
        for &number in &sought {
            for edition in EDITIONS {
                compare.next_case();
                let fetch = Call::fetch(1, edition, &room, number);
                if there.contains(&number) {
                    for (format, body) in NEW {
                        let add = fetch.add_board(format, body, 200);
                        compare.room_case("there", &add, refused(23, 0), b"");
                    }
                } else {
                    compare.room_case("not there", &fetch, refused(22, 0), b"");
                    for (format, body) in NEW {
                        let replace = fetch.replace_board(format, body, 200);
                        compare.room_case("not there", &replace, refused(22, 0), b"");
                    }
                    let remove = fetch.remove_board(200);
                    compare.room_case("not there", &remove, refused(22, 0), b"");
                }
            }
        }
    }
    for number in EDGES {
        compare.next_case();
        let none = head(0);
        let fetch = Call::fetch(1, 1, &none, number);
        compare.room_case("none", &fetch, refused(22, 0), b"");
        compare.room_case("none", &fetch.remove_board(8), refused(22, 0), b"");
        let replace = fetch.replace_board(2, NO_VPD, 40);
        compare.room_case("none", &replace, refused(22, 0), b"");
    }
}

/// What a stored body is refused for, at its place in the file: the first body's that is refused, whichever
/// board is asked for, before the new body's own and before 12.
pub fn stored_bodies(compare: &mut Comparison) {
    let others = [
        board(6, 3, NO_TINY),
        board(8, 2, &bytes(SKU)),
        board(9, 2, NO_VPD),
    ];
    for (format, body, number, place) in BROKEN {
        for at in 0..=others.len() {
            let mut boards = others.to_vec();
            boards.insert(at, board(0, format, body));
            for (number, board) in (5..).zip(&mut boards) {
                board.number = number;
            }
            let start = 40
                + boards[..at]
                    .iter()
                    .map(|board| board.body.len())
                    .sum::<usize>();
            body_refused(compare, &boards, number, start as u64 + place);
            // Another one after it changes nothing.
            for (format, body, _, _) in BROKEN {
                let mut both = boards.clone();
                both.push(board(99, format, body));
                body_refused(compare, &both, number, start as u64 + 8 + place);
            }
        }
        // The decisions' example among them: format byte 09 of the only body, at 16, is 16 at 16.
        body_refused(compare, &[board(7, format, body)], number, 16 + place);
    }
    // ONIE is there from edition 3 on.
    let room = file(&[board(6, 3, NO_TINY), board(7, 4, NO_ONIE)]);
    for (edition, answer) in [
        (1, refused(16, 28)),
        (2, refused(16, 28)),
        (3, part(28, 17)),
        (4, part(28, 17)),
    ] {
        compare.next_case();
        let fetch = Call::fetch(1, edition, &room, 7);
        compare.room_case("ONIE", &fetch, answer, b"");
    }
    // An info header of three bytes, which edition 1 does not name.
    let room = file(&[board(7, 2, b"\xFE\x01\x41\x03\x01\x02\x03\x00")]);
    for (edition, answer) in [(1, part(16, 8)), (2, refused(7, 16)), (4, refused(7, 16))] {
        compare.next_case();
        let fetch = Call::fetch(1, edition, &room, 7);
        compare.room_case("edition 1", &fetch, answer, b"");
    }
}

/// All four calls on boards of which one is refused.
fn body_refused(compare: &mut Comparison, boards: &[Board], number: u64, place: u64) {
    compare.next_case();
    let room = file(boards);
    let answer = refused(number, place);
    for (n, edition) in EDITIONS.into_iter().enumerate() {
        let there = boards[n % boards.len()].number;
        let fetch = Call::fetch(1, edition, &room, there);
        compare.room_case("stored", &fetch, answer, b"");
        for length in [0, 200] {
            let (format, body) = NEW[(n + length) % NEW.len()];
            let replace = fetch.replace_board(format, body, length);
            compare.room_case("stored", &replace, answer, b"");
            compare.room_case("stored", &fetch.remove_board(length), answer, b"");
            let add = Call::fetch(1, edition, &room, there + 1_000);
            let add = add.add_board(format, body, length);
            compare.room_case("stored", &add, answer, b"");
        }
    }
}

/// What a new body is refused for, at places in it, before 12: its format at full width, then its length.
pub fn new_bodies(compare: &mut Comparison) {
    let room = file(&examples());
    let none = head(0);
    let long = vec![0; LONGEST + 1];
    let mut cases: Vec<(u32, &[u8], u64, u64)> = Vec::new();
    for (format, body, number, place) in BROKEN {
        cases.push((format.into(), body, number, place));
    }
    for format in NO_FORMATS {
        cases.extend([NO_VPD, b"", &long, &long[1..]].map(|body| (format, body, 16, 0)));
    }
    for format in [256 + 2, 1 << 16 | 2, 1 << 31 | 2, 2 << 24] {
        cases.push((format, NO_VPD, 16, 0));
    }
    cases.extend([(1, 3), (2, 5), (3, 3)].map(|(format, number)| (format, &b""[..], number, 0)));
    cases.extend([1, 2, 3].map(|format| (format, &long[..], 2, 0)));
    for (format, body, number, place) in cases {
        for edition in EDITIONS {
            compare.next_case();
            for length in [0, room.len(), LONGEST] {
                let answer = refused(number, place);
                let add = Call::fetch(1, edition, &room, 7);
                let add = add.add_board(format, body, length);
                compare.room_case("new", &add, answer, b"");
                let first = Call::fetch(1, edition, &none, 7);
                let first = first.add_board(format, body, length);
                compare.room_case("new", &first, answer, b"");
                let replace = Call::fetch(1, edition, &room, 4);
                let replace = replace.replace_board(format, body, length);
                compare.room_case("new", &replace, answer, b"");
            }
        }
    }
    for (edition, empty, accepted) in [(1, 16, 16), (2, 16, 16), (3, 3, 12), (4, 3, 12)] {
        compare.next_case();
        let fetch = Call::fetch(1, edition, &room, 4);
        for (body, number) in [(NO_ONIE, accepted), (b"", empty)] {
            let replace = fetch.replace_board(4, body, 0);
            compare.room_case("ONIE", &replace, refused(number, 0), b"");
            let add = Call { board: 7, ..fetch }.add_board(4, body, 0);
            compare.room_case("ONIE", &add, refused(number, 0), b"");
        }
    }
}

/// Boards come, change and go, byte by byte.
pub fn changed(compare: &mut Comparison) {
    let none = bytes("52 4D 01 00 00 00 00 00");
    let one = bytes("52 4D 01 00 00 01 00 00 01 02 03 04 02 00 00 01 00");
    let two = bytes(
        "52 4D 01 00 00 02 00 00 01 02 03 03 03 00 00 04 01 02 03 04 02 00 00 01 \
         56 02 04 6F 00",
    );
    let three = bytes(
        "52 4D 01 00 00 03 00 00 01 02 03 03 03 00 00 04 01 02 03 04 02 00 00 01 \
         80 00 00 00 02 00 00 09 56 02 04 6F 00 01 03 53 4B 55 02 41 37 00",
    );
    let other = bytes(
        "52 4D 01 00 00 03 00 00 01 02 03 03 03 00 00 04 01 02 03 04 03 00 00 05 \
         80 00 00 00 02 00 00 09 56 02 04 6F 56 02 04 6F AA 01 03 53 4B 55 02 41 37 00",
    );
    let without = bytes(
        "52 4D 01 00 00 02 00 00 01 02 03 03 03 00 00 04 80 00 00 00 02 00 00 09 \
         56 02 04 6F 01 03 53 4B 55 02 41 37 00",
    );
    let (middle, sku) = (0x0102_0304, bytes(SKU));
    let (below, above) = (middle - 1, 0x8000_0000);
    let after = b"\x56\x02\x04\x6F\xAA";
    for edition in EDITIONS {
        compare.next_case();
        let on = |file, board| Call::fetch(1, edition, file, board);
        let mut makes = |call: Call, made: &[u8]| makes(compare, "by hand", &call, made);
        makes(on(&none, middle).add_board(2, NO_VPD, 0), &one);
        makes(on(&one, below).add_board(3, NO_TINY, 0), &two);
        makes(on(&two, above).add_board(2, &sku, 0), &three);
        makes(on(&three, middle).replace_board(3, after, 0), &other);
        makes(on(&other, middle).replace_board(2, NO_VPD, 0), &three);
        makes(on(&three, middle).remove_board(0), &without);
        makes(on(&other, middle).remove_board(0), &without);
        makes(on(&without, middle).add_board(3, after, 0), &other);
        makes(on(&three, above).remove_board(0), &two);
        makes(on(&two, below).remove_board(0), &one);
        makes(on(&one, middle).remove_board(0), &none);
        for (file, board, answer) in [
            (&one, middle, part(16, 1)),
            (&three, below, part(32, 4)),
            (&three, middle, part(36, 1)),
            (&three, above, part(37, 9)),
            (&other, middle, part(36, 5)),
            (&other, above, part(41, 9)),
        ] {
            compare.room_case("by hand", &on(file, board), answer, b"");
        }
    }

    // A replacement of the same format and length, by other bytes, by a byte after the end, and by itself.
    let right = [
        (2, bytes("01 03 53 4B 55 02 41 37 00 00")),
        (2, bytes("01 03 53 4B 55 02 42 37 00 00")),
        (2, bytes("01 03 53 4B 55 02 41 37 00 01")),
        (2, bytes("01 03 53 4B 54 02 41 37 00 00")),
        (3, bytes("56 02 06 10 00 B7 00 00 00 00")),
    ];
    for (format, new) in &right {
        for edition in EDITIONS {
            compare.next_case();
            let around = |format, body| {
                [
                    board(1, 3, NO_TINY),
                    board(2, format, body),
                    board(3, 2, NO_VPD),
                ]
            };
            let old = file(&around(2, &right[0].1));
            let made = file(&around(*format as u8, new));
            let fetch = Call::fetch(1, edition, &old, 2);
            makes(
                compare,
                "the same length",
                &fetch.replace_board(*format, new, 0),
                &made,
            );
        }
    }

    // Each board of a room replaced by each body and removed, and each body added in each gap.
    let boards = examples();
    let room = file(&boards);
    let mut news: Vec<(u32, Vec<u8>)> = Vec::new();
    for format in FORMATS {
        news.push((format.number(), shortest(format)));
        let after = [&shortest(format)[..], b"\x00\xFFafter"].concat();
        news.push((format.number(), after));
    }
    news.push((4, SWITCH.to_vec()));
    news.push((2, vec![0xFF; 300]));
    for n in 0..boards.len() {
        compare.next_case();
        let fetch = Call::fetch(1, 4, &room, boards[n].number);
        let mut less = boards.to_vec();
        less.remove(n);
        makes(compare, "removed", &fetch.remove_board(0), &file(&less));
        for (format, body) in &news {
            compare.next_case();
            let mut other = boards.to_vec();
            other[n] = board(boards[n].number, *format as u8, body);
            let call = fetch.replace_board(*format, body, 0);
            makes(compare, "replaced", &call, &file(&other));
        }
    }
    for number in [1, 2, 3, 6, 0x7FFF_FFFE, 0x8000_0001, 0xFFFF_FFFF] {
        for (format, body) in &news {
            compare.next_case();
            let mut more = boards.to_vec();
            more.push(board(number, *format as u8, body));
            more.sort_by_key(|board| board.number);
            let call = Call::fetch(1, 4, &room, number).add_board(*format, body, 0);
            makes(compare, "added", &call, &file(&more));
        }
    }
}

/// Files of 65,536 bytes and of one more, bodies of the longest lengths, and as many boards as there can be.
pub fn lengths(compare: &mut Comparison) {
    let mut random = Random::of_input(8, 0, 0);
    let none = head(0);
    for length in [1, 255, 256, 257, 32_767, 32_768, 65_519, 65_520] {
        compare.next_case();
        let body = long_vpd(&mut random, length);
        let one = file(&[board(7, 2, &body)]);
        let fetch = Call::fetch(1, 4, &one, 7);
        compare.room_case("long", &fetch, part(16, length as u64), b"");
        let add = Call::fetch(1, 4, &none, 7).add_board(2, &body, 0);
        makes(compare, "long", &add, &one);
        makes(compare, "long", &fetch.remove_board(0), &none);
        makes(compare, "long", &fetch.replace_board(2, &body, 0), &one);
        let small = file(&[board(7, 3, NO_TINY)]);
        let replace = fetch.replace_board(3, NO_TINY, 0);
        makes(compare, "short again", &replace, &small);
    }
    // Accepted, and no file has room for it, whatever the output.
    let full = file(&[board(7, 2, &long_vpd(&mut random, 65_520))]);
    for length in [65_521, 65_528, 65_535, 65_536] {
        compare.next_case();
        let body = long_vpd(&mut random, length);
        for (room, number) in [(0, 12), (17, 12), (LONGEST, 12), (LONGEST + 1, 2)] {
            let add = Call::fetch(1, 4, &none, 7).add_board(2, &body, room);
            compare.room_case("too long", &add, refused(number, 0), b"");
            let replace = Call::fetch(1, 4, &full, 7).replace_board(2, &body, room);
            compare.room_case("too long", &replace, refused(number, 0), b"");
        }
        let mut broken = body;
        broken[0] = 0x02;
        let add = Call::fetch(1, 4, &none, 7).add_board(2, &broken, LONGEST);
        compare.room_case("too long, broken", &add, refused(6, 0), b"");
    }
    let more = file(&[board(7, 2, &long_vpd(&mut random, 65_521))]);
    for edition in EDITIONS {
        all_refuse(compare, "65,537 bytes", (1, edition), &more, 2);
    }
    wrong_contents(compare, "65,536 bytes of 65,537", &more[..LONGEST]);

    // A second board that just fits, and one byte more.
    for length in [1, 2, 300] {
        compare.next_case();
        let body = long_vpd(&mut random, LONGEST - 24 - length);
        let one = file(&[board(7, 2, &body)]);
        let new = long_vpd(&mut random, length);
        let two = file(&[board(7, 2, &body), board(8, 2, &new)]);
        let add = Call::fetch(1, 4, &one, 8);
        makes(compare, "just fits", &add.add_board(2, &new, 0), &two);
        let new = long_vpd(&mut random, length + 1);
        let add = add.add_board(2, &new, LONGEST);
        compare.room_case("one byte more", &add, refused(12, 0), b"");
    }

    // As many boards as there can be.
    let most: Vec<Board> = (0..MOST as u32)
        .map(|n| board(n * 589_973 + 3, 2, NO_VPD))
        .collect();
    let room = file(&most);
    for n in [0, 1, 255, 256, 3_640, 7_278, 7_279] {
        compare.next_case();
        let number = most[n].number;
        let fetch = Call::fetch(1, 2, &room, number);
        compare.room_case("most", &fetch, part(58_248 + n as u64, 1), b"");
        for absent in [number - 1, number + 1] {
            let fetch = Call::fetch(1, 2, &room, absent);
            compare.room_case("most", &fetch, refused(22, 0), b"");
            let add = fetch.add_board(2, NO_VPD, LONGEST);
            compare.room_case("most", &add, refused(12, 0), b"");
        }
        let mut less = most.clone();
        less.remove(n);
        let less = file(&less);
        makes(compare, "most", &fetch.remove_board(0), &less);
        let add = Call::fetch(1, 2, &less, number).add_board(2, NO_VPD, 0);
        makes(compare, "most", &add, &room);
        for (length, fits) in [(9, true), (10, false)] {
            let body = vec![0x00; length];
            let replace = fetch.replace_board(2, &body, LONGEST);
            let mut other = most.clone();
            other[n].body = body.clone();
            let other = file(&other);
            match fits {
                true => compare.room_case("most", &replace, given(LONGEST), &other),
                false => compare.room_case("most", &replace, refused(12, 0), b""),
            }
        }
        // A body that is broken, among as many.
        let mut broken = most.clone();
        broken[n].body = b"\x02".to_vec();
        let fetch_other = Call::fetch(1, 2, &room, most[5].number);
        let broken = file(&broken);
        let fetch = Call {
            read: [&broken, &[], &[]],
            ..fetch_other
        };
        compare.room_case("most", &fetch, refused(6, 58_248 + n as u64), b"");
    }
    // One row more, with no room for its body.
    let mut rows = head(MOST + 1);
    rows.extend(most.iter().flat_map(row));
    rows.extend(row(&board(u32::MAX, 2, NO_VPD)));
    rows.resize(LONGEST, 0x00);
    wrong_contents(compare, "one row more", &rows);
    rows.resize(LONGEST + 1, 0x00);
    all_refuse(compare, "one row more", (1, 2), &rows, 2);
}

/// Every byte of a room file of all formats with each of its 256 values, in an edition that has them all and in
/// one that does not, and every beginning of it.
pub fn every_byte(compare: &mut Comparison) {
    let vpd = [&bytes(SKU)[..], b"\xAA"].concat();
    let boards = [
        board(1, 3, NO_TINY),
        board(2, 2, &vpd),
        board(0x100, 1, &shortest(Format::Fboss)),
        board(0x8000_0000, 4, NO_ONIE),
    ];
    for room in [file(&boards), file(&boards[..3])] {
        for place in 0..room.len() {
            for value in 0..=255 {
                compare.next_case();
                let mut changed = room.clone();
                changed[place] = value;
                for edition in [2, 4] {
                    for number in [1, 0x100] {
                        compare.call(&Call::fetch(1, edition, &changed, number));
                    }
                    let fetch = Call::fetch(1, edition, &changed, 2);
                    compare.call(&fetch.add_board(2, NO_VPD, 200));
                    compare.call(&fetch.replace_board(3, NO_TINY, 200));
                    compare.call(&fetch.remove_board(200));
                }
            }
        }
        compare.next_case();
        room_plan::on_beginnings(compare, &room);
    }
    compare.next_case();
    room_plan::on_beginnings(compare, &file(&examples()));
}

/// Every body that a damaged image can be, at the first, a middle and the last place, and as a new body: the
/// check of the image alone says what is given, with the body's place added to its own.
pub fn as_checked(compare: &mut Comparison) {
    let mut random = Random::of_input(8, 0, 1);
    for n in 0..4_000 {
        let format = FORMATS[n % FORMATS.len()];
        let image = generate::valid(&mut random, format);
        let body = match n % 3 {
            0 => image.bytes(),
            _ => damage::damaged(&mut random, image),
        };
        let number = format.number();
        if body.is_empty() || body.len() > 4_096 {
            continue;
        }
        compare.next_case();
        let mut boards = vec![board(3, 3, NO_TINY), board(5, 2, NO_VPD)];
        let at = random.below(3);
        boards.insert(at, board(0, number as u8, &body));
        for (number, board) in (10..).zip(&mut boards) {
            board.number = number;
        }
        let room = file(&boards);
        let start = 32
            + boards[..at]
                .iter()
                .map(|board| board.body.len())
                .sum::<usize>() as u64;
        let right = file(&[board(7, 2, NO_VPD)]);
        for edition in EDITIONS {
            let (own, _) = compare.call(&Call::check(number, edition, &body));
            let board = 10 + random.below(3) as u32;
            let fetch = Call::fetch(1, edition, &room, board);
            let add = Call::fetch(1, edition, &right, 6);
            let add = add.add_board(number, &body, LONGEST);
            match own >> 59 {
                0 => {
                    let fetch = Call {
                        board: 10 + at as u32,
                        ..fetch
                    };
                    compare.room_case("as checked", &fetch, part(start, body.len() as u64), b"");
                    let (answer, _) = compare.call(&add);
                    if count(answer) != 33 - 8 + body.len() {
                        compare.wrong(&add, "the body is accepted alone", answer);
                    }
                }
                _ => {
                    compare.room_case("as checked", &fetch, own + start, b"");
                    compare.room_case("as checked", &add, own, b"");
                }
            }
        }
    }
}

/// Rooms built up in any order have the same bytes at each stop, and taken down in any order end as none.
pub fn built_up(compare: &mut Comparison) {
    let mut random = Random::of_input(8, 0, 2);
    for n in 0..60 {
        let mut boards: Vec<Board> = (0..2 + n % 9)
            .map(|_| {
                let format = random.pick(&FORMATS);
                let mut image = Image::new(format, generate::valid(&mut random, format).entries);
                image.after = random.bytes(n % 3);
                let body = image.bytes();
                let accepted = second::check(format.number(), 4, &body).is_ok();
                match accepted && body.len() < 2_000 {
                    true => board(random.number() as u32, format.number() as u8, &body),
                    false => board(random.number() as u32, 3, &around(Format::Tiny, &[])),
                }
            })
            .collect();
        boards.sort_by_key(|board| board.number);
        boards.dedup_by_key(|board| board.number);
        let mut order: Vec<usize> = (0..boards.len()).collect();
        random.shuffle(&mut order);
        let mut room = head(0);
        let mut there: Vec<usize> = Vec::new();
        for &n in &order {
            compare.next_case();
            there.push(n);
            there.sort();
            let next = stop(&boards, &there);
            let Board {
                number,
                format,
                body,
            } = &boards[n];
            let add = Call::fetch(1, 4, &room, *number);
            makes(
                compare,
                "built up",
                &add.add_board((*format).into(), body, 0),
                &next,
            );
            room = next;
        }
        random.shuffle(&mut order);
        for &n in &order {
            compare.next_case();
            there.retain(|&other| other != n);
            let next = stop(&boards, &there);
            let remove = Call::fetch(1, 4, &room, boards[n].number).remove_board(0);
            makes(compare, "taken down", &remove, &next);
            room = next;
        }
    }
}

/// The file of some of the boards.
fn stop(boards: &[Board], there: &[usize]) -> Vec<u8> {
    let there: Vec<Board> = there.iter().map(|&n| boards[n].clone()).collect();
    file(&there)
}
