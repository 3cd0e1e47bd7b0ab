//! Generated room files, and what room calls are given (02, Machine-room file).

use std::collections::BTreeSet;

use crate::damage;
use crate::fboss;
use crate::generate::valid;
use crate::image::{around, seal, Format, FORMATS, LONGEST};
use crate::random::Random;

/// How many bytes the head of a file has, and a row of its contents.
pub const HEAD: usize = 8;
pub const ROW: usize = 8;

/// As many boards as a file has room for, with bodies of one byte.
pub const MOST: usize = 7_280;

/// Forms that a call may be told, of which only 1 is one.
pub const FORMS: [u32; 5] = [0, 1, 2, 257, u32::MAX];

/// Formats that no edition has.
pub const NO_FORMATS: [u32; 7] = [0, 5, 9, 255, 256 + 1, 256 + 2, u32::MAX];

/// Board numbers on both sides of each line that 32 bits have.
pub const EDGES: [u32; 8] = [
    0,
    1,
    0xFF,
    0x100,
    0x7FFF_FFFF,
    0x8000_0000,
    0xFFFF_FFFE,
    0xFFFF_FFFF,
];

/// A board of a room.
#[derive(Clone)]
pub struct Board {
    pub number: u32,
    /// The format byte of its row.
    pub format: u8,
    pub body: Vec<u8>,
}

impl Board {
    pub fn new(number: u32, format: u8, body: &[u8]) -> Board {
        let body = body.to_vec();
        Board {
            number,
            format,
            body,
        }
    }
}

/// The file of these boards, in the order given. A count or a length that two bytes can't hold is cut.
pub fn file(boards: &[Board]) -> Vec<u8> {
    let mut file = head(boards.len());
    file.extend(boards.iter().flat_map(row));
    file.extend(boards.iter().flat_map(|board| &board.body));
    file
}

/// The head of a file with so many boards.
pub fn head(count: usize) -> Vec<u8> {
    let [high, low] = (count as u16).to_be_bytes();
    vec![0x52, 0x4D, 0x01, 0x00, high, low, 0x00, 0x00]
}

/// The row of a board.
pub fn row(board: &Board) -> Vec<u8> {
    let mut row = board.number.to_be_bytes().to_vec();
    row.extend([board.format, 0x00]);
    row.extend((board.body.len() as u16).to_be_bytes());
    row
}

/// Numbers of so many boards, rising: at the edges, one after another, and with gaps.
fn numbers(random: &mut Random, count: usize) -> Vec<u32> {
    let mut numbers = BTreeSet::new();
    let mut last = 0_u32;
    while numbers.len() < count {
        last = match random.below(5) {
            0 => random.pick(&EDGES),
            1 | 2 => last.wrapping_add(1),
            3 => random.below(2 * count + 2) as u32,
            _ => random.number() as u32,
        };
        numbers.insert(last);
    }
    numbers.into_iter().collect()
}

/// The shortest image of a format.
pub fn shortest(format: Format) -> Vec<u8> {
    match format {
        Format::Fboss => {
            let required = fboss::REQUIRED.map(|code| match code {
                8..=10 => vec![code, 1, 0],
                _ => vec![code, 0],
            });
            around(format, &required.concat())
        }
        _ => around(format, &[]),
    }
}

/// A VPD image of exactly so many bytes, at least one, which every edition accepts: one entry, or one or none with
/// all that is left after its end.
pub fn long_vpd(random: &mut Random, length: usize) -> Vec<u8> {
    let mut body = match random.below(3) {
        0 if length > 300 => {
            // Type, key length, key, a value length of four bytes, the value, and the end.
            let value = length - 8;
            let group = |group: usize| (value >> (7 * group)) as u8 & 0x7F;
            let mut body = vec![0x01, 0x01, b'k'];
            body.extend([group(3) | 0x80, group(2) | 0x80, group(1) | 0x80, group(0)]);
            body.resize(length - 1, b'v');
            body.push(0x00);
            body
        }
        1 if length > 300 => b"\x01\x03SKU\x02A7\x00".to_vec(),
        _ => vec![0x00],
    };
    let fill = random.byte();
    body.resize(length, fill);
    body
}

/// A body that the first edition of its format accepts, of at most so many bytes, and its format.
fn body(random: &mut Random, formats: &[Format], most: usize) -> (Format, Vec<u8>) {
    let format = random.pick(formats);
    let body = match random.below(8) {
        0 | 1 => shortest(format),
        _ => valid(random, format).bytes(),
    };
    match body.len() {
        0..=LONGEST if body.len() <= most => (format, body),
        _ => (Format::Vpd, vec![0x00]),
    }
}

/// The formats of a room: every one, those that all editions have, or one.
fn formats(random: &mut Random) -> Vec<Format> {
    match random.below(8) {
        0..=3 => FORMATS[..3].to_vec(),
        4..=6 => FORMATS.to_vec(),
        _ => vec![random.pick(&FORMATS)],
    }
}

/// The boards of a right file: none, one, some, or many.
pub fn boards(random: &mut Random) -> Vec<Board> {
    let count = match random.below(64) {
        0..=3 => 0,
        4..=15 => 1,
        16..=51 => random.between(2, 6),
        52..=62 => random.between(7, 25),
        _ => random.between(26, 120),
    };
    let formats = formats(random);
    let mut left = LONGEST - HEAD - count * (ROW + 1);
    let numbers = numbers(random, count);
    let board = |number| {
        let (format, body) = body(random, &formats, left + 1);
        left -= body.len() - 1;
        let format = format.number() as u8;
        Board {
            number,
            format,
            body,
        }
    };
    numbers.into_iter().map(board).collect()
}

/// The boards of a file of 65,536 bytes or a few less: as many as there can be, boards of some hundred bytes
/// each, or one or two long ones.
pub fn large(random: &mut Random) -> Vec<Board> {
    let full = LONGEST - random.pick(&[0, 0, 1, 7, 8, 9, 10, 40]);
    let count = match random.below(4) {
        0 => random.pick(&[MOST, MOST, MOST - 1, MOST - 2]),
        1 => random.between(1, 2),
        _ => random.between(60, 400),
    };
    let formats = formats(random);
    let numbers = numbers(random, count);
    let mut left = (full - HEAD).saturating_sub(count * (ROW + 1));
    let mut boards: Vec<Board> = numbers
        .into_iter()
        .map(|number| {
            let most = match count {
                1 | 2 => random.pick(&[left + 1, 300]),
                _ => 2 * left / count + 1,
            };
            let (format, body) = body(random, &formats, most.min(left + 1));
            left -= body.len() - 1;
            Board::new(number, format.number() as u8, &body)
        })
        .collect();
    // What is left goes to one of them.
    let at = random.below(count);
    let new = long_vpd(random, left + 1);
    if boards[at].body == [0x00] {
        boards[at].body = new;
    } else {
        let fill = random.byte();
        let longer = boards[at].body.len() + left;
        boards[at].body.resize(longer, fill);
    }
    boards
}

/// The bytes of a file with one or two things wrong.
pub fn damaged(random: &mut Random, mut boards: Vec<Board>) -> Vec<u8> {
    let times = random.pick(&[1, 1, 1, 2]);
    if random.once_in(2) {
        for _ in 0..times {
            damage_boards(random, &mut boards);
        }
        return file(&boards);
    }
    let mut bytes = file(&boards);
    for _ in 0..times {
        damage_bytes(random, &mut bytes);
    }
    bytes
}

/// The first, the last or another number below a count, which is not 0.
fn somewhere(random: &mut Random, count: usize) -> usize {
    match random.below(3) {
        0 => 0,
        1 => count - 1,
        _ => random.below(count),
    }
}

/// Does one wrong thing to the boards. Lengths and places are right for the result.
fn damage_boards(random: &mut Random, boards: &mut Vec<Board>) {
    let count = boards.len();
    if count == 0 {
        return damage_nothing(random, boards);
    }
    let at = somewhere(random, count);
    match random.below(10) {
        // Rows out of order: two neighbours, or all.
        0 if count > 1 => {
            let at = random.below(count - 1);
            boards.swap(at, at + 1);
        }
        1 if random.once_in(4) => random.shuffle(boards),
        // A number twice, or one that is off by one.
        1 | 2 if count > 1 => {
            let at = somewhere(random, count - 1);
            boards[at + 1].number = match random.below(3) {
                0 => boards[at].number.wrapping_sub(1),
                _ => boards[at].number,
            }
        }
        // A body of no bytes.
        3 => boards[at].body.clear(),
        // A format that its body does not have, or that there is not.
        4 => {
            boards[at].format = match random.below(2) {
                0 => random.between(1, 4) as u8,
                _ => random.pick(&[0, 5, 9, 255]),
            }
        }
        // A body that its format refuses, or two of them.
        5..=8 => {
            break_body(random, &mut boards[at]);
            if random.once_in(4) {
                let other = somewhere(random, count);
                break_body(random, &mut boards[other]);
            }
        }
        // A body that has lost its last byte, or has one more, after its end.
        _ => {
            let body = &mut boards[at].body;
            match random.below(2) {
                0 => body.push(random.byte()),
                _ => {
                    body.pop();
                }
            }
        }
    }
}

/// A board in a file that has none: with no body, or of a format that there is not.
fn damage_nothing(random: &mut Random, boards: &mut Vec<Board>) {
    let number = random.pick(&EDGES);
    boards.push(match random.below(2) {
        0 => Board::new(number, 2, &[]),
        _ => Board::new(number, random.pick(&[0, 5, 9, 255]), &[0x00]),
    });
}

/// Puts a damaged image in the place of a body.
fn break_body(random: &mut Random, board: &mut Board) {
    let own = FORMATS
        .into_iter()
        .find(|format| format.number() == u32::from(board.format));
    let format = own.unwrap_or(Format::Vpd);
    let image = valid(random, format);
    let body = damage::damaged(random, image);
    if body.len() <= 4_096 {
        board.body = body;
    }
}

/// Does one wrong thing to the bytes of a file.
fn damage_bytes(random: &mut Random, bytes: &mut Vec<u8>) {
    let rows = match bytes.get(4..6) {
        Some(&[high, low]) => usize::from(u16::from_be_bytes([high, low])),
        _ => 0,
    };
    let rows = rows.min(bytes.len().saturating_sub(HEAD) / ROW);
    let row = HEAD + ROW * somewhere(random, rows.max(1));
    let length = bytes.len();
    match random.below(14) {
        // The head: any of its bytes, the form, or the count.
        0 | 1 => {
            if let Some(byte) = bytes.get_mut(random.below(HEAD)) {
                *byte = match random.below(4) {
                    0 => byte.wrapping_add(1),
                    1 => byte.wrapping_sub(1),
                    2 => random.pick(&[0x00, 0x01, 0x02, 0x80, 0xFF]),
                    _ => random.byte(),
                };
            }
        }
        2 if length >= HEAD => bytes.swap(4, 5),
        // A row's zero byte.
        3 | 4 if rows > 0 => bytes[row + 5] = random.pick(&[0x01, 0x80, 0xFF]),
        // A body's length: none, one off each way, its bytes the other way round.
        5 | 6 if rows > 0 => {
            let old = u16::from_be_bytes([bytes[row + 6], bytes[row + 7]]);
            let new = match random.below(7) {
                0 => 0,
                1 => old.wrapping_add(1),
                2 => old.wrapping_sub(1),
                3 => old.swap_bytes(),
                // Its low byte is right.
                4 => old.wrapping_add(0x100),
                5 => old.wrapping_sub(0x100),
                _ => random.pick(&[1, 255, 256, 0x7FFF, 0x8000, 0xFFFF]),
            };
            bytes[row + 6..row + 8].copy_from_slice(&new.to_be_bytes());
        }
        // A byte that goes from one body to its neighbour, so that the sum is as it was, or a sum that is as it
        // was in its low 16 bits.
        7 if rows > 1 => {
            let row = HEAD + ROW * random.below(rows - 1);
            if random.once_in(4) {
                bytes[row + 6] ^= 0x80;
                bytes[row + ROW + 6] ^= 0x80;
                return;
            }
            let (less, more) = random.pick(&[(row, row + ROW), (row + ROW, row)]);
            bytes[less + 7] = bytes[less + 7].wrapping_sub(1);
            bytes[more + 7] = bytes[more + 7].wrapping_add(1);
        }
        // A number or another byte of a row.
        8 if rows > 0 => bytes[row + random.below(ROW)] ^= 1 << random.below(8),
        // A file that is cut off, or has bytes after its last body.
        9 => bytes.truncate(random.below(length)),
        10 => {
            bytes.pop();
        }
        11 => {
            let more = match random.below(4) {
                0 => random.pick(&[255, 256, 257, 512]),
                _ => random.between(1, 9),
            };
            bytes.extend(random.bytes(more));
        }
        // A bit that has flipped, and a byte that has another value.
        12 if length > 0 => bytes[random.below(length)] ^= 1 << random.below(8),
        _ if length > 0 => bytes[random.below(length)] = random.byte(),
        _ => {}
    }
}

/// Bytes that are no file, or one only by its head.
pub fn noise(random: &mut Random) -> Vec<u8> {
    let length = random.pick(&[0, 1, 7, 8, 9, 15, 16, 17, 24, 30, 200]);
    let mut bytes = match random.below(3) {
        0 => random.bytes(length),
        1 => random.picks(&[0x00, 0x01, 0x02, 0x52, 0x4D, 0xFF], length),
        _ => vec![0x00; length],
    };
    if random.once_in(2) {
        let count = random.below(4);
        for (byte, right) in bytes.iter_mut().zip(head(count)) {
            *byte = right;
        }
    }
    bytes
}

/// The numbers of a file's rows, as far as they lie in it.
pub fn numbers_of(file: &[u8]) -> Vec<u32> {
    let count = match file.get(4..6) {
        Some(&[high, low]) => usize::from(u16::from_be_bytes([high, low])),
        _ => 0,
    };
    let rows = file.get(HEAD..).unwrap_or_default().chunks_exact(ROW);
    rows.take(count)
        .map(|row| u32::from_be_bytes([row[0], row[1], row[2], row[3]]))
        .collect()
}

/// A number to be sought: a board's, one next to a board's, at an edge, or any.
pub fn sought(random: &mut Random, there: &[u32]) -> u32 {
    let near = match there.is_empty() {
        true => 0,
        false => there[somewhere(random, there.len())],
    };
    match random.below(8) {
        0..=2 => near,
        3 => near.wrapping_add(1),
        4 => near.wrapping_sub(1),
        5 => random.pick(&EDGES),
        // Its bytes the other way round.
        6 => near.swap_bytes(),
        _ => random.number() as u32,
    }
}

/// A new body and the format that it is given with, where a body of so many bytes would just fit: accepted in
/// most, else damaged, of another format or of none, empty, or as long as it can be and longer.
pub fn offered(random: &mut Random, fits: usize) -> (u32, Vec<u8>) {
    let format = random.pick(&FORMATS);
    let number = format.number();
    match random.below(32) {
        0 => (number, Vec::new()),
        1 => (random.pick(&NO_FORMATS), shortest(format)),
        2 => (random.pick(&NO_FORMATS), Vec::new()),
        3 => (random.between(1, 4) as u32, valid(random, format).bytes()),
        4..=8 => {
            let image = valid(random, format);
            (number, damage::damaged(random, image))
        }
        9 => (2, long_vpd(random, fits.max(1))),
        10 => (2, long_vpd(random, fits + 1)),
        11 if random.once_in(4) => {
            let length = random.pick(&[LONGEST - 1, LONGEST, LONGEST, LONGEST + 1]);
            let format = match random.below(4) {
                0 => random.pick(&NO_FORMATS),
                _ => 2,
            };
            let mut body = long_vpd(random, length);
            if random.once_in(4) {
                body[0] = 0x02;
            }
            (format, body)
        }
        12..=15 => (number, shortest(format)),
        _ => (number, valid(random, format).bytes()),
    }
}

/// A body that differs from another in one byte, with the right check in most, and has its length.
pub fn similar(random: &mut Random, format: u32, body: &[u8]) -> Vec<u8> {
    let mut similar = body.to_vec();
    let place = random.below(similar.len());
    similar[place] = match random.below(2) {
        0 => similar[place] ^ 1 << random.below(8),
        _ => random.byte(),
    };
    let own = FORMATS
        .into_iter()
        .find(|own| own.number() == format && !random.once_in(4));
    if let Some(own) = own {
        seal(own, &mut similar);
    }
    similar
}

/// How long a body may be that is added to a file of this length, for the new file to have 65,536 bytes.
pub fn fits(file: usize) -> usize {
    LONGEST.saturating_sub(file + ROW)
}
