//! Generated images of amplifiers, and what vendor writes are given (02, Vendor blocks for the optics
//! lab; 003).

use crate::checks::check32;
use crate::image::{after_the_end, Entry, Format, Image, ONIE_LONGEST};
use crate::onie::{self, EXTENSION};
use crate::random::Random;

/// What a vendor extension begins with where a piece of a payload follows.
pub const PREFIX: [u8; 5] = [0x00, 0x00, 0x1F, 0x79, 0x00];

/// No piece is longer than this.
pub const LONGEST_PIECE: usize = 250;

/// A payload of these parts, with the right check.
pub fn payload(serial: &[u8], block: &[u8]) -> Vec<u8> {
    let block_length = (block.len() as u16).to_be_bytes();
    let mut payload = [&[serial.len() as u8], serial, &block_length, block].concat();
    payload.extend([0; 4]);
    seal(&mut payload);
    payload
}

/// The block of a dual-band amplifier with these offsets.
pub fn block(offsets: [i8; 8]) -> Vec<u8> {
    [&[0x00][..], &offsets.map(|offset| offset as u8)].concat()
}

/// Makes the last four bytes of a payload the check over all before them.
pub fn seal(payload: &mut [u8]) {
    if let Some((covered, stored)) = payload.split_last_chunk_mut::<4>() {
        *stored = check32(covered).to_be_bytes();
    }
}

/// The vendor extensions of a payload that is cut into pieces of these lengths.
pub fn extensions(payload: &[u8], lengths: &[usize]) -> Vec<Entry> {
    let mut rest = payload;
    let mut entries = Vec::new();
    for &length in lengths {
        let (piece, after) = rest.split_at(length.min(rest.len()));
        entries.push(extension(piece));
        rest = after;
    }
    entries
}

/// The vendor extension of one piece.
pub fn extension(piece: &[u8]) -> Entry {
    Entry::new(EXTENSION, [&PREFIX, piece].concat())
}

/// Lengths of pieces into which a payload can be cut, empty ones among them.
pub fn lengths(random: &mut Random, payload: usize) -> Vec<usize> {
    let most = match random.below(8) {
        0 => 1,
        1 => random.between(2, 12),
        2 => random.pick(&[249, LONGEST_PIECE]),
        _ => random.between(1, LONGEST_PIECE),
    };
    let empty_often = random.pick(&[0, 0, 2, 6]);
    let mut lengths = Vec::new();
    let mut left = payload;
    while left > 0 {
        if empty_often > 0 && random.once_in(empty_often) {
            lengths.push(0);
        }
        let length = match random.below(3) {
            0 => random.between(1, most).min(left),
            _ => most.min(left),
        };
        lengths.push(length);
        left -= length;
    }
    if payload == 0 || random.once_in(8) {
        lengths.push(0);
    }
    lengths
}

/// The length of a serial, of those that a payload can have.
fn serial_length(random: &mut Random) -> usize {
    match random.below(8) {
        0 => 0,
        1 => random.pick(&[233, 234, 235, 236, 254, 255]),
        2 => random.between(0, 255),
        3 | 4 => 8,
        _ => random.between(1, 20),
    }
}

/// Offsets, with many of those at the edges.
fn offsets(random: &mut Random) -> [i8; 8] {
    let edges = random.once_in(2);
    [(); 8].map(|()| match edges {
        true => random.pick(&[-128, -127, -2, -1, 0, 1, 24, 126, 127]),
        false => random.byte() as i8,
    })
}

/// A payload of any kind: a right one in half, else with one to three things wrong.
fn any_payload(random: &mut Random) -> Vec<u8> {
    let length = serial_length(random);
    let serial = match random.below(2) {
        0 => random.bytes(length),
        _ => random.text(length),
    };
    let mut block = block(offsets(random));
    let (in_block, in_length, in_check) = match random.below(16) {
        0..=7 => (false, false, false),
        8 | 9 => (true, false, false),
        10 | 11 => (false, true, false),
        12 | 13 => (false, false, true),
        _ => (random.once_in(2), random.once_in(2), random.once_in(2)),
    };
    if in_block {
        spoil_block(random, &mut block);
    }
    let mut payload = payload(&serial, &block);
    if in_length {
        spoil_length(random, &mut payload, length);
        if random.once_in(2) {
            seal(&mut payload);
        }
    }
    if in_check {
        spoil_check(random, &mut payload);
    }
    payload
}

/// Gives a block another version or another length, for which the payload's length and check are right.
fn spoil_block(random: &mut Random, block: &mut Vec<u8>) {
    match random.below(4) {
        0 | 1 => block[0] = random.pick(&[0x01, 0x01, 0x02, 0x80, 0xFF]),
        // With 265 bytes the low byte of the length is nine.
        2 => {
            let length = random.pick(&[0, 0, 0, 1, 8, 8, 10, 10, 18, 255, 256, 265, 300]);
            block.resize(length, 0x00);
        }
        _ => {
            block.remove(0);
        }
    }
}

/// Makes a payload, whose serial has that many bytes, longer or shorter than its parts.
fn spoil_length(random: &mut Random, payload: &mut Vec<u8>, serial: usize) {
    let length = payload.len();
    let block_length = serial + 1;
    let off_by_one = |byte: u8| [byte.wrapping_add(1), byte.wrapping_sub(1)];
    match random.below(8) {
        // One byte too long or too short, at the end or before the check.
        0 => payload.push(random.byte()),
        1 => {
            payload.pop();
        }
        2 => payload.insert(length - 4, random.pick(&[0x00, 0xFF])),
        3 => {
            payload.remove(length - 5);
        }
        // A length that is off by one, has its bytes the other way round, or has a high byte.
        4 => payload[0] = random.pick(&off_by_one(payload[0])),
        5 => payload[block_length + 1] = random.pick(&off_by_one(payload[block_length + 1])),
        6 => match random.below(2) {
            0 => payload.swap(block_length, block_length + 1),
            _ => payload[block_length] = random.pick(&[0x01, 0x80, 0xFF]),
        },
        // A payload that ends anywhere.
        _ => payload.truncate(random.below(length)),
    }
}

/// Makes the check of a payload wrong: a bit of it, its bytes the other way round, over one byte less
/// at either end, or a bit of what it is over.
fn spoil_check(random: &mut Random, payload: &mut [u8]) {
    let Some(check) = payload.len().checked_sub(4) else {
        return;
    };
    let (covered, stored) = payload.split_at_mut(check);
    match random.below(4) {
        0 => stored.reverse(),
        1 if check > 0 => {
            let less = random.pick(&[&covered[1..], &covered[..check - 1]]);
            stored.copy_from_slice(&check32(less).to_be_bytes());
        }
        2 if check > 0 => covered[random.below(check)] ^= 1 << random.below(8),
        _ => stored[random.below(4)] ^= 1 << random.below(8),
    }
}

/// A vendor extension that holds no piece: its first bytes are another enterprise's, or the first
/// four of the prefix alone, or with another byte after them.
fn foreign(random: &mut Random, payload: &[u8]) -> Entry {
    let start = random.below(payload.len() + 1);
    let end = random.between(start, payload.len().min(start + 30));
    let piece = &payload[start..end];
    let mut value = [&PREFIX, piece].concat();
    match random.below(6) {
        0 => value.truncate(4),
        1 | 2 => value[4] = random.pick(&[0x01, 0x01, 0x02, 0xFF]),
        3 => {
            let place = random.below(5);
            value[place] ^= 1 << random.below(8);
        }
        // The prefix comes one byte late, or its first byte is missing.
        4 => match random.below(2) {
            0 => value.insert(0, random.pick(&[0x00, 0x01])),
            _ => {
                value.remove(0);
            }
        },
        _ => value = random.bytes(9),
    }
    if value.starts_with(&PREFIX) || value.len() < 4 {
        value = PREFIX[..4].to_vec();
    }
    Entry::new(EXTENSION, value)
}

/// Entries that are no vendor extensions, one of an unnamed code with a piece in it among them.
fn others(random: &mut Random, payload: &[u8]) -> Vec<Entry> {
    let mut entries: Vec<Entry> = onie::entries(random)
        .into_iter()
        .filter(|entry| entry.code != EXTENSION)
        .collect();
    if random.once_in(6) {
        let piece = &payload[..payload.len().min(40)];
        let value = [&PREFIX, piece].concat();
        entries.push(Entry::new(onie::unnamed(random), value));
    }
    if random.once_in(2) {
        entries.truncate(3);
    }
    entries
}

/// The image of an amplifier: a payload of any kind, cut anywhere, with other entries around the
/// pieces. Edition 3 accepts the image but for a few that are too long.
pub fn amplifier(random: &mut Random) -> Image {
    let payload = match random.below(40) {
        // As much as fits into an image, and about that.
        0 => {
            let block = random.between(1_700, 2_000);
            self::payload(b"DQ000MPW", &vec![0x00; block])
        }
        _ => any_payload(random),
    };
    let pieces = lengths(random, payload.len());
    let mut entries = match random.below(24) {
        // No piece at all.
        0 => Vec::new(),
        // Only pieces without bytes.
        1 => extensions(&[], &vec![0; random.between(1, 5)]),
        _ => extensions(&payload, &pieces),
    };
    let mut around = others(random, &payload);
    for _ in 0..random.pick(&[0, 0, 1, 2, 5]) {
        around.push(foreign(random, &payload));
    }
    let size = |entry: &Entry| entry.bytes(Format::Onie).len();
    let mut left = (ONIE_LONGEST - 17).saturating_sub(entries.iter().map(size).sum());
    for entry in around {
        // One in many is put in where it does not fit any more.
        if size(&entry) <= left || random.once_in(200) {
            left = left.saturating_sub(size(&entry));
            entries.insert(random.between(0, entries.len()), entry);
        }
    }
    match random.below(12) {
        // The pieces in another order, one of them twice, or one of them missing.
        0 => random.shuffle(&mut entries),
        1 if !entries.is_empty() => {
            let again = entries[random.below(entries.len())].clone();
            if again.code == EXTENSION && size(&again) <= left {
                entries.insert(random.between(0, entries.len()), again);
            }
        }
        2 if !entries.is_empty() => {
            entries.remove(random.below(entries.len()));
        }
        _ => {}
    }
    let mut image = Image::new(Format::Onie, entries);
    image.after = after_the_end(random, image.bytes().len());
    image
}

/// What a vendor write is given.
pub struct Writing {
    pub serial: Vec<u8>,
    /// Offset k is the signed byte in bits 8k to 8k + 7.
    pub offsets: u64,
    /// The lengths of the pieces, as words.
    pub pieces: Vec<u32>,
    /// The first bytes of a piece that is cut short.
    cut: Vec<u8>,
}

impl Writing {
    pub fn new(serial: Vec<u8>, offsets: [i8; 8], pieces: Vec<u32>) -> Writing {
        Writing {
            serial,
            offsets: u64::from_le_bytes(offsets.map(|offset| offset as u8)),
            pieces,
            cut: Vec::new(),
        }
    }

    /// The pieces as they lie in lent bytes.
    pub fn piece_bytes(&self) -> Vec<u8> {
        let words = self.pieces.iter();
        let mut bytes: Vec<u8> = words.flat_map(|word| word.to_le_bytes()).collect();
        bytes.extend(&self.cut);
        bytes
    }

    pub fn offsets(&self) -> [i8; 8] {
        self.offsets.to_le_bytes().map(|byte| byte as i8)
    }
}

/// A vendor write: with pieces that sum to the payload in half, else with something wrong.
pub fn writing(random: &mut Random) -> Writing {
    let length = match random.below(48) {
        0 => random.pick(&[511, 512, 65_536, 65_537, 70_000]),
        1..=7 => random.pick(&[254, 255, 256, 257, 300]),
        _ => serial_length(random),
    };
    let serial = random.bytes(length);
    // The pieces of a serial above 255 bytes are in some right for the low byte of its length.
    let told = match length > 255 && random.once_in(2) {
        true => length % 256,
        false => length,
    };
    let pieces = lengths(random, 16 + told);
    let pieces = pieces.into_iter().map(|length| length as u32).collect();
    let mut writing = Writing::new(serial, offsets(random), pieces);
    if random.once_in(2) {
        spoil_pieces(random, &mut writing.pieces);
    }
    if random.once_in(50) {
        // Empty pieces have a prefix each: as many as an output can hold, and about that.
        let many = random.pick(&[1_000, 13_099, 13_100, 13_101, 13_102, 13_103]);
        writing.pieces.extend(vec![0; many]);
    }
    if random.once_in(6) {
        let cut = random.between(1, 3);
        writing.cut = match random.below(3) {
            0 => random.bytes(cut),
            // The first bytes of a length that would change the sum, or leave it.
            1 => vec![1; cut],
            _ => vec![0; cut],
        };
        // The last length is cut short itself.
        if random.once_in(3) {
            if let Some(last) = writing.pieces.pop() {
                writing.cut = last.to_le_bytes()[..cut].to_vec();
            }
        }
    }
    writing
}

/// Does one thing to the lengths of pieces that in most cases makes them wrong.
fn spoil_pieces(random: &mut Random, pieces: &mut Vec<u32>) {
    let count = pieces.len();
    let at = random.below(count);
    let piece = pieces[at];
    match random.below(10) {
        // One off each way.
        0 => pieces[at] = piece.wrapping_add(1),
        1 => pieces[at] = piece.wrapping_sub(1),
        // One piece less or more.
        2 => {
            pieces.remove(at);
        }
        3 => pieces.insert(at, random.pick(&[0, 1, 24, 250, 251])),
        // None.
        4 => pieces.clear(),
        // A piece of 251 bytes or more, the sum as it was where that can be.
        5 | 6 => {
            let long = random.pick(&[251, 251, 252, 255, 256]);
            let sum: u32 = pieces.iter().sum();
            if let Some(left) = sum.checked_sub(long) {
                *pieces = lengths(random, left as usize)
                    .into_iter()
                    .map(|length| length as u32)
                    .collect();
                pieces.insert(random.between(0, pieces.len()), long);
            } else {
                pieces[at] = long;
            }
        }
        // Lengths far above, of which the low bits are right.
        7 => pieces[at] = piece | random.pick(&[1 << 8, 1 << 16, 1 << 24, 1 << 31]),
        8 => pieces[at] = random.pick(&[u32::MAX, 1 << 31, 65_536, piece.swap_bytes()]),
        // Lengths whose sum wraps to the payload's length, of pieces that are too long or not.
        _ => match random.below(2) {
            0 => {
                let half = random.pick(&[1_u32 << 31, u32::MAX, 24, 250]);
                pieces.insert(at, half);
                pieces.insert(random.between(0, count), half.wrapping_neg());
            }
            _ => {
                let lost = random.pick(&[1 << 8, 1 << 8, 1 << 16]);
                pieces.extend(vec![250; lost / 250]);
                pieces.push((lost % 250) as u32);
            }
        },
    }
}
