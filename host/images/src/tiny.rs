//! Generated Tiny entries (01, Tiny version 2).

use crate::image::{Entry, Format, POOL};
use crate::random::Random;

/// The codes that edition 1 names, and those that edition 2 adds.
pub const NAMED: [&[u8]; 2] = [&[0x01, 0x10, 0x11, 0x60, 0x61, 0x62], &[0x80, 0x81]];

/// The entries of an image have at most this many bytes, since L is at most 255.
const MOST: usize = 251;

/// A tag that an entry may have and no edition names.
pub fn unnamed(random: &mut Random) -> u8 {
    loop {
        let code = match random.below(4) {
            // Tags of id 1, which are no pool, and tags whose length follows them.
            0 => random.between(1, 15) as u8 * 16 + 1,
            1 => random.between(2, 15) as u8,
            _ => random.byte(),
        };
        if code != 0 && !NAMED.concat().contains(&code) {
            return code;
        }
    }
}

/// A value that keeps the rule of a tag.
pub fn kept(random: &mut Random, code: u8) -> Vec<u8> {
    match code {
        POOL => pool(random),
        0x02..=0x0F => {
            let length = random.pick(&[0, 0, 1, 2, 15, 16, 40]);
            random.bytes(length)
        }
        0x61 | 0x62 | 0x80 | 0x81 => {
            let mut value = random.bytes(usize::from(code >> 4));
            value[2] = random.pick(&[0, 1, 98, 99, 128, 129, 152, 153]);
            value[3] = random.pick(&[0, 1, 50, 98, 99]);
            if code >= 0x80 {
                let batch = random.pick(&[0, 1, 255, 256, 9998, 9999]) as u16;
                value[6..8].copy_from_slice(&batch.to_le_bytes());
            }
            value
        }
        _ => random.bytes(usize::from(code >> 4)),
    }
}

/// A value of the tag's length that breaks its rule, where there is one.
pub fn broken(random: &mut Random, code: u8) -> Vec<u8> {
    let mut value = kept(random, code);
    match (code, random.below(3)) {
        (0x61 | 0x62, 0) | (0x80 | 0x81, 0) => {
            value[2] = random.pick(&[100, 101, 127, 154, 155, 200, 255])
        }
        (0x61 | 0x62, _) | (0x80 | 0x81, 1) => value[3] = random.pick(&[100, 101, 128, 153, 255]),
        (0x80 | 0x81, _) => {
            let batch = random.pick(&[10_000, 10_001, 0x7FFF, 0xFFFF]) as u16;
            value[6..8].copy_from_slice(&batch.to_le_bytes());
        }
        _ => {}
    }
    value
}

/// A pool of a few strings. Some pools are empty, have an unfinished tail, or are nothing else.
fn pool(random: &mut Random) -> Vec<u8> {
    let mut pool = Vec::new();
    for _ in 0..random.pick(&[0, 1, 2, 3, 5]) {
        let length = random.pick(&[0, 1, 2, 6]);
        pool.extend((0..length).map(|_| random.byte() & 0x7F));
        pool.push(random.byte() | 0x80);
    }
    if random.once_in(2) {
        let length = random.between(1, 5);
        pool.extend((0..length).map(|_| random.byte() & 0x7F));
    }
    pool
}

/// The entries of an image that edition 1 accepts. Later editions accept it but for one in a few,
/// which have an entry that edition 1 does not name twice, or with a wrong value.
pub fn entries(random: &mut Random) -> Vec<Entry> {
    let often = random.between(1, 6);
    let mut codes: Vec<u8> = NAMED
        .concat()
        .into_iter()
        .filter(|&code| code != POOL && random.once_in(often))
        .collect();
    for _ in 0..random.pick(&[0, 0, 1, 2, 5]) {
        codes.push(unnamed(random));
    }
    if random.once_in(8) {
        codes.push(random.pick(NAMED[1]));
    }
    random.shuffle(&mut codes);
    if random.once_in(2) {
        codes.push(POOL);
    }

    let mut entries = Vec::new();
    let mut left = MOST;
    for code in codes {
        let mut value = match random.below(40) {
            0 if NAMED[1].contains(&code) => broken(random, code),
            _ => kept(random, code),
        };
        if code == POOL && random.once_in(20) {
            // The largest pool that the other entries leave room for.
            value = random.bytes(left.saturating_sub(2));
        }
        let entry = Entry::new(code, value);
        let size = entry.bytes(Format::Tiny).len();
        if size <= left {
            left -= size;
            entries.push(entry);
        }
    }
    entries
}

/// As many entries as an image can hold: 125, of two bytes each.
pub fn shortest(random: &mut Random) -> Vec<Entry> {
    let mut entries: Vec<Entry> = (0..125)
        .map(|_| match random.below(2) {
            0 => Entry::new(0x12, random.bytes(1)),
            _ => Entry::new(0x0F, Vec::new()),
        })
        .collect();
    if random.once_in(2) {
        entries[random.below(125)] = Entry::new(0x10, random.bytes(1));
    }
    if random.once_in(2) {
        entries[124] = Entry::new(POOL, Vec::new());
    }
    entries
}

/// Entries with which L is so many less than 255: a few named ones, one that fills, and a pool in half.
pub fn filling(random: &mut Random, less: usize) -> Vec<Entry> {
    let often = random.between(1, 6);
    let mut entries = Vec::new();
    for code in NAMED.concat() {
        if code != POOL && random.once_in(often) {
            entries.push(Entry::new(code, kept(random, code)));
        }
    }
    let size: usize = entries
        .iter()
        .map(|entry| entry.bytes(Format::Tiny).len())
        .sum();
    // Tags of id 0 have a length byte, and so does the pool.
    let mut left = MOST - less - size - 2;
    if random.once_in(2) {
        let pool = random.below(left.saturating_sub(2) + 1);
        entries.push(Entry::new(POOL, random.bytes(pool)));
        left = left.saturating_sub(2 + pool);
    }
    let place = random.below(entries.len() + 1);
    let place = place.min(
        entries
            .iter()
            .take_while(|entry| entry.code != POOL)
            .count(),
    );
    let code = random.pick(&[0x02, 0x0F]);
    entries.insert(place, Entry::new(code, random.bytes(left)));
    entries
}
