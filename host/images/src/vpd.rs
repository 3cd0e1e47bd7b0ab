//! Generated VPD entries (01, VPD 2.0).

use std::collections::HashSet;

use crate::image::{Entry, Format, VPD_INFO, VPD_STRING};
use crate::random::Random;

/// The codes that edition 1 names, and those that edition 2 adds.
pub const NAMED: [&[u8]; 2] = [&[VPD_STRING], &[VPD_INFO]];

/// Whose rule the key of a 01h keeps (01, VPD 2.0; 02, VPD names with dots).
#[derive(Clone, Copy, PartialEq, Eq)]
pub enum Rule {
    /// At least one byte, any bytes.
    Reader,
    /// At least one byte, all from the alphabet.
    Writer,
}

/// The alphabet of a key that a writer takes.
const ALPHABET: &[u8] = b"abcdefghijklmnopqrstuvwxyzABCDEFGHIJKLMNOPQRSTUVWXYZ0123456789_";

/// Bytes outside the alphabet: those next to its ranges, and others that a text may not have.
const OUTSIDE: &[u8] = b"./:@[^`{ -\"\x00\x01\x0A\x1F\x7F\x80\xAE\xC1\xC3\xDF\xFE\xFF";

/// Every byte, in order.
const EVERY_BYTE: &[u8] = &every_byte();

const fn every_byte() -> [u8; 256] {
    let mut bytes = [0; 256];
    let mut byte = 0;
    while byte < bytes.len() {
        bytes[byte] = byte as u8;
        byte += 1;
    }
    bytes
}

impl Rule {
    /// The bytes of which a key may consist.
    fn bytes(self) -> &'static [u8] {
        match self {
            Rule::Reader => EVERY_BYTE,
            Rule::Writer => ALPHABET,
        }
    }
}

/// A key that keeps the rule of a code. That of FEh has no rule.
pub fn kept_key(random: &mut Random, rule: Rule, code: u8) -> Vec<u8> {
    let length = match random.below(40) {
        0 => random.pick(&[127, 128, 129, 300]),
        1..=20 => random.between(1, 2),
        _ => random.between(1, 12),
    };
    match (code, rule) {
        (VPD_INFO, _) if random.once_in(3) => b"gVpdInfo".to_vec(),
        (VPD_INFO, _) if random.once_in(3) => Vec::new(),
        (VPD_INFO, _) => random.bytes(length),
        (_, Rule::Writer) => random.picks(ALPHABET, length),
        (_, Rule::Reader) => match random.below(4) {
            0 => dotted_key(random),
            1 => random.bytes(length),
            2 => random.picks(OUTSIDE, length),
            _ => random.picks(ALPHABET, length),
        },
    }
}

/// A name with a dot, or with another byte between its parts that no writer takes.
fn dotted_key(random: &mut Random) -> Vec<u8> {
    if random.once_in(3) {
        return b"lab.rack".to_vec();
    }
    let mut key = Vec::new();
    for _ in 0..random.between(1, 3) {
        let length = random.between(0, 5);
        key.extend(random.picks(ALPHABET, length));
        key.push(random.pick(b"....-/ "));
    }
    let length = random.between(0, 5);
    key.extend(random.picks(ALPHABET, length));
    key
}

/// A key of type 01h that differs from another in little: one byte or one bit, its case, its end, the
/// order, or a zero byte before or after it.
pub fn similar_key(random: &mut Random, rule: Rule, key: &[u8]) -> Vec<u8> {
    let mut similar = key.to_vec();
    let place = random.below(similar.len());
    match (random.below(9), rule) {
        (0, _) => similar.push(random.pick(rule.bytes())),
        (1, _) if similar.len() > 1 => {
            similar.pop();
        }
        (2, _) if similar[place].is_ascii_alphabetic() => similar[place] ^= 0x20,
        (3, _) => similar.reverse(),
        (4, _) => similar.extend_from_slice(key),
        (5, Rule::Reader) => similar.insert(0, 0x00),
        (6, Rule::Reader) => similar.push(0x00),
        (7, Rule::Reader) => similar[place] ^= 1 << random.below(8),
        _ => similar[place] = random.pick(rule.bytes()),
    }
    similar
}

/// A key that breaks the rule of type 01h. Only an empty one breaks the reader's.
pub fn broken_key(random: &mut Random, rule: Rule) -> Vec<u8> {
    if rule == Rule::Reader || random.once_in(6) {
        return Vec::new();
    }
    if random.once_in(4) {
        return dotted_key(random);
    }
    let mut key = kept_key(random, Rule::Writer, VPD_STRING);
    let place = random.below(key.len());
    key[place] = loop {
        let byte = match random.below(2) {
            0 => random.pick(OUTSIDE),
            _ => random.byte(),
        };
        if !ALPHABET.contains(&byte) {
            break byte;
        }
    };
    key
}

/// A value that keeps the rule of a code.
pub fn kept(random: &mut Random, code: u8) -> Vec<u8> {
    let length = match (code, random.below(60)) {
        (VPD_INFO, _) => 4,
        (_, 0) => random.pick(&[127, 128, 129, 255, 256]),
        (_, 1) if random.once_in(8) => random.pick(&[16_383, 16_384, 16_385]),
        (_, 1..=20) => 0,
        _ => random.between(1, 12),
    };
    random.bytes(length)
}

/// A value that breaks the rule of type FEh. No value breaks that of type 01h.
pub fn broken(random: &mut Random) -> Vec<u8> {
    let length = random.pick(&[0, 1, 3, 5, 8, 128, 260]);
    random.bytes(length)
}

/// The entries of an image that edition 1 accepts. Later editions accept it but for one in a few,
/// which have a second info header, or one with a wrong value.
pub fn entries(random: &mut Random) -> Vec<Entry> {
    let count = random.pick(&[0, 1, 1, 2, 3, 5, 8, 13, 30]);
    // Some images have no key that a writer would refuse.
    let rule = random.pick(&[Rule::Reader, Rule::Reader, Rule::Reader, Rule::Writer]);
    let mut keys = HashSet::new();
    let mut entries: Vec<Entry> = Vec::new();
    for _ in 0..count {
        let key = match entries.last() {
            Some(last) if random.once_in(3) => similar_key(random, rule, &last.key),
            _ => kept_key(random, rule, VPD_STRING),
        };
        if keys.insert(key.clone()) {
            let value = kept(random, VPD_STRING);
            entries.push(Entry::with_key(VPD_STRING, key, value));
        }
    }
    for _ in 0..random.pick(&[0, 0, 0, 1, 1, 1, 2, 4]) {
        let key = match entries.first() {
            // The two types may have the same key.
            Some(entry) if random.once_in(4) => entry.key.clone(),
            _ => kept_key(random, rule, VPD_INFO),
        };
        let value = match random.below(6) {
            0 => broken(random),
            _ => kept(random, VPD_INFO),
        };
        let place = random.between(0, entries.len());
        entries.insert(place, Entry::with_key(VPD_INFO, key, value));
    }
    for entry in &mut entries {
        if random.once_in(4) {
            entry.zero_groups = [random.below(4), random.below(4)];
        }
    }
    entries
}

/// The key of a number: distinct numbers have distinct keys, the shortest first.
pub fn numbered_key(rule: Rule, number: usize) -> Vec<u8> {
    let bytes = rule.bytes();
    let mut key = Vec::new();
    let mut rest = number + 1;
    while rest > 0 {
        rest -= 1;
        key.push(bytes[rest % bytes.len()]);
        rest /= bytes.len();
    }
    key.reverse();
    key
}

/// So many entries with distinct keys, the shortest that there are, and empty values.
///
/// Each has its key and three bytes more: type, length, key, length 0. So the entries of a reader's
/// keys have 256 × 4 bytes and then 5 each, and 13,158 of them fit into the 65,535 bytes before an
/// image's end. Those of a writer's keys have 63 × 4, 3,969 × 5 and then 6 each: there 11,605 fit.
pub fn distinct(rule: Rule, count: usize) -> Vec<Entry> {
    (0..count)
        .map(|number| Entry::with_key(VPD_STRING, numbered_key(rule, number), Vec::new()))
        .collect()
}

/// Entries with many keys, to as many as an image can hold and one more, in order or not. Half of
/// the lists have one key a second time, far from the first.
pub fn many_keys(random: &mut Random) -> Vec<Entry> {
    let count = random.pick(&[4, 129, 130, 514, 13_157, 13_158, 13_158, 13_159]);
    let mut entries = distinct(Rule::Reader, count);
    if random.once_in(2) {
        random.shuffle(&mut entries);
    }
    if random.once_in(2) {
        let first = random.below(count / 4);
        let second = count - 1 - random.below(count / 4);
        entries[second].key = entries[first].key.clone();
    }
    entries
}

/// Entries that fill an image to exactly this length, with values of about one length.
pub fn filling(random: &mut Random, rule: Rule, length: usize, value_length: usize) -> Vec<Entry> {
    let mut entries = Vec::new();
    let mut left = length - 1;
    loop {
        let key = numbered_key(rule, entries.len());
        let mut entry = Entry::with_key(VPD_STRING, key, random.bytes(value_length));
        let size = entry.bytes(Format::Vpd).len();
        let next_at_least = 3 + numbered_key(rule, entries.len() + 1).len();
        if size + next_at_least > left {
            last_of_size(random, &mut entry, left);
            entries.push(entry);
            return entries;
        }
        left -= size;
        entries.push(entry);
    }
}

/// Gives an entry a value with which it has exactly this size.
fn last_of_size(random: &mut Random, entry: &mut Entry, size: usize) {
    for zero_groups in 0..3 {
        for length_bytes in 1..4 {
            let Some(value) = size.checked_sub(2 + entry.key.len() + length_bytes) else {
                continue;
            };
            entry.value = random.bytes(value);
            entry.zero_groups = [0, zero_groups];
            if entry.bytes(Format::Vpd).len() == size {
                return;
            }
        }
    }
}

/// As many of the shortest entries as an image of this length can hold: FE 00 00, which edition 1
/// accepts.
pub fn shortest(length: usize) -> Vec<Entry> {
    let room = length - 1;
    let mut entries: Vec<Entry> = (0..room / 3)
        .map(|_| Entry::new(VPD_INFO, Vec::new()))
        .collect();
    if let Some(last) = entries.last_mut() {
        last.value = vec![0; room % 3];
    }
    entries
}
