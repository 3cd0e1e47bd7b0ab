//! Generated field lists for a write, and fields to be added to an image.

use crate::generate::{broken, kept, named, offered};
use crate::image::{Entry, Format, LONGEST, POOL, VPD_INFO, VPD_STRING};
use crate::onie::EXTENSION;
use crate::random::Random;
use crate::vpd::{self, Rule};
use crate::{dates, fboss, onie};

/// A field's five words: code, key place, key length, value place, value length.
type Field = [u32; 5];

/// The words of a field by number.
const CODE: usize = 0;
const KEY: usize = 1;
const VALUE: usize = 3;

/// An entry that an image has, by code and key.
pub type There<'a> = (u8, &'a [u8]);

/// A field list and the values in which its parts lie.
#[derive(Default)]
pub struct List {
    fields: Vec<Field>,
    pub values: Vec<u8>,
    /// The first bytes of a field that is cut short.
    cut: Vec<u8>,
}

impl List {
    /// Adds a field whose parts are put at the end of the values.
    pub fn add(&mut self, code: u32, key: &[u8], value: &[u8]) {
        let key = self.part(key);
        let value = self.part(value);
        self.fields.push([code, key[0], key[1], value[0], value[1]]);
    }

    fn part(&mut self, bytes: &[u8]) -> [u32; 2] {
        let place = self.values.len();
        self.values.extend(bytes);
        [place as u32, bytes.len() as u32]
    }

    /// The fields as they lie in lent bytes.
    pub fn bytes(&self) -> Vec<u8> {
        let words = self.fields.iter().flatten();
        let mut bytes: Vec<u8> = words.flat_map(|word| word.to_le_bytes()).collect();
        bytes.extend(&self.cut);
        bytes
    }
}

/// A list for an edition, with up to three things wrong in most.
pub fn list(random: &mut Random, format: Format, edition: u32) -> List {
    let mut list = List::default();
    let mut codes = codes(random, format, edition);
    if random.once_in(3) {
        random.shuffle(&mut codes);
    }
    if format == Format::Tiny && !random.once_in(8) {
        // The pool has to be the last.
        codes.sort_by_key(|&code| code == POOL);
    }
    let careful = random.once_in(2);
    // A list of keys that a reader takes is refused at the first that is outside the alphabet.
    let rule = match format == Format::Vpd && !careful && random.once_in(3) {
        true => Rule::Reader,
        false => Rule::Writer,
    };
    let mut last_key = Vec::new();
    for code in codes {
        let key = match format {
            Format::Vpd if !careful && random.once_in(12) => vpd::broken_key(random, rule),
            Format::Vpd if !last_key.is_empty() && random.once_in(4) => {
                vpd::similar_key(random, rule, &last_key)
            }
            Format::Vpd => vpd::kept_key(random, rule, code),
            _ => Vec::new(),
        };
        let value = match careful || !random.once_in(12) {
            true => kept(random, format, code),
            false => offered(random, format, code),
        };
        if random.once_in(10) {
            let gap = random.between(1, 9);
            list.values.extend(random.bytes(gap));
        }
        list.add(u32::from(code), &key, &value);
        if code == VPD_STRING {
            last_key = key;
        }
    }
    if format != Format::Vpd && random.once_in(2) {
        // Outside VPD a key is not looked at, wherever it lies.
        for field in &mut list.fields {
            field[KEY] = random.number() as u32;
            field[KEY + 1] = random.number() as u32;
        }
    }
    if format == Format::Vpd && !list.fields.is_empty() && random.once_in(4) {
        let at = random.below(list.fields.len());
        break_rule(random, format, &mut list, at);
    }
    for _ in 0..random.pick(&[0, 0, 1, 1, 2, 3]) {
        spoil(random, format, &mut list);
    }
    if random.once_in(6) {
        let length = random.between(1, 19);
        list.cut = match list.fields.first() {
            Some(first) if random.once_in(2) => {
                let whole: Vec<u8> = first.iter().flat_map(|word| word.to_le_bytes()).collect();
                whole[..length].to_vec()
            }
            _ => random.bytes(length),
        };
    }
    list
}

fn codes(random: &mut Random, format: Format, edition: u32) -> Vec<u8> {
    let named = named(format, edition);
    match format {
        Format::Fboss => {
            let often = random.between(1, 6);
            named
                .into_iter()
                .filter(|code| fboss::REQUIRED.contains(code) || random.once_in(often))
                .collect()
        }
        Format::Vpd => {
            let count = random.pick(&[0, 1, 1, 2, 3, 5, 10]);
            let mut codes = vec![VPD_STRING; count];
            if named.contains(&VPD_INFO) && random.once_in(2) {
                codes.push(VPD_INFO);
            }
            codes
        }
        Format::Tiny => {
            let often = random.between(1, 4);
            named
                .into_iter()
                .filter(|_| random.once_in(often))
                .collect()
        }
        Format::Onie => {
            let often = random.between(1, 4);
            let mut codes: Vec<u8> = named
                .into_iter()
                .filter(|_| random.once_in(often))
                .collect();
            let more = random.pick(&[0, 0, 1, 3]);
            codes.extend(vec![EXTENSION; more]);
            codes
        }
    }
}

/// Does one thing to a list that in most cases makes it wrong.
fn spoil(random: &mut Random, format: Format, list: &mut List) {
    let count = list.fields.len();
    if count == 0 {
        return;
    }
    let at = random.below(count);
    let end = list.values.len() as u32;
    let is_date = |field: &Field| dates::code(format).map(u32::from) == Some(field[CODE]);
    let date = list.fields.iter().position(is_date).unwrap_or(count);
    match random.below(13) {
        // A code that the edition does not name, or that no entry has.
        0 => {
            let code = list.fields[at][CODE];
            list.fields[at][CODE] = match random.below(4) {
                0 if format == Format::Onie => {
                    random.pick(&[0, 0x20, 0x26, 0x2E, 0xFC, 0xFE, 0xFF])
                }
                0 => random.pick(&[0, 2, 17, 20, 21, 0x20, 0x80, 0x81, 249, 250, 254, 255]),
                1 => random.pick(&[code + 256, code << 8, code | 1 << 31, u32::MAX]),
                2 => random.number() as u32,
                _ => random.below(256) as u32,
            };
        }
        // A part that is not inside the values, or just is.
        1..=3 => {
            let part = random.pick(&[KEY, VALUE, VALUE]);
            let place = list.fields[at][part];
            let length = list.fields[at][part + 1];
            let (place, length) = random.pick(&[
                (end, 0),
                (end + 1, 0),
                (end, 1),
                (place, end - place.min(end)),
                (place, (end - place.min(end)) + 1),
                (place, u32::MAX),
                (u32::MAX, length),
                (u32::MAX, u32::MAX),
                (u32::MAX, 0),
                // The sum wraps to a place inside.
                (length.wrapping_neg(), length),
                (place, place.wrapping_neg()),
                (place.wrapping_add(1 << 31), 1 << 31),
            ]);
            list.fields[at][part] = place;
            list.fields[at][part + 1] = length;
        }
        // A field that comes a second time: the same parts, or the same code with another value.
        4 | 5 => {
            let mut again = list.fields[at];
            if random.once_in(2) {
                let value = kept(random, format, again[CODE] as u8);
                let value = list.part(&value);
                again[VALUE..].copy_from_slice(&value);
            }
            list.fields.insert(random.between(at, count), again);
        }
        // A field that is missing.
        6 => {
            list.fields.remove(at);
        }
        7 | 8 => break_rule(random, format, list, at),
        // A value of a length on either side of a line.
        9 => {
            let value = offered(random, format, list.fields[at][CODE] as u8);
            let value = list.part(&value);
            list.fields[at][VALUE..].copy_from_slice(&value);
        }
        // A field after the pool, in Tiny.
        10 => {
            let code = random.pick(&named(format, 3));
            let value = offered(random, format, code);
            list.add(u32::from(code), b"late", &value);
        }
        // A date that is no day, or has another form.
        11 if date < count => break_rule(random, format, list, date),
        // Two fields change places.
        _ => {
            let other = random.below(count);
            list.fields.swap(at, other);
        }
    }
}

/// Gives a field a key that breaks the writer's rule, or a value that breaks the rule of its code.
fn break_rule(random: &mut Random, format: Format, list: &mut List, at: usize) {
    let code = list.fields[at][CODE];
    if format == Format::Vpd && code == u32::from(VPD_STRING) {
        let key = vpd::broken_key(random, Rule::Writer);
        let key = list.part(&key);
        list.fields[at][KEY..VALUE].copy_from_slice(&key);
    } else {
        let value = broken(random, format, code as u8);
        let value = list.part(&value);
        list.fields[at][VALUE..].copy_from_slice(&value);
    }
}

/// A field to be added to an image that has these entries: a new one in most, with something wrong in some.
///
/// It is lent whole, but for a few: cut short, nothing at all, or with bytes after it.
pub fn to_add(random: &mut Random, format: Format, edition: u32, there: &[There]) -> List {
    let codes = named(format, edition);
    let missing: Vec<u8> = codes
        .iter()
        .copied()
        .filter(|&code| may_be_added(format, code, there))
        .collect();
    let code = match random.below(8) {
        // One that is there, or that some edition names, or none.
        0 => random.pick(&[
            0, 1, 2, 13, 17, 20, 21, 0x10, 0x26, 0x81, 250, EXTENSION, 254, 255,
        ]),
        1 if !there.is_empty() => random.pick(there).0,
        2 => random.pick(&named(format, 3)),
        _ if missing.is_empty() => random.pick(&codes),
        _ => random.pick(&missing),
    };
    let key = match format {
        Format::Vpd => key_to_add(random, code, there),
        _ => Vec::new(),
    };
    let value = match random.below(8) {
        0 => offered(random, format, code),
        _ => kept(random, format, code),
    };
    let mut list = List::default();
    if random.once_in(4) {
        let gap = random.between(1, 9);
        list.values = random.bytes(gap);
    }
    list.add(code.into(), &key, &value);
    if random.once_in(4) {
        let gap = random.between(1, 9);
        list.values.extend(random.bytes(gap));
    }
    if format != Format::Vpd && random.once_in(2) {
        // Outside VPD a key is not looked at, wherever it lies.
        list.fields[0][KEY] = random.number() as u32;
        list.fields[0][KEY + 1] = random.number() as u32;
    }
    if random.once_in(5) {
        spoil(random, format, &mut list);
    }
    match random.below(24) {
        0 => {
            let length = random.pick(&[0, 1, 4, 16, 18, 19, 19]);
            list.cut = list.bytes();
            list.cut.truncate(length);
            list.fields.clear();
        }
        1 => {
            let more = random.pick(&[1, 19, 20, 21]);
            list.cut = random.bytes(more);
        }
        _ => {}
    }
    list
}

/// Whether a named code may come once more.
fn may_be_added(format: Format, code: u8, there: &[There]) -> bool {
    let repeats = match format {
        Format::Vpd => code == VPD_STRING,
        Format::Onie => code == EXTENSION,
        Format::Fboss | Format::Tiny => false,
    };
    repeats || there.iter().all(|&(other, _)| other != code)
}

/// A key for a new VPD entry: one that a writer takes in most, else one that only a reader takes, or one
/// that is there or differs little from it.
fn key_to_add(random: &mut Random, code: u8, there: &[There]) -> Vec<u8> {
    match random.below(8) {
        0 => vpd::broken_key(random, Rule::Writer),
        1 => vpd::kept_key(random, Rule::Reader, code),
        2 if !there.is_empty() => random.pick(there).1.to_vec(),
        3 if !there.is_empty() => match random.pick(there) {
            (_, b"") => b"k".to_vec(),
            (_, key) => vpd::similar_key(random, Rule::Writer, key),
        },
        _ => vpd::kept_key(random, Rule::Writer, code),
    }
}

/// A field whose entry has as many bytes as are left in an image, or one more, where a named code of any
/// length is not there yet; and where none is, any field.
pub fn to_fill(
    random: &mut Random,
    format: Format,
    edition: u32,
    there: &[There],
    left: usize,
) -> List {
    let of_any_length: &[u8] = match format {
        Format::Fboss => &[2, 6, 7, 12, 14, 15, 16],
        Format::Vpd => &[VPD_STRING],
        Format::Tiny => &[POOL],
        Format::Onie => &[0x21, 0x22, 0x23, 0x2B, 0x2D, EXTENSION],
    };
    let codes: Vec<u8> = of_any_length
        .iter()
        .copied()
        .filter(|&code| may_be_added(format, code, there))
        .collect();
    let length = left + random.below(2);
    if codes.is_empty() || length < 3 {
        return to_add(random, format, edition, there);
    }
    let code = random.pick(&codes);
    let mut list = List::default();
    let mut entry = match format {
        Format::Vpd => Entry::with_key(code, vpd::kept_key(random, Rule::Writer, code), Vec::new()),
        _ => Entry::new(code, Vec::new()),
    };
    // A longer value may need a longer length, so that one length in a few can't be met.
    let around = entry.bytes(format).len();
    for more in 0..3 {
        entry.value = vec![b'x'; length.saturating_sub(around + more)];
        if entry.bytes(format).len() <= length {
            break;
        }
    }
    list.add(code.into(), &entry.key, &entry.value);
    list
}

/// A list whose image has thousands of bytes, or more than an output may have.
pub fn large(random: &mut Random, format: Format) -> List {
    let mut list = List::default();
    match format {
        Format::Fboss => {
            for code in named(format, 2) {
                let value = match code {
                    3..=5 | 8..=10 | 13 | 17..=20 => kept(random, format, code),
                    _ => vec![b'x'; 255],
                };
                list.add(u32::from(code), &[], &value);
            }
        }
        Format::Vpd => match random.below(3) {
            // Many keys, to the largest number that an output can hold and one more. In some lists
            // one of them, anywhere, breaks the writer's rule.
            0 => {
                let count = random.pick(&[3_000, 11_604, 11_605, 11_606]);
                let mut entries = vpd::distinct(Rule::Writer, count);
                if random.once_in(3) {
                    entries[random.below(count)].key = vpd::broken_key(random, Rule::Writer);
                }
                for entry in entries {
                    list.add(1, &entry.key, &[]);
                }
            }
            // One value that fills the output, or is one byte too long for it.
            1 => {
                let length = random.pick(&[16_383, 16_384, LONGEST - 7, LONGEST - 6, 70_000]);
                list.add(1, b"A", &random.bytes(length));
            }
            // Parts that overlap: together they are far longer than the values.
            _ => {
                list.values = random.picks(b"abc_XYZ019", 70_000);
                for number in 0..random.pick(&[2, 40, 400]) {
                    let key = number * 100;
                    list.fields.push([1, key, 20, number, 60_000]);
                }
            }
        },
        Format::Tiny => {
            let length = random.pick(&[248, 249, 250, 255, 256, 70_000]);
            let pool = random.bytes(length);
            if random.once_in(2) {
                list.add(0x10, &[], &[0]);
            }
            list.add(u32::from(POOL), &[], &pool);
        }
        Format::Onie => {
            let length = random.pick(&[2_047, 2_048, 2_048, 2_049, 2_050, 4_096, 65_536, 70_000]);
            for entry in onie::fields_declaring(random, length) {
                list.add(u32::from(entry.code), &[], &entry.value);
            }
        }
    }
    if random.once_in(4) {
        spoil(random, format, &mut list);
    }
    list
}
