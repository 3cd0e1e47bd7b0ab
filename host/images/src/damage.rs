//! Damaged images: wrong entries, wrong bytes, and bytes that are no image at all.

use crate::generate::{broken, kept};
use crate::image::{
    declare_to_end, seal, Entry, Format, Image, FBOSS_END, ONIE_END, ONIE_ENTRIES, ONIE_START,
    POOL, VPD_INFO, VPD_STRING,
};
use crate::random::Random;
use crate::vpd::{self, Rule};
use crate::{dates, fboss, onie, tiny};

/// The bytes of an image with one to three things wrong, the check made right again in most.
pub fn damaged(random: &mut Random, mut image: Image) -> Vec<u8> {
    let times = random.pick(&[1, 1, 1, 2, 3]);
    if random.once_in(2) {
        for _ in 0..times {
            damage_entries(random, &mut image);
        }
        let mut bytes = image.bytes();
        if random.once_in(8) {
            damage_bytes(random, image.format, &mut bytes);
        }
        return bytes;
    }
    let mut bytes = image.bytes();
    for _ in 0..times {
        damage_bytes(random, image.format, &mut bytes);
    }
    if image.format == Format::Onie && random.once_in(2) {
        declare_to_end(&mut bytes);
    }
    if !random.once_in(4) {
        seal(image.format, &mut bytes);
    }
    bytes
}

/// Does one wrong thing to the entries. The check is made over the result, so it is right.
fn damage_entries(random: &mut Random, image: &mut Image) {
    let format = image.format;
    let count = image.entries.len();
    let place = random.below(count);
    let is_date = |entry: &Entry| dates::code(format) == Some(entry.code);
    let date = image.entries.iter().position(is_date).unwrap_or(count);
    match random.below(10) {
        // A second entry of the same code, and of the same key.
        0 | 1 if count > 0 => {
            let mut again = image.entries[place].clone();
            if random.once_in(2) {
                again.value = kept(random, format, again.code);
            }
            again.zero_groups = [random.below(2), random.below(2)];
            image.entries.insert(random.between(0, count), again);
        }
        // An entry that is missing, a required one among them.
        2 if format == Format::Fboss && random.once_in(2) => {
            let missing = random.pick(&fboss::REQUIRED);
            image.entries.retain(|entry| entry.code != missing);
        }
        2 if count > 0 => {
            image.entries.remove(place);
        }
        // A value that breaks the reader's rule, or a key that does.
        3 | 4 if count > 0 => {
            let entry = &mut image.entries[place];
            match format {
                Format::Vpd if entry.code == VPD_STRING => {
                    entry.key = vpd::broken_key(random, Rule::Reader)
                }
                _ => entry.value = broken(random, format, entry.code),
            }
        }
        // A value of another length. In Tiny the bytes that are over are read as entries.
        5 if count > 0 => {
            let value = &mut image.entries[place].value;
            match random.below(2) {
                0 => value.push(random.byte()),
                _ => {
                    value.pop();
                }
            }
        }
        // A forbidden code.
        6 => {
            let code = match format {
                Format::Fboss => random.pick(&[0, 255, FBOSS_END]),
                Format::Vpd => random.between(0x02, 0xFD) as u8,
                Format::Tiny => 0x00,
                Format::Onie => random.pick(&[0x00, 0xFF, ONIE_END]),
            };
            // With length 4 it is an end of ONIE before the last.
            let length = random.pick(&[0, 1, 2, 3, 4]);
            let entry = Entry::new(code, random.bytes(length));
            image.entries.insert(random.between(0, count), entry);
        }
        // The entries in another order: in Tiny the pool may no longer be the last.
        7 => random.shuffle(&mut image.entries),
        // A date that is no day, or has another form.
        8 if date < count => {
            let entry = &mut image.entries[date];
            entry.value = broken(random, format, entry.code);
        }
        // One entry more at the end: in Tiny it may stand after the pool.
        _ => {
            let code = match format {
                Format::Fboss => random.pick(&[17, 18, 21, 254]),
                Format::Vpd => VPD_INFO,
                Format::Tiny if random.once_in(3) => POOL,
                Format::Tiny => tiny::unnamed(random),
                Format::Onie => random.pick(&[0x21, 0x26, 0x2A, onie::EXTENSION]),
            };
            image
                .entries
                .push(Entry::new(code, kept(random, format, code)));
        }
    }
}

/// Does one wrong thing to the bytes.
fn damage_bytes(random: &mut Random, format: Format, bytes: &mut Vec<u8>) {
    let length = bytes.len();
    let place = random.below(length);
    match random.below(14) {
        // Bits that have flipped, and a byte that has another value.
        0 | 1 if length > 0 => bytes[place] ^= 1 << random.below(8),
        2 if length > 0 => bytes[place] = random.byte(),
        3 if length > 0 => bytes[place] = random.pick(&[0x00, 0x01, 0x7F, 0x80, 0xFA, 0xFE, 0xFF]),
        // A number that is off by one: a length, L, a code or the check.
        4 if length > 0 => {
            bytes[place] = match random.below(2) {
                0 => bytes[place].wrapping_add(1),
                _ => bytes[place].wrapping_sub(1),
            }
        }
        // An image that is cut off.
        5 | 6 => bytes.truncate(place),
        // Bytes that are lost, and bytes that are there twice or come from nowhere.
        7 => {
            let end = (place + random.between(1, 4)).min(length);
            bytes.drain(place..end);
        }
        8 => {
            let count = random.between(1, 4);
            let new = random.bytes(count);
            bytes.splice(place..place, new);
        }
        9 => {
            let start = random.below(length);
            let end = (start + random.between(1, 40)).min(length);
            let piece = bytes[start..end].to_vec();
            bytes.splice(place..place, piece);
        }
        // The header, with the length in it.
        10 => {
            let header = match format {
                Format::Onie => random.below(ONIE_ENTRIES),
                _ => random.below(4),
            };
            if let Some(byte) = bytes.get_mut(header) {
                *byte = match random.below(3) {
                    0 => byte.wrapping_add(1),
                    1 => byte.wrapping_sub(1),
                    _ => random.byte(),
                };
            }
        }
        11 if format == Format::Tiny && length > 2 => {
            bytes[2] = match random.below(4) {
                0 => bytes[2].wrapping_sub(1),
                1 => bytes[2].wrapping_add(1),
                2 => length as u8,
                _ => random.pick(&[0, 1, 2, 3, 4, 5, 254, 255]),
            }
        }
        11 if format == Format::Onie && length >= ONIE_ENTRIES => {
            let old = u16::from_be_bytes([bytes[9], bytes[10]]);
            let rest = (length - ONIE_ENTRIES) as u16;
            let new = match random.below(6) {
                0 => old.wrapping_sub(1),
                1 => old.wrapping_add(1),
                2 => rest,
                3 => rest.wrapping_add(1),
                4 => old.swap_bytes(),
                _ => random.pick(&[0, 1, 2, 5, 6, 7, 2_047, 2_048, 2_049, 0xFFFF]),
            };
            bytes[9..11].copy_from_slice(&new.to_be_bytes());
        }
        // Length bytes whose top bits are on.
        12 => {
            let groups = random.between(1, 5);
            let new: Vec<u8> = (0..groups)
                .map(|_| random.pick(&[0x80, 0x80, 0x81, 0xFF]))
                .collect();
            bytes.splice(place..place, new);
        }
        // A check with its bytes the other way round, or any two neighbours.
        _ if length > 1 => {
            let place = match random.below(2) {
                0 => length - 2,
                _ => random.below(length - 1),
            };
            bytes.swap(place, place + 1);
        }
        _ => {}
    }
}

/// Bytes that are no image, or one only by their first bytes.
pub fn noise(random: &mut Random, format: Format) -> Vec<u8> {
    let length = random.pick(&[0, 1, 2, 3, 4, 5, 6, 10, 11, 17, 30, 200]);
    let mut bytes = match random.below(3) {
        0 => random.bytes(length),
        1 => random.picks(&[0x00, 0x01, 0x02, 0x80, 0xFA, 0xFB, 0xFE, 0xFF], length),
        _ => (0..length).map(|_| random.below(4) as u8).collect(),
    };
    if random.once_in(2) {
        let header: &[u8] = match format {
            Format::Fboss => &[0xFB, 0xFB, 0x05, 0xFF],
            Format::Vpd => &[0x01, 0x01, 0x41],
            Format::Tiny => &[0x56, 0x02, length as u8],
            Format::Onie => &ONIE_START,
        };
        for (byte, &right) in bytes.iter_mut().zip(header) {
            *byte = right;
        }
        if format == Format::Onie && random.once_in(2) {
            declare_to_end(&mut bytes);
        }
    }
    if random.once_in(2) {
        seal(format, &mut bytes);
    }
    bytes
}
