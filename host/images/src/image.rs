//! An image as its entries, and its bytes.

use crate::checks::{check16, check32, check8};
use crate::random::Random;

/// No image and no output is longer than this (01, Numbers given back).
pub const LONGEST: usize = 65_536;

/// The first bytes of an FBOSS image.
pub const FBOSS_HEADER: [u8; 4] = [0xFB, 0xFB, 0x05, 0xFF];
/// The code that ends an FBOSS image.
pub const FBOSS_END: u8 = 250;
/// The tag of the Tiny strings pool.
pub const POOL: u8 = 0x01;
/// The first bytes of an ONIE image, without the declared length: magic and version.
pub const ONIE_START: [u8; 9] = *b"TlvInfo\x00\x01";
/// The place of an ONIE image's first entry, after the two bytes of the declared length.
pub const ONIE_ENTRIES: usize = 11;
/// The code that ends an ONIE image.
pub const ONIE_END: u8 = 0xFE;
/// No ONIE image is longer than this: the header, and a declared length of 2,048.
pub const ONIE_LONGEST: usize = 2_059;
/// The VPD type of an ordinary key and value.
pub const VPD_STRING: u8 = 0x01;
/// The VPD type of the info header.
pub const VPD_INFO: u8 = 0xFE;

#[derive(Clone, Copy, PartialEq, Eq)]
pub enum Format {
    Fboss,
    Vpd,
    Tiny,
    Onie,
}

pub const FORMATS: [Format; 4] = [Format::Fboss, Format::Vpd, Format::Tiny, Format::Onie];

impl Format {
    pub fn number(self) -> u32 {
        match self {
            Format::Fboss => 1,
            Format::Vpd => 2,
            Format::Tiny => 3,
            Format::Onie => 4,
        }
    }

    /// The editions that have the format.
    pub fn editions(self) -> &'static [u32] {
        match self {
            Format::Fboss | Format::Vpd | Format::Tiny => &[1, 2, 3, 4],
            Format::Onie => &[3, 4],
        }
    }
}

/// One entry. Outside VPD the key and the zero groups are not written.
#[derive(Clone)]
pub struct Entry {
    pub code: u8,
    pub key: Vec<u8>,
    pub value: Vec<u8>,
    /// How many zero groups stand before the shortest form of the key's length, and of the value's.
    pub zero_groups: [usize; 2],
}

impl Entry {
    pub fn new(code: u8, value: Vec<u8>) -> Entry {
        Entry::with_key(code, Vec::new(), value)
    }

    pub fn with_key(code: u8, key: Vec<u8>, value: Vec<u8>) -> Entry {
        Entry {
            code,
            key,
            value,
            zero_groups: [0, 0],
        }
    }

    /// The entry's bytes. A length that its byte can't hold is cut, so that the frame is a wrong one.
    pub fn bytes(&self, format: Format) -> Vec<u8> {
        let mut bytes = vec![self.code];
        match format {
            Format::Fboss | Format::Onie => bytes.push(self.value.len() as u8),
            Format::Vpd => {
                bytes.extend(vpd_length(self.key.len(), self.zero_groups[0]));
                bytes.extend(&self.key);
                bytes.extend(vpd_length(self.value.len(), self.zero_groups[1]));
            }
            Format::Tiny if self.code >> 4 == 0 => bytes.push(self.value.len() as u8),
            Format::Tiny => {}
        }
        bytes.extend(&self.value);
        bytes
    }
}

/// A VPD length, with zero groups before its shortest form as far as four bytes allow.
fn vpd_length(length: usize, zero_groups: usize) -> Vec<u8> {
    let shortest = (1..4)
        .find(|groups| length >> (7 * groups) == 0)
        .unwrap_or(4);
    let groups = (shortest + zero_groups).min(4);
    (0..groups)
        .rev()
        .map(|group| (length >> (7 * group)) as u8 & 0x7F | if group > 0 { 0x80 } else { 0 })
        .collect()
}

#[derive(Clone)]
pub struct Image {
    pub format: Format,
    pub entries: Vec<Entry>,
    /// The byte that ends a VPD image: 00h or FFh.
    pub vpd_end: u8,
    /// What follows the image's end.
    pub after: Vec<u8>,
}

impl Image {
    pub fn new(format: Format, entries: Vec<Entry>) -> Image {
        Image {
            format,
            entries,
            vpd_end: 0x00,
            after: Vec::new(),
        }
    }

    /// The image's bytes, with right checks and, where its bytes can hold it, the right length in the
    /// header.
    pub fn bytes(&self) -> Vec<u8> {
        let entries: Vec<u8> = self
            .entries
            .iter()
            .flat_map(|entry| entry.bytes(self.format))
            .collect();
        let mut bytes = around(self.format, &entries);
        if let (Format::Vpd, Some(end)) = (self.format, bytes.last_mut()) {
            *end = self.vpd_end;
        }
        bytes.extend(&self.after);
        bytes
    }
}

/// The bytes of entries with header and end around them. Its checks are right and, where its bytes can hold
/// it, the length in the header, and a VPD image ends with 00h.
pub fn around(format: Format, entries: &[u8]) -> Vec<u8> {
    let header: &[u8] = match format {
        Format::Fboss => &FBOSS_HEADER,
        Format::Vpd => &[],
        Format::Tiny => &[0x56, 0x02, 0x00],
        Format::Onie => &[&ONIE_START[..], &[0x00, 0x00]].concat(),
    };
    let mut bytes = [header, entries].concat();
    match format {
        Format::Fboss => {
            let check = check16(&bytes);
            bytes.extend([FBOSS_END, 2]);
            bytes.extend(check.to_be_bytes());
        }
        Format::Vpd => bytes.push(0x00),
        Format::Tiny => {
            bytes[2] = (bytes.len() + 1) as u8;
            bytes.push(check8(&bytes));
        }
        Format::Onie => {
            bytes.extend([ONIE_END, 4]);
            bytes.extend([0; 4]);
            declare(&mut bytes);
            seal(Format::Onie, &mut bytes);
        }
    }
    bytes
}

/// The place of an entry, walking over codes and lengths from the first entry on.
fn place_of(code: u8, first: usize, bytes: &[u8]) -> Option<usize> {
    let mut place = first;
    while place + 2 <= bytes.len() {
        if bytes[place] == code {
            return Some(place);
        }
        place += 2 + usize::from(bytes[place + 1]);
    }
    None
}

/// Declares the length of all that follows an ONIE header, as far as two bytes can hold it.
fn declare(bytes: &mut [u8]) {
    let length = (bytes.len() - ONIE_ENTRIES) as u16;
    bytes[9..11].copy_from_slice(&length.to_be_bytes());
}

/// Declares the length up to the end of a damaged ONIE image, where it still has one.
pub fn declare_to_end(bytes: &mut [u8]) {
    if let Some(end) = place_of(ONIE_END, ONIE_ENTRIES, bytes) {
        let length = (end + 6).min(bytes.len());
        declare(&mut bytes[..length]);
    }
}

/// Makes the check of a damaged image right again, where the image still has a place for one.
pub fn seal(format: Format, bytes: &mut [u8]) {
    match format {
        Format::Fboss => {
            if let Some(end) = place_of(FBOSS_END, FBOSS_HEADER.len(), bytes) {
                let check = check16(&bytes[..end]).to_be_bytes();
                if let Some(stored) = bytes.get_mut(end + 2..end + 4) {
                    stored.copy_from_slice(&check);
                }
            }
        }
        Format::Vpd => {}
        Format::Tiny => {
            let length = bytes.get(2).copied().map_or(0, usize::from);
            if (4..=bytes.len()).contains(&length) {
                bytes[length - 1] = check8(&bytes[..length - 1]);
            }
        }
        Format::Onie => {
            if let Some(end) = place_of(ONIE_END, ONIE_ENTRIES, bytes) {
                let check = check32(&bytes[..end + 2]).to_be_bytes();
                if let Some(stored) = bytes.get_mut(end + 2..end + 6) {
                    stored.copy_from_slice(&check);
                }
            }
        }
    }
}

/// Bytes for after an image's end: none, a few, or as many as bring it to a given size.
pub fn after_the_end(random: &mut Random, length: usize) -> Vec<u8> {
    let count = match random.below(200) {
        0 => LONGEST.saturating_sub(length),
        1 => (LONGEST + 1).saturating_sub(length),
        2 => 8192_usize.saturating_sub(length),
        3..=99 => random.between(1, 20),
        _ => 0,
    };
    match random.below(3) {
        0 => vec![0xFF; count],
        1 => vec![0x00; count],
        _ => random.bytes(count),
    }
}
