//! The formats, the editions and the bytes that frame an image.

use crate::refusal::{Reason, Refusal};

/// No image, no room file and no output is longer than this.
pub(crate) const LONGEST: usize = 65_536;

/// The first bytes of an FBOSS image: magic, version and a reserved byte.
pub(crate) const FBOSS_HEADER: [u8; 4] = [0xFB, 0xFB, 0x05, 0xFF];
/// The code that ends an FBOSS image.
pub(crate) const FBOSS_END: u8 = 250;
/// The length that the end of an FBOSS image must have.
pub(crate) const FBOSS_END_LENGTH: u8 = 2;

/// The end of a VPD image as it is written.
pub(crate) const VPD_END: u8 = 0x00;
/// A second way to end a VPD image: a byte of erased memory.
pub(crate) const VPD_ERASED: u8 = 0xFF;
/// The VPD type of an ordinary key and value.
pub(crate) const VPD_STRING: u8 = 0x01;
/// The VPD type of the info header.
pub(crate) const VPD_INFO: u8 = 0xFE;

/// The first bytes of a Tiny image. The total length is the third byte of its header.
pub(crate) const TINY_MAGIC: u8 = 0x56;
pub(crate) const TINY_VERSION: u8 = 0x02;
/// The place of the total length in a Tiny image.
pub(crate) const TINY_LENGTH_PLACE: usize = 2;
/// How many bytes a Tiny header has.
pub(crate) const TINY_HEADER_LEN: usize = 3;
/// The tag of the Tiny strings pool.
pub(crate) const POOL: u8 = 0x01;
/// No Tiny image is longer than this, because its total length is one byte.
const TINY_LONGEST: usize = 255;

/// The first bytes of an ONIE image, and the version that follows them.
pub(crate) const ONIE_MAGIC: [u8; 8] = *b"TlvInfo\0";
pub(crate) const ONIE_VERSION: u8 = 0x01;
/// The place of the declared length in an ONIE image: two bytes, high byte first.
pub(crate) const ONIE_LENGTH_PLACE: usize = 9;
/// How many bytes an ONIE header has. The declared length counts all after them.
pub(crate) const ONIE_HEADER_LEN: usize = 11;
/// No declared length is above this.
pub(crate) const ONIE_LONGEST_ROOM: usize = 2_048;
/// The code that ends an ONIE image.
pub(crate) const ONIE_END: u8 = 0xFE;
/// The length that the end of an ONIE image must have.
pub(crate) const ONIE_END_LENGTH: u8 = 4;
/// The code of an ONIE vendor extension.
pub(crate) const ONIE_EXTENSION: u8 = 0xFD;

#[derive(Clone, Copy, Debug, PartialEq, Eq)]
pub(crate) enum Format {
    Fboss,
    Vpd,
    Tiny,
    Onie,
}

impl Format {
    pub(crate) fn from_number(number: u32) -> Result<Format, Refusal> {
        match number {
            1 => Ok(Format::Fboss),
            2 => Ok(Format::Vpd),
            3 => Ok(Format::Tiny),
            4 => Ok(Format::Onie),
            _ => Err(Reason::Format.at(0)),
        }
    }

    pub(crate) fn number(self) -> u32 {
        match self {
            Format::Fboss => 1,
            Format::Vpd => 2,
            Format::Tiny => 3,
            Format::Onie => 4,
        }
    }

    /// The first edition that has the format. All later ones have it too.
    fn since(self) -> Edition {
        match self {
            Format::Fboss | Format::Vpd | Format::Tiny => Edition::One,
            Format::Onie => Edition::Three,
        }
    }

    /// How many bytes come before the first entry.
    pub(crate) fn header_len(self) -> usize {
        match self {
            Format::Fboss => FBOSS_HEADER.len(),
            Format::Vpd => 0,
            Format::Tiny => TINY_HEADER_LEN,
            Format::Onie => ONIE_HEADER_LEN,
        }
    }

    /// How many bytes come after the last entry and still belong to the image.
    pub(crate) fn end_len(self) -> usize {
        match self {
            // The code, the length and two bytes of check.
            Format::Fboss => 4,
            // The terminator.
            Format::Vpd => 1,
            // The check byte.
            Format::Tiny => 1,
            // The code, the length and four bytes of check.
            Format::Onie => 6,
        }
    }

    /// How long an image of the format can be, its end included.
    pub(crate) fn longest(self) -> usize {
        match self {
            Format::Fboss | Format::Vpd => LONGEST,
            Format::Tiny => TINY_LONGEST,
            Format::Onie => ONIE_HEADER_LEN + ONIE_LONGEST_ROOM,
        }
    }
}

#[derive(Clone, Copy, Debug, PartialEq, Eq, PartialOrd, Ord)]
pub(crate) enum Edition {
    One,
    Two,
    Three,
    Four,
}

impl Edition {
    pub(crate) fn from_number(number: u32) -> Result<Edition, Refusal> {
        match number {
            1 => Ok(Edition::One),
            2 => Ok(Edition::Two),
            3 => Ok(Edition::Three),
            4 => Ok(Edition::Four),
            _ => Err(Reason::Edition.at(0)),
        }
    }
}

/// The format and the edition of a call, where there are such ones and the edition has the format.
pub(crate) fn known(format: u32, edition: u32) -> Result<(Format, Edition), Refusal> {
    let format = Format::from_number(format)?;
    let edition = Edition::from_number(edition)?;
    if edition < format.since() {
        return Err(Reason::Format.at(0));
    }
    Ok((format, edition))
}

/// Refuses the length of an image, a room file or an output that is too long.
pub(crate) fn not_too_long(length: usize) -> Result<(), Refusal> {
    if length > LONGEST {
        Err(Reason::TooLong.at(0))
    } else {
        Ok(())
    }
}
