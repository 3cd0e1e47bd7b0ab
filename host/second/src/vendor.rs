//! Vendor blocks: a payload that an amplifier's image splits over several vendor extensions (02, Vendor
//! blocks for the optics lab; 003).
//!
//! A payload is one byte of serial length, the serial, two bytes of block length, the block, and the
//! check over all before it. Of the dual-band amplifier the block is a version and eight offsets.

use std::ops::Range;

use crate::accept::accept;
use crate::checks::check32;
use crate::formats::{known, not_too_long, Format, ONIE_EXTENSION};
use crate::refusal::{Reason, Refusal};

/// What a vendor extension begins with where a piece of a payload follows: the number of an
/// enterprise, and a zero.
const PREFIX: [u8; 5] = [0x00, 0x00, 0x1F, 0x79, 0x00];
/// No piece is longer than this, because a vendor extension has at most 255 bytes.
const LONGEST_PIECE: u32 = 250;
/// The version of a block, its first byte.
const BLOCK_VERSION: u8 = 0x00;
/// How many offsets follow the version, one byte each.
const OFFSETS: usize = 8;
/// How many bytes a check has.
const CHECK_LEN: usize = 4;

/// A payload and what it says. The ranges count bytes of the payload.
#[derive(Clone, Debug, PartialEq, Eq)]
pub struct Payload {
    pub bytes: Vec<u8>,
    pub serial: Range<usize>,
    pub block: Range<usize>,
    /// In tenths of a decibel, as they lie in the block.
    pub offsets: [i8; OFFSETS],
}

/// Joins and reads the payload of an image, where `room` is the length of the buffer lent for it.
pub fn vendor_read(
    format: u32,
    edition: u32,
    image: &[u8],
    room: usize,
) -> Result<Payload, Refusal> {
    has_vendor_blocks(format, edition)?;
    not_too_long(room)?;
    let accepted = accept(format, edition, image)?;

    let mut pieces = accepted
        .frames()
        .iter()
        .filter(|frame| frame.code == ONIE_EXTENSION)
        .filter_map(|frame| image[frame.value.clone()].strip_prefix(&PREFIX))
        .peekable();
    // An extension that is the prefix alone is a piece too, with no bytes.
    if pieces.peek().is_none() {
        return Err(Reason::NoPayload.at(0));
    }
    let payload = judge(pieces.flatten().copied().collect())?;
    if payload.bytes.len() > room {
        return Err(Reason::NoRoom.at(0));
    }
    Ok(payload)
}

/// Writes the values of the vendor extensions that hold a payload, one after another, and gives how
/// many bytes they have in all.
///
/// Each value is the prefix and a piece, and `pieces` are the pieces' lengths without the prefix.
/// Output bytes after the last value stay as they were.
pub fn vendor_write(
    format: u32,
    edition: u32,
    serial: &[u8],
    offsets: [i8; OFFSETS],
    pieces: &[u32],
    out: &mut [u8],
) -> Result<usize, Refusal> {
    has_vendor_blocks(format, edition)?;
    not_too_long(out.len())?;

    let wrong_length = Reason::PayloadLength.at(0);
    let payload = payload(serial, offsets).ok_or(wrong_length)?;
    if pieces.iter().any(|&piece| piece > LONGEST_PIECE) {
        return Err(wrong_length);
    }
    let sum = pieces
        .iter()
        .fold(0_u64, |sum, &piece| sum.saturating_add(piece.into()));
    if sum != payload.len() as u64 {
        return Err(wrong_length);
    }
    let length = PREFIX
        .len()
        .saturating_mul(pieces.len())
        .saturating_add(payload.len());
    let made = out.get_mut(..length).ok_or(Reason::NoRoom.at(0))?;

    let mut values = Vec::new();
    let mut rest = &payload[..];
    for &piece in pieces {
        let (piece, after) = rest.split_at(piece as usize);
        values.extend(PREFIX);
        values.extend(piece);
        rest = after;
    }
    made.copy_from_slice(&values);
    Ok(length)
}

/// Refuses every format but ONIE, whatever the edition, and then an edition that does not have it.
fn has_vendor_blocks(format: u32, edition: u32) -> Result<(), Refusal> {
    if Format::from_number(format)? != Format::Onie {
        return Err(Reason::Format.at(0));
    }
    known(format, edition)?;
    Ok(())
}

/// Reads a payload, or says what is wrong with it: its length, then its check, then its block.
fn judge(bytes: Vec<u8>) -> Result<Payload, Refusal> {
    let (serial, block) = parts(&bytes).ok_or(Reason::PayloadLength.at(0))?;
    let (covered, stored) = bytes.split_at(block.end);
    if *stored != check32(covered).to_be_bytes() {
        return Err(Reason::PayloadCheck.at(0));
    }
    let offsets = match bytes[block.clone()] {
        [BLOCK_VERSION, ref offsets @ ..] => <[u8; OFFSETS]>::try_from(offsets).ok(),
        _ => None,
    };
    let offsets = offsets.ok_or(Reason::Block.at(0))?;
    Ok(Payload {
        bytes,
        serial,
        block,
        offsets: offsets.map(|byte| byte as i8),
    })
}

/// The serial and the block of a payload, or nothing where it is not exactly as long as its parts.
fn parts(payload: &[u8]) -> Option<(Range<usize>, Range<usize>)> {
    let &serial_length = payload.first()?;
    let serial = 1..1 + usize::from(serial_length);
    let (&block_length, _) = payload.get(serial.end..)?.split_first_chunk::<2>()?;
    let start = serial.end + block_length.len();
    let block = start..start + usize::from(u16::from_be_bytes(block_length));
    (payload.len() == block.end + CHECK_LEN).then_some((serial, block))
}

/// The payload with a serial and offsets, or nothing where one byte can't hold the serial's length.
fn payload(serial: &[u8], offsets: [i8; OFFSETS]) -> Option<Vec<u8>> {
    let mut payload = vec![u8::try_from(serial.len()).ok()?];
    payload.extend(serial);
    payload.extend(((1 + OFFSETS) as u16).to_be_bytes());
    payload.push(BLOCK_VERSION);
    payload.extend(offsets.map(|offset| offset as u8));
    payload.extend(check32(&payload).to_be_bytes());
    Some(payload)
}
