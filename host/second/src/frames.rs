//! The walk over frames: where each entry, its key and its value lie.
//!
//! Nothing here knows of editions or of the rules of named entries, so that a broken frame is
//! reported alike by every edition.

use std::ops::Range;

use crate::formats::{
    Format, FBOSS_END, FBOSS_END_LENGTH, FBOSS_HEADER, ONIE_END, ONIE_END_LENGTH, ONIE_HEADER_LEN,
    ONIE_LENGTH_PLACE, ONIE_LONGEST_ROOM, ONIE_MAGIC, ONIE_VERSION, POOL, TINY_HEADER_LEN,
    TINY_LENGTH_PLACE, TINY_MAGIC, TINY_VERSION, VPD_END, VPD_ERASED, VPD_INFO, VPD_STRING,
};
use crate::refusal::{Reason, Refusal};

/// One entry, by the places of its parts in the image.
#[derive(Clone, Debug, PartialEq, Eq)]
pub(crate) struct Frame {
    pub(crate) code: u8,
    /// The place of the entry's first byte.
    pub(crate) place: usize,
    /// Without a key, this is empty and at the value's place.
    pub(crate) key: Range<usize>,
    pub(crate) value: Range<usize>,
    /// How many bytes the frame has: code, length bytes as they are stored, key and value.
    pub(crate) length: usize,
}

/// All entries of an image, in its order.
#[derive(Clone, Debug, PartialEq, Eq)]
pub(crate) struct Frames {
    pub(crate) frames: Vec<Frame>,
    /// The place after the last entry, where the image's end begins.
    pub(crate) end: usize,
}

/// Looks at the header and then walks over the frames of an image.
pub(crate) fn walk(format: Format, image: &[u8]) -> Result<Frames, Refusal> {
    match format {
        Format::Fboss => walk_fboss(image),
        Format::Vpd => walk_vpd(image),
        Format::Tiny => walk_tiny(image),
        Format::Onie => walk_onie(image),
    }
}

fn walk_fboss(image: &[u8]) -> Result<Frames, Refusal> {
    let &[magic0, magic1, version, reserved, ..] = image else {
        return Err(Reason::Header.at(0));
    };
    if [magic0, magic1] != FBOSS_HEADER[..2] {
        return Err(Reason::Header.at(0));
    }
    if version != FBOSS_HEADER[2] {
        return Err(Reason::Version.at(0));
    }
    if reserved != FBOSS_HEADER[3] {
        return Err(Reason::Header.at(0));
    }

    let reader = Reader::new(image, FBOSS_HEADER.len());
    walk_to_end(reader, FBOSS_END, FBOSS_END_LENGTH)
}

fn walk_onie(image: &[u8]) -> Result<Frames, Refusal> {
    let Some((header, _)) = image.split_first_chunk::<ONIE_HEADER_LEN>() else {
        return Err(Reason::Header.at(0));
    };
    let &[ref magic @ .., version, high, low] = header;
    if *magic != ONIE_MAGIC {
        return Err(Reason::Header.at(0));
    }
    if version != ONIE_VERSION {
        return Err(Reason::Version.at(0));
    }
    let bad_length = Reason::PastRoom.at(ONIE_LENGTH_PLACE);
    let declared = usize::from(u16::from_be_bytes([high, low]));
    if declared > ONIE_LONGEST_ROOM {
        return Err(bad_length);
    }
    let room = image.get(..ONIE_HEADER_LEN + declared).ok_or(bad_length)?;

    let reader = Reader::new(room, ONIE_HEADER_LEN);
    let frames = walk_to_end(reader, ONIE_END, ONIE_END_LENGTH)?;
    if frames.end + Format::Onie.end_len() < room.len() {
        return Err(bad_length);
    }
    Ok(frames)
}

/// Walks over entries of one code byte, one length byte and the value, to the entry whose code ends
/// the image. Codes 00h and FFh are forbidden, and the end has just one length.
fn walk_to_end(mut reader: Reader, end: u8, end_length: u8) -> Result<Frames, Refusal> {
    let mut frames = Vec::new();
    loop {
        let place = reader.at;
        let past_room = Reason::PastRoom.at(place);
        let forbidden = Reason::Forbidden.at(place);

        let code = reader.byte().ok_or(past_room)?;
        if code == 0x00 || code == 0xFF {
            return Err(forbidden);
        }
        let length = reader.byte().ok_or(past_room)?;
        if code == end && length != end_length {
            return Err(forbidden);
        }
        let value = reader.part(usize::from(length)).ok_or(past_room)?;
        if code == end {
            return Ok(Frames { frames, end: place });
        }
        frames.push(without_key(code, place, value, reader.at));
    }
}

fn walk_vpd(image: &[u8]) -> Result<Frames, Refusal> {
    let mut reader = Reader::new(image, 0);
    let mut frames = Vec::new();
    loop {
        let place = reader.at;
        let past_room = Reason::PastRoom.at(place);

        let code = reader.byte().ok_or(past_room)?;
        match code {
            VPD_END | VPD_ERASED => return Ok(Frames { frames, end: place }),
            VPD_STRING | VPD_INFO => {}
            _ => return Err(Reason::Forbidden.at(place)),
        }
        let key_length = reader.vpd_length(place)?;
        let key = reader.part(key_length).ok_or(past_room)?;
        let value_length = reader.vpd_length(place)?;
        let value = reader.part(value_length).ok_or(past_room)?;
        frames.push(Frame {
            code,
            place,
            key,
            value,
            length: reader.at - place,
        });
    }
}

fn walk_tiny(image: &[u8]) -> Result<Frames, Refusal> {
    let &[magic, version, length, ..] = image else {
        return Err(Reason::Header.at(0));
    };
    if magic != TINY_MAGIC {
        return Err(Reason::Header.at(0));
    }
    if version != TINY_VERSION {
        return Err(Reason::Version.at(0));
    }
    let length = usize::from(length);
    if length < TINY_HEADER_LEN + 1 || length > image.len() {
        return Err(Reason::PastRoom.at(TINY_LENGTH_PLACE));
    }

    // The last byte that the length counts is the check, so the entries end before it.
    let end = length - 1;
    let mut reader = Reader::new(&image[..end], TINY_HEADER_LEN);
    let mut frames = Vec::new();
    let mut pool_seen = false;
    while reader.at < end {
        let place = reader.at;
        let past_room = Reason::PastRoom.at(place);

        if pool_seen {
            return Err(Reason::AfterPool.at(place));
        }
        let code = reader.byte().ok_or(past_room)?;
        if code == 0 {
            return Err(Reason::Forbidden.at(place));
        }
        let length = match code >> 4 {
            0 => reader.byte().ok_or(past_room)?,
            length => length,
        };
        let value = reader.part(usize::from(length)).ok_or(past_room)?;
        frames.push(without_key(code, place, value, reader.at));
        pool_seen = code == POOL;
    }
    Ok(Frames { frames, end })
}

/// The frame of a format without keys, from its first byte to the place that the reader has come to.
fn without_key(code: u8, place: usize, value: Range<usize>, read_to: usize) -> Frame {
    Frame {
        code,
        place,
        key: value.start..value.start,
        value,
        length: read_to - place,
    }
}

/// Reads the room of the entries from its start to its end.
struct Reader<'a> {
    room: &'a [u8],
    at: usize,
}

impl<'a> Reader<'a> {
    fn new(room: &'a [u8], at: usize) -> Reader<'a> {
        Reader { room, at }
    }

    /// The next byte, or nothing where the room has run out.
    fn byte(&mut self) -> Option<u8> {
        let byte = *self.room.get(self.at)?;
        self.at += 1;
        Some(byte)
    }

    /// The next bytes as a range, or nothing where they run past the room.
    fn part(&mut self, length: usize) -> Option<Range<usize>> {
        let end = self.at.checked_add(length)?;
        if end > self.room.len() {
            return None;
        }
        let part = self.at..end;
        self.at = end;
        Some(part)
    }

    /// A VPD length of the entry at a place: seven bits in each byte, the highest group first, the
    /// top bit on where another byte follows, four bytes at most.
    fn vpd_length(&mut self, place: usize) -> Result<usize, Refusal> {
        let mut length = 0;
        for _ in 0..4 {
            let byte = self.byte().ok_or(Reason::PastRoom.at(place))?;
            length = length << 7 | usize::from(byte & 0x7F);
            if byte & 0x80 == 0 {
                return Ok(length);
            }
        }
        Err(Reason::Forbidden.at(place))
    }
}

#[cfg(test)]
mod tests {
    use super::*;

    fn length(bytes: &[u8]) -> Result<usize, Refusal> {
        Reader::new(bytes, 0).vpd_length(7)
    }

    #[test]
    fn vpd_lengths() {
        assert_eq!(length(&[0x00]), Ok(0));
        assert_eq!(length(&[0x7F]), Ok(127));
        assert_eq!(length(&[0x81, 0x00]), Ok(128));
        assert_eq!(length(&[0x84, 0x82, 0x01]), Ok(65_793));
        assert_eq!(length(&[0x80, 0x80, 0x80, 0x05]), Ok(5));
        assert_eq!(length(&[0xFF, 0xFF, 0xFF, 0x7F]), Ok((1 << 28) - 1));
    }

    #[test]
    fn broken_vpd_lengths() {
        assert_eq!(length(&[]), Err(Reason::PastRoom.at(7)));
        assert_eq!(length(&[0x80, 0x80, 0x80]), Err(Reason::PastRoom.at(7)));
        assert_eq!(
            length(&[0x80, 0x80, 0x80, 0x80]),
            Err(Reason::Forbidden.at(7))
        );
    }
}
