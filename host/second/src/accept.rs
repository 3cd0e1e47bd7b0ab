//! Accepting an image: everything that every call on an image refuses first, in its order.

use std::collections::HashSet;

use crate::checks::{check16, check32, check8};
use crate::formats::{known, not_too_long, Edition, Format, VPD_STRING};
use crate::frames::{self, Frame, Frames};
use crate::names;
use crate::refusal::{Reason, Refusal};
use crate::{Entry, Reading};

/// An image that an edition accepts.
#[derive(Debug)]
pub(crate) struct Accepted<'a> {
    pub(crate) format: Format,
    pub(crate) edition: Edition,
    pub(crate) image: &'a [u8],
    frames: Frames,
    /// The entries that the edition names.
    pub(crate) present: Present<'a>,
}

/// Accepts an image, or says what the image's check refuses first.
pub(crate) fn accept(format: u32, edition: u32, image: &[u8]) -> Result<Accepted<'_>, Refusal> {
    let (format, edition) = known(format, edition)?;
    not_too_long(image.len())?;

    let frames = frames::walk(format, image)?;
    compare_check(format, image, frames.end)?;

    let mut present = Present::default();
    for frame in &frames.frames {
        if names::is_named(format, edition, frame.code) {
            let key = &image[frame.key.clone()];
            let value = &image[frame.value.clone()];
            if !names::keeps_rule(format, frame.code, key, value) {
                return Err(Reason::Rule.at(frame.place));
            }
            if !present.add(format, frame.code, key) {
                return Err(Reason::Twice.at(frame.place));
            }
        }
    }
    present.has_all_required(format)?;

    Ok(Accepted {
        format,
        edition,
        image,
        frames,
        present,
    })
}

/// Compares the stored check with the right one. It runs over all bytes before the image's end, and
/// in ONIE over the end's code and length too.
fn compare_check(format: Format, image: &[u8], end: usize) -> Result<(), Refusal> {
    let (covered, rest) = image.split_at(end);
    let (right, stored_place) = match format {
        // The check follows the code and the length of the end.
        Format::Fboss => (rest[2..4] == check16(covered).to_be_bytes(), end + 2),
        Format::Vpd => (true, end),
        Format::Tiny => (rest[0] == check8(covered), end),
        Format::Onie => {
            let covered = &image[..end + 2];
            (rest[2..6] == check32(covered).to_be_bytes(), end + 2)
        }
    };
    if right {
        Ok(())
    } else {
        Err(Reason::Check.at(stored_place))
    }
}

impl Accepted<'_> {
    pub(crate) fn frames(&self) -> &[Frame] {
        &self.frames.frames
    }

    /// The place after the last entry.
    pub(crate) fn end(&self) -> usize {
        self.frames.end
    }

    /// One record for each entry, in image order.
    pub(crate) fn entries(&self) -> Vec<Entry> {
        self.frames()
            .iter()
            .map(|frame| self.entry(frame))
            .collect()
    }

    fn entry(&self, frame: &Frame) -> Entry {
        let (kind, reading) = if names::is_named(self.format, self.edition, frame.code) {
            let value = &self.image[frame.value.clone()];
            (
                names::kind(self.format, frame.code),
                names::reading(self.format, frame.code, value),
            )
        } else {
            (0, Reading::Plain)
        };
        // An image has at most 65,536 bytes, so all its places and lengths fit.
        Entry {
            code: u32::from(frame.code),
            kind,
            place: frame.place as u32,
            key_place: frame.key.start as u32,
            key_len: frame.key.len() as u32,
            value_place: frame.value.start as u32,
            value_len: frame.value.len() as u32,
            frame_len: frame.length as u32,
            reading,
        }
    }
}

/// The named entries or fields met so far.
#[derive(Debug, Default)]
pub(crate) struct Present<'a> {
    met: HashSet<(u8, &'a [u8])>,
}

impl<'a> Present<'a> {
    /// Adds a named entry and says whether it may be there: it is the first of its code, or of its
    /// key for VPD type 01h, or its code may repeat.
    pub(crate) fn add(&mut self, format: Format, code: u8, key: &'a [u8]) -> bool {
        let key = match (format, code) {
            (Format::Vpd, VPD_STRING) => key,
            _ => &[],
        };
        self.met.insert((code, key)) || names::may_repeat(format, code)
    }

    /// Refuses where a required field is missing.
    pub(crate) fn has_all_required(&self, format: Format) -> Result<(), Refusal> {
        let no_key: &[u8] = &[];
        let complete = names::required(format)
            .iter()
            .all(|&code| self.met.contains(&(code, no_key)));
        if complete {
            Ok(())
        } else {
            Err(Reason::Missing.at(0))
        }
    }
}
