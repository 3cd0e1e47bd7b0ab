//! A second, independent implementation of the board-identity library.
//!
//! It reads, writes and changes images of four layouts: FBOSS v5 (format 1), VPD 2.0 (format 2), Tiny
//! EEPROM version 2 (format 3) and ONIE (format 4), reads and writes the vendor blocks of an ONIE
//! image, and keeps the images of a room's boards in one file. It is written from the scope document
//! (01) and the change requests (02, items 1 and 3 to 8) alone, so that its answers can be compared
//! with those of the library proper. Clarity comes before speed here.
//!
//! No call panics, whatever it is given, and a refused call leaves lent memory as it was.

#![forbid(unsafe_code)]

mod accept;
mod checks;
mod dates;
mod formats;
mod frames;
mod names;
mod refusal;
mod room;
mod vendor;
mod write;

pub mod bytes;
pub mod program;

#[cfg(test)]
mod tests;

pub use refusal::Refusal;
pub use room::{room_add, room_fetch, room_remove, room_replace};
pub use vendor::{vendor_read, vendor_write, Payload};
pub use write::{add, edit, remove, write};

use accept::accept;
use formats::{Format, POOL};
use refusal::Reason;

/// What an entry's value means, beside its bytes.
#[derive(Clone, Copy, Debug, PartialEq, Eq)]
pub enum Reading {
    Plain,
    Text,
    Number(u32),
    Addresses { base: u64, count: u32 },
    StringNumber(u32),
    TestFlags { byte: u8, passed: u8 },
    Identity(Identity),
    IdentityWithBatch(Identity, u32),
    Date(Date),
    DateWithTime(Date, Time),
}

/// A Tiny product identity: two string numbers and a revision.
#[derive(Clone, Copy, Debug, PartialEq, Eq)]
pub struct Identity {
    pub serial: u8,
    pub part: u8,
    pub major: u8,
    pub minor: u8,
    pub free0: u8,
    pub free1: u8,
}

/// A day of the Gregorian calendar, which goes back to year 1.
#[derive(Clone, Copy, Debug, PartialEq, Eq)]
pub struct Date {
    pub year: u32,
    pub month: u32,
    pub day: u32,
}

/// A time of day.
#[derive(Clone, Copy, Debug, PartialEq, Eq)]
pub struct Time {
    pub hour: u32,
    pub minute: u32,
    pub second: u32,
}

/// One entry of an accepted image. All places count bytes of the image.
///
/// The frame is the whole entry: code, length bytes as they are stored, key and value. So `place` and
/// `frame_len` together are where the next entry begins, or the image's end.
#[derive(Clone, Copy, Debug, PartialEq, Eq)]
pub struct Entry {
    pub code: u32,
    pub kind: u32,
    pub place: u32,
    pub key_place: u32,
    pub key_len: u32,
    pub value_place: u32,
    pub value_len: u32,
    pub frame_len: u32,
    pub reading: Reading,
}

/// One field of a list to write, or one to add. The places count bytes of the lent values.
#[derive(Clone, Copy, Debug, PartialEq, Eq)]
pub struct Field {
    pub code: u32,
    pub key_place: u64,
    pub key_len: u64,
    pub value_place: u64,
    pub value_len: u64,
}

/// Where a walk over an image stands: the number of the entry that its next step gives.
#[derive(Clone, Copy, Debug, PartialEq, Eq)]
pub struct Walk {
    pub format: u32,
    pub edition: u32,
    pub entry: u64,
}

/// Checks an image and gives the number of its entries.
pub fn check(format: u32, edition: u32, image: &[u8]) -> Result<usize, Refusal> {
    Ok(accept(format, edition, image)?.entries().len())
}

/// Lists all entries of an image, where `room` is the number of records lent for them.
pub fn list(format: u32, edition: u32, image: &[u8], room: usize) -> Result<Vec<Entry>, Refusal> {
    let entries = accept(format, edition, image)?.entries();
    if entries.len() > room {
        return Err(Reason::NoRoom.at(0));
    }
    Ok(entries)
}

/// Gives entry `n`, counted from 0.
pub fn entry(format: u32, edition: u32, image: &[u8], n: u64) -> Result<Entry, Refusal> {
    let entries = accept(format, edition, image)?.entries();
    usize::try_from(n)
        .ok()
        .and_then(|n| entries.get(n).copied())
        .ok_or(Reason::NoEntry.at(0))
}

/// Gives the value of entry `n` as a part of the image: its place and its length.
pub fn value(format: u32, edition: u32, image: &[u8], n: u64) -> Result<(usize, usize), Refusal> {
    let entry = entry(format, edition, image, n)?;
    Ok((entry.value_place as usize, entry.value_len as usize))
}

/// Gives a string of a Tiny image's pool as a part of the image: its place and its length.
///
/// Strings count from 0. A string ends with the first byte whose top bit is on, and that byte
/// belongs to it. A tail of the pool without such a byte is no string.
pub fn string(
    format: u32,
    edition: u32,
    image: &[u8],
    number: u64,
) -> Result<(usize, usize), Refusal> {
    if Format::from_number(format)? != Format::Tiny {
        return Err(Reason::Format.at(0));
    }
    let accepted = accept(format, edition, image)?;
    let pool = accepted
        .frames()
        .iter()
        .find(|frame| frame.code == POOL)
        .ok_or(Reason::NoString.at(0))?;

    let mut place = pool.value.start;
    let mut strings = image[pool.value.clone()]
        .split_inclusive(|&byte| is_last_of_string(byte))
        .filter(|string| string.last().is_some_and(|&byte| is_last_of_string(byte)))
        .map(|string| {
            let start = place;
            place += string.len();
            (start, string.len())
        });
    usize::try_from(number)
        .ok()
        .and_then(|number| strings.nth(number))
        .ok_or(Reason::NoString.at(0))
}

fn is_last_of_string(byte: u8) -> bool {
    byte & 0x80 != 0
}

/// Takes one step of a walk on the image lent to it.
///
/// The answer is that of `entry` for the walk's entry number. The walk comes back moved on by one,
/// or unmoved where the step is refused.
pub fn step(walk: Walk, image: &[u8]) -> (Result<Entry, Refusal>, Walk) {
    match entry(walk.format, walk.edition, image, walk.entry) {
        Ok(entry) => {
            let next = Walk {
                entry: walk.entry.saturating_add(1),
                ..walk
            };
            (Ok(entry), next)
        }
        Err(refusal) => (Err(refusal), walk),
    }
}
