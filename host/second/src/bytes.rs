//! The sixteen calls in the byte form of the C interface.
//!
//! Records, fields, walks, pieces and a vendor block lie in lent bytes as 32-bit words, low byte
//! first, and a last one that is cut short counts as none. Every call answers with one 64-bit number. Its bits 59 to
//! 63 are the number of the refusal, or 0. Where the call is refused, bits 0 to 58 are the place.
//! Else bits 32 to 58 are a count or a length, and bits 0 to 31 are the place of a part, or 0 where
//! the call gives no part.

use crate::refusal::{Reason, Refusal};
use crate::{Date, Entry, Field, Identity, Payload, Reading, Walk};

/// The length of a record in bytes.
pub const RECORD: usize = 64;
/// The length of a field in bytes.
pub const FIELD: usize = 20;
/// The length of a walk in bytes.
pub const WALK: usize = 16;
/// The length of a vendor block in bytes.
pub const BLOCK: usize = 48;

/// Checks an image: the count of its entries.
pub fn check(format: u32, edition: u32, image: &[u8]) -> u64 {
    answer(crate::check(format, edition, image).map(count))
}

/// Fills the records lent with the entries of an image: their count.
pub fn list(format: u32, edition: u32, image: &[u8], records: &mut [u8]) -> u64 {
    let room = records.len() / RECORD;
    answer(crate::list(format, edition, image, room).map(|entries| {
        for (record, entry) in records.chunks_exact_mut(RECORD).zip(&entries) {
            record.copy_from_slice(&record_bytes(edition, entry));
        }
        count(entries.len())
    }))
}

/// Gives entry `n` in a record: count 1.
pub fn entry(format: u32, edition: u32, image: &[u8], n: u64, record: &mut [u8]) -> u64 {
    answer(crate::entry(format, edition, image, n).and_then(|entry| give(edition, &entry, record)))
}

/// Gives the value of entry `n`: its place and its length.
pub fn value(format: u32, edition: u32, image: &[u8], n: u64) -> u64 {
    answer(crate::value(format, edition, image, n).map(part))
}

/// Gives a string of a Tiny pool: its place and its length.
pub fn string(format: u32, edition: u32, image: &[u8], number: u64) -> u64 {
    answer(crate::string(format, edition, image, number).map(part))
}

/// Takes one step of a walk and gives the entry in a record: count 1.
///
/// A step that is not refused leaves the walk moved on by one.
pub fn step(walk: &mut [u8], image: &[u8], record: &mut [u8]) -> u64 {
    let at = walk_from(walk);
    let (result, next) = crate::step(at, image);
    answer(result.and_then(|entry| {
        let given = give(at.edition, &entry, record)?;
        if let Some(lent) = walk.get_mut(..WALK) {
            lent.copy_from_slice(&walk_bytes(next));
        }
        Ok(given)
    }))
}

/// Writes an image from a field list: its length, its end included.
pub fn write(format: u32, edition: u32, fields: &[u8], values: &[u8], out: &mut [u8]) -> u64 {
    let fields: Vec<Field> = fields.chunks_exact(FIELD).map(field_from).collect();
    answer(crate::write(format, edition, &fields, values, out).map(count))
}

/// Edits the value of entry `n` into a second buffer: the new image's length, its end included.
pub fn edit(format: u32, edition: u32, image: &[u8], n: u64, value: &[u8], out: &mut [u8]) -> u64 {
    answer(crate::edit(format, edition, image, n, value, out).map(count))
}

/// Adds a field to an image into a second buffer: the new image's length, its end included.
///
/// A field that is cut short is none, and bytes past a whole one are not looked at.
pub fn add(
    format: u32,
    edition: u32,
    image: &[u8],
    field: &[u8],
    values: &[u8],
    out: &mut [u8],
) -> u64 {
    let field = field.get(..FIELD).map(field_from);
    answer(crate::add(format, edition, image, field, values, out).map(count))
}

/// Removes entry `n` of an image into a second buffer: the new image's length, its end included.
pub fn remove(format: u32, edition: u32, image: &[u8], n: u64, out: &mut [u8]) -> u64 {
    answer(crate::remove(format, edition, image, n, out).map(count))
}

/// Joins the payload of an image's vendor extensions into the buffer lent for it, and gives its parts
/// and offsets in a block: the payload's length.
pub fn vendor_read(
    format: u32,
    edition: u32,
    image: &[u8],
    payload: &mut [u8],
    block: &mut [u8],
) -> u64 {
    let room = payload.len();
    answer(
        crate::vendor_read(format, edition, image, room).and_then(|read| {
            // Both are judged before anything is put into either.
            let block = block.get_mut(..BLOCK).ok_or(Reason::NoRoom.at(0))?;
            block.copy_from_slice(&block_bytes(&read));
            let length = read.bytes.len();
            payload[..length].copy_from_slice(&read.bytes);
            Ok(count(length))
        }),
    )
}

/// Writes a payload, cut into pieces, as the values of vendor extensions: how many bytes they have in
/// all.
///
/// Offset k is the signed byte in bits 8k to 8k + 7 of `offsets`.
pub fn vendor_write(
    format: u32,
    edition: u32,
    serial: &[u8],
    offsets: u64,
    pieces: &[u8],
    out: &mut [u8],
) -> u64 {
    let offsets = offsets.to_le_bytes().map(|byte| byte as i8);
    let pieces: Vec<u32> = words(pieces).collect();
    answer(crate::vendor_write(format, edition, serial, offsets, &pieces, out).map(count))
}

/// Adds a board to a room file into a second buffer: the new file's length.
pub fn room_add(
    form: u32,
    edition: u32,
    file: &[u8],
    board: u32,
    format: u32,
    body: &[u8],
    out: &mut [u8],
) -> u64 {
    answer(crate::room_add(form, edition, file, board, format, body, out).map(count))
}

/// Replaces the body of a board, and its format, into a second buffer: the new file's length.
pub fn room_replace(
    form: u32,
    edition: u32,
    file: &[u8],
    board: u32,
    format: u32,
    body: &[u8],
    out: &mut [u8],
) -> u64 {
    answer(crate::room_replace(form, edition, file, board, format, body, out).map(count))
}

/// Removes a board from a room file into a second buffer: the new file's length.
pub fn room_remove(form: u32, edition: u32, file: &[u8], board: u32, out: &mut [u8]) -> u64 {
    answer(crate::room_remove(form, edition, file, board, out).map(count))
}

/// Gives the body of a board: its place in the file and its length.
pub fn room_fetch(form: u32, edition: u32, file: &[u8], board: u32) -> u64 {
    answer(crate::room_fetch(form, edition, file, board).map(part))
}

/// What a call gives where nothing is refused.
struct Given {
    place: usize,
    count: usize,
}

fn count(count: usize) -> Given {
    Given { place: 0, count }
}

fn part((place, length): (usize, usize)) -> Given {
    Given {
        place,
        count: length,
    }
}

fn answer(result: Result<Given, Refusal>) -> u64 {
    match result {
        Ok(given) => (given.count as u64) << 32 | given.place as u64,
        Err(refusal) => u64::from(refusal.number) << 59 | refusal.place,
    }
}

/// Puts one entry into the first whole record lent. Without one, this is refused.
fn give(edition: u32, entry: &Entry, record: &mut [u8]) -> Result<Given, Refusal> {
    let record = record.get_mut(..RECORD).ok_or(Reason::NoRoom.at(0))?;
    record.copy_from_slice(&record_bytes(edition, entry));
    Ok(count(1))
}

/// A record, whose word 7 is the length of the whole frame from edition 4 on, and 0 in older ones.
fn record_bytes(edition: u32, entry: &Entry) -> [u8; RECORD] {
    let frame_len = match edition {
        ..=3 => 0,
        4.. => entry.frame_len,
    };
    let (reading, carried) = reading_words(&entry.reading);
    let head = [
        entry.code,
        entry.kind,
        entry.place,
        entry.key_place,
        entry.key_len,
        entry.value_place,
        entry.value_len,
        frame_len,
        reading,
    ];
    let mut bytes = [0; RECORD];
    put_words(&mut bytes, head.into_iter().chain(carried));
    bytes
}

/// The serial's place and length in the payload, the block's, and the offsets as signed words.
fn block_bytes(payload: &Payload) -> [u8; BLOCK] {
    // A payload has at most as many bytes as an image, so all its places and lengths fit.
    let parts = [&payload.serial, &payload.block].map(|part| [part.start, part.len()]);
    let parts = parts.into_iter().flatten().map(|number| number as u32);
    let offsets = payload.offsets.map(|offset| i32::from(offset) as u32);
    let mut bytes = [0; BLOCK];
    put_words(&mut bytes, parts.chain(offsets));
    bytes
}

/// Puts words into bytes, from their first on.
fn put_words(bytes: &mut [u8], words: impl Iterator<Item = u32>) {
    for (lent, word) in bytes.chunks_exact_mut(4).zip(words) {
        lent.copy_from_slice(&word.to_le_bytes());
    }
}

/// The number of a reading and the words it carries.
fn reading_words(reading: &Reading) -> (u32, Vec<u32>) {
    match *reading {
        Reading::Plain => (0, vec![]),
        Reading::Text => (1, vec![]),
        Reading::Number(number) => (2, vec![number]),
        Reading::Addresses { base, count } => (3, vec![(base >> 32) as u32, base as u32, count]),
        Reading::StringNumber(number) => (4, vec![number]),
        Reading::TestFlags { byte, passed } => (5, vec![byte.into(), passed.into()]),
        Reading::Identity(identity) => (6, identity_words(identity)),
        Reading::IdentityWithBatch(identity, batch) => {
            let mut words = identity_words(identity);
            words.push(batch);
            (7, words)
        }
        Reading::Date(date) => (8, date_words(date)),
        Reading::DateWithTime(date, time) => {
            let mut words = date_words(date);
            words.extend([time.hour, time.minute, time.second]);
            (9, words)
        }
    }
}

fn identity_words(identity: Identity) -> Vec<u32> {
    vec![
        identity.serial.into(),
        identity.part.into(),
        identity.major.into(),
        identity.minor.into(),
        identity.free0.into(),
        identity.free1.into(),
    ]
}

fn date_words(date: Date) -> Vec<u32> {
    vec![date.year, date.month, date.day]
}

/// The whole words of lent bytes.
fn words(bytes: &[u8]) -> impl Iterator<Item = u32> + '_ {
    bytes.chunks_exact(4).map(|word| {
        word.iter()
            .rev()
            .fold(0, |number, &byte| number << 8 | u32::from(byte))
    })
}

/// A field from its twenty bytes.
fn field_from(bytes: &[u8]) -> Field {
    let mut words = words(bytes);
    let mut next = || words.next().unwrap_or(0);
    Field {
        code: next(),
        key_place: next().into(),
        key_len: next().into(),
        value_place: next().into(),
        value_len: next().into(),
    }
}

/// A walk from its sixteen bytes. One that is cut short is read as format 0.
fn walk_from(bytes: &[u8]) -> Walk {
    let words: Vec<u32> = words(bytes).take(4).collect();
    match words[..] {
        [format, edition, low, high] => Walk {
            format,
            edition,
            entry: u64::from(high) << 32 | u64::from(low),
        },
        _ => Walk {
            format: 0,
            edition: 0,
            entry: 0,
        },
    }
}

fn walk_bytes(walk: Walk) -> [u8; WALK] {
    let mut bytes = [0; WALK];
    bytes[..4].copy_from_slice(&walk.format.to_le_bytes());
    bytes[4..8].copy_from_slice(&walk.edition.to_le_bytes());
    bytes[8..].copy_from_slice(&walk.entry.to_le_bytes());
    bytes
}
