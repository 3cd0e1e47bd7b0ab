//! What an add or a removal makes of an image, put together from the image's bytes by 01 and 02 alone, for
//! holding the library's output to it without the second reader (02, Add and remove fields).

use images::image::{around, Entry, Format, FORMATS, POOL};

use crate::call::{count, refusal, Call, Kind};
use crate::frames;

/// What is wrong with the output of an add or a removal that is not refused, if anything: every other entry
/// stays byte for byte, header and end are right, and FFh follows.
pub fn wrong(call: &Call, answer: u64, out: &[u8]) -> Option<String> {
    if refusal(answer) != 0 || !matches!(call.kind, Kind::Add | Kind::Remove) {
        return None;
    }
    let Some(mut made) = made(call) else {
        return Some("the call has to be refused".to_string());
    };
    if count(answer) != made.len() {
        let length = made.len();
        return Some(format!("the new image has {length} bytes"));
    }
    made.resize(out.len().max(made.len()), 0xFF);
    let place = (0..made.len()).find(|&place| out.get(place) != Some(&made[place]))?;
    Some(format!("byte {place} of out has to be {:02X}", made[place]))
}

/// The image that an add or a removal makes, where its arguments are such that it can make one.
pub fn made(call: &Call) -> Option<Vec<u8>> {
    let format = format_of(call.format)?;
    let image = call.read[0];
    let frames = frames_of(call.format, image)?;
    let all = frames::header(call.format)..frames::end(call.format, image)?;
    let entries = match call.kind {
        Kind::Add => {
            let new = field(format, call.read[1], call.read[2])?;
            let place = new_place(format, image, &frames).unwrap_or(all.end);
            [
                &image[all.start..place],
                &new.bytes(format),
                &image[place..all.end],
            ]
            .concat()
        }
        _ => {
            let &[place, length] = frames.get(usize::try_from(call.n).ok()?)?;
            [&image[all.start..place], &image[place + length..all.end]].concat()
        }
    };
    Some(around(format, &entries))
}

/// The number that an entry gets when it is added to an image.
pub fn new_number(format: Format, image: &[u8]) -> usize {
    let frames = frames_of(format.number(), image).unwrap_or_default();
    frames.len() - usize::from(new_place(format, image, &frames).is_some())
}

/// An accepted image without what follows its end, and with the end that a change gives it.
pub fn ended(format: Format, image: &[u8]) -> Vec<u8> {
    let start = frames::header(format.number());
    let end = frames::end(format.number(), image).unwrap_or(start);
    around(format, &image[start..end])
}

fn format_of(number: u32) -> Option<Format> {
    FORMATS.into_iter().find(|format| format.number() == number)
}

/// Place and length of every frame of an accepted image.
fn frames_of(format: u32, image: &[u8]) -> Option<Vec<[usize; 2]>> {
    let end = frames::end(format, image)?;
    let mut place = frames::header(format);
    let mut frames = Vec::new();
    while place < end {
        let length = frames::length_at(format, image, place)?;
        frames.push([place, length]);
        place += length;
    }
    Some(frames)
}

/// The place of a stored pool, before which a new entry goes.
fn new_place(format: Format, image: &[u8], frames: &[[usize; 2]]) -> Option<usize> {
    let &[place, _] = frames.last()?;
    (format == Format::Tiny && image[place] == POOL).then_some(place)
}

/// The entry that a lent field asks for: code, key place, key length, value place, value length.
fn field(format: Format, field: &[u8], values: &[u8]) -> Option<Entry> {
    let word = |number| frames::word(field, number) as usize;
    let part = |number| values.get(word(number)..)?.get(..word(number + 1));
    if field.len() < 20 {
        return None;
    }
    let key = match format {
        Format::Vpd => part(1)?,
        _ => &[],
    };
    let code = u8::try_from(word(0)).ok()?;
    Some(Entry::with_key(code, key.to_vec(), part(3)?.to_vec()))
}
