//! Where the frames of an image lie, read from its bytes by 01 and 02 alone, for holding the library's
//! records to it without the second reader (02, Entries remember their whole frame).

/// The first edition whose records have the length of the whole frame, in word 7.
pub const SINCE: u32 = 4;

/// The place of the first entry.
pub fn header(format: u32) -> usize {
    match format {
        1 => 4,
        2 => 0,
        3 => 3,
        _ => 11,
    }
}

/// The length of the frame that begins at a place of an image: the code or tag byte, the length bytes as
/// they are stored, the key and the value. Nothing where the image does not have all of it.
pub fn length_at(format: u32, image: &[u8], place: usize) -> Option<usize> {
    let rest = image.get(place..)?;
    let length = match format {
        // A tag's high four bits are the length, or the next byte is.
        3 if rest.first()? >> 4 != 0 => 1 + usize::from(rest[0] >> 4),
        2 => {
            let key = 1 + stored(rest.get(1..)?)?;
            key + stored(rest.get(key..)?)?
        }
        _ => 2 + usize::from(*rest.get(1)?),
    };
    (length <= rest.len()).then_some(length)
}

/// How many bytes a VPD length and what it counts have, from the length's first byte on.
fn stored(bytes: &[u8]) -> Option<usize> {
    let last = bytes.iter().take(4).position(|byte| byte & 0x80 == 0)?;
    let counted = bytes[..=last]
        .iter()
        .fold(0, |length, byte| length * 128 + usize::from(byte & 0x7F));
    Some(last + 1 + counted)
}

/// The place where an accepted image's end begins: FBOSS's code 250, VPD's end byte, Tiny's check byte,
/// ONIE's FEh.
pub fn end(format: u32, image: &[u8]) -> Option<usize> {
    match format {
        // The headers of these two say it, whatever the entries are.
        3 => usize::from(*image.get(2)?).checked_sub(1),
        4 => {
            let declared = usize::from(*image.get(9)?) << 8 | usize::from(*image.get(10)?);
            (11 + declared).checked_sub(6)
        }
        _ => {
            let mut place = header(format);
            while !is_end(format, *image.get(place)?) {
                place += length_at(format, image, place)?;
            }
            Some(place)
        }
    }
}

fn is_end(format: u32, byte: u8) -> bool {
    match format {
        1 => byte == 250,
        _ => byte == 0x00 || byte == 0xFF,
    }
}

/// The number in a word of a record.
pub fn word(record: &[u8], number: usize) -> u32 {
    let bytes = record[4 * number..][..4].iter().rev();
    bytes.fold(0, |word, &byte| word << 8 | u32::from(byte))
}

/// Puts a number into a word of a record.
pub fn put_word(record: &mut [u8], number: usize, word: u32) {
    record[4 * number..][..4].copy_from_slice(&word.to_le_bytes());
}

/// Gives records their frame lengths, by their places in the image.
pub fn put_lengths(format: u32, image: &[u8], records: &mut [u8]) {
    for record in records.chunks_exact_mut(64) {
        let length = length_at(format, image, word(record, 2) as usize);
        put_word(record, 7, length.unwrap_or(0) as u32);
    }
}

/// What is wrong with the frames of an image's whole list, if anything: they follow each other from the
/// header to the end, and word 7 is 0 below edition 4.
pub fn wrong_list<'a>(
    format: u32,
    edition: u32,
    image: &[u8],
    records: impl Iterator<Item = &'a [u8]>,
) -> Option<String> {
    let mut place = header(format);
    for (n, record) in records.enumerate() {
        let [first, length] = [2, 7].map(|number| word(record, number) as usize);
        if edition >= SINCE && first != place {
            return Some(format!("record {n} begins at {first}, and not at {place}"));
        }
        if let Some(wrong) = wrong_record(format, edition, image, record) {
            return Some(format!("record {n}: {wrong}"));
        }
        place += length;
    }
    let end = end(format, image);
    if edition >= SINCE && end != Some(place) {
        return Some(format!(
            "the last frame ends at {place}, the end is {end:?}"
        ));
    }
    None
}

/// What is wrong with the frame of one record, if anything.
pub fn wrong_record(format: u32, edition: u32, image: &[u8], record: &[u8]) -> Option<String> {
    let length = word(record, 7) as usize;
    let right = match edition {
        SINCE.. => length_at(format, image, word(record, 2) as usize),
        _ => Some(0),
    };
    (right != Some(length)).then(|| format!("the frame has {length} bytes, and not {right:?}"))
}
