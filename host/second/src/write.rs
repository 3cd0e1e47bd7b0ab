//! Making images: from a field list, or from an accepted image by editing one value, adding a field or
//! removing an entry.

use std::borrow::Cow;

use crate::accept::{accept, Accepted, Present};
use crate::checks::{check16, check32, check8};
use crate::formats::{
    known, not_too_long, Edition, Format, FBOSS_END, FBOSS_END_LENGTH, FBOSS_HEADER, ONIE_END,
    ONIE_END_LENGTH, ONIE_HEADER_LEN, ONIE_MAGIC, ONIE_VERSION, POOL, TINY_MAGIC, TINY_VERSION,
    VPD_END,
};
use crate::frames::Frame;
use crate::names;
use crate::refusal::{Reason, Refusal};
use crate::Field;

/// Writes an image from a list of fields, whose parts lie in `values`, and gives its length, its
/// end included.
///
/// Every output byte after the image's end becomes FFh.
pub fn write(
    format: u32,
    edition: u32,
    fields: &[Field],
    values: &[u8],
    out: &mut [u8],
) -> Result<usize, Refusal> {
    let (format, edition) = known(format, edition)?;
    not_too_long(out.len())?;

    let mut present = Present::default();
    let mut pool_seen = false;
    let mut body = Vec::new();
    for (number, field) in fields.iter().enumerate() {
        let code = named_code(format, edition, field).ok_or(Reason::NotNamed.at(number))?;
        let (key, value) = parts(format, field, values).ok_or(Reason::NoEntry.at(number))?;
        if pool_seen {
            return Err(Reason::AfterPool.at(number));
        }
        if !names::keeps_writers_rule(format, code, key, value) {
            return Err(Reason::Rule.at(number));
        }
        if !present.add(format, code, key) {
            return Err(Reason::Twice.at(number));
        }
        pool_seen = is_pool(format, code);
        put_entry(format, code, key, value, &mut body);
    }
    present.has_all_required(format)?;

    deliver(format, &body, out)
}

/// Edits the value of entry `n` of an image into a second buffer and gives the new image's length,
/// its end included.
///
/// All other entries keep their bytes, and so does what comes before the edited value's length.
/// Every output byte after the new image's end becomes FFh.
pub fn edit(
    format: u32,
    edition: u32,
    image: &[u8],
    n: u64,
    value: &[u8],
    out: &mut [u8],
) -> Result<usize, Refusal> {
    let accepted = accept_with_output(format, edition, image, out)?;
    let format = accepted.format;
    let frame = named_entry(&accepted, n)?;
    // The key stays as it is, so it need only keep the reader's rule.
    let key = &image[frame.key.clone()];
    if !names::keeps_rule(format, frame.code, key, value) {
        return Err(Reason::Rule.at(frame.place));
    }

    // The length of a value comes right after the key, or after the code where there is no key.
    let length_place = match format {
        Format::Vpd => frame.key.end,
        Format::Fboss | Format::Tiny | Format::Onie => frame.place + 1,
    };
    let body = [
        Cow::from(&image[format.header_len()..length_place]),
        Cow::from(value_length(format, frame.code, value)),
        Cow::from(value),
        Cow::from(&image[frame.value.end..accepted.end()]),
    ];
    deliver(format, &body, out)
}

/// Adds a field, whose parts lie in `values`, to an image as its last entry, or in Tiny as the last before
/// the pool, into a second buffer, and gives the new image's length, its end included (02, Add and remove
/// fields).
///
/// All entries of the image keep their bytes. Every output byte after the new image's end becomes FFh. No
/// field is refused as one whose parts are not inside the values.
pub fn add(
    format: u32,
    edition: u32,
    image: &[u8],
    field: Option<Field>,
    values: &[u8],
    out: &mut [u8],
) -> Result<usize, Refusal> {
    let mut accepted = accept_with_output(format, edition, image, out)?;
    let format = accepted.format;

    // Here the parts come before the code.
    let not_inside = Reason::NoEntry.at(0);
    let field = field.ok_or(not_inside)?;
    let (key, value) = parts(format, &field, values).ok_or(not_inside)?;
    let code = named_code(format, accepted.edition, &field).ok_or(Reason::NotNamed.at(0))?;
    if !names::keeps_writers_rule(format, code, key, value) {
        return Err(Reason::Rule.at(0));
    }
    if !accepted.present.add(format, code, key) {
        return Err(Reason::Twice.at(0));
    }

    let place = match accepted.frames().last() {
        Some(last) if is_pool(format, last.code) => last.place,
        _ => accepted.end(),
    };
    let mut body = vec![Cow::from(&image[format.header_len()..place])];
    put_entry(format, code, key, value, &mut body);
    body.push(Cow::from(&image[place..accepted.end()]));
    deliver(format, &body, out)
}

/// Removes entry `n` of an image into a second buffer and gives the new image's length, its end included
/// (02, Add and remove fields).
///
/// All other entries keep their bytes. Every output byte after the new image's end becomes FFh.
pub fn remove(
    format: u32,
    edition: u32,
    image: &[u8],
    n: u64,
    out: &mut [u8],
) -> Result<usize, Refusal> {
    let accepted = accept_with_output(format, edition, image, out)?;
    let format = accepted.format;
    let frame = named_entry(&accepted, n)?;
    // Nothing that is required may repeat, so this is the only one.
    if names::required(format).contains(&frame.code) {
        return Err(Reason::Missing.at(0));
    }

    let body = [
        Cow::from(&image[format.header_len()..frame.place]),
        Cow::from(&image[frame.place + frame.length..accepted.end()]),
    ];
    deliver(format, &body, out)
}

/// Accepts an image that is to be changed into an output, which may not be too long either.
fn accept_with_output<'a>(
    format: u32,
    edition: u32,
    image: &'a [u8],
    out: &[u8],
) -> Result<Accepted<'a>, Refusal> {
    known(format, edition)?;
    not_too_long(out.len())?;
    accept(format, edition, image)
}

/// Entry `n` of an accepted image, where there is one and the edition names it.
fn named_entry<'a>(accepted: &'a Accepted, n: u64) -> Result<&'a Frame, Refusal> {
    let frame = usize::try_from(n)
        .ok()
        .and_then(|n| accepted.frames().get(n))
        .ok_or(Reason::NoEntry.at(0))?;
    if !names::is_named(accepted.format, accepted.edition, frame.code) {
        return Err(Reason::NotNamed.at(frame.place));
    }
    Ok(frame)
}

/// The code of a field, where the edition names it.
fn named_code(format: Format, edition: Edition, field: &Field) -> Option<u8> {
    u8::try_from(field.code)
        .ok()
        .filter(|&code| names::is_named(format, edition, code))
}

/// The key and the value of a field, or nothing where one of them is not inside the lent values. Outside
/// VPD the key is empty, whatever is given.
fn parts<'a>(format: Format, field: &Field, values: &'a [u8]) -> Option<(&'a [u8], &'a [u8])> {
    let key = match format {
        Format::Vpd => part(values, field.key_place, field.key_len)?,
        Format::Fboss | Format::Tiny | Format::Onie => &[],
    };
    let value = part(values, field.value_place, field.value_len)?;
    Some((key, value))
}

fn is_pool(format: Format, code: u8) -> bool {
    format == Format::Tiny && code == POOL
}

/// Puts the bytes of a new entry, with shortest lengths, at the end of a body. It keeps the writer's rule.
fn put_entry<'a>(
    format: Format,
    code: u8,
    key: &'a [u8],
    value: &'a [u8],
    body: &mut Vec<Cow<'a, [u8]>>,
) {
    body.push(Cow::from(vec![code]));
    if format == Format::Vpd {
        body.push(Cow::from(vpd_length(key.len())));
        body.push(Cow::from(key));
    }
    body.push(Cow::from(value_length(format, code, value)));
    body.push(Cow::from(value));
}

/// A part of the lent values, or nothing where it is not inside them.
fn part(values: &[u8], place: u64, length: u64) -> Option<&[u8]> {
    let start = usize::try_from(place).ok()?;
    let end = start.checked_add(usize::try_from(length).ok()?)?;
    values.get(start..end)
}

/// The bytes that give the length of a value, in shortest form. The value keeps its rule.
fn value_length(format: Format, code: u8, value: &[u8]) -> Vec<u8> {
    match format {
        // The rules allow no value above 255 bytes.
        Format::Fboss | Format::Onie => vec![value.len() as u8],
        Format::Vpd => vpd_length(value.len()),
        Format::Tiny if code >> 4 == 0 => vec![value.len() as u8],
        // The tag itself gives the length.
        Format::Tiny => Vec::new(),
    }
}

/// A VPD length in shortest form: groups of seven bits, the highest first, the top bit on in all
/// but the last.
fn vpd_length(length: usize) -> Vec<u8> {
    let mut bytes = vec![(length & 0x7F) as u8];
    let mut rest = length >> 7;
    while rest > 0 {
        bytes.push((rest & 0x7F) as u8 | 0x80);
        rest >>= 7;
    }
    bytes.reverse();
    bytes
}

/// Puts header, entries and end into the output, and FFh after them, where there is room for the
/// image.
///
/// The body is the bytes of all entries, in pieces. Its length is known before anything is put
/// together, because fields may share large parts of the values.
fn deliver(format: Format, body: &[Cow<[u8]>], out: &mut [u8]) -> Result<usize, Refusal> {
    let length = body.iter().map(|piece| piece.len()).fold(
        format.header_len() + format.end_len(),
        usize::saturating_add,
    );
    if length > format.longest() || length > out.len() {
        return Err(Reason::NoRoom.at(0));
    }

    let mut image = header(format, length);
    image.extend(body.iter().flat_map(|piece| piece.iter()));
    match format {
        Format::Fboss => {
            let check = check16(&image);
            image.extend([FBOSS_END, FBOSS_END_LENGTH]);
            image.extend(check.to_be_bytes());
        }
        Format::Vpd => image.push(VPD_END),
        Format::Tiny => image.push(check8(&image)),
        Format::Onie => {
            image.extend([ONIE_END, ONIE_END_LENGTH]);
            image.extend(check32(&image).to_be_bytes());
        }
    }

    let (made, after) = out.split_at_mut(length);
    made.copy_from_slice(&image);
    after.fill(0xFF);
    Ok(length)
}

/// The header of an image that has so many bytes, its end included. They are not too many.
fn header(format: Format, length: usize) -> Vec<u8> {
    match format {
        Format::Fboss => FBOSS_HEADER.to_vec(),
        Format::Vpd => Vec::new(),
        Format::Tiny => vec![TINY_MAGIC, TINY_VERSION, length as u8],
        Format::Onie => {
            let declared = (length - ONIE_HEADER_LEN) as u16;
            let mut header = ONIE_MAGIC.to_vec();
            header.push(ONIE_VERSION);
            header.extend(declared.to_be_bytes());
            header
        }
    }
}

#[cfg(test)]
mod tests {
    use super::*;

    #[test]
    fn shortest_vpd_lengths() {
        assert_eq!(vpd_length(0), [0x00]);
        assert_eq!(vpd_length(127), [0x7F]);
        assert_eq!(vpd_length(128), [0x81, 0x00]);
        assert_eq!(vpd_length(16_383), [0xFF, 0x7F]);
        assert_eq!(vpd_length(16_384), [0x81, 0x80, 0x00]);
        assert_eq!(vpd_length(65_793), [0x84, 0x82, 0x01]);
    }

    #[test]
    fn parts_of_the_values() {
        assert_eq!(part(b"abc", 0, 3), Some(&b"abc"[..]));
        assert_eq!(part(b"abc", 3, 0), Some(&b""[..]));
        assert_eq!(part(b"abc", 4, 0), None);
        assert_eq!(part(b"abc", 2, 2), None);
        assert_eq!(part(b"abc", u64::MAX, 1), None);
        assert_eq!(part(b"abc", 1, u64::MAX), None);
        assert_eq!(part(b"abc", u64::MAX, u64::MAX), None);
    }
}
