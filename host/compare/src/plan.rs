//! Which calls are made on an image, a field list or a vendor write.

use images::fields::{to_add, to_fill, List, There};
use images::generate::{kept, offered};
use images::image::{Format, LONGEST, ONIE_LONGEST};
use images::onie::EXTENSION;
use images::random::Random;
use images::vendor::{self, Writing, PREFIX};

use crate::call::{block_bytes, count, refusal, walk_bytes, Call, Kind};
use crate::changes;
use crate::comparison::{Comparison, BLOCK, RECORD};
use crate::frames;

/// Formats and editions that are none, beside those that are.
const FORMATS: [u32; 11] = [0, 1, 2, 3, 4, 5, 257, 258, 259, 260, u32::MAX];
const EDITIONS: [u32; 11] = [0, 1, 2, 3, 4, 5, 257, 258, 259, 260, u32::MAX];

/// An image with more entries than this, or longer, is called on less often.
const MANY: usize = 40;
const LONG: usize = 4_096;

/// The longest payload that is not refused: a serial of 255 bytes, and 16.
const LONGEST_PAYLOAD: usize = 271;

/// Every call on one image, as every edition that has its format, with all that is at the edges of
/// its arguments.
pub fn on_image(compare: &mut Comparison, random: &mut Random, format: Format, image: &[u8]) {
    let former = Former::of(format, image);
    for &edition in format.editions() {
        let check = Call::check(format.number(), edition, image);
        let (answer, _) = compare.call(&check);
        let entries = count(answer);
        if refusal(answer) != 0 {
            on_refused(compare, random, format, &check);
        } else if former.is_large() {
            on_large(compare, random, &former, &check, entries);
        } else {
            on_accepted(compare, random, &former, &check, entries);
        }
    }
    with_other_arguments(compare, random, format, image);
    vendor_read_of_any(compare, random, image);
}

/// Calls on an image that check refuses: each must give the same refusal.
fn on_refused(compare: &mut Comparison, random: &mut Random, format: Format, check: &Call) {
    let value = random.bytes(4);
    let n = number(random, 3);
    let room = record_room(random);
    compare.call(&check.list(random.pick(&[0, 63, 64, 640])));
    compare.call(&check.entry(n, room));
    compare.call(&check.value(n));
    compare.call(&check.string(n));
    compare.call(&check.step(&walk_bytes(check.format, check.edition, n), room));
    let room = output_room(random, check.read[0].len());
    compare.call(&check.edit(n, &value, room));
    compare.call(&check.remove(n, room));
    let new = to_add(random, format, check.edition, &[]);
    compare.call(&check.add(&new.bytes(), &new.values, room));
    if check.format == Format::Onie.number() {
        let room = output_room(random, LONGEST_PAYLOAD);
        compare.call(&check.vendor_read(room, block_room(random)));
    }
}

fn on_accepted(
    compare: &mut Comparison,
    random: &mut Random,
    former: &Former,
    check: &Call,
    entries: usize,
) {
    lists(compare, random, check, entries);
    let first = random.below(entries);
    for n in (first..entries).chain(0..first).take(6) {
        compare.call(&check.entry(n as u64, RECORD));
        compare.call(&check.value(n as u64));
    }
    let n = number(random, entries);
    compare.call(&check.entry(n, record_room(random)));
    compare.call(&check.value(number(random, entries)));
    compare.call(&check.entry(entries as u64, record_room(random)));
    compare.call(&check.value(entries as u64));
    strings(compare, random, check);
    walk(compare, random, check, 0);
    let edited = match random.below(3) {
        0 => entries,
        _ => 6,
    };
    for n in (first..entries).chain(0..first).take(edited) {
        edits(compare, random, former.format, check, n);
    }
    let n = number(random, entries);
    compare.call(&check.edit(n, b"1", check.read[0].len() + 1));
    adds(compare, random, former, check);
    let removed = match random.below(20) {
        0 => entries,
        _ => 1,
    };
    for n in (first..entries).chain(0..first).take(removed) {
        removal(compare, random, former, check, n);
    }
    let n = number(random, entries);
    compare.call(&check.remove(n, output_room(random, check.read[0].len())));
    written_again(compare, random, check);
    vendor_reads(compare, random, check);
}

fn on_large(
    compare: &mut Comparison,
    random: &mut Random,
    former: &Former,
    check: &Call,
    entries: usize,
) {
    lists(compare, random, check, entries);
    for n in [random.below(entries), entries.saturating_sub(1), entries] {
        compare.call(&check.entry(n as u64, RECORD));
        compare.call(&check.value(n as u64));
    }
    strings(compare, random, check);
    walk(compare, random, check, entries.saturating_sub(2) as u64);
    if entries > 0 {
        let n = random.below(entries);
        edits(compare, random, former.format, check, n);
        edits(compare, random, former.format, check, entries - 1);
    }
    match random.below(3) {
        0 => adds(compare, random, former, check),
        1 if entries > 0 => {
            let n = random.below(entries);
            removal(compare, random, former, check, n);
        }
        _ => {
            if let Some(n) = former.named(random, check.edition) {
                removal(compare, random, former, check, n);
            }
        }
    }
    written_again(compare, random, check);
    vendor_reads(compare, random, check);
}

/// Lists into as many records as there are entries, into one less, and into more.
fn lists(compare: &mut Comparison, random: &mut Random, check: &Call, entries: usize) {
    let exact = entries * RECORD;
    compare.call(&check.list(exact));
    compare.call(&check.list(exact.saturating_sub(1)));
    compare.call(&check.list(exact + random.pick(&[1, 63, 64, 65, 200])));
}

/// Strings from 0 to one past the last, and some other number.
fn strings(compare: &mut Comparison, random: &mut Random, check: &Call) {
    let mut number = 0;
    while refusal(compare.call(&check.string(number)).0) == 0 {
        number += 1;
    }
    compare.call(&check.string(self::number(random, number as usize)));
}

/// A walk from an entry to past the last, and one step with something else in the walk.
fn walk(compare: &mut Comparison, random: &mut Random, check: &Call, from: u64) {
    let mut n = from;
    loop {
        let walk = walk_bytes(check.format, check.edition, n);
        let (answer, _) = compare.call(&check.step(&walk, RECORD));
        if refusal(answer) != 0 {
            break;
        }
        n += 1;
    }
    let mut walk = walk_bytes(check.format, check.edition, number(random, n as usize)).to_vec();
    let length = random.pick(&[0, 1, 4, 8, 15, 16, 16, 17, 40]);
    walk.resize(length, 0xA5);
    compare.call(&check.step(&walk, record_room(random)));
}

/// Edits of one entry: a value that may be right or wrong, into an output that just fits, into one
/// that is one byte short, and into another.
fn edits(compare: &mut Comparison, random: &mut Random, format: Format, check: &Call, n: usize) {
    let image = check.read[0];
    let place = second::entry(check.format, check.edition, image, n as u64);
    let Ok(entry) = place else { return };
    let old = &image[entry.value_place as usize..][..entry.value_len as usize];
    let value = match random.below(8) {
        0 => old.to_vec(),
        1 => [old, b"1"].concat(),
        2 => old[..old.len().saturating_sub(1)].to_vec(),
        _ => offered(random, format, entry.code as u8),
    };
    let n = n as u64;
    into_outputs(compare, random, &check.edit(n, &value, 0));
}

/// An image, and its lists as the editions that accept it give them.
struct Former<'a> {
    format: Format,
    image: &'a [u8],
    lists: Vec<(u32, Vec<second::Entry>)>,
}

/// The code, key and value of an entry.
type Triple<'a> = (u32, &'a [u8], &'a [u8]);

impl<'a> Former<'a> {
    fn of(format: Format, image: &'a [u8]) -> Former<'a> {
        let lists = format.editions().iter().filter_map(|&edition| {
            let list = second::list(format.number(), edition, image, usize::MAX);
            Some((edition, list.ok()?))
        });
        Former {
            format,
            image,
            lists: lists.collect(),
        }
    }

    /// Whether the image is one that is called on less often.
    fn is_large(&self) -> bool {
        let many = self.lists.iter().any(|(_, list)| list.len() > MANY);
        many || self.image.len() > LONG
    }

    fn list(&self, edition: u32) -> &[second::Entry] {
        let mut lists = self.lists.iter();
        lists
            .find(|(other, _)| *other == edition)
            .map_or(&[], |(_, list)| list)
    }

    fn triples(&self, list: &[second::Entry]) -> Vec<Triple<'a>> {
        let part = |place: u32, length: u32| &self.image[place as usize..][..length as usize];
        let triple = |entry: &second::Entry| {
            let key = part(entry.key_place, entry.key_len);
            (entry.code, key, part(entry.value_place, entry.value_len))
        };
        list.iter().map(triple).collect()
    }

    /// One of the entries that an edition names.
    fn named(&self, random: &mut Random, edition: u32) -> Option<usize> {
        let list = self.list(edition);
        let named: Vec<usize> = (0..list.len()).filter(|&n| list[n].kind != 0).collect();
        (!named.is_empty()).then(|| random.pick(&named))
    }
}

/// Adds to an accepted image: a field of any kind, and in some one that fills it to the last byte, or is one
/// byte too long for that. What was added is removed again, which leaves the entries that there were.
fn adds(compare: &mut Comparison, random: &mut Random, former: &Former, check: &Call) {
    let (format, image) = (former.format, former.image);
    let triples = former.triples(former.list(check.edition));
    let there: Vec<There> = triples
        .iter()
        .map(|&(code, key, _)| (code as u8, key))
        .collect();
    let ended = changes::ended(format, image);
    let left = longest(format) - ended.len();
    // A value of thousands of bytes takes long.
    let often = if left < 64 { 2 } else { 16 + left / 64 };
    let mut news = Vec::new();
    if random.once_in(often) {
        news.push(to_fill(random, format, check.edition, &there, left));
    }
    if news.is_empty() || !former.is_large() {
        news.push(to_add(random, format, check.edition, &there));
    }
    for new in news {
        let field = new.bytes();
        let add = check.add(&field, &new.values, 0);
        let Some(made) = into_outputs(compare, random, &add) else {
            continue;
        };
        let number = changes::new_number(format, image);
        reads_on(compare, random, former, &add, &made, number);
        let remove = Call::check(check.format, check.edition, &made);
        let remove = remove.remove(number as u64, ended.len());
        let length = (ended.len() as u64) << 32;
        compare.case("what was added, removed", &remove, length, Some(&ended));
    }
}

/// The length of the longest image of a format.
fn longest(format: Format) -> usize {
    match format {
        Format::Fboss | Format::Vpd => LONGEST,
        Format::Tiny => 255,
        Format::Onie => ONIE_LONGEST,
    }
}

/// The removal of one entry.
fn removal(compare: &mut Comparison, random: &mut Random, former: &Former, check: &Call, n: usize) {
    let remove = check.remove(n as u64, 0);
    if let Some(made) = into_outputs(compare, random, &remove) {
        reads_on(compare, random, former, &remove, &made, n);
    }
}

/// Holds what an add or a removal made to what is then read: every edition from the call's own on that
/// accepted the image accepts it still, and lists the former codes, keys and values with that entry added or
/// gone.
fn reads_on(
    compare: &mut Comparison,
    random: &mut Random,
    former: &Former,
    call: &Call,
    made: &[u8],
    number: usize,
) {
    let mut image = made.to_vec();
    if random.once_in(2) {
        // As a whole output has it.
        image.resize(LONGEST.min(made.len() + random.below(30)), 0xFF);
    }
    let mut newer: Vec<_> = former.lists.iter().collect();
    newer.retain(|(edition, _)| *edition >= call.edition);
    if !random.once_in(4) || former.is_large() {
        // One of them is enough.
        newer = vec![random.pick(&newer)];
    }
    for (edition, list) in newer {
        let mut triples = former.triples(list);
        match call.kind {
            Kind::Add => triples.insert(number, added(former.format, call.read[1], call.read[2])),
            _ => {
                triples.remove(number);
            }
        }
        let check = Call::check(call.format, *edition, &image);
        let (answer, records) = compare.call(&check.list(triples.len() * RECORD));
        let given: Vec<Triple> = records
            .chunks_exact(RECORD)
            .take(count(answer))
            .map(|record| {
                let word = |number| frames::word(record, number) as usize;
                let part = |number| &image[word(number)..][..word(number + 1)];
                (word(0) as u32, part(3), part(5))
            })
            .collect();
        if refusal(answer) != 0 || given != triples {
            let what = format!("edition {edition} does not read the former list but for the entry");
            compare.wrong(call, &what, answer);
        }
    }
}

/// The code, key and value of a field that was added.
fn added<'a>(format: Format, field: &[u8], values: &'a [u8]) -> Triple<'a> {
    let word = |number| frames::word(field, number) as usize;
    let part = |number| &values[word(number)..][..word(number + 1)];
    let key = match format {
        Format::Vpd => part(1),
        _ => &[],
    };
    (word(0) as u32, key, part(3))
}

/// A write of an image's own entries, whose keys and values are lent as they lie in the image. A VPD
/// name that only a reader takes is refused at its number, and so is an unnamed code.
fn written_again(compare: &mut Comparison, random: &mut Random, check: &Call) {
    let image = check.read[0];
    let entries = second::list(check.format, check.edition, image, usize::MAX).unwrap_or_default();
    let fields: Vec<u8> = entries
        .iter()
        .flat_map(|entry| {
            let key = [entry.key_place, entry.key_len];
            let value = [entry.value_place, entry.value_len];
            [[entry.code].as_slice(), &key, &value].concat()
        })
        .flat_map(u32::to_le_bytes)
        .collect();
    let call = Call::write(check.format, check.edition, &fields, image, 0);
    into_outputs(compare, random, &call);
}

/// Makes a call that puts something out into outputs on both sides of the line, and gives what it puts out.
pub fn into_outputs(compare: &mut Comparison, random: &mut Random, call: &Call) -> Option<Vec<u8>> {
    let lent: usize = call.read.iter().map(|part| part.len()).sum();
    // With an output of any length the answer's length is known, or the refusal.
    let mut out = vec![0; LONGEST.min(2 * lent + 512)];
    let answer = call.on_second(&mut out, &mut []);
    let with = |room| Call { room, ..*call };
    match refusal(answer) {
        0 => {
            let length = count(answer);
            let (_, made) = compare.call(&with(length));
            compare.call(&with(length - 1));
            compare.call(&with(output_room(random, length)));
            Some(made)
        }
        _ => {
            compare.call(&with(output_room(random, lent)));
            None
        }
    }
}

/// Vendor reads of an accepted ONIE image: into a buffer and a block that just fit, into one of them
/// that is one byte short or has nothing, and into others.
fn vendor_reads(compare: &mut Comparison, random: &mut Random, check: &Call) {
    if check.format != Format::Onie.number() {
        return;
    }
    let mut near = LONGEST_PAYLOAD;
    // A payload that is refused is refused whatever the room.
    if let Ok(payload) = second::vendor_read(check.format, check.edition, check.read[0], LONGEST) {
        let length = payload.bytes.len();
        for (room, block) in [
            (length, BLOCK),
            (length - 1, BLOCK),
            (length, BLOCK - 1),
            (length - 1, BLOCK - 1),
            (0, BLOCK),
            (length, 0),
            (length + 1, 60),
        ] {
            compare.call(&check.vendor_read(room, block));
        }
        near = length;
    }
    let room = output_room(random, near);
    compare.call(&check.vendor_read(room, block_room(random)));
}

/// A vendor read with any format and any edition, for which any image will do.
fn vendor_read_of_any(compare: &mut Comparison, random: &mut Random, image: &[u8]) {
    let (format, edition) = any_format_and_edition(random, Format::Onie);
    let room = output_room(random, LONGEST_PAYLOAD);
    let check = Call::check(format, edition, image);
    compare.call(&check.vendor_read(room, block_room(random)));
}

/// Vendor writes of one payload, once with any format and any edition, and what was written read
/// back.
pub fn on_writing(compare: &mut Comparison, random: &mut Random, writing: &Writing) {
    let pieces = writing.piece_bytes();
    let (serial, offsets) = (&writing.serial, writing.offsets);
    let edition = random.pick(Format::Onie.editions());
    let call = Call::vendor_write(Format::Onie.number(), edition, serial, offsets, &pieces, 0);
    into_outputs(compare, random, &call);
    read_back(compare, random, writing, &call);
    let (format, edition) = any_format_and_edition(random, Format::Onie);
    let room = output_room(random, serial.len() + 2 * pieces.len());
    compare.call(&Call {
        format,
        edition,
        room,
        ..call
    });
}

/// Writes a payload, makes an image with its values as vendor extensions and other fields around
/// them, and reads it. The three calls are the library's, and the payload is known.
pub fn read_back(compare: &mut Comparison, random: &mut Random, writing: &Writing, write: &Call) {
    let length = PREFIX.len() * writing.pieces.len() + 16 + writing.serial.len();
    let room = length.min(LONGEST);
    let (answer, values) = compare.call(&Call { room, ..*write });
    if refusal(answer) != 0 {
        return;
    }
    let mut list = List::default();
    let other = random.pick(&[0x21, 0x24, 0x2A, 0x2D]);
    list.add(other.into(), &[], &kept(random, Format::Onie, other));
    let mut rest = &values[..];
    for &piece in &writing.pieces {
        if random.once_in(4) {
            let foreign = random.pick(&[&PREFIX[..4], b"\x00\x00\x1F\x79\x01\x08"]);
            list.add(EXTENSION.into(), &[], foreign);
        }
        let (value, after) = rest.split_at(PREFIX.len() + piece as usize);
        list.add(EXTENSION.into(), &[], value);
        rest = after;
    }
    let fields = list.bytes();
    let call = Call::write(
        write.format,
        write.edition,
        &fields,
        &list.values,
        ONIE_LONGEST,
    );
    let (answer, mut image) = compare.call(&call);
    // The image does not hold more than 2,048 bytes.
    if refusal(answer) != 0 {
        return;
    }
    image.truncate(count(answer));
    let payload = vendor::payload(&writing.serial, &vendor::block(writing.offsets()));
    let block = block_bytes(writing.serial.len(), writing.offsets());
    let read = Call::check(write.format, write.edition, &image);
    for (room, block_room) in [(payload.len(), BLOCK), (payload.len() + 9, 60)] {
        compare.vendor_case(
            "what was written reads back",
            &read.vendor_read(room, block_room),
            (payload.len() as u64) << 32,
            [&payload, &block],
        );
    }
}

/// A format and an edition, known or not, the image's own format in half.
fn any_format_and_edition(random: &mut Random, format: Format) -> (u32, u32) {
    let format = match random.below(12) {
        0..=5 => format.number(),
        6 => random.number() as u32,
        _ => random.pick(&FORMATS),
    };
    let edition = match random.below(8) {
        0 => random.number() as u32,
        _ => random.pick(&EDITIONS),
    };
    (format, edition)
}

/// A call with any format and any edition, and with numbers that are no entry's.
fn with_other_arguments(compare: &mut Comparison, random: &mut Random, own: Format, image: &[u8]) {
    let (format, edition) = any_format_and_edition(random, own);
    let check = Call::check(format, edition, image);
    let n = number(random, 2);
    let room = record_room(random);
    match random.below(9) {
        0 => compare.call(&check),
        1 => compare.call(&check.list(random.pick(&[0, 64, 700]))),
        2 => compare.call(&check.entry(n, room)),
        3 => compare.call(&check.value(n)),
        4 => compare.call(&check.string(n)),
        5 => compare.call(&check.step(&walk_bytes(format, edition, n), room)),
        6 => {
            let room = output_room(random, image.len());
            compare.call(&check.remove(n, room))
        }
        7 => {
            let new = to_add(random, own, own.editions()[0], &[]);
            let room = output_room(random, image.len());
            compare.call(&check.add(&new.bytes(), &new.values, room))
        }
        _ => {
            let room = output_room(random, image.len());
            compare.call(&check.edit(n, b"x", room))
        }
    };
}

/// Writes of one field list, as every edition that has its format, and once with any format and any
/// edition.
pub fn on_fields(
    compare: &mut Comparison,
    random: &mut Random,
    format: Format,
    fields: &[u8],
    values: &[u8],
) {
    for &edition in format.editions() {
        let call = Call::write(format.number(), edition, fields, values, 0);
        into_outputs(compare, random, &call);
    }
    let (format, edition) = any_format_and_edition(random, format);
    let room = output_room(random, values.len());
    compare.call(&Call::write(format, edition, fields, values, room));
}

/// All calls on every beginning of an image.
pub fn on_beginnings(compare: &mut Comparison, format: Format, image: &[u8]) {
    // A field that each edition of the format names.
    let code = match format {
        Format::Fboss => 12,
        Format::Vpd => 1,
        Format::Tiny => 0x11,
        Format::Onie => EXTENSION,
    };
    let mut new = List::default();
    match code {
        EXTENSION => new.add(code.into(), &[], b"KEY1"),
        _ => new.add(code.into(), b"KEY", b"1"),
    }
    let field = new.bytes();
    for length in 0..=image.len() {
        for &edition in format.editions() {
            let check = Call::check(format.number(), edition, &image[..length]);
            compare.call(&check);
            compare.call(&check.list(40 * RECORD));
            compare.call(&check.entry(0, RECORD));
            compare.call(&check.value(0));
            compare.call(&check.string(0));
            compare.call(&check.step(&walk_bytes(check.format, edition, 0), RECORD));
            compare.call(&check.edit(0, b"B", length + 8));
            compare.call(&check.remove(0, length));
            compare.call(&check.add(&field, &new.values, length + 16));
            compare.call(&check.vendor_read(LONGEST_PAYLOAD, BLOCK));
        }
    }
}

/// An entry's number or a string's: one of them, the first that there is not, or far beyond.
fn number(random: &mut Random, there_are: usize) -> u64 {
    let near = random.below(there_are + 2) as u64;
    match random.below(8) {
        0 => u64::MAX,
        1 => near | 1 << 32,
        2 => random.pick(&[1 << 31, 1 << 32, 1 << 58, 1 << 63, u64::MAX - 1, 65_536]),
        3 => random.number(),
        _ => near,
    }
}

/// The length of a lent record: whole, cut short, or more than one.
fn record_room(random: &mut Random) -> usize {
    random.pick(&[RECORD, RECORD, RECORD, 0, 1, 63, 65, 127, 128])
}

/// The length of a lent block: whole, cut short, or more, which is never too long.
fn block_room(random: &mut Random) -> usize {
    match random.below(64) {
        0 => LONGEST + 1,
        _ => random.pick(&[BLOCK, BLOCK, BLOCK, 0, 1, 47, 49, 60, 96]),
    }
}

/// The length of an output: near what is asked for, the longest that there is, or one byte more.
pub fn output_room(random: &mut Random, near: usize) -> usize {
    match random.below(64) {
        0 => LONGEST,
        1 => LONGEST + 1,
        2..=7 => 0,
        8..=15 => random.below(near + 1),
        _ => near + random.below(24),
    }
}
