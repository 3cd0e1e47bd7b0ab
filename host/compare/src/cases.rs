//! The fixed cases: answers that the documents give, and sweeps over small images.
//!
//! A case that a document gives is held to the document's answer, and library and second reader to
//! each other. In a sweep the two are held to each other.

mod add_remove;
mod dates;
mod decisions;
mod frame_lengths;
mod onie;
mod room;
mod scope;
mod sources;
mod sweeps;
mod vendor;
mod vpd_names;

use crate::call::{walk_bytes, Call};
use crate::comparison::{Comparison, RECORD};
use crate::frames;

pub type Group = fn(&mut Comparison);

/// All fixed cases, in groups that can be compared side by side.
pub const GROUPS: [(&str, Group); 80] = [
    (
        "01, Both sides of each line",
        scope::both_sides_of_each_line,
    ),
    ("every Tiny tag", scope::every_tag),
    ("000, Checksum", sources::reference_checks),
    ("000, Example", sources::fboss_example),
    ("002, Encoding example", sources::vpd_example),
    ("decisions on reading", decisions::on_reading),
    ("decisions on writing", decisions::on_writing),
    ("decisions on lengths", decisions::on_lengths),
    ("largest images", decisions::largest_images),
    ("02, VPD names with dots: read", vpd_names::read),
    ("02, VPD names with dots: edited", vpd_names::edited),
    ("02, VPD names with dots: written", vpd_names::written),
    ("every byte of a VPD key", vpd_names::every_key_byte),
    ("numbers of VPD keys", vpd_names::numbers_of_keys),
    ("02, ONIE images: known", onie::known),
    ("02, ONIE images: read", onie::read),
    ("02, ONIE images: header", onie::header),
    ("02, ONIE images: frames", onie::frames),
    ("02, ONIE images: rules", onie::rules),
    ("02, ONIE images: written", onie::written),
    ("02, ONIE images: edited", onie::edited),
    ("every declared length of ONIE", onie::declared_lengths),
    ("02, vendor blocks: known", vendor::known),
    ("02, vendor blocks: read", vendor::read),
    ("02, vendor blocks: payloads", vendor::payloads),
    ("02, vendor blocks: written", vendor::written),
    ("02, vendor blocks: read back", vendor::read_back),
    ("every byte of vendor extensions", vendor::every_byte),
    ("02, real calendar days: examples", dates::examples),
    (
        "02, real calendar days: order in images",
        dates::order_in_images,
    ),
    (
        "02, real calendar days: order in writes and edits",
        dates::order_in_writes_and_edits,
    ),
    ("every day of FBOSS dates", dates::fboss_days),
    ("every day of ONIE dates", dates::onie_days),
    ("every leap day", dates::leap_days),
    ("every time of ONIE dates", dates::times),
    ("every byte of dates", dates::every_byte),
    ("other forms of dates", dates::forms),
    ("02, whole frames: known", frame_lengths::known),
    ("02, whole frames: examples", frame_lengths::examples),
    ("02, whole frames: edited", frame_lengths::edited),
    ("every form of VPD lengths", frame_lengths::vpd_lengths),
    (
        "every form of VPD lengths, edited",
        frame_lengths::vpd_edits,
    ),
    ("every length of a value", frame_lengths::value_lengths),
    ("frames of generated images", frame_lengths::generated),
    ("02, add and remove: known", add_remove::known),
    ("02, add and remove: examples", add_remove::examples),
    (
        "02, add and remove: order of adds",
        add_remove::order_of_adds,
    ),
    (
        "02, add and remove: order of removals",
        add_remove::order_of_removals,
    ),
    ("02, add and remove: lengths", add_remove::lengths),
    (
        "02, add and remove: older editions",
        add_remove::older_editions,
    ),
    ("every byte of an added key", add_remove::every_key_byte),
    ("numbers of keys, added to", add_remove::numbers_of_keys),
    ("every code added", add_remove::every_code),
    ("every entry removed", add_remove::every_entry),
    (
        "every form of VPD lengths, added to and removed from",
        add_remove::vpd_forms,
    ),
    ("every length of a field", add_remove::field_lengths),
    ("parts of a field", add_remove::field_parts),
    ("built up and taken down", add_remove::built_up),
    ("02, machine-room file: known", room::known),
    ("02, machine-room file: heads", room::heads),
    ("02, machine-room file: contents", room::contents),
    ("02, machine-room file: rising", room::rising),
    ("02, machine-room file: boards", room::boards),
    ("02, machine-room file: stored bodies", room::stored_bodies),
    ("02, machine-room file: new bodies", room::new_bodies),
    ("02, machine-room file: changed", room::changed),
    ("02, machine-room file: lengths", room::lengths),
    ("every byte of a room file", room::every_byte),
    ("bodies as they are checked alone", room::as_checked),
    ("rooms built up and taken down", room::built_up),
    ("editions alike", sweeps::editions_alike),
    ("every format and edition", sweeps::every_format_and_edition),
    ("every length", sweeps::every_length),
    ("every byte of an FBOSS image", sweeps::fboss_bytes),
    ("every byte of a VPD image", sweeps::vpd_bytes),
    ("every byte of a Tiny image", sweeps::tiny_bytes),
    ("every byte of an ONIE image", sweeps::onie_bytes),
    ("every place of long parts", sweeps::places_of_long_parts),
    ("values of edits", sweeps::values_of_edits),
    ("codes of fields", sweeps::codes_of_fields),
];

const FBOSS: u32 = 1;
const VPD: u32 = 2;
const TINY: u32 = 3;
const ONIE: u32 = 4;

/// The editions that there are. All of them have FBOSS, VPD and Tiny, and the last two have ONIE.
const EDITIONS: [u32; 4] = [1, 2, 3, 4];

fn refused(number: u64, place: u64) -> u64 {
    number << 59 | place
}

fn given(count: usize) -> u64 {
    (count as u64) << 32
}

fn part(place: u64, length: u64) -> u64 {
    length << 32 | place
}

/// Bytes from their hexadecimal text.
fn bytes(text: &str) -> Vec<u8> {
    text.split_whitespace()
        .map(|pair| u8::from_str_radix(pair, 16).expect("a case is written in hexadecimal pairs"))
        .collect()
}

/// A record as an edition gives it, from one with the length of the whole frame in word 7: up to edition 3
/// that word is 0.
fn in_edition(edition: u32, record: &[u8]) -> Vec<u8> {
    let mut record = record.to_vec();
    if edition < frames::SINCE {
        frames::put_word(&mut record, 7, 0);
    }
    record
}

/// A record from its words, the length of the whole frame among them. Those that are not given are 0.
fn record(words: &[u32]) -> Vec<u8> {
    let mut bytes: Vec<u8> = words.iter().flat_map(|word| word.to_le_bytes()).collect();
    bytes.resize(RECORD, 0);
    bytes
}

/// The check of an image of FBOSS, VPD or Tiny in all editions.
fn checked(compare: &mut Comparison, format: u32, image: &str, answer: u64) {
    for edition in EDITIONS {
        checked_in(compare, format, edition, image, answer);
    }
}

/// The check of an image in one edition, and that every other call refuses what check refuses.
fn checked_in(compare: &mut Comparison, format: u32, edition: u32, image: &str, answer: u64) {
    let bytes = bytes(image);
    compare.next_case();
    let check = Call::check(format, edition, &bytes);
    compare.case(image, &check, answer, None);
    compare.case(image, &check.list(100 * RECORD), answer, None);
    if answer >> 59 != 0 {
        let walk = walk_bytes(format, edition, 0);
        compare.case(image, &check.entry(0, RECORD), answer, None);
        compare.case(image, &check.value(0), answer, None);
        compare.case(image, &check.step(&walk, RECORD), answer, None);
        compare.case(image, &check.edit(0, b"", 100), answer, None);
        compare.case(image, &check.add(&[0; 20], b"", 100), answer, None);
        compare.case(image, &check.remove(0, 100), answer, None);
        if format == TINY {
            compare.case(image, &check.string(0), answer, None);
        }
    }
}

/// The list of an image, record by record, each with the length of its frame.
fn listed(compare: &mut Comparison, call: &Call, what: &str, records: &[Vec<u8>]) {
    compare.next_case();
    let records = records
        .iter()
        .map(|record| in_edition(call.edition, record));
    let records: Vec<Vec<u8>> = records.collect();
    let count = records.len();
    let all = records.concat();
    compare.case(what, call, given(count), None);
    compare.case(what, &call.list(all.len()), given(count), Some(&all));
    for (n, record) in records.iter().enumerate() {
        let walk = walk_bytes(call.format, call.edition, n as u64);
        let n = n as u64;
        compare.case(what, &call.entry(n, RECORD), given(1), Some(record));
        compare.case(what, &call.step(&walk, RECORD), given(1), Some(record));
        let word =
            |number: usize| u64::from(record[number * 4]) | u64::from(record[number * 4 + 1]) << 8;
        compare.case(what, &call.value(n), part(word(5), word(6)), None);
    }
    let past = count as u64;
    let walk = walk_bytes(call.format, call.edition, past);
    compare.case(what, &call.entry(past, RECORD), refused(13, 0), None);
    compare.case(what, &call.value(past), refused(13, 0), None);
    compare.case(what, &call.step(&walk, RECORD), refused(13, 0), None);
}
