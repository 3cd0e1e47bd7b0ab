//! Sweeps over small images: every format, every length, every byte, every code.

use images::fields::List;
use images::generate::{kept, named, offered, valid};
use images::image::{seal, Entry, Format, Image, FORMATS, LONGEST};
use images::random::Random;
use images::room::{file, Board};
use images::{damage, fields, vendor};

use super::onie::SWITCH;
use super::scope::every_tag_image;
use super::sources::{fboss_example_image, vpd_example_image};
use super::*;
use crate::call::Kind;
use crate::comparison::BLOCK;
use crate::plan;

/// The four small images of the sweeps.
fn small_images() -> [(Format, Vec<u8>); 4] {
    let mut vpd = vpd_example_image();
    vpd.pop();
    vpd.extend(b"\xFE\x08gVpdInfo\x04\x00\x01\x00\x00\x01\x80\x01A\x80\x00");
    vpd.extend(b"\x01\x08lab.rack\x02A7\x01\x02\x00\xFF\x01\x00\x00");
    [
        (Format::Fboss, fboss_example_image()),
        (Format::Vpd, vpd),
        (Format::Tiny, every_tag_image()),
        (Format::Onie, SWITCH.to_vec()),
    ]
}

/// All sixteen calls with every format and edition, known or not, on images of every format, in room files too.
pub fn every_format_and_edition(compare: &mut Comparison) {
    let mut fields = List::default();
    fields.add(1, b"SKU", b"A7");
    let field_bytes = fields.bytes();
    let pieces = 17_u32.to_le_bytes();
    for (_, image) in small_images() {
        for format in [
            0,
            1,
            2,
            3,
            4,
            5,
            255,
            256,
            257,
            258,
            259,
            260,
            1 << 16,
            1 << 31,
            u32::MAX,
        ] {
            for edition in [
                0,
                1,
                2,
                3,
                4,
                5,
                255,
                256,
                257,
                258,
                259,
                260,
                1 << 16,
                1 << 31,
                u32::MAX,
            ] {
                compare.next_case();
                let none = file(&[]);
                let one = file(&[Board::new(7, format as u8, &image)]);
                let check = Call::check(format, edition, &image);
                compare.call(&check);
                compare.call(&check.list(20 * RECORD));
                compare.call(&check.entry(1, RECORD));
                compare.call(&check.value(1));
                compare.call(&check.string(1));
                compare.call(&check.step(&walk_bytes(format, edition, 1), RECORD));
                compare.call(&check.edit(1, b"A7", 300));
                for room in [64, LONGEST + 1] {
                    let values = &fields.values;
                    compare.call(&Call::write(format, edition, &field_bytes, values, room));
                    compare.call(&check.edit(1, b"A7", room));
                    compare.call(&check.add(&field_bytes, values, room));
                    compare.call(&check.remove(1, room));
                    compare.call(&check.vendor_read(room, BLOCK));
                    compare.call(&Call::vendor_write(
                        format, edition, b"S", 0x80, &pieces, room,
                    ));
                    compare
                        .call(&Call::fetch(1, edition, &none, 7).add_board(format, &image, room));
                    let fetch = Call::fetch(1, edition, &one, 7);
                    compare.call(&fetch.replace_board(format, &image, room));
                    compare.call(&fetch.remove_board(room));
                    compare.call(&fetch);
                }
            }
        }
    }
}

/// Every call on every beginning of a small image of each format.
pub fn every_length(compare: &mut Comparison) {
    for (format, image) in small_images() {
        compare.next_case();
        plan::on_beginnings(compare, format, &image);
    }
}

/// Every byte of a small image with each of its 256 values, the check as it was and made right, and of
/// ONIE the vendor block that is then left.
fn every_byte(compare: &mut Comparison, format: Format, image: &[u8]) {
    for place in 0..image.len() {
        for value in 0..=255 {
            compare.next_case();
            let mut changed = image.to_vec();
            changed[place] = value;
            for &edition in format.editions() {
                compare.call(&Call::check(format.number(), edition, &changed));
            }
            seal(format, &mut changed);
            for &edition in format.editions() {
                let check = Call::check(format.number(), edition, &changed);
                compare.call(&check.list(30 * RECORD));
                if format == Format::Onie {
                    compare.call(&check.vendor_read(24, BLOCK));
                }
            }
        }
    }
}

pub fn fboss_bytes(compare: &mut Comparison) {
    let [(format, image), _, _, _] = small_images();
    every_byte(compare, format, &image);
}

pub fn vpd_bytes(compare: &mut Comparison) {
    let [_, (format, image), _, _] = small_images();
    every_byte(compare, format, &image);
}

pub fn tiny_bytes(compare: &mut Comparison) {
    let [_, _, (format, image), _] = small_images();
    every_byte(compare, format, &image);
}

pub fn onie_bytes(compare: &mut Comparison) {
    let [_, _, _, (format, image)] = small_images();
    every_byte(compare, format, &image);
}

/// Edits of every entry of a small image: to every length, and with every value of each byte.
pub fn values_of_edits(compare: &mut Comparison) {
    for (format, image) in small_images() {
        let check = Call::check(format.number(), 4, &image);
        let entries = second::list(check.format, 4, &image, usize::MAX).unwrap_or_default();
        for (n, entry) in (0..).zip(&entries) {
            compare.next_case();
            for length in (0..=20).chain(125..=130).chain(240..=260) {
                let value = vec![b'1'; length];
                for &edition in format.editions() {
                    let call = Call { edition, ..check };
                    compare.call(&call.edit(n, &value, 480));
                }
            }
            let old = &image[entry.value_place as usize..][..entry.value_len as usize];
            for place in 0..old.len() {
                for byte in 0..=255 {
                    let mut value = old.to_vec();
                    value[place] = byte;
                    compare.call(&check.edit(n, &value, 300));
                }
            }
        }
    }
}

/// Writes with a field of every code to 300: after the fields that a format requires, with a value
/// that keeps the code's rule, and alone, with a value of each length and two keys, of which a VPD
/// writer takes only one for a 01h.
pub fn codes_of_fields(compare: &mut Comparison) {
    for format in FORMATS {
        for &edition in format.editions() {
            for code in 0..=300 {
                compare.next_case();
                let mut random = Random::of_input(0, format.number(), u64::from(code));
                let mut list = List::default();
                if format == Format::Fboss {
                    for required in named(format, 1) {
                        if u32::from(required) != code {
                            let value = kept(&mut random, format, required);
                            list.add(required.into(), &[], &value);
                        }
                    }
                }
                let value = kept(&mut random, format, code as u8);
                list.add(code, b"key", &value);
                let number = format.number();
                compare.call(&Call::write(
                    number,
                    edition,
                    &list.bytes(),
                    &list.values,
                    3_000,
                ));
                for length in 0..=16 {
                    for key in [&b"key"[..], b"lab.rack"] {
                        let mut list = List::default();
                        list.add(code, key, &vec![b'0'; length]);
                        compare.call(&Call::write(
                            number,
                            edition,
                            &list.bytes(),
                            &list.values,
                            40,
                        ));
                    }
                }
            }
        }
    }
}

/// A byte outside the alphabet at each place of a long key, one that breaks the rule at each place of
/// a long text, and two long keys that differ in the byte at each place.
pub fn places_of_long_parts(compare: &mut Comparison) {
    const LENGTH: usize = 300;
    for place in 0..LENGTH {
        compare.next_case();
        let good = vec![b'k'; LENGTH];
        let [dotted, other, zero] = [b'.', b'K', 0x00].map(|byte| {
            let mut key = good.clone();
            key[place] = byte;
            key
        });
        for (first, second) in [
            (&dotted, &other),
            (&other, &good),
            (&good, &dotted),
            (&good, &good),
            (&dotted, &zero),
            (&dotted, &dotted),
        ] {
            let entries = [first, second].map(|key| Entry::with_key(1, key.clone(), Vec::new()));
            let image = Image::new(Format::Vpd, entries.to_vec()).bytes();
            compare.call(&Call::check(VPD, 2, &image));
            let mut list = List::default();
            list.add(1, first, b"");
            list.add(1, second, b"");
            compare.call(&Call::write(
                VPD,
                2,
                &list.bytes(),
                &list.values,
                2 * LENGTH + 20,
            ));
        }

        let mut text = vec![b'~'; 255];
        if let Some(byte) = text.get_mut(place) {
            *byte = 0x7F;
        }
        compare.call(&Call::check(ONIE, 3, SWITCH).edit(0, &text, 600));
        let entries = [Entry::new(0x2B, text.clone())];
        let image = Image::new(Format::Onie, entries.to_vec()).bytes();
        compare.call(&Call::check(ONIE, 3, &image));
        let image = fboss_example_image();
        let check = Call::check(FBOSS, 2, &image);
        compare.call(&check.edit(0, &text, 600));
        let mut edited = vec![0; 600];
        let good = vec![b'~'; 255];
        let answer = second::bytes::edit(FBOSS, 2, &image, 0, &good, &mut edited);
        edited.truncate((answer >> 32) as usize);
        edited[6..6 + 255].copy_from_slice(&text);
        seal(Format::Fboss, &mut edited);
        compare.call(&Call::check(FBOSS, 2, &edited));
    }
}

/// Every call on generated images and field lists: edition 3 gives and writes what edition 2 does in the
/// formats that both have, and edition 4 what edition 3 does, but that its records have the lengths of
/// their frames.
pub fn editions_alike(compare: &mut Comparison) {
    let alike = |compare: &mut Comparison, call: &Call, [older, newer]: [u32; 2]| {
        let walks = [older, newer].map(|edition| walk_bytes(call.format, edition, call.n));
        let [older_call, newer_call] = [(older, &walks[0]), (newer, &walks[1])].map(|with| {
            let (edition, walk) = with;
            let call = Call { edition, ..*call };
            match call.walk {
                [] => call,
                _ => call.step(walk, call.room),
            }
        });
        let (answer, mut made) = compare.call(&older_call);
        if newer == 4 && matches!(call.kind, Kind::List | Kind::Entry | Kind::Step) {
            frames::put_lengths(call.format, call.read[0], &mut made);
        }
        // A refused call leaves what was there, which differs from call to call.
        let made = (answer >> 59 == 0).then_some(&made[..]);
        compare.case("editions alike", &newer_call, answer, made);
    };
    for format in FORMATS {
        let pairs = match format {
            Format::Onie => &[[3, 4]][..],
            _ => &[[2, 3], [3, 4]],
        };
        for input in 0..300 {
            compare.next_case();
            let mut random = Random::of_input(2, format.number(), input);
            let mut image = match format {
                Format::Onie if input % 3 == 0 => vendor::amplifier(&mut random),
                _ => valid(&mut random, format),
            };
            image.after.truncate(20);
            let image = match random.below(3) {
                0 => damage::damaged(&mut random, image),
                _ => image.bytes(),
            };
            let check = Call::check(format.number(), 3, &image);
            let entries = second::list(format.number(), 3, &image, usize::MAX).unwrap_or_default();
            let mut calls = vec![
                check,
                check.list(entries.len() * RECORD),
                check.list((entries.len() * RECORD).saturating_sub(1)),
            ];
            if format == Format::Onie {
                let payload = second::vendor_read(check.format, 3, &image, LONGEST);
                let length = payload.map_or(24, |payload| payload.bytes.len());
                calls.push(check.vendor_read(length, BLOCK));
                calls.push(check.vendor_read(length - 1, BLOCK));
            }
            let walk = walk_bytes(0, 0, 0);
            let numbers = 0..=entries.len() as u64;
            let values: Vec<Vec<u8>> = numbers
                .map(|n| {
                    let code = entries.get(n as usize).map_or(1, |entry| entry.code as u8);
                    offered(&mut random, format, code)
                })
                .collect();
            for (n, value) in (0..).zip(&values) {
                let step = check.step(&walk, RECORD);
                calls.extend([
                    check.entry(n, RECORD),
                    check.value(n),
                    check.string(n),
                    Call { n, ..step },
                    check.edit(n, value, image.len() + 600),
                    check.remove(n, image.len()),
                ]);
            }
            let new = fields::to_add(&mut random, format, 3, &[]);
            let (field, added) = (new.bytes(), &new.values);
            for room in [image.len() + 600, image.len()] {
                calls.push(check.add(&field, added, room));
            }
            let list = fields::list(&mut random, format, 3);
            let (bytes, values) = (list.bytes(), &list.values);
            for room in [3_000, 40] {
                calls.push(Call::write(format.number(), 3, &bytes, values, room));
            }
            for call in &calls {
                for &pair in pairs {
                    alike(compare, call, pair);
                }
            }
        }
    }
}
