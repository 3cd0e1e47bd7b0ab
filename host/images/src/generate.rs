//! Generated images of every format, and values for their entries.

use crate::image::{after_the_end, Entry, Format, Image, LONGEST, ONIE_LONGEST, POOL};
use crate::random::Random;
use crate::vpd::{self, Rule};
use crate::{fboss, onie, tiny};

/// The codes that an edition names.
pub fn named(format: Format, edition: u32) -> Vec<u8> {
    let added: &[&[u8]] = match format {
        Format::Fboss => &fboss::NAMED,
        Format::Vpd => &vpd::NAMED,
        Format::Tiny => &tiny::NAMED,
        Format::Onie => &onie::NAMED,
    };
    let editions = added.len().min(edition as usize);
    added[..editions].concat()
}

/// A value that keeps the rule of a code, where the code has one.
pub fn kept(random: &mut Random, format: Format, code: u8) -> Vec<u8> {
    match format {
        Format::Fboss => fboss::kept(random, code),
        Format::Vpd => vpd::kept(random, code),
        Format::Tiny => tiny::kept(random, code),
        Format::Onie => onie::kept(random, code),
    }
}

/// A value that a frame can hold and that breaks the rule of a code, where any such value does.
pub fn broken(random: &mut Random, format: Format, code: u8) -> Vec<u8> {
    match format {
        Format::Fboss => fboss::broken(random, code),
        Format::Vpd => vpd::broken(random),
        Format::Tiny => tiny::broken(random, code),
        Format::Onie => onie::broken(random, code),
    }
}

/// A value as a writer or an edit may be given one: of any length.
pub fn offered(random: &mut Random, format: Format, code: u8) -> Vec<u8> {
    let mut value = kept(random, format, code);
    match random.below(10) {
        0..=4 => {}
        5 | 6 => value = broken(random, format, code),
        7 => value.push(b'1'),
        8 => {
            value.pop();
        }
        _ => {
            let length = match format {
                Format::Fboss => random.pick(&[0, 254, 255, 256, 257, 300, 512]),
                Format::Vpd => random.pick(&[0, 4, 126, 127, 128, 129, 1000]),
                Format::Tiny if code == POOL => random.pick(&[0, 249, 250, 251, 255, 256, 257]),
                Format::Tiny => random.pick(&[0, 1, 6, 8, 15, 16]),
                Format::Onie => random.pick(&[0, 2, 3, 4, 5, 6, 19, 254, 255, 256, 257, 512]),
            };
            value = vec![b'A'; length];
        }
    }
    value
}

/// An image that the first edition of its format accepts, and all others too but for one in a few.
pub fn valid(random: &mut Random, format: Format) -> Image {
    let entries = match format {
        Format::Fboss => fboss::entries(random),
        Format::Vpd => vpd::entries(random),
        Format::Tiny => tiny::entries(random),
        Format::Onie => onie::entries(random),
    };
    let mut image = Image::new(format, entries);
    image.vpd_end = random.pick(&[0x00, 0xFF]);
    image.after = after_the_end(random, image.bytes().len());
    image
}

/// An image of thousands of bytes or with as many entries as it can hold.
pub fn large(random: &mut Random, format: Format) -> Image {
    let length = match random.below(4) {
        0 => LONGEST - 1,
        1 => random.between(8_000, LONGEST),
        _ => LONGEST,
    };
    let value_length = random.pick(&[0, 0, 1, 20, 255, 700, LONGEST]);
    let entries: Vec<Entry> = match format {
        Format::Fboss => fboss::filling(random, length, value_length.min(255)),
        Format::Vpd => match random.below(8) {
            0 | 1 => vpd::shortest(length),
            2..=4 => vpd::many_keys(random),
            _ => {
                let rule = random.pick(&[Rule::Reader, Rule::Writer]);
                vpd::filling(random, rule, length, value_length)
            }
        },
        Format::Tiny => tiny::shortest(random),
        Format::Onie => {
            // To the longest that there can be, and one byte and some more than that.
            let length = random.pick(&[
                ONIE_LONGEST - 1,
                ONIE_LONGEST,
                ONIE_LONGEST,
                ONIE_LONGEST + 1,
                ONIE_LONGEST + 256,
                length,
            ]);
            onie::filling(random, length, value_length.min(255))
        }
    };
    let mut image = Image::new(format, entries);
    image.vpd_end = random.pick(&[0x00, 0xFF]);
    if random.once_in(4) {
        // A last entry that is there a second time, or one byte more than an image may have.
        match image.entries.first().cloned() {
            Some(first) if random.once_in(2) => {
                image.entries.pop();
                image.entries.push(first);
            }
            _ => image.after = vec![0xFF; (LONGEST + 1).saturating_sub(image.bytes().len())],
        }
    } else if format == Format::Tiny || (format == Format::Onie && random.once_in(2)) {
        image.after = random.bytes(LONGEST.saturating_sub(image.bytes().len()));
    }
    image
}

/// An image that has as many bytes as one can have, or a few less, so that little or nothing can be added.
pub fn nearly_full(random: &mut Random, format: Format) -> Image {
    let less = match random.below(3) {
        0 => random.below(4),
        _ => random.below(40),
    };
    let value_length = random.pick(&[20, 255]);
    let entries = match format {
        Format::Fboss => fboss::filling(random, LONGEST - less, value_length),
        Format::Vpd => {
            let rule = random.pick(&[Rule::Reader, Rule::Writer]);
            let value_length = random.pick(&[255, 700, LONGEST]);
            vpd::filling(random, rule, LONGEST - less, value_length)
        }
        Format::Tiny => tiny::filling(random, less),
        Format::Onie => onie::filling(random, ONIE_LONGEST - less, value_length),
    };
    let mut image = Image::new(format, entries);
    image.vpd_end = random.pick(&[0x00, 0xFF]);
    image
}
