//! What the listing program prints, as a function of what it reads.

use crate::formats::LONGEST;
use crate::refusal::Reason;
use crate::{Entry, Refusal};

/// The output for one format byte, one edition byte and at most 65,534 bytes of image.
pub fn output(input: &[u8]) -> String {
    if input.len() > LONGEST {
        return refused(Reason::TooLong.at(0));
    }
    let &[format, edition, ref image @ ..] = input else {
        return refused(Reason::Format.at(0));
    };
    match crate::list(format.into(), edition.into(), image, usize::MAX) {
        Ok(entries) => {
            let head = format!(
                "format {format} edition {edition} entries {}\n",
                entries.len()
            );
            let lines = entries.iter().enumerate().map(line);
            std::iter::once(head).chain(lines).collect()
        }
        Err(refusal) => refused(refusal),
    }
}

fn line((number, entry): (usize, &Entry)) -> String {
    format!(
        "{number} {} {} {} {} {}\n",
        entry.kind, entry.key_place, entry.key_len, entry.value_place, entry.value_len
    )
}

fn refused(refusal: Refusal) -> String {
    format!("refused {} at {}\n", refusal.number, refusal.place)
}
