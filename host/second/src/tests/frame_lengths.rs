//! 02, Entries remember their whole frame.

use super::*;

/// The bytes of a VPD length in so many bytes: its groups of seven bits, and zero groups before them.
fn length_in(bytes: usize, length: usize) -> Vec<u8> {
    let groups = (0..bytes).rev();
    let mut stored: Vec<u8> = groups
        .map(|group| (length >> (7 * group) & 0x7F) as u8 | 0x80)
        .collect();
    *stored.last_mut().unwrap() &= 0x7F;
    stored
}

/// Places and frame lengths of all records of an image, which are the same in the editions given.
fn frames_of(format: u32, editions: &[u32], image: &[u8]) -> Vec<(u32, u32)> {
    let frames = |edition: u32| -> Vec<(u32, u32)> {
        let entries = list(format, edition, image, usize::MAX).unwrap();
        for (n, listed) in (0..).zip(&entries) {
            let walk = Walk {
                format,
                edition,
                entry: n,
            };
            assert_eq!(entry(format, edition, image, n), Ok(*listed));
            assert_eq!(step(walk, image).0, Ok(*listed));
        }
        entries
            .iter()
            .map(|entry| (entry.place, entry.frame_len))
            .collect()
    };
    let first = frames(editions[0]);
    for &edition in editions {
        assert_eq!(frames(edition), first);
    }
    first
}

/// Shows that an accepted image's records follow each other without gaps, from the header to the end.
///
/// The end is where it is because the image is accepted up to the end's last byte, and no shorter.
pub(super) fn tile(format: u32, edition: u32, image: &[u8]) {
    let (header, end_len) = match format {
        FBOSS => (4, 4),
        VPD => (0, 1),
        TINY => (3, 1),
        _ => (11, 6),
    };
    let entries = list(format, edition, image, usize::MAX).unwrap();
    let mut place = header;
    for entry in &entries {
        assert_eq!(entry.place, place);
        assert_eq!(
            entry.place + entry.frame_len,
            entry.value_place + entry.value_len
        );
        place += entry.frame_len;
    }
    let length = place as usize + end_len;
    assert_eq!(check(format, edition, &image[..length]), Ok(entries.len()));
    assert!(check(format, edition, &image[..length - 1]).is_err());
    let ends = match (format, &image[place as usize..length]) {
        (FBOSS, &[250, 2, _, _]) => true,
        (VPD, &[0x00 | 0xFF]) => true,
        (TINY, &[_]) => length == usize::from(image[2]),
        (ONIE, &[0xFE, 4, _, _, _, _]) => true,
        _ => false,
    };
    assert!(ends, "no end at {place}");
}

/// Word 7 of every record that list, entry and step give, which agree.
fn seventh_words(format: u32, edition: u32, image: &[u8]) -> Vec<u32> {
    let count = check(format, edition, image).unwrap();
    let mut records = vec![0xA5; count * 64];
    bytes::list(format, edition, image, &mut records);
    (0..count as u32)
        .map(|n| {
            let listed = &records[n as usize * 64..][..64];
            let mut record = [0xA5; 64];
            let done = bytes::entry(format, edition, image, n.into(), &mut record);
            assert_eq!((done, &record[..]), (1 << 32, listed));
            let mut walk = [format, edition, n, 0].map(u32::to_le_bytes).concat();
            let mut record = [0xA5; 64];
            let done = bytes::step(&mut walk, image, &mut record);
            assert_eq!((done, &record[..]), (1 << 32, listed));
            assert_eq!(walk[4..8], edition.to_le_bytes());
            u32::from_le_bytes(listed[28..32].try_into().unwrap())
        })
        .collect()
}

/// Code and length bytes, and the value: 15, 3, 3, 3, 2 and 257 bytes.
fn fboss_image() -> Vec<u8> {
    let mut entries = b"\x01\x0DFIRST_SQUEEZE\x08\x01\x04\x09\x01\x05\x0A\x01\x06\x0B\x00".to_vec();
    entries.extend([21, 255]);
    entries.extend([0xFA; 255]);
    fboss(&entries)
}

/// The pool's frame has a length byte. Those of 10h, 60h and F0h have none.
fn tiny_image() -> Vec<u8> {
    let mut entries = vec![0x10, 7, 0x60, 1, 2, 3, 4, 5, 6, 0x03, 0];
    entries.extend([0xF0; 16]);
    entries.extend([0x01, 3, 0x41, 0xC2, 0x43]);
    tiny(&entries)
}

fn onie_image() -> Vec<u8> {
    onie::image(b"\x2D\x00\x2C\x02CZ\x99\x00\xFD\x04\xFE\x04\xFE\x04\x21\x01A")
}

#[test]
fn fboss_frames() {
    assert_eq!(
        frames_of(FBOSS, &EDITIONS, &fboss_image()),
        [(4, 15), (19, 3), (22, 3), (25, 3), (28, 2), (30, 257)]
    );
    // Code 250 stands at 287.
    assert_eq!(fboss_image()[287..289], [250, 2]);
}

#[test]
fn tiny_frames() {
    let image = tiny_image();
    assert_eq!(
        frames_of(TINY, &EDITIONS, &image),
        [(3, 2), (5, 7), (12, 2), (14, 16), (30, 5)]
    );
    assert_eq!((image.len(), image[2]), (36, 36));
    let longest_pool = [&[0x01, 249][..], &[0x80; 249]].concat();
    assert_eq!(frames_of(TINY, &EDITIONS, &tiny(&longest_pool)), [(3, 251)]);
    // 125 entries, of two bytes each, and one byte left.
    let many = [0x02, 0].repeat(125);
    let frames: Vec<(u32, u32)> = (0..125).map(|n| (3 + 2 * n, 2)).collect();
    assert_eq!(frames_of(TINY, &EDITIONS, &tiny(&many)), frames);
}

#[test]
fn onie_frames() {
    let image = onie_image();
    assert_eq!(
        frames_of(ONIE, &[3, 4], &image),
        [(11, 2), (13, 4), (17, 2), (19, 6), (25, 3)]
    );
    assert_eq!(image[28..30], [0xFE, 4]);
    let longest = [&[0x21, 255][..], &[b'x'; 255]].concat();
    assert_eq!(
        frames_of(ONIE, &[3, 4], &onie::image(&longest)),
        [(11, 257)]
    );
}

#[test]
fn vpd_frames() {
    assert_eq!(frames_of(VPD, &EDITIONS, &SKU), [(0, 8)]);
    // 01, Both sides of each line: a key's length in two bytes.
    let image = [0x01, 0x80, 0x01, 0x41, 0x00, 0x00];
    assert_eq!(frames_of(VPD, &EDITIONS, &image), [(0, 5)]);
    // 002, Encoding example.
    let image = b"\x01\x04UUID\x100123456789ABCDEF\x01\x073G_IMEI\x0EAABBBBBB-CC-DD\
        \x01\x0Cethernet_mac\x06\x2A\x02\x03\xB3\xD5\x7C\x00";
    assert_eq!(
        frames_of(VPD, &EDITIONS, image),
        [(0, 23), (23, 24), (47, 21)]
    );
    // An info header without a key: type, two lengths and four bytes.
    let image = [0xFE, 0, 4, 1, 2, 3, 4, 0xFF];
    assert_eq!(frames_of(VPD, &EDITIONS, &image), [(0, 7)]);
    // In edition 1 it may have nothing at all.
    assert_eq!(frames_of(VPD, &[1], &[0xFE, 0, 0, 0]), [(0, 3)]);
    assert_eq!(
        frames_of(
            VPD,
            &[1],
            b"\xFE\x80\x80\x80\x00\x80\x80\x80\x00\x01\x01A\x00\x00"
        ),
        [(0, 9), (9, 4)]
    );
}

#[test]
fn every_form_of_vpd_lengths() {
    for key_bytes in 1..=4 {
        for value_bytes in 1..=4 {
            for length in [0, 1, 5, 127, 128, 200, 16_383, 16_384, 60_000] {
                if length >= 1 << (7 * value_bytes) {
                    continue;
                }
                let key = [&length_in(key_bytes, 3)[..], b"SKU"].concat();
                let value = [length_in(value_bytes, length), vec![b'v'; length]].concat();
                let image = [&[1], &key[..], &value, b"\x01\x01k\x01v\x00"].concat();
                let whole = (1 + key_bytes + 3 + value_bytes + length) as u32;
                assert_eq!(frames_of(VPD, &EDITIONS, &image), [(0, whole), (whole, 5)]);
                for edition in EDITIONS {
                    tile(VPD, edition, &image);
                }
            }
        }
    }
    // A long key, and the longest frame that there is: all but the end.
    let key = vec![b'k'; 300];
    let image = [b"\x01\x80\x82\x2C", &key[..], b"\x80\x80\x00", b"\x00"].concat();
    assert_eq!(frames_of(VPD, &EDITIONS, &image), [(0, 307)]);
    let mut image = b"\x01\x01k".to_vec();
    image.extend(length_in(3, 65_529));
    image.resize(65_535, 0xFF);
    image.push(0x00);
    assert_eq!(frames_of(VPD, &EDITIONS, &image), [(0, 65_535)]);
}

#[test]
fn an_edit_shortens_the_length_of_its_value_alone() {
    let image = b"\x01\x80\x01A\x80\x80\x02xy\x01\x81\x00\
        0123456701234567012345670123456701234567012345670123456701234567\
        0123456701234567012345670123456701234567012345670123456701234567\
        \x80\x00\x00";
    let frames = |image: &[u8]| frames_of(VPD, &EDITIONS, image);
    assert_eq!(frames(image), [(0, 9), (9, 133)]);
    for edition in EDITIONS {
        let with = |n, value: &[u8]| {
            let mut out = vec![0xA5; 1_000];
            let length = edit(VPD, edition, image, n, value, &mut out).unwrap();
            // The whole output, and its part up to the length given.
            let cut = out[..length].to_vec();
            assert_eq!(frames(&cut), frames(&out));
            tile(VPD, edition, &cut);
            tile(VPD, edition, &out);
            frames(&out)
        };
        assert_eq!(with(0, b"xy"), [(0, 7), (7, 133)]);
        assert_eq!(with(0, b""), [(0, 5), (5, 133)]);
        assert_eq!(with(0, &[0; 128]), [(0, 134), (134, 133)]);
        assert_eq!(with(1, b""), [(0, 9), (9, 132)]);
        assert_eq!(with(1, &[0; 127]), [(0, 9), (9, 259)]);
    }
}

#[test]
fn the_seventh_word_comes_with_edition_four() {
    let vpd = b"\x01\x80\x01A\x80\x80\x02xy\xFE\x80\x00\x04\x01\x00\x00\x00\x00".to_vec();
    let images: [(u32, Vec<u8>, &[u32]); 4] = [
        (FBOSS, fboss_image(), &[15, 3, 3, 3, 2, 257]),
        (VPD, vpd, &[9, 8]),
        (TINY, tiny_image(), &[2, 7, 2, 16, 5]),
        (ONIE, onie_image(), &[2, 4, 2, 6, 3]),
    ];
    for (format, image, lengths) in images {
        assert_eq!(seventh_words(format, 4, &image), lengths);
        for edition in 1..=3 {
            if (format, edition) != (ONIE, 1) && (format, edition) != (ONIE, 2) {
                let zeros = vec![0; lengths.len()];
                assert_eq!(seventh_words(format, edition, &image), zeros);
            }
        }
        // Edition 5 is not there yet, in any call.
        let mut record = [0xA5; 64];
        let mut walk = [format, 5, 0, 0].map(u32::to_le_bytes).concat();
        for answer in [
            bytes::check(format, 5, &image),
            bytes::list(format, 5, &image, &mut record),
            bytes::entry(format, 5, &image, 0, &mut record),
            bytes::value(format, 5, &image, 0),
            bytes::step(&mut walk, &image, &mut record),
            bytes::edit(format, 5, &image, 0, b"", &mut record),
            bytes::write(format, 5, b"", b"", &mut record),
        ] {
            assert_eq!(answer, 1 << 59);
        }
        assert_eq!(record, [0xA5; 64]);
    }
    assert_eq!(bytes::string(TINY, 5, &tiny_image(), 0), 1 << 59);
    let mut block = [0xA5; 64];
    assert_eq!(
        bytes::vendor_read(ONIE, 5, &onie_image(), &mut [], &mut block),
        1 << 59
    );
    assert_eq!(
        bytes::vendor_write(ONIE, 5, b"", 0, b"", &mut block),
        1 << 59
    );
    assert_eq!(block, [0xA5; 64]);
}
