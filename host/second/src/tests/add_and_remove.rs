//! 02, Add and remove fields.

use super::*;

type Part<'a> = (u32, &'a [u8], &'a [u8]);

/// A pool with two strings and an unfinished tail.
const POOL: &[u8] = b"\x01\x04A\xC2\xC3D";

/// Bytes from their hexadecimal text.
fn hex(text: &str) -> Vec<u8> {
    text.split_whitespace()
        .map(|pair| u8::from_str_radix(pair, 16).unwrap())
        .collect()
}

/// Adds a field into that many bytes, and shows that a refusal leaves them as they were.
pub(super) fn added(
    format: u32,
    edition: u32,
    image: &[u8],
    field: Part,
    room: usize,
) -> Result<Vec<u8>, Refusal> {
    let (fields, values) = fields(&[field]);
    let mut out = vec![0xA5; room];
    let result = add(format, edition, image, Some(fields[0]), &values, &mut out);
    finished(result, out)
}

/// Removes an entry into that many bytes, and shows that a refusal leaves them as they were.
pub(super) fn removed(
    format: u32,
    edition: u32,
    image: &[u8],
    n: u64,
    room: usize,
) -> Result<Vec<u8>, Refusal> {
    let mut out = vec![0xA5; room];
    let result = remove(format, edition, image, n, &mut out);
    finished(result, out)
}

/// Codes, keys and values of an image that an edition accepts, in image order.
fn triples(format: u32, edition: u32, image: &[u8]) -> Result<Vec<Part<'_>>, Refusal> {
    let part = |place: u32, length: u32| &image[place as usize..][..length as usize];
    let entries = list(format, edition, image, usize::MAX)?;
    let triples = entries.iter().map(|entry| {
        let key = part(entry.key_place, entry.key_len);
        (entry.code, key, part(entry.value_place, entry.value_len))
    });
    Ok(triples.collect())
}

/// Takes each entry of an accepted image out and puts it back in, and shows what every edition that accepted
/// the image then reads: all others, and all with that entry last, or in Tiny last before the pool.
pub(super) fn agree(format: u32, edition: u32, image: &[u8], entries: &[Entry]) {
    let before = EDITIONS.map(|newer| triples(format, newer, image).ok());
    let accepting = || EDITIONS.into_iter().zip(&before);
    let required = |code| format == FBOSS && matches!(code, 1 | 8 | 9 | 10 | 11);
    for (n, entry) in entries.iter().enumerate() {
        let out = removed(format, edition, image, n as u64, 300);
        if entry.kind == 0 {
            assert_eq!(out, refused(14, entry.place.into()));
            continue;
        }
        if required(entry.code) {
            assert_eq!(out, refused(11, 0));
            continue;
        }
        let out = out.unwrap();
        for (newer, before) in accepting() {
            let Some(before) = before else { continue };
            let mut left = before.clone();
            left.remove(n);
            assert_eq!(triples(format, newer, &out), Ok(left));
            frame_lengths::tile(format, newer, &out);
        }

        let own = triples(format, edition, image).unwrap()[n];
        assert_eq!(
            added(format, edition, image, own, 300).is_ok(),
            (format, entry.code) == (ONIE, 0xFD)
        );
        let in_alphabet = |byte: &u8| byte.is_ascii_alphanumeric() || *byte == b'_';
        let back = added(format, edition, &out, own, 300);
        if (format, entry.code) == (VPD, 1) && !own.1.iter().all(in_alphabet) {
            assert_eq!(back, refused(7, 0));
            continue;
        }
        let back = back.unwrap();
        for (newer, before) in accepting() {
            let Some(before) = before else { continue };
            let mut all = before.clone();
            all.remove(n);
            let pool = format == TINY && all.last().is_some_and(|last| last.0 == 1);
            all.insert(all.len() - usize::from(pool), own);
            assert_eq!(triples(format, newer, &back), Ok(all));
            frame_lengths::tile(format, newer, &back);
        }
    }
}

/// An add gives these bytes in the editions, with just room enough, and is refused with one byte less.
fn adds(format: u32, editions: &[u32], image: &[u8], field: Part, made: &[u8]) {
    for &edition in editions {
        for more in [0, 1, 40] {
            let room = made.len() + more;
            assert_eq!(
                added(format, edition, image, field, room),
                Ok(made.to_vec())
            );
        }
        let room = made.len() - 1;
        assert_eq!(added(format, edition, image, field, room), refused(12, 0));
    }
}

/// A removal gives these bytes in the editions, with just room enough, and is refused with one byte less.
fn removes(format: u32, editions: &[u32], image: &[u8], n: u64, made: &[u8]) {
    for &edition in editions {
        for more in [0, 1, 40] {
            let room = made.len() + more;
            assert_eq!(removed(format, edition, image, n, room), Ok(made.to_vec()));
        }
        let room = made.len() - 1;
        assert_eq!(removed(format, edition, image, n, room), refused(12, 0));
    }
}

/// The field goes after the last entry, with shortest lengths. An end of FFh becomes 00h, and what follows
/// the end is dropped.
#[test]
fn vpd_added() {
    let made = hex("01 03 53 4B 55 02 41 37 01 03 72 65 76 01 42 00");
    for after in [&b"\x00"[..], b"\xFF", b"\x00more", b"\xFF\x01\x01A\x00\x00"] {
        let image = [&SKU[..8], after].concat();
        adds(VPD, &EDITIONS, &image, (1, b"rev", b"B"), &made);
    }
    adds(VPD, &EDITIONS, b"\x00", (1, b"SKU", b"A7"), &SKU);
    adds(VPD, &EDITIONS, b"\xFF\x00", (1, b"SKU", b"A7"), &SKU);
    // 128 bytes have two length bytes.
    let (key, value) = ([b'k'; 128], [0x00; 300]);
    let made = [
        &SKU[..8],
        b"\x01\x81\x00",
        &key,
        b"\x82\x2C",
        &value,
        b"\x00",
    ]
    .concat();
    adds(VPD, &EDITIONS, &SKU, (1, &key, &value), &made);
    // An empty value, and one of any bytes.
    let made = [&SKU[..8], b"\x01\x01_\x00\x00"].concat();
    adds(VPD, &EDITIONS, &SKU, (1, b"_", b""), &made);
    let made = [&SKU[..8], b"\x01\x019\x03\x00\xFF.\x00"].concat();
    adds(VPD, &EDITIONS, &SKU, (1, b"9", b"\x00\xFF."), &made);
    // An info header, from edition 2 on, with any key.
    for key in [&b""[..], b"SKU", b"lab.rack", b"\x00"] {
        let made = [&SKU[..8], b"\xFE", &[key.len() as u8], key, b"\x041234\x00"].concat();
        adds(VPD, &[2, 3, 4], &SKU, (0xFE, key, b"1234"), &made);
        assert_eq!(
            added(VPD, 1, &SKU, (0xFE, key, b"1234"), 99),
            refused(14, 0)
        );
    }
}

/// Every entry that was there keeps its bytes, long forms of its lengths and a key that no writer takes too.
#[test]
fn vpd_keeps_other_bytes() {
    let parts: [&[u8]; 4] = [
        b"\x01\x80\x08lab.rack\x80\x80\x01x",
        b"\x01\x03SKU\x02A7",
        b"\xFE\x80\x00\x80\x80\x80\x041234",
        b"\x01\x80\x80\x02\x00\xFF\x80\x00",
    ];
    let all = parts.concat();
    let image = [&all[..], b"\xFFrest"].concat();
    let made = [&all[..], b"\x01\x01k\x01v\x00"].concat();
    adds(VPD, &EDITIONS, &image, (1, b"k", b"v"), &made);
    for n in 0..4 {
        let mut left = parts.to_vec();
        left.remove(n);
        let made = [&left.concat()[..], b"\x00"].concat();
        if n == 2 {
            removes(VPD, &[2, 3, 4], &image, 2, &made);
            let place = (parts[0].len() + parts[1].len()) as u64;
            assert_eq!(removed(VPD, 1, &image, 2, 99), refused(14, place));
        } else {
            removes(VPD, &EDITIONS, &image, n as u64, &made);
        }
    }
}

/// A key outside the writer's alphabet is 7, though the image may have it; the same key is 8.
#[test]
fn vpd_keys() {
    let image = b"\x01\x08lab.rack\x02A7\x01\x03SKU\x00\x00";
    for edition in EDITIONS {
        for key in [
            &b""[..],
            b".",
            b"lab.rack",
            b"lab.rac",
            b"a-",
            b"\x00",
            b"\xFFk",
        ] {
            assert_eq!(
                added(VPD, edition, image, (1, key, b"v"), 99),
                refused(7, 0)
            );
        }
        assert_eq!(
            added(VPD, edition, image, (1, b"SKU", b"v"), 99),
            refused(8, 0)
        );
        for key in [&b"SK"[..], b"SKUU", b"sku", b"lab_rack"] {
            assert!(added(VPD, edition, image, (1, key, b"v"), 99).is_ok());
        }
    }
    // A stored long form of the key's length is the same key.
    let image = b"\x01\x80\x80\x03SKU\x00\x00";
    assert_eq!(added(VPD, 1, image, (1, b"SKU", b"v"), 99), refused(8, 0));
    // A second FEh is 8 whatever the key, and one 01h may share its key.
    let image = b"\xFE\x01k\x041234\x00";
    for key in [&b"k"[..], b"", b"other"] {
        assert_eq!(
            added(VPD, 2, image, (0xFE, key, b"1234"), 99),
            refused(8, 0)
        );
        assert_eq!(added(VPD, 2, image, (0xFE, key, b"123"), 99), refused(7, 0));
        assert_eq!(
            added(VPD, 1, image, (0xFE, key, b"1234"), 99),
            refused(14, 0)
        );
    }
    assert!(added(VPD, 2, image, (1, b"k", b"1234"), 99).is_ok());
}

#[test]
fn fboss_added_and_removed() {
    let old = hex("FB FB 05 FF 01 00 08 01 01 09 01 01 0A 01 01 0B 00 FA 02 22 9E");
    let new = hex("FB FB 05 FF 01 00 08 01 01 09 01 01 0A 01 01 0B 00 11 08 02 00 00 00 00 01 00 00 FA 02 12 06");
    let block = hex("02 00 00 00 00 01 00 00");
    adds(FBOSS, &[2, 3, 4], &old, (17, b"", &block), &new);
    removes(FBOSS, &[2, 3, 4], &new, 5, &old);
    assert_eq!(added(FBOSS, 1, &old, (17, b"", &block), 99), refused(14, 0));
    assert_eq!(removed(FBOSS, 1, &new, 5, 99), refused(14, 17));

    // An unnamed entry stays where it is, whatever follows the end.
    let old = hex("FB FB 05 FF 01 00 C8 02 AA BB 08 01 01 09 01 01 0A 01 01 0B 00 FA 02 DE 5E");
    let new =
        hex("FB FB 05 FF 01 00 C8 02 AA BB 08 01 01 09 01 01 0A 01 01 0B 00 02 01 41 FA 02 56 91");
    let after = |image: &[u8]| [image, b"\xFA\x02\x00\x00\x00"].concat();
    adds(FBOSS, &EDITIONS, &after(&old), (2, b"key", b"A"), &new);
    removes(FBOSS, &EDITIONS, &after(&new), 6, &old);
    for edition in EDITIONS {
        assert_eq!(removed(FBOSS, edition, &old, 1, 99), refused(14, 6));
        // All five that are required: 11 at 0, also where there is no room.
        for n in [0, 2, 3, 4, 5] {
            assert_eq!(removed(FBOSS, edition, &old, n, 99), refused(11, 0));
            assert_eq!(removed(FBOSS, edition, &old, n, 0), refused(11, 0));
        }
        for n in [6, 7, 1 << 32, u64::MAX] {
            assert_eq!(removed(FBOSS, edition, &old, n, 99), refused(13, 0));
        }
        assert_eq!(
            added(FBOSS, edition, &old, (1, b"", b"N"), 99),
            refused(8, 0)
        );
    }
    // 255 bytes of text are added, 256 are 7.
    let text = [b'x'; 256];
    let entries = hex("01 00 C8 02 AA BB 08 01 01 09 01 01 0A 01 01 0B 00 0C FF");
    let made = fboss(&[&entries[..], &text[..255]].concat());
    adds(FBOSS, &EDITIONS, &old, (12, b"", &text[..255]), &made);
    assert_eq!(added(FBOSS, 4, &old, (12, b"", &text), 999), refused(7, 0));
}

/// The field goes before a stored pool, and a first pool goes last.
#[test]
fn tiny_added_and_removed() {
    let none = hex("56 02 04 6F");
    let number = hex("56 02 06 10 07 A2");
    let empty_pool = hex("56 02 06 01 00 F5");
    adds(TINY, &EDITIONS, &none, (0x10, b"", b"\x07"), &number);
    removes(TINY, &EDITIONS, &number, 0, &none);
    adds(TINY, &EDITIONS, &none, (0x01, b"", b""), &empty_pool);
    removes(TINY, &EDITIONS, &empty_pool, 0, &none);

    let pool = hex("56 02 0A 01 04 41 C2 C3 44 82");
    let flags = hex("56 02 0C 11 0F 01 04 41 C2 C3 44 36");
    adds(TINY, &EDITIONS, &pool, (0x11, b"", b"\x0F"), &flags);
    removes(TINY, &EDITIONS, &flags, 0, &pool);

    let two = hex("56 02 0E 10 07 03 00 01 04 41 C2 C3 44 43");
    let three = hex("56 02 10 10 07 03 00 11 0F 01 04 41 C2 C3 44 6D");
    let without_pool = hex("56 02 08 10 07 03 00 5F");
    let after = |image: &[u8]| [image, b"\x01\x00"].concat();
    adds(TINY, &EDITIONS, &after(&two), (0x11, b"", b"\x0F"), &three);
    removes(TINY, &EDITIONS, &after(&three), 2, &two);
    // The pool goes though a string number points to it, and comes back last.
    removes(TINY, &EDITIONS, &after(&two), 2, &without_pool);
    adds(
        TINY,
        &EDITIONS,
        &without_pool,
        (0x01, b"", b"A\xC2\xC3D"),
        &two,
    );
    for edition in EDITIONS {
        // A second pool, a second string number, an unnamed entry.
        assert_eq!(
            added(TINY, edition, &two, (0x01, b"", b""), 99),
            refused(8, 0)
        );
        assert_eq!(
            added(TINY, edition, &two, (0x10, b"", b"\x00"), 99),
            refused(8, 0)
        );
        assert_eq!(removed(TINY, edition, &two, 1, 99), refused(14, 5));
        assert_eq!(
            added(TINY, edition, &two, (0x03, b"", b""), 99),
            refused(14, 0)
        );
    }
    let identity = b"\x00\x01\x02\x03AB\x0F\x27";
    let made = tiny(&[&b"\x10\x07\x03\x00\x80"[..], identity, POOL].concat());
    adds(TINY, &[2, 3, 4], &two, (0x80, b"", identity), &made);
    assert_eq!(
        added(TINY, 1, &two, (0x80, b"", identity), 99),
        refused(14, 0)
    );
    assert_eq!(removed(TINY, 1, &made, 2, 99), refused(14, 7));
}

/// L is at most 255, however much room there is.
#[test]
fn tiny_total_length() {
    let image = hex("56 02 06 10 07 A2");
    for edition in EDITIONS {
        for length in 0..=255 {
            let pool = vec![0xC1; length];
            let made = added(TINY, edition, &image, (0x01, b"", &pool), 999);
            if length <= 247 {
                let entries = [b"\x10\x07\x01", &[length as u8][..], &pool].concat();
                assert_eq!(made, Ok(tiny(&entries)));
            } else {
                assert_eq!(made, refused(12, 0));
            }
        }
        let pool = [0xC1; 256];
        assert_eq!(
            added(TINY, edition, &image, (0x01, b"", &pool), 999),
            refused(7, 0)
        );
        // Two bytes more than 253 are 255, and than 254 are 256.
        for (length, fits) in [(248, true), (249, false)] {
            let pool = [b"\x01", &[length - 1][..], &vec![0; length as usize - 1]].concat();
            let image = tiny(&pool);
            let made = added(TINY, edition, &image, (0x11, b"", b"\x0F"), 999);
            let whole = [b"\x11\x0F", &pool[..]].concat();
            assert_eq!(
                made,
                if fits {
                    Ok(tiny(&whole))
                } else {
                    refused(12, 0)
                }
            );
        }
    }
}

#[test]
fn onie_added_and_removed() {
    let none = hex("54 6C 76 49 6E 66 6F 00 01 00 06 FE 04 D4 43 1C 18");
    let one = hex("54 6C 76 49 6E 66 6F 00 01 00 0A 2A 02 00 03 FE 04 B5 64 87 ED");
    adds(ONIE, &[3, 4], &none, (0x2A, b"", b"\x00\x03"), &one);
    removes(ONIE, &[3, 4], &one, 0, &none);

    // A vendor extension may come again, and one of two is taken out.
    let one = hex("54 6C 76 49 6E 66 6F 00 01 00 0E 99 00 FD 04 00 00 1F 79 FE 04 05 86 34 E2");
    let two = hex("54 6C 76 49 6E 66 6F 00 01 00 15 99 00 FD 04 00 00 1F 79 FD 05 00 00 1F 79 00 FE 04 C0 46 6C B9");
    let other =
        hex("54 6C 76 49 6E 66 6F 00 01 00 0F 99 00 FD 05 00 00 1F 79 00 FE 04 9D 68 35 E8");
    adds(
        ONIE,
        &[3, 4],
        &one,
        (0xFD, b"", b"\x00\x00\x1F\x79\x00"),
        &two,
    );
    removes(ONIE, &[3, 4], &two, 2, &one);
    removes(ONIE, &[3, 4], &two, 1, &other);
    for edition in [3, 4] {
        assert_eq!(removed(ONIE, edition, &two, 0, 99), refused(14, 11));
        assert_eq!(removed(ONIE, edition, &two, 3, 99), refused(13, 0));
        assert_eq!(
            added(ONIE, edition, &two, (0xFD, b"", b"\x00\x00\x1F"), 99),
            refused(7, 0)
        );
        for code in [0x00, 0x26, 0xFE, 0xFF, 0x121] {
            assert_eq!(
                added(ONIE, edition, &two, (code, b"", b""), 99),
                refused(14, 0)
            );
        }
    }
}

/// The declared length is at most 2,048, however much room there is.
#[test]
fn onie_declared_length() {
    // Seven of 257 bytes are 1,799, so 243 are left for entries.
    let full = [&b"\x99\xFF"[..], &[0x00; 255]].concat().repeat(7);
    let image = onie::image(&full);
    for edition in [3, 4] {
        for (length, fits) in [(240, true), (241, true), (242, false), (255, false)] {
            let text = vec![b'x'; length];
            let made = added(ONIE, edition, &image, (0x21, b"", &text), 9_999);
            let entries = [&full[..], b"\x21", &[length as u8], &text].concat();
            let whole = if fits {
                Ok(onie::image(&entries))
            } else {
                refused(12, 0)
            };
            assert_eq!(made, whole);
        }
        assert_eq!(
            added(ONIE, edition, &image, (0x21, b"", &[b'x'; 256]), 9_999),
            refused(7, 0)
        );
    }
}

/// An image and an output of the longest size, and one byte past it.
#[test]
fn the_longest_images() {
    // 65,520 bytes of value, six before it and the end are nine fewer than the longest.
    let fits = [&b"\x01\x01k\x83\xFF\x70"[..], &[0x00; 65_520], b"\x00"].concat();
    let field: Part = (1, b"abc", b"def");
    let made = added(VPD, 1, &fits, field, 65_536).unwrap();
    assert_eq!(made.len(), 65_536);
    assert!(made.ends_with(b"\x01\x03abc\x03def\x00"));
    assert_eq!(added(VPD, 1, &fits, field, 65_535), refused(12, 0));
    assert_eq!(added(VPD, 1, &fits, field, 65_537), refused(2, 0));
    assert_eq!(removed(VPD, 1, &made, 1, 65_527), Ok(fits));
    assert_eq!(added(VPD, 1, &made, (1, b"a", b""), 65_536), refused(12, 0));
    assert_eq!(removed(VPD, 1, &made, 0, 65_537), refused(2, 0));
    let longer = [&made[..], b"\x00"].concat();
    assert_eq!(added(VPD, 1, &longer, field, 99), refused(2, 0));
    assert_eq!(removed(VPD, 1, &longer, 0, 99), refused(2, 0));
    // A value of any length breaks no rule, so what does not fit is 12.
    let long = vec![0x00; 70_000];
    assert_eq!(
        added(VPD, 1, &SKU, (1, b"a", &long), 65_536),
        refused(12, 0)
    );
    assert_eq!(added(VPD, 1, &SKU, (1, b".", &long), 65_536), refused(7, 0));
}

/// 16, 1, 2, the image's own, 13, 14, 7, 8, 12, each before all after it.
#[test]
fn refusals_of_an_add_in_order() {
    // The field is wrong in every way: outside the values, not named.
    let far = Field {
        code: 0x101,
        key_place: 0,
        key_len: 0,
        value_place: 1,
        value_len: u64::from(u32::MAX),
    };
    let mut out = [0xA5; 65_537];
    let mut add = |format, edition, image: &[u8], room: usize| {
        let result = add(format, edition, image, Some(far), b"", &mut out[..room]);
        result.unwrap_err()
    };
    let long = [0x00; 65_537];
    for (format, edition, image, room, number, place) in [
        (0, 9, &long[..], 65_537, 16, 0),
        (5, 9, &long, 65_537, 16, 0),
        (ONIE, 1, &long, 65_537, 16, 0),
        (ONIE, 9, &long, 65_537, 1, 0),
        (VPD, 0, &long, 65_537, 1, 0),
        (VPD, 5, &long, 65_537, 1, 0),
        (VPD, 1, &long, 0, 2, 0),
        (VPD, 1, b"\x02", 65_537, 2, 0),
        (VPD, 1, b"", 0, 5, 0),
        (VPD, 1, b"\x01\x01A\x00\x02", 0, 6, 4),
        (VPD, 1, b"\x01\x00\x00\x00", 0, 7, 0),
        (VPD, 1, b"\x01\x01A\x00\x01\x01A\x00\x00", 0, 8, 4),
        (TINY, 1, b"\x56\x02\x06\x01\x00\xF4", 0, 10, 5),
        (FBOSS, 1, b"\xFB\xFB\x05\xFF\xFA\x02\x7D\xE4", 0, 11, 0),
        (VPD, 1, &SKU, 0, 13, 0),
    ] {
        let refusal = Refusal { number, place };
        assert_eq!(add(format, edition, image, room), refusal);
    }

    let mut out = [0xA5; 8];
    let mut add = |code, key: [u64; 2], value: [u64; 2]| {
        let field = Field {
            code,
            key_place: key[0],
            key_len: key[1],
            value_place: value[0],
            value_len: value[1],
        };
        crate::add(VPD, 1, &SKU, Some(field), b"SKU.A7", &mut out)
    };
    // A key outside the values, of a code that is named and of one that isn't, then the value.
    assert_eq!(add(1, [3, 4], [0, 0]), refused(13, 0));
    assert_eq!(add(2, [7, 0], [0, 0]), refused(13, 0));
    assert_eq!(add(2, [0, 0], [6, 1]), refused(13, 0));
    // Inside at the very end, then not named, whatever the key.
    assert_eq!(add(2, [6, 0], [6, 0]), refused(14, 0));
    assert_eq!(add(0xFE, [3, 1], [0, 1]), refused(14, 0));
    assert_eq!(add(0x101, [0, 3], [0, 1]), refused(14, 0));
    // A key outside the alphabet, then one that is there, then no room.
    assert_eq!(add(1, [0, 4], [0, 0]), refused(7, 0));
    assert_eq!(add(1, [6, 0], [0, 0]), refused(7, 0));
    assert_eq!(add(1, [0, 3], [0, 0]), refused(8, 0));
    assert_eq!(add(1, [0, 2], [0, 0]), refused(12, 0));
    assert_eq!(out, [0xA5; 8]);

    // Outside VPD the key is no reason, wherever it lies.
    let anywhere = Field {
        code: 0x11,
        key_place: u64::MAX,
        key_len: u64::MAX,
        value_place: 0,
        value_len: 1,
    };
    let image = hex("56 02 06 10 07 A2");
    let mut out = [0xA5; 8];
    let made = crate::add(TINY, 1, &image, Some(anywhere), b"\x0F", &mut out);
    assert_eq!(made, Ok(8));
    assert_eq!(out, tiny(b"\x10\x07\x11\x0F")[..]);
    // 7 before 8, and 8 before 12.
    for (value, number) in [(&b""[..], 7), (b"\x00\x00", 7), (b"\x00", 8)] {
        assert_eq!(
            added(TINY, 1, &image, (0x10, b"", value), 0),
            refused(number, 0)
        );
    }
}

/// 16, 1, 2, the image's own, 13, 14, 11, 12.
#[test]
fn refusals_of_a_removal_in_order() {
    let long = [0x00; 65_537];
    let fboss = fboss(&[&required()[..], &[200, 0, 2, 1, b'A']].concat());
    for (format, edition, image, n, room, number, place) in [
        (0, 9, &long[..], 0, 65_537, 16, 0),
        (ONIE, 2, &long, 0, 65_537, 16, 0),
        (ONIE, 5, &long, 0, 65_537, 1, 0),
        (FBOSS, 5, &long, 0, 65_537, 1, 0),
        (FBOSS, 4, &long, 0, 0, 2, 0),
        (FBOSS, 4, b"", 0, 65_537, 2, 0),
        (FBOSS, 4, b"", 9, 0, 3, 0),
        (FBOSS, 4, &fboss[..24], 9, 0, 5, 24),
        (FBOSS, 4, &fboss, 7, 0, 13, 0),
        (FBOSS, 4, &fboss, 5, 0, 14, 19),
        (FBOSS, 4, &fboss, 4, 0, 11, 0),
        (FBOSS, 4, &fboss, 6, 0, 12, 0),
        (FBOSS, 4, &fboss, 6, 24, 12, 0),
    ] {
        let mut out = vec![0xA5; room];
        let result = remove(format, edition, image, n, &mut out);
        assert_eq!(result, refused(number, place), "{n} of {format}");
        assert!(out.iter().all(|&byte| byte == 0xA5));
    }
    assert_eq!(
        removed(FBOSS, 4, &fboss, 6, 25),
        Ok(super::fboss(&[&required()[..], &[200, 0]].concat()))
    );
}

/// The last one out leaves the image without entries.
#[test]
fn the_last_one_out() {
    removes(VPD, &EDITIONS, &SKU, 0, b"\x00");
    removes(VPD, &EDITIONS, b"\x01\x80\x01A\x80\x00\xFFx", 0, b"\x00");
    removes(VPD, &[2, 3, 4], b"\xFE\x00\x041234\xFF", 0, b"\x00");
    removes(TINY, &EDITIONS, &tiny(POOL), 0, &hex("56 02 04 6F"));
    let none = hex("54 6C 76 49 6E 66 6F 00 01 00 06 FE 04 D4 43 1C 18");
    removes(ONIE, &[3, 4], &onie::image(b"\x2D\x00"), 0, &none);
}

/// An older edition changes an image that a newer one refuses for what the older does not name.
#[test]
fn what_an_older_edition_does_not_name_is_not_judged() {
    let image = b"\xFE\x01A\x03\x01\x02\x03\xFE\x00\x00\x00";
    assert_eq!(check(VPD, 2, image), refused(7, 0));
    let made = b"\xFE\x01A\x03\x01\x02\x03\xFE\x00\x00\x01\x01k\x00\x00";
    adds(VPD, &[1], image, (1, b"k", b""), made);
    removes(VPD, &[1], made, 2, image);
    assert_eq!(added(VPD, 2, image, (1, b"k", b""), 99), refused(7, 0));
    assert_eq!(removed(VPD, 2, made, 2, 99), refused(7, 0));
}

/// Fewer than 20 bytes are no field, after the image's own refusals; bytes past 20 are not looked at.
#[test]
fn byte_form() {
    let field: Vec<u8> = [1_u32, 0, 3, 3, 2].map(u32::to_le_bytes).concat();
    let mut out = [0xA5; 12];
    let mut add = |edition, image: &[u8], field: &[u8]| {
        bytes::add(VPD, edition, image, field, b"revB7", &mut out)
    };
    for length in 0..20 {
        assert_eq!(add(1, b"\x00", &field[..length]), 13 << 59);
        assert_eq!(add(1, b"\x02", &field[..length]), 6 << 59);
        assert_eq!(add(9, b"\x00", &field[..length]), 1 << 59);
    }
    for more in 0..=20 {
        let field = [&field[..], &vec![0xFF; more]].concat();
        assert_eq!(add(1, b"\x00", &field), 9 << 32);
    }
    assert_eq!(out, *b"\x01\x03rev\x02B7\x00\xFF\xFF\xFF");
    // Places and lengths at their full width.
    let far: Vec<u8> = [1_u32, u32::MAX, u32::MAX, 0, 0]
        .map(u32::to_le_bytes)
        .concat();
    assert_eq!(
        bytes::add(VPD, 1, b"\x00", &far, b"revB7", &mut out),
        13 << 59
    );

    let mut out = [0xA5; 10];
    assert_eq!(bytes::remove(VPD, 1, &SKU, 1, &mut out), 13 << 59);
    assert_eq!(bytes::remove(VPD, 1, &SKU, 1 << 32, &mut out), 13 << 59);
    assert_eq!(out, [0xA5; 10]);
    assert_eq!(bytes::remove(VPD, 1, &SKU, 0, &mut out), 1 << 32);
    assert_eq!(out[0], 0x00);
    assert_eq!(out[1..], [0xFF; 9]);
    assert_eq!(bytes::remove(VPD, 1, &SKU, 0, &mut []), 12 << 59);
}
