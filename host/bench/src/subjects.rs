//! What is timed: images from one board's to the largest that there are, and rooms of boards.

use images::fboss;
use images::fields::List;
use images::generate::{kept, named};
use images::image::{Entry, Format, Image, LONGEST, ONIE_LONGEST};
use images::onie::EXTENSION;
use images::random::Random;
use images::room::{self, MOST};
use images::tiny;
use images::vendor::{self, Writing, PREFIX};
use images::vpd::{self, Rule};

/// One image with what the calls on it take.
pub struct Board {
    pub image: Vec<u8>,
    pub entries: usize,
    /// The middle entry, which is a named one, and another value of the same length for it.
    pub middle: u64,
    pub value: Vec<u8>,
    /// The fields of a write and their values. There are none where the image can't be written.
    pub fields: Vec<u8>,
    pub values: Vec<u8>,
    /// The image's length, its end included and no more.
    pub length: usize,
    /// The entry that a removal takes out: the first from the middle one on that can be added again.
    pub removed: u64,
    /// The image without it, and its length, its end included and no more.
    pub without: Vec<u8>,
    pub without_length: usize,
    /// The entry as a field to be added, and its values.
    pub field: Vec<u8>,
    pub field_values: Vec<u8>,
    /// The length of an amplifier's payload. It is 0 where the image is no amplifier's.
    pub payload: usize,
    /// What a vendor write is given. There are no pieces where none is timed.
    pub serial: Vec<u8>,
    pub offsets: u64,
    pub pieces: Vec<u8>,
}

/// One or more images of a format. One round of a call is that call on each of them.
pub struct Subject {
    pub name: &'static str,
    pub format: Format,
    pub boards: Vec<Board>,
}

impl Subject {
    /// The first edition that names everything that the format has names for.
    pub fn edition(&self) -> u32 {
        match self.format {
            Format::Fboss | Format::Vpd | Format::Tiny => 2,
            Format::Onie => 3,
        }
    }

    /// How many entries there are in all.
    pub fn entries(&self) -> usize {
        self.boards.iter().map(|board| board.entries).sum()
    }

    /// Whether there is a write to be timed.
    pub fn is_written(&self) -> bool {
        self.boards.iter().all(|board| !board.fields.is_empty())
    }

    /// Whether the images are an amplifier's, on which the vendor calls are timed.
    pub fn is_amplifier(&self) -> bool {
        self.boards.iter().all(|board| board.payload > 0)
    }

    /// Whether there is a vendor write to be timed.
    pub fn has_pieces(&self) -> bool {
        self.boards.iter().all(|board| !board.pieces.is_empty())
    }
}

pub fn all() -> Vec<Subject> {
    let mut random = Random::of_input(1, 0, 0);
    let tray = (0..1000).map(tiny_board).collect();
    let subject = |name, format, boards| Subject {
        name,
        format,
        boards,
    };
    vec![
        subject("000's example, 8,192 bytes", Format::Fboss, vec![example()]),
        subject("SKU image, 9 bytes", Format::Vpd, vec![sku()]),
        subject("tray of 1,000 Tiny boards", Format::Tiny, tray),
        subject("Tiny, 254 bytes", Format::Tiny, vec![full_tiny()]),
        subject(
            "FBOSS, 65,536 bytes",
            Format::Fboss,
            vec![full_fboss(&mut random, 255)],
        ),
        subject(
            "FBOSS, 65,536 bytes",
            Format::Fboss,
            vec![full_fboss(&mut random, 0)],
        ),
        subject(
            "VPD, 65,536 bytes",
            Format::Vpd,
            vec![full_vpd(&mut random, 650)],
        ),
        subject(
            "VPD, 65,536 bytes",
            Format::Vpd,
            vec![full_vpd(&mut random, 0)],
        ),
        subject(
            "VPD, 65,536 bytes",
            Format::Vpd,
            vec![most_keys(&mut random)],
        ),
        subject("ONIE, 300 bytes", Format::Onie, vec![switch()]),
        subject("ONIE, 2,059 bytes", Format::Onie, vec![full_onie()]),
        subject("amplifier, 178 bytes", Format::Onie, vec![amplifier()]),
        subject(
            "amplifier, 2,059 bytes",
            Format::Onie,
            vec![full_amplifier()],
        ),
    ]
}

/// An image with bytes after its end up to a length, and a write of its own entries.
fn board(format: Format, entries: Vec<Entry>, length: usize, value: Vec<u8>) -> Board {
    let mut list = List::default();
    for entry in &entries {
        list.add(entry.code.into(), &entry.key, &entry.value);
    }
    let count = entries.len();
    let middle = count / 2;
    let removed = (middle..count)
        .chain(0..middle)
        .find(|&n| can_be_added(format, &entries[n]))
        .expect("every image has an entry that can be removed and added");
    let mut left = entries.clone();
    let gone = left.remove(removed);
    let mut new = List::default();
    new.add(gone.code.into(), &gone.key, &gone.value);
    let [(image, own_length), (without, without_length)] = [entries, left].map(|entries| {
        let mut image = Image::new(format, entries).bytes();
        let own_length = image.len();
        image.resize(own_length.max(length), 0xFF);
        (image, own_length)
    });
    Board {
        image,
        entries: count,
        middle: middle as u64,
        value,
        fields: list.bytes(),
        values: list.values,
        length: own_length,
        removed: removed as u64,
        without,
        without_length,
        field: new.bytes(),
        field_values: new.values,
        payload: 0,
        serial: Vec::new(),
        offsets: 0,
        pieces: Vec::new(),
    }
}

/// Whether an entry can be removed and added again: it is named and not required, and a writer takes its key.
fn can_be_added(format: Format, entry: &Entry) -> bool {
    let in_alphabet = |byte: &u8| byte.is_ascii_alphanumeric() || *byte == b'_';
    let required = format == Format::Fboss && fboss::REQUIRED.contains(&entry.code);
    named(format, 3).contains(&entry.code) && !required && entry.key.iter().all(in_alphabet)
}

/// The entries of 000's example.
fn example_entries() -> Vec<Entry> {
    let values: [&[u8]; 20] = [
        b"FIRST_SQUEEZE",
        b"20123456",
        b"SYSA1234",
        b"PCBA1234567 ",
        b"PCB12345678 ",
        b"MYODM1234567",
        b"OS123456789AB",
        &[1],
        &[0],
        &[1],
        b"PS1234567890A",
        b"UNA_MAS",
        b"20130203",
        b"TERZO",
        b"JUICETORY",
        b"BUDOKAN",
        &[0x11, 0x22, 0x33, 0x44, 0x55, 0x66, 0x01, 0x02],
        &[0x12, 0x34, 0x56, 0x78, 0x9A, 0xBC, 0x03, 0x04],
        &[0x66, 0x55, 0x44, 0x33, 0x22, 0x11, 0x02, 0x00],
        &[0xFE, 0xDC, 0xBA, 0x98, 0x76, 0x54, 0x00, 0x02],
    ];
    (1..)
        .zip(values)
        .map(|(code, value)| Entry::new(code, value.to_vec()))
        .collect()
}

/// 000, Example.
fn example() -> Board {
    let value = b"PS0987654321Z".to_vec();
    board(Format::Fboss, example_entries(), 8192, value)
}

/// 01: the SKU image.
fn sku() -> Board {
    let entry = Entry::with_key(1, b"SKU".to_vec(), b"A7".to_vec());
    board(Format::Vpd, vec![entry], 0, b"B8".to_vec())
}

/// A board of a tray: its own serial number in the pool and its own address.
fn tiny_board(number: u32) -> Board {
    let [_, high, middle, low] = number.to_be_bytes();
    let mut pool = format!("SN{number:06}").into_bytes();
    *pool.last_mut().expect("the serial number has digits") |= 0x80;
    pool.extend(b"PN-4711-0\xB1");
    let entries = vec![
        Entry::new(0x10, vec![0]),
        Entry::new(0x11, vec![0x0F]),
        Entry::new(0x60, vec![0x02, 0x00, 0x5E, high, middle, low]),
        Entry::new(0x61, vec![0, 1, 2, 3, b'A', b'B']),
        Entry::new(0x80, vec![0, 1, 2, 3, b'A', b'B', 0x39, 0x05]),
        Entry::new(0x01, pool),
    ];
    board(Format::Tiny, entries, 0, vec![0, 1, 2, 4, b'C', b'D'])
}

/// A Tiny image with as many entries as there can be, of two bytes each, and the string number in the
/// middle. Its unnamed entries can't be written, so the write is of a tray board's entries.
fn full_tiny() -> Board {
    let mut entries = vec![Entry::new(0x02, vec![]); 124];
    entries.insert(62, Entry::new(0x10, vec![0]));
    let write = tiny_board(0);
    Board {
        fields: write.fields,
        values: write.values,
        ..board(Format::Tiny, entries, 0, vec![1])
    }
}

/// An FBOSS image of the longest size with values of about one length, the serial number in the middle and a
/// name after it, which can be removed. Its unnamed entries can't be written, so the write is of the twenty named fields, with
/// text of about that length.
fn full_fboss(random: &mut Random, value_length: usize) -> Board {
    // The serial number gets a byte, for which an entry of the longest size would have no room.
    let mut entries = fboss::filling(random, LONGEST - 1, value_length);
    let at = entries.iter().position(|entry| entry.code == 11);
    let mut serial = entries.remove(at.expect("the serial number is required"));
    serial.value = b"S".to_vec();
    let middle = entries.len().div_ceil(2);
    entries.insert(middle, serial);
    let at = (middle + 1..).find(|&n| !fboss::REQUIRED.contains(&entries[n].code));
    let name = &mut entries[at.expect("most entries are unnamed")];
    *name = Entry::new(12, vec![b'x'; name.value.len()]);
    let mut board = board(Format::Fboss, entries, LONGEST, b"T".to_vec());

    let mut list = List::default();
    for code in named(Format::Fboss, 2) {
        let value = match code {
            3..=5 | 8..=10 | 13 | 17..=20 => kept(random, Format::Fboss, code),
            _ => vec![b'x'; value_length],
        };
        list.add(code.into(), &[], &value);
    }
    board.fields = list.bytes();
    board.values = list.values;
    board
}

/// A VPD image of the longest size with distinct keys that a writer takes, and values of about one
/// length.
fn full_vpd(random: &mut Random, value_length: usize) -> Board {
    let entries = vpd::filling(random, Rule::Writer, LONGEST, value_length);
    let value = random.bytes(entries[entries.len() / 2].value.len());
    board(Format::Vpd, entries, LONGEST, value)
}

/// A VPD image of the longest size with as many distinct keys as there can be, in mixed order. No
/// writer takes them all, so there is no write.
fn most_keys(random: &mut Random) -> Board {
    let mut entries = vpd::filling(random, Rule::Reader, LONGEST, 0);
    random.shuffle(&mut entries);
    let value = random.bytes(entries[entries.len() / 2].value.len());
    Board {
        fields: Vec::new(),
        values: Vec::new(),
        ..board(Format::Vpd, entries, LONGEST, value)
    }
}

/// The ONIE image of a switch, with 003's vendor extension and another that brings it to 300 bytes.
/// Three of its entries, device version, platform name and ONIE version, are unnamed, so the write is
/// of the others.
fn switch() -> Board {
    let calibration = b"\x00\x00\x1F\x79\x00\x08DQ000MPW\x00\x09\x00\x00\x00\x00\x00\x00\x00\x00\x00\x02\x60\x51\x4B";
    let values: [(u8, &[u8]); 13] = [
        (0x21, b"Czechlight BiDi Amplifier"),
        (0x22, b"sdn-bidi-cplusl-1572-g2"),
        (0x23, b"0123456789"),
        (0x24, b"\x00\x11\x22\xAA\xBB\xCC"),
        (0x2A, b"\x00\x03"),
        (0x25, b"06/15/2023 12:34:56"),
        (0x28, b"arm-clearfog-r1"),
        (0x2B, b"Manufacturer"),
        (0x26, b"\x02"),
        (0x29, b"2019.05"),
        (0x2C, b"CZ"),
        (0x2D, b"CESNET"),
        (EXTENSION, calibration),
    ];
    let mut entries: Vec<Entry> = values
        .into_iter()
        .map(|(code, value)| Entry::new(code, value.to_vec()))
        .collect();
    let before = Image::new(Format::Onie, entries.clone()).bytes().len();
    entries.push(Entry::new(EXTENSION, vec![0xEE; 300 - before - 2]));

    let named = named(Format::Onie, 3);
    let mut list = List::default();
    for entry in entries.iter().filter(|entry| named.contains(&entry.code)) {
        list.add(entry.code.into(), &[], &entry.value);
    }
    Board {
        fields: list.bytes(),
        values: list.values,
        ..board(Format::Onie, entries, 0, b"Other makers".to_vec())
    }
}

/// An ONIE image of the longest size with as many entries as there can be, of two bytes each, and an
/// empty serial number in the middle, which the edit leaves empty. Its unnamed entries can't be
/// written, so the write is of as many vendor extensions as fit, 340, and an empty name.
fn full_onie() -> Board {
    let mut entries = vec![Entry::new(0x30, vec![]); 1_020];
    entries.insert(510, Entry::new(0x23, vec![]));
    let mut list = List::default();
    for _ in 0..340 {
        list.add(EXTENSION.into(), &[], b"\x00\x00\x1F\x79");
    }
    list.add(0x21, &[], &[]);
    Board {
        fields: list.bytes(),
        values: list.values,
        ..board(Format::Onie, entries, ONIE_LONGEST, Vec::new())
    }
}

/// The ONIE image of a dual-band amplifier with 003's serial, its payload in two pieces among the nine
/// other entries that 003 names, and a vendor write of the same.
fn amplifier() -> Board {
    let offsets = [24, -2, 0, 0, -128, 127, 5, -5];
    let payload = vendor::payload(b"DQ000MPW", &vendor::block(offsets));
    let lengths = [12, 12];
    let values: [(u8, &[u8]); 9] = [
        (0x21, b"Czechlight BiDi Amplifier"),
        (0x22, b"sdn-bidi-cplusl-1572-g2"),
        (0x23, b"0123456789"),
        (0x24, b"\x00\x11\x22\xAA\xBB\xCC"),
        (0x25, b"06/15/2023 12:34:56"),
        (0x2A, b"\x00\x03"),
        (0x2B, b"Manufacturer"),
        (0x2C, b"CZ"),
        (0x2D, b"CESNET"),
    ];
    let entries = values
        .into_iter()
        .map(|(code, value)| Entry::new(code, value.to_vec()))
        .chain(vendor::extensions(&payload, &lengths))
        .collect();
    let pieces = lengths.map(|length| length as u32).to_vec();
    let writing = Writing::new(b"DQ000MPW".to_vec(), offsets, pieces);
    Board {
        payload: payload.len(),
        pieces: writing.piece_bytes(),
        serial: writing.serial,
        offsets: writing.offsets,
        ..board(Format::Onie, entries, 0, Vec::new())
    }
}

/// An ONIE image of the longest size that is full of an amplifier's vendor extensions: the payload with
/// the longest serial in 240 pieces of one and two bytes, with 15 others between them.
fn full_amplifier() -> Board {
    let payload = vendor::payload(&[b'S'; 255], &vendor::block([-1; 8]));
    let lengths: Vec<usize> = (0..240).map(|n| if n < 31 { 2 } else { 1 }).collect();
    let mut entries = vendor::extensions(&payload, &lengths);
    let foreign = Entry::new(EXTENSION, PREFIX[..4].to_vec());
    for n in 1..15 {
        entries.insert(n * 17, foreign.clone());
    }
    entries.push(Entry::new(EXTENSION, b"\x00\x00\x1F\x79\x01".to_vec()));
    Board {
        payload: payload.len(),
        ..board(Format::Onie, entries, 0, Vec::new())
    }
}

/// A room file with what the calls on it take.
pub struct Room {
    pub name: &'static str,
    pub file: Vec<u8>,
    /// How many entries all bodies have together.
    pub entries: usize,
    /// The first edition that has all its formats.
    pub edition: u32,
    /// The board that is fetched, and the one that is replaced or removed.
    pub fetched: u32,
    pub removed: u32,
    /// A board that is not there, and the new body with its format.
    pub new: u32,
    pub format: u32,
    pub body: Vec<u8>,
    /// The lengths of the file with the new board, with the one replaced, and without it.
    pub with_new: usize,
    pub with_replaced: usize,
    pub without: usize,
}

impl Room {
    /// Whether no board more has room in it.
    pub fn is_full(&self) -> bool {
        self.with_new > LONGEST
    }
}

pub fn rooms() -> Vec<Room> {
    vec![room_of_100(), full_room()]
}

/// A room with what is fetched, and removed or replaced by the new body, both by their number in the list.
fn room(
    name: &'static str,
    edition: u32,
    boards: &[room::Board],
    entries: usize,
    (fetched, removed): (usize, usize),
    (format, body): (u32, Vec<u8>),
) -> Room {
    let file = room::file(boards);
    let old = boards[removed].body.len();
    Room {
        name,
        entries,
        edition,
        fetched: boards[fetched].number,
        removed: boards[removed].number,
        new: boards[removed].number + 1,
        with_new: file.len() + room::ROW + body.len(),
        with_replaced: file.len() - old + body.len(),
        without: file.len() - room::ROW - old,
        file,
        format,
        body,
    }
}

/// 100 boards of every format in turn, of 300 bytes each and of Tiny 250, and a switch as the new body.
fn room_of_100() -> Room {
    let mut random = Random::of_input(1, 0, 1);
    let mut fboss = example_entries();
    let before = Image::new(Format::Fboss, fboss.clone()).bytes().len();
    fboss.push(Entry::new(21, vec![0xEE; 300 - before - 2]));
    let switch = switch();
    let mut entries = 0;
    let boards: Vec<room::Board> = (0..100)
        .map(|n| {
            let (format, list) = match n % 4 {
                0 => (Format::Fboss, fboss.clone()),
                1 => (
                    Format::Vpd,
                    vpd::filling(&mut random, Rule::Writer, 300, 12),
                ),
                2 => (Format::Tiny, tiny::filling(&mut random, 5)),
                _ => {
                    entries += switch.entries;
                    return room::Board::new(1_000 + 7 * n, 4, &switch.image);
                }
            };
            entries += list.len();
            let body = Image::new(format, list).bytes();
            room::Board::new(1_000 + 7 * n, format.number() as u8, &body)
        })
        .collect();
    let new = (Format::Onie.number(), switch.image);
    room(
        "room of 100 boards, 29,558 bytes",
        3,
        &boards,
        entries,
        (50, 50),
        new,
    )
}

/// As many boards as there can be, VPD images of one byte, of which the last is fetched and the first removed.
fn full_room() -> Room {
    let boards: Vec<room::Board> = (0..MOST as u32)
        .map(|n| room::Board::new(9 * n, 2, &[0x00]))
        .collect();
    let new = (Format::Vpd.number(), vec![0x00]);
    room(
        "room of 7,280 boards, 65,528 bytes",
        2,
        &boards,
        0,
        (MOST - 1, 0),
        new,
    )
}
