//! One call on the library and on the second reader, and the comparison of all that they leave.

use std::collections::BTreeMap;

use crate::call::{count, refusal, told, walk_bytes, Call, Kind, NAMES};
use crate::changes;
use crate::crash::{self, Input};
use crate::frames;
use crate::lent::{filled, Layout, Lent};
use crate::rooms;

/// How long a record is, in bytes.
pub const RECORD: usize = 64;

/// The length in bytes of the block of a vendor read.
pub const BLOCK: usize = 48;

/// The newest edition.
const NEWEST: u32 = 4;

/// The format that the first editions do not have.
const ONIE: u32 = 4;

/// A part with more bytes than this is not shown in full.
const SHOWN: usize = 1 << 20;

/// The highest number that a call can give back.
const HIGHEST: usize = 23;

/// The numbers that each call can give back (01, Numbers given back; 02), in the order of `NAMES`.
const CAN_GIVE: [&[usize]; NAMES.len()] = [
    &[1, 2, 3, 4, 5, 6, 7, 8, 9, 10, 11, 16],
    &[1, 2, 3, 4, 5, 6, 7, 8, 9, 10, 11, 12, 16],
    &[1, 2, 3, 4, 5, 6, 7, 8, 9, 10, 11, 12, 13, 16],
    &[1, 2, 3, 4, 5, 6, 7, 8, 9, 10, 11, 13, 16],
    &[1, 2, 3, 4, 5, 6, 7, 8, 9, 10, 15, 16],
    &[1, 2, 3, 4, 5, 6, 7, 8, 9, 10, 11, 12, 13, 16],
    &[1, 2, 7, 8, 9, 11, 12, 13, 14, 16],
    &[1, 2, 3, 4, 5, 6, 7, 8, 9, 10, 11, 12, 13, 14, 16],
    &[1, 2, 3, 4, 5, 6, 7, 8, 10, 12, 16, 17, 18, 19, 20],
    &[1, 2, 12, 16, 18],
    &[1, 2, 3, 4, 5, 6, 7, 8, 9, 10, 11, 12, 13, 14, 16],
    &[1, 2, 3, 4, 5, 6, 7, 8, 9, 10, 11, 12, 13, 14, 16],
    &[1, 2, 3, 4, 5, 6, 7, 8, 9, 10, 11, 12, 16, 21, 23],
    &[1, 2, 3, 4, 5, 6, 7, 8, 9, 10, 11, 12, 16, 21, 22],
    &[1, 2, 3, 4, 5, 6, 7, 8, 9, 10, 11, 12, 16, 21, 22],
    &[1, 2, 3, 4, 5, 6, 7, 8, 9, 10, 11, 16, 21, 22],
];

/// The readings of a record, by number.
const READINGS: [&str; 10] = [
    "plain",
    "text",
    "number",
    "addresses",
    "string number",
    "test flags",
    "identity",
    "identity with batch",
    "date",
    "date with time",
];

/// What was compared, in numbers.
#[derive(Clone, Default)]
pub struct Tally {
    pub inputs: u64,
    pub differences: u64,
    /// Differences by call, by the number that the library gave back and by the second reader's.
    differing: BTreeMap<(usize, usize, usize), u64>,
    /// Calls by kind and by the number given back, 0 where nothing was refused.
    pub answers: [[u64; HIGHEST + 1]; NAMES.len()],
    /// Records given, by reading.
    pub readings: [u64; READINGS.len()],
    /// Records given with kind 0.
    pub unnamed: u64,
}

impl Tally {
    pub fn add(&mut self, other: &Tally) {
        self.inputs += other.inputs;
        self.differences += other.differences;
        self.unnamed += other.unnamed;
        for (&class, count) in &other.differing {
            *self.differing.entry(class).or_default() += count;
        }
        for (sum, row) in self.answers.iter_mut().zip(&other.answers) {
            for (sum, count) in sum.iter_mut().zip(row) {
                *sum += count;
            }
        }
        for (sum, count) in self.readings.iter_mut().zip(&other.readings) {
            *sum += count;
        }
    }

    pub fn calls(&self) -> u64 {
        self.answers.iter().flatten().sum()
    }

    /// The counts as a table: a row for each call, a column for each number given back.
    pub fn table(&self) -> String {
        let mut table = format!("{:<13}{:>10}", "call", "given");
        for number in 1..=HIGHEST {
            table += &format!("{number:>8}");
        }
        for (name, row) in NAMES.iter().zip(&self.answers) {
            table += &format!("\n{name:<13}{:>10}", row[0]);
            for count in &row[1..] {
                let shown = match count {
                    0 => "-".to_string(),
                    _ => count.to_string(),
                };
                table += &format!("{shown:>8}");
            }
        }
        table
    }

    /// The numbers that a call can give back and never did, nothing refused being one.
    pub fn never_given(&self) -> Vec<String> {
        let calls = NAMES.iter().zip(CAN_GIVE).zip(&self.answers);
        calls
            .flat_map(|((name, numbers), row)| {
                let numbers = [0].iter().chain(numbers);
                numbers
                    .filter(|&&number| row[number] == 0)
                    .map(move |number| format!("{name} {number}"))
            })
            .collect()
    }

    /// The differences: a line for each call and for what library and second reader gave.
    pub fn classes(&self) -> String {
        let shown = |number| match number {
            0 => "given".to_string(),
            _ => format!("{number}"),
        };
        let lines = self
            .differing
            .iter()
            .map(|(&(call, library, second), count)| {
                let [library, second] = [library, second].map(shown);
                let name = NAMES[call];
                format!("\n  {name:<13}library {library:<6} second reader {second:<6} {count:>9}")
            });
        format!("differences by call:{}", lines.collect::<String>())
    }

    /// The records that were compared, by reading.
    pub fn records(&self) -> String {
        let readings: Vec<String> = READINGS
            .iter()
            .zip(self.readings)
            .map(|(name, count)| format!("{name} {count}"))
            .collect();
        format!("records: {}; kind 0: {}", readings.join(", "), self.unnamed)
    }
}

/// What the second reader left.
struct Left {
    answer: u64,
    room: Written,
    /// The walk of a step, or the block of a vendor read.
    beside: Written,
}

/// A part that is lent to be written, before a call and after it.
struct Written {
    before: Vec<u8>,
    after: Vec<u8>,
}

impl Written {
    /// Whether a call put these bytes at the front and left all others as they were.
    fn has_front(&self, front: &[u8]) -> bool {
        self.after.starts_with(front) && self.after[front.len()..] == self.before[front.len()..]
    }
}

/// Compares calls, counts them, and keeps the first difference.
pub struct Comparison {
    layout: Layout,
    salt: u64,
    input: Input,
    pub tally: Tally,
    /// The first difference, with the number of inputs up to it.
    pub difference: Option<(u64, String)>,
}

impl Comparison {
    pub fn new(layout: Layout) -> Comparison {
        Comparison {
            layout,
            salt: 0,
            input: Input::Case {
                group: 0,
                number: 0,
            },
            tally: Tally::default(),
            difference: None,
        }
    }

    /// Starts the next input. How its parts are lent depends on this input alone.
    pub fn next_input(&mut self, input: Input) {
        crash::now_at(input);
        let (Input::Case { number, .. } | Input::Generated { number, .. } | Input::Room { number }) =
            input;
        self.salt = number;
        self.input = input;
        self.tally.inputs += 1;
    }

    /// Starts a group of fixed cases.
    pub fn start_group(&mut self, group: usize) {
        self.input = Input::Case { group, number: 0 };
    }

    /// Starts the next fixed case of the group.
    pub fn next_case(&mut self) {
        if let Input::Case { group, number } = self.input {
            let number = number + 1;
            self.next_input(Input::Case { group, number });
        }
    }

    fn salt(&mut self) -> u8 {
        self.salt = self
            .salt
            .wrapping_mul(0x5851_F42D_4C95_7F2D)
            .wrapping_add(0x1405_7B7E_F767_814F);
        (self.salt >> 56) as u8
    }

    /// Makes a call on both, compares, and gives the second reader's answer and what it wrote.
    pub fn call(&mut self, call: &Call) -> (u64, Vec<u8>) {
        let left = self.compared(call);
        (left.answer, left.room.after)
    }

    fn compared(&mut self, call: &Call) -> Left {
        let before = filled(self.salt(), call.room);
        let before_beside = match call.kind {
            Kind::VendorRead => filled(self.salt(), call.block),
            _ => call.walk.to_vec(),
        };
        let mut room = before.clone();
        let mut beside = before_beside.clone();
        let answer = call.on_second(&mut room, &mut beside);

        let layout = self.layout;
        let mut lend = |bytes: &[u8], name: Option<&str>| match name {
            Some(_) => Lent::copy_of(bytes, layout, self.salt()),
            None => Lent::none(),
        };
        let names = call.read_names();
        let read = [0, 1, 2].map(|part| lend(call.read[part], names.get(part).copied()));
        let mut lent_room = lend(&before, call.room_name());
        let mut lent_beside = lend(&before_beside, call.beside_name());
        let from_library = call.on_library(&read, &mut lent_room, &mut lent_beside);

        let mut wrong = Vec::new();
        if from_library != answer {
            wrong.push("the answers differ".to_string());
        }
        let mut same = |name: &str, lent: &Lent, expected: &[u8]| {
            if let Some(place) = lent.broken_guard() {
                wrong.push(format!(
                    "the library wrote outside {name}, at its byte {place}"
                ));
            }
            let bytes = lent.bytes();
            if bytes != expected {
                let place = (0..expected.len()).find(|&place| bytes[place] != expected[place]);
                let place = place.unwrap_or(0);
                wrong.push(format!(
                    "byte {place} of {name} is {:02X} from the library and {:02X} from the second reader",
                    bytes[place], expected[place]
                ));
            }
        };
        for (name, (lent, bytes)) in call.read_names().iter().zip(read.iter().zip(call.read)) {
            same(name, lent, bytes);
        }
        same(call.room_name().unwrap_or("nothing"), &lent_room, &room);
        same(
            call.beside_name().unwrap_or("nothing"),
            &lent_beside,
            &beside,
        );

        let unchanged = lent_room.bytes() == before && lent_beside.bytes() == before_beside;
        if refusal(from_library) != 0 && !unchanged {
            wrong.push("a refused call changed what it was lent".to_string());
        }
        let by_bytes = wrong_frames(call, from_library, lent_room.bytes())
            .or_else(|| changes::wrong(call, from_library, lent_room.bytes()));
        if let Some(what) = by_bytes {
            wrong.push(format!("by the image's bytes: {what}"));
        }
        if let Some(what) = rooms::wrong(call, from_library, &before, lent_room.bytes()) {
            wrong.push(format!("by the file's bytes: {what}"));
        }

        if !wrong.is_empty() {
            let wrong = wrong.join("\n  ");
            self.differs(call, &wrong, from_library, answer);
        }
        self.count(call, answer, &room);
        self.frames_of_output(call, from_library, lent_room.bytes());
        Left {
            answer,
            room: Written {
                before,
                after: room,
            },
            beside: Written {
                before: before_beside,
                after: beside,
            },
        }
    }

    /// Lists what a call of the library made, as the newest edition: the whole output, and its part up to the
    /// length given. What an older edition made may be an image that the newest refuses.
    fn frames_of_output(&mut self, call: &Call, answer: u64, out: &[u8]) {
        let makes_image = matches!(
            call.kind,
            Kind::Write | Kind::Edit | Kind::Add | Kind::Remove
        );
        if refusal(answer) != 0 || !makes_image {
            return;
        }
        let mut images = vec![out];
        images.extend(
            out.get(..count(answer))
                .filter(|part| part.len() < out.len()),
        );
        for image in images {
            if let Ok(entries) = second::check(call.format, NEWEST, image) {
                let check = Call::check(call.format, NEWEST, image);
                self.compared(&check.list(entries * RECORD));
            }
        }
    }

    /// Makes a call whose answer is known from a document, and what it writes where that is given.
    ///
    /// Edition 4 names what edition 3 names, so a case of ONIE in edition 3 is one in edition 4 too, where
    /// a record has the length of the frame besides.
    pub fn case(&mut self, what: &str, call: &Call, answer: u64, written: Option<&[u8]>) {
        self.case_in_one(what, call, answer, written);
        let (format, edition) = format_and_edition(call);
        if (format, edition) != (ONIE, 3) {
            return;
        }
        let mut written = written.map(<[u8]>::to_vec);
        if let (Some(records), Kind::List | Kind::Entry | Kind::Step) = (&mut written, call.kind) {
            frames::put_lengths(format, call.read[0], records);
        }
        let mut walk = call.walk.to_vec();
        if call.kind == Kind::Step {
            frames::put_word(&mut walk, 1, NEWEST);
        }
        let newest = Call {
            edition: NEWEST,
            walk: &walk,
            ..*call
        };
        self.case_in_one(what, &newest, answer, written.as_deref());
    }

    fn case_in_one(&mut self, what: &str, call: &Call, answer: u64, written: Option<&[u8]>) {
        let (given, room) = self.call(call);
        let told_otherwise = given != answer || written.is_some_and(|written| room != written);
        if told_otherwise {
            let mut wrong = format!("the case '{what}' has {}", told(answer));
            if let Some(written) = written {
                wrong += &format!(", and writes {}\n  not {}", hex(written), hex(&room));
            }
            self.differs(call, &wrong, given, given);
        }
    }

    /// Says that a call's result is not what a document has of it.
    pub fn wrong(&mut self, call: &Call, what: &str, answer: u64) {
        self.differs(call, what, answer, answer);
    }

    /// Makes a vendor call whose answer is known from a document, and what it puts at the front of what
    /// it is lent: of a read the payload and the block, of a write the values. Bytes past them stay.
    /// A case of edition 3 is one of edition 4 too.
    pub fn vendor_case(&mut self, what: &str, call: &Call, answer: u64, written: [&[u8]; 2]) {
        self.front_case(what, call, answer, written);
        if (call.format, call.edition) == (ONIE, 3) {
            let edition = NEWEST;
            let newest = Call { edition, ..*call };
            self.front_case(what, &newest, answer, written);
        }
    }

    /// Makes a room call whose answer is known from a document, and the file that it puts at the front of
    /// its output. Bytes past it stay.
    pub fn room_case(&mut self, what: &str, call: &Call, answer: u64, file: &[u8]) {
        self.front_case(what, call, answer, [file, &[]]);
    }

    fn front_case(&mut self, what: &str, call: &Call, answer: u64, written: [&[u8]; 2]) {
        let left = self.compared(call);
        let parts = [&left.room, &left.beside].into_iter().zip(written);
        let as_written = parts.clone().all(|(part, front)| part.has_front(front));
        if left.answer != answer || !as_written {
            let mut wrong = format!("the case '{what}' has {}", told(answer));
            for (part, front) in parts {
                let front = hex(front);
                wrong += &format!("\n  and writes {front}\n  not {}", hex(&part.after));
            }
            self.differs(call, &wrong, left.answer, left.answer);
        }
    }

    /// Lists an image whose frames are known, by their lengths from the header on, and gives each entry and
    /// takes each step.
    pub fn frames_case(&mut self, what: &str, check: &Call, lengths: &[usize]) {
        let mut place = frames::header(check.format);
        let frames: Vec<[u32; 2]> = lengths
            .iter()
            .map(|&length| {
                let first = place;
                place += length;
                let shown = if check.edition < frames::SINCE {
                    0
                } else {
                    length
                };
                [first as u32, shown as u32]
            })
            .collect();
        let walks: Vec<_> = (0..frames.len() as u64)
            .map(|n| walk_bytes(check.format, check.edition, n))
            .collect();
        let mut calls = vec![(check.list(frames.len() * RECORD), &frames[..])];
        for ((n, walk), frame) in (0..).zip(&walks).zip(frames.chunks(1)) {
            calls.push((check.entry(n, RECORD), frame));
            calls.push((check.step(walk, RECORD), frame));
        }
        for (call, frames) in calls {
            let (answer, room) = self.call(&call);
            let records = room.chunks_exact(RECORD);
            let given: Vec<_> = records
                .map(|record| [2, 7].map(|number| frames::word(record, number)))
                .collect();
            if answer != (frames.len() as u64) << 32 || given != frames {
                let wrong = format!(
                    "the case '{what}' has frames (place, word 7) {frames:?}\n  not {given:?}"
                );
                self.differs(&call, &wrong, answer, answer);
            }
        }
        if frames::end(check.format, check.read[0]) != Some(place) {
            self.differs(check, &format!("the case '{what}' ends at {place}"), 0, 0);
        }
    }

    fn count(&mut self, call: &Call, answer: u64, room: &[u8]) {
        let number = refusal(answer).min(HIGHEST);
        self.tally.answers[call.kind as usize][number] += 1;
        if number == 0 && matches!(call.kind, Kind::List | Kind::Entry | Kind::Step) {
            for record in room.chunks_exact(RECORD).take(count(answer)) {
                self.tally.readings[usize::from(record[32]) % READINGS.len()] += 1;
                self.tally.unnamed += u64::from(record[4..8] == [0; 4]);
            }
        }
    }

    fn differs(&mut self, call: &Call, wrong: &str, library: u64, second: u64) {
        self.tally.differences += 1;
        let class = (call.kind as usize, refusal(library), refusal(second));
        *self.tally.differing.entry(class).or_default() += 1;
        if self.difference.is_some() {
            return;
        }
        let mut text = format!("  {}\n  boardid_{}\n", self.input, call.name());
        for (name, number) in call.numbers() {
            text += &format!("  {name}: {number}\n");
        }
        let mut part = |name: &str, bytes: &[u8]| {
            // Of millions of bytes the first are enough.
            let shown = match bytes.len() {
                0..=SHOWN => hex(bytes),
                _ => hex(&bytes[..64]) + " ..",
            };
            text += &format!("  {name}, {} bytes: {shown}\n", bytes.len());
        };
        if call.kind == Kind::Step {
            part("walk", call.walk);
        }
        for (name, bytes) in call.read_names().iter().zip(call.read) {
            part(name, bytes);
        }
        if let Some(name) = call.room_name() {
            text += &format!("  {name}: {} bytes lent\n", call.room);
        }
        if call.kind == Kind::VendorRead {
            text += &format!("  block: {} bytes lent\n", call.block);
        }
        text += &format!("  {wrong}\n");
        text += &format!("  library        {}\n", told(library));
        text += &format!("  second reader  {}", told(second));
        self.difference = Some((self.tally.inputs, text));
    }
}

/// The format and the edition of a call. Those of a step are in the walk, where it is whole.
fn format_and_edition(call: &Call) -> (u32, u32) {
    match (call.kind, call.walk.get(..16)) {
        (Kind::Step, Some(walk)) => (frames::word(walk, 0), frames::word(walk, 1)),
        (Kind::Step, None) => (0, 0),
        _ => (call.format, call.edition),
    }
}

/// What is wrong with the frames of the records that the library gave, by the image's bytes alone.
fn wrong_frames(call: &Call, answer: u64, room: &[u8]) -> Option<String> {
    if refusal(answer) != 0 {
        return None;
    }
    let (format, edition) = format_and_edition(call);
    let image = call.read[0];
    let mut records = room.chunks_exact(RECORD).take(count(answer));
    match call.kind {
        Kind::List => frames::wrong_list(format, edition, image, records),
        Kind::Entry | Kind::Step => {
            records.find_map(|record| frames::wrong_record(format, edition, image, record))
        }
        _ => None,
    }
}

pub fn hex(bytes: &[u8]) -> String {
    let pairs: Vec<String> = bytes.iter().map(|byte| format!("{byte:02X}")).collect();
    pairs.join(" ")
}
