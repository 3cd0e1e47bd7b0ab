//! The sixteen calls with their arguments, made on the library and on the second reader.

use crate::lent::Lent;

#[derive(Clone, Copy, PartialEq, Eq)]
pub enum Kind {
    Check,
    List,
    Entry,
    Value,
    String,
    Step,
    Write,
    Edit,
    VendorRead,
    VendorWrite,
    Add,
    Remove,
    RoomAdd,
    RoomReplace,
    RoomRemove,
    RoomFetch,
}

/// The calls' names, by kind.
pub const NAMES: [&str; 16] = [
    "check",
    "list",
    "entry",
    "value",
    "string",
    "step",
    "write",
    "edit",
    "vendor_read",
    "vendor_write",
    "add",
    "remove",
    "room_add",
    "room_replace",
    "room_remove",
    "room_fetch",
];

/// One call. What its kind does not take stands at nothing.
#[derive(Clone, Copy)]
pub struct Call<'a> {
    pub kind: Kind,
    /// A step has its format and edition in the walk. Of a room call it is the new body's format.
    pub format: u32,
    pub edition: u32,
    /// The form that a room call is told, and the number of its board.
    pub form: u32,
    pub board: u32,
    /// The entry's number, or the string's, or the offsets of a vendor write.
    pub n: u64,
    /// The parts that are only read: the image, then the new value of an edit, or the field and the
    /// values of an add. Of a write, the fields, then the values. Of a vendor write, the serial, then
    /// the pieces. Of a room call, the file, then the new body.
    pub read: [&'a [u8]; 3],
    /// The walk of a step, which is read and written.
    pub walk: &'a [u8],
    /// The length in bytes of the records, the record, the output or the payload.
    pub room: usize,
    /// The length in bytes of the block of a vendor read.
    pub block: usize,
}

impl<'a> Call<'a> {
    /// The check of an image, from which the other calls on it are made.
    pub fn check(format: u32, edition: u32, image: &'a [u8]) -> Call<'a> {
        Call {
            kind: Kind::Check,
            format,
            edition,
            form: 0,
            board: 0,
            n: 0,
            read: [image, &[], &[]],
            walk: &[],
            room: 0,
            block: 0,
        }
    }

    pub fn list(self, room: usize) -> Call<'a> {
        let kind = Kind::List;
        Call { kind, room, ..self }
    }

    pub fn entry(self, n: u64, room: usize) -> Call<'a> {
        let kind = Kind::Entry;
        Call {
            kind,
            n,
            room,
            ..self
        }
    }

    pub fn value(self, n: u64) -> Call<'a> {
        let kind = Kind::Value;
        Call { kind, n, ..self }
    }

    pub fn string(self, n: u64) -> Call<'a> {
        let kind = Kind::String;
        Call { kind, n, ..self }
    }

    pub fn step(self, walk: &'a [u8], room: usize) -> Call<'a> {
        let kind = Kind::Step;
        Call {
            kind,
            walk,
            room,
            ..self
        }
    }

    pub fn edit(self, n: u64, value: &'a [u8], room: usize) -> Call<'a> {
        Call {
            kind: Kind::Edit,
            n,
            read: [self.read[0], value, &[]],
            room,
            ..self
        }
    }

    pub fn add(self, field: &'a [u8], values: &'a [u8], room: usize) -> Call<'a> {
        Call {
            kind: Kind::Add,
            read: [self.read[0], field, values],
            room,
            ..self
        }
    }

    pub fn remove(self, n: u64, room: usize) -> Call<'a> {
        let kind = Kind::Remove;
        Call {
            kind,
            n,
            room,
            ..self
        }
    }

    pub fn write(
        format: u32,
        edition: u32,
        fields: &'a [u8],
        values: &'a [u8],
        room: usize,
    ) -> Call<'a> {
        Call {
            kind: Kind::Write,
            read: [fields, values, &[]],
            room,
            ..Call::check(format, edition, &[])
        }
    }

    pub fn vendor_read(self, room: usize, block: usize) -> Call<'a> {
        let kind = Kind::VendorRead;
        Call {
            kind,
            room,
            block,
            ..self
        }
    }

    pub fn vendor_write(
        format: u32,
        edition: u32,
        serial: &'a [u8],
        offsets: u64,
        pieces: &'a [u8],
        room: usize,
    ) -> Call<'a> {
        Call {
            kind: Kind::VendorWrite,
            n: offsets,
            read: [serial, pieces, &[]],
            room,
            ..Call::check(format, edition, &[])
        }
    }

    /// The fetch of a board from a room file, from which the other calls on it are made.
    pub fn fetch(form: u32, edition: u32, file: &'a [u8], board: u32) -> Call<'a> {
        Call {
            kind: Kind::RoomFetch,
            form,
            board,
            ..Call::check(0, edition, file)
        }
    }

    pub fn add_board(self, format: u32, body: &'a [u8], room: usize) -> Call<'a> {
        Call {
            kind: Kind::RoomAdd,
            format,
            read: [self.read[0], body, &[]],
            room,
            ..self
        }
    }

    pub fn replace_board(self, format: u32, body: &'a [u8], room: usize) -> Call<'a> {
        let kind = Kind::RoomReplace;
        Call {
            kind,
            ..self.add_board(format, body, room)
        }
    }

    pub fn remove_board(self, room: usize) -> Call<'a> {
        let kind = Kind::RoomRemove;
        Call { kind, room, ..self }
    }

    /// Whether this is a call on a room file.
    pub fn is_of_room(&self) -> bool {
        use Kind::{RoomAdd, RoomFetch, RoomRemove, RoomReplace};
        matches!(self.kind, RoomAdd | RoomReplace | RoomRemove | RoomFetch)
    }

    pub fn name(&self) -> &'static str {
        NAMES[self.kind as usize]
    }

    /// The numbers that the call takes, by name.
    pub fn numbers(&self) -> Vec<(&'static str, String)> {
        let mut numbers = Vec::new();
        if self.is_of_room() {
            numbers.push(("form", self.form.to_string()));
        } else if self.kind != Kind::Step {
            numbers.push(("format", self.format.to_string()));
        }
        if self.kind != Kind::Step {
            numbers.push(("edition", self.edition.to_string()));
        }
        if self.is_of_room() {
            numbers.push(("board", format!("{:#010X}", self.board)));
        }
        match self.kind {
            Kind::Entry | Kind::Value | Kind::Edit | Kind::Remove => {
                numbers.push(("n", self.n.to_string()))
            }
            Kind::String => numbers.push(("number", self.n.to_string())),
            Kind::VendorWrite => numbers.push(("offsets", format!("{:#018X}", self.n))),
            Kind::RoomAdd | Kind::RoomReplace => numbers.push(("format", self.format.to_string())),
            _ => {}
        }
        numbers
    }

    /// The names of the parts that are only read, in their order.
    pub fn read_names(&self) -> &'static [&'static str] {
        match self.kind {
            Kind::Write => &["fields", "values"],
            Kind::Edit => &["image", "value"],
            Kind::Add => &["image", "field", "values"],
            Kind::VendorWrite => &["serial", "pieces"],
            Kind::RoomAdd | Kind::RoomReplace => &["file", "body"],
            Kind::RoomRemove | Kind::RoomFetch => &["file"],
            _ => &["image"],
        }
    }

    /// The name of the part that the room is for, where the call takes one.
    pub fn room_name(&self) -> Option<&'static str> {
        match self.kind {
            Kind::Check | Kind::Value | Kind::String | Kind::RoomFetch => None,
            Kind::List => Some("records"),
            Kind::Entry | Kind::Step => Some("record"),
            Kind::Write | Kind::Edit | Kind::VendorWrite | Kind::Add | Kind::Remove => Some("out"),
            Kind::RoomAdd | Kind::RoomReplace | Kind::RoomRemove => Some("out"),
            Kind::VendorRead => Some("payload"),
        }
    }

    /// The name of the part that is written beside the room, where the call takes one: the walk of a
    /// step, which is also read, or the block of a vendor read.
    pub fn beside_name(&self) -> Option<&'static str> {
        match self.kind {
            Kind::Step => Some("walk"),
            Kind::VendorRead => Some("block"),
            _ => None,
        }
    }

    /// The second reader's answer. `room` and `beside` are its copies of what the call may write.
    pub fn on_second(&self, room: &mut [u8], beside: &mut [u8]) -> u64 {
        use second::bytes;
        let (f, e, [first, other, third]) = (self.format, self.edition, self.read);
        let (form, board) = (self.form, self.board);
        match self.kind {
            Kind::Check => bytes::check(f, e, first),
            Kind::List => bytes::list(f, e, first, room),
            Kind::Entry => bytes::entry(f, e, first, self.n, room),
            Kind::Value => bytes::value(f, e, first, self.n),
            Kind::String => bytes::string(f, e, first, self.n),
            Kind::Step => bytes::step(beside, first, room),
            Kind::Write => bytes::write(f, e, first, other, room),
            Kind::Edit => bytes::edit(f, e, first, self.n, other, room),
            Kind::VendorRead => bytes::vendor_read(f, e, first, room, beside),
            Kind::VendorWrite => bytes::vendor_write(f, e, first, self.n, other, room),
            Kind::Add => bytes::add(f, e, first, other, third, room),
            Kind::Remove => bytes::remove(f, e, first, self.n, room),
            Kind::RoomAdd => bytes::room_add(form, e, first, board, f, other, room),
            Kind::RoomReplace => bytes::room_replace(form, e, first, board, f, other, room),
            Kind::RoomRemove => bytes::room_remove(form, e, first, board, room),
            Kind::RoomFetch => bytes::room_fetch(form, e, first, board),
        }
    }

    /// The library's answer. `read`, `room` and `beside` are its copies of what it is lent.
    pub fn on_library(&self, read: &[Lent; 3], room: &mut Lent, beside: &mut Lent) -> u64 {
        use exports::*;
        let (f, e, n) = (self.format, self.edition, self.n);
        let (form, board) = (self.form, self.board);
        let (first, first_len) = (read[0].pointer(), read[0].len());
        let (other, other_len) = (read[1].pointer(), read[1].len());
        let (third, third_len) = (read[2].pointer(), read[2].len());
        let (beside, beside_len) = (beside.written_pointer(), beside.len());
        let (out, out_len) = (room.written_pointer(), room.len());
        // Each pointer and its length come from one block, and no two parts share a block.
        unsafe {
            match self.kind {
                Kind::Check => boardid_check(f, e, first, first_len),
                Kind::List => boardid_list(f, e, first, first_len, out, out_len),
                Kind::Entry => boardid_entry(f, e, first, first_len, n, out, out_len),
                Kind::Value => boardid_value(f, e, first, first_len, n),
                Kind::String => boardid_string(f, e, first, first_len, n),
                Kind::Step => boardid_step(beside, beside_len, first, first_len, out, out_len),
                Kind::Write => {
                    boardid_write(f, e, first, first_len, other, other_len, out, out_len)
                }
                Kind::Edit => {
                    boardid_edit(f, e, first, first_len, n, other, other_len, out, out_len)
                }
                Kind::VendorRead => {
                    boardid_vendor_read(f, e, first, first_len, out, out_len, beside, beside_len)
                }
                Kind::VendorWrite => {
                    boardid_vendor_write(f, e, first, first_len, n, other, other_len, out, out_len)
                }
                Kind::Add => boardid_add(
                    f, e, first, first_len, other, other_len, third, third_len, out, out_len,
                ),
                Kind::Remove => boardid_remove(f, e, first, first_len, n, out, out_len),
                Kind::RoomAdd => boardid_room_add(
                    form, e, first, first_len, board, f, other, other_len, out, out_len,
                ),
                Kind::RoomReplace => boardid_room_replace(
                    form, e, first, first_len, board, f, other, other_len, out, out_len,
                ),
                Kind::RoomRemove => {
                    boardid_room_remove(form, e, first, first_len, board, out, out_len)
                }
                Kind::RoomFetch => boardid_room_fetch(form, e, first, first_len, board),
            }
        }
    }
}

/// The bytes of a walk.
pub fn walk_bytes(format: u32, edition: u32, entry: u64) -> [u8; 16] {
    let mut bytes = [0; 16];
    bytes[..4].copy_from_slice(&format.to_le_bytes());
    bytes[4..8].copy_from_slice(&edition.to_le_bytes());
    bytes[8..].copy_from_slice(&entry.to_le_bytes());
    bytes
}

/// The bytes of the block that a vendor read gives of a payload with a serial of this length.
pub fn block_bytes(serial: usize, offsets: [i8; 8]) -> Vec<u8> {
    let serial = serial as i32;
    let parts = [1, serial, 3 + serial, 9];
    let words = parts.into_iter().chain(offsets.map(i32::from));
    words.flat_map(i32::to_le_bytes).collect()
}

/// The number of an answer's refusal, or 0.
pub fn refusal(answer: u64) -> usize {
    (answer >> 59) as usize
}

/// The count or the length in an answer that is no refusal.
pub fn count(answer: u64) -> usize {
    (answer >> 32 & 0x7FF_FFFF) as usize
}

/// An answer in words.
pub fn told(answer: u64) -> String {
    match refusal(answer) {
        0 => format!(
            "{answer:016X}: count {}, place {}",
            count(answer),
            answer & 0xFFFF_FFFF
        ),
        number => format!("{answer:016X}: refused {number} at {}", answer << 5 >> 5),
    }
}
