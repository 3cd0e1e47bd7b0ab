//! The numbers given back by refused calls.

/// Why a call is refused, and where.
///
/// The place counts bytes of the image or of the room file, or, in a write, fields of the list.
#[derive(Clone, Copy, Debug, PartialEq, Eq)]
pub struct Refusal {
    pub number: u32,
    pub place: u64,
}

/// The table of refusals, by number.
#[derive(Clone, Copy, Debug, PartialEq, Eq)]
#[repr(u32)]
pub(crate) enum Reason {
    /// The edition is not 1 to 4.
    Edition = 1,
    /// The image, the room file, the output or the buffer for a payload is longer than 65,536 bytes.
    TooLong = 2,
    /// The image is shorter than the header, or a fixed header byte is wrong.
    Header = 3,
    /// The version byte is another.
    Version = 4,
    /// A Tiny or ONIE length is bad, or an entry or the end of the entries runs past the room.
    PastRoom = 5,
    /// A forbidden code or length byte.
    Forbidden = 6,
    /// A named entry breaks its rule.
    Rule = 7,
    /// A named code comes a second time, or a VPD key does.
    Twice = 8,
    /// An entry after the pool.
    AfterPool = 9,
    /// The stored check is wrong.
    Check = 10,
    /// A required field is missing, or is to be removed.
    Missing = 11,
    /// Too few records lent, the output or the buffer for a payload too small, a Tiny length above
    /// 255, or an ONIE length above 2,048.
    NoRoom = 12,
    /// No entry of that number, or a field's parts not inside the lent values.
    NoEntry = 13,
    /// The code is not named in this edition.
    NotNamed = 14,
    /// No pool, or no such string.
    NoString = 15,
    /// The format is not 1 to 4, or not one that the edition has, or not 3 for a string, or not 4
    /// for a vendor block.
    Format = 16,
    /// No vendor extension holds a piece of a payload.
    NoPayload = 17,
    /// The payload is not exactly as long as its parts, or in writing a serial above 255 bytes, a
    /// piece above 250, or pieces that do not sum to the payload.
    PayloadLength = 18,
    /// The payload's check is wrong.
    PayloadCheck = 19,
    /// The block has another version, or not nine bytes.
    Block = 20,
    /// The head or the contents of a room file are wrong, it is not of the form told, or it does not
    /// end with its last body.
    Contents = 21,
    /// No board of that number.
    NoBoard = 22,
    /// A board of that number is already there.
    BoardThere = 23,
}

impl Reason {
    /// The refusal for this reason at a place, or at a field's number in a write.
    pub(crate) fn at(self, place: usize) -> Refusal {
        Refusal {
            number: self as u32,
            place: place as u64,
        }
    }
}
